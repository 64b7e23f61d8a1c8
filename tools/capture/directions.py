"""One direction of a TCP connection: its octets in the order of their sequence numbers, and what of them is missing."""
import heapq
from bisect import bisect_right

from .sums import Sums

SPACE = 2 ** 32
# How many octets wait for one that is missing, before it counts as lost.
MOST_WAITING = 16_777_216
# A direction that forgets what passed keeps what isn't acknowledged, up to so many octets, since it may be sent again; and of what is,
# the last octets and segments, since an acknowledgement may be lost on its way.
IN_FLIGHT, SPARE, SPARE_SEGMENTS = 1_048_576, 65_536, 512
# A segment of one octet that comes so many seconds after its octet was acknowledged is a keepalive, whose octet may be any.
QUIET = 1.0
# Another segment of one octet is data if it has two of three signs: its sender pushed it (PSH), it came within that time after another
# segment of the stream, and the octet before or after it came alone, too. If its octet had been acknowledged, it would need more.
SIGNS, KNOWN = 2, -9
# How many frames with urgent data are remembered of a direction.
MOST_URGENT = 4_096
# How far ahead of the octets that passed the number of an empty segment may be.
NEAR = 16_777_216


class Piece:
    """Octets of one direction that passed together: the frame and the time at which they did, and their place in the direction."""

    __slots__ = ("frame", "time", "start", "octets")

    def __init__(self, frame, time, start, octets):
        self.frame, self.time, self.start, self.octets = frame, time, start, octets


def distance(first, second):
    """How far one sequence number lies ahead of another; negative if it lies before it."""
    return (second - first + SPACE // 2) % SPACE - SPACE // 2


class Chunk:
    """Octets of a segment that have not passed: their place in the direction, and what the segment acknowledges. Of a segment of one
    octet also its signs of being data; of a damaged frame since when its octets are known to be acknowledged."""

    __slots__ = ("start", "octets", "acknowledged", "frame", "time", "signs", "since")

    def __init__(self, start, segment, octets, signs):
        self.start, self.octets, self.acknowledged = start, octets, segment.acknowledged
        self.frame, self.time, self.signs, self.since = segment.frame, segment.time, signs, None

    def __lt__(self, other):
        return (self.start, self.frame) < (other.start, other.frame)

    @property
    def end(self):
        """The place after the last octet."""
        return self.start + len(self.octets)


class Direction:
    """One direction. Places count octets from the first one; `next` is the sequence number of the place `count`, None if not known."""

    def __init__(self):
        self.next, self.count, self.waiting, self.held = None, 0, [], 0
        # Whether any segment and the first one (SYN) are there.
        self.is_here = self.has_first = False
        # Whether octets before the first ones are acknowledged.
        self.has_more = False
        # Where the direction ends (FIN), how far it was sent, the frame that first told of octets that have not passed, and the first that
        # has octets after the end.
        self.last, self.sent, self.beyond, self.after = None, 0, None, None
        # How far the other end acknowledged it, and when it did last.
        self.heard, self.heard_at = 0, None
        # What passed, with the places at which it begins, as far as it is kept; the place before which octets were forgotten that nobody
        # had acknowledged; and the first place at which octets were sent again as others, with both frames.
        self.passed, self.starts, self.forgotten, self.doubt = [], [], 0, None
        # The frames of octets that may be those of keepalives, by their places; and if the last octet came alone, the signs of its segment.
        self.alone, self.signs = {}, None
        # The checksums, as far as they are read; and what damaged frames have that wait for a right copy: until a while after their octets
        # were acknowledged, or if there is time to the end, when none will come. `now` is the time, if there are any.
        self.sums, self.damaged, self.is_patient, self.is_final, self.now = Sums(), [], False, False, None
        # The frames with urgent data.
        self.urgent = set()
        # The frames and times at which it was ended or reset, and how many octets of a frame were captured, if not all.
        self.ended = self.reset = self.cut = None

    def place(self, number):
        """The place of a sequence number."""
        return self.count + distance(self.next, number)

    def begin(self, segment):
        """Takes the first segment of the connection."""
        self.is_here = self.has_first = True
        self.next = (segment.sequence + 1) % SPACE

    def presume(self, sent, heard, is_begun):
        """Takes as the number of the first octet the lowest that is sent. If the other direction is here from its beginning, that may be
        one that is only acknowledged; if it isn't, octets before the first may have passed before the capture."""
        numbers = sent + heard if is_begun else sent or heard
        if numbers:
            self.next = min(numbers, key=lambda number: distance(numbers[0], number))
        self.has_more = any(distance(number, self.next) > 0 for number in heard)

    def note(self, segment):
        """Notes what a segment says besides its octets."""
        self.is_here = True
        if segment.is_reset:
            self.reset = self.reset or (segment.frame, segment.time)
        if self.next is None and (segment.octets or segment.is_last):
            self.next = segment.sequence
        if not segment.octets and segment.sequence != self.next:
            self.note_number(segment)
        if segment.is_last:
            self.ended = self.ended or (segment.frame, segment.time)
            self.end_at(self.place(segment.sequence + segment.is_first + len(segment.octets) + segment.missing))
        if segment.is_urgent and segment.octets and len(self.urgent) < MOST_URGENT:
            self.urgent.add(segment.frame)
        if segment.missing:
            self.cut = self.cut or segment.captured
            self.hear(segment.sequence + len(segment.octets) + segment.missing, segment.frame)

    def end_at(self, place):
        """Notes where the direction ends. (An end before what passed is one of another connection.)"""
        if place < self.count:
            return
        self.last = place
        if any(chunk.end > place for chunk in self.waiting):
            for chunk in self.waiting:
                chunk.octets = self.up_to_end(chunk.start, chunk.octets, chunk.frame)
            self.waiting = [chunk for chunk in self.waiting if chunk.octets]
            self.held = sum(len(chunk.octets) for chunk in self.waiting + self.damaged)
            heapq.heapify(self.waiting)

    def up_to_end(self, place, octets, frame):
        """Octets without those after the end, which nobody receives. One alone in the place of FIN is that of a keepalive."""
        if self.last is None or place + len(octets) <= self.last:
            return octets
        if self.after is None and not (place == self.last and len(octets) == 1):
            self.after = frame
        return octets[:max(self.last - place, 0)]

    def note_number(self, segment):
        """Notes that what comes before an empty segment was sent."""
        if self.next is not None and not (segment.is_first or segment.is_reset) and self.place(segment.sequence) - self.count < NEAR:
            self.hear(segment.sequence, segment.frame)

    def acknowledge(self, number, frame, time):
        """Notes that the other end has received the octets up to a sequence number; its place."""
        place = self.hear(number, frame)
        if place > self.heard:
            self.heard, self.heard_at = place, time
        return place

    def hear(self, number, frame):
        """Notes that octets up to a sequence number were sent; its place."""
        if self.next is None:
            self.next = number % SPACE
        sent = self.place(number)
        if sent > self.sent:
            self.sent = sent
            if self.beyond is None and sent > self.count:
                self.beyond = frame
        return sent

    def keep(self, segment):
        """Keeps the octets of a segment until they pass, unless they have."""
        place = self.place((segment.sequence + segment.is_first) % SPACE)
        octets = self.up_to_end(place, segment.octets, segment.frame)
        if place < self.count:
            self.compare(place, octets, segment.frame)
        if octets and place + len(octets) > self.count and not self.is_keepalive(place, segment):
            heapq.heappush(self.waiting, Chunk(place, segment, octets, self.signs_of(segment)))
            self.held += len(octets)

    def put_aside(self, segment):
        """Keeps the octets of a damaged frame. They pass only if no right copy of them comes."""
        self.is_here = True
        if self.next is None:
            self.next = segment.sequence
        chunk = Chunk(self.place(segment.sequence), segment, segment.octets, None)
        if chunk.end > self.count:
            heapq.heappush(self.damaged, chunk)
            self.held += len(chunk.octets)

    def waits(self):
        """Whether octets wait, of which some may pass."""
        return bool(self.waiting or self.damaged)

    def signs_of(self, segment):
        """Of a segment of one octet, how many signs of being data it has by itself; of any other one None."""
        if len(segment.octets) != 1 or segment.is_first:
            return None
        return KNOWN if self.place(segment.sequence) < self.sent else segment.is_pushed + segment.is_soon

    def is_keepalive(self, place, segment):
        """Whether a segment sends the last octet again, though it was acknowledged, so that it may be another octet."""
        return len(segment.octets) == 1 and place + 1 == self.heard and segment.time - self.heard_at > QUIET

    def compare(self, place, octets, frame):
        """Compares octets that are sent again with those that passed. A keepalive sends the last octet again, as any other; nothing else
        sends the last octet of a longer piece alone, and its copies may be captured late."""
        last = min(place + len(octets), self.count)
        if place >= last or len(octets) == 1 and (last == self.count <= self.heard or place < 0 and self.has_first):
            return
        if place < self.forgotten:
            self.doubt = self.doubt or (self.count, None, frame)
            return
        at = max(bisect_right(self.starts, place) - 1, 0)
        while at < len(self.passed) and self.starts[at] < last:
            piece = self.passed[at]
            first, end = max(place, piece.start), min(last, piece.start + len(piece.octets))
            before, again = piece.octets[first - piece.start:end - piece.start], octets[first - place:end - place]
            is_alive = len(octets) == 1 < len(piece.octets) and end == piece.start + len(piece.octets)
            if before != again and not is_alive:
                first += next(at for at, (one, other) in enumerate(zip(before, again)) if one != other)
                if self.doubt is None or first < self.doubt[0]:
                    self.doubt = first, piece.frame, frame
                return
            at += 1
        if self.alone and len(octets) > 1:
            for each in range(place, last):
                self.alone.pop(each, None)

    def head(self):
        """The octets that wait and are the next ones, or None."""
        while self.waiting and self.waiting[0].start <= self.count:
            chunk = self.waiting[0]
            if chunk.end > self.count:
                return chunk
            self.held -= len(heapq.heappop(self.waiting).octets)
            self.compare(chunk.start, chunk.octets, chunk.frame)
        return self.damaged_head() if self.damaged else None

    def damaged_head(self):
        """The next octets, if only a damaged frame has them, and a right copy won't come; or None."""
        while self.damaged and self.damaged[0].end <= self.count:
            self.held -= len(heapq.heappop(self.damaged).octets)
        chunk = self.damaged_next()
        if chunk and chunk.since is None and self.heard >= chunk.end:
            chunk.since = self.now
        is_late = chunk and not self.is_patient and chunk.since is not None and self.now - chunk.since > QUIET
        return chunk if chunk and (self.is_final or is_late) else None

    def damaged_next(self):
        """The octets of a damaged frame that are the next ones, or None."""
        chunk = self.damaged[0] if self.damaged else None
        is_next = chunk and chunk.start <= self.count < chunk.end and (self.last is None or chunk.end <= self.last)
        return chunk if is_next else None

    def let_pass(self):
        """The octets of the head that had not passed, as a piece; they have now."""
        chunk = self.head()
        if self.damaged and chunk is self.damaged[0]:
            heapq.heappop(self.damaged)
        else:
            heapq.heappop(self.waiting)
            self.compare(chunk.start, chunk.octets, chunk.frame)
        self.held -= len(chunk.octets)
        octets = chunk.octets[self.count - chunk.start:]
        piece = Piece(chunk.frame, chunk.time, self.count, octets)
        self.go_on(piece, chunk.signs)
        return piece

    def go_on(self, piece, signs=None):
        """Takes octets that have passed; if they are the one octet of a segment, with its signs of being data."""
        if signs is not None:
            self.look_at_one(piece, signs)
        self.signs = signs
        self.passed.append(piece)
        self.starts.append(piece.start)
        self.count += len(piece.octets)
        self.next = (self.next + len(piece.octets)) % SPACE
        if self.beyond is not None and self.count >= self.sent:
            self.beyond = None

    def look_at_one(self, piece, signs):
        """Notes whether an octet that came alone may be that of a keepalive, in whose place the capture lacks another one; and the octet
        before it, if that came alone, isn't."""
        if self.signs is not None:
            if self.signs + 1 >= SIGNS:
                self.alone.pop(piece.start - 1, None)
            signs += 1
        # (An octet that is forgotten stays doubtful, so any later ones don't matter.)
        if signs < SIGNS and not (self.alone and next(iter(self.alone)) < self.starts[0]):
            self.alone[piece.start] = piece.frame

    def forget(self):
        """Forgets what passed and won't be sent again."""
        heard = min(self.heard, self.count)
        limit = max(heard - SPARE, self.count - IN_FLIGHT)
        acknowledged = bisect_right(self.starts, heard) - 1
        going = max(bisect_right(self.starts, limit) - 1, acknowledged - SPARE_SEGMENTS)
        if going > SPARE_SEGMENTS or going > 0 and self.starts[going] - self.starts[0] > SPARE:
            del self.passed[:going], self.starts[:going]
            for each in [each for each in self.alone if each < self.starts[0]][1:]:
                del self.alone[each]
            if self.starts[0] > heard:
                self.forgotten = self.starts[0]

    def needed(self, number):
        """How many octets have to pass before what acknowledges this sequence number. (The end of a direction has a number, too.)"""
        if self.next is None:
            self.next = number
        place = self.place(number)
        return place - (self.last is not None and place == self.last + 1)

    def has_passed(self, number):
        """Whether everything before a sequence number has passed; of None nothing is known."""
        return number is None or self.needed(number) <= self.count

    def lost(self):
        """How many octets are missing after those that have passed: before those that wait, or else before what was sent. One that is
        acknowledged and nothing after it is the end of the direction."""
        if self.head() is not None:
            return 0
        if self.waiting:
            return self.waiting[0].start - self.count
        sent = self.sent if self.last is None else min(self.sent, self.last)
        is_end = self.last is None and sent == self.count + 1 and self.cut is None
        return 0 if is_end else max(sent - self.count, 0)

    def first_after(self):
        """The first frame that shows that octets are missing."""
        return min([chunk.frame for chunk in self.waiting] + ([self.beyond] if self.beyond is not None else []))
