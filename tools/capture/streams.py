"""Joins TCP segments to the octets of each direction, in the order in which they passed, and finds the streams with TPKT in them.

An octet has passed when all octets before it have passed, and when everything has that its segment acknowledges. So if segments are
out of order the later octets wait, also those of the other direction that the capture has later, and an octet that comes twice counts
once. Octets that the capture doesn't have leave a gap: then that direction ends before it, and the other one before what acknowledges
any of them.
"""
from .directions import MOST_WAITING, NEAR, QUIET, Direction, Piece

SIDES = ("left", "right")
CONNECT_REQUEST, CONNECT_CONFIRM, DISCONNECT_REQUEST, ERROR = 0xE0, 0xD0, 0x80, 0x70
# The codes of X.224 of all classes, without their low half (section 13.7 and others).
CODES = (0x10, 0x20, 0x50, 0x60, 0x70, 0x80, 0xC0, 0xD0, 0xE0, 0xF0)
# The parameter of a CR that names alternative classes (X.224 section 13.3.4).
ALTERNATIVES = 0xC7
# How many segments are looked at together, if those that begin the connection aren't among them.
EARLY = 32
# How many octets of a direction are looked at to see how it begins: as many as the longest CR has.
FRONT = 260


class Gap:
    """Octets that the capture doesn't have: their side, how many, the frame that first shows it, and how many octets of a frame were
    captured, if that is why."""

    def __init__(self, side, octets, frame, cut):
        self.side, self.octets, self.frame, self.cut = side, octets, frame, cut

    def many(self):
        """How many octets, and why."""
        why = f" (frames were cut at {self.cut} octets)" if self.cut else ""
        return f"{self.octets:,} octet{'s' * (self.octets != 1)}{why}"

    def __str__(self):
        return f"frame {self.frame}, where {self.side} lost {self.many()}"


class Doubt(Gap):
    """Octets that were sent again as others, so that it isn't known which of them arrived: their side, the frame that had them first,
    and that which had them again. The first frame is None if its octets were forgotten, though nobody had acknowledged them."""

    def __init__(self, side, frame, again):
        super().__init__(side, None, frame or again, None)
        self.again, self.is_kept = again, frame is not None

    def __str__(self):
        if not self.is_kept:
            return f"frame {self.again}, in which {self.side} sent octets again that are kept no longer"
        return f"frame {self.frame}, whose octets {self.side} sent again as others in frame {self.again}"


class Damage(Gap):
    """A frame that was damaged on its way, so that its octets aren't those that arrived: its side, and the frame; and how many checksums
    of that side are wrong, if all are."""

    def __init__(self, side, frame, sums):
        super().__init__(side, None, frame, None)
        self.wrong = sums.wrong if sums.are_all_wrong() else None

    def __str__(self):
        if self.wrong:
            return f"frame {self.frame}, since all {self.wrong:,} TCP checksums of {self.side} are wrong, as in a capture that was " \
                   "changed (--ignore-checksums judges it all the same)"
        return f"frame {self.frame}, which was damaged on its way from {self.side} (its TCP checksum is wrong)"


class Alone(Gap):
    """An octet that may be that of a keepalive, and no part of what was sent: its side, and the frame."""

    def __init__(self, side, frame):
        super().__init__(side, None, frame, None)

    def __str__(self):
        return f"frame {self.frame}, whose one octet may be that of a keepalive of {self.side}"


class Urgent(Gap):
    """Octets of a segment with urgent data, of which one may be no part of what is received (RFC 6093): their side, and the frame."""

    def __init__(self, side, frame):
        super().__init__(side, None, frame, None)

    def __str__(self):
        return f"frame {self.frame}, in which {self.side} sent urgent data of TCP"


class After(Gap):
    """Octets after the end of a direction: its side, and the frame."""

    def __init__(self, side, frame):
        super().__init__(side, None, frame, None)

    def __str__(self):
        return f"frame {self.frame}, in which {self.side} sent octets after its end (FIN)"


class Another(Gap):
    """A session on the transport connection of an earlier one, which X.225 allows and `osi judge` doesn't read: its side, and the frame."""

    said = "opens another session on the same transport connection"

    def __init__(self, side, frame, octet):
        super().__init__(side, None, frame, None)
        self.octet = octet

    def __str__(self):
        place = f"octet {self.octet} of {self.side}" if self.frame is None else f"frame {self.frame}"
        return f"{place}, with which {self.side} {self.said}"


class Collision(Another):
    """A release that a side asks for, although the other one does, which X.225 allows in duplex and `osi judge` doesn't follow: its side,
    and the frame."""

    said = "asks for the release (FN), as the other side does"


class Order(Gap):
    """Octets of both sides that acknowledge each other, so that some were sent again, and the capture lacks their first copy: their side,
    the frame up to which the order is known, and that which had them again."""

    def __init__(self, side, frame, again):
        super().__init__(side, None, frame, None)
        self.again = again

    def __str__(self):
        return f"frame {self.frame}, which acknowledges octets that are here only as {self.side} sent them again, in frame {self.again}"


class Stream:
    """A TCP connection: `pieces` in their order, each with the end that sent it. The first segments are looked at together, since those
    that begin the connection (SYN) may be late."""

    # Whether checksums tell which frames were damaged.
    has_sums = True

    def __init__(self, number, ends):
        self.number, self.ends, self.pieces, self.opener, self.requester = number, ends, [], None, None
        self.directions = {end: Direction() for end in ends}
        # `is_fast`: octets passed with the first segment of the opener (TCP Fast Open).
        self.is_over = self.is_other = self.is_crossed = self.is_fast = False
        # The end whose octets passed first, and the ends that ask for Multipath TCP.
        self.first, self.multipath = None, set()
        # The frame and time of the last segment, and of the first one.
        self.last, self.since, self.early = None, None, []

    def take(self, segment):
        """Takes the next segment of the capture."""
        own, far = self.directions.get(segment.source), self.directions.get(segment.target)
        if own is None or far is None or own is far:
            return
        if len(segment.octets) == 1:
            segment.is_soon = self.last is not None and abs(segment.time - self.last[1]) < QUIET
        self.last = segment.frame, segment.time
        self.since = self.since or self.last
        if self.early is None:
            self.go_on(segment, own, far)
            return
        self.early.append(segment)
        if segment.is_first:
            self.multipath |= {segment.source} if segment.is_multipath else set()
            self.note_opener(segment.target if segment.is_answer else segment.source)
            self.is_fast = self.is_fast or bool(segment.octets)
            own.begin(segment)
            far.sums.take_most(segment)
        is_refused = segment.is_reset and self.opener not in (None, segment.source)
        if is_refused or len(self.early) >= EARLY or (own.has_first and far.has_first):
            self.settle()

    def note_opener(self, end):
        """Notes who opened the connection; if both did at once, it is known only by the CR who called."""
        self.is_crossed = self.is_crossed or self.opener not in (None, end)
        self.opener = None if self.is_crossed else end

    def settle(self):
        """Finds where directions begin whose first segment isn't there, and takes the first segments."""
        early, self.early = self.early or [], None
        for end, far in (self.ends, self.ends[::-1]):
            if not self.directions[end].has_first:
                sent = [segment.sequence for segment in early if segment.source == end and segment.octets]
                heard = [segment.acknowledged for segment in early if segment.source == far and segment.acknowledged is not None]
                self.directions[end].presume(sent, heard, self.directions[far].has_first)
        for segment in early:
            own = self.directions[segment.source]
            # What an end sends of the connection before this one (on the same ports) is not of this one.
            if segment.is_first or not own.has_first or 0 <= own.place(segment.sequence) + 1 < NEAR:
                self.go_on(segment, own, self.directions[segment.target])

    def go_on(self, segment, own, far):
        """Takes a segment, now that it is known where both directions begin."""
        # What acknowledges octets before the first one is of another connection (RFC 5961 section 5).
        if (segment.sum is not None or own.sums.hurt) and self.is_damaged(segment, own):
            own.put_aside(segment)
            if far.waits():
                self.pass_on()
            return
        if segment.acknowledged is not None and far.acknowledge(segment.acknowledged, segment.frame, segment.time) < 0 and far.has_first:
            return
        own.note(segment)
        if self.is_over or self.is_other:
            self.look_again(segment, own)
            return
        # A reset may have a text, which is no part of what was sent (RFC 1122, 4.2.2.12).
        if segment.octets and not segment.is_reset:
            self.take_octets(segment, own, far)
        if own.waiting or far.waiting or own.damaged or far.damaged:
            own.now = far.now = segment.time
            self.pass_on()
        if own.held > MOST_WAITING:
            self.stop()

    @staticmethod
    def is_damaged(segment, own):
        """Whether a segment with octets was damaged on its way. (One that ends the connection is taken as it is.)"""
        if segment.sum is not None:
            own.sums.note(segment.frame, segment.sum, len(segment.octets))
        return segment.octets and own.sums.is_certain(segment.frame) and not (segment.is_first or segment.is_last or segment.is_reset)

    def look_again(self, segment, own):
        """Compares what is sent again with what passed, of a stream that is over."""
        if self.is_over and segment.octets and not segment.is_reset:
            own.compare(own.place(segment.sequence), segment.octets, segment.frame)
            self.leave_doubt()

    def take_octets(self, segment, own, far):
        """Lets the octets of a segment pass if they are the next ones and nothing is missing; else keeps them."""
        if own.waiting or segment.sequence != own.next or segment.is_first or not far.has_passed(segment.acknowledged) or \
                len(segment.octets) == 1 or own.last is not None:
            own.keep(segment)
            return
        piece = Piece(segment.frame, segment.time, own.count, segment.octets)
        self.note_piece(segment.source, piece)
        own.go_on(piece)

    def note_piece(self, end, piece):
        """Notes a piece that passes."""
        self.first = self.first or end
        self.pieces.append((end, piece))

    def pass_on(self):
        """Lets octets pass as long as there are some that may."""
        first, second = self.ends
        while self.may_pass(first, second) or self.may_pass(second, first):
            pass

    def may_pass(self, end, far):
        """Lets the next octets of an end pass, if they are there and everything has passed that they acknowledge; whether they did."""
        direction = self.directions[end]
        chunk = direction.head() if direction.waits() else None
        if chunk is None or not self.directions[far].has_passed(chunk.acknowledged):
            return False
        self.note_piece(end, direction.let_pass())
        return True

    def stop(self):
        """Nothing more passes, whatever comes."""
        if self.early is not None:
            self.settle()
        self.is_over = True
        self.leave_doubt()

    def finish(self):
        """After the last segment: if only one direction is here, it passes without the octets that it acknowledges."""
        if self.early is not None:
            self.settle()
        for direction in self.directions.values():
            direction.is_final = True
        if not self.is_over:
            self.pass_on()
        for end in self.ends if self.is_alone() else ():
            while self.directions[end].head():
                self.note_piece(end, self.directions[end].let_pass())
        self.stop()

    def forget(self):
        """Forgets what passed and won't be sent again."""
        for direction in self.directions.values():
            direction.forget()

    def leave_doubt(self):
        """Leaves out what passed from the first octet on that was sent again as another one."""
        doubts = {end: direction.doubt[0] for end, direction in self.directions.items() if direction.doubt}
        for place, (end, piece) in enumerate(self.pieces if doubts else ()):
            if piece.start + len(piece.octets) > doubts.get(end, piece.start + len(piece.octets)):
                kept = piece.octets[:max(doubts[end] - piece.start, 0)]
                self.pieces[place:] = [(end, Piece(piece.frame, piece.time, piece.start, kept))] if kept else []
                return

    def doubt(self):
        """The first octets that were sent again as others, or None."""
        found = [Doubt(side, *self.directions[end].doubt[1:]) for side, end in self.by_end().items() if self.directions[end].doubt]
        return min(found, key=lambda doubt: doubt.frame, default=None)

    def octets(self, end):
        """What an end sent, as far as it passed."""
        return b"".join(piece.octets for source, piece in self.pieces if source == end)

    def front(self, end):
        """The first octets that an end sent: some at least, if it sent any."""
        found = b""
        for source, piece in self.pieces:
            if source == end:
                found += piece.octets
                if len(found) >= FRONT:
                    break
        return found

    def caller(self):
        """The end that opened the connection, or else the one whose first packet is a CR, or None."""
        if self.opener is None and self.requester is None:
            self.requester = next((end for end in self.ends if is_connect_request(self.front(end))), None)
        return self.opener or self.requester

    def left(self):
        """The end that is left: the caller. If it isn't known, the one with the higher port."""
        return self.caller() or max(self.ends, key=lambda end: end[1])

    def by_end(self):
        """Both sides, each with its end."""
        left = self.left()
        return {SIDES[0]: left, SIDES[1]: next(end for end in self.ends if end != left)}

    def ports(self):
        return {port for _, port in self.ends}

    def gap(self):
        """The first gap, or None: octets that are lost, or of which it isn't known what they were."""
        found = [each for each in (self.doubt(), self.order()) if each]
        for side, end in self.by_end().items():
            if self.directions[end].after:
                found.append(After(side, self.directions[end].after))
            lost = self.lost(end) if self.directions[end].is_here else 0
            damaged = self.directions[end].damaged_next() if lost else None
            if damaged:
                found.append(Damage(side, damaged.frame, self.directions[end].sums))
            elif lost:
                found.append(Gap(side, lost, self.directions[end].first_after(), self.directions[end].cut))
        return min(found, key=lambda gap: gap.frame, default=None)

    def alone(self):
        """The frames of octets that may be those of keepalives."""
        return {frame for direction in self.directions.values() for frame in direction.alone.values()}

    def unsure(self, source, piece):
        """Why a piece of an end isn't surely what was sent; or None."""
        side, direction = SIDES[source != self.left()], self.directions[source]
        if direction.sums.is_hurt(piece.frame):
            return Damage(side, piece.frame, direction.sums)
        if piece.frame in direction.urgent:
            return Urgent(side, piece.frame)
        return Alone(side, piece.frame) if piece.start in direction.alone else None

    def lost(self, end):
        """How many octets of an end are missing: before others of its own, or before what the other end sent when it had received them."""
        direction, far = self.directions[end], self.directions[self.ends[end == self.ends[0]]]
        chunk = None if direction.lost() or direction.head() else far.head()
        return direction.needed(chunk.acknowledged) - direction.count if chunk else direction.lost()

    def order(self):
        """Where the next octets of both sides acknowledge each other, or None."""
        heads = [(direction.head(), side) for side, direction in ((side, self.directions[end]) for side, end in self.by_end().items())]
        if any(chunk is None for chunk, _ in heads):
            return None
        (first, _), (again, side) = sorted(heads, key=lambda head: head[0].frame)
        return Order(side, first.frame, again.frame)

    def is_stuck(self):
        """Whether octets are missing, or some wait for others."""
        return any(map(self.lost, self.ends)) or any(direction.waiting for direction in self.directions.values())

    def has_waiting_packets(self):
        """Whether packets wait for octets that are missing."""
        return any(is_packet(chunk.octets) for direction in self.directions.values() for chunk in direction.waiting)

    def is_alone(self):
        """Whether only one direction is here: of the other one there is no segment."""
        return not all(direction.is_here for direction in self.directions.values())

    def is_multipath(self):
        """Whether octets may pass in other streams, too."""
        return len(self.multipath) == 2

    def is_whole(self):
        """Whether the stream is here from its beginning."""
        caller = self.caller()
        return caller is not None and all(self.begins(end, self.front(end), self.front(caller)) for end in self.ends)

    def begins(self, end, octets, request):
        """Whether a direction is here from its first packet on, as far as its first octets say; the caller's first ones are `request`. If
        the first segments aren't here, or had octets, the first packets may be among what isn't here."""
        caller = self.left()
        if not self.directions[caller].has_first and self.first not in (None, caller):
            return False
        if self.directions[end].has_first:
            return True
        if self.opener is None and any(direction.has_more for direction in self.directions.values()):
            return False
        if end == caller:
            return may_be_request(octets)
        return may_be_packet(octets) if self.opener is not None and not self.is_fast else may_be_answer(octets, request)

    def by_side(self):
        """The pieces, each with its side: left is the caller."""
        left = self.left()
        for source, piece in self.pieces:
            yield SIDES[source != left], piece


def is_packet(octets):
    """Whether octets begin with a header of TPKT."""
    return len(octets) >= 4 and octets[0] == 3 and int.from_bytes(octets[2:4], "big") >= 7


def is_connect_request(octets, code=CONNECT_REQUEST):
    """Whether octets begin with a CR in a TPKT packet, or with another unit that has this code."""
    return len(octets) > 5 and is_packet(octets) and octets[5] & 0xF0 == code


def may_be_packet(octets):
    """Whether a packet may begin with octets, which may be few."""
    return is_packet(octets) if len(octets) > 3 else b"\3".startswith(octets[:1])


def may_be_answer(octets, request):
    """Whether what answers the first CR of a TCP connection may begin with octets. A CC of class 2 may answer a later CR; and if the CR
    offers class 2, a DR or ER may be of an earlier connection."""
    if len(octets) < 6 or not is_packet(octets):
        return may_be_packet(octets)
    if is_connect_confirm(octets):
        return len(octets) < 11 or octets[10] & 0xF0 == 0
    is_refusal = any(is_connect_request(octets, code) for code in (DISCONNECT_REQUEST, ERROR))
    return (is_refusal or not is_known(octets)) and offers_class_0_alone(request)


def offers_class_0_alone(request):
    """Whether a CR offers no class but 0; `request` begins with it."""
    end = 5 + request[4] if len(request) > 10 else 11
    if len(request) < end or request[10] & 0xF0:
        return False
    at = 11
    while at + 1 < end and request[at] != ALTERNATIVES:
        at += 2 + request[at + 1]
    return not any(request[at + 2:end][:request[at + 1]]) if at + 1 < end else True


def is_known(octets):
    """Whether octets begin with a packet whose transport unit has a code of X.224."""
    return len(octets) > 5 and is_packet(octets) and octets[5] & 0xF0 in CODES


def is_connect_confirm(octets):
    """Whether octets begin with a CC in a TPKT packet."""
    return is_connect_request(octets, CONNECT_CONFIRM)


class Joining:
    """The streams of a capture by number. Octets of streams that carry no TPKT aren't kept."""

    def __init__(self, port):
        self.port, self.streams, self.last = port, {}, None

    def take(self, segment):
        """Takes the next segment of the capture; its stream."""
        stream = self.streams.get(segment.stream)
        if stream is None:
            ends = segment.source, segment.target
            stream = self.streams[segment.stream] = Stream(segment.stream, ends)
            stream.is_asked = self.port in (ends[0][1], ends[1][1])
        stream.take(segment)
        if not stream.is_asked and stream.pieces and not stream.is_other:
            self.look(stream)
        self.last = segment.time
        return stream

    @staticmethod
    def look(stream):
        """Looks at the first octets of a stream at another port: it is kept if they may be a CR."""
        fronts = [stream.front(end) for end in stream.ends]
        if any(map(is_connect_request, fronts)):
            stream.is_asked = True
        elif all(front and not may_be_request(front) for front in fronts) or max(map(len, fronts)) > 6:
            stream.is_other = True
            stream.pieces.clear()
            stream.directions = {end: Direction() for end in stream.ends}

    def finish(self):
        """Ends all streams; these streams."""
        for stream in self.streams.values():
            stream.finish()
        return self.streams


def may_be_request(octets):
    """Whether a CR in a TPKT packet may begin with octets."""
    return is_connect_request(octets) if len(octets) > 5 else may_be_packet(octets)


def joined(segments, port=102):
    """The streams of a capture by number."""
    joining = Joining(port)
    for segment in segments:
        joining.take(segment)
    joining.finish()
    for stream in joining.streams.values():
        stream.until = joining.last
    return joining.streams


def packets(octets):
    """The TPKT packets of octets, and at last the octets that are left: for each its place and its length."""
    start = 0
    while is_packet(octets[start:start + 4]):
        length = int.from_bytes(octets[start + 2:start + 4], "big")
        if start + length > len(octets):
            break
        yield start, length
        start += length
    if start < len(octets):
        yield start, len(octets) - start
