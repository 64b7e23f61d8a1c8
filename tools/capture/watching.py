"""Watches connections as they pass, and says as soon as a side broke the session protocol.

    osi-capture watch -i eth0        a live tap: dumpcap captures, which needs the right to do so
    osi-capture watch -r run.pcap    a capture, read as if it passed now; - is standard input

A break stays a break whatever passes later, so it is printed as soon as the other end has acknowledged its octets. That both sides kept
the protocol is printed when TCP has closed the stream, when it was idle for long, or at the end, and then also how it ended. There are
two ways:

    --by library    (if the package osi_session is there) each octet is fed once to a judge of the library, which judges every connection
                    of a stream; a break is printed with the segment that shows it, and the stream is watched on. The memory for each
                    connection has a bound.
    --by program    (else) an `osi judge --live` reads each stream, and says a break as soon as it is certain. That is for 64 streams
                    at once. Any other is judged when it is over, up to 8,000,000 octets, which are kept until then.

A stream is judged up to the first octets that the capture lost. It isn't judged if it begins in the middle, or if it is one of another
protocol. A stream is forgotten when it is over, when nothing passed for --idle seconds, or, of more than 10,000, if it was idle longest:
a watch may run for months. An interrupt ends it. To watch what another program captures:

    tcpdump -i eth0 -U -w - 'tcp port 102' | osi-capture watch -r -

The status is 0 if every stream was judged to its end and both sides of each kept the protocol, 1 if a side of any broke it, 3 if nobody
did but not everything could be judged, and 2 if nothing was.
"""
import json
import os
import signal
import sys
import time
from collections import OrderedDict

from ladders import script, transcript, verdicts

from . import asking, judging, kinds, listing, live, outcome, processes, reports, streams
from .tshark import BadInput

BINDINGS = os.path.join(script.TOP, "bindings", "python", "src")
if os.path.isdir(BINDINGS):
    sys.path.append(BINDINGS)
try:
    import osi_session
except ImportError:
    osi_session = None

LONGEST = 8_000_000
# How many octets wait for a missing segment before it counts as lost, and for how many seconds.
MOST_WAITING, PATIENCE = 262_144, 30
# For how many seconds after a reset of TCP octets may be captured that passed before it.
MOMENT = 1.0
# How many octets of a side show which protocol it is; how many streams that are over are remembered, to leave out what is late; how
# many streams are watched at once.
ENOUGH, REMEMBERED, MOST_STREAMS = 4_096, 10_000, 10_000
# How many pieces are remembered of a stream that aren't surely what was sent.
MOST_UNSURE = 1_000
# For how many seconds a stream may be idle.
IDLE = 86_400


def one_judge():
    """The class of the library that judges every connection of a stream. (Before 0.2 it is called Watch, and has no text.)"""
    return getattr(osi_session, "Watch", None) or osi_session.Judge


class Watched:
    """A stream that is kept, and judged by a function when it is over; and how it ends."""

    is_live, is_new = False, True

    def __init__(self, stream):
        self.stream, self.octets, self.is_fresh, self.limit, self.why_not = stream, 0, False, None, None
        self.left, self.begin, self.follower, self.seen, self.missing = None, None, outcome.Follower(), 0, None
        self.key = None

    def take(self, segment):
        """Takes a segment."""
        self.stream.take(segment)
        self.key = segment.key
        self.octets += len(segment.octets)
        self.is_fresh = True
        if self.is_late(segment.time) or any(direction.doubt for direction in self.stream.directions.values()):
            self.stream.stop()
        self.look_for_limit()
        self.follow()

    def is_late(self, now):
        """Whether octets are missing for so long that they won't come."""
        self.missing = (self.missing or now) if self.stream.is_stuck() else None
        held = sum(direction.held for direction in self.stream.directions.values())
        return self.missing is not None and (held > MOST_WAITING or now - self.missing > PATIENCE)

    def look_for_limit(self):
        """Notes that the stream is judged no further, if so."""
        if self.stream.is_over and self.limit is None and self.stream.gap():
            self.limit = f"judged up to {self.stream.gap()}"
        elif self.octets > LONGEST and self.limit is None:
            self.limit = f"not judged further: it has more than {LONGEST:,} octets"

    def follow(self):
        """Takes what has passed."""
        for source, piece in self.stream.pieces[self.seen:]:
            if self.left is None:
                self.left, self.begin = self.stream.left(), piece.time
            self.follower.take(streams.SIDES[source != self.left], piece)
        self.seen = len(self.stream.pieces)

    def news(self):
        """Lines on the stream that are certain, if it is watched on after them."""
        return []

    def is_over(self):
        """Whether nothing more will pass."""
        return self.is_reset() or self.is_closed() and not self.stream.is_stuck()

    def is_reset(self):
        """Whether TCP was reset, though octets that passed before may still be captured."""
        return any(each.reset for each in self.stream.directions.values())

    def is_closed(self):
        """Whether both directions were ended, though octets of them may still be missing."""
        return all(each.ended for each in self.stream.directions.values())

    def verdict(self, judge, is_end):
        """A line on the stream, and its status; None if nothing is certain yet."""
        if is_end:
            self.stream.finish()
            self.look_for_limit()
            self.follow()
        why = self.why_not or asking.why_not(self.stream)
        if why:
            return (f"not judged: {why}", None) if is_end or self.why_not else None
        if not (is_end or self.limit):
            return None
        if not self.stream.pieces:
            return "not judged: nothing passed", None
        try:
            found = judging.Judged(self.stream, judge)
        except transcript.BadInput as error:
            return f"not judged: {error}", None
        status = found.status()
        return self.line(found), judging.PARTLY if self.limit and status == judging.KEPT else status

    def line(self, found):
        """The line of a verdict."""
        unjudged = found.verdict.last["why"]
        if found.verdict.first:
            return reports.Line(at(*(found.place() or (None, None))) + found.sentence()).about(reports.first_of(found))
        said = f"not judged: {unjudged}" if unjudged else found.verdict.rows[-1]
        limit = found.limit or self.limit
        return f"{said}, {limit}" if limit else said

    def ended(self):
        """How the stream ended, in a line; or None."""
        found = outcome.known(self.stream, self.limit, self.follower.ended(), outcome.of_tcp(self.stream))
        return outcome.line(found, self.begin or self.stream.since[1]) if found else None


class Fed(Watched):
    """A stream of which each octet is fed to a judge of the library, and kept no longer. If a segment is missing, what passes waits
    until it comes."""

    def __init__(self, stream):
        super().__init__(stream)
        self.judge, self.heard, self.found, self.lines, self.statuses = None, set(), None, [], []
        # The ends of which it is known that their first packets are here.
        self.begun = set()
        # What is found of octets that nobody acknowledged yet: the side, the place after them, the status, the frame, the line, and how
        # many pieces had been fed by then.
        self.waiting = []
        # How many pieces were fed, and those that aren't surely what was sent, each with its number.
        self.fed, self.unsure = 0, []
        self.head, self.is_told = {side: [] for side in streams.SIDES}, False
        # Whether something was found that the judge doesn't follow, though X.225 allows it.
        self.has_unfollowed = False

    def look_for_limit(self):
        if self.stream.is_over and self.limit is None and self.stream.gap():
            self.limit = f"judged up to {self.stream.gap()}"

    def follow(self):
        for source, piece in self.stream.pieces:
            if self.left is None:
                self.left, self.begin, self.judge = self.stream.left(), piece.time, self.made()
            side = streams.SIDES[source != self.left]
            self.follower.take(side, piece)
            if sum(len(each.octets) for each in self.head[side]) < ENOUGH:
                self.head[side].append(piece)
            if not (self.found or self.is_told):
                self.look_at_octets(source, piece)
                self.feed(source, piece)
        self.stream.pieces.clear()
        self.stream.forget()

    def look_at_octets(self, source, piece):
        """Remembers octets that aren't surely what was sent: if a break depends on them, it isn't told."""
        self.fed += 1
        direction = self.stream.directions[source]
        if direction.sums.is_hurt(piece.frame) or piece.start in direction.alone or piece.frame in direction.urgent:
            self.unsure.append((self.fed, source, piece))
            if len(self.unsure) > MOST_UNSURE:
                self.unsure = [each for each in self.unsure if self.stream.unsure(*each[1:])][:MOST_UNSURE]

    def first_unsure(self, fed):
        """The first of so many pieces that isn't surely what was sent, and why; or None."""
        found = ((piece, self.stream.unsure(source, piece)) for place, source, piece in self.unsure if place <= fed)
        return next((each for each in found if each[1]), None)

    def limit_to(self, piece, why):
        """Judges the stream only up to a piece that isn't surely what was sent; not at all if nothing of its side is known then."""
        self.waiting = []
        if piece.start == 0:
            self.found = f"not judged: {asking.of_nothing(why)}", None
        else:
            self.limit = f"judged up to {why}"

    @staticmethod
    def made():
        """A judge of the stream."""
        return one_judge()()

    def by_side(self):
        """The first pieces of each side."""
        for side, pieces in self.head.items():
            for piece in pieces:
                yield side, piece

    def is_begun(self, source):
        """Whether a direction begins with its first octets, as far as they have passed."""
        if self.stream.is_multipath():
            self.found = f"not judged: {asking.MULTIPATH}", None
        elif source not in self.begun:
            octets = self.front(source)
            if not self.stream.begins(source, octets, self.front(self.left)):
                self.found = "not judged: begins in the middle", None
            elif len(octets) >= streams.FRONT:
                self.begun.add(source)
        self.heard.add(source)
        return self.found is None

    def front(self, source):
        """The first octets that an end sent."""
        return b"".join(piece.octets for piece in self.head[streams.SIDES[source != self.left]])[:streams.FRONT]

    def feed(self, source, piece):
        """Feeds octets that have passed."""
        if not self.is_begun(source):
            return
        for told in self.judge.feed(int(source != self.left), piece.octets):
            why = kinds.why_not(self)
            if why:
                self.found = f"not judged: {why}", None
                return
            self.certain(told, source, piece)

    def certain(self, told, source, piece):
        """Notes a verdict that became certain with these octets, if they are those that arrived."""
        rule, kind = told.rule.name, told.kind.name
        if rule == "NO_OPENING":
            self.found = "not judged: the capture begins in the middle of a connection", None
        elif rule == "LIMIT":
            self.limit = self.limit or "not judged further: more passed than a judge of the library keeps"
        if self.is_unfollowed(tuple(str(told).split()[-2:])):
            return
        line = None
        if kind in ("BROKE", "LEAVES"):
            line = self.line_on(verdicts.line_of(str(told))[1], self.line_of(told), piece.frame, piece.time)
        status = judging.BROKE if kind == "BROKE" else judging.PARTLY
        self.waiting.append((source, piece.start + len(piece.octets), status, piece.frame, line, self.fed))

    def is_unfollowed(self, said):
        """Whether what was found says only what the judge doesn't follow, though X.225 allows it; the stream is judged up to its
        beginning."""
        if said in self.follower.unfollowed and not self.has_unfollowed:
            self.has_unfollowed, self.limit = True, self.limit or f"judged up to {self.follower.unfollowed[said]}"
        return self.has_unfollowed

    def tell(self, is_end):
        """Tells what is found of octets that are acknowledged, or at the end of all; not of those that were sent again as others, nor what
        depends on octets that aren't surely what was sent."""
        doubt, directions = self.stream.doubt(), self.stream.directions
        while self.waiting and len(self.heard) == 2:
            source, end, status, frame, line, fed = self.waiting[0]
            if not (is_end or doubt or directions[source].heard >= end):
                return
            self.waiting.pop(0)
            unsure = line and self.first_unsure(fed)
            if unsure:
                self.limit_to(*unsure)
                return
            if doubt is None or frame < doubt.frame:
                self.statuses.append((status, frame))
                self.lines += [line] if line else []

    def line_on(self, fields, sentence, frame, time):
        """The line on a break that a line of `osi judge` tells, with when its packet passed if that is known."""
        seconds = None if time is None else time - self.begin
        found = {**reports.told(fields, fields["side"], None if time is None else frame, seconds), "sentence": sentence}
        return reports.Line(at(frame, seconds) + sentence).about(found)

    def line_of(self, told):
        """What is said of a verdict: of the first one a sentence, of others the words of `osi judge`."""
        if not (self.statuses or self.waiting) and hasattr(self.judge, "text"):
            said = verdicts.printed(self.judge.text())
            if said.first:
                return f"{verdicts.sentence(said)} {verdicts.reason(said, said.first)}"
        number = getattr(told, "connection", None)
        return ("" if number is None else f"connection {number}: ") + str(told)

    def news(self):
        lines, self.lines = self.lines, []
        return lines

    def at_the_end(self):
        """The verdict on a stream that is over, or of which no more is captured; the line is None if breaks were told."""
        if self.stream.is_alone():
            return f"not judged: {asking.ALONE}", None
        if len(self.heard) < 2:
            return f"not judged: {self.why_silent()}", None
        if self.statuses:
            return self.after_verdicts()
        said = verdicts.printed(self.judge.text()) if hasattr(self.judge, "text") else None
        if said and said.last["why"]:
            return f"not judged: {said.last['why']}" + (f", {self.limit}" if self.limit else ""), None
        limit, status = (f", {self.limit}", judging.PARTLY) if self.limit else ("", judging.KEPT)
        return "both kept the protocol" + limit, status

    def why_silent(self):
        """Why a stream isn't judged of which no octets of a side passed."""
        gap = self.stream.gap()
        if self.left is None and not gap:
            return "nothing passed" if self.stream.opener is not None else "begins in the middle"
        heard = {streams.SIDES[end != self.left] for end in self.heard}
        return asking.why_silent(gap, heard) or f"{asking.ALONE}, judged up to {gap}"

    def look_for_news(self, is_end):
        """Nothing is said later than the octets that it is about."""

    def close(self):
        """Frees the judge."""
        self.judge.close()

    def after_verdicts(self):
        """What is said at last of a stream of which something was told; a break of octets that were sent again as others is none."""
        doubt = self.stream.doubt()
        broke = [frame for status, frame in self.statuses if status == judging.BROKE]
        certain = [frame for frame in broke if doubt is None or frame < doubt.frame]
        more = ", so what was said of later frames is not certain" if len(certain) < len(broke) else ""
        return self.limit and f"{self.limit}{more}", judging.BROKE if certain else judging.PARTLY

    def verdict(self, judge, is_end):
        if is_end:
            self.stream.finish()
            self.look_for_limit()
            self.follow()
        self.look_for_news(is_end or self.limit is not None)
        self.tell(is_end or self.limit is not None)
        found = self.found or (self.at_the_end() if is_end or self.limit else None)
        why = kinds.why_not(self) if found and found is not self.found else None
        if why:
            self.lines.clear()
            found = f"not judged: {why}", None
        if found and self.judge is not None:
            self.close()
        # What passes after its verdict says only how the stream ends.
        self.is_told = self.is_told or bool(found)
        return found


class Piped(Fed):
    """A stream that a program judges while it passes. What the program says comes later than the octets that it is about."""

    is_live, is_new = True, False

    def __init__(self, stream, programs, process):
        super().__init__(stream)
        self.programs, self.process = programs, process
        self.places = {side: processes.Places() for side in streams.SIDES}

    def made(self):
        return self.process

    def feed(self, source, piece):
        """Writes octets that have passed to the program."""
        side = streams.SIDES[source != self.left]
        self.places[side].take(piece, self.fed)
        if self.is_begun(source):
            self.process.write(source != self.left, piece.octets)

    def look_for_news(self, is_end):
        """Notes what the program says; at the end it says all."""
        if self.judge is None or self.found or self.is_told:
            return
        report = verdicts.printed(self.process.text()) if is_end else None
        for row in self.process.news():
            self.note(row)
        if report and report.first and not (self.found or self.statuses or self.waiting):
            self.note_break(report, report.last, self.end_of(report.first))

    def end_of(self, side):
        """The end that is a side."""
        return self.left if side == streams.SIDES[0] else next(end for end in self.stream.ends if end != self.left)

    def note(self, row):
        """Notes a line of the program."""
        try:
            name, fields = verdicts.line_of(row)
        except transcript.BadInput:
            return
        source = self.end_of(fields["side"])
        if name in ("without", "halted"):
            self.waiting.append((source, 0, judging.PARTLY, 0, None, self.fed))
        elif name in ("broke", "leaves", "stopped"):
            said = None if self.statuses or self.waiting else of_line(fields)
            self.note_break(said, fields, source, row)

    def note_break(self, said, fields, source, row=None):
        """Notes a break, or that a side left the profile: the first one in a sentence, others in the words of the program."""
        why = kinds.why_not(self)
        if why:
            self.found = f"not judged: {why}", None
            return
        if self.is_unfollowed(outcome.said_of(fields)):
            return
        side = streams.SIDES[source != self.left]
        fields = {**fields, "side": side}
        end, frame, when, fed = self.places[side].of(int(fields["offset"])) or (0, 0, None, self.fed)
        line = f"{verdicts.sentence(said)} {verdicts.reason(said, said.first)}" if said else row
        status = judging.BROKE if verdicts.is_broken(fields) else judging.PARTLY
        self.waiting.append((source, end, status, frame, self.line_on(fields, line, frame, when), fed))

    def close(self):
        """Ends the program."""
        self.programs.end(self.process)


def at(frame, seconds):
    """When something passed, in front of a line on it, if that is known."""
    return "" if seconds is None else f"frame {frame}, {seconds:.6f} seconds: "


def of_line(fields):
    """The verdict of which a line tells the first break."""
    did = "broke the protocol" if fields["did"] == "broke" else "leaves the profile"
    return verdicts.printed(f"{fields['side']} {did} first, packet {fields['offset']}: {fields['what']} {fields['rule']}\n")


class Watching:
    """All streams at the port; each is forgotten once its verdict and its end are printed. Without a function that judges a text, the
    library judges; with one, the programs do, and it judges the streams for which there is none. `forget` is told the key and the number
    of a stream that is forgotten."""

    def __init__(self, port, judge=None, hosts=(), numbers=(), is_json=False, idle=IDLE, forget=lambda key, number: None, programs=None):
        self.port, self.judge, self.hosts, self.numbers, self.is_json, self.idle = port, judge, hosts, numbers, is_json, idle
        # Those that are watched, and those whose verdict is printed while TCP is open: by the time of their last segment.
        self.watched, self.ending = OrderedDict(), OrderedDict()
        # Those of which TCP is closed while octets are missing, and those that are reset, with the time since then.
        self.closing, self.resets = OrderedDict(), OrderedDict()
        self.over, self.statuses, self.forget = OrderedDict(), set(), forget
        self.kind, self.programs = Watched if judge else Fed, programs

    def take(self, segment):
        """Takes a segment."""
        ends, number = (segment.source, segment.target), segment.stream
        if number in self.ending:
            self.ending.move_to_end(number)
            self.end(segment)
        if number in self.over or self.port not in (ends[0][1], ends[1][1]):
            return
        if number not in self.watched:
            if (self.hosts and not any(end[0] in self.hosts for end in ends)) or (self.numbers and number not in self.numbers):
                return
            self.watched[number] = self.kind(streams.Stream(number, ends))
        else:
            self.watched.move_to_end(number)
        watched = self.watched[number]
        watched.take(segment)
        if self.programs and watched.is_new and watched.stream.pieces:
            self.watched[number] = self.with_program(watched)
        self.drop_idle(segment.time)

    def with_program(self, watched):
        """A stream of which the first octets have passed, with a program if there is one for it."""
        watched.is_new = False
        process = self.programs.start()
        if process is None:
            return watched
        made = Piped(watched.stream, self.programs, process)
        made.key, made.is_fresh = watched.key, True
        made.follow()
        return made

    def end(self, segment):
        """Takes a segment of a stream whose verdict is printed; if TCP is closed with it, how the stream ended is printed."""
        watched = self.ending[segment.stream]
        watched.stream.take(segment)
        watched.follow()
        watched.stream.pieces.clear()
        watched.stream.forget()
        watched.seen = 0
        if watched.is_over():
            self.tell_end(self.ending.pop(segment.stream))

    def end_closed(self, now):
        """Ends the streams that are reset since a moment, and those that are closed and of which octets are missing for long."""
        for found, patience in ((self.resets, MOMENT), (self.closing, PATIENCE)):
            while found and now - next(iter(found.values())) > patience:
                number, _ = found.popitem(last=False)
                if number in self.watched:
                    self.look_at(number, self.watched[number], True)

    def end_resets(self):
        """Ends the streams that are reset, since nothing came for a moment."""
        for number in list(self.resets):
            self.look_at(number, self.watched[number], True)

    def drop_idle(self, now):
        """Forgets the streams that are idle, or the one that was idle longest if there are too many."""
        self.end_closed(now)
        for found in (self.watched, self.ending):
            while found and (len(found) > MOST_STREAMS or now - next(iter(found.values())).stream.last[1] > self.idle):
                self.drop(next(iter(found)), now)

    def drop(self, number, now):
        """Forgets a stream that is idle. If it goes on, it is another one that begins in the middle."""
        watched = self.watched.get(number) or self.ending.get(number)
        watched.stream.until = now
        if number in self.watched:
            self.look_at(number, watched, True)
        else:
            self.tell_end(self.ending.pop(number))
        self.over.pop(number, None)
        self.forget(watched.key, number)

    def look(self, is_end=False):
        """Judges the streams on which something passed since the last look, or all at the end; prints what is certain."""
        for number, watched in list(self.watched.items()):
            if watched.is_fresh or watched.is_live or is_end:
                self.look_at(number, watched, is_end)
        for number in list(self.ending) if is_end else ():
            self.tell_end(self.ending.pop(number))

    def look_at(self, number, watched, is_end):
        """Judges a stream, and prints what is certain."""
        watched.is_fresh = False
        is_over = is_end or watched.is_over() and not watched.is_reset()
        found = watched.verdict(self.judge, is_over)
        for line in watched.news():
            self.say(watched, line)
        if not found:
            if watched.is_reset() or watched.is_closed():
                (self.resets if watched.is_reset() else self.closing).setdefault(number, watched.stream.last[1])
            return
        if found[0]:
            self.say(watched, found[0])
        self.statuses.add(found[1])
        del self.watched[number]
        self.closing.pop(number, None)
        self.resets.pop(number, None)
        self.over[number] = watched.key
        if len(self.over) > REMEMBERED:
            oldest, key = self.over.popitem(last=False)
            self.forget(key, oldest)
        if is_over:
            self.tell_end(watched)
        else:
            self.ending[number] = watched

    def tell_end(self, watched):
        """Prints how a stream ended."""
        ended = watched.ended()
        if ended:
            self.say(watched, ended)

    def say(self, watched, line):
        """Prints a line on a stream."""
        name = judging.name_of(watched.stream)
        print(json.dumps(reports.of_line(watched.stream, name, line)) if self.is_json else f"{name}: {line}", flush=True)

    def status(self):
        """The status of the program."""
        return judging.status_of_all(list(self.statuses))


def follow(watching, segments, seconds):
    """Takes segments. The stream of each is looked at, and all streams each time that so many seconds are over, also if nothing passes."""
    looked = time.monotonic()
    for segment in segments:
        if segment is None:
            watching.end_resets()
        else:
            watching.take(segment)
            if segment.stream in watching.watched:
                watching.look_at(segment.stream, watching.watched[segment.stream], False)
        if watching.judge is not None and time.monotonic() - looked >= seconds:
            watching.look()
            looked = time.monotonic()


def library():
    """Whether the package osi_session and its library are there."""
    try:
        return osi_session is not None and bool(osi_session.library_version())
    except (ImportError, OSError):
        return False


def add_words(made):
    """Adds the options of `osi-capture watch`."""
    source = made.add_mutually_exclusive_group(required=True)
    source.add_argument("-i", "--interface", help="the interface to capture on")
    source.add_argument("-r", "--file", help="a pcap or pcapng, or - for standard input")
    source.add_argument("named", metavar="FILE", nargs="?", help="the same")
    judging.add_streams(made)
    made.add_argument("--json", action="store_true", help="an object for each line (docs/judge.schema.json)")
    made.add_argument("--by", choices=("library", "program"), help="who judges (the library, if the package osi_session is there)")
    made.add_argument("--every", type=float, default=1.0, metavar="SECONDS", help="how often it is looked at what the programs say (1)")
    made.add_argument("--idle", type=float, default=IDLE, metavar="SECONDS",
                      help=f"forget a stream on which nothing passed for so long ({IDLE}, a day)")
    made.add_argument("--osi", help="the program osi")


def watch(asked):
    """Watches what is asked for until it ends. An interrupt ends what captures, and what had passed is still judged."""
    if asked.by == "library" and not library():
        raise BadInput("there is no package osi_session, or no library for it")
    asked.file = asked.file or asked.named
    by_program = asked.by == "program" or asked.osi or not library()
    judge = (lambda text: script.run(asked.osi, "judge", text)) if by_program else None
    programs = processes.Programs(listing.program(asked.osi)) if by_program else None
    source = live.Source(asked)
    watching = Watching(asked.port, judge, asked.host, asked.stream or (), asked.json, asked.idle, source.forget, programs)
    before = {each: signal.signal(each, source.stop) for each in (signal.SIGINT, signal.SIGTERM)}
    try:
        follow(watching, source.segments(), asked.every)
        watching.look(is_end=True)
    finally:
        for each, handler in before.items():
            signal.signal(each, handler)
        source.close()
        for process in list(programs.running) if programs else ():
            programs.end(process)
    if not watching.statuses:
        print(f"osi-capture: no TCP stream that was asked for passed at port {asked.port} (--port N names another one)", file=sys.stderr)
    return watching.status()
