"""Judges each TCP stream of a capture that carries TPKT: which side first broke the protocol, by `osi judge`."""
import json
import os
import socket
import sys

from ladders import drawing, judged, tapped, verdicts
from ladders.program import Progress

from . import damage, listing, middle, outcome, reports, streams, texts, tshark
from .asking import (PORT, Words, found_by, line_of, local, missing, named, of_nothing, shown as name_shown, status_of, viewed, why_not,
                     write_all)
from .streams import SIDES
from .tshark import BadInput

TEXT = """\
The status is 0 if every stream was judged to its end and both sides of each kept the protocol, 1 if a side of any broke it, 3 if nobody
did but not everything could be judged, and 2 if nothing was. FILE is a pcap or pcapng;
or a text of hexadecimal digits with both sides, as `osi judge` reads it and `osi-capture split` writes it; or - for one of these
on standard input.
"""
KEPT, BROKE, NOTHING, PARTLY = 0, 1, 2, 3
# How many octets are written to `osi judge` at once.
PART = 65_536


def words():
    """The options of scripts/judge."""
    made = Words(prog="judge", description=__doc__, epilog=TEXT)
    add_words(made)
    return made


def add_words(made):
    """Adds the options: those of scripts/judge and of `osi-capture judge`."""
    made.add_argument("files", metavar="FILE", nargs="+")
    add_streams(made)
    made.add_argument("--show", action="store_true", help="list both directions first, with frames and times")
    made.add_argument("--upper", action="store_true", help="show what tshark calls the layers above, in the listing and at the end")
    made.add_argument("--json", action="store_true", help="an object for each stream (docs/judge.schema.json)")
    made.add_argument("--pictures", metavar="DIR", help="draw a ladder of each stream that is judged: DIR/stream-N.svg")
    made.add_argument("--osi", help="the program osi")


def add_streams(made):
    """Adds the options that say which streams are judged."""
    made.add_argument("--port", type=int, default=PORT, help="the port of TPKT, for streams without a CR (102)")
    made.add_argument("--stream", type=int, metavar="N", action="append",
                      help="judge this stream, by its number in tshark; and others so named")
    made.add_argument("--host", metavar="ADDRESS", type=address, action="append", default=[],
                      help="judge the streams of this address; and of others so named")
    made.add_argument("--ignore-checksums", action="store_true",
                      help="judge frames with wrong TCP checksums as the others: for a capture that was changed after it was taken")


def address(text):
    """An address of IPv4 or IPv6 as streams have it, however it is written."""
    for family in (socket.AF_INET, socket.AF_INET6):
        try:
            return socket.inet_ntop(family, socket.inet_pton(family, text.strip("[]")))
        except OSError:
            continue
    raise BadInput(f"--host {text}: it is no address of IPv4 or IPv6")


def streams_of(name, asked):
    """The streams of a file that were asked for."""
    path = local(name)
    text = texts.read(path)
    if text is not None and not text.is_ordered:
        raise BadInput(f"{name}: there is no {name}.follow, and its files don't say when octets passed")
    if text is not None:
        text.number = 0
        return [text]
    return streams_in(path, asked)


def streams_in(path, asked):
    """The streams of a capture that were asked for."""
    found = found_by(path, asked.port, asked.stream, asked.host)
    for stream in found:
        stream.has_sums = not asked.ignore_checksums
    return [damage.mended(stream) for stream in found]


def tell_missing(name, found, asked):
    """Says which of the streams that were asked for by their numbers aren't in a file; a status for each. (A text has no number.)"""
    numbers = set(asked.stream or ()) - {stream.number for stream in found}
    if any(isinstance(stream, texts.Text) for stream in found):
        return []
    for number in sorted(numbers):
        print(f"{os.path.basename(sys.argv[0])}: {missing(name, number)}", file=sys.stderr)
    return [None] * len(numbers)


def name_of(stream):
    """A stream by its number, and who called whom."""
    if isinstance(stream, texts.Text):
        return "text"
    left, right = stream.by_end().values()
    return f"stream {stream.number} {named(left)} {named(right)}"


class Parts:
    """The text of pieces as `osi judge` reads it, in parts, each time that it is asked for."""

    def __init__(self, parts):
        self.parts = parts

    def __iter__(self):
        rows, count = [], 0
        for side, piece in self.parts:
            rows.append(("\t" if side == "right" else "") + piece.octets.hex())
            count += len(piece.octets)
            if count >= PART:
                yield "\n".join([*rows, ""])
                rows, count = [], 0
        yield "\n".join([*rows, ""]) if rows else ""

    def __str__(self):
        return "".join(self)


class Judged:
    """A stream, and the verdict that `osi judge` prints of it. `limit` is why it isn't judged to its end, if it isn't."""

    def __init__(self, stream, judge):
        self.take(stream, judge)
        if self.verdict.first and isinstance(stream, streams.Stream):
            again = damage.rejoined(self.stream)
            if again is not self.stream:
                self.take(again, judge)
        if self.verdict.first and isinstance(stream, streams.Stream):
            self.leave_doubtful(judge)
        if self.verdict.first:
            self.leave_unfollowed(judge)

    def take(self, stream, judge):
        """Takes a stream, and the verdict on it."""
        self.stream = stream
        self.parts = list(stream.by_side())
        self.gap = stream.gap() if hasattr(stream, "gap") else None
        self.limit = f"judged up to {self.gap}" if self.gap else None
        self.verdict = verdicts.printed(judge(Parts(self.parts)))

    def leave_doubtful(self, judge):
        """Judges only what passed before the first frame that was damaged, or whose octet may be that of a keepalive, if there is one."""
        found = damage.first_unsure(self.stream)
        if found is None:
            return
        self.end_at(*found, judge)
        if self.gap.side not in {side for side, _ in self.parts}:
            raise BadInput(of_nothing(self.gap))

    def leave_unfollowed(self, judge):
        """Judges only what passed before what `osi judge` doesn't follow, though X.225 allows it."""
        found = outcome.unfollowed(self.parts, self.verdict.last)
        if found:
            self.end_at(*found, judge)

    def end_at(self, place, gap, judge):
        """Judges only so many pieces, because of a gap."""
        self.parts, self.gap, self.limit = self.parts[:place], gap, f"judged up to {gap}"
        self.verdict = verdicts.printed(judge(Parts(self.parts)))

    @property
    def pieces(self):
        """The pieces that are judged, as the ladders have them."""
        return [tapped.Piece(side, piece.octets, piece.frame, piece.time) for side, piece in self.parts]

    def octets(self, side):
        """What a side sent, as far as it is judged."""
        return b"".join(piece.octets for where, piece in self.parts if where == side)

    def place(self, side=None):
        """The frame and the seconds at which the packet of a break had passed, or its first octet if it is none; or None."""
        side = side or self.verdict.first
        found = side and self.verdict.break_of(side)
        if not found:
            return None
        offset, octets = int(found["offset"]), self.octets(side)
        end = end_of(octets, offset, found["rule"] in verdicts.rules.OF_PACKETS)
        piece = listing.Passing([piece for where, piece in self.parts if where == side]).at(end - 1)
        return None if piece.time is None else (piece.frame, piece.time - listing.begin(self.stream))

    def is_kept(self):
        """Whether both sides kept the protocol, as far as it is judged."""
        return self.verdict.rows[-1] == "both kept the protocol"

    def status(self):
        """The status that the stream alone would give; None if there is no verdict on it."""
        if any(map(verdicts.is_broken, filter(None, map(self.verdict.break_of, SIDES)))):
            return BROKE
        if self.verdict.last["why"]:
            return None
        return PARTLY if self.limit or not self.is_kept() else KEPT

    def sentence(self):
        """What the side did that broke the protocol first, in words; or None."""
        if not self.verdict.first:
            return None
        octets = {side: self.octets(side) for side in SIDES}
        return f"{verdicts.sentence(self.verdict)} {verdicts.reason(self.verdict, self.verdict.first, None, octets)}"

    def lines(self):
        """What is printed: what `osi judge` prints, and if a side broke the protocol the same in a sentence."""
        rows = list(self.verdict.rows)
        if self.verdict.first:
            found = self.place()
            rows.append((f"frame {found[0]}, {found[1]:.6f} seconds: " if found else "") + self.sentence())
        return rows + ([self.limit] if self.limit else [])

    def picture(self, title, osi, progress):
        """The ladder of the stream, as SVG."""
        listings = {side: "\n".join(listing.shown(osi, self.octets(side))) if self.octets(side) else "" for side in SIDES}
        made = judged.picture_of(self.pieces, listings, title, judged.runner(osi, progress.running))
        made.notes += [f"{self.limit[0].upper()}{self.limit[1:]}."] if self.limit else []
        return drawing.draw(made)


def end_of(octets, offset, is_none):
    """Where the packet at an offset ends; if there is none, the place after its first octet."""
    head = octets[offset:offset + 4]
    length = int.from_bytes(head[2:4], "big") if len(head) == 4 and not is_none else 1
    return min(offset + max(length, 1), len(octets))


def shown(stream, osi, upper=None):
    """Both directions in their order: the frame and the seconds of each packet, its side, and its lines."""
    begin, told = listing.begin(stream), None
    if isinstance(stream, middle.Middle) and stream.frame is not None:
        yield f"begins in the middle, at frame {stream.frame}"
    for line in listing.lines(stream, osi):
        is_packet = line.time is not None and not line.text.startswith(" ")
        yield f"{line.frame:6} {line.time - begin:11.6f} {line.side:5} {line.text}" if is_packet else f"{'':18} {line.side:5} {line.text}"
        if is_packet and upper and line.frame in upper and line.frame != told:
            told = line.frame
            yield f"{'':18} {line.side:5}   {upper[told]}"


class Report:
    """What is said of a stream: its name, the lines, the verdict if there is one, how it ended, and a picture if one is drawn."""

    def __init__(self, stream, name, is_one):
        self.stream, self.file = stream, name
        self.name = name_of(stream) if is_one else f"{name_shown(name)}: {name_of(stream)}"
        self.why, self.rows, self.judged, self.ended, self.drawn, self.status = None, [], None, [], None, PARTLY

    @staticmethod
    def attempt(job):
        """Does a job; why it can't be done, or None. Without the program nothing can."""
        try:
            job()
        except BadInput as error:
            if "can't be run" in str(error):
                raise
            return str(error)
        return None

    def judge(self, osi, progress):
        """Judges the stream."""
        self.judged = Judged(self.stream, judged.runner(osi, progress.running))
        self.stream = self.judged.stream
        self.status = self.judged.status()

    def draw(self, title, osi, progress):
        """Draws the ladder."""
        self.drawn = self.judged.picture(title, osi, progress)

    def lines(self):
        """What is printed."""
        if self.why:
            return [f"{self.name} not judged: {self.why}", *self.rows, *self.last()]
        return [self.name, *self.rows, *self.judged.lines(), *self.last()]

    def last(self):
        """The line on how it ended, if anything is known."""
        return [outcome.line(self.ended, listing.begin(self.stream))] if self.ended else []


def told(stream, asked, osi, progress, name):
    """The report on a stream. What goes wrong with it is said of it alone."""
    made = Report(stream, name, len(asked.files) == 1)
    view = viewed(stream)
    upper = tshark.upper(stream.path, stream.number) if asked.upper and hasattr(stream, "path") else {}
    made.why = why_not(stream)
    if not made.why:
        made.why = made.attempt(lambda: made.judge(osi, progress))
    if asked.show:
        why = made.attempt(lambda: made.rows.extend(shown(view, osi, upper)))
        made.rows += [f"not listed: {why}"] if why else []
    if asked.pictures and made.judged:
        title = f"{os.path.basename(name_shown(name))}, {name_of(stream)}"
        why = made.attempt(lambda: made.draw(title, osi, progress))
        made.rows += [f"not drawn: {why}"] if why else []
    pieces = made.judged.parts if made.judged else list(view.by_side()) if is_of_session(made.why) else []
    made.ended = outcome.all_of(stream, pieces, made.judged and made.judged.limit)
    name_upper(made.ended, upper)
    return made


def is_of_session(why):
    """Whether a stream that isn't judged may be one of sessions all the same."""
    return not (why and why.endswith("not a session"))


def name_upper(ended, upper):
    """Adds to how a stream ended what tshark calls the layers above."""
    for each in ended:
        if each.place and each.unit and each.place[0] in upper:
            each.text += f" [{upper[each.place[0]]}]"


def run(asked, progress):
    """Judges all streams of all files, prints what is said of each as soon as it is known, and writes its picture; the status."""
    osi, statuses = listing.program(asked.osi), []
    for name in asked.files:
        try:
            found = streams_of(name, asked)
            statuses += tell_missing(name, found, asked) + [one(stream, asked, osi, progress, name) for stream in found]
        except BadInput as error:
            if len(asked.files) == 1:
                raise
            progress.end()
            print(f"{os.path.basename(sys.argv[0])}: {line_of(error)}", file=sys.stderr)
            statuses.append(None)
    return status_of_all(statuses)


def one(stream, asked, osi, progress, name):
    """Judges a stream and prints what is said of it; its status, or None if nothing of it was judged."""
    report = told(stream, asked, osi, progress, name)
    progress.end()
    if report.drawn:
        write_pictures(asked.pictures, {f"{picture_name(name, asked)}stream-{stream.number}.svg": report.drawn})
    print(json.dumps(reports.of(report)) if asked.json else "\n".join(report.lines()), flush=True)
    return report.status if report.judged else None


def picture_name(name, asked):
    """What the pictures of a file are called besides: nothing if there is one file."""
    return "" if len(asked.files) == 1 else f"{os.path.basename(name)}-"


def status_of_all(statuses):
    """The status of the program, from those of all streams; None is one of which nothing was judged."""
    if not any(status is not None for status in statuses):
        return NOTHING
    return BROKE if BROKE in statuses else PARTLY if set(statuses) != {KEPT} else KEPT


def write_pictures(folder, drawn):
    """Writes pictures into a folder, all or none; the folder is made if it is not there and there is something to write."""
    if not drawn:
        return
    try:
        os.makedirs(folder, exist_ok=True)
    except OSError as error:
        raise BadInput(f"{folder}: {error.strerror}") from None
    write_all({os.path.join(folder, name): text for name, text in drawn.items()})


def judge(asked):
    """Does what the words ask for, and shows on a terminal how far it is; the status."""
    progress = Progress(sys.stderr, "judge")
    try:
        return run(asked, progress)
    finally:
        progress.end()


def main(given=None):
    """Runs scripts/judge; its status."""
    return status_of("judge", lambda: judge(words().parse_args(given)))
