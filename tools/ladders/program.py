"""The program `osi-ladders`: reads its words and its input, and writes one picture or nothing."""
import argparse
import os
import sys
import tempfile

from capture import asking

from . import captures, choosing, drawing, history, judged, picture, reading, script, tapped, terminal, transcript, verdicts, wire
from .transcript import BadInput

ABOUT = """Draws a ladder of a run of two ends, as SVG: of what `osi pair` printed, of a script, for which it runs `osi pair`, or of a
capture of both directions, for which it runs `osi show`, with the times of the packets; with --judge also with the verdict of
`osi judge`. A capture is a pcap or pcapng, a text of hexadecimal digits, or the NAME of the files that
`osi-capture split` wrote. --left and --right draw two captures of one direction each."""


class Words(argparse.ArgumentParser):
    """A wrong option is one line on standard error, and status 2."""

    def error(self, message):
        raise BadInput(message)


def words():
    """The options of the program."""
    parser = Words(prog="osi-ladders", description=ABOUT)
    parser.add_argument("file", nargs="?", help="a transcript, a script, or a capture of both sides; standard input if none is named, or -")
    parser.add_argument("--script", help="the script that the transcript is of: then all octets are known")
    parser.add_argument("--left", help="a capture of what the left end, which calls, sent; or its listing; with a capture of both sides "
                        "only the listing, and no program is run for it")
    parser.add_argument("--right", help="a capture of what the right end sent; or its listing")
    parser.add_argument("--judge", metavar="CAPTURE", help="a capture of both sides: draws the verdict of osi judge on it")
    parser.add_argument("--stream", type=int, metavar="N", help="of a pcap or pcapng, the stream with this number (osi-capture list)")
    parser.add_argument("--port", type=int, default=asking.PORT, metavar="N", help="the port of TPKT, for streams without a CR (102)")
    parser.add_argument("--ignore-checksums", action="store_true", help="with --judge: judge frames with wrong TCP checksums as the others")
    parser.add_argument("--verdicts", metavar="FILE", help="what --states printed of that capture; with --left and --right no "
                        "program is run")
    parser.add_argument("--states", action="store_true", help="with --judge: print what osi judge says after each packet, and draw "
                        "nothing")
    parser.add_argument("--connection", type=int, action="append", metavar="N",
                        help="show this connection (and others so named)")
    parser.add_argument("--from", dest="first", default="1", metavar="PLACE", help="the first line to show; of a capture of both sides the "
                        "first packet, or frame=N, left=OCTET, right=OCTET or seconds=TIME")
    parser.add_argument("--to", dest="last", default=str(10 ** 9), metavar="PLACE", help="the last line or packet to show, or such a place")
    parser.add_argument("--upper", action="store_true", help="of a pcap or pcapng, what tshark calls the layers above")
    parser.add_argument("--text", action="store_true", help="draw in the columns of a terminal")
    parser.add_argument("--columns", type=int, default=100, metavar="N", help="so many columns (100; at least 60)")
    parser.add_argument("--title", help="what the picture is of")
    parser.add_argument("--output", "-o", help="the file to write; standard output if none is named")
    parser.add_argument("--osi", help="the program osi (else the one of this repository)")
    return parser


class Progress:
    """Shows on a terminal how far a long run is; the line is cleared at the end."""

    def __init__(self, stream, name="osi-ladders"):
        self.stream, self.name, self.shown = stream, name, False
        self.is_terminal = stream.isatty()

    def __call__(self, done, of):
        if self.is_terminal and of >= 5000 and done % 1000 == 0:
            self.say(f"{self.name}: {done:,} of {of:,} lines")

    def running(self, what):
        """A function to call each second that a program runs."""
        self.say(f"{self.name}: running {what}")
        return lambda seconds: self.say(f"{self.name}: running {what}, {seconds} s")

    def say(self, text):
        """Shows a text in place of the one before."""
        if self.is_terminal:
            self.shown = True
            self.stream.write(f"\r\x1b[K{text}")
            self.stream.flush()

    def end(self):
        """Clears the line."""
        if self.shown:
            self.stream.write("\r\x1b[K")
            self.stream.flush()
            self.shown = False


def read_text(name):
    """The text of a file, or of standard input."""
    try:
        if name in (None, "-"):
            return sys.stdin.buffer.read().decode("ascii")
        with open(name, "rb") as file:
            return file.read().decode("ascii")
    except OSError as error:
        raise BadInput(f"{name or 'standard input'}: {error.strerror}") from None
    except UnicodeDecodeError:
        raise BadInput(f"{name or 'standard input'}: no text of ASCII letters") from None


def picture_of_run(text, options, progress):
    """The picture of a transcript or a script."""
    written = said = None
    if script.is_script(text):
        written = script.read(text)
        said = script.title_of(text)
        text = played(text, options, progress)
    elif options.script:
        asked_for = script_text(options.script)
        written, said = script.read(asked_for), script.title_of(asked_for)
    lines = transcript.read(text)
    asked = script.match(written, lines) if written else {}
    known = transcript.connections(lines)
    for number in options.connection or []:
        if number not in known:
            raise BadInput(f"there is no connection {number}")
    followed = wire.Wire(lines, asked, written.ends if written else None).run()
    story = history.History(lines, followed, asked).run()
    title = readable(options.title or said or named(options.file, "a run of two ends"))
    return picture.of_run(lines, followed, story, title, options.connection)


def played(text, options, progress):
    """What `osi pair` prints for a script; `BadInput` if it refuses one of its lines."""
    printed = script.run(options.osi, "pair", text, progress.running("osi pair"))
    last = printed.rstrip("\n").rpartition("\n")[2]
    if transcript.STOP.fullmatch(last):
        _, number, why = last.split(" ")
        row = text.split("\n")[int(number) - 1]
        raise BadInput(f"osi pair refuses line {number} of the script, so there is no picture: {row[:80]!r}"
                       + ("" if why == "refused" else f" ({why})"))
    return printed


def named(name, other):
    """The name of a file without its folder, or another name for standard input."""
    return other if name in (None, "-") else os.path.basename(name)


def readable(title):
    """A title without the characters that an XML file can't have, or that would control a terminal."""
    return "".join(letter if letter.isprintable() else "\ufffd" for letter in title)


def script_text(name):
    """The text of a script."""
    text = read_text(name)
    if not script.is_script(text):
        raise BadInput(f"{name} is no script: its first line is not `ends`")
    return text


def picture_of_captures(options, progress):
    """The picture of two captures, or of their listings: in the order of their times, if both have them."""
    texts = {"left": read_text(options.left), "right": read_text(options.right)}
    pieces, listings = reading.in_time(texts), {}
    title = readable(options.title or "two captures")
    if pieces:
        listings = listings_of(pieces, options.osi, {}, progress)
        return tapped.picture_of(pieces, listings, title, None, options.first, options.last)
    for side, text in texts.items():
        listings[side] = text if captures.is_listing(text) else script.run(
            options.osi, "show", text, progress.running("osi show"))
    return captures.picture_of(listings, title)


def listings_of(pieces, osi, names, progress):
    """The listings of both sides: from the files that are named, or by `osi show`."""
    found = {}
    for side in transcript.SIDES:
        octets = tapped.octets_of(pieces, side)
        if names.get(side):
            found[side] = read_text(names[side])
        else:
            found[side] = script.run(osi, "show", octets.hex(), progress.running("osi show")) if octets else ""
    return found


def named_listings(options):
    """The files of listings that are named, by side."""
    return {"left": options.left, "right": options.right}


def source_of(name, options):
    """A capture, and the title in its file, if it has one; or None and a text that is no capture."""
    path = asking.local(name or "-")
    source = reading.by_name(path, options.port, options.stream, options.upper, not options.ignore_checksums)
    if source is not None:
        return source, None
    if options.stream is not None:
        raise BadInput("--stream is for a pcap or pcapng")
    text = read_text(path)
    is_capture = options.judge or reading.is_capture(text)
    return (reading.Source(tapped.read(text)), title_of_capture(text)) if is_capture else (None, text)


def picture_of_file(options, progress):
    """The picture of a transcript, a script, or a capture of both sides."""
    source, text = source_of(options.file, options)
    if source is None:
        if options.left:
            raise BadInput("the file is no capture of both sides, whose listings --left and --right are")
        return picture_of_run(text, options, progress)
    if options.script:
        raise BadInput("--script goes with a transcript, and this is a capture")
    pieces = source.pieces if source.ends else reading.by_caller(source.pieces)
    title = readable(options.title or text or named(options.file, "a capture of both sides"))
    listings = source.listed(listings_of(pieces, options.osi, named_listings(options), progress))
    return finished(tapped.picture_of(pieces, listings, title, options.connection, options.first, options.last, source.upper), source)


def finished(made, source):
    """A picture with the addresses and the notes of its capture."""
    made.ends = {side: readable(end) for side, end in source.ends.items()}
    made.notes += source.notes
    for row in made.rows:
        row.note = row.note and readable(row.note)
    return made


def judged_capture(options, progress):
    """The picture of a capture of both sides with its verdict; or, with --states, what `osi judge` says after each packet."""
    source, said = source_of(options.judge, options)
    judge = judged.runner(options.osi, progress.running)
    told = verdicts.read(read_text(options.verdicts)) if options.verdicts else None
    if not told:
        source, judge = reading.surely(source, judge, not options.ignore_checksums)
    pieces = source.pieces
    listings = source.listed(listings_of(pieces, options.osi, named_listings(options), progress))
    if options.states:
        return judged.told(pieces, listings, judge)
    title = readable(options.title or said or named(options.judge, "a capture of both sides"))
    return finished(judged.picture_of(pieces, listings, title, judge, told, options.first, options.last, source.upper), source)


def title_of_capture(text):
    """The comment with which a capture begins, or None."""
    first = text.split("\n", 1)[0]
    return first[1:].strip() or None if first.startswith("#") and not tapped.NOTE.match(first) else None


def write(name, text):
    """Writes all of it or nothing: into another file beside it, which then takes its place. A device is written as it is."""
    if name is None:
        sys.stdout.buffer.write(text.encode("utf-8"))
        sys.stdout.flush()
        return
    name = os.path.realpath(name)
    if os.path.exists(name) and not os.path.isfile(name):
        with open(name, "wb") as file:
            file.write(text.encode("utf-8"))
        return
    try:
        handle, beside = tempfile.mkstemp(dir=os.path.dirname(name), prefix=".ladder")
    except OSError as error:
        raise BadInput(f"{name}: {error.strerror}") from None
    try:
        with os.fdopen(handle, "wb") as file:
            file.write(text.encode("utf-8"))
        mask = os.umask(0)
        os.umask(mask)
        os.chmod(beside, 0o666 & ~mask)
        os.replace(beside, name)
    except BaseException:
        os.unlink(beside)
        raise


def picture_asked_for(options, progress):
    """The picture that the options ask for; with --states a text."""
    if options.judge:
        return judged_capture(options, progress)
    return picture_of_captures(options, progress) if options.left and not options.file else picture_of_file(options, progress)


def check(options):
    """Whether the options go together."""
    if (options.left is None) != (options.right is None):
        raise BadInput("--left and --right go together")
    if options.judge and (options.file or options.script or options.connection):
        raise BadInput("--judge goes without another file, --script and --connection")
    if options.left and not options.file and (options.script or options.connection):
        raise BadInput("two captures are drawn without --script and --connection")
    if (options.verdicts or options.states) and not options.judge:
        raise BadInput("--verdicts and --states go with --judge")
    first, last = choosing.Place(options.first), choosing.Place(options.last)
    if first.kind == last.kind and not first.number <= last.number or first.kind is None and first.number < 1:
        raise BadInput("--from and --to are lines from 1 on, or other places, in this order")


def make(options, progress):
    """Reads, draws and writes."""
    check(options)
    made = picture_asked_for(options, progress)
    if isinstance(made, str):
        return made
    span = (0, 10 ** 12) if made.is_chosen else span_of(made, options)
    if options.text:
        return terminal.draw(made, *span, columns=options.columns, progress=progress)
    return drawing.draw(made, *span, progress=progress)


def span_of(made, options):
    """The first and the last row to show of a picture of a run."""
    first, last = choosing.Place(options.first), choosing.Place(options.last)
    if first.kind or last.kind:
        raise BadInput("a place of a run is the number of a line: frames, octets and times are those of a capture of both sides")
    if made.rows and first.number - 1 > made.rows[-1].index:
        raise BadInput(f"there is no line {first.number}")
    return first.number - 1, last.number - 1


def main(arguments=None):
    """Runs the program; its status."""
    progress = Progress(sys.stderr)
    try:
        options = words().parse_args(arguments)
        text = make(options, progress)
        progress.end()
        write(options.output, text)
        return 0
    except (BadInput, OSError) as error:
        progress.end()
        said = error if isinstance(error, BadInput) else f"{error.filename or 'standard output'}: {error.strerror}"
        print(f"osi-ladders: {asking.line_of(said)}", file=sys.stderr)
        if isinstance(error, BrokenPipeError):
            os.dup2(os.open(os.devnull, os.O_WRONLY), sys.stdout.fileno())
        return 2
    except KeyboardInterrupt:
        progress.end()
        return 130
