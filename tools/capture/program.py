"""The program osi-capture: it turns a capture of a network into captures that `osi` reads, lists both directions, says which side broke
the protocol, and writes a pcap again."""
import argparse
import json
import os
import shutil

from . import annotating, asking, columns, judging, listing, middle, pcap, streams, texts, tshark, watching
from .asking import PORT, Words, chosen, found_in, local, named, status_of, viewed, why_not, write_all
from .streams import SIDES
from .tshark import BadInput

TEXT = """\
  osi-capture list FILE                 the TCP streams of a pcap or pcapng that carry TPKT
  osi-capture show FILE [--stream N]    both directions as `osi show` lists them, in their order, with times; also of a
                                        file of hexadecimal digits, or of NAME, of which split wrote files
  osi-capture judge FILE ..             which side of each stream first broke the protocol, if one did; FILE as for show
  osi-capture annotate FILE -o OUT      a pcapng with the verdicts as comments of their frames, for Wireshark
  osi-capture watch -i eth0 | FILE      the same while it passes
  osi-capture split FILE -o NAME        NAME.left and NAME.right, what each side sent, and NAME.follow, both in their order
  osi-capture join NAME -o FILE         the way back: a pcap with a TCP segment for each TPKT packet

FILE may be - for standard input. show lists at most 8,388,608 octets of a side, as `osi show` does. tshark reads what is unusual in a
capture (tunnels, IP fragments), and names the layers above (--upper). Options of a job: osi-capture show --help.
"""


def words():
    """The options of the program."""
    made = Words(prog="osi-capture", description=__doc__, epilog=TEXT, formatter_class=argparse.RawDescriptionHelpFormatter)
    jobs = made.add_subparsers(dest="job", required=True, metavar="list|show|judge|annotate|watch|split|join")
    for job in ("list", "show", "split"):
        one = jobs.add_parser(job)
        one.add_argument("file")
        one.add_argument("--port", type=int, default=PORT, help="the port of TPKT, for streams without a CR (102)")
        if job != "list":
            one.add_argument("--stream", type=int, help="the number of the stream, as list prints it; without it, the only one")
        if job == "show":
            add_forms(one)
        if job == "split":
            one.add_argument("-o", "--output", required=True, metavar="NAME")
    judging.add_words(jobs.add_parser("judge", description=judging.__doc__, epilog=judging.TEXT))
    annotating.add_words(jobs.add_parser("annotate", description=annotating.__doc__))
    watching.add_words(jobs.add_parser("watch", description=watching.__doc__, formatter_class=argparse.RawDescriptionHelpFormatter))
    join = jobs.add_parser("join")
    join.add_argument("file", metavar="NAME")
    join.add_argument("-o", "--output", required=True, metavar="FILE")
    return made


def add_forms(one):
    """Adds the options of `show`."""
    form = one.add_mutually_exclusive_group()
    form.add_argument("--json", action="store_true", help="an object for each line of the listing")
    form.add_argument("--columns", action="store_true", help="the sides beside each other, what left sent on the left")
    one.add_argument("--width", type=int, help="so many columns in all (those of the terminal)")
    one.add_argument("--data", action="store_true", help="the user data of each session unit, too")
    one.add_argument("--upper", action="store_true", help="what tshark calls the layers above, below each packet")
    one.add_argument("--osi", help="the program osi")


def list_streams(asked):
    """Prints a line for each stream: who called whom, and how many octets passed in each direction, or why it is left out."""
    for stream in found_in(asked.file, asked.port):
        left, right = stream.by_end().values()
        print(f"stream {stream.number} {named(left)} {named(right)} {counted(stream)}")


def counted(stream):
    """How many octets of a stream passed in each direction, from where and up to where; or why it is left out."""
    view, counts = viewed(stream), dict.fromkeys(SIDES, 0)
    for side, piece in view.by_side():
        counts[side] += len(piece.octets)
    found = [f"left {counts['left']} octets right {counts['right']} octets"]
    why, gap = why_not(stream), stream.gap()
    if why:
        found = [*found, why] if isinstance(view, middle.Middle) or why == asking.ALONE else [f"left out: {why}"]
    elif gap:
        found.append(f"up to {gap}")
    return ", ".join(found)


def show(asked):
    """Lists both directions in their order."""
    path = local(asked.file)
    text = texts.read(path)
    stream = text or chosen(path, asked.port, asked.stream)
    found = with_upper(listing.lines(stream, listing.program(asked.osi)), stream, asked)
    if not asked.data:
        found = [listing.Line(line.side, line.piece, line.text) for line in found]
    begin = listing.begin(stream)

    def when(line):
        """The seconds since the first octets, for a line that begins a packet."""
        return f"{line.time - begin:11.6f}" if line.time is not None and not line.text.startswith(" ") else " " * 11

    if asked.json:
        for line in found:
            print(json.dumps(told(stream.number, line)))
        return
    print_notes(stream)
    if asked.columns:
        with_data = [each for line in found for each in (line, *data_line(line))]
        for row in columns.rows(with_data, asked.width or shutil.get_terminal_size((160, 0)).columns, when):
            print(row)
    else:
        for line in found:
            for each in (line, *data_line(line)):
                print(f"{when(each)} {each.side:5} {each.text}")


def print_notes(stream):
    """Prints where a listing begins and ends, if that isn't where the stream does."""
    if isinstance(stream, middle.Middle):
        print(f"begins in the middle, at frame {stream.frame}")
    if isinstance(stream, texts.Text):
        return
    source = getattr(stream, "stream", stream)
    gap = source.gap()
    if source.is_alone():
        print(asking.ALONE)
    if gap:
        print(f"listed up to {gap}")


def with_upper(found, stream, asked):
    """The lines of a listing, and below each packet what tshark calls the layers above, if that was asked for."""
    source = getattr(stream, "stream", stream)
    if not asked.upper or not hasattr(source, "path"):
        return found
    upper, frame = tshark.upper(source.path, source.number), None
    made = []
    for group in listing.by_packet(found):
        made += group
        if group[0].frame in upper and group[0].frame != frame:
            frame = group[0].frame
            made.append(listing.Line(group[0].side, group[0].piece, f"      {upper[frame]}"))
    return made


def told(number, line):
    """A line as an object of docs/capture.schema.json."""
    time = None if line.time is None else round(line.time, 6)
    found = {"stream": number, "side": line.side, "frame": line.frame, "time": time, "line": line.text}
    return found if line.data is None else {**found, "data": line.data.hex()}


def data_line(line):
    """A line with the user data of another line, if it has any."""
    return () if line.data is None else (listing.Line(line.side, line.piece, f"      {line.data.hex()}"),)


def in_lines(octets):
    """Octets as lines of hexadecimal digits."""
    digits = octets.hex()
    return [digits[start:start + 96] for start in range(0, len(digits), 96)]


def split(asked):
    """Writes what each side sent, and both in the order in which they passed."""
    stream = chosen(local(asked.file), asked.port, asked.stream)
    made = {side: [] for side in (*SIDES, "follow")}
    for side, piece in stream.by_side():
        note = f"# {piece.time:.6f} frame {piece.frame}"
        rows = in_lines(piece.octets)
        made[side] += [note, *rows]
        made["follow"] += [note, *("\t" * (side == "right") + row for row in rows)]
    if not made["follow"]:
        raise BadInput(f"{asking.shown(asked.file)}: stream {stream.number}: {why_not(stream) or 'nothing passed'}")
    write_all({f"{asked.output}.{name}": "\n".join([*rows, ""]) for name, rows in made.items()})


def joined_text(name):
    """The text of NAME.follow, or of NAME.left and NAME.right; or of a file or standard input with both sides."""
    path = asking.local(name)
    found = texts.read(path) if os.path.isfile(path) and not os.path.exists(f"{name}.follow") else texts.of_sides(name)
    if found is None:
        raise BadInput(f"{path}: it is no text")
    return found


def join(asked):
    """Writes a pcap of a text with both sides: of NAME.follow, of NAME.left and NAME.right if there is none, or of a file."""
    pieces = [(time or 0.0, side, octets) for _, time, side, octets in joined_text(asked.file).parts]
    if not any(streams.is_packet(octets) for _, _, octets in pieces):
        raise BadInput(f"{asked.file}: there is no TPKT packet in it")
    write_all({asked.output: pcap.written(pieces)})


JOBS = {"list": list_streams, "show": show, "judge": judging.judge, "annotate": annotating.annotate, "watch": watching.watch,
        "split": split, "join": join}


def run(given):
    """Does what the words ask for; the status is 0, of `judge`, `annotate` and `watch` also 1, 2 and 3."""
    asked = words().parse_args(given)
    return JOBS[asked.job](asked) or 0


def main(given=None):
    """Runs the program; its status, which is 2 with one line on standard error if something was wrong."""
    return status_of("osi-capture", lambda: run(given))
