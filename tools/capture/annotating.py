"""Writes a pcapng with the verdict on each stream as comments of its frames, so that Wireshark shows them: the frame of each break, the
last frame that is judged, and that with which the session or TCP ended. The display filter `frame.comment contains "osi:"` finds them."""
import os
import shutil
import subprocess
import sys
import tempfile

from ladders import verdicts
from ladders.program import Progress

from . import judging, listing
from .asking import local
from .tshark import BadInput

MARK = "osi: "


def add_words(made):
    """Adds the options of `osi-capture annotate`."""
    made.add_argument("file", metavar="FILE")
    made.add_argument("-o", "--output", required=True, metavar="OUT", help="the pcapng to write")
    judging.add_streams(made)
    made.add_argument("--osi", help="the program osi")


def comments_of(report):
    """The comments on a stream: the number of a frame and a text, in rising order of frames."""
    found = [(each.place[0], each.text) for each in report.ended if each.how != "open" and each.place and each.place[0]]
    if report.why:
        first = next((piece.frame for _, piece in report.stream.by_side()), report.stream.since[0])
        return sorted([*found, (first, f"not judged: {report.why}")])
    judged = report.judged
    for side in ("left", "right"):
        place = judged.verdict.break_of(side) and judged.place(side)
        if place:
            found.append((place[0], text_of(judged, side)))
    last = judged.gap.frame if judged.gap else judged.parts[-1][1].frame
    if judged.limit or not judged.verdict.first:
        found.append((last, judged.limit or judged.verdict.rows[-1]))
    return sorted(found)


def text_of(judged, side):
    """The break of a side in a sentence."""
    if side == judged.verdict.first:
        return judged.sentence()
    octets = {each: judged.octets(each) for each in ("left", "right")}
    later = judged.verdict.break_of(side)
    return f"later {side} {verdicts.did_too(later)}, {verdicts.place_of(later)}. " \
           f"{verdicts.reason(judged.verdict, side, None, octets)}"


def written(path, output, comments):
    """Writes a copy of a capture with comments, by Wireshark's editcap: all of it or nothing."""
    if not shutil.which("editcap"):
        raise BadInput("there is no editcap, which writes comments (Debian has it in the package wireshark-common)")
    by_frame = {}
    for frame, text in comments:
        by_frame[frame] = f"{by_frame[frame]}\n{MARK}{text}" if frame in by_frame else MARK + text
    words = [word for frame, text in by_frame.items() for word in ("-a", f"{frame}:{text}")]
    try:
        room, made = tempfile.mkstemp(prefix=".osi-capture-", dir=os.path.dirname(output) or ".")
    except OSError as error:
        raise BadInput(f"{output}: {error.strerror}") from None
    os.close(room)
    try:
        done = subprocess.run(["editcap", "-F", "pcapng", *words, path, made], capture_output=True, text=True, check=False)
        if done.returncode != 0 and not os.path.getsize(made):
            raise BadInput(f"editcap: {(done.stderr.strip().splitlines() or ['it failed'])[-1]}")
        os.chmod(made, 0o644)
        os.replace(made, output)
    finally:
        if os.path.exists(made):
            os.remove(made)


def annotate(asked):
    """Judges the streams of a capture, and writes it with the verdicts as comments; the status is that of judge."""
    asked.show = asked.pictures = asked.upper = False
    asked.files = [asked.file]
    progress, path = Progress(sys.stderr, "osi-capture"), local(asked.file)
    found = judging.streams_in(path, asked)
    missing = judging.tell_missing(asked.file, found, asked)
    try:
        reports = [judging.told(stream, asked, listing.program(asked.osi), progress, asked.file) for stream in found]
    finally:
        progress.end()
    written(path, asked.output, [comment for report in reports for comment in comments_of(report)])
    return judging.status_of_all(missing + [report.status if report.judged else None for report in reports])
