"""Captures as text: octets as hexadecimal digits, as `osi show` reads them and `osi-capture split` writes them.

A comment `# TIME frame N` says when the octets that follow had passed; a line of the right side begins with a tab in a file that
has both sides.
"""
import os
import re

from ladders import tapped

from . import kinds

from .streams import SIDES, Piece, is_connect_confirm
from .tshark import BadInput


class Text:
    """The pieces of a text; `by_side` gives them as a stream of a network does. Times that the text doesn't have are None; and if it
    is the texts of two sides without times, it is not known in which order they passed."""

    number = 0

    def __init__(self, parts, is_ordered=True):
        self.parts, self.is_ordered = parts, is_ordered

    def by_side(self):
        counts = dict.fromkeys(SIDES, 0)
        for frame, time, side, octets in self.parts:
            yield side, Piece(frame, time, counts[side], octets)
            counts[side] += len(octets)

    def why_not(self):
        """Why the text can't be judged, or None."""
        if len({side for _, _, side, _ in self.parts}) < 2:
            return "only one direction is here"
        return kinds.why_not(self)


def text_of(name):
    try:
        with open(name, encoding="ascii") as file:
            return file.read()
    except (OSError, UnicodeDecodeError) as error:
        raise BadInput(f"{name}: {getattr(error, 'strerror', None) or 'it is no text'}") from None


def parts_of(text, name):
    """The pieces of a text: for each its frame, its time, its side and its octets."""
    try:
        return [(frame, time, SIDES[tabbed], octets) for tabbed, octets, frame, time in tapped.lines_of(text)]
    except BadInput as error:
        raise BadInput(f"{name}: {error}") from None


# What the files of the sides are called: as `split` writes them, and as the examples have them.
ENDS = ("", ".hex")
ORDER = re.compile(r"(left|right) (\d+)")


def files_of(name):
    """The files of NAME that are there, by side."""
    found = {side: next((f"{name}.{side}{end}" for end in ENDS if os.path.exists(f"{name}.{side}{end}")), None) for side in SIDES}
    return {side: path for side, path in found.items() if path}


def of_sides(name):
    """Both sides of NAME: of NAME.follow; or of NAME.left and NAME.right, or of NAME.left.hex and NAME.right.hex, in the order of
    NAME.order if it is there, or else of their times."""
    follow, order = f"{name}.follow", f"{name}.order"
    if os.path.exists(follow):
        return Text(parts_of(text_of(follow), follow))
    files = files_of(name)
    if not files:
        text_of(f"{name}.left")
    parts = [(frame, time, side, octets) for side, path in files.items() for frame, time, _, octets in parts_of(text_of(path), path)]
    if os.path.exists(order):
        return Text(in_order({side: b"".join(part[3] for part in parts if part[2] == side) for side in SIDES}, text_of(order), order))
    if all(time is not None for _, time, _, _ in parts):
        return Text(sorted(parts, key=lambda part: (part[1], part[0])))
    return Text(parts, len({side for _, _, side, _ in parts}) == 1)


def in_order(octets, order, name):
    """The parts of both sides, as a file says that they passed: a side and how many octets on each line."""
    parts, used = [], dict.fromkeys(SIDES, 0)
    for row in filter(None, (row.partition("#")[0].strip() for row in order.split("\n"))):
        found = ORDER.fullmatch(row)
        if not found:
            raise BadInput(f"{name}: this is no side and number of octets: {row[:40]!r}")
        side, count = found[1], int(found[2])
        parts.append((None, None, side, octets[side][used[side]:used[side] + count]))
        used[side] += count
    if any(used[side] != len(octets[side]) for side in SIDES):
        raise BadInput(f"{name}: it has not as many octets as the files of the sides")
    return [part for part in parts if part[3]]


def side_of(name, parts):
    """The side of a text that has one: the right one if its name says so, or if it begins with a CC."""
    octets = b"".join(octets for _, _, _, octets in parts)
    return SIDES[name.endswith((".right", ".right.hex")) or is_connect_confirm(octets)]


def is_text(path):
    """Whether a file is such a text and no capture of a network. (A pcapng begins with a line feed, but no text has a zero.)"""
    try:
        with open(path, "rb") as file:
            return re.fullmatch(rb"[\t\n\r ]*([0-9a-fA-F#][\t\n\r -~]*)?", file.read(4096)) is not None
    except OSError as error:
        raise BadInput(f"{path}: {error.strerror}") from None


def read(name):
    """Reads a text with one side or both, or the files of NAME that `split` wrote. None if the name is no text."""
    if not os.path.exists(name) and (os.path.exists(f"{name}.follow") or files_of(name)):
        return of_sides(name)
    if not os.path.isfile(name) or not is_text(name):
        return None
    parts = parts_of(text_of(name), name)
    if not parts:
        raise BadInput(f"{name}: there are no octets in it")
    if not any(side == SIDES[1] for _, _, side, _ in parts):
        side = side_of(name, parts)
        parts = [(frame, time, side, octets) for frame, time, _, octets in parts]
    return Text(parts)
