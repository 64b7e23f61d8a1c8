"""Lists a stream or a text by `osi show`, both directions in the order in which they passed, with times."""
import re
import subprocess

from ladders.script import MOST_OCTETS, beside

from .middle import Middle
from .streams import SIDES, packets
from .tshark import BadInput

PACKET = re.compile(r"packet (\d+) length (\d+) code ([0-9a-f]{2})")
FAULT = re.compile(r"fault (\d+) \w+")
DATA_UNIT = re.compile(r"  DT (?:dst ([0-9a-f]{4}) )?number \d+ eot ([01]) octets (\d+)")
FAULT_WITHIN = re.compile(r"    fault \d+ \w+( \d+)?")
# What is said in place of a fault that may be none (captures.INSIDE of the ladders knows it).
REST = "    perhaps the rest of a TSDU that began before"
DATA = re.compile(r"    DT .*?octets (\d+)")
# User data of another session unit, or extended user data (X.225 section 8).
USER_DATA = re.compile(r"    [A-Z]+ (?:.* )?19[34]=([0-9a-f]*)(?: .*)?")


class Line:
    """A line of a listing: its side, the piece with which its packet had passed, and its user data."""

    __slots__ = ("side", "piece", "text", "data")

    def __init__(self, side, piece, text, data=None):
        self.side, self.piece, self.text, self.data = side, piece, text, data

    @property
    def frame(self):
        return self.piece.frame

    @property
    def time(self):
        return self.piece.time


def program(asked):
    """The program `osi`: the one of the option, else the one of this repository or beside this program, else the one on the path."""
    return asked or beside()


def shown(osi, octets):
    """The lines that `osi show` prints for the octets of one side."""
    if len(octets) > MOST_OCTETS:
        raise BadInput(f"a side sent {len(octets):,} octets, and osi show lists at most {MOST_OCTETS:,} of a side")
    try:
        done = subprocess.run([osi, "show"], input=octets.hex(), capture_output=True, text=True, check=False)
    except OSError as error:
        raise BadInput(f"{osi} can't be run: {error.strerror}") from None
    if done.returncode not in (0, 1) or not done.stdout:
        said = [line for line in done.stderr.splitlines() if line.startswith("osi: ") and "not built" not in line]
        raise BadInput(f"{osi} show printed nothing" + (f": {said[-1]}" if said else ""))
    return done.stdout.splitlines()


def from_middle(rows):
    """The rows of a direction from the middle: the first TSDU of each reference may be the rest of one, so that a fault in it is none."""
    begun, is_rest = set(), False
    for row in rows:
        unit = DATA_UNIT.fullmatch(row)
        if unit and unit.group(2) == "1":
            is_rest = unit.group(1) not in begun
            begun.add(unit.group(1))
        elif not row.startswith("    "):
            is_rest = False
        yield REST if is_rest and FAULT_WITHIN.fullmatch(row) else row


class Passing:
    """Finds when an octet of a direction passed."""

    def __init__(self, pieces):
        self.pieces, self.place = pieces, 0

    def at(self, octet):
        """The piece that has this octet; octets are asked for in rising order."""
        while self.place + 1 < len(self.pieces) and self.pieces[self.place + 1].start <= octet:
            self.place += 1
        return self.pieces[self.place]


class Joining:
    """Joins data units to TSDUs, by their references, to find the user data of session units."""

    def __init__(self):
        self.parts, self.tsdu = {}, b""

    def take(self, packet, text):
        """The user data of a line, or None."""
        unit = DATA_UNIT.fullmatch(text)
        if unit:
            reference, eot, count = unit.groups()
            joined = self.parts.pop(reference, b"") + packet[len(packet) - int(count):]
            if eot == "1":
                self.tsdu = joined
            else:
                self.parts[reference] = joined
        data, other = DATA.fullmatch(text), USER_DATA.fullmatch(text)
        if data:
            return self.tsdu[len(self.tsdu) - int(data.group(1)):]
        return bytes.fromhex(other.group(1)) if other else None


def lines_of(side, pieces, osi, is_middle=False):
    """The lines of one direction: each packet at the time at which its last octet passed, and octets that are none at that of the first."""
    octets = b"".join(piece.octets for piece in pieces)
    passing, joining, packet, end, piece, found = Passing(pieces), Joining(), b"", 0, None, []
    rows = shown(osi, octets)
    for text in from_middle(rows) if is_middle else rows:
        begun, fault = PACKET.fullmatch(text), FAULT.fullmatch(text)
        if begun:
            start, length = int(begun.group(1)), int(begun.group(2))
            end = start + length
            packet, piece = octets[start:end], passing.at(end - 1)
        elif fault or text.startswith("rest "):
            piece = passing.at(min(int(fault.group(1)) if fault else end, len(octets) - 1))
        piece = piece or pieces[-1]
        found.append(Line(side, piece, text, joining.take(packet, text)))
    return found


def lines(stream, osi):
    """The lines of both directions in the order in which their packets passed."""
    sides, places = {side: [] for side in SIDES}, {}
    for place, (side, piece) in enumerate(stream.by_side()):
        sides[side].append(piece)
        places[piece] = place
    is_middle = isinstance(stream, Middle)
    groups = [group for side in SIDES if sides[side] for group in by_packet(lines_of(side, sides[side], osi, is_middle))]
    groups.sort(key=lambda group: places[group[0].piece])
    return [line for group in groups for line in group]


def begin(stream):
    """The time at which the first octets passed, or the first segment if none did, as far as times are known."""
    since = getattr(stream, "since", None)
    return next((piece.time for _, piece in stream.by_side() if piece.time is not None), since[1] if since else 0)


def by_packet(found):
    """The lines in groups, one for each packet; a line after the last packet is another group."""
    groups = []
    for line in found:
        if line.text.startswith(" ") and groups:
            groups[-1].append(line)
        else:
            groups.append([line])
    return groups


__all__ = ["Line", "lines", "packets", "program"]
