"""The picture of a capture of both sides: its packets in the order in which they passed, with the time of each if that is known."""
import re

from . import captures, choosing, verdicts
from .history import TOKENS
from .picture import TIMES_KEY, Arrow, Picture, Row
from .transcript import SIDES, BadInput

KEY = ("● a packet as it passed the tap; the number before it is its offset in its direction · × a packet that can't be read",
       "An arrow is a packet. DT (1/3) is the first of three parts of a data. Dashed: an acknowledgement.")
SIDES_OF = "arc?"
NOTE = re.compile(r"# (\d+(?:\.\d+)?) frame (\d+)")
SESSION = re.compile(r"    ([A-Z]+)((?: .*)?)")
# A part of a data, and in its enclosure item whether it is the first (1) and the last (2) of its parts.
PART = re.compile(r"    DT (?:.* )?25=0([0-3]) (?:.* )?octets \d+")
FIRST, LAST = 1, 2


class Piece:
    """Octets of one side that passed together, and the frame and the time at which they did, if these are known."""

    __slots__ = ("side", "octets", "frame", "time")

    def __init__(self, side, octets, frame=None, time=None):
        self.side, self.octets, self.frame, self.time = side, octets, frame, time


def lines_of(text):
    """The octets of a text as `osi judge` reads it: for each line that has any, whether it begins with a tab, its octets, and the frame
    and the time of the comment `# TIME frame N` before it. An octet belongs to the line of its first digit."""
    found, half, frame, time = [], "", None, None
    for row in text.split("\n"):
        noted = NOTE.match(row)
        frame, time = (int(noted[2]), float(noted[1])) if noted else (frame, time)
        digits = re.sub(r"[ \t\r]", "", row.partition("#")[0])
        if not re.fullmatch("[0-9a-fA-F]*", digits):
            raise BadInput("the capture has something other than hexadecimal digits, blanks and comments")
        if half and digits:
            found[-1][1], digits, half = found[-1][1] + half + digits[0], digits[1:], ""
        if len(digits) % 2:
            digits, half = digits[:-1], digits[-1]
        if digits or half:
            found.append([row.startswith("\t"), digits, frame, time])
    if half:
        raise BadInput("the capture ends within an octet")
    return [(tabbed, bytes.fromhex(digits), frame, time) for tabbed, digits, frame, time in found if digits]


def read(text):
    """Reads a capture as `osi judge` does: a line is a piece of one side, of the called one (right) if it begins with a tab."""
    found = lines_of(text)
    if not found:
        raise BadInput("the capture has no octets")
    return [Piece(SIDES[tabbed], octets, frame, time) for tabbed, octets, frame, time in found]


def text_of(pieces):
    """A capture as `osi judge` reads it."""
    return "".join("\t" * (piece.side == "right") + piece.octets.hex() + "\n" for piece in pieces)


def octets_of(pieces, side):
    """What a side sent."""
    return b"".join(piece.octets for piece in pieces if piece.side == side)


class Step:
    """A packet, or the octets at the end of a side that are none; when it had passed; and if it has a part of a data, the place of the
    part and the number of parts. A judged capture has the verdict on everything up to it, if that is known. `others` are equal packets
    after it, which have no row."""

    def __init__(self, packet, start, passed, piece=None):
        self.packet, self.side, self.start, self.passed, self.piece = packet, packet.side, start, passed, piece
        self.part = self.verdict = None
        self.bands, self.others = [], []

    @property
    def tokens(self):
        """The tokens that a GT in it names."""
        given = [int(text, 16) for row in self.packet.lines for text in re.findall(r"^    GT 16=([0-9a-f]{2})", row)]
        return [name for name, bit, _ in TOKENS if given and given[0] & bit]

    @property
    def connection(self):
        """The number of its connection, which is the caller's reference; or None."""
        return int(self.packet.reference, 16) if self.packet.reference else None

    def since(self, side, token):
        """Since when a side held a token when this packet passed, or None."""
        for band in self.bands:
            if (band.side, band.token) == (side, token):
                return band.since
        return None


def steps_of(pieces, listings):
    """The packets of both listings, and the octets that are none, in the order in which their last octets passed."""
    ends, sources = {side: [] for side in SIDES}, captures.references(listings)
    for place, piece in enumerate(pieces):
        before = ends[piece.side][-1][0] if ends[piece.side] else 0
        ends[piece.side].append((before + len(piece.octets), place))
    found = []
    for side in SIDES:
        packets = captures.read(side, listings[side]) if listings[side] else []
        captures.relate(packets, sources)
        found += steps_of_side(side, packets, ends[side], pieces)
    steps = [step for _, _, step in sorted(found, key=lambda each: each[:2])]
    number_parts(steps)
    return steps


def steps_of_side(side, packets, ends, pieces):
    """The packets of a side: for each the place of the piece with its last octet, where it ends, and the step. Octets that are no packet
    are where the first of them is."""
    whole, start, place = (ends[-1][0] if ends else 0), 0, 0
    for packet in packets:
        length = packet.octets or whole - start
        if not length:
            continue
        if start + length > whole or not packet.lines[0].startswith(("rest", f"packet {start} ", f"fault {start} ")):
            raise BadInput(f"the listing of {side} is not that of the capture: {packet.lines[0]}")
        end = start + length if packet.octets else start + 1
        while ends[place][0] < end:
            place += 1
        at = ends[place][1]
        yield at, end, Step(packet, start, (side, start + (length if packet.octets else min(length, 4))), pieces[at])
        start += length


def number_parts(steps):
    """Gives each part of a data its place, and the number of parts if the last one is there."""
    begun = {}
    for step in steps:
        bits = next((int(found[1]) for found in map(PART.fullmatch, step.packet.lines) if found), FIRST | LAST)
        if bits == FIRST | LAST:
            continue
        key = step.side, step.packet.reference
        parts = [] if bits & FIRST else begun.get(key, [])
        begun[key] = [*parts, step]
        step.part = len(begun[key]), None
        if bits & LAST:
            name_parts(begun.pop(key))


def name_parts(parts):
    """Gives all parts of a data their places."""
    for place, step in enumerate(parts, 1):
        step.part = place, len(parts)


def times_of(pieces, steps):
    """The seconds of each packet after the first octets, as text; None where the time is not known."""
    begin = next((piece.time for piece in pieces if piece.time is not None), None)
    return [None if step.piece is None or step.piece.time is None else f"{step.piece.time - begin:.6f}" for step in steps]


def plain_data(step):
    """What a packet with nothing but data has in common with others like it; None for any other packet."""
    named = described(step).partition(": ")[2]
    return (step.side, step.connection, named) if re.fullmatch(r"DT \d+ octets", named) else None


def again(step, text):
    """A text with how often such a packet came, if that is more than once."""
    return re.sub(r"\bDT\b", f"DT x {1 + len(step.others):,},", text, count=1) if step.others else text


def described(step):
    """A packet in a line, as the text of its row."""
    packet = step.packet
    if not packet.octets:
        return packet.lines[0]
    units = [row for row in packet.lines[1:] if row.startswith("    ")]
    named = [told for told in (of_session(row) for row in units) if told]
    if not named:
        named = [row.strip().split(" ")[0] + (", unfinished" if " eot 0 " in row else "") for row in packet.lines[1:2]]
        named += [row.strip() for row in units if row.strip().startswith(("fault", "perhaps"))]
    return f"{packet.lines[0].split(' ')[1]}: " + with_part(" ".join(named), step)


def with_part(text, step):
    """A text with the place of the part, if the packet has one."""
    if not step.part:
        return text
    place, of = step.part
    return re.sub(r"\bDT\b", f"DT ({place}/{of or '?'})", text, count=1)


def of_session(row):
    """A session unit in some words: its name, its number, tokens, sides and octets; nothing of an empty GT."""
    found = SESSION.fullmatch(row)
    if not found:
        return None
    name, values = found.group(1), dict(re.findall(r"(\d+)=([0-9a-f]*)", found.group(2)))
    parts = [values["20"]] if "20" in values else []
    parts += [bytes.fromhex(values["42"]).decode("ascii", "replace")] if "42" in values else []
    parts += [" ".join(verdicts.letters(int(values["16"], 16)))] if "16" in values else []
    parts += ["sides " + sides_of(int(values["26"], 16))] if "26" in values else []
    parts += [values["17"] + reason_of(int(values["17"], 16))] if "17" in values else []
    parts += re.findall(r" octets (\d+)", found.group(2))[:1] and [found.group(2).split(" octets ")[1] + " octets"]
    return " ".join([name, *parts]) if parts or name != "GT" else None


def reason_of(bits):
    """What the bits of an abort say."""
    return ", protocol error" if bits & 4 else ", by the user" if bits & 2 else ""


def sides_of(setting):
    """The letters of a token setting, as transcripts have them: data, minor, major, release."""
    return "".join(SIDES_OF[setting >> 2 * place & 3] for place in range(4))


def row_of(step, index, time, connection, mark):
    """The row of a packet."""
    row = Row(index, "; ".join(line.strip() for line in step.packet.lines), again(step, described(step)), step.side, connection, mark)
    row.time, row.frame = time, str(step.piece.frame) if step.piece and step.piece.frame is not None else None
    if step.others and step.others[-1].piece.frame is not None:
        row.note = f"up to frame {step.others[-1].piece.frame}"
    return row


def arrow_of(step, index, end, time, connection):
    """The arrow of a packet."""
    names = [row.split()[0] for row in step.packet.lines[1:] if SESSION.fullmatch(row)] or \
        [row.split()[0] for row in step.packet.lines[1:2]]
    label = with_part(" ".join(name for name in names if name != "GT" or len(names) == 1) or "packet", step)
    when = f", frame {step.piece.frame}, {time} seconds" if time else ""
    label = again(step, label).rstrip(",")
    arrow = Arrow(step.side, connection, index, end, 0, 1, f"{label} {step.packet.octets}" if not step.others else label,
                  f"{step.side}: packet at octet {step.start}, {label}, {step.packet.octets} octets{when}")
    arrow.minor, arrow.carry = set(names) == {"AK"}, index
    return arrow


def picture_of(pieces, listings, title, chosen=None, first="1", last=str(10 ** 12), upper=None):
    """The picture of a capture from one place to another; `chosen` are the connections that are shown, or None for all, and `upper` what
    tshark calls the layers above, by frame."""
    every = steps_of(pieces, listings)
    if not every:
        raise BadInput("there is no packet in the capture")
    present = {step.connection for step in every} - {None}
    for number in set(chosen or ()) - present:
        raise BadInput(f"there is no connection {number}")
    numbers = sorted(chosen or present)
    steps, notes = choosing.shown(every, first, last, plain_data)
    times = times_of(pieces, steps)
    made = Picture(title, describe(every, times_of(pieces, every), numbers))
    made.key = KEY + (TIMES_KEY if any(times) else ())
    made.is_chosen, made.has_tokens, made.connections = True, False, numbers or [1]
    spans = spans_of(steps)
    made.spans = {(side, number): spans.get(number, (0, None)) for number in made.connections for side in SIDES}
    for index, (step, time) in enumerate(zip(steps, times)):
        if not chosen or step.connection in numbers:
            add_packet(made, step, index, time)
            made.rows[-1].pause = choosing.pause(steps[index - 1] if index else None, step)
            note_upper(made.rows[-1], step, upper)
    if len(present) > 1:
        name_connections(made.rows)
    made.notes = notes_of(times_of(pieces, every), len(present) - len(numbers)) + notes
    return made


def note_upper(row, step, upper):
    """Adds what tshark calls the layers above to the note of a row, if that was asked for."""
    told = (upper or {}).get(step.piece.frame) if step.piece else None
    if told:
        row.note = f"{row.note}; {told}" if row.note else told


def add_packet(made, step, index, time):
    """Adds the row and the arrow of a packet."""
    is_wrong = any(row.strip().startswith("fault ") for row in step.packet.lines)
    mark = "refused" if is_wrong else "call" if step.packet.octets else "carried"
    made.rows.append(row_of(step, index, time, step.connection, mark))
    if step.packet.octets:
        made.arrows.append(arrow_of(step, index, index, time, step.connection))


def name_connections(rows):
    """Writes the number of its connection in front of the text of each row."""
    for row in rows:
        row.text = row.text if row.connection is None else f"{row.connection} at {row.text}"


def spans_of(steps):
    """For each connection the row of its first packet, and that of the packet that ended it in transport, or None."""
    spans, agreed = {}, set()
    for index, step in enumerate(steps):
        number, names = step.connection, step.packet.names
        begun, ended = spans.get(number, (index, None))
        agreed.update([number] if "CC" in names else ())
        is_end = "DC" in names or ("DR" in names and number not in agreed)
        spans[number] = begun, index if is_end else ended
    return spans


def describe(steps, times, shown):
    """A description of the picture, for a reader who can't see it."""
    counts = {side: sum(step.side == side for step in steps) for side in SIDES}
    last = next((time for time in reversed(times) if time), None)
    numbers = ", ".join(map(str, shown[:12])) + (" and more" if len(shown) > 12 else "")
    return (f"A ladder of a capture of both sides, time downwards: {counts['left']} packets of left and {counts['right']} of right, "
            f"in the order in which they passed{f', in {last} seconds' if last else ''}; connections shown: {numbers or 'none'}.")


def notes_of(times, hidden):
    """The notes below the picture."""
    notes = [] if all(times) else ["The capture has no times." if not any(times) else "The capture doesn't say when some packets passed."]
    return notes + ([f"Not shown: {hidden} more connection{'s' * (hidden > 1)}."] if hidden else [])
