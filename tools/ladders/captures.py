"""Puts two captures, one of each direction, into one order from their listings: an answer comes after what it answers."""
import re

from .picture import CAPTURE_KEY, Arrow, Picture, Row
from .transcript import BadInput, other

LISTED = re.compile(r"(packet \d+ length \d+ code [0-9a-f]{2}|fault \d+ \w+|rest \d+)")
FIELD = re.compile(r"(\w+) (\S+)")
SESSION = re.compile(r"    (GT|PT|DT|NF|FN|DN|RF|CN|AC|AB|AA|RA|MAP|MAA|MIP|MIA|RS)( .*)?")
REFERENCE = "[0-9a-f]{4}"
TRANSPORT = re.compile(
    rf"  ((CR|CC) credit \d+ dst {REFERENCE} src {REFERENCE} class \d+ options \d+( \w+ [0-9a-f]*)*"
    rf"|DR dst {REFERENCE} src {REFERENCE} reason \d+|DC dst {REFERENCE} src {REFERENCE}"
    rf"|DT (dst {REFERENCE} )?number \d+ eot [01] octets \d+|AK credit \d+ dst {REFERENCE} number \d+"
    rf"|ER dst {REFERENCE} cause \d+|fault \d+ \w+)")
INSIDE = re.compile(r"    (tsdu \d+|fault \d+ \w+( \d+)?|perhaps the rest of a TSDU that began before)")
# The session unit of the other side that has to come before each of these.
ANSWERS = {"AC": "CN", "RF": "CN", "RA": "RS", "MAA": "MAP", "MIA": "MIP", "DN": "FN", "NF": "FN", "AA": "AB"}


class Packet:
    """A packet of a listing: its lines, what it gives, and what has to come before it."""

    def __init__(self, side, text):
        self.side, self.lines, self.gives, self.needs, self.names = side, [text], [], [], []
        self.reference = None
        self.octets = int(text.split(" ")[3]) if text.startswith("packet") else 0


def is_listing(text):
    """Whether a text is a listing and no capture."""
    return LISTED.match(text) is not None


def read(side, text):
    """The packets of a listing."""
    found = []
    for number, row in enumerate(text.rstrip("\n").split("\n"), 1):
        if LISTED.fullmatch(row):
            found.append(Packet(side, row))
        elif found and (TRANSPORT.fullmatch(row) or SESSION.fullmatch(row) or INSIDE.fullmatch(row)):
            found[-1].lines.append(row)
        else:
            raise BadInput(f"line {number} of the {side} listing is no line of `osi show`: {row[:60]!r}")
    return found


class Direction:
    """Counts what one side has sent so far."""

    def __init__(self):
        self.sent, self.units = {}, {}

    def count(self, name, key=None):
        """Counts one more of this name; how many there are now."""
        self.sent[name, key] = self.sent.get((name, key), 0) + 1
        return self.sent[name, key]


def relate(packets, sources):
    """Finds what each packet gives and needs. A key has a kind, a reference and a count."""
    direction = Direction()
    for packet in packets:
        reference = None
        for row in packet.lines[1:]:
            if row.startswith("    "):
                of_session(packet, direction, row, reference)
            else:
                reference = of_transport(packet, direction, row, sources) or reference
                packet.reference = packet.reference or reference


def of_transport(packet, direction, row, sources):
    """Takes a transport unit, and gives its connection, by the caller's reference."""
    name = row.split(" ", 3)[2]
    fields = dict(FIELD.findall(row[2:].partition(" ")[2]))
    packet.names.append(name)
    reference = connection_of(packet.side, fields, name, sources)
    if name == "CR":
        packet.gives.append(("CR", reference))
    elif name == "CC":
        packet.needs.append(("CR", reference))
        packet.gives.append(("CC", reference))
    elif name == "DR":
        packet.gives.append(("DR", reference))
        if packet.side == "right":
            packet.needs.append(("CR", reference))
    elif name == "DC":
        packet.needs.append(("DR", reference))
    elif name == "DT":
        count = direction.count("data unit", reference)
        packet.gives.append(("data unit", reference, count))
        packet.needs.append(("CC", reference) if packet.side == "left" else ("CR", reference))
    elif name == "AK":
        count = acknowledged(direction, reference, int(fields["number"]))
        packet.needs += [("data unit", reference, count)] if count else []
    return reference


def acknowledged(direction, reference, number):
    """How many data units an acknowledgement is for: numbers count modulo 128."""
    before = direction.units.get(reference, 0)
    after = before + (number - before) % 128
    direction.units[reference] = after
    return after


def connection_of(side, fields, name, sources):
    """The caller's reference of the connection of a unit: one for all in class 0."""
    if name in ("CR", "CC"):
        return fields["src"] if side == "left" else fields["dst"]
    if "dst" not in fields:
        return sources.get("only")
    mine = fields["dst"]
    if side == "right":
        return mine
    return sources.get(mine, mine)


def references(listings):
    """The caller's reference for each reference of the called end, from the connect confirms."""
    sources = {}
    for row in listings["right"].split("\n"):
        if row.startswith("  CC "):
            fields = dict(FIELD.findall(row[5:]))
            sources[fields["src"]] = fields["dst"]
            sources.setdefault("only", fields["dst"])
    for row in listings["left"].split("\n"):
        if row.startswith("  CR "):
            sources.setdefault("only", dict(FIELD.findall(row[5:]))["src"])
    return sources


def of_session(packet, direction, row, reference):
    """Takes a session unit: names it, and lets an answer need what it answers."""
    found = SESSION.fullmatch(row)
    if not found:
        return
    name = found.group(1)
    packet.names.append(name if not row.startswith("    DT") else "data")
    count = direction.count(name, reference)
    packet.gives.append((name, reference, count))
    if name not in ("CN", "AC", "RF", "AB"):
        packet.needs.append(("AC" if packet.side == "left" else "CN", reference, 1))
    if name == "MIA":
        packet.gives[-1:] = [("MIA", reference, count)]
        packet.needs.append(("MIP", reference, numbered(found)))
    elif name == "MIP":
        packet.gives.append(("MIP", reference, numbered(found)))
    elif name in ANSWERS:
        answered = direction.count(("answer to", ANSWERS[name]), reference)
        packet.needs.append((ANSWERS[name], reference, answered))


def numbered(found):
    """The serial number of a session unit, as the listing has it."""
    return "42=" + dict(re.findall(r" (\d+)=(\S*)", found.group(2) or "")).get("42", "")


def without_what_is_missing(packets):
    """Drops the needs that nothing in the other capture meets; the number of packets that had such needs."""
    missing = 0
    for side in ("left", "right"):
        given = {give for packet in packets[other(side)] for give in packet.gives}
        for packet in packets[side]:
            met = [need for need in packet.needs if need in given]
            missing += len(met) < len(packet.needs)
            packet.needs = met
    return missing


def merge(left, right):
    """One order of the packets of both, each after what it needs; and how often that was not possible."""
    queues, given, order, broken = {"left": left, "right": right}, {"left": set(), "right": set()}, [], 0
    place, side = {"left": 0, "right": 0}, "left"
    while place["left"] < len(left) or place["right"] < len(right):
        for each in (side, other(side)):
            waiting = queues[each][place[each]:place[each] + 1]
            if waiting and given[other(each)].issuperset(waiting[0].needs):
                side = each
                break
        else:
            side = side if place[side] < len(queues[side]) else other(side)
            broken += 1
        packet = queues[side][place[side]]
        place[side] += 1
        given[side].update(packet.gives)
        order.append(packet)
    return order, broken


def picture_of(listings, title):
    """The picture of two listings."""
    packets = {side: read(side, text) for side, text in listings.items()}
    sources = references(listings)
    for side in ("left", "right"):
        relate(packets[side], sources)
    missing = without_what_is_missing(packets)
    order, broken = merge(packets["left"], packets["right"])
    made = Picture(title, f"A ladder of two captures, {len(packets['left'])} and {len(packets['right'])} packets and "
                          "ends, in an order in which each packet comes after those that it must follow. "
                          "Times are not known.")
    made.key, made.has_tokens = CAPTURE_KEY, False
    index = 0
    for packet in order:
        index = add_packet(made, packet, index)
    made.connections = sorted({row.connection for row in made.rows if row.connection is not None}) or [1]
    made.spans = {(side, number): (0, None) for number in made.connections for side in ("left", "right")}
    made.notes = notes_of(missing, broken)
    return made


def notes_of(missing, broken):
    """The notes below a picture of two captures."""
    notes = ["Captures have no times. If neither of two packets has to come first, their order here is arbitrary."]
    if missing:
        notes.append(f"{missing} packet{'s' * (missing > 1)} answer{'s' * (missing == 1)} something that is not in the "
                     "capture of the other side.")
    if broken:
        one = broken == 1
        notes.append(f"{broken} packet{'s' * (not one)} come{'s' * one} before what {'it' if one else 'they'} must follow: "
                     "the captures contradict each other.")
    return notes


def add_packet(made, packet, index):
    """Adds the rows and the arrow of a packet; the index after it."""
    start, number = index, int(packet.reference, 16) if packet.reference else None
    for row in packet.lines:
        mark = "call" if index == start and packet.octets else "carried"
        made.rows.append(Row(index, row, row.strip(), packet.side, number, mark))
        made.rows[-1].muted = row.startswith("packet")
        index += 1
    if packet.octets:
        label = f"{' '.join(name for name in packet.names if name != 'GT') or 'packet'} {packet.octets}"
        arrow = Arrow(packet.side, number, start, index - 1, 0, 1, label,
                      f"{packet.side}: {label} octets")
        arrow.minor = set(packet.names) == {"AK"}
        made.arrows.append(arrow)
    return index
