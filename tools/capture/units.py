"""What the packets of one direction hold, as far as it is needed to tell how a connection ended: transport units and session units."""
from .streams import is_packet

TRANSPORT = {0xE0: "CR", 0xD0: "CC", 0x80: "DR", 0xC0: "DC", 0x70: "ER", 0xF0: "DT"}
SESSION = {8: "NF", 9: "FN", 10: "DN", 12: "RF", 13: "CN", 14: "AC", 25: "AB", 26: "AA"}
TOKENS = (1, 2)
# The header of a DT of class 0 that is a whole TSDU of data, and its GT and DT: nothing in it ends a connection.
PLAIN = b"\x02\xf0\x80\x01\x00\x01\x00"
TRANSPORT_DISCONNECT, REASON = 17, 50


class Unit:
    """A unit: its name, where its packet begins and ends in its direction, its reason if it has one, and whether it says that the
    transport connection is kept for another session (bit 1 of transport disconnect is 0; X.225 section 8.3)."""

    __slots__ = ("name", "start", "end", "reason", "keeps")

    def __init__(self, name, start, end, reason=None, keeps=False):
        self.name, self.start, self.end, self.reason, self.keeps = name, start, end, reason, keeps


class Reader:
    """Reads one direction piece by piece, and finds the units that open or end a connection. It stops at octets that are no packet."""

    def __init__(self):
        self.rest, self.at, self.going = b"", 0, set()

    def feed(self, octets):
        """The units of the packets that end in these octets."""
        octets, at = self.rest + octets if self.rest else octets, 0
        while is_packet(octets[at:at + 4]):
            end = at + int.from_bytes(octets[at + 2:at + 4], "big")
            if end > len(octets):
                break
            if not octets.startswith(PLAIN, at + 4):
                found = of_packet(octets[at + 4:end], self.at + at, self.at + end, self.going)
                if found:
                    yield found
            at = end
        self.rest, self.at = octets[at:], self.at + at


def of_packet(unit, start, end, going):
    """The unit of a packet, or None; `going` has the references of the TSDUs that have begun."""
    name = TRANSPORT.get(unit[1] & 0xF0)
    head = 1 + unit[0]
    if name == "DT" and len(unit) >= head > 2:
        reference = unit[2:4] if head > 3 else b""
        is_begun = reference in going
        (going.discard if unit[head - 1] & 0x80 else going.add)(reference)
        return None if is_begun else of_session(unit[head:], start, end)
    if name in ("DR", "ER") and len(unit) > 6 - 2 * (name == "ER"):
        return Unit(name, start, end, unit[6 if name == "DR" else 4])
    return Unit(name, start, end) if name in ("CR", "CC", "DC") else None


def of_session(tsdu, start, end):
    """The session unit with which a TSDU begins, or None."""
    if len(tsdu) < 2:
        return None
    name, values = SESSION.get(tsdu[0]), {}
    if name in ("AB", "RF", "FN"):
        values = parameters(tsdu)
    disconnect = values.get(TRANSPORT_DISCONNECT)
    reason = {"AB": disconnect, "RF": values.get(REASON)}.get(name)
    return Unit(name, start, end, reason[0] if reason else None, bool(disconnect) and not disconnect[0] & 1) if name else None


def parameters(unit):
    """The parameters of a session unit that are in no group."""
    at, end = past(unit, 1)
    found, end = {}, min(at + end, len(unit))
    while at + 1 < end:
        code = unit[at]
        at, length = past(unit, at + 1)
        found[code] = unit[at:at + length]
        at += length
    return found


def past(octets, at):
    """The place after a length indicator, and the length; a long one has three octets."""
    if octets[at] != 255:
        return at + 1, octets[at]
    return at + 3, int.from_bytes(octets[at + 1:at + 3], "big")
