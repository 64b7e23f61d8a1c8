"""Other protocols in TPKT packets, or at the port of TPKT, which carry no session: how each is known by its first octets."""
from . import units
from .streams import CODES, SIDES, is_packet, may_be_packet, packets

# The units of X.225 by their SI with which a session begins: CN or AB of the caller; RF, AC, OA or AB of the other side.
CALLS, ANSWERS = (b"\x0d", b"\x19"), (b"\x0c", b"\x0e", b"\x10", b"\x19")
CONNECT, ACCEPT = b"\x0d", b"\x0e"
# The parameters with which a CN begins (X.225 section 8.3.1), and in the one of connect and accept the versions that are offered.
FIRST_PARAMETERS, CONNECT_ACCEPT, VERSIONS, VERSION_2 = (1, 5, 20, 51, 52, 60, 193, 194), 5, 22, 2
VERSION_1 = "the session has version 1 of X.225, and only version 2 is judged"
# What the first TSDU of an application begins with that has no session below it.
BEGINS = ((b"\x32", "S7comm"), (b"\x72", "S7comm-plus"), (b"\x7f\x65", "RDP (T.125)"), (b"\x21\x80", "RDP (T.125)"),
           (b"\x16\x03", "TLS"))
DATA, REQUESTS, RECORD = 0xF0, (0xE0, 0xD0), b"\x16\x03"
# What a load balancer writes in front of a connection, if it uses the PROXY protocol of version 1 or 2.
BALANCERS = (b"PROXY ", b"\r\n\r\n\0\r\nQUIT\n")
# What a side begins with that has another protocol than TPKT. Text is named if it has so many octets at least.
PLAIN = (((b"\x15\3", b"\x16\3"), "TLS"), ((b"SSH-",), "SSH"), ((b"HTTP/", b"GET ", b"HEAD ", b"POST ", b"OPTIONS "), "HTTP"),
         ((b"\xff\xfb", b"\xff\xfd"), "Telnet"))
TEXT, LEAST = frozenset(b"\t\r\n" + bytes(range(32, 127))), 4
MOST = 65_536


def why_not(stream):
    """Why a stream isn't judged that is here from its beginning, by the protocol that it carries; or None."""
    fronts = fronts_of(stream)
    kind = of_fronts(*fronts)
    if kind:
        return f"{kind}, not a session"
    return VERSION_1 if is_version_1(*fronts) else None


def of(stream):
    """The name of the protocol of a stream from its beginning, if it is none with sessions; or None."""
    return of_fronts(*fronts_of(stream))


def of_fronts(left, right):
    """The same by the first octets of each side."""
    if not any(octets and may_be_packet(octets) for octets in (left, right)):
        return "no TPKT" if left or right else None
    if left.startswith(BALANCERS):
        return "the PROXY protocol of a load balancer"
    return plain(left) or plain(right) or below_transport(left, right) or of_requests(left, right) or of_first_data(left, right)


def plain(octets):
    """The protocol of a side that begins with no packet, by its first octets; or None."""
    known = next((name for begins, name in PLAIN if octets.startswith(begins)), None)
    return known or ("text" if len(octets) >= LEAST and TEXT.issuperset(octets[:2 * LEAST]) else None)


def is_version_1(left, right):
    """Whether the first CN offers version 1 of X.225 alone, and an AC has it, too."""
    call, answer = (first_data(octets)[0] or b"" for octets in (left, right))
    return call[:1] == CONNECT and answer[:1] == ACCEPT and not any(version & VERSION_2 for version in map(versions, (call, answer)))


def versions(unit):
    """The versions that a CN or AC has, a bit for each; 1 if it has none."""
    item = units.parameters(unit).get(CONNECT_ACCEPT, b"") if len(unit) > 1 else b""
    found = units.parameters(bytes([CONNECT_ACCEPT, len(item)]) + item).get(VERSIONS, b"") if 1 < len(item) < 255 else b""
    return found[0] if found else 1


def fronts_of(stream):
    """The first octets of each side: at most some packets."""
    fronts = dict.fromkeys(SIDES, b"")
    for side, piece in stream.by_side():
        if len(fronts[side]) < MOST:
            fronts[side] += piece.octets
        elif all(len(front) >= MOST for front in fronts.values()):
            break
    return fronts[SIDES[0]], fronts[SIDES[1]]


def transport_units(octets):
    """The transport units of the first packets, and at last what is no packet."""
    for start, length in packets(octets):
        yield octets[start + 4:start + length] if is_packet(octets[start:start + 4]) else None


def below_transport(left, right):
    """A protocol that uses TPKT without X.224, by the first packet of the caller, or of the other side if the caller sent nothing."""
    octets = left or right
    unit = octets[4:]
    if not is_packet(octets) or len(unit) < 2 or unit[1] & 0xF0 in CODES:
        return None
    if unit[0] == 8 and unit[1] < 4:
        return "Q.931 (H.225)"
    return "MEGACO" if unit.startswith((b"MEGACO/", b"!/")) else "TPKT without X.224"


def of_requests(left, right):
    """RDP writes text and a request of its own into the CR, and its answer into the CC (MS-RDPBCGR section 2.2.1)."""
    for octets in (left, right):
        unit = next(transport_units(octets), None)
        if unit and len(unit) > 6 and unit[1] & 0xF0 in REQUESTS:
            more = unit[7:1 + unit[0]]
            if b"Cookie: " in more or b"mstshash=" in more or is_negotiation(more[-8:]):
                return "RDP"
    return None


def is_negotiation(octets):
    """Whether octets are a request, an answer or a failure of RDP's negotiation."""
    return len(octets) == 8 and octets[0] in (1, 2, 3) and octets[2:4] == b"\x08\0" and octets[5:] == bytes(3)


def of_first_data(left, right):
    """The protocol by the first octets above transport of both sides. A session is one that begins as a session does: data of another
    protocol may begin as any other unit of X.225."""
    (call, is_whole), (answer, is_answer_whole) = (first_data(octets) for octets in (left, right))
    first = call or answer or b""
    known = next((name for begin, name in BEGINS if first.startswith(begin)), None)
    if known or call is None and answer is None or answer and answer[:1] in ANSWERS and is_as_long_as_told(answer, is_answer_whole):
        return known
    if call and call[:1] in CALLS and (is_as_long_as_told(call, is_whole) or not answer and is_as_connect(call)):
        return None
    return f"a protocol whose data begins with {first[:2].hex()}" if first else "a protocol whose data begins with an empty TSDU"


def is_as_long_as_told(octets, is_whole):
    """Whether a session unit, or its first octets if it isn't whole, is as long as its length indicator says."""
    if len(octets) < 2:
        return not is_whole
    head, length = units.past(octets, 1)
    return len(octets) == head + length if is_whole else len(octets) < head + length


def is_as_connect(octets):
    """Whether octets begin as a CN does, whatever its length."""
    head = units.past(octets, 1)[0] if len(octets) > 1 else 0
    return octets[:1] == CONNECT and octets[head:head + 1] != b"" and octets[head] in FIRST_PARAMETERS


def first_data(octets):
    """What the first TSDU has that isn't empty, as far as it is here, and whether it is whole; or the record of TLS that comes in place of
    a packet. If all are empty, that is nothing, and None if there is none."""
    at, found, whose = 0, None, None
    for unit in transport_units(octets):
        if unit is None:
            return (octets[at:at + 2] if at and not found and octets.startswith(RECORD, at) else found), False
        at += 4 + len(unit)
        if len(unit) > 2 and unit[1] & 0xF0 == DATA and len(unit) > unit[0] and (not found or unit[2:unit[0]] == whose):
            found, whose = (found or b"") + unit[1 + unit[0]:], unit[2:unit[0]]
            if found and unit[unit[0]] >= 0x80:
                return found, True
    return found, False
