"""The listing of one packet, from docs/TOOL.md, docs/TRANSPORT.md and docs/SESSIONS.md, written for
the trials without a look at the code that is proved: plain Python, which reads octets from left to right.

`listing(octets)` is what `osi show` is to print of a capture of these octets, one packet or less.
"""
FIRST = {13: (10, 11, 12), 12: (9, 11, 12), 14: (9, 11, 12)}
FIFTH = (19, 21, 22, 23, 26)
# SI: name, category, known codes, codes that have to be there
UNITS = {
    1: ("GT", 0, (16,), ()), 2: ("PT", 0, (16, 193), ()), 8: ("NF", 1, (25, 193), ()), 9: ("FN", 1, (17, 25, 193), ()),
    10: ("DN", 1, (25, 193), ()), 12: ("RF", 1, (1, 17, 20, 22, 25, 50), ()),
    13: ("CN", 1, (1, 5, 20, 51, 52, 193, 194), ()), 14: ("AC", 1, (1, 5, 16, 20, 25, 51, 52, 193), ()),
    25: ("AB", 1, (17, 25, 49, 193), ()), 26: ("AA", 1, (), ()), 34: ("RA", 2, (25, 26, 42, 193), (42,)),
    41: ("MAP", 2, (15, 25, 42, 193), (42,)), 42: ("MAA", 2, (25, 42, 193), (42,)), 49: ("MIP", 2, (15, 25, 42, 193), (42,)),
    50: ("MIA", 2, (25, 42, 193), (42,)), 53: ("RS", 2, (25, 26, 27, 42, 193), (27, 42)),
}
DT = ("DT", 2, (25,), ())


class Fault(Exception):
    def __init__(self, name, offset, code=None):
        super().__init__(name)
        self.text = f"fault {offset} {name}" + ("" if code is None else f" {code}")


# ---- session units

def item(octets, at, end):
    """Code, value's place and end of the parameter or unit at a place; None if its length passes the end."""
    if at + 1 >= end:
        return None
    length, begin = octets[at + 1], at + 2
    if length == 255:
        if at + 3 >= end:
            return None
        length, begin = octets[at + 2] * 256 + octets[at + 3], at + 4
    return (octets[at], begin, begin + length) if begin + length <= end else None


def value(code, octets):
    """A value as the listing writes it; None if this code can't have it."""
    one = len(octets) == 1
    if code in (15, 16):
        return bytes([octets[0] & (0x01 if code == 15 else 0x55)]) if one else None
    if code in (17, 19, 22):
        return octets if one else None
    if code == 20:
        return octets if len(octets) == 2 else None
    if code == 21:
        return octets if len(octets) == 4 else None
    if code in (23, 42):
        digits = 1 <= len(octets) <= 6 and all(0x30 <= octet <= 0x39 for octet in octets)
        return str(int(octets)).encode() if digits else None
    if code == 25:
        return octets if octets == b"\x03" else None
    if code == 26:
        return octets if one and all(octets[0] >> bit & 3 != 3 for bit in (0, 2, 4, 6)) else None
    if code == 27:
        return octets if one and octets[0] <= 2 else None
    if code == 50:
        return octets if octets else None
    if code in (51, 52):
        return octets if len(octets) <= 16 else None
    return octets


def parameters(octets, at, end, known, groups):
    """The parameters that are there, by code; the value of a group is its parameters."""
    found = {}
    while at < end:
        read = item(octets, at, end)
        if read is None:
            raise Fault("LengthPastEnd", at)
        code, begin, behind = read
        if code in known:
            both = 193 if code == 194 else code
            if both in found:
                raise Fault("DuplicateParameter", at, code)
            if code in groups:
                found[code] = parameters(octets, begin, behind, groups[code], {})
            else:
                found[both] = value(code, octets[begin:behind])
                if found[both] is None:
                    raise Fault("BadValue", at, code)
        at = behind
    return found


def shown(name, found):
    words = []
    for code in sorted(found):
        if isinstance(found[code], dict):
            inner = " ".join(f"{one}={found[code][one].hex()}" for one in sorted(found[code]))
            words.append(f"{code}({inner})")
        elif code != 193 or found[code]:
            written = 194 if code == 193 and name == "CN" and len(found[code]) > 512 else code
            words.append(f"{written}={found[code].hex()}")
    return " ".join([name, *words])


def unit_at(octets, at, place):
    """A line, and the place after the unit."""
    si = octets[at]
    row = DT if si == 1 and place > 0 else UNITS.get(si)
    if row is None:
        raise Fault("UnknownSi", at)
    name, category, known, needed = row
    if (category == 2) != (place > 0) or place > 16:
        raise Fault("BadConcatenation", at)
    read = item(octets, at, len(octets))
    if read is None:
        raise Fault("LengthPastEnd", at)
    groups = {1: FIRST.get(si, ()), 5: FIFTH}
    found = parameters(octets, read[1], read[2], known, {code: groups[code] for code in known if code in groups})
    for code in needed:
        if code not in found:
            raise Fault("MissingParameter", at, code)
    line = shown(name, found)
    if row is DT:
        return f"{line} octets {len(octets) - read[2]}", len(octets), category
    return line, read[2], category


def session_lines(octets):
    if not octets:
        return ["    fault 0 LengthPastEnd"]
    lines, at, place = [], 0, 0
    try:
        while place == 0 or at < len(octets):
            line, at, category = unit_at(octets, at, place)
            lines.append("    " + line)
            place += 1
            if category == 1 and at < len(octets):
                raise Fault("TrailingOctets", at)
    except Fault as fault:
        return ["    " + fault.text]
    return lines


# ---- transport units

def connect_words(octets, at, end, first):
    found = {}
    lengths = {0xC0: 1, 0xC6: 1}
    while at < end:
        if at + 1 >= end or at + 2 + octets[at + 1] > end:
            raise Fault("BadParameterLength", at)
        code, length = octets[at], octets[at + 1]
        known = first in (0xE0, 0xD0) and code in (0xC0, 0xC1, 0xC2, 0xC6, 0xC7)
        if known and (lengths.get(code, length) != length or code in (0xC1, 0xC2) and length > 32):
            raise Fault("BadParameterLength", at)
        if known and code in found:
            raise Fault("DuplicateParameter", at)
        octets_of = octets[at + 2:at + 2 + length]
        if known and code == 0xC0 and not 7 <= octets_of[0] <= 13:
            raise Fault("BadParameterValue", at)
        if known:
            found[code] = octets_of.hex()
        at += 2 + length
    names = {0xC0: "size", 0xC1: "calling", 0xC2: "called", 0xC6: "more", 0xC7: "also"}
    return "".join(f" {names[code]} {found[code]}" for code in sorted(found))


def transport_unit(octets, at):
    """The line of a transport unit, the place after its header, whether it is the last, and the TSDU that it ends."""
    li = octets[at] if at < len(octets) else 0
    end = at + 1 + li
    if li in (0, 255) or end > len(octets):
        raise Fault("BadLi", at)
    code = octets[at + 1]
    first = code & 0xF0 if code & 0xF0 in (0xE0, 0xD0, 0x60) else code
    right = {0xE0: li >= 6, 0xD0: li >= 6, 0x80: li >= 6, 0xC0: li == 5, 0xF0: li in (2, 4), 0x60: li == 4, 0x70: li >= 4}
    if first not in right:
        raise Fault("UnknownCode", at + 1)
    if not right[first]:
        raise Fault("BadLi", at)
    two = [octets[k:k + 2].hex() for k in (at + 2, at + 4)]
    user = octets[end:]
    if first in (0xE0, 0xD0):
        words = connect_words(octets, at + 7, end, first)
        kind, to = ("CR", "0000") if first == 0xE0 else ("CC", two[0])
        options = octets[at + 6]
        return f"{kind} credit {code & 15} dst {to} src {two[1]} class {options >> 4} options {options & 15}{words}", end, True, None
    if first == 0x80:
        connect_words(octets, at + 7, end, first)
        return f"DR dst {two[0]} src {two[1]} reason {octets[at + 6]}", end, True, None
    if first == 0xC0:
        return f"DC dst {two[0]} src {two[1]}", end, False, None
    if first == 0x70:
        connect_words(octets, at + 5, end, first)
        return f"ER dst {two[0]} cause {octets[at + 4]}", end, False, None
    if first == 0x60:
        return f"AK credit {code & 15} dst {two[0]} number {octets[at + 4] & 127}", end, False, None
    number = octets[end - 1]
    to = "" if li == 2 else f"dst {two[0]} "
    line = f"DT {to}number {number & 127 if li == 4 else 0} eot {number >> 7} octets {len(user)}"
    return line, end, True, user if number >> 7 else None


def packet_lines(octets):
    lines, at, last = [], 0, False
    try:
        while not lines or at < len(octets) and not last:
            line, at, last, tsdu = transport_unit(octets, at)
            lines.append("  " + line)
            if tsdu is not None:
                lines += [f"    tsdu {len(tsdu)}", *session_lines(tsdu)]
    except Fault as fault:
        return ["  " + fault.text]
    return lines


def listing(octets):
    lines, at = [], 0
    while True:
        rest = octets[at:]
        if rest and rest[0] != 3:
            lines.append(f"fault {at} BadVersion")
            break
        length = rest[2] * 256 + rest[3] if len(rest) >= 4 else 0
        if len(rest) >= 4 and length < 7:
            lines.append(f"fault {at} BadLength")
            break
        if len(rest) < 4 or length > len(rest):
            lines.append(f"rest {len(rest)}")
            break
        lines += [f"packet {at} length {length} code {rest[5]:02x}", *packet_lines(rest[4:length])]
        at += length
    return "".join(line + "\n" for line in lines)
