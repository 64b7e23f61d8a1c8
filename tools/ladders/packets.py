"""What a packet says of itself that broke a rule of transport, and what was agreed before it: sizes, references and numbers."""

REQUEST, CONFIRM, DATA = 0xE0, 0xD0, 0xF0
SIZE = 0xC0


def units(octets):
    """The packets of a side, each with its place and its transport unit."""
    at = 0
    while len(octets) >= at + 4 and octets[at] == 3:
        end = at + max(int.from_bytes(octets[at + 2:at + 4], "big"), 4)
        yield at, octets[at + 4:end]
        at = end


def size_of(unit):
    """The TPDU size that a CR or CC names, in octets: 128 if it names none."""
    at, end = 7, min(1 + unit[0], len(unit))
    while at + 2 < end:
        if unit[at] == SIZE and unit[at + 1] == 1 and 7 <= unit[at + 2] <= 13:
            return 2 ** unit[at + 2]
        at += 2 + unit[at + 1]
    return 128


def named(unit, at):
    """A reference of a unit, as text."""
    return f" {unit[at:at + 2].hex()}" if len(unit) >= at + 2 else ""


def confirmed(octets, source):
    """The CC for a reference, or the first one; or None."""
    found = [unit for _, unit in units(octets) if len(unit) > 6 and unit[1] & 0xF0 == CONFIRM]
    return next((unit for unit in found if source and unit[4:6] == source), found[0] if found else None)


def requested(octets, source):
    """The CR with a reference, or the first one; or None."""
    found = [unit for _, unit in units(octets) if len(unit) > 6 and unit[1] & 0xF0 == REQUEST]
    return next((unit for unit in found if source and unit[4:6] == source), found[0] if found else None)


def known_of(octets, side, offset):
    """What is known of a packet of a side, by the names of the places in a rule."""
    unit = next((unit for at, unit in units(octets[side]) if at == offset), b"")
    first = octets[side][offset:offset + 1]
    known = {"first": f" (hexadecimal {first.hex()})" if first else "", "octets": f"{len(unit):,}"}
    if len(unit) < 3:
        return known
    known.update({"code": f" (hexadecimal {unit[1]:02x})", "target": named(unit, 2), "source": named(unit, 4)})
    if unit[1] & 0xF0 == CONFIRM and len(unit) > 6:
        request = requested(octets["left"], unit[2:4])
        known.update({"size": f"{size_of(unit):,}", "offered": f"{size_of(request):,}" if request else "fewer"})
    if unit[1] & 0xF0 == DATA:
        known.update(of_data(unit, octets, side))
    return known


def of_data(unit, octets, side):
    """The number of a DT, and the size that was agreed for it."""
    target = unit[2:4] if unit[0] > 2 else b""
    if side == "left":
        answer = confirmed(octets["right"], target)
    else:
        answer = next((each for _, each in units(octets["right"])
                       if len(each) > 6 and each[1] & 0xF0 == CONFIRM and (not target or each[2:4] == target)), None)
    known = {"number": f" {unit[4] & 0x7F}"} if unit[0] > 2 and len(unit) > 4 else {}
    return {**known, "agreed": f"{size_of(answer):,}"} if answer else known
