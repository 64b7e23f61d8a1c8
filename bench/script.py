"""The texts that are timed and counted: a script of two ends, in which connections open and each round makes three calls that are
carried at once, and captures that are judged."""

OPENING = """ends 2 2 13 15
connect 00b9 1 aaaa -
carry left 999
carry right 999
carry left 999
right 1 accept 00b9 1 aaaa -
carry right 999
"""
# data, a minor point and its confirmation
TURN = """left 1 data 6f6e652074776f
carry left 9999
left 1 minor yes -
carry left 9999
right 1 minorconfirm %d -
carry right 9999
"""


def script(turns):
    """The lines of this many rounds, 7 and 6 for each."""
    return OPENING + "".join(TURN % (number + 1) for number in range(turns))


# A CR and a CC of class 0, a CN and an AC with half-duplex and minor points; all tokens are on the left.
JUDGED_OPENING = """0300000e09e00000000100c0010a
\t0300000e09d00001000100c0010a
0300001b02f0800d12050c1301011601021701311a0100140200b9
\t0300001b02f0800e12050c1301011601021701311a0100140200b9
"""


def packet(tsdu):
    """The line of a packet with one DT of class 0 that has this whole TSDU."""
    return f"0300{len(tsdu) // 2 + 7:04x}02f080{tsdu}\n"


def point(number):
    """A GT and a MIP with this serial number, and a PT and a MIA with it from the other side."""
    digits = str(number).encode().hex()
    ends = f"2a{len(digits) // 2:02x}{digits}"
    minor = f"0100{0x31:02x}{len(ends) // 2:02x}{ends}"
    confirm = f"0200{0x32:02x}{len(ends) // 2:02x}{ends}"
    return packet(minor) + "\t" + packet(confirm)


def judged_data(turns):
    """The capture of so many data TSDUs of 100 octets from left."""
    return JUDGED_OPENING + packet("01000100" + "41" * 100) * turns


def judged_points(turns):
    """The capture of so many minor points of left, each confirmed."""
    return JUDGED_OPENING + "".join(point(number) for number in range(1, turns + 1))


def unit_packet(unit):
    """The line of a packet with this unit of transport."""
    return f"0300{len(unit) // 2 + 4:04x}{unit}\n"


def judged_many(connections):
    """The captures of so many connections of class 2 on one byte connection, by how many DTs left sends when all are open: each has
    data of 100 octets, on one connection after the other, and right acknowledges it."""
    numbers = range(1, connections + 1)
    _, _, connect, accept = (line.strip()[14:] for line in JUDGED_OPENING.splitlines())
    opening = []
    for number in numbers:
        calling, called = f"{number:04x}", f"{0x1000 + number:04x}"
        opening += [unit_packet(f"09ef0000{calling}20c0010a"), "\t", unit_packet(f"09df{calling}{called}20c0010a"),
                    unit_packet(f"04f0{called}80{connect}"), "\t", unit_packet(f"046f{calling}01"),
                    "\t", unit_packet(f"04f0{calling}80{accept}"), unit_packet(f"046f{called}01")]

    def turn(done):
        number, sent = done % connections + 1, done // connections + 1
        return (unit_packet(f"04f0{0x1000 + number:04x}{0x80 | sent % 128:02x}01000100{'41' * 100}")
                + "\t" + unit_packet(f"046f{number:04x}{(sent + 1) % 128:02x}"))

    return lambda turns: "".join(opening) + "".join(turn(done) for done in range(turns))
