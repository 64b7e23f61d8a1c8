#!/usr/bin/env python3
"""Finds out where the built library reads and writes each field of the structs of osi.h, and prints it in the form of
bindings/layout.c, which says where the header has them. scripts/layout compares the two, and so finds a field that moved in
the library alone.

  bindings/probe.py LIBRARY.so

It knows the library by calls alone. A struct that the library writes is written over octets of two kinds, in several runs whose
values are known; a field is where its values are. For a struct that the library reads, a value is put at each place in turn; the
field is where an end then does what the value says. A field that is at no place, or at several, has a line that layout.c never
prints. It doesn't print the sizes of structs that the library only reads.
"""
import ctypes
import struct
import sys

ROOM = 192
ALL_UNITS = 0xB9
SIZE_OF_OPENING, SIZE_OF_INDICATION = 104, 64
PLAIN = bytes([2, 13, 15])
library = ctypes.CDLL(sys.argv[1])


def size_t(number):
    return ctypes.c_size_t(number)


def need(holds, what):
    if not holds:
        sys.exit(f"probe: {what}")


# ---- ends, as octets


class End:
    def __init__(self, make, terms=PLAIN):
        self.slot = ctypes.create_string_buffer(ROOM)
        self.made = make(self.slot, terms + bytes(ROOM)) == 0

    def __del__(self):
        library.osi_free(self.slot)

    def outgoing(self):
        octets = ctypes.create_string_buffer(ROOM)
        library.osi_outgoing(self.slot, octets)
        return ctypes.string_at(*struct.unpack_from("<QQ", octets.raw))

    def take(self):
        octets = self.outgoing()
        library.osi_taken(self.slot, size_t(len(octets)))
        return octets

    def feed(self, octets, fed=None):
        """Feeds octets, and fetches an indication. Returns the end."""
        library.osi_feed(self.slot, octets, size_t(len(octets)), fed or ctypes.create_string_buffer(ROOM))
        library.osi_fetch(self.slot)
        return self

    def call(self, name, *arguments):
        need(getattr(library, name)(self.slot, *arguments) == 0, f"{name} is refused")
        return self


def opening_with(wishes=b"\0\0\0\0", serial=0, sizes=(0, 0), kept=None, octets=(b"calling", b"called tsap", b"session", b"its user", b"who is there?")):
    """An osi_opening as the header has it. Its octets stay as long as `kept`."""
    lent = []
    for one in octets:
        kept.append(ctypes.create_string_buffer(one, len(one) + 1))
        lent += [ctypes.addressof(kept[-1]), len(one)]
    return struct.pack("<HxxI4sxxxx10QHHxxxx", ALL_UNITS, serial, wishes, *lent, *sizes)


def asks(opening, end=None):
    """A caller that asks for a connection, or None if it is refused."""
    end = end or End(library.osi_caller)
    asked = ctypes.create_string_buffer(opening, ROOM)
    code = library.osi_connect_with_size(end.slot, asked, size_t(SIZE_OF_OPENING), ctypes.create_string_buffer(8))
    return end if code == 0 else None


def asked(opening):
    """Two ends, of which the called one has the caller's CN; None if there is none."""
    caller = asks(opening)
    if caller is None:
        return None
    called = End(library.osi_called).feed(caller.take())
    caller.feed(called.take())
    return caller, called.feed(caller.take())


def opened():
    caller, called = asked(opening_with(kept=[]))
    called.call("osi_accept", 1, ALL_UNITS, 0, b"\0\0\0\0", b"", size_t(0))
    return caller.feed(called.take()), called


# ---- structs that the library writes


def written(write):
    """What a call writes: each octet, or None where it writes none. The call has to do the same twice."""
    both = []
    for fill in (b"\x00", b"\xff"):
        octets = ctypes.create_string_buffer(fill * ROOM, ROOM)
        write(octets)
        both.append(octets.raw)
    return [one if one == other else None for one, other in zip(*both)]


def place(runs, width, values):
    """The one place where the runs have these values, or None."""
    wanted = [list(value if isinstance(value, bytes) else value.to_bytes(width, "little")) for value in values]
    places = [at for at in range(ROOM - width + 1) if all(run[at : at + width] == value for run, value in zip(runs, wanted))]
    return places[0] if len(places) == 1 else None


def say_field(name, at, width):
    print(f"field {name} {at} {width}" if at is not None else f"field {name} is at no one place")


def say_struct(name, runs, alignment, begin=0):
    """The size reaches from the first place to the last that is written, and is a multiple of the alignment."""
    end = 1 + max(at for run in runs for at, octet in enumerate(run) if octet is not None)
    print(f"struct {name} {-(-(end - begin) // alignment) * alignment} {alignment}")


def say_fields(struct_name, runs, fields, begin=0):
    places = {name: place(runs, width, values) for name, (width, values) in fields.items()}
    for name, (width, _) in fields.items():
        say_field(f"{struct_name}.{name}", None if places[name] is None else places[name] - begin, width)
    return places


def octets():
    kept, runs, lengths = [], [], []
    for tsap in (b"", b"abcd", b"0123456789"):
        end = asks(opening_with(kept=kept, octets=(b"", tsap, b"", b"", b"")))
        runs.append(written(lambda lent, end=end: library.osi_outgoing(end.slot, lent)))
        lengths.append(len(end.outgoing()))
    say_struct("osi_octets", runs, 8)
    at = say_fields("osi_octets", runs, {"length": (8, lengths)})["length"]
    others = [place for place in range(0, ROOM, 8) if place != at and None not in runs[0][place : place + 8]]
    say_field("osi_octets.at", others[0] if len(others) == 1 else None, 8)


def fed():
    kept, lengths = [], []

    def request(into):
        octets = asks(opening_with(kept=kept)).take()
        lengths.append(len(octets))
        End(library.osi_called).feed(octets, into)

    def connect(into):
        caller = asks(opening_with(kept=kept))
        called = End(library.osi_called).feed(caller.take())
        octets = caller.feed(called.take()).take()
        lengths.append(len(octets))
        called.feed(octets + b"\3\0\0", into)

    runs = [written(request), written(connect)]
    say_struct("osi_fed", runs, 8)
    say_fields("osi_fed", runs, {"used": (8, lengths[::2]), "waits": (1, [0, 1])})


def slot(name, holders):
    octets = [holder.slot.raw for holder in holders]
    runs = [[octet if octet != 0 else None for octet in one] for one in octets]
    full = [at for at in range(0, ROOM, 8) if all(one[at : at + 8] == b"\1" + bytes(7) for one in octets)]
    inner = [at for at in range(0, ROOM, 8) if any(octets[0][at : at + 8]) and at not in full]
    say_struct(name, runs, 8)
    say_field(f"{name}.full", full[0] if len(full) == 1 else None, 1)
    say_field(f"{name}.inner", inner[0] if len(inner) == 1 else None, 8)


def shown(end):
    return written(lambda octets: library.osi_last_with_size(end.slot, octets, size_t(SIZE_OF_INDICATION)))


def data_unit(tsdu):
    """A DT of class 2 with a TSDU, the second of the connection 1."""
    return bytes([3, 0, 0, 9 + len(tsdu), 4, 0xF0, 0, 1, 0x81]) + tsdu


def indications():
    kept = []
    wishes = [bytes([1, 0, 2, 1]), bytes([1, 2, 0, 0]), bytes([0, 1, 1, 2])]
    numbers, sizes = [74565, 131844, 5], [(4660, 9029), (1000, 2000), (0, 64)]
    openings = [asked(opening_with(*each, kept)) for each in zip(wishes, numbers, sizes)]
    ends = [called for _, called in openings]
    refused = asked(opening_with(kept=kept))
    refused[1].call("osi_refuse_with", 1, 1, b"", size_t(0))
    pointed, given = opened(), opened()
    pointed[0].call("osi_minor", 1, 1, b"abc", size_t(3))
    given[0].call("osi_give", 1, 0x05)
    ends += [refused[0].feed(refused[1].take()), pointed[1].feed(pointed[0].take()), given[1].feed(given[0].take())]
    ends += [opened()[1].feed(data_unit(tsdu)) for tsdu in (b"\x01\x00\x31\x00", b"\x0a\x00")]
    runs = [shown(end) for end in ends]
    rest = len(ends) - 3
    none = [0] * 3
    fields = {
        "tag": (4, [1, 1, 1, 4, 8, 6, 20, 20]),
        "number": (4, numbers + [0] * rest),
        "reference": (2, [1] * len(ends)),
        "requirements": (2, [ALL_UNITS] * 3 + [0] * rest),
        "has_number": (1, [1] * 3 + [0] * rest),
        "confirm": (1, none + [0, 1, 0, 0, 0]),
        "tokens": (1, none + [0, 0, 5, 0, 0]),
        "reason": (1, none + [1, 0, 0, 0, 0]),
        "sides": (4, wishes + [bytes(4)] * rest),
    }
    say_struct("osi_indication", runs, 8)
    say_fields("osi_indication", runs, fields)
    for at, name in enumerate(("data", "minor", "major", "release")):
        found = place(runs, 1, [one[at] for one in wishes] + [0] * rest)
        say_field(f"osi_sides.{name}", None if found is None else found - place(runs, 4, fields["sides"][1]), 1)
    fault = {
        "fault": (1, none + [0, 0, 0, 1, 2]),
        "si": (1, none + [0, 0, 0, 0, 10]),
        "spelling": (1, none + [0, 0, 0, 3, 0]),
        "parameter": (1, none + [0, 0, 0, 42, 0]),
        "offset": (8, none + [0, 0, 0, 2, 0]),
    }
    begin = place(runs, *fault["fault"])
    say_field("osi_indication.fault", begin, 16)
    last = say_fields("osi_fault", runs, fault, begin or 0)["offset"]
    print(f"struct osi_fault {(last or 0) + 8 - (begin or 0)} 8")
    length = place(runs, 8, [13] * 3 + [0, 3, 0, 0, 0])
    say_field("osi_indication.user_data", None if length is None else length - 8, 16)
    for at, name in enumerate(("size_from_asker", "size_from_answerer")):
        say_field(f"osi_indication.{name}", place(runs, 2, [one[at] for one in sizes] + [0] * rest), 2)


def addressing():
    kept, runs, texts = [], [], []
    for each in ((b"calling", b"called tsap", b"session", b"its user"), (b"a", b"b" * 32, b"c" * 16, b"")):
        called = asked(opening_with(kept=kept, octets=(*each, b"")))[1]
        runs.append(written(lambda octets, end=called: library.osi_addresses(end.slot, 1, octets)))
        texts.append(each)
    say_struct("osi_addressing", runs, 1)
    names = (("calling_tsap", "osi_tsap", 32), ("called_tsap", "osi_tsap", 32),
             ("calling_selector", "osi_selector", 16), ("called_selector", "osi_selector", 16))
    for at, (name, kind, most) in enumerate(names):
        begin = place(runs, most + 1, [one[at].ljust(most, b"\0") + bytes([len(one[at])]) for one in texts])
        say_field(f"osi_addressing.{name}", begin, most + 1)
        if name.startswith("called"):
            inside = [run[begin or 0 : (begin or 0) + most + 1] + [None] * ROOM for run in runs]
            print(f"struct {kind} {most + 1} 1")
            say_field(f"{kind}.octets", place(inside, most, [one[at].ljust(most, b"\0") for one in texts]), most)
            say_field(f"{kind}.length", place(inside, 1, [len(one[at]) for one in texts]), 1)


def counters():
    """Packets of four AK and a DT, of an AK, and of a DT whose TSDU breaks a rule."""
    acknowledgement = bytes([4, 0x65, 0, 1, 0])
    four = acknowledgement * 4 + data_unit(b"\1\0\1\0")[4:]
    whole, alone = bytes([3, 0, 0, 4 + len(four)]) + four, bytes([3, 0, 0, 9]) + acknowledgement
    runs, values = [], []
    for many, few, wrong in ((3, 4, 2), (5, 1, 1)):
        end = End(library.osi_called).call("osi_trace", 1)
        stream = whole * many + alone * few + data_unit(b"\xff") * wrong
        end.feed(stream)
        runs.append(written(lambda into, end=end: library.osi_counts(end.slot, into)))
        values.append((len(stream), many + few + wrong, 5 * many + few + wrong, many + wrong, 2 * many, wrong))
    print("struct osi_tally 48 8")
    names = ("octets", "packets", "units", "tsdus", "session_units", "refused")
    say_fields("osi_tally", runs, {name: (8, [one[at] for one in values]) for at, name in enumerate(names)})
    say_struct("osi_counters", runs, 8)
    say_field("osi_counters.received", place(runs, 8, [one[0] for one in values]), 48)
    caller = asks(opening_with(kept=[]), End(library.osi_caller).call("osi_trace", 1))
    sent = len(caller.take())
    say_field("osi_counters.sent", place([written(lambda into: library.osi_counts(caller.slot, into))], 8, [sent]), 48)


# ---- judges


class Judge:
    """A judge of a byte connection that is fed these pieces, each with its side."""

    def __init__(self, *pieces):
        self.slot = ctypes.create_string_buffer(ROOM)
        need(library.osi_judge_new(self.slot) == 0, "osi_judge_new is refused")
        for side, octets in pieces:
            used = ctypes.create_string_buffer(ROOM)
            need(library.osi_judge_feed(self.slot, side, octets, size_t(len(octets)), used) == 0, "osi_judge_feed is refused")

    def __del__(self):
        library.osi_judge_free(self.slot)

    def shown(self, connection, side):
        return written(lambda into: library.osi_judge_verdict(self.slot, ctypes.c_uint64(connection), side, into))


def verdicts():
    """The called side sends data without a token, and no packet; and both sides of what begins in the middle."""
    opening = [(0, bytes.fromhex("0300000e09e00000000100c0010a")), (1, bytes.fromhex("0300000e09d00001123400c0010a"))]
    session = "0300001b02f0800{}12050c1301011601021701311a0100140200b9"
    opening += [(0, bytes.fromhex(session.format("d"))), (1, bytes.fromhex(session.format("e")))]
    data, noise = bytes.fromhex("0300000c02f0800100010041"), bytes(4)
    none = 2 ** 64 - 1
    broken, begun, middle = Judge(*opening, (1, data)), Judge(*opening[:2], (1, noise)), Judge((0, opening[1][1]))
    runs = [broken.shown(0, 1), broken.shown(0, 0), begun.shown(none, 1), middle.shown(none, 0), middle.shown(none, 1)]
    say_struct("osi_verdict", runs, 8)
    say_fields("osi_verdict", runs, {
        "offset": (8, [41, 0, 14, 0, 0]),
        "connection": (8, [0, 0, none, none, none]),
        "kind": (4, [2, 1, 2, 5, 5]),
        "side": (4, [1, 0, 1, 0, 1]),
        "by": (4, [1, 0, 1, 0, 0]),
        "rule": (4, [14, 0, 54, 50, 50]),
        "said": (4, [4, 0, 19, 24, 24]),
        "left": (2, [1, 1, 0, 0, 0]),
        "right": (2, [0x1234, 0x1234, 0, 0, 0]),
    })


# ---- structs that the library reads


def reads(name, width, value, base, step, effect):
    """The place at which a value has its effect. Others may have none, or be refused."""
    places = []
    for at in range(0, len(base) - width + 1, step):
        if effect(base[:at] + value + base[at + width :]):
            places.append(at)
    say_field(name, places[0] if len(places) == 1 else None, width)


def terms():
    def request(passed):
        end = End(library.osi_caller, passed)
        return asks(opening_with(kept=[]), end).take() if end.made else bytes(20)

    reads("osi_terms.classes", 1, b"\1", PLAIN, 1, lambda passed: request(passed)[10] == 0 and request(passed)[5] == 0xE0)
    reads("osi_terms.size", 1, b"\x09", PLAIN, 1, lambda passed: b"\xc0\x01\x09" in request(passed))

    def credit(passed):
        end = End(library.osi_called, passed)
        return end.feed(request(PLAIN)).take()[5] & 15 if end.made else None

    reads("osi_terms.window", 1, b"\5", PLAIN, 1, lambda passed: credit(passed) == 5)


def opening():
    kept = []
    # It has no octets, so a length that is put where a pointer belongs is never followed.
    base = opening_with(b"\2\2\2\2", kept=kept, octets=[b""] * 5)

    def does(test):
        def effect(passed):
            ends = asked(passed)
            return ends is not None and test(ends[1])

        return effect

    def shows(at, octets):
        return does(lambda end: bytes(octet or 0 for octet in shown(end))[at : at + len(octets)] == octets)

    def lent(octets):
        kept.append(ctypes.create_string_buffer(octets, len(octets) + 1))
        return struct.pack("<QQ", ctypes.addressof(kept[-1]), len(octets))

    def addresses(at, most):
        def test(end):
            return bytes(written(lambda into: library.osi_addresses(end.slot, 1, into))[at : at + most]).rstrip(b"\0") == b"changed"

        return does(test)

    reads("osi_opening.requirements", 2, b"\2\0", base, 2, shows(10, b"\2\0"))
    reads("osi_opening.serial", 4, b"\7\0\0\0", base, 4, shows(4, b"\7\0\0\0"))
    reads("osi_opening.wishes", 4, b"\1\0\0\1", base, 4, shows(16, b"\1\0\0\1"))
    for name, at, most in (("calling_tsap", 0, 32), ("called_tsap", 33, 32), ("calling_selector", 66, 16), ("called_selector", 83, 16)):
        reads(f"osi_opening.{name}", 16, lent(b"changed"), base, 8, addresses(at, most))
    reads("osi_opening.user_data", 16, lent(b"another octet"[:11]), base, 8, shows(48, b"\x0b"))
    reads("osi_opening.size_from_asker", 2, b"\x34\x12", base, 2, shows(56, b"\x34\x12\0\0"))
    reads("osi_opening.size_from_answerer", 2, b"\x34\x12", base, 2, shows(58, b"\x34\x12"))


def main():
    slot("osi_end", [End(library.osi_called), End(library.osi_caller)])
    octets()
    terms()
    fed()
    opening()
    indications()
    addressing()
    counters()
    slot("osi_judge", [Judge(), Judge()])
    verdicts()


main()
