"""Judges captures of honest sessions over two ends of TCP, with all that a network and a capture point do: nobody is blamed. In every
third run one side really breaks the protocol, and what happens to the capture loses nothing: the verdict is that of the capture as it was.

  scripts/trials taps [--runs N] [--from SEED] [--keep FOLDER] [--osi PROGRAM]

200 runs from seed 0. A capture in which somebody is blamed wrongly is kept in the folder.
"""
import argparse
import os
import random
import struct
import sys
import tempfile

from counts import Counts
from tcp_ends import End, Network, habits

TOP = os.path.dirname(os.path.dirname(os.path.abspath(__file__)))
sys.path.insert(0, f"{TOP}/tools")
from capture import asking, judging, listing  # noqa: E402
from ladders import judged  # noqa: E402

ADDRESSES, PORTS = (bytes((192, 0, 2, 10)), bytes((198, 51, 100, 20))), (49_152, 102)
# What is done to a capture that loses nothing of it, and what loses something, or the order of the first segments.
LATE, LOST = ("twice", "taps", "both", "queues"), ("disorder", "burst", "drop", "middle", "one late", "end", "cut")


def packet(unit):
    """A transport unit, after its length, in a TPKT packet."""
    return struct.pack(">BBHB", 3, 0, len(unit) + 5, len(unit)) + unit


def data(tsdu, head=b"\xf0\x80"):
    """A TSDU in a DT, whose header may be that of class 2."""
    return struct.pack(">BBHB", 3, 0, 5 + len(head) + len(tsdu), len(head)) + head + tsdu


def connect(code, units):
    """A CN (13) or an AC (14) with version 2 and these functional units."""
    return bytes([code]) + bytes.fromhex("0f05091301001601021a01001402") + struct.pack(">H", units)


class Session:
    """What both sides send, each with how many octets its sender has received before."""

    def __init__(self):
        self.parts, self.sent = [], [0, 0]

    def say(self, side, octets, needs=None):
        """A side sends octets, by default once it has received everything."""
        self.parts.append((side, octets, self.sent[1 - side] if needs is None else needs))
        self.sent[side] += len(octets)

    def begin(self, units):
        """Opens a session in class 0."""
        self.say(0, packet(bytes.fromhex("e00000000100")))
        self.say(1, packet(bytes.fromhex("d00001000900")))
        self.say(0, data(connect(13, units)))
        self.say(1, data(connect(14, units)))


def duplex(chance):
    """Requests and answers that cross, and a release or nothing."""
    made = Session()
    made.begin(2)
    opened = made.sent[1], made.sent[0]
    for _ in range(chance.randrange(1, 12)):
        side = chance.randrange(2)
        needs = opened[side] if chance.random() < 0.4 else None
        made.say(side, data(b"\1\0\1\0" + chance.randbytes(chance.choice((1, 20, 300, 2_000)))), needs)
    for side, octets in ((0, b"\x09\0"), (1, b"\x0a\0")) if chance.random() < 0.7 else ():
        made.say(side, data(octets))
    return made.parts


def tokens(chance):
    """Data of the side that holds the token, tokens that are given, and asked for."""
    made, holder, units = Session(), 0, {"data": b"\1\0\1\0data", "give": b"\1\3\x10\1\1", "please": b"\2\3\x10\1\1"}
    made.begin(1)
    since = [made.sent[1], made.sent[0]]
    for _ in range(chance.randrange(2, 14)):
        act = chance.choice("data data give please".split())
        side = 1 - holder if act == "please" else holder
        made.say(side, data(units[act]), since[side])
        if act == "give":
            holder, since[1 - side] = 1 - side, made.sent[side]
    return made.parts


def class_2(chance):
    """Several connections, each with duplex; some are closed again."""
    made, opened, last = Session(), {}, 0
    for _ in range(chance.randrange(2, 30)):
        act = chance.random()
        if not opened or act < 0.15:
            last += 1
            left, right, opened[last] = struct.pack(">H", last), struct.pack(">H", 256 + last), [0, 0]
            made.say(0, packet(b"\xe4\0\0" + left + b"\x20\xc6\1\0"))
            made.say(1, packet(b"\xd4" + left + right + b"\x20"))
        number = last if not any(opened[last] if last in opened else (1,)) else chance.choice(sorted(opened))
        ends, counts = (struct.pack(">H", 256 + number), struct.pack(">H", number)), opened[number]
        side = len([each for each in counts if each]) if not all(counts) else chance.randrange(2)
        unit = connect(13 + side, 2) if not counts[side] else b"\1\0\1\0" + chance.randbytes(20)
        made.say(side, data(unit, b"\xf0" + ends[side] + bytes([0x80 | counts[side] & 127])))
        counts[side] += 1
        made.say(1 - side, packet(b"\x64" + ends[1 - side] + bytes([counts[side] & 127])))
        if all(counts) and act > 0.9:
            made.say(0, packet(b"\x80" + ends[0] + ends[1] + b"\x80"))
            made.say(1, packet(b"\xc0" + ends[1] + ends[0]))
            del opened[number]
    return made.parts


# What nobody may send once a session is open: a second CN, a wrong length, an unknown SI, no packet, an empty TSDU, a packet that is too
# short, a DR of class 0, a CC of an unknown reference, and a DT of class 2 for one.
WRONG = (data(connect(13, 2)), data(b"\1\0\1\x40wrong"), data(b"\x77\0"), b"wrong", data(b""), b"\3\0\0\5\2",
         packet(bytes.fromhex("800099007780")), packet(bytes.fromhex("d05555000900")), data(b"\1\0\1\0wrong", b"\xf0\x42\x42\x80"))


def broken(chance, parts):
    """A session in which a side sends something wrong."""
    place = chance.randrange(4, len(parts)) if len(parts) > 4 else len(parts) - 1
    side, _, needs = parts[place]
    octets, before = chance.choice(WRONG), sum(len(each[1]) for each in parts[:place] if each[0] == side)
    shifted = [(one, sent, need + len(octets) * (one != side and need > before)) for one, sent, need in parts]
    return [*shifted[:place], (side, octets, needs), *shifted[place:]]


class User:
    """Sends its parts of a session, each once it has received enough, and then closes TCP, resets it, or does nothing."""

    def __init__(self, parts, chance, how):
        self.parts, self.chance, self.how, self.count, self.pause = list(parts), chance, how, 0, chance.choice((0.01, 0.1, 3))

    def received(self, octets):
        """Takes octets, or is told by none that the connection is open."""
        self.count += len(octets)
        self.end.network.later(self.pause * self.chance.random(), self.go_on)

    def go_on(self):
        """Sends the next part."""
        if self.parts and self.parts[0][1] <= self.count:
            self.end.write(self.parts.pop(0)[0])
            self.received(b"")
        elif not self.parts and self.how:
            self.end.network.later(0.3, {"close": self.end.close, "reset": self.end.reset, "text": self.tell}[self.how])
            self.how = None

    def tell(self):
        """Resets the connection with a text."""
        self.end.reset(b"stopped by hand")


def tapped(chance, parts, **manners):
    """What passes a tap while a session is played: for each segment the time, the side and an IPv4 datagram."""
    network = Network(chance, {**habits(chance), **manners})
    users = [User([each[1:] for each in parts if each[0] == side], chance, how) for side, how in
             enumerate((chance.choice(("close", "close", None, "reset", "text")), chance.choice((None, "close", "reset"))))]
    left, _ = (End(network, side, user) for side, user in enumerate(users))
    left.octets = users[0].parts.pop(0)[0]
    left.call()
    network.run()
    return [(time, side, datagram(side, segment)) for time, side, segment in network.tapped]


def checksum(octets):
    """The checksum of RFC 1071."""
    total = sum(struct.unpack(f">{(len(octets) + 1) // 2}H", octets + bytes(len(octets) % 2))) % 0xFFFF
    return struct.pack(">H", 0xFFFF - total)


def datagram(side, segment):
    """The IPv4 datagram of a segment."""
    ends = ADDRESSES[side] + ADDRESSES[1 - side]
    head = struct.pack(">HHIIBBHHH", PORTS[side], PORTS[1 - side], segment.sequence, segment.acknowledged, 5 << 4, segment.flags,
                       segment.window, 0, 0)
    whole = head + segment.octets
    whole = whole[:16] + checksum(ends + struct.pack(">HH", 6, len(whole)) + whole) + whole[18:]
    first = struct.pack(">BBHHHBBH", 0x45, 0, 20 + len(whole), 0, 0x4000, 64, 6, 0) + ends
    return first[:10] + checksum(first) + first[12:] + whole


def disturbed(rows, chance, words):
    """Rows as a capture has them after what the words say was done to it. Times are seconds, and the order is that of the file."""
    shift, wait = chance.choice((-20, -3, -0.01, 0.01, 3, 20)), chance.choice((0, 0.001, 1.5))
    rows = rows + [(time + wait, side, row) for time, side, row in rows if "twice" in words]
    rows += [(time + shift, side, row) for time, side, row in rows if "both" in words]
    rows.sort(key=lambda row: row[0] + shift * row[1] * ("taps" in words))
    if "disorder" in words:
        rows = in_order(rows, [place + 6 * chance.random() for place in range(len(rows))])
    if "queues" in words:
        places = [[place + 6 * chance.random() for place, row in enumerate(rows) if row[1] == side] for side in range(2)]
        places = [iter(sorted(each)) for each in places]
        rows = in_order(rows, [next(places[row[1]]) for row in rows])
    first, count, sides = chance.randrange(len(rows)), chance.randrange(1, 8), chance.choice(((0, 1), (0,), (1,)))
    return [row for place, row in enumerate(rows) if not (
        "burst" in words and first <= place < first + count and row[1] in sides or "drop" in words and chance.random() < 0.1 or
        "middle" in words and place < first or "end" in words and place > first or
        "one late" in words and place < first and row[1] == sides[0])]


def in_order(rows, places):
    """Rows in the order of these places."""
    return [row for _, _, row in sorted(zip(places, range(len(rows)), rows))]


def pcap(rows, cut=262_144):
    """A pcap of rows; at most so many octets of each are captured."""
    made = [struct.pack(">IHHiIII", 0xA1B2C3D4, 2, 4, 0, 0, cut, 101)]
    for time, _, row in rows:
        seconds, rest = divmod(int(time * 1_000_000), 1_000_000)
        made.append(struct.pack(">IIII", 1_700_000_000 + seconds, rest, min(len(row), cut), len(row)) + row[:cut])
    return b"".join(made)


def verdict(path, judge):
    """The last line of the verdict on the only stream of a capture, and why it isn't judged to its end; None if there is none."""
    try:
        stream = asking.found_in(path, 102)[0]
    except asking.BadInput:
        return None
    if asking.why_not(stream):
        return None
    found = judging.Judged(stream, judge)
    return found.verdict.rows[-1], found.verdict.first, found.limit


class Runs:
    """Plays runs, and counts."""

    def __init__(self, asked):
        self.counts, self.keep, self.room = Counts(is_quiet=True), asked.keep, tempfile.TemporaryDirectory()
        self.judge = judged.runner(listing.program(asked.osi), lambda name: lambda seconds: None)
        self.blamed = self.kept = 0

    def judged(self, rows, name, cut=262_144):
        """The verdict on rows, and the capture."""
        content, path = pcap(rows, cut), os.path.join(self.room.name, name)
        with open(path, "wb") as file:
            file.write(content)
        return verdict(path, self.judge), content

    def run(self, seed):
        """One run."""
        chance = random.Random(seed)
        parts = chance.choice((duplex, tokens, class_2))(chance)
        if seed % 3 == 2:
            self.run_wrong(seed, chance, parts)
            return
        words = {word for word in LATE + LOST if chance.random() < 0.14}
        found, content = self.judged(disturbed(tapped(chance, parts), chance, words), "run.pcap", 68 if "cut" in words else 262_144)
        self.kept += found is not None and found[2] is None
        self.check(seed, "nobody is blamed", not (found and found[1]), (sorted(words), found), content)

    def run_wrong(self, seed, chance, parts):
        """One run in which a side breaks the protocol. No octet comes alone, which may be that of a keepalive, and none with the first
        segment."""
        rows = tapped(chance, broken(chance, parts), ragged=False, closes=False, open=None)
        words = {word for word in LATE if chance.random() < 0.4}
        wanted, _ = self.judged(rows, "run.pcap")
        found, content = self.judged(disturbed(rows, chance, words), "again.pcap")
        if wanted and wanted[1]:
            self.blamed += 1
            self.check(seed, "the same side is blamed", found and found[:2] == wanted[:2], (sorted(words), wanted, found), content)

    def check(self, seed, what, holds, why, content):
        """Counts a run, and keeps its capture if it failed."""
        if not self.counts.check(f"seed {seed}: {what}", holds, why) and self.keep:
            os.makedirs(self.keep, exist_ok=True)
            with open(os.path.join(self.keep, f"{seed}.pcap"), "wb") as file:
                file.write(content)


def main(words):
    """Plays the runs that the words ask for."""
    made = argparse.ArgumentParser(prog="scripts/trials taps")
    made.add_argument("--runs", type=int, default=200)
    made.add_argument("--from", type=int, default=0, dest="first")
    made.add_argument("--keep")
    made.add_argument("--osi")
    asked = made.parse_args(words)
    runs = Runs(asked)
    for seed in range(asked.first, asked.first + asked.runs):
        runs.run(seed)
    print(f"{runs.kept} honest runs were judged to their end, and {runs.blamed} runs had a break that was found")
    return runs.counts
