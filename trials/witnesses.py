"""Plays the scripts of `osi judge --script` and compares what the two ends send with the capture.

    scripts/trials witnesses                   the captures of osi_runs and of examples/disputes, and 10,000 random runs in each class
    scripts/trials witnesses --runs N [SEED]   so many random runs in each class, of this seed; 0 for the captures alone

A random run is of two ends whose users call at random, on one connection in class 0 or on up to four in class 2, seen at the left end,
at the right end or between. Its script has to make two ends send the same octets, or in class 2 the same TSDUs on each connection,
each in an order that the capture allows.
"""
import glob
import os
import random
import re
import subprocess
import sys
import time

TOP = os.path.dirname(os.path.dirname(os.path.abspath(__file__)))
sys.path[:0] = [os.path.join(TOP, "tools"), os.path.join(TOP, "bindings", "python", "src")]
os.environ.setdefault("OSI_SESSION_DIR", os.path.join(TOP, "build"))
from counts import Counts
from ladders.judged import read
from ladders.transcript import BadInput
from runs import OTHER, SIDES, Run, played, run_at_random

UNFINISHED = re.compile(r"# (left|right) packet \d+: no call of a script sends this\n\Z")
# The captures in which a side kept the protocol by a unit that no call of a script sends.
BEYOND_CALLS = {"in_flight.disputes an abort of a provider without resources", "transport_of_class_0.disputes an ER in answer to a CR"}
# Those in which a unit before the break, or before the profile is left, has no call.
BEFORE_A_BREAK = {"sizes_and_references.disputes a refusal, and then octets that are no packet", *(
    f"kept_and_outside.disputes {name}" for name in (
        "an AC of version 1 to a CN that offers no version 2", "an AC of version 2 to a CN that offers no version 2",
        "an AC of version 1 after an RF", "another session after an RF", "another session after an AA", "a CN before the AA has come",
        "a CN of the called side after its RF", "a release that both sides ask for"))}


def disputes(top):
    """The captures of osi_runs and of the examples: their names and texts."""
    for path in sorted(glob.glob(f"{top}/crates/osi_runs/data/*.disputes")):
        with open(path) as file:
            for block in re.split(r"^== ", file.read(), flags=re.M)[1:]:
                name, _, rest = block.partition("\n")
                yield f"{os.path.basename(path)} {name}", rest.partition("-- status")[0]
    for path in sorted(glob.glob(f"{top}/examples/disputes/*.follow") + glob.glob(f"{top}/examples/disputes/*.capture")):
        with open(path) as file:
            yield os.path.basename(path), file.read()


def pieces_of(text):
    """The pieces of a capture; none if it can't be read."""
    try:
        return [(piece.side, piece.octets) for piece in read(text)]
    except BadInput:
        return []


def packets(stream):
    """The whole packets of a direction: where each begins and ends, and its transport unit."""
    at, found = 0, []
    while len(stream) - at >= 4:
        length = int.from_bytes(stream[at + 2:at + 4], "big")
        if stream[at] != 3 or length < 7 or at + length > len(stream):
            break
        found.append((at, at + length, stream[at + 4:at + length]))
        at += length
    return found


def has_disconnect_confirm(stream):
    """Whether a direction has a DC before its first DT of class 2."""
    for _, _, unit in packets(stream):
        if unit[0] == 4 and unit[1] & 0xF0 == 0xF0:
            return False
        if unit[1] & 0xF0 == 0xC0:
            return True
    return False


def whole(stream):
    """A direction up to the end of its last whole TSDU."""
    ends = [end for _, end, unit in packets(stream) if unit[1] & 0xF0 != 0xF0 or unit[2] & 0x80]
    return stream[:ends[-1]] if ends else b""


# What an end sends by itself when it takes an AB: AA.
ANSWER = b"\x1a\x00"


def is_same(had, ran, is_cut):
    """Whether a side sends the TSDUs of the capture, or the first of them if the script stops. It may have answered an AB since."""
    held, sent = [octets for _, octets in had], [octets for _, octets in ran]
    told = sent[:-1] if sent[-1:] == [ANSWER] else sent
    return sent in (held, held + [ANSWER]) or is_cut and told == held[:len(told)]


def streams(pieces):
    return {side: b"".join(more for whose, more in pieces if whose == side) for side in SIDES}


def passed_before(pieces, side):
    """For each piece of a side: the octet at which it begins, and how many octets of the other had passed."""
    at, other, rows = 0, 0, []
    for whose, more in pieces:
        if whose == side:
            rows.append((at, other))
            at += len(more)
        else:
            other += len(more)
    return rows


def is_in_order(pieces, run, side):
    """Whether a side had received no more octets, when it sent its own, than had passed before the first of these."""
    rows = passed_before(pieces, side)
    for begun, received in run.made[side]:
        known = [other for at, other in rows if at <= begun]
        if known and received > known[-1]:
            return False
    return True


# ---- TSDUs by connections

UNITS = {0xE0: "CR", 0xD0: "CC", 0x80: "DR", 0xC0: "DC", 0xF0: "DT", 0x60: "AK", 0x70: "ER"}


def units_of(packet):
    """The transport units of a packet, from their length indicators on. What follows a DT is its data."""
    while packet:
        kind = UNITS.get(packet[1] & 0xF0) if len(packet) > 1 else None
        if kind in (None, "DT", "CR", "CC", "DR", "ER"):
            yield kind, packet
            return
        yield kind, packet[:packet[0] + 1]
        packet = packet[packet[0] + 1:]


class Connections:
    """The TSDUs of each connection of a capture, with how many of the other side's had passed before the packet in which each began."""

    def __init__(self, pieces):
        self.found = []
        self.named = {side: {} for side in SIDES}
        self.held = {side: b"" for side in SIDES}
        self.known = {side: [] for side in SIDES}
        for side, more in pieces:
            self.pass_piece(side, more)

    def counts(self, side):
        """How many TSDUs of a side have passed on each connection."""
        return [len(connection[side]) for connection in self.found]

    def pass_piece(self, side, more):
        if not more:
            return
        if not self.held[side]:
            self.known[side] = self.counts(OTHER[side])
        self.held[side] += more
        while found := packets(self.held[side])[:1]:
            (_, end, unit), = found
            for kind, octets in units_of(unit):
                self.pass_unit(side, kind, octets)
            self.held[side] = self.held[side][end:]
            self.known[side] = self.counts(OTHER[side])

    def pass_unit(self, side, kind, unit):
        """References name a connection: that of a CR or CC by its sender, any other by the other side."""
        if kind == "CR" and side == "left":
            self.named["left"][unit[4:6]] = len(self.found)
            self.found.append({"left": [], "right": [], "begun": {}})
        elif kind == "CC" and unit[2:4] in self.named["left"]:
            self.named["right"][unit[4:6]] = self.named["left"][unit[2:4]]
        elif kind == "DT":
            number = self.named[OTHER[side]].get(unit[2:4]) if unit[0] == 4 else max(self.named["right"].values(), default=None)
            if number is not None:
                self.add(side, number, unit[5:] if unit[0] == 4 else unit[3:], unit[4 if unit[0] == 4 else 2] & 0x80)

    def add(self, side, number, octets, is_last):
        """A part of a TSDU."""
        connection, known = self.found[number], self.known[side]
        before, begun = connection["begun"].pop(side, (known[number] if number < len(known) else 0, b""))
        if is_last:
            connection[side].append((before, begun + octets))
        else:
            connection["begun"][side] = before, begun + octets

    def used(self):
        """The connections on which left sends something."""
        return [connection for connection in self.found if connection["left"]]


# What an end sends by itself, as it takes something: a CN, an AA; and a part of data that is not the first, which leaves by the call of
# the first one.
ITSELF = re.compile(rb"\x0d|\x1a", re.S)
LATER_PART = re.compile(rb"\x01\x00\x01\x03\x19\x01[\x00\x02]", re.S)


def as_called(tsdus, calls):
    """TSDUs with how many of the other side's had passed when their call was made: they may have waited for credit since."""
    calls, found, called = iter(calls), [], None
    for before, octets in tsdus:
        if ITSELF.match(octets):
            found.append((before, octets))
            continue
        if not LATER_PART.match(octets):
            called = next(calls, before)
        found.append((min(before, called), octets))
    return found


def played_on(script, side):
    """What two ends send that play a script, on each connection, as it is seen at the end of a side."""
    run, seen, calls, passed = Run(side), Connections([]), {}, 0
    for line in script.splitlines():
        words = line.split(" ")
        if words[0] == side:
            number = int(words[1]) - 1
            calls.setdefault(number, []).append(seen.counts(OTHER[side])[number])
        if not line.startswith("#"):
            run.line(line)
        for piece in run.pieces[passed:]:
            seen.pass_piece(*piece)
        passed = len(run.pieces)
    run.close()
    for number, connection in enumerate(seen.found):
        connection[side] = as_called(connection[side], calls.get(number, []))
    return seen.found


def played_at(script):
    """What two ends send that play a script, on each connection on which left sends something: each side as it is seen at its end."""
    found = {side: played_on(script, side) for side in SIDES}
    nothing = {"left": [], "right": []}
    right = found["right"] + [nothing] * len(found["left"])
    return [{"left": at_left, "right": at_right} for at_left, at_right in zip(found["left"], right) if at_left["left"]]


def are_in_order(had, ran, side):
    """Whether a side of a connection had received no more TSDUs, for each that it sent, than had passed in the capture."""
    known = [before for before, _ in had[side]] or [0]
    return all(before <= known[min(number, len(known) - 1)] for number, (before, _) in enumerate(ran[side]))


def lacks_parts(tsdus):
    """Whether the last data of a side of a connection is in parts of which some are missing."""
    begun = False
    for _, octets in tsdus:
        if found := re.match(rb"\x01\x00\x01\x03\x19\x01(.)", octets, re.S):
            begun = not found[1][0] & 2
    return begun


def ends_within_data(connections):
    """Whether a side of one of them sent data in parts and not the last of these."""
    return any(lacks_parts(connection[side]) for connection in connections for side in SIDES)


# Where a script stops, and the side of a verdict that broke the protocol or left the profile first.
STOPS = re.compile(r"^# (left|right) packet (\d+): .+\n\Z", re.M)
FIRST = re.compile(r"^(left|right) (?:broke the protocol|leaves the profile) first, packet (\d+): .+\n\Z", re.M)
# What is not compared of a unit of a foreign end: the protocol options of a CN or AC, and what a CN offers and its addresses.
OPTIONS = re.compile(r"(?<= 5\()19=\w+ ")
# An end writes the setting of the tokens, and an absent one is 00.
SETTING = re.compile(r"(?<=\w) 26=00(?=\))")
OFFERED = re.compile(r"(?<=    CN )(.*?)( 20=\w+)?( 51=\w*)?( 52=\w*)?(?= 193|$)")


def as_they_act(lines):
    """The units of a TSDU in the order in which they act: a token item after those that follow it."""
    later = [line for line in lines[:1] if re.match(r"    [GP]T ", line)]
    return (lines[1:] if later else lines) + (later if not any(line.startswith("    RS") for line in lines) else [])


class Witnesses:
    """Counts what was played and compared."""

    def __init__(self, osi, top):
        self.osi, self.top = osi, top
        self.checks = self.failed = 0

    def check(self, what, holds):
        self.checks += 1
        if not holds:
            self.failed += 1
            print(f"FAILED: {what}", flush=True)
        return holds

    # ---- captures that are kept

    def listed(self, tsdus):
        """The session units of the TSDUs of a side, as `osi show` lists them, in the order in which they act."""
        stream = b"".join(b"\x03\0" + (len(octets) + 7).to_bytes(2, "big") + b"\x02\xf0\x80" + octets if len(octets) < 65_000 else b""
                          for _, octets in tsdus)
        _, text = self.osi(["show"], stream.hex())
        found = []
        for tsdu in re.split(r"^    tsdu .*\n", text, flags=re.M)[1:]:
            lines = [SETTING.sub("", OPTIONS.sub("", OFFERED.sub(r"\1", line))) for line in re.findall(r"^    (?!fault ).*", tsdu, re.M)]
            found += [line for line in as_they_act(lines) if line not in ("    GT", "    PT")]
        return found

    def connection(self, name, had, ran, status, script):
        """A connection: what is played is what each side sent, up to where the script stops."""
        for side in SIDES:
            sent, held = self.listed(ran[side][side]), self.listed(had[side])
            held = held if status == 0 else held[:len(sent)]
            self.check(f"{name}: {side} sends\n{sent}\nand not\n{held}\nby\n{script}", sent == held)
            self.check(f"{name}: {side} sends too early by\n{script}", are_in_order(had, ran[side], side))

    def capture(self, name, text):
        """A capture: what is played is what each side sent, up to where the script stops."""
        judged, verdict = self.osi(["judge"], text)
        status, script = self.osi(["judge", "--script"], text)
        if judged == 2:
            return self.check(f"{name}: {status} where osi judge gives 2", (status, script) == (2, ""))
        pieces = pieces_of(text)
        # No call sends a DC in class 0, so a script stops before one that is right.
        confirms = any(has_disconnect_confirm(stream) for stream in streams(pieces).values())
        may_stop = (confirms or name in BEYOND_CALLS) and UNFINISHED.search(script)
        self.check(f"{name}: both kept the protocol, and the script stops", judged != 0 or status == 0 or may_stop)
        self.check(f"{name}: the script is not played to its end", self.osi(["pair"], script)[0] == 0)
        first, stops = FIRST.search(verdict), STOPS.search(script)
        is_early = first and (confirms or name in BEFORE_A_BREAK) and UNFINISHED.search(script) and first.groups() != stops.groups()
        self.check(f"{name}: the script stops elsewhere than the verdict says\n{verdict}by\n{script}",
                   (stops is not None) == (status == 1)
                   and (first is None or is_early or stops and first.groups() == stops.groups()))
        had, ran = Connections(pieces).used(), played_at(script)
        self.check(f"{name}: other connections\n{script}", status == 1 or len(had) == len(ran))
        for connection, of_both in zip(had, ran):
            self.connection(name, connection, of_both, status, script)
        return status == 0

    def captures(self):
        found = list(disputes(self.top))
        told = sum(bool(self.capture(name, text)) for name, text in found)
        print(f"{len(found)} captures: {told} are told to their end", flush=True)

    # ---- random runs

    def random_run(self, number, seed):
        """A run at random in class 0, its script, and the octets that it gives. Says how it went."""
        run = run_at_random(random.Random(f"{seed} {number}"))
        text, had = run.capture(), streams(run.pieces)
        run.close()
        status, script = self.osi(["judge", "--script"], text)
        again = played(script)
        again.close()
        is_cut = status == 1 and UNFINISHED.search(script) and ends_within_data(Connections(run.pieces).found)
        holds = status == 0 or is_cut
        for side in SIDES:
            sent = again.sent[side]
            same = sent == whole(had[side]) if not is_cut else had[side].startswith(sent)
            holds = holds and same and is_in_order(run.pieces, again, side)
        self.check(f"run {number} of seed {seed}: status {status}\n" + "\n".join(run.script) + f"\n---- capture\n{text}---- script\n{script}", holds)
        return bool(is_cut), run.calls, sum(len(stream) for stream in had.values())

    def several(self, number, seed):
        """A run at random of several connections in class 2: each has the same TSDUs as in the capture. Says how it went."""
        run = run_at_random(random.Random(f"{seed} 2 {number}"), "2")
        text, had = run.capture(), Connections(run.pieces).used()
        run.close()
        status, script = self.osi(["judge", "--script"], text)
        ran = played_at(script)
        is_cut = status == 1 and UNFINISHED.search(script) and ends_within_data(had)
        holds = (status == 0 or is_cut) and (is_cut or len(had) == len(ran))
        for connection, of_both in zip(had, ran):
            for side in SIDES:
                held, sent = connection[side], of_both[side][side]
                holds = holds and is_same(held, sent, is_cut) and are_in_order(connection, {side: sent[:len(held)]}, side)
        self.check(f"run {number} of seed {seed} in class 2: status {status}\n" + "\n".join(run.script)
                   + f"\n---- capture\n{text}---- script\n{script}", holds)
        return bool(is_cut), run.calls, sum(len(more) for _, more in run.pieces)

    def random_runs(self, kind, one, count, seed):
        """So many random runs of a kind."""
        began = said = time.monotonic()
        cut = calls = octets = 0
        for number in range(count):
            more = one(number, seed)
            cut, calls, octets = cut + more[0], calls + more[1], octets + more[2]
            if time.monotonic() - said > 30:
                said = time.monotonic()
                print(f"{number + 1} runs {kind} in {said - began:.0f} s, {self.failed} failed", file=sys.stderr, flush=True)
        print(f"{count} random runs {kind} of seed {seed}, {calls} calls, {octets} octets: {count - cut} told to their end; {cut} told up "
              f"to data in parts that ends within", flush=True)

    def all(self, runs, seed):
        self.captures()
        if runs:
            self.random_runs("in class 0", self.random_run, runs, seed)
            self.random_runs("in class 2", self.several, runs, seed)


def osi(job, text):
    """Runs `osi`: its status and its output."""
    program = os.environ.get("OSI", os.path.join(TOP, "crates", "osi_tool", "out", "osi_tool"))
    done = subprocess.run([program, *job], input=text.encode(), capture_output=True)
    return done.returncode, done.stdout.decode()


def main(words):
    if words and (words[0] != "--runs" or len(words) not in (2, 3) or not all(word.isdigit() for word in words[1:])):
        sys.exit(__doc__.strip())
    runs, seed = (int(words[1]) if words else 10_000), (int(words[2]) if len(words) == 3 else 1)
    played_all, counts = Witnesses(osi, TOP), Counts()
    played_all.all(runs, seed)
    counts.passed, counts.failed = played_all.checks - played_all.failed, played_all.failed
    return counts
