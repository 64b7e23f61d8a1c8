"""Tests of `osi-capture watch`, over what `osi` printed of examples/disputes; with a capture if tshark is installed."""
import contextlib
import gc
import io
import json
import os
import shutil
import struct
import subprocess
import tempfile
import time
import types
import unittest
from unittest import mock

from ladders import script, tapped, test_judged, transcript

from . import directions, frames, live, processes, program, streams, tshark, watching as watch
from .test_damage import right, with_sum
from .test_frames import ACK, CC, CR, DT, IPV4, PUSH, RESET, SYN, Frames, data, pcap_of
from .test_judging import CURED, DISPUTES, ENDED, LAST, SCHEMA, wrongs

# The package for Python over the library that `make lib` built, if it did.
if os.path.exists(os.path.join(script.TOP, "build", "libosi-session.so")):
    os.environ.setdefault("OSI_SESSION_DIR", os.path.join(script.TOP, "build"))
ENDS = {"left": ("192.0.2.1", "40000"), "right": ("192.0.2.2", "102")}
NAME = "stream 4 192.0.2.1:40000 192.0.2.2:102"


class Rows:
    """The segments of a stream as tshark tells them; the sequence numbers of a side count its octets."""

    def __init__(self, stream=4, port="102"):
        self.stream, self.port, self.frame, self.sequences = stream, port, 0, {"left": 1, "right": 1}

    def row(self, side, octets=b"", flags=tshark.ACK, acknowledged=None):
        """A segment of a side."""
        far, self.frame = transcript.other(side), self.frame + 1
        sequence = self.sequences[side]
        acknowledged = self.sequences[far] if acknowledged is None else acknowledged
        self.sequences[side] += len(octets) + bool(flags & tshark.FIN)
        (source, source_port), (target, target_port) = ((end, port.replace("102", self.port)) for end, port in (ENDS[side], ENDS[far]))
        return tshark.Segment([str(self.frame), f"{1000 + self.frame / 8:.6f}", str(self.stream), source, "", source_port, target, "",
                               target_port, str(sequence), str(acknowledged), hex(flags), str(len(octets)), "99", octets.hex()])

    def of(self, name):
        """The segments of a dispute."""
        return [self.row(piece.side, piece.octets) for piece in tapped.read(test_judged.stored(name)[0])]

    def begin(self):
        """The segments that open the TCP connection: left opens it."""
        self.sequences = {"left": 0, "right": 0}
        opened = [self.row("left", flags=tshark.SYN), self.row("right", flags=tshark.SYN | tshark.ACK)]
        self.sequences = {"left": 1, "right": 1}
        return opened

    def end(self, side):
        """The last segment of a side."""
        return self.row(side, flags=tshark.FIN | tshark.ACK)


def point(number):
    """The packet of a minor synchronization point, in a DT of class 0. Each is kept, since it has a number of its own."""
    digits = str(number).encode("ascii")
    user = bytes([1, 0, 49, 2 + len(digits), 42, len(digits)]) + digits
    return bytes([3, 0, 0, 7 + len(user), 2, 0xF0, 0x80]) + user


def without_beginnings(test):
    """Lets streams go on at once, though the segments that begin the connection aren't there."""
    patched = mock.patch.object(streams, "EARLY", 1)
    patched.start()
    test.addCleanup(patched.stop)


class Watching(unittest.TestCase):
    """Streams as tshark prints them, without tshark and without `osi`."""

    def setUp(self):
        self.watching = watch.Watching(102, lambda text: test_judged.answer(None, "judge", text))
        without_beginnings(self)

    def printed(self, *rows, is_end=False, is_quiet=False):
        """What is printed of some more segments, each followed by a look at the streams, and if nothing comes for a moment; not how a
        stream ended."""
        with contextlib.redirect_stdout(io.StringIO()) as out:
            for row in rows:
                self.watching.take(row)
                self.watching.look()
            if is_quiet:
                self.watching.end_resets()
            if is_end:
                self.watching.look(is_end=True)
        rows = out.getvalue().splitlines(True)
        self.ended = [row.partition(": ")[2] for row in rows if ": ended: " in row]
        return "".join(row for row in rows if ": ended: " not in row)

    def kept(self):
        """Lets `osi judge` say of everything that both sides kept the protocol."""
        return mock.patch.object(self.watching, "judge", lambda text: "both kept the protocol\n")

    def test_a_break_is_told_at_the_end_and_once(self):
        rows = Rows().of("restart")
        self.assertEqual(self.printed(*rows), "")
        told = self.printed(is_end=True)
        self.assertTrue(told.startswith(f"{NAME}: frame 13, 1.500000 seconds: left broke the protocol first"), told)
        self.assertEqual(told.count("\n"), 1)
        self.assertIn("right aborted by its session layer, protocol error: AB 17=05 (frame 14, 1.625000 seconds)", self.ended[0])
        self.assertEqual((self.watching.status(), self.watching.watched, self.watching.ending), (1, {}, {}))

    def test_json_has_the_break_as_judge_has_it(self):
        self.watching.is_json = True
        with contextlib.redirect_stdout(io.StringIO()) as out:
            for row in Rows().of("restart"):
                self.watching.take(row)
            self.watching.look(is_end=True)
        told, ended = map(json.loads, out.getvalue().splitlines())
        for each in (told, ended):
            self.assertEqual(wrongs(each, SCHEMA["$defs"]["watched"]), [])
        found = told["break"]
        self.assertEqual((found["side"], found["octet"], found["frame"], found["time"]), ("left", 143, 13, 1.5))
        self.assertEqual((found["what"], found["rule"], found["clause"][:11]), ("Data", "TokenNotHeld", "X.225, 7.11"))
        self.assertEqual((told["line"], ended["break"]), (f"frame 13, 1.500000 seconds: {found['sentence']}", None))

    def test_that_both_kept_the_protocol_is_told_when_tcp_has_closed_the_stream(self):
        rows = Rows()
        self.assertEqual(self.printed(*rows.of("restart_cured"), rows.end("left")), "")
        self.assertEqual(self.printed(rows.end("right")), f"{NAME}: both kept the protocol\n")
        self.assertRegex(self.ended[0], r"^ended: released: .*; left closed TCP")
        self.assertEqual((self.watching.status(), self.watching.watched), (0, {}))

    def test_a_reset_closes_both_directions(self):
        rows = Rows()
        self.printed(*rows.of("restart_cured"))
        self.assertEqual(self.printed(rows.row("right", flags=tshark.RESET)), "")
        self.assertEqual(self.printed(is_quiet=True), f"{NAME}: both kept the protocol\n")
        self.assertEqual((self.watching.resets, self.watching.watched), ({}, {}))

    def test_octets_that_are_captured_after_a_reset(self):
        """Frames of several queues: what was sent before the reset is captured a little later, and judged; what comes late isn't."""
        for wait, said in ((0, "left broke the protocol first"), (2, "both kept the protocol")):
            self.setUp()
            rows = Rows()
            *begun, wrong = rows.of("restart")[:-1]
            self.printed(*begun)
            reset = rows.row("right", flags=tshark.RESET)
            reset.time, wrong.time = begun[-1].time, begun[-1].time + wait
            with self.kept() if wait else contextlib.nullcontext():
                self.assertEqual(self.printed(reset), "")
                self.assertIn(said, self.printed(wrong) + self.printed(is_quiet=True))
            self.assertEqual((self.watching.resets, self.watching.watched), ({}, {}))

    def test_at_the_end_all_streams_are_told(self):
        self.assertEqual(self.printed(*Rows().of("restart_cured"), is_end=True), f"{NAME}: both kept the protocol\n")

    def test_octets_that_were_acknowledged_and_not_captured_end_the_watch_after_some_time(self):
        rows = Rows()
        self.printed(*rows.of("restart")[:6])
        rows.sequences["left"] += 14
        late = rows.row("right")
        with self.kept():
            self.assertEqual(self.printed(late), "")
            rows.frame += 8 * watch.PATIENCE
            said = f"{NAME}: both kept the protocol, judged up to frame 16, where left lost 111 octets\n"
            self.assertEqual(self.printed(rows.row("right"), rows.row("right")), said)
        self.assertEqual(self.watching.status(), 3)

    def test_a_gap_is_waited_for_and_named_at_the_end(self):
        rows = Rows().of("restart")
        del rows[5]
        with self.kept():
            said = self.printed(*rows, is_end=True)
        self.assertEqual(said, f"{NAME}: both kept the protocol, judged up to frame 7, where left lost 14 octets\n")

    def test_segments_out_of_order_are_put_in_order(self):
        rows = Rows().of("restart")
        rows[4], rows[5] = rows[5], rows[4]
        with self.kept():
            self.assertEqual(self.printed(*rows, is_end=True), f"{NAME}: both kept the protocol\n")

    def test_a_stream_that_begins_in_the_middle_is_named_at_the_end(self):
        rows = Rows().of("restart")[2:]
        self.assertEqual(self.printed(*rows), "")
        self.assertTrue(self.printed(is_end=True).endswith("not judged: begins in the middle, at frame 3\n"))

    def test_a_stream_without_a_verdict_is_named_at_the_end(self):
        for printed, why in (("not judged: the connection is not of class 0\n", "the connection is not of class 0"),
                             ("left 1 unanswered\n", "osi judge names no verdict")):
            self.watching = watch.Watching(102, lambda text, printed=printed: printed)
            self.assertEqual(self.printed(*Rows().of("restart"), is_end=True), f"{NAME}: not judged: {why}\n")
            self.assertEqual(self.watching.status(), 2)

    def test_a_stream_of_another_protocol_is_named(self):
        rows = Rows()
        sent = [rows.row(side, bytes.fromhex(octets)) for side, octets in (
            ("left", "0300000e09e00000000100c0010a"), ("right", "0300000e09d00001000100c0010a"), ("left", "0300000b02f08032010000"))]
        self.assertEqual(self.printed(*sent, is_end=True), f"{NAME}: not judged: S7comm, not a session\n")
        self.assertEqual(self.watching.status(), 2)

    def test_a_stream_that_is_too_long_is_watched_no_further(self):
        with mock.patch.object(watch, "LONGEST", 100), self.kept():
            said = self.printed(*Rows().of("restart"))
        self.assertEqual(said, f"{NAME}: both kept the protocol, not judged further: it has more than 100 octets\n")
        self.assertEqual(self.watching.status(), 3)

    def test_other_ports_and_hosts_are_left_out(self):
        self.assertEqual(self.printed(*Rows(port="80").of("restart"), is_end=True), "")
        self.assertEqual(self.watching.status(), 2)
        self.watching.hosts = ["192.0.2.9"]
        self.assertEqual(self.printed(*Rows().of("restart"), is_end=True), "")

    def test_streams_that_are_over_are_forgotten(self):
        with mock.patch.object(watch, "REMEMBERED", 2):
            for stream in range(5):
                self.printed(*Rows(stream).of("restart"), Rows(stream).row("right", flags=tshark.RESET), is_quiet=True)
        self.assertEqual((list(self.watching.over), self.watching.watched, self.watching.ending), ([3, 4], {}, {}))


class Told:
    """A verdict of a judge that tests make up."""

    def __init__(self, kind, rule, text):
        self.kind, self.rule, self.text = mock.Mock(), mock.Mock(), text
        self.kind.name, self.rule.name = kind, rule

    def __str__(self):
        return self.text


class Judge:
    """A judge that keeps nothing: it finds a break in octets that have the word `wrong`, and no more is judged after `LIMIT`."""

    def __init__(self):
        self.is_open, self.said = True, "both kept the protocol"

    def feed(self, side, octets):
        """The verdicts that are certain."""
        if b"wrong" in octets:
            self.said = f"{SIDES[side]} broke the protocol first, packet 70: Data TokenNotHeld"
            yield Told("BROKE", "TOKEN_NOT_HELD", f"{SIDES[side]} 1 broke packet 70 Data TokenNotHeld")
        if b"LIMIT" in octets:
            yield Told("NOT_JUDGED", "LIMIT", "left 1 not judged")

    def text(self):
        """What `osi judge` would print."""
        return self.said + "\n"

    def close(self):
        """Frees it."""
        self.is_open = False


SIDES = ("left", "right")
MADE_UP = types.SimpleNamespace(Judge=Judge)


class Months(unittest.TestCase):
    """A watch that goes on and on, as a judge that is made up judges."""

    def setUp(self):
        self.reader = frames.Reader(True, 102)
        patched = mock.patch.object(watch, "osi_session", MADE_UP)
        patched.start()
        self.addCleanup(patched.stop)
        self.watching = watch.Watching(102, forget=self.reader.forget)
        list(self.reader.feed(pcap_of([])))
        self.now, self.place = 1_000_000_000_000_000, 0

    def fed(self, made, pause=0):
        """What is printed while frames pass, a millisecond apart."""
        self.now += pause * 1_000_000
        content = pcap_of(made, times=[self.now + 1_000 * place for place in range(len(made))])[24:]
        self.now += 1_000 * len(made)
        with contextlib.redirect_stdout(io.StringIO()) as out:
            watch.follow(self.watching, self.reader.feed(content), 1)
        return out.getvalue()

    def held(self):
        """How many streams are held in one way or another."""
        return len(self.watching.watched), len(self.watching.ending), len(self.watching.over), len(self.reader.ways)

    def test_what_is_printed(self):
        out = self.fed(Frames().open().talk().close().frames)
        self.assertRegex(out, r"^stream 0 \S+ \S+: both kept the protocol\nstream 0 .*: ended: released")
        wrong = Frames(ports={"left": 41_000, "right": 102}).open().send("left", data(b"\1\0\1\0wrong"))
        out = self.fed(wrong.put("right").frames)
        self.assertRegex(out, r"^stream 1 .*: frame \d+, 0.00\d+ seconds: left broke the protocol first, in its packet at octet 70\.")
        with contextlib.redirect_stdout(io.StringIO()):
            self.watching.look(is_end=True)
        self.assertEqual(self.watching.status(), 1)

    def test_streams_that_are_over_are_forgotten(self):
        with mock.patch.object(watch, "REMEMBERED", 10):
            for place in range(60):
                self.fed(Frames(ports={"left": 20_000 + place, "right": 102}).open().talk().close().frames)
        self.assertEqual(self.held(), (0, 0, 10, 20))

    def test_octets_that_are_captured_after_the_end_of_tcp_are_waited_for(self):
        for place in (0, 1):
            made = Frames(ports={"left": 41_000 + place, "right": 102}).open().talk().close().frames
            late = made.pop(-4)
            self.assertEqual(self.fed(made), "")
            if place:
                out = self.fed(Frames(ports={"left": 50_000, "right": 102}).open().frames, watch.PATIENCE + 1)
                self.assertIn("both kept the protocol, judged up to frame", out)
            else:
                self.assertRegex(self.fed([late]), r"both kept the protocol\n.*released")

    def test_streams_that_were_refused_or_never_answered_are_forgotten(self):
        refused = Frames().put("left", flags=SYN).put("right", flags=RESET | ACK).frames
        self.fed(refused)
        self.assertEqual((self.held()[:2], list(self.watching.resets)), ((1, 0), [0]))
        with contextlib.redirect_stdout(io.StringIO()):
            self.watching.drop_idle(self.now / 1_000_000 + watch.MOMENT + 1)
        self.assertEqual((self.held()[:2], list(self.watching.resets)), ((0, 0), []))
        with mock.patch.object(watch, "MOST_STREAMS", 10):
            for place in range(30):
                self.fed(Frames(ports={"left": 20_000 + place, "right": 102}).put("left", flags=SYN).frames)
        self.assertEqual(self.held()[:2], (10, 0))

    def test_streams_that_are_idle_are_forgotten_and_begin_in_the_middle_if_they_go_on(self):
        made, other = Frames().open(), Frames(ports={"left": 41_000, "right": 102})
        self.fed(made.frames)
        out = self.fed(other.open().frames, watch.IDLE + 1)
        self.assertRegex(out, r"both kept the protocol\n.*nothing passed for its last 86401")
        made.frames.clear()
        self.assertRegex(self.fed(made.talk(40).frames), r"stream 2 .*begins in the middle")

    def test_a_stream_after_whose_break_nothing_passes_is_forgotten(self):
        self.fed(Frames().open().send("left", data(b"\1\0\1\0LIMIT")).frames)
        self.assertEqual(self.held()[:2], (0, 1))
        self.fed(Frames(ports={"left": 41_000, "right": 102}).open().frames, watch.IDLE + 1)
        self.assertEqual(self.held()[:2], (1, 0))

    def test_octets_that_differ_when_they_are_sent_again_end_what_is_judged(self):
        made = Frames().open()
        start = made.next["left"]
        made.put("left", bytes(len(DT)), PUSH | ACK).put("left", DT, PUSH | ACK, sequence=start)
        self.assertIn("judged up to frame 8, whose octets left sent again as others in frame 9", self.fed(made.frames))
        made = Frames(ports={"left": 41_000, "right": 102}).open()
        start = made.next["left"]
        made.put("left", data(b"\1\0\1\0wrong"), PUSH | ACK).put("right")
        made.put("left", data(b"\1\0\1\0right"), PUSH | ACK, sequence=start)
        said = "sent again as others in frame 19, so what was said of later frames is not certain"
        self.assertRegex(self.fed(made.frames), f"left broke .*\n.* {said}")
        self.assertEqual(self.watching.status(), 3)

    def test_memory_stays_flat(self):
        """bench/streams.py does the same with 100,000 streams and 1,000,000 TSDUs."""
        steady, counts = self.steady(), []
        with mock.patch.object(watch, "REMEMBERED", 50), mock.patch.object(directions, "SPARE_SEGMENTS", 10):
            for _ in range(2):
                self.memory(150, steady)
                gc.collect()
                counts.append(len(gc.get_objects()))
        self.assertLess(counts[1] - counts[0], 50)

    def steady(self):
        """A stream that goes on for long."""
        made = Frames(ports={"left": 1_024, "right": 102})
        self.fed(made.open().frames)
        return made

    def memory(self, count, steady):
        """How much memory the program has after so many streams in turn, and ten TSDUs for each in one stream."""
        for _ in range(count):
            steady.frames.clear()
            self.place += 1
            ports = {"left": 20_000 + self.place % 40_000, "right": 102}
            self.fed(Frames(ports=ports, first={"left": self.place, "right": self.place}).open().talk().close().frames)
            self.fed(steady.talk(5).frames)
        with open("/proc/self/statm", encoding="ascii") as file:
            return int(file.read().split()[1]) * os.sysconf("SC_PAGE_SIZE")


# A program that takes any data with the word `wrong` for a break, and says so at once if it knows `--live`.
STUB = """#!/usr/bin/env python3
import sys
at, wrong = {"left": 0, "right": 0}, []
if sys.argv[1:] != ["judge", "--live"]:
    sys.exit("osi: Words")
for line in sys.stdin:
    side, octets = ("right" if line.startswith(chr(9)) else "left"), bytes.fromhex(line)
    if b"wrong" in octets:
        wrong.append(f"{side} 1 broke packet {at[side]} Data TokenNotHeld")
        print(wrong[-1], flush=True)
    at[side] += len(octets)
if not any(at.values()):
    print("left packets 0 octets 0 rest 0", "right packets 0 octets 0 rest 0", "not judged: no octets", sep=chr(10))
    sys.exit(1)
print(f"left packets 1 octets {at['left']} rest 0", f"right packets 1 octets {at['right']} rest 0", *wrong, sep=chr(10))
if wrong:
    print(wrong[0].replace(" 1 broke packet ", " broke the protocol first, packet ").replace(" Data", ": Data"))
else:
    print("both kept the protocol")
"""


class ByProgram(unittest.TestCase):
    """A program for each stream, which tests make up."""

    def setUp(self):
        self.room = tempfile.TemporaryDirectory()
        self.addCleanup(self.room.cleanup)
        self.programs = processes.Programs(self.program(STUB))
        self.addCleanup(lambda: [self.programs.end(each) for each in list(self.programs.running)])
        self.reader = frames.Reader(True, 102)
        self.asked = []
        self.watching = watch.Watching(102, self.judge, forget=self.reader.forget, programs=self.programs)
        list(self.reader.feed(pcap_of([])))

    def program(self, text):
        """The path of a program with this text."""
        path = os.path.join(self.room.name, "osi")
        with open(path, "w", encoding="ascii") as file:
            file.write(text)
        os.chmod(path, 0o755)
        return path

    def judge(self, text):
        """What a program says of a stream at its end."""
        self.asked.append(str(text))
        return "left packets 1 octets 1 rest 0\nright packets 1 octets 1 rest 0\nboth kept the protocol\n"

    def fed(self, made, is_end=False, wanted=None):
        """What is printed while frames pass; a program may say some text a while later."""
        until = time.monotonic() + 20
        with contextlib.redirect_stdout(io.StringIO()) as out:
            watch.follow(self.watching, self.reader.feed(pcap_of(made)[24:]), 0)
            while wanted and wanted not in out.getvalue() and time.monotonic() < until:
                time.sleep(0.02)
                self.watching.look()
            self.watching.look(is_end=is_end)
        return out.getvalue()

    def test_a_break_is_told_while_the_stream_passes_and_once(self):
        wrong = Frames().open().send("left", data(b"\1\0\1\0wrong")).put("right")
        out = self.fed(wrong.frames, wanted="broke")
        said = r"frame 8, 0.004000 seconds: left broke the protocol first, in its packet at octet 35\. It sent"
        self.assertRegex(out, rf"^stream 0 \S+ \S+: {said}")
        wrong.frames.clear()
        wrong.send("right", data(b"\1\0\1\0wrong")).put("left").close()
        out = self.fed(wrong.frames, wanted="ended")
        said = r"frame \d+, -?0.0\d+ seconds: right 1 broke packet 35 Data TokenNotHeld"
        self.assertRegex(out, rf"^stream 0 \S+ \S+: {said}\nstream 0 .*: ended: ")
        self.assertEqual((self.watching.status(), self.programs.running, self.watching.watched), (1, set(), {}))

    def test_json_has_the_break_of_each_side(self):
        self.watching.is_json = True
        wrong = Frames().open().send("left", data(b"\1\0\1\0wrong")).put("right").send("right", data(b"\1\0\1\0wrong")).put("left")
        told = [json.loads(row) for row in self.fed(wrong.frames, is_end=True).splitlines()]
        self.assertEqual([wrongs(each, SCHEMA["$defs"]["watched"]) for each in told], [[]] * len(told))
        self.assertEqual([(each["break"]["side"], each["break"]["octet"], each["break"]["frame"]) for each in told if each["break"]],
                         [("left", 35, 8), ("right", 35, 10)])

    def test_a_break_before_a_damaged_frame_stays_found(self):
        """However late the program says it."""
        self.reader = frames.Reader(True, 102, True)
        list(self.reader.feed(pcap_of([])))
        made = Frames().open().send("left", data(b"\1\0\1\0wrong")).put("right").send("left", DT).put("right")
        out = self.fed([with_sum(frame, 99) if place == 9 else right(frame) for place, frame in enumerate(made.frames)], is_end=True)
        self.assertIn("frame 8, 0.004000 seconds: left broke the protocol first", out)

    def test_both_kept_the_protocol_is_told_at_the_end(self):
        self.assertRegex(self.fed(Frames().open().talk(50).close().frames), r"^stream 0 \S+ \S+: both kept the protocol\n.*released")
        self.assertEqual((self.watching.status(), self.programs.running), (0, set()))

    def test_no_octet_is_kept(self):
        self.fed(Frames().open().talk(50).frames)
        self.assertEqual(self.watching.watched[0].stream.pieces, [])

    def test_streams_beyond_the_bound_are_judged_when_they_are_over(self):
        with mock.patch.object(processes, "MOST_PROGRAMS", 2):
            made = [Frames(ports={"left": 20_000 + place, "right": 102}).open() for place in range(4)]
            for each in made:
                self.fed(each.frames)
            self.assertEqual((len(self.programs.running), len(self.asked)), (2, 0))
            for each in made:
                each.frames.clear()
                self.assertIn("both kept the protocol", self.fed(each.talk().close().frames))
        self.assertEqual((self.programs.running, len(self.asked)), (set(), 2))

    def test_streams_without_octets_take_no_program(self):
        for place in range(5):
            self.fed(Frames(ports={"left": 20_000 + place, "right": 102}).begin().frames)
        self.assertEqual(self.programs.running, set())

    def test_a_program_that_does_not_know_live_judges_when_a_stream_is_over(self):
        self.assertIsNone(processes.Programs(self.program("#!/bin/sh\nexit 2\n")).start())
        self.assertIsNone(processes.Programs("/nowhere/osi").start())

    def test_a_program_that_ends_by_itself_gives_no_verdict(self):
        self.programs.program = self.program("#!/bin/sh\nexit 2\n")
        self.assertIn("not judged: osi judge ended without a verdict", self.fed(Frames().open().talk(3).close().frames))

    def test_a_program_that_is_slow_is_waited_for(self):
        with mock.patch.object(processes, "MOST_UNWRITTEN", 1_000):
            self.assertIn("both kept", self.fed(Frames().open().talk(200).close().frames))

    def test_another_protocol_is_named(self):
        made = Frames().begin().send("left", CR).send("right", CC).send("left", data(b"\x32\1wrong")).send("right", data(b"\x32\3"))
        self.assertIn("not judged: S7comm, not a session", self.fed(made.frames, wanted="S7comm"))

    def test_octets_that_are_sent_again_as_others_blame_nobody(self):
        made = Frames().open()
        start = made.next["left"]
        made.put("left", data(b"\1\0\1\0wrong"), PUSH | ACK).put("left", data(b"\1\0\1\0right"), PUSH | ACK, sequence=start)
        out = self.fed(made.frames, is_end=True)
        self.assertIn("both kept the protocol, judged up to frame 8, whose octets left sent again as others in frame 9", out)
        self.assertEqual(self.watching.status(), 3)

    def test_packets_are_found_by_their_place(self):
        found, octets = processes.Places(), CR + DT + b"garbage"
        for at in range(0, len(octets), 5):
            found.take(streams.Piece(at, at / 10, at, octets[at:at + 5]), at // 5)
        self.assertEqual((found.of(0), found.of(len(CR))), ((14, 10, 1.0, 2), (29, 25, 2.5, 5)))
        self.assertEqual((found.of(29), found.of(7)), ((30, 25, 2.5, 5), None))


@unittest.skipUnless(watch.library(), "the package osi_session or its library is not there")
class ByLibrary(unittest.TestCase):
    """The same by the judge of the library, without tshark."""

    def setUp(self):
        self.watching = watch.Watching(102)
        without_beginnings(self)

    printed = Watching.printed

    def test_a_break_is_told_as_soon_as_it_is_acknowledged_and_once(self):
        rows = Rows().of("restart")
        self.assertEqual(self.printed(*rows[:13]), "")
        told = self.printed(rows[13])
        said = f"{NAME}: frame 13, 1.500000 seconds: left broke the protocol first, in its packet at octet 143."
        self.assertTrue(told.startswith(said), told)
        self.assertEqual(self.printed(*rows[14:], is_end=True), "")
        self.assertEqual((self.watching.status(), self.watching.watched), (1, {}))

    def test_no_octet_is_kept(self):
        self.printed(*Rows().of("restart_cured"))
        self.assertEqual(self.watching.watched[4].stream.pieces, [])

    def test_that_both_kept_the_protocol_is_told_when_tcp_has_closed_the_stream(self):
        rows = Rows()
        self.assertEqual(self.printed(*rows.of("restart_cured"), rows.end("left")), "")
        self.assertEqual(self.printed(rows.end("right")), f"{NAME}: both kept the protocol\n")
        self.assertEqual((self.watching.status(), self.watching.watched), (0, {}))

    def test_a_gap_is_waited_for_and_named_at_the_end(self):
        rows = Rows().of("restart")
        del rows[4]
        said = f"{NAME}: both kept the protocol, judged up to frame 6, where left lost 19 octets\n"
        self.assertEqual(self.printed(*rows, is_end=True), said)
        self.assertEqual(self.watching.status(), 3)

    def test_segments_out_of_order_are_put_in_order(self):
        rows = Rows().of("restart_cured")
        rows[4], rows[5] = rows[5], rows[4]
        self.assertEqual(self.printed(*rows, is_end=True), f"{NAME}: both kept the protocol\n")

    def test_a_segment_that_stays_away_for_long_is_lost(self):
        rows = Rows().of("restart")
        with mock.patch.object(watch, "MOST_WAITING", 20):
            said = self.printed(*rows[:4], *rows[5:])
        self.assertEqual(said, f"{NAME}: both kept the protocol, judged up to frame 6, where left lost 19 octets\n")

    def test_a_stream_that_begins_in_the_middle_is_named(self):
        self.assertIn("not judged: begins in the middle", self.printed(*Rows().of("restart")[2:], is_end=True))
        half = Rows(stream=5).row("left", b"half a packet")
        self.assertIn("not judged: begins in the middle", self.printed(half, is_end=True))

    def test_a_stream_that_is_too_long_is_watched_no_further(self):
        rows = Rows()
        opening = [rows.row(piece.side, piece.octets) for piece in tapped.read(test_judged.stored("restart")[0])[:4]]
        points = [rows.row("left", b"".join(map(point, range(first, first + 200)))) for first in range(1, 60_001, 200)]
        self.assertEqual(self.printed(*opening, *points[:250]), "")
        said = "not judged further: more passed than a judge of the library keeps"
        self.assertEqual(self.printed(*points[250:]), f"{NAME}: {said}\n")

    def test_connections_of_class_2_are_watched_on_after_a_break(self):
        """Two connections of class 2; on the second, right sends data without the token."""
        rows = Rows()
        told = self.printed(*rows.begin())
        for left in (1, 3):
            right = left + 1
            for side, octets in (("left", f"030000110ce40000000{left:x}20c0010ac60100"),
                                 ("right", f"030000110cd4000{left:x}000{right:x}20c0010ac60100"),
                                 ("left", f"0300001d04f0000{right:x}800d12050c1301011601021701311a0100140200b9"),
                                 ("right", f"0300001d04f0000{left:x}800e12050c1301011601021701311a0100140200b9")):
                told += self.printed(rows.row(side, bytes.fromhex(octets)))
        self.assertEqual(told, "")
        told = self.printed(rows.row("right", bytes.fromhex("0300001104f00003810100010064617461")), rows.row("left"))
        said = "right broke the protocol first, in its packet at octet 92. It sent data (DT); it did not hold the data token "
        self.assertTrue(told.startswith(f"{NAME}: frame 11, 1.000000 seconds: {said}"), told)
        self.assertEqual(self.printed(rows.row("left", bytes.fromhex("0300001104f00002810100010064617461")), is_end=True), "")
        self.assertEqual(self.watching.status(), 1)

    def test_that_both_kept_the_protocol_in_class_2_is_told_at_the_end(self):
        rows = Rows()
        self.assertEqual(self.printed(*rows.begin()), "")
        opening = [("left", "030000110ce40000000120c0010ac60100"), ("right", "030000110cd40001000220c0010ac60100")]
        self.assertEqual(self.printed(*(rows.row(side, bytes.fromhex(octets)) for side, octets in opening)), "")
        self.assertEqual(self.printed(rows.row("left", flags=tshark.RESET)), "")
        self.assertEqual(self.printed(is_quiet=True), f"{NAME}: both kept the protocol\n")
        self.assertEqual(self.watching.status(), 0)


class Sources(unittest.TestCase):
    """What a watch reads: an interface, a file or standard input; a program that tests make up judges."""

    def setUp(self):
        self.room = tempfile.TemporaryDirectory()
        self.addCleanup(self.room.cleanup)
        with open(self.path("run.pcap"), "wb") as file:
            file.write(pcap_of(Frames().open().talk(3).close().frames))
        self.program("osi", STUB)

    def path(self, name):
        """The path of a file in the folder."""
        return os.path.join(self.room.name, name)

    def program(self, name, text):
        """Writes a program into the folder."""
        with open(self.path(name), "w", encoding="ascii") as file:
            file.write(text)
        os.chmod(self.path(name), 0o755)

    def call(self, *words):
        """The status of a watch, and what it printed."""
        with contextlib.redirect_stdout(io.StringIO()) as out, contextlib.redirect_stderr(io.StringIO()) as err:
            status = program.main(["watch", *words, "--by", "program", "--osi", self.path("osi")])
        return status, out.getvalue().count("both kept the protocol\n"), err.getvalue()

    def test_an_interface(self):
        """dumpcap captures at the port, with and without a tag."""
        self.program("dumpcap", f'#!/bin/sh\necho "$@" >{self.path("words")}\ncat {self.path("run.pcap")}\n')
        with mock.patch.dict(os.environ, PATH=f"{self.room.name}:{os.environ['PATH']}"):
            self.assertEqual(self.call("-i", "eth7", "--port", "102"), (0, 1, ""))
        with open(self.path("words"), encoding="ascii") as file:
            self.assertEqual(file.read(), "-q -i eth7 -f tcp port 102 or (vlan and tcp port 102) -w -\n")
        with mock.patch.object(live.shutil, "which", lambda name: None):
            self.assertIn("there is no dumpcap", self.call("-i", "eth7")[2])

    def test_a_file(self):
        self.assertEqual(self.call("-r", self.path("run.pcap")), (0, 1, ""))
        self.assertEqual(self.call(self.path("run.pcap")), (0, 1, ""))

    @unittest.skipUnless(tshark.is_there(), "tshark is not installed")
    def test_a_file_that_tshark_reads(self):
        """The frames are in a tunnel."""
        made = [struct.pack(">BBHHHBBH4s4s", 0x45, 0, 24 + len(frame), 0, 0, 64, 47, 0, *IPV4.values()) + b"\0\0\x08\0" + frame
                for frame in Frames().open().talk(3).close().frames]
        with open(self.path("run.pcap"), "wb") as file:
            file.write(pcap_of(made))
        self.assertEqual(self.call("-r", self.path("run.pcap")), (0, 1, ""))

    def test_standard_input(self):
        for words in (("-r", "-"), ("-",)):
            with open(self.path("run.pcap"), "rb") as file, mock.patch.object(live.sys, "stdin", mock.Mock(buffer=file)):
                self.assertEqual(self.call(*words), (0, 1, ""))
        with open(self.path("osi"), "rb") as file, mock.patch.object(live.sys, "stdin", mock.Mock(buffer=file)):
            status, _, err = self.call("-")
        self.assertEqual((status, "isn't read from a pipe: no pcap and no pcapng" in err), (2, True), err)

    def test_a_pipe_with_a_name(self):
        os.mkfifo(self.path("pipe"))
        with subprocess.Popen(["cp", self.path("run.pcap"), self.path("pipe")]):
            self.assertEqual(self.call(self.path("pipe")), (0, 1, ""))

    def test_if_nothing_passes_it_says_so(self):
        status, _, err = self.call(self.path("run.pcap"), "--host", "192.0.2.9")
        self.assertEqual((status, err.startswith("osi-capture: no TCP stream that was asked for passed at port 102"), err.count("\n")),
                         (2, True, 1))


@unittest.skipUnless(shutil.which("tshark"), "tshark is not installed")
class Captures(unittest.TestCase):
    """The program, over captures that tshark reads; `osi` is not run."""

    def call(self, *words):
        out, err = io.StringIO(), io.StringIO()
        with contextlib.redirect_stdout(out), contextlib.redirect_stderr(err), mock.patch.object(script, "run", test_judged.answer):
            return program.main(["watch", *words]), out.getvalue(), err.getvalue()

    def test_a_capture_is_watched(self):
        named, still = "stream 0 192.0.2.1:40000 192.0.2.2:102: ", "; TCP is open"
        with tempfile.TemporaryDirectory() as room:
            for name, status, said, ended in (("restart", 1, LAST, ENDED), ("restart_cured", 0, "both kept the protocol", CURED)):
                pcap = os.path.join(room, f"{name}.pcap")
                self.assertEqual(program.main(["join", os.path.join(DISPUTES, name), "-o", pcap]), 0)
                for words in (("-r", pcap, "--every", "0"), (pcap, "--every", "60")):
                    found, out, err = self.call(*words, "--by", "program")
                    self.assertEqual((found, out.partition(still)[0], err), (status, f"{named}{said}\n{named}{ended}", ""))

    def test_a_missing_file_has_status_2(self):
        self.assertEqual(self.call("-r", os.path.join(DISPUTES, "nothing.pcap"))[:2], (2, ""))


if __name__ == "__main__":
    unittest.main()
