"""Tests of osi-capture, over captures that tshark's own tools make: python3 -m unittest discover -s tools -t tools"""
import contextlib
import io
import json
import os
import re
import shutil
import struct
import subprocess
import sys
import tempfile
import unittest
from unittest import mock

from . import columns, listing, pcap, program, streams, texts, tshark

TOP = os.path.dirname(os.path.dirname(os.path.dirname(os.path.abspath(__file__))))
TUTORIAL = os.path.join(TOP, "examples", "tutorial")
TOOLS = ("tshark", "text2pcap", "editcap", "mergecap")
OSI = os.path.join(TOP, "crates", "osi_tool", "out", "osi_tool")
# The user data of the units of that association, in their order.
PPDUS = ("cp", "cpa", "request", "answer", "rlrq", "rlre")
KINDS = {"integer": int, "number": (int, float), "string": str, "null": type(None)}
with open(os.path.join(TOP, "docs", "capture.schema.json"), encoding="utf-8") as schema_file:
    SCHEMA = json.load(schema_file)


def call(*words):
    """The status of the program, and what it wrote."""
    out, err = io.StringIO(), io.StringIO()
    with contextlib.redirect_stdout(out), contextlib.redirect_stderr(err):
        status = program.main(list(words))
    return status, out.getvalue(), err.getvalue()


def octets_of(name):
    with open(name, encoding="ascii") as file:
        return bytes.fromhex("".join(line.partition("#")[0] for line in file))


def wrongs(told):
    """What docs/capture.schema.json refuses of an object, as far as that schema says anything."""
    found = [name for name in SCHEMA["required"] if name not in told]
    for name, value in told.items():
        rule = SCHEMA["properties"].get(name)
        kinds = [rule["type"]] if rule and isinstance(rule.get("type"), str) else (rule or {}).get("type", [])
        if rule is None or (kinds and not any(isinstance(value, KINDS[kind]) for kind in kinds)):
            found.append(name)
        elif value not in rule.get("enum", [value]) or not re.search(rule.get("pattern", ""), str(value)):
            found.append(name)
        elif value is not None and "minimum" in rule and value < rule["minimum"]:
            found.append(name)
    return found


def packets_of(octets):
    return [octets[start:start + length] for start, length in streams.packets(octets)]


def association():
    """The packets of an association, each with its direction as text2pcap has it: O for the caller."""
    left = packets_of(octets_of(os.path.join(TUTORIAL, "whole.left.hex")))
    right = packets_of(octets_of(os.path.join(TUTORIAL, "whole.right.hex")))
    return [each for pair in zip(left, right) for each in zip("OI", pair)]


def dump(packets):
    """What text2pcap reads."""
    text = ""
    for direction, octets in packets:
        text += direction + "\n"
        text += "".join(f"{at:06x} {octets[at:at + 16].hex(' ')}\n" for at in range(0, len(octets), 16)) + "\n"
    return text


@unittest.skipUnless(all(map(shutil.which, TOOLS)), "tshark and its tools are not installed")
class Captures(unittest.TestCase):
    """Captures of one association, whole and damaged."""

    def setUp(self):
        self.room = tempfile.TemporaryDirectory()
        self.addCleanup(self.room.cleanup)

    def path(self, name):
        return os.path.join(self.room.name, name)

    def run_tool(self, *words, text=None):
        subprocess.run(words, input=text, check=True, capture_output=True, text=True)

    def capture(self, packets=None, name="run.pcapng", ports="40000,102"):
        """A capture with a segment for each packet."""
        self.run_tool("text2pcap", "-q", "-D", "-T", ports, "-", self.path(name), text=dump(packets or association()))
        return self.path(name)

    def without(self, *frames):
        self.run_tool("editcap", self.capture(), self.path("cut.pcapng"), *map(str, frames))
        return self.path("cut.pcapng")

    def slices(self, *ranges):
        """The frames of these ranges, one after the other, in this order."""
        whole, names = self.capture(), []
        for first, last in ranges:
            names.append(self.path(f"{len(names)}.pcapng"))
            self.run_tool("editcap", "-r", whole, names[-1], f"{first}-{last}")
        self.run_tool("mergecap", "-a", "-w", self.path("mixed.pcapng"), *names)
        return self.path("mixed.pcapng")

    def sides(self, capture):
        """What each side sent, as split writes it."""
        status, out, err = call("split", capture, "-o", self.path("out"))
        self.assertEqual((status, out, err), (0, "", ""))
        return [octets_of(self.path(f"out.{side}")) for side in streams.SIDES]

    def wanted(self):
        return [octets_of(os.path.join(TUTORIAL, f"whole.{side}.hex")) for side in streams.SIDES]

    def refused(self, *words):
        before = sorted(os.listdir(self.room.name))
        status, out, err = call(*words)
        self.assertEqual((status, out, err.count("\n"), err.startswith("osi-capture: ")), (2, "", 1, True), err)
        self.assertEqual(sorted(os.listdir(self.room.name)), before)
        return err

    def test_the_streams_are_listed_by_who_sent_the_request(self):
        status, out, _ = call("list", self.capture())
        self.assertEqual(status, 0)
        self.assertRegex(out, r"^stream 0 [\d.]+:\d+ [\d.]+:\d+ left 209 octets right 180 octets\n$")
        turned = [("I" if direction == "O" else "O", octets) for direction, octets in association()]
        self.assertIn("left 209 octets right 180 octets", call("list", self.capture(turned))[1])

    def test_both_sides_come_out_as_they_were_sent(self):
        self.assertEqual(self.sides(self.capture()), self.wanted())

    def test_segments_out_of_order_and_twice_count_once(self):
        self.assertEqual(self.sides(self.slices((1, 4), (7, 8), (5, 6), (5, 8))), self.wanted())

    def test_a_lost_segment_is_named_and_what_passed_before_it_is_written(self):
        cut = self.without(5)
        self.assertIn("left 146 octets right 129 octets, up to frame 5, where left lost 38 octets", call("list", cut)[1])
        self.assertEqual([len(side) for side in self.sides(cut)], [146, 129])

    def test_what_the_far_end_acknowledged_and_what_was_cut_off_is_lost(self):
        self.run_tool("editcap", "-s", "70", self.capture(), self.path("short.pcapng"))
        self.assertIn("left 184 octets right 155 octets, up to frame 7, where left lost 25 octets", call("list", self.without(7))[1])
        self.assertRegex(call("list", self.path("short.pcapng"))[1], r"where left lost [0-9]+ octets \(frames were cut at 70 octets\)")

    def test_a_file_that_ends_within_a_packet_is_read_up_to_there(self):
        with open(self.capture(), "rb") as whole, open(self.path("short.pcapng"), "wb") as short:
            short.write(whole.read()[:-40])
        status, out, err = call("list", self.path("short.pcapng"))
        self.assertEqual((status, err.count("\n")), (0, 1))
        self.assertIn("ends within a packet", err)
        self.assertIn("left 209 octets right 155 octets", out)

    def test_a_message_of_icmp_that_quotes_a_segment_is_none(self):
        left, right = (pcap.ADDRESSES[side] for side in streams.SIDES)
        whole = pcap.written([(1.0, {"O": "left", "I": "right"}[direction], octets) for direction, octets in association()])
        quoted = struct.pack(">BBHI", 3, 1, 0, 0) + pcap.datagram("left", 19, 19, pcap.ACK, b"quoted")
        other = struct.pack(">BBHHHBBH4s4s", 0x45, 0, 20 + len(quoted), 0, 0, 64, 1, 0, right, left) + quoted
        with open(self.path("icmp.pcap"), "wb") as file:
            file.write(whole + struct.pack(">IIII", 1, 0, len(other), len(other)) + other)
        self.assertEqual(self.sides(self.path("icmp.pcap")), self.wanted())

    def test_a_stream_that_begins_in_the_middle_is_named(self):
        self.assertIn("octets, begins in the middle, at frame 1", call("list", self.without(1, 2))[1])

    def test_other_streams_are_not_listed(self):
        text = self.capture([("O", b"GET / HTTP/1.0\r\n\r\n"), ("I", b"HTTP/1.0 200 OK\r\n\r\n")], "http.pcapng", "41000,80")
        self.run_tool("mergecap", "-w", self.path("both.pcapng"), text, self.capture())
        self.assertEqual(call("list", self.path("both.pcapng"))[1].count("stream "), 1)
        self.assertIn("no TCP stream carries TPKT", self.refused("list", text))

    def test_of_several_streams_one_has_to_be_named(self):
        other = self.capture(name="other.pcapng", ports="40001,102")
        self.run_tool("mergecap", "-w", self.path("two.pcapng"), self.capture(), other)
        self.assertIn("name one of the streams", self.refused("split", self.path("two.pcapng"), "-o", self.path("out")))
        self.assertEqual(call("split", self.path("two.pcapng"), "--stream", "1", "-o", self.path("out"))[0], 0)

    def test_the_way_back_has_a_segment_for_each_packet(self):
        self.sides(self.capture())
        self.assertEqual(call("join", self.path("out"), "-o", self.path("back.pcap")), (0, "", ""))
        found = list(streams.joined(tshark.segments(self.path("back.pcap"))).values())
        self.assertEqual([len(found), len(found[0].pieces)], [1, 8])
        self.assertEqual(self.sides(self.path("back.pcap")), self.wanted())

    def test_five_thousand_messages_are_five_thousand_segments(self):
        with open(self.path("many.left"), "w", encoding="ascii") as file:
            file.write(self.wanted()[0][:18].hex() + "\n" + "0300000d02f080010001004142" * 5000 + "\n")
        with open(self.path("many.right"), "w", encoding="ascii") as file:
            file.write(self.wanted()[1][:18].hex() + "\n")
        self.assertEqual(call("join", self.path("many"), "-o", self.path("many.pcap"))[0], 0)
        stream = streams.joined(tshark.segments(self.path("many.pcap")))[0]
        self.assertEqual(len(stream.pieces), 5002)

    def test_what_can_not_be_read_is_refused(self):
        self.assertIn("no such file", self.refused("list", self.path("nothing")))
        self.refused("list", os.path.join(TOP, "README.md"))
        self.refused("list", self.capture(), "--wrong")
        self.assertIn("/no/such/folder/out.left: No such file", self.refused("split", self.capture(), "-o", "/no/such/folder/out"))
        os.mkdir(self.path("out.follow"))
        self.assertIn("out.follow: Is a directory", self.refused("split", self.capture(), "-o", self.path("out")))
        self.assertIn("it is no file", self.refused("list", self.room.name))
        self.refused("join", os.path.join(TOP, "examples", "hello"), "-o", self.path("x.pcap"))
        self.refused()

    def test_what_can_not_be_written_is_refused(self):
        with open("/dev/full", "wb") as full:
            words = [sys.executable, os.path.join(TOP, "scripts", "osi-capture"), "list", self.capture()]
            ran = subprocess.run(words, stdout=full, stderr=subprocess.PIPE, text=True, check=False)
        self.assertEqual((ran.returncode, ran.stderr), (2, "osi-capture: standard output: No space left on device\n"))

    @unittest.skipUnless(os.path.exists(OSI), "`make` has not built the program")
    def test_both_directions_are_listed_in_their_order(self):
        status, out, err = call("show", self.capture(), "--osi", OSI)
        self.assertEqual((status, err), (0, ""))
        order = [name for name in (row.split()[1] for row in out.splitlines() if row.startswith(" " * 12))
                 if name in ("CR", "CC", "CN", "AC", "FN", "DN")]
        self.assertEqual(order, ["CR", "CC", "CN", "AC", "FN", "DN"])

    @unittest.skipUnless(os.path.exists(OSI), "`make` has not built the program")
    def test_data_is_told_in_json(self):
        status, out, _ = call("show", self.capture(), "--osi", OSI, "--json", "--data")
        told = [json.loads(line) for line in out.splitlines()]
        data = [bytes.fromhex(each["data"]) for each in told if "data" in each]
        self.assertEqual((status, data), (0, [octets_of(os.path.join(TUTORIAL, f"{name}.hex")) for name in PPDUS]))
        self.assertEqual({tuple(sorted(each)) for each in told if "data" not in each}, {("frame", "line", "side", "stream", "time")})
        self.assertEqual(list(map(wrongs, told)), [[]] * len(told))


class Texts(unittest.TestCase):
    """Captures as files of hexadecimal digits, which need no tshark."""

    LEFT, RIGHT = (os.path.join(TUTORIAL, f"whole.{side}.hex") for side in streams.SIDES)

    def setUp(self):
        self.room = tempfile.TemporaryDirectory()
        self.addCleanup(self.room.cleanup)

    def path(self, name):
        return os.path.join(self.room.name, name)

    def write(self, name, text):
        with open(self.path(name), "w", encoding="ascii") as file:
            file.write(text)
        return self.path(name)

    def both(self):
        """Files of both sides, as split writes them: two packets at one second, two at the next."""
        sides = zip(packets_of(octets_of(self.LEFT)), packets_of(octets_of(self.RIGHT)))
        text = "".join(f"# {at}.500000 frame {at + 1}\n{left.hex()}\n\t{right.hex()}\n" for at, (left, right) in enumerate(sides))
        return self.write("run.follow", text).removesuffix(".follow")

    def test_a_text_has_the_side_of_its_first_packet(self):
        self.assertEqual({side for side, _ in texts.read(self.LEFT).by_side()}, {"left"})
        self.assertEqual({side for side, _ in texts.read(self.RIGHT).by_side()}, {"right"})
        self.assertEqual(b"".join(piece.octets for _, piece in texts.read(self.RIGHT).by_side()), octets_of(self.RIGHT))

    def test_both_sides_and_their_times_are_read(self):
        found = [(side, piece.frame, piece.time) for side, piece in texts.read(self.both()).by_side()]
        self.assertEqual(found[:3], [("left", 1, 0.5), ("right", 1, 0.5), ("left", 2, 1.5)])
        self.assertEqual(len(found), 8)

    def test_without_times_the_order_is_that_of_the_lines(self):
        found = texts.Text([(None, None, side, b"x") for side in ("left", "right", "left")])
        shown = mock.patch.object(listing, "shown", lambda osi, octets: [f"packet {at} length 1 code e0" for at in range(len(octets))])
        with shown:
            self.assertEqual([line.side for line in listing.lines(found, "osi")], ["left", "right", "left"])

    def test_an_octet_may_lie_on_two_lines(self):
        found = texts.read(self.write("half.left", "# 5 frame 2\n03 0\n0\n# 6.5 frame 3\n01\n"))
        self.assertEqual([(piece.octets, piece.frame, piece.time) for _, piece in found.by_side()], [(b"\3\0", 2, 5.0), (b"\1", 3, 6.5)])

    def test_what_is_no_text_is_left_to_tshark(self):
        for name, begin in (("a.pcap", "d4c3b2a102000400"), ("a.pcapng", "0a0d0d0a6c0000004d3c2b1a01000000"), ("a.gz", "1f8b0800")):
            with open(self.path(name), "wb") as file:
                file.write(bytes.fromhex(begin))
            self.assertIsNone(texts.read(self.path(name)), name)
        self.assertIsNone(texts.read(self.path("nothing")))

    def test_a_text_with_something_else_is_refused(self):
        for text in ("# a capture\n03 00 zz\n", "# a capture\n", ""):
            status, out, err = call("show", self.write("bad.left", text), "--osi", OSI)
            self.assertEqual((status, out, err.count("\n")), (2, "", 1))

    def test_a_file_that_may_not_be_read_is_refused(self):
        name = self.write("secret.left", "# a capture\n03\n")
        with mock.patch("builtins.open", side_effect=PermissionError(13, "Permission denied")):
            for job in ("show", "judge"):
                status, out, err = call(job, name, "--osi", OSI)
                self.assertEqual((status, out, err), (2, "", f"osi-capture: {name}: Permission denied\n"))

    def test_user_data_is_found_in_each_unit(self):
        for line, wanted in (("    FN 193=0a0b", "0a0b"), ("    CN 5(19=01 22=02) 20=0002 193=3160", "3160"), ("    AB 17=01", None),
                             ("    CN 20=0002 194=00ff", "00ff"), ("    DN 193=", "")):
            found = listing.Joining().take(b"", line)
            self.assertEqual(found, None if wanted is None else bytes.fromhex(wanted), line)

    def test_columns_have_the_sides_beside_each_other(self):
        lines = [listing.Line("left", streams.Piece(1, 0.0, 0, b""), "packet 0"),
                 listing.Line("right", streams.Piece(2, 1.0, 0, b""), 40 * "x")]
        found = list(columns.rows(lines, 60, lambda line: f"{line.time:11.6f}"))
        self.assertEqual(found[1:], ["   0.000000 | packet 0              |",
                                     "   1.000000 |                       | " + 20 * "x" + "\u2026"])

    @unittest.skipUnless(os.path.exists(OSI), "`make` has not built the program")
    def test_a_file_by_its_name_is_listed(self):
        status, out, err = call("show", self.LEFT, "--osi", OSI)
        with open(os.path.join(TUTORIAL, "whole.left.listing"), encoding="ascii") as file:
            wanted = file.read()
        self.assertEqual((status, err, "".join(row[18:] + "\n" for row in out.splitlines())), (0, "", wanted))

    @unittest.skipUnless(os.path.exists(OSI), "`make` has not built the program")
    def test_both_sides_are_told_in_json_and_in_columns(self):
        run = self.both()
        status, out, _ = call("show", run, "--osi", OSI, "--json", "--data")
        told = [json.loads(line) for line in out.splitlines()]
        self.assertEqual([bytes.fromhex(each["data"]) for each in told if "data" in each],
                         [octets_of(os.path.join(TUTORIAL, f"{name}.hex")) for name in PPDUS])
        self.assertEqual(list(map(wrongs, told)), [[]] * len(told))
        times = [each["time"] for each in told]
        self.assertEqual((status, times), (0, sorted(times)))
        rows = call("show", run, "--osi", OSI, "--columns", "--width", "100")[1].splitlines()
        self.assertEqual((max(map(len, rows)) <= 100, len(rows)), (True, len(told) + 1))
        self.assertRegex(rows[1], r"^ +0\.000000 \| packet 0 length 18 code e0 +\|$")


class Streams(unittest.TestCase):
    """A stream as tshark prints it, without tshark: a segment for each packet, an eighth of a second apart."""

    def setUp(self):
        patched = mock.patch.object(tshark, "segments", self.segments)
        patched.start()
        self.addCleanup(patched.stop)

    @staticmethod
    def segments(*_):
        left, right = ("192.0.2.1", 40000), ("192.0.2.2", 102)
        sequences = {"O": 1, "I": 1}
        for number, (direction, octets) in enumerate(association()):
            made = object.__new__(tshark.Segment)
            made.frame, made.time, made.stream, made.is_first = number + 1, 1000 + number / 8, 3, False
            made.source, made.target = (left, right) if direction == "O" else (right, left)
            made.sequence, made.octets = sequences[direction], octets
            sequences[direction] += len(octets)
            yield made

    def test_the_stream_is_named(self):
        self.assertEqual(call("list", "run.pcap")[1], "stream 3 192.0.2.1:40000 192.0.2.2:102 left 209 octets right 180 octets\n")

    @unittest.skipUnless(os.path.exists(OSI), "`make` has not built the program")
    def test_each_line_has_the_time_of_its_packet(self):
        told = [json.loads(line) for line in call("show", "run.pcap", "--osi", OSI, "--json")[1].splitlines()]
        times = [(each["side"], each["frame"], each["time"]) for each in told if each["line"].startswith("packet ")]
        self.assertEqual(times, [(streams.SIDES[at % 2], at + 1, 1000 + at / 8) for at in range(8)])
        self.assertEqual(list(map(wrongs, told)), [[]] * len(told))
        rows = call("show", "run.pcap", "--osi", OSI, "--columns", "--width", "120")[1].splitlines()
        self.assertRegex(rows[3], r"^ +0\.125000 \| +\| packet 0 length 18 code d0$")


class Joining(unittest.TestCase):
    """Sequence numbers."""

    ENDS = ("a", 1), ("b", 2)

    def segment(self, sequence, octets, is_first=False):
        made = object.__new__(tshark.Segment)
        made.frame, made.time, made.stream, (made.source, made.target) = 1, 0.0, 0, self.ENDS
        made.sequence, made.is_first, made.octets = sequence % 2 ** 32, is_first, octets
        return made

    def stream(self, *segments):
        """A stream that took these segments of one end."""
        stream = streams.Stream(0, self.ENDS)
        for each in segments:
            stream.take(self.segment(*each))
        stream.settle()
        return stream

    def taken(self, *segments):
        stream = self.stream(*segments)
        return stream.octets(self.ENDS[0]), stream.directions[self.ENDS[0]].lost()

    def test_numbers_begin_anew_after_the_last(self):
        last = 2 ** 32 - 2
        self.assertEqual(self.taken((last, b"", True), (last + 1, b"ab"), (last + 3, b"cd")), (b"abcd", 0))

    def test_overlaps_count_once(self):
        self.assertEqual(self.taken((5, b"abcd"), (7, b"cdef"), (6, b"bc"), (11, b"g")), (b"abcdefg", 0))

    def test_octets_that_passed_are_not_kept(self):
        direction = self.stream((5, b"abcd"), (5, b"ab"), (3, b"xx"), (20, b"z"), (7, b"cd")).directions[self.ENDS[0]]
        self.assertEqual(([(chunk.start, chunk.octets) for chunk in direction.waiting], direction.held), ([(17, b"z")], 1))

    def test_what_the_far_end_acknowledges_was_sent(self):
        for acknowledged, lost in ((7, 0), (8, 0), (10, 3)):
            stream = self.stream((5, b"ab"))
            answer = self.segment(90, b"")
            answer.source, answer.target, answer.acknowledged = *reversed(self.ENDS), acknowledged
            stream.take(answer)
            self.assertEqual(stream.directions[self.ENDS[0]].lost(), lost, acknowledged)

    def test_a_direction_that_is_not_there_at_all_is_lost(self):
        stream = self.stream()
        for sequence, acknowledged in ((5, 90), (7, 90), (9, 104)):
            segment = self.segment(sequence, b"ab")
            segment.acknowledged = acknowledged
            stream.take(segment)
        self.assertEqual([direction.lost() for direction in stream.directions.values()], [0, 14])
        self.assertEqual((stream.octets(self.ENDS[0]), stream.is_alone()), (b"abab", True))

    def test_a_segment_that_was_captured_in_part_is_lost(self):
        stream, segment = self.stream(), self.segment(5, b"ab")
        segment.missing, segment.captured = 3, 56
        stream.take(segment)
        self.assertEqual(stream.directions[self.ENDS[0]].lost(), 3)

    def test_a_segment_of_another_connection_is_left_out(self):
        stream, stray = streams.Stream(0, (("a", 1), ("c", 2))), self.segment(5, b"ab")
        stream.take(stray)
        stream.finish()
        self.assertEqual((stream.pieces, stream.directions["a", 1].next), ([], None))

    def test_a_gap_holds_back_what_comes_after_it(self):
        self.assertEqual(self.taken((5, b"ab"), (9, b"ef")), (b"ab", 2))
        self.assertEqual(self.taken((5, b"ab"), (9, b"ef"), (7, b"cd")), (b"abcdef", 0))

    def test_much_that_waits_ends_the_stream(self):
        with mock.patch.object(streams, "MOST_WAITING", 10):
            stream = self.stream((5, b"ab"), (9, b"efghijklmnop"), (7, b"cd"))
        self.assertEqual((stream.octets(self.ENDS[0]), stream.is_over), (b"ab", True))


if __name__ == "__main__":
    unittest.main()
