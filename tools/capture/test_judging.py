"""Tests of scripts/judge and of `osi-capture judge`, over what `osi` printed of examples/disputes; with captures if tshark is installed."""
import contextlib
import io
import json
import os
import shutil
import tempfile
import unittest
from unittest import mock

from ladders import rules, script, tapped, test_judged, test_rules, transcript, verdicts

from . import judging, listing, program, reports, streams, texts, tshark

DISPUTES = test_judged.DISPUTES
LAST = ("frame 16, 0.005600 seconds: left broke the protocol first, in its packet at octet 143. It sent data (DT); it did not hold the "
        'data token (X.225, 7.11 "DATA TRANSFER SPDU" and "Tokens").')
ENDED = "ended: right aborted by its session layer, protocol error: AB 17=05 (frame 17, 0.005810 seconds)"
CURED = "ended: released: left asked for it (FN), right agreed (DN) (frame 22, 0.009100 seconds)"
with open(os.path.join(script.TOP, "docs", "judge.schema.json"), encoding="utf-8") as schema_file:
    SCHEMA = json.load(schema_file)
KINDS = {"integer": int, "number": (int, float), "string": str, "null": type(None), "array": list, "object": dict}


def wrongs(told, schema=None, name=""):
    """What docs/judge.schema.json refuses of a value, as far as that schema says anything: the names of what is wrong."""
    schema = SCHEMA if schema is None else schema
    schema = SCHEMA["$defs"][schema["$ref"].rpartition("/")[2]] if "$ref" in schema else schema
    if "anyOf" in schema:
        return [] if any(not wrongs(told, each, name) for each in schema["anyOf"]) else [name]
    kinds = schema.get("type", list(KINDS))
    if not any(isinstance(told, KINDS[kind]) for kind in ([kinds] if isinstance(kinds, str) else kinds)):
        return [name]
    if told not in schema.get("enum", [told]):
        return [name]
    if isinstance(told, dict):
        strange = set(told) - set(schema.get("properties", told)) | set(schema.get("required", ())) - set(told)
        return sorted(strange) + [each for key in told for each in wrongs(told[key], schema.get("properties", {}).get(key, {}), key)]
    return [each for one in told for each in wrongs(one, schema.get("items", {}), name)] if isinstance(told, list) else []


def call(*words, main=judging.main):
    """The status of a program, and what it wrote; `osi` is not run."""
    out, err = io.StringIO(), io.StringIO()
    shown = mock.patch.object(listing, "shown", lambda osi, octets: test_judged.answer(osi, "show", octets.hex()).splitlines())
    with contextlib.redirect_stdout(out), contextlib.redirect_stderr(err), shown, mock.patch.object(script, "run", test_judged.answer):
        status = main(list(words))
    return status, out.getvalue(), err.getvalue()


def judging_of(*words):
    """The status of scripts/judge, and what it wrote on standard output."""
    with contextlib.redirect_stdout(io.StringIO()) as out:
        return judging.main(list(words)), out.getvalue()


def verdict_of(name):
    """The lines of the verdict on a dispute."""
    return test_judged.stored(name)[2][-1].rows


class Room(unittest.TestCase):
    """A folder for what is written."""

    def setUp(self):
        self.room = tempfile.TemporaryDirectory()
        self.addCleanup(self.room.cleanup)

    def path(self, name):
        return os.path.join(self.room.name, name)

    def refused(self, *words):
        """What is said of words that are refused: one line, of both programs the same, and nothing is written."""
        before = sorted(os.listdir(self.room.name))
        status, out, err = call(*words, "--pictures", self.path("pictures"))
        self.assertEqual((status, out, err.count("\n"), err.startswith("judge: ")), (2, "", 1, True), err)
        also = call("judge", *words, "--pictures", self.path("pictures"), main=program.main)
        self.assertEqual(also, (2, "", f"osi-capture: {err[len('judge: '):]}".replace("(judge --help)", "(osi-capture --help)")))
        self.assertEqual(sorted(os.listdir(self.room.name)), before)
        return err


class Texts(Room):
    """Captures as texts, which need no tshark."""

    def follow(self, name="restart"):
        return os.path.join(DISPUTES, name + ".follow")

    def test_the_verdict_is_told_with_its_frame_and_time(self):
        self.assertEqual(call(self.follow()), (1, "\n".join(["text", *verdict_of("restart"), LAST, ENDED, ""]), ""))

    def test_the_status_is_0_if_both_kept_the_protocol(self):
        self.assertEqual(call(self.follow("restart_cured")), (0, "\n".join(["text", *verdict_of("restart_cured"), CURED, ""]), ""))

    def test_osi_capture_judges_as_scripts_judge_does(self):
        for words in ([self.follow()], [self.follow("restart_cured")], [self.follow(), "--show", "--port", "4102"]):
            self.assertEqual(call("judge", *words, main=program.main), call(*words))

    def test_osi_capture_takes_the_name_of_the_files_that_split_wrote(self):
        self.assertEqual(call("judge", os.path.join(DISPUTES, "restart"), main=program.main), call(self.follow()))

    def test_files_that_do_not_say_the_order_are_not_judged(self):
        for side in streams.SIDES:
            with open(self.path(f"run.{side}"), "w", encoding="ascii") as file:
                file.write("0300000e09e00000000100c0010a\n")
        self.assertIn("don't say when octets passed", self.refused(self.path("run")))

    def test_both_directions_are_listed_with_frames_and_times(self):
        rows = call(self.follow(), "--show")[1].splitlines()
        self.assertIn("    16    0.005600 left  packet 143 length 19 code f0", rows)
        self.assertEqual(rows[2], "                   left    CR credit 0 dst 0000 src 0001 class 0 options 0 size 0a")
        self.assertEqual(rows[-len(verdict_of("restart")) - 2:], [*verdict_of("restart"), LAST, ENDED])

    def test_lines_without_a_tab_are_of_the_caller_also_if_they_are_not_first(self):
        with open(self.path("late"), "w", encoding="ascii") as file:
            file.write("\t0300000e09d00001000100c0010a\n0300000e09e00000000100c0010a\n")
        asked = []

        def judge(_, word, text, tick=None):
            asked.append("".join(text))
            return "right packets 1 octets 14 rest 0\nright broke the protocol first, packet 0: CC UnknownReference\n"
        with mock.patch.object(script, "run", judge), contextlib.redirect_stdout(io.StringIO()):
            self.assertEqual(judging.main([self.path("late")]), 1)
        self.assertEqual([text[:3] for text in asked], ["\t03"])

    def test_the_files_of_sides_with_their_order_are_judged(self):
        parts = tapped.read(test_judged.stored("restart")[0])
        for side in streams.SIDES:
            with open(self.path(f"run.{side}.hex"), "w", encoding="ascii") as file:
                file.write("".join(part.octets.hex() + "\n" for part in parts if part.side == side))
        with open(self.path("run.order"), "w", encoding="ascii") as file:
            file.write("".join(f"{part.side} {len(part.octets)}\n" for part in parts))
        rows = call(self.path("run"))[1].splitlines()
        self.assertEqual(rows[1:-2], verdict_of("restart"))
        with open(self.path("run.order"), "a", encoding="ascii") as file:
            file.write("left 3\n")
        self.assertIn("not as many octets", self.refused(self.path("run")))

    def test_a_file_of_one_side_is_not_judged(self):
        with open(self.path("run.left.hex"), "w", encoding="ascii") as file:
            file.write("0300000e09e00000000100c0010a\n")
        for name in ("run", "run.left.hex"):
            self.assertEqual(call(self.path(name)), (2, "text not judged: only one direction is here\n", ""))

    def test_osi_judge_may_say_that_one_direction_is_here(self):
        """It says so of a text; what it says is told as it is, and blames nobody."""
        said = "left packets 1 octets 14 rest 0\nright packets 0 octets 0 rest 0\nleft 1 unanswered\n" \
               "not judged: only one direction is here\n"
        found = judging.Judged(texts.read(self.follow()), lambda parts: said)
        self.assertEqual((found.status(), found.sentence(), found.lines()), (None, None, said.splitlines()))
        self.assertEqual((reports.verdict_of(found), reports.breaks_of(found)), ("none", []))
        self.assertEqual(verdicts.sentence(found.verdict), "Not judged: only one direction is here.")

    def test_a_break_is_a_break_in_every_form(self):
        """Of every rule of the library: in words, in JSON and in the status; and what leaves the profile is none."""
        for rule in sorted(test_rules.rules_of_the_library()):
            does, last, wanted = ("leaves", "leaves the profile", "left") if rule == "Outside" else ("broke", "broke the protocol", "broke")
            what = "TSDU" if rule in rules.OF_TSDUS else "Data" if rule in rules.OF_SESSIONS else "DT"
            said = f"left 1 {does} packet 143 {what} {rule}\nleft {last} first, packet 143: {what} {rule}\n"
            found = judging.Judged(texts.read(self.follow()), lambda parts, said=said: said)
            self.assertEqual(reports.verdict_of(found), wanted, rule)
            self.assertEqual(found.status(), judging.BROKE if wanted == "broke" else judging.PARTLY, rule)
            self.assertEqual("broke the protocol" in found.sentence(), wanted == "broke", rule)
            self.assertIn(reports.break_of(found, "left")["clause"] or "the limit of this product", found.sentence(), rule)

    def test_what_is_told_in_json_is_what_the_schema_says(self):
        for name, status, verdict in (("restart", 1, "broke"), ("restart_cured", 0, "kept")):
            found, out, _ = call(self.follow(name), "--json")
            told = json.loads(out)
            self.assertEqual((found, told["verdict"], wrongs(told)), (status, verdict, []))
        self.assertEqual(wrongs({**told, "verdict": "maybe", "more": 1}), ["more", "verdict"])

    def test_several_files_are_judged_each_by_itself(self):
        status, out, err = call(self.follow(), self.path("nothing"), self.follow("restart_cured"))
        self.assertEqual((status, out.count("the protocol"), err.count("no such file")), (1, 3, 1))

    def test_standard_input_is_judged(self):
        with open(self.follow(), "rb") as file, mock.patch.object(judging.sys, "stdin", mock.Mock(buffer=file)):
            self.assertEqual(call("-"), (1, "\n".join(["text", *verdict_of("restart"), LAST, ENDED, ""]), ""))

    def test_a_picture_is_written(self):
        self.assertEqual(call(self.follow(), "--pictures", self.path("new"))[0], 1)
        self.assertEqual(os.listdir(self.path("new")), ["stream-0.svg"])
        with open(self.path("new/stream-0.svg"), encoding="utf-8") as file:
            self.assertIn("the data token was with right since left's packet at octet 126", file.read())

    def test_what_can_not_be_read_is_refused(self):
        self.assertIn("no such file", self.refused(self.path("nothing")))
        self.refused(os.path.join(script.TOP, "README.md"))
        self.refused(self.follow(), "--wrong")
        self.refused()

    def test_a_program_osi_that_is_not_there_is_named(self):
        for main, *words in ((judging.main,), (program.main, "judge")):
            err = io.StringIO()
            with contextlib.redirect_stderr(err):
                status = main([*words, self.follow(), "--osi", self.path("osi")])
            self.assertEqual((status, err.getvalue().count("\n")), (2, 1))
            self.assertIn("osi can't be run: No such file or directory", err.getvalue())

    def test_a_missing_tshark_is_named(self):
        with open(self.path("run.pcap"), "wb") as file:
            file.write(bytes.fromhex("d4c3b2a102000400"))
        with mock.patch.object(tshark.shutil, "which", lambda name: None):
            self.assertIn("there is no tshark", self.refused(self.path("run.pcap")))


class Streams(Room):
    """Streams as tshark prints them, without tshark."""

    LEFT, RIGHT = ("192.0.2.1", 40000), ("192.0.2.2", 102)

    def setUp(self):
        super().setUp()
        self.sequences = {}
        self.found = [self.segment(*each) for each in enumerate(tapped.read(test_judged.stored("restart")[0]))]
        patched = mock.patch.object(tshark, "segments", lambda path, name=None: iter(self.found))
        patched.start()
        self.addCleanup(patched.stop)

    def segment(self, place, piece, stream=4):
        """A segment of a stream; the sequence numbers of a side count its octets."""
        made = object.__new__(tshark.Segment)
        made.frame, made.time, made.stream, made.is_first = place + 1, 1000 + place / 8, stream, False
        made.source, made.target = (self.LEFT, self.RIGHT) if piece.side == "left" else (self.RIGHT, self.LEFT)
        made.sequence = self.sequences.get((stream, piece.side), 1)
        self.sequences[stream, piece.side] = made.sequence + len(piece.octets)
        made.octets, made.acknowledged = piece.octets, self.sequences.get((stream, transcript.other(piece.side)), 1)
        return made

    def test_a_stream_is_judged_and_named(self):
        status, out, err = call("run.pcap")
        self.assertEqual((status, err), (1, ""))
        self.assertEqual(out.splitlines()[0], "stream 4 192.0.2.1:40000 192.0.2.2:102")
        self.assertEqual(out.splitlines()[1:-2], verdict_of("restart"))
        self.assertIn("frame 13, 1.500000 seconds: left broke the protocol first", out)

    def test_a_stream_that_lost_segments_is_judged_up_to_there(self):
        del self.found[5]
        asked = []
        kept = "left packets 1 octets 1 rest 0\nboth kept the protocol\n"
        with mock.patch.object(judging.judged, "runner", lambda osi, tick: lambda text: asked.append("".join(text)) or kept):
            status, out = judging_of("run.pcap")
        self.assertEqual(len(asked[0].splitlines()), 5)
        self.assertEqual((status, out.splitlines()[3]), (3, "judged up to frame 7, where left lost 14 octets"))

    def test_a_stream_that_begins_in_the_middle_is_named_and_not_judged(self):
        del self.found[:2]
        status, out, _ = call("run.pcap", "--pictures", self.path("pictures"))
        self.assertEqual((status, out.splitlines()[0].partition(" not ")[2], os.listdir(self.room.name)),
                         (2, "judged: begins in the middle, at frame 3", []))

    def test_each_stream_is_judged_by_itself(self):
        cured = tapped.read(test_judged.stored("restart_cured")[0])
        self.found += [self.segment(100 + place, piece, 5) for place, piece in enumerate(cured)]
        rows = call("run.pcap", "--pictures", self.path("pictures"))[1].splitlines()
        self.assertEqual([row.split()[1] for row in rows if row.startswith("stream ")], ["4", "5"])
        self.assertEqual(rows[-2], "both kept the protocol")
        self.assertEqual(sorted(os.listdir(self.path("pictures"))), ["stream-4.svg", "stream-5.svg"])
        self.assertEqual(call("run.pcap", "--stream", "5")[0], 0)
        self.assertIn("stream 6 carries no TPKT", self.refused("run.pcap", "--stream", "6"))

    def test_answers_that_are_no_packets_are_judged_if_the_beginning_is_there(self):
        pieces = [tapped.Piece("left", self.found[0].octets), tapped.Piece("right", b"\0\0\0\7ready")]
        self.sequences.clear()
        self.found = [self.segment(place, piece, 7) for place, piece in enumerate(pieces)]
        stream = streams.joined(iter(self.found))[7]
        self.assertEqual(judging.why_not(stream), "begins in the middle, at frame 1")
        self.sequences.clear()
        begun = [self.segment(place, tapped.Piece(side, b""), 7) for place, side in enumerate(("left", "right"))]
        for each in begun:
            each.is_first, each.is_answer, each.sequence = True, each.source == self.RIGHT, 0
        self.assertIsNone(judging.why_not(streams.joined(iter(begun + self.found))[7]))

    def test_a_capture_without_packets_is_refused(self):
        self.found = self.found[2:3]
        self.found[0].octets = b"GET / HTTP/1.0\r\n"
        self.assertIn("no TCP stream carries TPKT", self.refused("run.pcap"))


@unittest.skipUnless(all(map(shutil.which, ("tshark", "editcap"))), "tshark and its tools are not installed")
class Captures(Room):
    """A capture of the network, which tshark reads."""

    def setUp(self):
        super().setUp()
        self.assertEqual(program.main(["join", os.path.join(DISPUTES, "restart"), "-o", self.path("run.pcap")]), 0)

    def test_it_is_judged(self):
        status, out, err = call(self.path("run.pcap"))
        self.assertEqual(call("judge", self.path("run.pcap"), main=program.main), (status, out, err))
        self.assertEqual((status, out.splitlines()[1:-2], err), (1, verdict_of("restart"), ""))
        self.assertEqual(out.splitlines()[-2], LAST)

    def test_a_lost_segment_is_named(self):
        script_of = ["editcap", self.path("run.pcap"), self.path("cut.pcap"), "9"]
        self.assertEqual(judging.listing.subprocess.run(script_of, capture_output=True, check=False).returncode, 0)
        self.assertIn("up to frame 9, where left lost 14 octets", call("list", self.path("cut.pcap"), main=program.main)[1])

    def test_a_file_that_is_no_capture_is_refused(self):
        with open(self.path("bad.pcap"), "wb") as file:
            file.write(b"\x0a\x0d\x0d\x0a" + bytes(40))
        self.refused(self.path("bad.pcap"))


class Lines(unittest.TestCase):
    """The lines that are printed of a verdict."""

    def test_a_verdict_without_a_break_has_no_sentence_more(self):
        found = object.__new__(judging.Judged)
        found.verdict, found.limit = verdicts.read("not judged: the connection is not of class 0\n")[0], None
        self.assertEqual(found.lines(), ["not judged: the connection is not of class 0"])


if __name__ == "__main__":
    unittest.main()
