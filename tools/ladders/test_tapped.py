"""Tests of the ladders of captures of both sides, with times: over stored listings, so that no program is run; with pcaps if tshark is
installed."""
import os
import re
import shutil
import tempfile
import unittest
import xml.etree.ElementTree as tree
from unittest import mock

from capture import pcap, program as capture, tshark

from . import drawing, reading, script, tapped, terminal, transcript
from .test_judged import DISPUTES, answer, files, stored
from .test_ladders import DATA, EXAMPLES, SVG, call, text_of

RESTART = os.path.join(DISPUTES, "restart")
WANTED = re.findall(r"^# (\S+) frame", text_of(RESTART + ".follow"), re.M)
TIMES = [f"{float(each) - float(WANTED[0]):.6f}" for each in WANTED]


def words_of(name):
    """The words that name a dispute and the listings of its sides."""
    _, capture_file, _, _, *listings = files(name)
    return [capture_file, *listings]


def drawn(name="restart"):
    """The picture of a dispute without a verdict."""
    text, listings, _ = stored(name)
    return tapped.picture_of(tapped.read(text), listings, name)


def of_gateway(chosen=None):
    """The picture of two connections of class 2: what a gateway sent and received, and the same again with another reference."""
    sides = {side: text_of(os.path.join(EXAMPLES, f"gateway.{side}.listing")) for side in transcript.SIDES}
    octets = {side: sum(map(int, re.findall(r"^packet \d+ length (\d+)", text, re.M))) for side, text in sides.items()}
    pieces, listings = [], {}
    for side, text in sides.items():
        again = re.sub(r"(dst|src) 0001", r"\1 0009", text)
        moved = re.sub(r"^packet (\d+)", lambda found: f"packet {int(found[1]) + octets[side]}", again, flags=re.M)
        listings[side] = text.replace("rest 0\n", "") + moved
        pieces += [tapped.Piece(side, bytes(octets[side])) for _ in range(2)]
    return tapped.picture_of(pieces[::2] + pieces[1::2], listings, "", chosen)


class Pictures(unittest.TestCase):
    """A row and an arrow for each packet, in the order in which they passed."""

    def test_each_packet_stands_once_with_its_time(self):
        made = drawn()
        self.assertEqual([row.side for row in made.rows], [piece.side for piece in tapped.read(text_of(RESTART + ".follow"))])
        self.assertEqual([row.time for row in made.rows], TIMES)
        self.assertEqual([(arrow.start, arrow.end) for arrow in made.arrows], [(place, place) for place in range(len(TIMES))])
        self.assertIn("packet at octet 143, DT, 19 octets, frame 16, 0.005600 seconds", made.arrows[12].whole)
        self.assertEqual((made.verdict, made.bands, made.notes), ((), [], []))

    def test_times_stand_below_each_other_in_front_of_everything(self):
        root = tree.fromstring(drawing.draw(drawn()))
        groups = [group for group in root.iter(SVG + "g") if group.get("class") == "line"]
        times = [group.find(SVG + "text") for group in groups]
        self.assertEqual([each.text.split() for each in times], [[time, str(frame)] for frame, time in enumerate(TIMES, 4)])
        edge = {float(each.get("x")) for each in times}.pop()
        self.assertTrue(all(each.get("text-anchor") == "end" and float(each.get("x")) == edge for each in times))
        for each in root.iter(SVG + "text"):
            long = drawing.LETTER * len(each.text or "")
            if each.get("class") in ("plain", "refused"):
                left = float(each.get("x")) - (long if each.get("text-anchor") == "end" else 0)
                self.assertTrue(edge <= left and left + long <= float(root.get("width")), each.text)

    def test_a_terminal_has_a_column_of_times(self):
        for columns in (60, 100, 131):
            rows = terminal.draw(drawn(), columns=columns).splitlines()
            self.assertEqual([row.split()[0] for row in rows[1:]], ["seconds", *TIMES])
            self.assertTrue(all(len(row) <= columns for row in rows[1:]), columns)
        self.assertRegex(rows[14], r"^0\.005600    16 +143: DT 8 octets +\* -+ DT 19 -+> \|$")

    def test_a_verdict_comes_with_times(self):
        rows = call(*files("restart"), "--text")[1].splitlines()
        times = [row.split()[0] for row in rows[2:] if re.match(r" *\d+\.\d{6} ", row)]
        self.assertEqual((rows[1].split()[0], times), ("seconds", TIMES))

    def test_without_times_there_is_no_column(self):
        text, listings, _ = stored("restart")
        made = tapped.picture_of(tapped.read(re.sub("(?m)^# .*$", "", text)), listings, "")
        self.assertEqual((made.columns_of_times(), made.notes), (0, ["The capture has no times."]))
        self.assertIn('width="1000"', drawing.draw(made))
        self.assertEqual([row.text for row in made.rows], [row.text for row in drawn().rows])

    def test_a_packet_has_the_time_of_its_last_octet(self):
        text = "# 5.5 frame 1\n0300000e09e00000000100c0\n# 7 frame 2\n010a\n# 7.25 frame 3\n\t0300000e09d00001000100c0010a\n"
        listings = {"left": "packet 0 length 14 code e0\nrest 0\n", "right": "packet 0 length 14 code d0\nrest 0\n"}
        self.assertEqual([row.time for row in tapped.picture_of(tapped.read(text), listings, "").rows], ["1.500000", "1.750000"])

    def test_each_part_of_a_data_is_an_arrow(self):
        listing = text_of(os.path.join(DATA, "parts_listed.listing"))
        octets = tapped.octets_of(tapped.read(text_of(os.path.join(DATA, "parts_listed.hex"))), "left")
        made = tapped.picture_of([tapped.Piece("left", octets)], {"left": listing, "right": ""}, "")
        self.assertEqual([arrow.label for arrow in made.arrows], ["DT (1/3) 15", "DT (2/3) 16", "DT (3/3) 15"])
        self.assertEqual(made.rows[1].text, "15: DT (2/3) 2 octets")
        cut = tapped.picture_of([tapped.Piece("left", octets[:31])], {"left": listing[:listing.index("packet 31")], "right": ""}, "")
        self.assertEqual([arrow.label for arrow in cut.arrows], ["DT (1/?) 15", "DT (2/?) 16"])

    def test_connections_have_life_lines_and_can_be_chosen(self):
        made = of_gateway()
        self.assertEqual(made.connections, [1, 9])
        self.assertTrue(all(row.text.startswith(f"{row.connection} at ") for row in made.rows))
        self.assertTrue(all(end is not None and begun < end for begun, end in made.spans.values()))
        self.assertTrue(all(arrow.minor == arrow.label.startswith("AK") for arrow in made.arrows))
        chosen = of_gateway([9])
        self.assertEqual({row.connection for row in chosen.rows}, {9})
        self.assertEqual(chosen.notes[-1], "Not shown: 1 more connection.")
        drawing.draw(chosen)
        self.assertRaises(transcript.BadInput, of_gateway, [2])

    def test_what_can_not_be_read_is_marked(self):
        pieces = tapped.read("0300000e09e00000000100c0010a\n\t0300000e09d00001000100c0010a\n04000007\n")
        listings = {"left": "packet 0 length 14 code e0\nfault 14 BadVersion\n", "right": "packet 0 length 14 code d0\nrest 0\n"}
        made = tapped.picture_of(pieces, listings, "")
        self.assertEqual([(row.text, row.mark) for row in made.rows if row.mark != "call"], [("fault 14 BadVersion", "refused")])


class Room(unittest.TestCase):
    """A folder for files, and the program; `osi` is not run."""

    def setUp(self):
        self.room = tempfile.TemporaryDirectory()
        self.addCleanup(self.room.cleanup)

    def path(self, name):
        return os.path.join(self.room.name, name)

    def rows(self, *words):
        """The rows of a picture for a terminal, without its title."""
        with mock.patch.object(script, "run", answer):
            status, out, err = call(*words, "--text")
        self.assertEqual((status, err), (0, ""))
        return out.splitlines()[1:]

    def refused(self, *words):
        before = sorted(os.listdir(self.room.name))
        with mock.patch.object(script, "run", answer):
            status, out, err = call(*words, "-o", self.path("picture.svg"))
        self.assertEqual((status, out, err.count("\n"), sorted(os.listdir(self.room.name))), (2, "", 1, before), err)
        return err


class Files(Room):
    """What may be named."""

    def split(self, *endings):
        """The files of NAME that `osi-capture split` writes of a dispute, some of them."""
        text = text_of(RESTART + ".follow").split("\n", 1)[1]
        pairs = re.findall(r"(# .*\n)(\t?)(\S+\n)", text)
        texts = {"follow": text, "left": "".join(note + row for note, tab, row in pairs if not tab),
                 "right": "".join(note + row for note, tab, row in pairs if tab)}
        for ending in endings:
            with open(self.path(f"run.{ending}"), "w", encoding="ascii") as file:
                file.write(texts[ending])
        return self.path("run")

    def test_a_text_is_drawn_with_the_listings_that_are_named_or_those_of_the_program(self):
        status, out, err = call(*words_of("restart"), "--text")
        self.assertEqual((status, err, out.splitlines()[0]), (0, "", "A restart in the middle of a transfer, and then an abort"))
        self.assertEqual(out.splitlines()[1:], self.rows(RESTART + ".follow"))

    def test_the_files_of_a_name_are_drawn_as_their_follow_file(self):
        wanted = self.rows(RESTART + ".follow")
        self.assertEqual(self.rows(self.split("follow", "left", "right")), wanted)
        os.remove(self.path("run.follow"))
        self.assertEqual(self.rows(self.path("run")), wanted)
        self.assertEqual(self.rows("--left", self.path("run.left"), "--right", self.path("run.right")), wanted)

    def test_files_without_times_are_not_put_in_an_order(self):
        name = self.split("left", "right")
        for side in transcript.SIDES:
            text = text_of(f"{name}.{side}")
            with open(f"{name}.{side}", "w", encoding="ascii") as file:
                file.write(re.sub(r"(?m)^# .*$|\s", "", text) + "\n")
        self.assertIn("there is no ", self.refused(name))
        self.assertIn("Captures have no times.", self.rows("--left", f"{name}.left", "--right", f"{name}.right")[-1])

    def test_a_verdict_is_drawn_of_the_files_of_a_name_too(self):
        self.assertEqual(self.rows("--judge", self.split("follow")), call(*files("restart"), "--text")[1].splitlines()[1:])

    def test_the_caller_is_at_the_left(self):
        pieces = [tapped.Piece("left", b"\3\0\0\7\2\xf0\x80"), tapped.Piece("right", bytes.fromhex("0300000e09e00000000100c0010a"))]
        self.assertEqual([piece.side for piece in reading.by_caller(pieces)], ["right", "left"])
        self.assertEqual(reading.by_caller(pieces[:1]), pieces[:1])
        answer_alone = [tapped.Piece("left", bytes.fromhex("0300000e09d00001000100c0010a"))]
        self.assertEqual([piece.side for piece in reading.by_caller(answer_alone)], ["right"])

    def test_a_part_of_the_packets(self):
        rows = self.rows(RESTART + ".follow", "--from", "3", "--to", "5")
        self.assertEqual([row.split()[0] for row in rows], ["seconds", *TIMES[2:5]])
        self.assertIn("there is no packet 16", self.refused(RESTART + ".follow", "--from", "16"))

    def test_what_does_not_go_together_is_refused(self):
        follow = RESTART + ".follow"
        for words, said in (([follow, "--stream", "0"], "--stream"), ([follow, "--script", os.path.join(DATA, "two.script")], "--script"),
                            ([os.path.join(DATA, "two.transcript"), *words_of("restart")[1:]], "no capture"),
                            ([follow, "--connection", "7"], "connection 7"), ([follow, "--verdicts", follow], "--judge"),
                            ([follow, *words_of("restart_cured")[1:]], "not that of the capture")):
            self.assertIn(said, self.refused(*words))

    def test_a_capture_is_told_from_a_run(self):
        for text, wanted in (("# a\n0300\n", True), ("\t03 0\n0 00\n", True), ("ends 0 0 10 4\n", False), ("# 03\nends 0 0 10 4\n", False),
                             ("left connect ok 1\n", False), ("broken\n", False), ("", False), ("# 03\n", False)):
            self.assertEqual(reading.is_capture(text), wanted, text)

    def test_a_missing_tshark_is_named(self):
        with open(self.path("run.pcap"), "wb") as file:
            file.write(bytes.fromhex("d4c3b2a102000400"))
        with mock.patch.object(tshark.shutil, "which", lambda name: None):
            for words in ([], ["--judge"]):
                self.assertIn("there is no tshark", self.refused(*words, self.path("run.pcap")))


@unittest.skipUnless(all(map(shutil.which, ("tshark", "mergecap"))), "tshark and its tools are not installed")
class Networks(Room):
    """Captures of a network, which tshark reads."""

    def pcap(self, name="restart", port=40_000):
        made = self.path(f"{name}.pcap")
        with mock.patch.dict(pcap.PORTS, left=port):
            self.assertEqual(capture.main(["join", os.path.join(DISPUTES, name), "-o", made]), 0)
        return made

    @staticmethod
    def numbered(rows):
        """Rows whose frames are counted from the first one."""
        found = [re.match(r"(\d+\.\d+ +)(\d+)(?= )", row) for row in rows]
        first = min((int(each[2]) for each in found if each), default=0)
        counted = [f"{each[1]}{int(each[2]) - first}{row[each.end():]}" if each else row for row, each in zip(rows, found)]
        return [" ".join(row.split()) for row in counted]

    def with_ends(self, *words):
        """The rows of a picture without that of the addresses."""
        rows = self.numbered(self.rows(*words))
        self.assertRegex(rows.pop(1), r"^192\.0\.2\.1:4000[01] 192\.0\.2\.2:102$")
        return rows

    def test_it_is_drawn_as_the_text_is(self):
        wanted = call(*files("restart"), "--text")[1].splitlines()[1:]
        self.assertEqual(self.with_ends(self.pcap()), self.numbered(self.rows(RESTART + ".follow")))
        self.assertEqual(self.with_ends("--judge", self.pcap()), self.numbered(wanted))

    def test_of_several_streams_one_has_to_be_named(self):
        both = self.path("both.pcapng")
        script.subprocess.run(["mergecap", "-w", both, self.pcap(), self.pcap("restart_cured", 40_001)], check=True)
        self.assertIn("name one of the streams 0, 1 by --stream", self.refused(both))
        self.assertEqual(self.with_ends(both, "--stream", "0"), self.numbered(self.rows(RESTART + ".follow")))
        self.assertEqual(self.with_ends(both, "--stream", "1"), self.numbered(self.rows(os.path.join(DISPUTES, "restart_cured.follow"))))
        self.assertIn("stream 9 carries no TPKT", self.refused(both, "--stream", "9"))

    def test_a_file_that_is_no_capture_is_refused(self):
        with open(self.path("bad"), "wb") as file:
            file.write(b"\x00" * 40)
        self.assertIn(self.path("bad"), self.refused(self.path("bad")))


if __name__ == "__main__":
    unittest.main()
