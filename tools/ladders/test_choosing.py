"""Tests of which packets a picture of a capture shows: equal ones once, pauses, and from one place to another; no program is run."""
import re
import unittest
from unittest import mock

from . import choosing, drawing, judged, tapped, terminal, transcript
from .test_judged import drawn, stored

OPENED = (("left", "0300000e09e00000000100c0010a"), ("right", "0300000e09d00001000100c0010a"))
DATA = "0300000d02f080010001004142"


def listing_of(count):
    """The listing of a CR or CC and so many packets of data."""
    rows = ["packet 0 length 14 code e0"]
    for place in range(count):
        rows += [f"packet {14 + 13 * place} length 13 code f0", "  DT number 0 eot 1 octets 6", "    tsdu 6", "    GT", "    DT octets 2"]
    return "\n".join([*rows, "rest 0", ""])


def run_of(*sides, pause=0.0, **more):
    """The picture of data of these sides, one each tenth of a second; the last one after a pause."""
    pieces, time = [], 100.0
    for place, (side, octets) in enumerate([*OPENED, *((side, DATA) for side in sides)]):
        time += 0.1 + (pause if place == len(sides) + 1 else 0)
        pieces.append(tapped.Piece(side, bytes.fromhex(octets), place + 1, time))
    return tapped.picture_of(pieces, {side: listing_of(sides.count(side)) for side in transcript.SIDES}, "", **more)


class Equal(unittest.TestCase):
    """Equal data in a row is one row."""

    def test_data_of_one_side(self):
        made = run_of(*["left"] * 312)
        self.assertEqual([row.text for row in made.rows][2:], ["14: DT x 312, 2 octets"])
        self.assertEqual((made.rows[2].note, made.arrows[2].label), ("up to frame 314", "DT x 312"))

    def test_questions_and_answers(self):
        made = run_of(*["left", "right"] * 40, "left")
        self.assertEqual([row.text for row in made.rows][2:], ["14: DT x 40, 2 octets", "14: DT x 40, 2 octets", "534: DT 2 octets"])

    def test_two_are_drawn(self):
        self.assertEqual(len(run_of("left", "left", "right").rows), 5)

    def test_data_that_changes_a_state_or_breaks_the_protocol_is_drawn(self):
        text, listings, told = stored("restart")
        with mock.patch.object(choosing, "EQUAL", 1):
            made = judged.picture_of(tapped.read(text), listings, "", told=told)
        self.assertEqual([row.text for row in made.rows if row.mark == "refused"], ["143: DT 8 octets"])
        self.assertEqual(len(made.arrows), len(drawn("restart").arrows))


class Pauses(unittest.TestCase):
    """A long pause has a mark."""

    def test_it_is_above_the_row_after_it(self):
        made = run_of("left", "right", pause=35.1)
        self.assertEqual([row.pause for row in made.rows], [None, None, None, "35.2 seconds"])
        self.assertIn("35.2 seconds</text>", drawing.draw(made))
        self.assertRegex(terminal.draw(made), r"(?m)^ +~+ 35\.2 seconds ~+$")


class Places(unittest.TestCase):
    """From one place to another."""

    def offsets(self, first, last):
        text, listings, _ = stored("restart")
        made = tapped.picture_of(tapped.read(text), listings, "", first=first, last=last)
        return [(row.side, int(row.text.partition(":")[0])) for row in made.rows]

    def test_places_of_each_kind(self):
        wanted = [("right", 55), ("left", 126), ("left", 143)]
        for first, last in (("11", "13"), ("frame=14", "frame=16"), ("seconds=0.0047", "seconds=0.0056"), ("right=60", "left=150")):
            self.assertEqual(self.offsets(first, last), wanted, (first, last))

    def test_what_is_no_place_is_refused(self):
        for first in ("x", "frame=", "frame=1.5", "-1", "octet=3", "99", "frame=999"):
            self.assertRaises(transcript.BadInput, self.offsets, first, "1000")

    def test_a_part_with_a_verdict(self):
        text, listings, told = stored("restart")
        made = judged.picture_of(tapped.read(text), listings, "", told=told, first="frame=14")
        self.assertEqual(made.rows[0].text, "55: RS 2 sides aaaa")
        self.assertTrue(any(band.start == 0 for band in made.bands) or made.bands)
        self.assertTrue(re.search(r"frame 16", made.arrows[2].whole))


class Many(unittest.TestCase):
    """No more rows than can be read."""

    def test_the_rest_is_named(self):
        with mock.patch.object(choosing, "MOST_ROWS", 4), mock.patch.object(choosing, "EQUAL", 99):
            made = run_of(*["left"] * 10)
        self.assertEqual(len(made.rows), 4)
        self.assertEqual(made.notes, ["Not shown: 8 packets after octet 27 of left. --from and --to show them."])

    def test_the_break_is_shown(self):
        text, listings, told = stored("restart")
        with mock.patch.object(choosing, "MOST_ROWS", 4):
            made = judged.picture_of(tapped.read(text), listings, "", told=told)
        self.assertEqual([row.text for row in made.rows if row.mark == "refused"], ["143: DT 8 octets"])
        self.assertRegex(made.notes[-1], "^Not shown: [0-9]+ packets before octet [0-9]+ of left and 2 packets after")


if __name__ == "__main__":
    unittest.main()
