"""Tests of the ladders with a verdict, over what `osi judge` printed of examples/disputes: no program is run."""
import os
import re
import tempfile
import unittest
import xml.etree.ElementTree as tree
from unittest import mock

from . import captures, drawing, judged, script, tapped, terminal, transcript, verdicts
from .test_ladders import SVG, call, text_of

DISPUTES = os.path.join(script.TOP, "examples", "disputes")
NAMES = ("restart", "restart_cured")
OPENED = "left 1 broke packet 41 {0}\nleft 1 knew 1 of 1 phase {1}\nleft broke the protocol first, packet 41: {0}\n"
# What `osi judge` prints of a break, and the sentence for it.
SENTENCES = (
    ("Data TokenNotHeld", "Ready held 54 next 1 below 1 lowest 1",
     'It sent data (DT); it did not hold the data token (X.225, 7.11 "DATA TRANSFER SPDU" and "Tokens").'),
    ("Minor TokenNotHeld", "Ready held 00 next 1 below 1 lowest 1",
     'It sent a minor synchronization point (MIP); it did not hold the tokens for that '
     '(X.225, 7.20 "MINOR SYNC POINT SPDU" and "Tokens").'),
    ("Minor TokenNotHeld", "Ready held 01 next 1 below 1 lowest 1",
     'It sent a minor synchronization point (MIP); it did not hold the minor token (X.225, 7.20 "MINOR SYNC POINT SPDU" and "Tokens").'),
    ("Give TokenNotHeld", "Ready held 54 next 1 below 1 lowest 1",
     'It sent tokens (GT); it did not hold the tokens for that (X.225, 7.16 "GIVE TOKENS SPDU" and "Tokens").'),
    ("Data BadState", "MajorAsked held 55 next 2 below 1 lowest 1",
     'It sent data (DT); a session may not send that in the phase MajorAsked '
     '(X.225, 7.11 "DATA TRANSFER SPDU" and Annex A "State tables").'),
    ("MinorConfirm BadNumber", "Ready held 00 next 4 below 3 lowest 1",
     "It sent the confirmation of a minor point (MIA); its number is not one that is allowed: the next number was 4, all below 3 were "
     'confirmed, and a restart may go back to 1 (X.225, 7.21 "MINOR SYNC ACK SPDU" and "Local variables").'),
    ("Accept BadTokens", "Answering held 00 next 0 below 0 lowest 0",
     'It sent an acceptance (AC); it puts tokens on a side that was not asked for (X.225, 7.4 "ACCEPT SPDU" and "Tokens").'),
    ("Abort NoFault", "Ready held 55 next 4 below 2 lowest 1",
     'It sent an abort (AB); it reports a protocol error, and there had been none (X.225, 7.9 "ABORT SPDU").'),
    ("TSDU UnknownSi", "Ready held 55 next 1 below 1 lowest 1",
     'It sent a TSDU; it has a unit with an SI that isn\'t known, or of a functional unit that isn\'t selected '
     '(X.225, 8.2 "SPDU structure").'),
    ("AbortAccept NothingToAnswer", "Ready held 55 next 1 below 1 lowest 1",
     'It sent the answer to an abort (AA); there was no abort to answer (X.225, 7.10 "ABORT ACCEPT SPDU").'))


def stored(name):
    """The capture, the listings and the verdicts of a dispute."""
    place = os.path.join(DISPUTES, name)
    return (text_of(place + ".follow"), {side: text_of(f"{place}.{side}.listing") for side in transcript.SIDES},
            verdicts.read(text_of(place + ".verdicts")))


def drawn(name):
    """The picture of a dispute."""
    text, listings, told = stored(name)
    return judged.picture_of(tapped.read(text), listings, name, told=told)


def files(name):
    """The words that name the stored files of a dispute."""
    place = os.path.join(DISPUTES, name)
    return ["--judge", place + ".follow", "--verdicts", place + ".verdicts", "--left", place + ".left.listing",
            "--right", place + ".right.listing"]


def answer(_, word, text, tick=None):
    """What `osi` printed for a text: the verdict on so many octets of each side of a dispute, or the listing of a side."""
    text = "".join(text)
    pieces = tapped.read(text)
    sums = [sum(len(piece.octets) for piece in pieces if piece.side == side) for side in transcript.SIDES]
    for name in NAMES:
        whole, listings, told = stored(name)
        if word == "show":
            for side in transcript.SIDES:
                if b"".join(it.octets for it in tapped.read(whole) if it.side == side) == pieces[0].octets:
                    return listings[side]
        for verdict in told if word == "judge" and starts(whole, text) else ():
            if [int(verdict.lines[side, "read"]["octets"]) for side in transcript.SIDES] == sums:
                return "\n".join(verdict.rows) + "\n"
    raise transcript.BadInput("this was never asked")


def starts(whole, text):
    """Whether each side of a capture begins as that of another."""
    of = [[b"".join(it.octets for it in tapped.read(each) if it.side == side) for side in transcript.SIDES] for each in (whole, text)]
    return all(one.startswith(other) for one, other in zip(*of))


class Pictures(unittest.TestCase):
    """The ladder of a capture with its verdict."""

    def test_each_packet_stands_once_in_the_order_of_the_tap(self):
        for name in NAMES:
            text, listings, _ = stored(name)
            rows = [row for row in drawn(name).rows if row.mark != "standing"]
            wanted = [piece.side for piece in tapped.read(text)]
            self.assertEqual([row.side for row in rows], wanted)
            for side in transcript.SIDES:
                found = [row.whole.split(" ")[1] for row in rows if row.side == side]
                self.assertEqual(found, re.findall(r"^packet (\d+)", listings[side], re.M))

    def test_the_packet_that_broke_the_protocol_is_marked(self):
        made = drawn("restart")
        wrong = [row for row in made.rows if row.mark == "refused"]
        self.assertEqual([(row.side, row.text, row.note) for row in wrong], [("left", "143: DT 8 octets", "this broke the protocol")])
        self.assertEqual([arrow.label for arrow in made.arrows if arrow.wrong], ["DT 19"])
        self.assertEqual([row for row in drawn("restart_cured").rows if row.mark == "refused"], [])

    def test_the_box_has_the_verdict_in_a_sentence(self):
        self.assertEqual(list(drawn("restart").verdict), [
            "Left broke the protocol first, in its packet at octet 143.",
            'It sent data (DT); the data token was with right since left\'s packet at octet 126 '
            '(X.225, 7.11 "DATA TRANSFER SPDU" and "Tokens").',
            "The session that comes nearest had taken 3 of the 3 TSDUs of right that had passed, and was in the phase Ready.",
            "osi judge: left broke the protocol first, packet 143: Data TokenNotHeld"])
        self.assertEqual(list(drawn("restart_cured").verdict), ["Both sides kept the protocol.", "osi judge: both kept the protocol"])

    def test_bands_are_what_the_judge_says_that_a_side_holds(self):
        for name in NAMES:
            _, _, told = stored(name)
            bands = drawn(name).bands
            for place, verdict in enumerate(told):
                for side in transcript.SIDES:
                    state, over = verdict.state(side), verdict.break_of(side)
                    held = "".join(verdicts.letters(state.held)) if state and not over else ""
                    now = [band.token for band in bands if band.side == side and band.start <= 2 * place + 1 < band.end]
                    self.assertEqual(len(held), len(now), (name, place, side))

    def test_a_side_that_broke_the_protocol_has_no_state_any_more(self):
        rows = drawn("restart").rows
        place = next(place for place, row in enumerate(rows) if row.mark == "refused")
        self.assertEqual([row.note for row in rows[place + 1:] if row.side == "left" and row.mark != "standing"], [None])
        self.assertFalse(any(row.mark == "standing" for row in rows[place:] if row.side == "left"))

    def test_it_is_well_formed_and_labels_do_not_overlap(self):
        for name in NAMES:
            text = drawing.draw(drawn(name))
            root = tree.fromstring(text)
            kinds = {element.tag[len(SVG):] for element in root.iter()}
            self.assertLessEqual(kinds, set("svg title desc style rect text g path circle polyline".split()))
            width, height = float(root.get("width")), float(root.get("height"))
            boxes = []
            for each in root.iter(SVG + "text"):
                x, y, long = float(each.get("x")), float(each.get("y")), len(each.text or "")
                left = x - {"end": 1, "middle": 0.5}.get(each.get("text-anchor"), 0) * drawing.LETTER * long
                self.assertTrue(0 <= left and left + 6.6 * long <= width and y < height, each.text)
                if each.get("class") == "label":
                    boxes.append((x, y, 3.2 * long))
            for place, (x, y, half) in enumerate(boxes):
                self.assertFalse(any(abs(y - far) < 11 and abs(x - at) < half + more for at, far, more in boxes[place + 1:]))

    def test_it_fits_a_terminal(self):
        for name in NAMES:
            for columns in (60, 100, 131):
                rows = terminal.draw(drawn(name), columns=columns).rstrip("\n").split("\n")
                self.assertTrue(all(len(row) <= columns for row in rows[:-1]), columns)
        text = terminal.draw(drawn("restart"))
        self.assertIn("143: DT 8 octets", text)
        self.assertRegex(text, r"x -+ DT 19 -+>")
        self.assertIn("| Left broke the protocol first, in its packet at octet 143.", text)

    def test_one_verdict_alone_is_drawn_without_states(self):
        text, listings, told = stored("restart")
        made = judged.picture_of(tapped.read(text), listings, "", told=told[-1:])
        self.assertEqual(made.bands, [])
        self.assertIn("it did not hold the data token", made.verdict[1])
        self.assertIn("not shown", made.notes[0])

    def test_a_packet_that_ends_in_a_later_piece_passes_there(self):
        left, right = "0300000e09e00000000100c0010a", "0300000e09d00001000100c0010a"
        pieces = tapped.read(f"{left}0300\n\t{right}\n000b06f08001024142\n")
        listings = {"left": "packet 0 length 14 code e0\npacket 14 length 11 code f0\nrest 0\n",
                    "right": "packet 0 length 14 code d0\nrest 0\n"}
        steps = tapped.steps_of(pieces, listings)
        self.assertEqual([(step.side, step.start) for step in steps], [("left", 0), ("right", 0), ("left", 14)])
        kept = [[len(it.octets) for it in judged.up_to(pieces, steps, place)] for place in range(3)]
        self.assertEqual(kept, [[14], [16, 14], [16, 14, 9]])

    def test_octets_that_are_no_packet_are_a_row(self):
        text = "0300000e09e00000000100c0010a\n\t0300000e09d00001000100c0010a\n04000007\n"
        listings = {"left": "packet 0 length 14 code e0\nfault 14 BadVersion\n", "right": "packet 0 length 14 code d0\nrest 0\n"}
        told = verdicts.read("left 1 kept 0 phase WaitTransport held 00 next 0 below 0 lowest 0\nleft broke packet 14 TPKT BadVersion\n"
                             "left broke the protocol first, packet 14: TPKT BadVersion\n")
        made = judged.picture_of(tapped.read(text), listings, "", told=told)
        self.assertEqual([row.text for row in made.rows if row.mark == "refused"], ["fault 14 BadVersion"])
        self.assertEqual(made.verdict[1], "No packet begins there: its first octet (hexadecimal 04) is not 3 "
                         "(RFC 1006, 6 \"Packet Format\").")


class Reading(unittest.TestCase):
    """Captures and verdicts."""

    def sides(self, text):
        return [(piece.side, piece.octets.hex()) for piece in tapped.read(text)]

    def test_lines_without_a_tab_are_of_the_caller(self):
        self.assertEqual(self.sides("# a\n\t0a 0b # c\n0c\n"), [("right", "0a0b"), ("left", "0c")])
        self.assertEqual(self.sides("0a\n\n\t0c\n"), [("left", "0a"), ("right", "0c")])

    def test_an_octet_belongs_to_the_line_of_its_first_digit(self):
        self.assertEqual(self.sides("0a0\n\tb 0c\n"), [("left", "0a0b"), ("right", "0c")])

    def test_what_is_no_capture_is_refused(self):
        for text in ("", "# nothing\n", "0a0\n", "xy\n"):
            self.assertRaises(transcript.BadInput, tapped.read, text)

    def test_what_is_no_verdict_is_refused(self):
        for text in ("", "left packets 1 octets 14 rest 0\n", "perhaps\nboth kept the protocol\n", "left 1 kept\nboth kept the protocol\n"):
            self.assertRaises(transcript.BadInput, verdicts.read, text)

    def test_each_break_has_its_sentence(self):
        for what, state, wanted in SENTENCES:
            verdict = verdicts.read(OPENED.format(what, state))[-1]
            self.assertEqual(verdicts.reason(verdict, "left"), wanted)

    def test_other_verdicts_have_theirs(self):
        for last, wanted in (("not judged: the connection is not of class 0", "Not judged: the connection is not of class 0."),
                             ("both kept the protocol", "Both sides kept the protocol."),
                             ("left leaves the profile first, packet 41: TSDU Outside",
                              "Left was the first to leave the profile, in its packet at octet 41.")):
            text = "left 1 leaves packet 41 TSDU Outside\n" * last.startswith("left") + last + "\n"
            self.assertEqual(verdicts.box(verdicts.read(text)[0])[0], wanted)

    def test_a_text_without_a_verdict_is_not_judged(self):
        found = verdicts.printed("left packets 2 octets 29 rest 0\nleft 1 unanswered\n")
        self.assertEqual(verdicts.box(found), ["Not judged: osi judge names no verdict.", "osi judge: left 1 unanswered"])

    def test_tokens_that_came_together_are_told_together(self):
        found = {"data": "right's packet 14", "minor": "right's packet 14", "major": None, "release": "left's packet 41"}
        self.assertEqual(list(verdicts.together(found)), [("data and minor tokens were", "right's packet 14"),
                                                          ("release token was", "left's packet 41")])

    def test_a_later_break_is_told_last(self):
        text = ("left 1 broke packet 68 Data Ended\nleft 1 knew 2 of 2 phase Aborting held 00 next 0 below 0 lowest 0\n"
                "right 1 broke packet 41 Minor TokenNotHeld\nright 1 knew 1 of 1 phase Ready held 00 next 1 below 1 lowest 1\n"
                "right broke the protocol first, packet 41: Minor TokenNotHeld\n")
        self.assertIn("Later left broke the protocol too, in its packet at octet 68: Data Ended.", verdicts.box(verdicts.read(text)[0]))


class Asking(unittest.TestCase):
    """What the program is asked for."""

    def test_it_is_asked_after_each_packet(self):
        with mock.patch.object(script, "run", answer):
            for name in NAMES:
                capture = os.path.join(DISPUTES, name + ".follow")
                self.assertEqual(call("--judge", capture), call(*files(name)))
                self.assertEqual(call("--judge", capture, "--states")[1], text_of(os.path.join(DISPUTES, name + ".verdicts")))

    def test_of_a_long_capture_it_is_asked_around_the_break(self):
        steps = [tapped.Step(packet, 0, None) for packet in captures.read("left", "packet 0 length 14 code e0\n" * 1000)]
        for place, step in enumerate(steps):
            step.start = place
        broken = verdicts.read(OPENED.format("Data BadState", "Ready held 55 next 1 below 1 lowest 1").replace("41", "600"))[0]
        self.assertEqual(judged.window(steps, broken), range(330, 630))
        self.assertEqual(judged.window(steps, verdicts.read("both kept the protocol\n")[0]), range(700, 1000))
        self.assertEqual(judged.window(steps[:300], broken), range(300))

    def test_a_slow_program_is_asked_once(self):
        text, listings, _ = stored("restart")
        asked = []

        def judge(given):
            asked.append(given)
            return answer(None, "judge", given)
        with mock.patch.object(judged, "SLOW", 0):
            self.assertEqual(len(judged.picture_of(tapped.read(text), listings, "", judge).notes), 1)
        self.assertEqual(len(asked), 1)

    def test_if_time_runs_out_it_was_asked_around_the_break(self):
        text, listings, told = stored("restart")
        seconds = iter(range(100))
        with mock.patch.object(judged, "LONGEST", 4), mock.patch.object(judged.time, "monotonic", lambda: next(seconds)):
            made = judged.picture_of(tapped.read(text), listings, "", lambda given: answer(None, "judge", given))
        self.assertIn("from octet 126 of left to octet 75 of right: of 15 packets, the 3 around the verdict", made.notes[0])
        self.assertIn("it did not hold the data token", made.verdict[1])

    def test_a_part_of_the_packets(self):
        status, out, _ = call(*files("restart"), "--from", "10", "--to", "12")
        self.assertEqual((status, re.findall(r">(?:\d+: )(\w+)", out)), (0, ["DT", "RS", "RA"]))

    def test_what_can_not_be_drawn_is_one_line_and_no_file(self):
        capture = os.path.join(DISPUTES, "restart.follow")
        with tempfile.TemporaryDirectory() as folder:
            bad = os.path.join(folder, "bad")
            with open(bad, "w", encoding="ascii") as file:
                file.write("0300 perhaps\n")
            for words in (["--judge", bad], ["--judge", os.path.join(folder, "nothing")], ["--judge", capture, "--osi", "/no/such/program"],
                          files("restart")[:2] + ["--verdicts", bad], ["--states"], ["--verdicts", bad], ["--judge", capture, capture],
                          files("restart")[:2] + files("restart_cured")[2:], files("restart") + ["--from", "99"]):
                status, out, err = call(*words, "--output", os.path.join(folder, "picture.svg"))
                self.assertEqual((status, out, err.count("\n"), os.listdir(folder)), (2, "", 1, ["bad"]), words)


if __name__ == "__main__":
    unittest.main()
