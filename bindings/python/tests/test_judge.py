"""A judge is fed a byte connection between two other programs, piece by piece."""
import copy
import os
import pickle
import re
import unittest

from osi_session import Code, Judge, JudgedSide, Rule, Said, SessionError, Verdict, VerdictKind

TOP = os.path.dirname(os.path.dirname(os.path.dirname(os.path.dirname(os.path.abspath(__file__)))))
DISPUTES = os.path.join(TOP, "examples", "disputes")
STORED = os.path.join(TOP, "crates", "osi_runs", "data")
# A connection of class 0.
CR = bytes.fromhex("0300000e09e00000000100c0010a")
CC = bytes.fromhex("0300000e09d00001000200c0010a")
CN = bytes.fromhex("0300001b02f0800d12050c1301011601021701311a0100140200b9")
AC = bytes.fromhex("0300001b02f0800e12050c1301011601021701311a0100140200b9")
DT = bytes.fromhex("0300001302f080010001007265636f72642031")
OPENING = ((JudgedSide.LEFT, CR), (JudgedSide.RIGHT, CC), (JudgedSide.LEFT, CN), (JudgedSide.RIGHT, AC))
# One of class 2.
CR_2 = bytes.fromhex("030000110ce40000000120c0010ac60100")
CC_2 = bytes.fromhex("030000110cd40001000220c0010ac60100")
CN_2 = bytes.fromhex("0300001d04f00002800d12050c1301011601021701311a0100140200b9")
AC_2 = bytes.fromhex("0300001d04f00001800e12050c1301011601021701311a0100140200b9")
DT_2 = bytes.fromhex("0300001104f00001810100010064617461")
OPENING_2 = ((JudgedSide.LEFT, CR_2), (JudgedSide.RIGHT, CC_2), (JudgedSide.LEFT, CN_2), (JudgedSide.RIGHT, AC_2))
# What `osi judge` prints of a side that did not keep the protocol, but for the last line.
ONE_DIRECTION = "not judged: only one direction is here"
BLAMES = re.compile(r"(left|right) (\d+ )?(broke packet|leaves packet|too many|not judged after)")
# That a side is not judged any further after a packet of its own.
OWN = re.compile(r"(left|right) not judged after \1 (packet .*)")


def point(number):
    """The packet of a minor synchronization point, in a DT of class 0."""
    digits = str(number).encode("ascii")
    user = bytes([1, 0, 49, 2 + len(digits), 42, len(digits)]) + digits
    return bytes([3, 0, 0, 7 + len(user), 2, 0xF0, 0x80]) + user


def opened(opening=OPENING) -> Judge:
    judge = Judge()
    for side, octets in opening:
        judge.feed(side, octets)
    return judge


def follow(name):
    """The pieces of a dispute: lines of hexadecimal digits, of right after a tab."""
    with open(os.path.join(DISPUTES, name), encoding="ascii") as file:
        for line in file:
            if not line.startswith("#"):
                yield JudgedSide(line.startswith("\t")), bytes.fromhex(line)


def disputes(name):
    """The stored captures of a file: the title of each, its pieces, and what `osi judge` prints of it."""
    with open(os.path.join(STORED, name), encoding="ascii") as file:
        for part in re.split("^== ", file.read(), flags=re.MULTILINE)[1:]:
            capture, _, printed = part.partition("-- status ")
            title, *lines = capture.splitlines()
            pieces = [(JudgedSide(line.startswith("\t")), bytes.fromhex(line)) for line in lines if not line.startswith("#")]
            yield title, pieces, printed.splitlines()[1:]


def is_left_out(line, told):
    """Whether `osi judge` leaves a line out: a side's own first break ends the judging of this side alone, and has a line."""
    own = OWN.fullmatch(line)
    if not own or f"{own[1]} broke {own[2]}" not in told:
        return False
    other = "right" if own[1] == "left" else "left"
    return not any(more.startswith(f"{other} not judged after {own[1]} ") for more in told)


class Judges(unittest.TestCase):
    def test_a_break_is_told_as_soon_as_it_has_passed_and_once(self):
        judge = opened()
        self.assertEqual(list(judge.feed(JudgedSide.LEFT, DT)), [])
        for place in range(len(DT) - 1):
            self.assertEqual(list(judge.feed(JudgedSide.RIGHT, DT[place : place + 1])), [])
        told = Verdict(JudgedSide.RIGHT, VerdictKind.BROKE, Said.DT, Rule.TOKEN_NOT_HELD, 41, JudgedSide.RIGHT, 0, 1, 2)
        self.assertEqual(list(judge.feed(JudgedSide.RIGHT, DT[-1:])), [told])
        self.assertEqual(list(judge.verdicts()), [])
        self.assertEqual(str(told), "right 2 broke packet 41 Data TokenNotHeld")
        self.assertEqual(judge.verdict(0, JudgedSide.RIGHT), told)
        self.assertEqual(str(judge.verdict(0, JudgedSide.LEFT)), "left 1 kept")
        self.assertEqual([str(judge.verdict(None, side)) for side in JudgedSide], ["left kept", "right kept"])

    def test_a_break_is_told_of_its_connection(self):
        judge = opened(OPENING_2)
        self.assertEqual((judge.connections(), list(judge.verdicts())), (1, []))
        told = Verdict(JudgedSide.RIGHT, VerdictKind.BROKE, Said.DT, Rule.TOKEN_NOT_HELD, 46, JudgedSide.RIGHT, 0, 1, 2)
        self.assertEqual(list(judge.feed(JudgedSide.RIGHT, DT_2)), [told])
        self.assertEqual(judge.verdict(0, JudgedSide.RIGHT), told)
        with self.assertRaises(SessionError) as raised:
            judge.verdict(1, JudgedSide.RIGHT)
        self.assertEqual(raised.exception.code, Code.NO_SUCH_CONNECTION)

    def test_pieces_are_fed_if_nobody_iterates(self):
        judge = opened()
        judge.feed(JudgedSide.RIGHT, DT)
        self.assertEqual([told.side for told in judge.verdicts()], [JudgedSide.RIGHT])

    def test_an_iterator_that_has_ended_stays_at_its_end(self):
        judge = opened()
        verdicts = judge.verdicts()
        self.assertEqual(list(verdicts), [])
        told = judge.feed(JudgedSide.RIGHT, DT)
        self.assertEqual(list(verdicts), [])
        self.assertEqual([one.side for one in told], [JudgedSide.RIGHT])

    def test_an_iterator_keeps_its_judge(self):
        told = opened().feed(JudgedSide.RIGHT, DT)
        self.assertEqual([one.side for one in told], [JudgedSide.RIGHT])

    def test_a_side_and_octets_in_other_forms_and_arguments_by_name(self):
        judge = opened()
        self.assertEqual(list(judge.feed(piece=bytearray(DT[:4]), side=1)), [])
        self.assertEqual([one.side for one in judge.feed(True, memoryview(DT[4:]))], [JudgedSide.RIGHT])
        self.assertEqual(judge.verdict(connection=0, side=1), judge.verdict(0, JudgedSide.RIGHT))

    def test_the_first_break_is_told_first(self):
        judge = opened()
        judge.feed(JudgedSide.RIGHT, DT)
        told = list(judge.feed(JudgedSide.LEFT, b"HTTP"))
        self.assertEqual([(one.side, one.rule) for one in told[:2]],
                         [(JudgedSide.RIGHT, Rule.TOKEN_NOT_HELD), (JudgedSide.LEFT, Rule.BAD_VERSION)])

    def test_a_break_before_the_class_is_known_ends_the_judgement_of_both_sides(self):
        judge = Judge()
        judge.feed(JudgedSide.LEFT, CR)
        told = [str(one) for one in judge.feed(JudgedSide.RIGHT, b"HTTP/1.1 400 Bad Request")]
        self.assertEqual(told, ["right broke packet 0 TPKT BadVersion", "left not judged after right packet 0 TPKT BadVersion",
                                "right not judged after right packet 0 TPKT BadVersion"])

    @unittest.skipUnless(os.path.isdir(DISPUTES), "no examples/disputes")
    def test_the_text_of_a_dispute_is_that_of_osi_judge(self):
        for name, verdicts in (("restart", ["left 1 broke packet 143 Data TokenNotHeld"]), ("restart_cured", [])):
            with Judge() as judge:
                told = [str(one) for side, octets in follow(f"{name}.follow") for one in judge.feed(side, octets)]
                text = judge.text()
            self.assertEqual(told, verdicts)
            with open(os.path.join(DISPUTES, f"{name}.verdicts"), encoding="ascii") as file:
                self.assertIn(text.splitlines()[-1], file.read().splitlines())

    @unittest.skipUnless(os.path.isdir(STORED), "no stored captures")
    def test_lines_and_text_are_those_of_osi_judge(self):
        for title, pieces, printed in (*disputes("class_2.disputes"), *disputes("in_flight.disputes")):
            with Judge() as judge:
                told = [str(one) for side, octets in pieces for one in judge.feed(side, octets)]
                text = judge.text()
            shown = [line for line in told if not is_left_out(line, told)]
            if printed[-1] != ONE_DIRECTION:  # a verdict judges what was fed
                self.assertEqual(sorted(shown), sorted(filter(BLAMES.match, printed)), title)
            self.assertEqual(text.splitlines(), printed, title)

    def test_a_judge_keeps_no_more_than_its_bound(self):
        judge, told, number = opened(), [], 0
        while not told:  # points, each of which is kept, since it has a number of its own
            told = list(judge.feed(JudgedSide.LEFT, b"".join(map(point, range(number + 1, number + 1001)))))
            number += 1000
        self.assertGreater(number, 50_000)
        self.assertEqual([(one.side, one.kind, one.rule) for one in told],
                         [(side, VerdictKind.NOT_JUDGED, Rule.LIMIT) for side in JudgedSide])
        self.assertEqual(list(judge.feed(JudgedSide.RIGHT, DT)), [])
        self.assertEqual(judge.verdict(0, JudgedSide.RIGHT).kind, VerdictKind.NOT_JUDGED)
        self.assertEqual(judge.text().splitlines()[-3:],
                         ["left 1 not judged Limit", "right 2 not judged Limit", "not judged: more passed on a connection than is kept"])

    def test_a_capture_that_begins_in_the_middle_is_not_judged(self):
        judge = Judge()
        told = list(judge.feed(JudgedSide.LEFT, DT))
        self.assertEqual([(one.side, one.kind, one.rule, one.connection) for one in told],
                         [(side, VerdictKind.NOT_JUDGED, Rule.NO_OPENING, None) for side in JudgedSide])
        self.assertEqual(judge.text().splitlines()[-1], ONE_DIRECTION)
        self.assertEqual(list(judge.feed(JudgedSide.RIGHT, DT)), [])
        self.assertEqual(judge.text().splitlines()[-1], "not judged: the capture begins in the middle of a connection")

    def test_what_right_sends_first_is_certain_once_left_has_sent_a_packet(self):
        for first, rule in ((CR, Rule.UNKNOWN_REFERENCE), (DT, Rule.NO_OPENING)):
            judge = Judge()
            self.assertEqual(list(judge.feed(JudgedSide.RIGHT, CC)), [])
            self.assertEqual(judge.verdict(None, JudgedSide.RIGHT).rule, Rule.UNKNOWN_REFERENCE)
            self.assertEqual([one.rule for one in judge.feed(JudgedSide.LEFT, first)][0], rule)

    def test_a_judge_that_was_closed(self):
        judge = opened()
        judge.close()
        self.assertTrue(judge.closed)
        calls = (lambda: judge.feed(JudgedSide.LEFT, DT), lambda: list(judge.verdicts()), lambda: judge.verdict(0, JudgedSide.LEFT),
                 judge.connections, judge.text)
        for call in calls:
            with self.assertRaises(SessionError) as raised:
                call()
            self.assertEqual(raised.exception.code, Code.SLOT_EMPTY)

    def test_a_judge_is_not_copied(self):
        for way in (copy.copy, copy.deepcopy, pickle.dumps):
            self.assertRaises(TypeError, way, Judge())

    def test_what_is_no_side_no_number_and_what_are_no_octets(self):
        self.assertRaises(ValueError, Judge().feed, 2, DT)
        self.assertRaises(ValueError, Judge().feed, -1, DT)
        self.assertRaises(TypeError, Judge().feed, JudgedSide.LEFT)
        self.assertRaises(TypeError, Judge().feed, JudgedSide.LEFT, "text")
        self.assertRaises(ValueError, Judge().verdict, 0, 2)
        self.assertRaises(ValueError, Judge().verdict, -1, JudgedSide.LEFT)
        self.assertRaises(ValueError, Judge().verdict, 1 << 64, JudgedSide.LEFT)
        self.assertRaises(TypeError, Judge().verdict, "0", JudgedSide.LEFT)


if __name__ == "__main__":
    unittest.main()
