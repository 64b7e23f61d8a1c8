"""What isn't surely a part of what was sent: octets of keepalives, those after the end of a direction, and those of another connection.
What passed is compared with what was sent, without `osi`."""
import itertools
import unittest
from unittest import mock

from . import asking, judging, reports, streams
from .test_frames import (AC, ACK, CC, CN, CR, DT, FIN, FIRST, PUSH, SYN, Frames, data, segment_of, stream_of, whole)

BLAMING = "left 1 broke packet 50 Data BadState\nleft broke the protocol first, packet 50: Data BadState\n"


def blamed(parts):
    """What a judge prints that blames whoever sends the word `wrong`."""
    rows = str(parts).split("\n")
    sides = ("".join(row for row in rows if row.startswith("\t") == is_right) for is_right in (False, True))
    return BLAMING if any(b"wrong".hex() in side.replace("\t", "") for side in sides) else "both kept the protocol\n"


def in_turns(parts):
    """What passed, with what one side sent in a row as one."""
    found = []
    for side, octets in parts:
        if found and found[-1][0] == side:
            found[-1] = side, found[-1][1] + octets
        elif octets:
            found.append((side, octets))
    return found


def sure(stream):
    """What passed before the first octet that may be that of a keepalive: what a side may be blamed for."""
    alone = stream.alone()
    return itertools.takewhile(lambda part: part is not None,
                               ((side, piece.octets) if piece.frame not in alone else None for side, piece in stream.by_side()))


def is_beginning(found, whole_run):
    """Whether turns are the beginning of those of a run: all but the last one whole."""
    pairs = list(zip(found, whole_run))
    return len(found) <= len(whole_run) and found[:-1] == whole_run[:max(len(found) - 1, 0)] and \
        all(one[0] == other[0] and other[1].startswith(one[1]) for one, other in pairs)


def flagged(frame, flags):
    """A frame with other flags of TCP."""
    return frame[:33] + bytes([flags]) + frame[34:]


class Urgent(unittest.TestCase):
    """An octet of urgent data may be none of what is received: nobody is blamed from such a segment on."""

    def judged(self, *octets):
        """What is said of frames, the eighth of which has urgent data."""
        made = Frames().open().send("left", *octets).send("right", DT).frames
        return judging.Judged(stream_of([flagged(frame, 0x38) if place == 8 else frame for place, frame in enumerate(made, 1)]), blamed)

    def test_what_comes_after_it_blames_nobody(self):
        wrong = data(b"\1\0\1\0wrong")
        found = self.judged(DT, wrong)
        self.assertEqual((found.status(), found.limit), (3, "judged up to frame 8, in which left sent urgent data of TCP"))
        self.assertEqual((self.judged(DT, DT).status(), self.judged(DT, DT).limit), (0, None))


class Keepalives(unittest.TestCase):
    """The capture lacks a segment of one octet, and what acknowledged it; a keepalive with another octet comes in its place."""

    WRONG = data(b"\1\0\1\0wrong")

    @staticmethod
    def judged(made, pauses=None):
        """What is said of frames by a judge that blames whoever sends the word `wrong`; before some frames nothing passes for a while."""
        segments, late = [segment_of(place, frame) for place, frame in enumerate(made, 1)], 0
        for segment in segments:
            late += (pauses or {}).get(segment.frame, 0)
            segment.time += late
        stream = streams.joined(segments)[0]
        return judging.Judged(stream, blamed)

    def unsure(self, found, frame, why="whose one octet may be that of a keepalive of left"):
        """Nobody is blamed, since it isn't sure what passed with a frame."""
        self.assertEqual((found.status(), found.limit), (3, f"judged up to frame {frame}, {why}"))
        self.assertIsNone(reports.first_of(found))

    def lost(self, flags=ACK, octets=DT, mtu=len(DT) - 1):
        """The frames, and the number of that of the keepalive."""
        made = Frames(mtu=mtu).open().send("left", octets)
        made.frames.pop()
        made.put("left", b"\0", flags, sequence=made.next["left"] - 1)
        made.next["left"] -= 1
        number = len(made.frames)
        return made.put("right").send("left", self.WRONG).put("right").frames, number

    def test_nobody_is_blamed(self):
        for flags, pause in ((ACK, 10), (ACK, 7_200), (ACK, 0.002), (PUSH | ACK, 10)):
            made, number = self.lost(flags)
            self.unsure(self.judged(made, {number: pause}), number)

    def test_if_every_octet_comes_alone(self):
        made, number = self.lost(mtu=1)
        self.unsure(self.judged(made, {number: 10}), number)

    def test_a_keepalive_that_comes_soon_after_the_acknowledgement(self):
        made = Frames(mtu=len(DT) - 1).open().send("left", DT)
        made.frames.pop()
        made.put("right").put("left", b"\0", PUSH | ACK, sequence=made.next["left"] - 1)
        made.next["left"] -= 1
        number = len(made.frames)
        self.unsure(self.judged(made.send("left", self.WRONG).frames), number)

    def test_a_keepalive_whose_copies_are_captured_early_or_late(self):
        """By two taps whose clocks differ: before what acknowledges its octet, and after what was sent later."""
        made = Frames().open().talk(3)
        alive = made.segment("left", b"\0", ACK, FIRST["left"] + len(CR + CN + DT))
        wanted = in_turns((side, piece.octets) for side, piece in stream_of(made.frames).by_side())
        for place in range(8, len(made.frames) + 1):
            stream = stream_of(made.frames[:place] + [alive] + made.frames[place:])
            self.assertEqual((in_turns((side, piece.octets) for side, piece in stream.by_side()), stream.gap()), (wanted, None))
        first = made.segment("left", b"\0", ACK, FIRST["left"])
        self.assertIsNone(stream_of(made.frames + [first]).gap())
        other = made.segment("left", b"\x55", ACK, FIRST["left"] + len(CR + CN) - 1)
        self.assertRegex(str(stream_of(made.frames + [other]).gap()), "sent again as others")

    def test_an_octet_that_was_cut_off(self):
        """The frame was one octet longer than what is captured of each."""
        made, number = self.lost(mtu=1_400)
        frame = Frames(mtu=1_400).open().send("left", DT).frames[-1]
        cut = segment_of(8, frame, len(frame) - 1)
        segments = [segment_of(place, each) for place, each in enumerate(made[:number - 1], 1)] + [cut]
        segments += [segment_of(place, each) for place, each in enumerate(made[number - 1:], number + 1)]
        stream = streams.joined(segments)[0]
        found = judging.Judged(stream, blamed)
        self.unsure(found, number + 1)

    def test_the_keepalive_of_a_direction_that_has_ended(self):
        """Its number is that of FIN. The capture has FIN, or it lacks it."""
        for is_here in (True, False):
            made = Frames().open().put("left", flags=FIN | ACK).put("left", b"\0", sequence=FIRST["left"] + 1 + len(CR + CN))
            made.next["left"] -= 1
            made.send("right", self.WRONG)
            frames_made = made.frames if is_here else made.frames[:7] + made.frames[8:]
            found = self.judged(frames_made, {9 if is_here else 8: 10})
            if is_here:
                self.assertEqual((found.status(), found.parts[-1][0]), (1, "right"))
                self.assertNotIn(b"\0", [piece.octets for _, piece in found.parts])
            else:
                self.unsure(found, 8)

    def test_one_octet_segments_are_judged(self):
        """Data that comes octet by octet: its sender pushes it, it comes soon, or its neighbours come alone, too."""
        sent = Frames(mtu=1).begin().send("left", CR).send("right", CC).send("left", CN).send("right", AC).send("left", self.WRONG).frames
        for made in (sent, [flagged(frame, ACK) if len(frame) == 41 else frame for frame in sent]):
            self.assertEqual(self.judged(made).status(), 1)
        self.assertEqual(self.judged(sent, dict.fromkeys(range(4, len(sent)), 1.5)).status(), 1)
        typed = Frames().open().frames
        begun = len(typed)
        typed += sent[3 + len(CR + CC + CN + AC):]
        self.assertEqual(self.judged(typed, dict.fromkeys(range(begun + 1, len(typed)), 3)).status(), 1)

    def test_the_last_octet_of_a_packet_is_judged(self):
        made = Frames(mtu=len(DT) - 1).open().send("left", DT).send("left", self.WRONG).frames
        self.assertEqual(self.judged(made).status(), 1)

    def test_another_copy_says_that_it_was_data(self):
        made = Frames(mtu=len(DT) - 1).open()
        start = made.next["left"]
        made.send("left", DT)
        made.frames[-1] = flagged(made.frames[-1], ACK)
        number = len(made.frames)
        made.put("left", DT[2:], PUSH | ACK, sequence=start + 2)
        made.next["left"] = start + len(DT)
        self.assertEqual(self.judged(made.send("left", self.WRONG).frames, {number: 10}).status(), 1)

    def test_a_break_before_it_stays_found(self):
        made, number = self.lost()
        wrong = Frames(mtu=1_400).open().send("left", self.WRONG).send("left", DT[:-1]).put("left", b"\0")
        self.assertEqual(self.judged(wrong.frames, {len(wrong.frames): 10}).status(), 1)

    def test_if_nobody_is_to_blame_all_is_judged(self):
        made, number = self.lost()
        found = self.judged(made[:-2], {number: 10})
        self.assertEqual((found.status(), found.limit), (0, None))


class Ends(unittest.TestCase):
    """What comes after the end of a direction, and connections that both ends open."""

    def test_octets_after_the_end(self):
        """Nobody receives them: FIN was none, or they are of a connection whose beginning was lost."""
        made = Frames().open().talk().put("left", flags=FIN | ACK)
        made.next["left"] -= 1
        stream = stream_of(made.send("left", data(b"\1\0\1\0more")).frames)
        self.assertEqual(str(stream.gap()), "frame 11, in which left sent octets after its end (FIN)")
        self.assertEqual([piece.octets for _, piece in stream.by_side()][-1], DT)
        late = made.frames[:9] + [made.frames[10], made.frames[9]]
        self.assertEqual([piece.octets for _, piece in stream_of(late).by_side()][-1][-4:], b"more")

    def test_an_end_of_another_connection(self):
        made = Frames().open().talk().put("left", flags=FIN | ACK, sequence=FIRST["left"] - 5_000)
        made.next["left"] -= 1
        lost = made.talk().send("left", DT).frames
        stream = stream_of(lost[:-3] + lost[-2:])
        self.assertEqual((str(stream.gap())), f"frame 11, where left lost {len(DT)} octets")

    def test_octets_that_wait_when_the_end_is_known(self):
        made = Frames().open()
        start = made.next["left"]
        made.put("left", DT + DT, PUSH | ACK, sequence=start + len(DT)).put("left", flags=FIN | ACK, sequence=start + 2 * len(DT))
        stream = stream_of(made.put("left", DT, PUSH | ACK, sequence=start).frames)
        self.assertEqual(in_turns((side, piece.octets) for side, piece in stream.by_side())[-1], ("left", DT + DT))
        self.assertEqual(str(stream.gap()), "frame 8, in which left sent octets after its end (FIN)")

    def test_two_answers_to_the_call(self):
        """Of two servers, or of one and a firewall: the first isn't that which the caller takes."""
        made = Frames().open().talk().close().frames
        for more in (-10_000_000, 10_000_000, 2 ** 31 - 9):
            other = Frames().put("left", flags=SYN).put("right", flags=SYN | ACK, sequence=FIRST["right"] + more).frames[1]
            for both in (made[:1] + [other] + made[1:], made[:2] + [other] + made[2:]):
                self.assertTrue(is_beginning(in_turns((side, piece.octets) for side, piece in stream_of(both).by_side()),
                                             in_turns(whole()[1])), more)
        self.assertEqual(in_turns((side, piece.octets) for side, piece in stream_of(both).by_side()), in_turns(whole()[1]))

    def test_both_ends_call_at_once(self):
        made = Frames().put("left", flags=SYN).put("right", flags=SYN)
        for side in streams.SIDES:
            made.put(side, flags=SYN | ACK, sequence=FIRST[side])
            made.next[side] -= 1
        made.send("right", CR).send("left", CC).send("right", CN).send("left", AC)
        stream = stream_of(made.frames)
        self.assertIsNone(asking.why_not(stream))
        self.assertEqual([side for side, _ in stream.by_side()], ["left", "right"] * 2)
        self.assertEqual(stream.by_end()["left"], ("192.0.2.2", 102))

    def test_octets_that_are_sent_again_as_others_after_the_stream_is_over(self):
        made = Frames().open().talk()
        start = made.next["left"]
        with mock.patch.object(streams, "MOST_WAITING", 10):
            made.put("left", DT, PUSH | ACK, sequence=start + 500).put("left", b"others", PUSH | ACK, sequence=start - len(DT))
            stream = stream_of(made.frames)
        self.assertEqual(str(stream.gap()), "frame 8, whose octets left sent again as others in frame 11")
        self.assertEqual(in_turns((side, piece.octets) for side, piece in stream.by_side())[-1], ("right", AC))


if __name__ == "__main__":
    unittest.main()
