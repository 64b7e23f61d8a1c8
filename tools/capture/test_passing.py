"""Tests of what passes in which order, of gaps and of streams from the middle, over segments that tests make, without tshark."""
import contextlib
import io
import os
import random
import tempfile
import unittest
from unittest import mock

from ladders import reading, script, tapped
from ladders.program import main as ladder

from . import asking, judging, kinds, listing, middle, outcome, program, streams, tshark
from .tshark import BadInput
from .test_frames import (AA, AB, AC, ACK, CC, CN, CR, DT, FIN, FIRST, FN, MIP, PUSH, RESET, SYN, TOKENS, Frames, data, packet,
                          pcap_of, segment_of, stream_of, whole)

BUILT = (os.path.join(script.TOP, "crates", "osi_tool", "out", *place) for place in (("osi_tool",), ("unproved", "osi")))
OSI = next((place for place in BUILT if os.path.exists(place)), None)
needs_osi = unittest.skipUnless(OSI, "the program osi is not built")


def passed(stream):
    """What passed: the side and the octets of each piece."""
    return [(side, piece.octets) for side, piece in stream.by_side()]


def judged(frames, cut=None):
    """What is printed of a stream."""
    stream = stream_of(frames, cut)
    asked = mock.Mock(show=False, upper=False, pictures=None, files=["run.pcap"])
    return judging.told(stream, asked, OSI, judging.Progress(io.StringIO(), "judge"), "run.pcap")


def call(frames, *words, cut=None):
    """The status of the program over frames, and what it wrote; tshark isn't run."""
    out, err = io.StringIO(), io.StringIO()
    if frames and not isinstance(frames[0], list):
        frames = [frames]
    segments = []
    for number, each in enumerate(frames):
        for place, frame in enumerate(each, 1):
            segments.append(segment_of(place, frame, cut))
            segments[-1].stream = number
    told = mock.patch.object(tshark, "segments", lambda path, name=None: iter(segments))
    with contextlib.redirect_stdout(out), contextlib.redirect_stderr(err), told:
        status = program.main([words[0], "run.pcap", *words[1:], *(("--osi", OSI) if words[0] in ("judge", "show") else ())])
    return status, out.getvalue(), err.getvalue()


class Order(unittest.TestCase):
    """What a segment acknowledges had passed before it, whatever the order of the file."""

    def moved(self, place, to):
        """The frames of a whole connection with one of them at another place."""
        frames = whole()[0]
        frames.insert(to, frames.pop(place))
        return frames

    def test_an_answer_that_is_captured_after_what_needs_it_comes_first(self):
        self.assertEqual(passed(stream_of(self.moved(4, 5))), whole()[1])

    def test_every_frame_may_be_captured_late(self):
        frames = whole()[0]
        for place in range(3, len(frames) - 4):
            for to in range(place, min(place + 3, len(frames) - 4)):
                self.assertEqual(passed(stream_of(self.moved(place, to))), whole()[1], (place, to))

    def test_frames_of_several_queues(self):
        """Each frame may come as much as four places late."""
        chance = random.Random(1)
        for _ in range(300):
            frames = Frames().open().talk(20).close().frames
            places = sorted(range(3, len(frames)), key=lambda place: place + chance.random() * 4)
            mixed = frames[:3] + [frames[place] for place in places]
            wanted = passed(stream_of(frames))
            self.assertEqual(passed(stream_of(mixed)), wanted)

    def test_octets_that_acknowledge_each_other(self):
        """The first copy of the CC is not in the file; the second one acknowledges the CN, which acknowledges it. If the first copy of
        both may be missing, nobody knows which came first."""
        made = Frames().begin().send("left", CR)
        answer = made.next["right"]
        made.next["right"] += len(CC)
        made.send("left", CN)
        made.put("right", CC, PUSH | ACK, sequence=answer)
        made.next["right"] = answer + len(CC)
        made.send("right", AC)
        stream = stream_of(made.frames)
        self.assertEqual(passed(stream), [("left", CR)])
        said = "frame 5, which acknowledges octets that are here only as right sent them again, in frame 6"
        self.assertEqual(str(stream.gap()), said)

    def test_the_end_of_a_direction_is_acknowledged_too(self):
        made = Frames().open().put("right", flags=FIN | ACK).send("left", DT).put("left", flags=FIN | ACK)
        self.assertEqual(passed(stream_of(made.frames))[-1], ("left", DT))
        without = [frame for frame in made.frames if frame != made.frames[7]]
        stream = stream_of(without)
        self.assertEqual((passed(stream)[-1], str(stream.gap())), (("right", AC), "frame 8, where right lost 1 octet"))

    def test_what_a_reset_acknowledges_need_not_have_been_sent(self):
        made = Frames().open().put("left", flags=RESET | ACK, acknowledged=99_999)
        self.assertIsNone(stream_of(made.frames).gap())

    @needs_osi
    def test_no_side_is_blamed_for_the_order_of_the_file(self):
        for place, to in ((4, 5), (3, 4), (6, 7)):
            self.assertEqual(judged(self.moved(place, to)).status, 0, (place, to))


class Gaps(unittest.TestCase):
    """A lost segment ends what can be judged, and not before."""

    def lossy(self, *lost):
        """A connection with a break by left in its last frame of data, without some of its frames."""
        frames = Frames().open().talk(3).send("left", MIP).talk().frames
        return [frame for place, frame in enumerate(frames, 1) if place not in lost]

    def test_a_stream_is_read_up_to_a_lost_segment(self):
        stream = stream_of(self.lossy(10))
        self.assertEqual(passed(stream)[-2:], [("left", DT), ("right", DT)])
        self.assertEqual(str(stream.gap()), f"frame 10, where left lost {len(DT)} octets")

    def test_what_acknowledges_lost_octets_is_left_out(self):
        stream = stream_of(self.lossy(9))
        self.assertEqual(passed(stream)[-1], ("left", DT))
        self.assertEqual((stream.gap().side, stream.gap().octets, stream.gap().frame), ("right", len(DT), 9))

    def test_lost_octets_that_are_only_acknowledged_are_known(self):
        made = Frames().open()
        made.next["right"] += 1_460
        made.put("left")
        gap = stream_of(made.frames).gap()
        self.assertEqual((str(gap)), "frame 8, where right lost 1,460 octets")

    def test_frames_that_were_cut_are_named(self):
        frames = Frames().open().send("left", data(TOKENS + TOKENS + bytes(200))).frames
        gap = stream_of(frames, 54).gap()
        self.assertEqual(str(gap), "frame 6, where left lost 7 octets (frames were cut at 54 octets)")

    @needs_osi
    def test_the_verdict_is_that_of_what_passed_before(self):
        report = judged(self.lossy(9))
        self.assertEqual((report.status, report.judged.is_kept()), (3, True))
        self.assertIn(f"judged up to frame 9, where right lost {len(DT)} octets", report.lines())

    @needs_osi
    def test_a_break_that_was_found_stays_found(self):
        report = judged(self.lossy(15))
        self.assertEqual((report.status, report.judged.verdict.first), (1, "left"))
        self.assertIn("judged up to frame 15", report.lines()[-2])

    @needs_osi
    def test_no_loss_of_one_frame_blames_anybody(self):
        frames = Frames().open().talk(4).close().frames
        for place in range(len(frames)):
            found = judged(frames[:place] + frames[place + 1:])
            self.assertIn(found.status, (0, 3), (place, found.lines()))

    @needs_osi
    def test_a_file_of_one_direction_says_so(self):
        for left in (True, False):
            frames = [frame for frame in whole()[0] if (frame[12:16] == bytes((192, 0, 2, 1))) == left]
            report = judged(frames)
            self.assertEqual(report.why, "only one direction is here")

    def test_a_file_of_one_direction_is_listed_whole(self):
        """However many octets of the other side are acknowledged in it; with the first segments and without."""
        for side, address in (("left", bytes((192, 0, 2, 1))), ("right", bytes((192, 0, 2, 2)))):
            frames = [frame for frame in whole()[0] if frame[12:16] == address]
            wanted = [(each, octets) for each, octets in whole()[1] if each == side]
            for made in (frames, frames[1:]):
                stream = stream_of(made)
                self.assertEqual([(each, piece.octets) for each, piece in stream.by_side()], wanted)
                self.assertEqual((asking.why_not(stream), stream.gap()), ("only one direction is here", None))
            lost = stream_of(frames[:4] + frames[5:])
            self.assertRegex(str(lost.gap()), f"where {side} lost [0-9]+ octets")

    def test_a_side_that_sent_nothing_is_named(self):
        """Both directions are here, so it isn't said that only one is."""
        for made, side in ((Frames().begin().send("left", CR).put("right", flags=RESET | ACK), "right"),
                           (Frames().begin().send("right", CC).put("left"), "left")):
            self.assertEqual(asking.why_not(stream_of(made.frames)), f"{side} sent nothing")

    @needs_osi
    def test_a_stream_whose_answers_are_all_lost_is_not_judged(self):
        frames = [frame for frame in whole()[0] if frame[12:16] == bytes((192, 0, 2, 1)) or len(frame) == 40]
        report = judged(frames)
        self.assertRegex(report.why, "^the first [0-9]+ octets of right are lost, at frame [0-9]+$")


class Turns:
    """Two ends that give the data token to each other, seen between them: each sends only when it has received the token. Segments have
    the times at which they pass the tap, and any number of them may be sent again with what its sender has received by then."""

    def __init__(self, chance):
        self.chance, self.frames, self.now, self.seen = chance, Frames(mtu=chance.choice((1, 3, 20, 1_400))), 0.0, []
        self.late = {side: chance.random() + 0.1 for side in streams.SIDES}
        self.frames.begin()
        half = [data(bytes([code]) + bytes.fromhex("0c050613010016010214020001")) for code in (13, 14)]
        for side, octets in (("left", CR), ("right", CC), ("left", half[0]), ("right", half[1])):
            self.turn(side, octets)
        for place in range(chance.randrange(3, 8)):
            self.turn(streams.SIDES[place % 2], *[DT] * chance.randrange(3), data(bytes.fromhex("0103100101")))

    def turn(self, side, *packets):
        """One end sends; the other one has received all of it before its own turn."""
        first = len(self.frames.frames)
        self.frames.send(side, *packets)
        for frame in self.frames.frames[first:]:
            for late in (0.0, *([self.chance.random() * 3] if self.chance.random() < 0.2 else [])):
                self.seen.append((self.now + self.late[side] + late, len(self.seen), frame))
            self.now += self.chance.random() / 4
        self.now += sum(self.late.values()) + self.chance.random()

    def captured(self, disorder=0, loss=0.0):
        """The frames as a tap writes them."""
        frames = self.frames.frames[:3] + [frame for _, _, frame in sorted(self.seen)]
        order = sorted(range(len(frames)), key=lambda place: place + self.chance.random() * disorder)
        return [frames[place] for place in order if self.chance.random() >= loss]


class Innocents(unittest.TestCase):
    """No end is blamed for what the network and the tap did."""

    def innocent(self, frames, status=0, text="both kept the protocol"):
        """The lines on a stream of frames, which blame nobody."""
        report = judged(frames)
        self.assertEqual((report.status if report.judged else 2, text in "\n".join(report.lines())), (status, True), report.lines())

    @needs_osi
    def test_octets_that_came_damaged_and_were_sent_again(self):
        """A frame was damaged on its way, and its receiver threw it away: the tap has both copies."""
        for damaged in (b"\3\0\0\x0f\2\xf0\x80\1\0\1\0rexd", DT[:4] + b"\xff" + DT[5:], bytes(len(DT))):
            made = Frames().open().talk()
            start = made.next["left"]
            made.put("left", damaged, PUSH | ACK).put("left", DT, PUSH | ACK, sequence=start)
            made.next["left"] = start + len(DT)
            frames = made.send("right", DT).close().frames
            self.innocent(frames, 3, "judged up to frame 10, whose octets left sent again as others in frame 11")

    @needs_osi
    def test_damaged_octets_in_larger_and_smaller_segments(self):
        made = Frames().open()
        start = made.next["right"]
        made.put("right", DT + b"damaged" + DT[7:], PUSH | ACK).put("right", DT, PUSH | ACK, sequence=start)
        made.put("right", DT, PUSH | ACK, sequence=start + len(DT))
        made.next["right"] = start + 2 * len(DT)
        self.innocent(made.frames, 3, "judged up to frame 8, whose octets right sent again as others in frame 10")
        made = Frames().begin().put("left", bytes(len(CR)), PUSH | ACK).put("left", CR, PUSH | ACK, sequence=FIRST["left"] + 1)
        report = judged(made.send("right", CC).frames)
        self.assertEqual(report.judged, None, report.lines())

    @needs_osi
    def test_a_break_before_octets_that_differ_stays_found(self):
        made = Frames().open().send("left", MIP)
        start = made.next["right"]
        made.put("right", bytes(len(DT)), PUSH | ACK).put("right", DT, PUSH | ACK, sequence=start)
        self.assertEqual(judged(made.frames).status, 1)

    @needs_osi
    def test_keepalives_with_an_octet_and_without(self):
        for octets in (b"", b"\0"):
            made = Frames().open().talk()
            for side in ("left", "right", "left"):
                made.put(side, octets, sequence=made.next[side] - 1)
                made.next[side] -= len(octets)
            self.innocent(made.talk().close().frames)

    @needs_osi
    def test_the_text_in_a_reset_is_no_part_of_what_was_sent(self):
        self.innocent(Frames().open().talk().put("right", b"Connection reset by the firewall", RESET | ACK).frames)

    @needs_osi
    def test_a_connection_that_begins_anew_over_one_that_is_half_open(self):
        """The client was switched off, and calls from the same port; the server acknowledges what it knows, and is reset."""
        made = Frames().put("left", flags=SYN)
        made.put("right", sequence=77_777_777, acknowledged=2_000_000_000).put("left", flags=RESET, sequence=2_000_000_000)
        made.next["left"] -= 1
        self.innocent(made.begin().send("left", CR).send("right", CC).send("left", CN).send("right", AC).close().frames)

    @needs_osi
    def test_what_began_before_the_capture_with_other_connections_in_class_2(self):
        """The first octets that were captured are the CR of a second connection, or its answer."""
        request, answer = (packet(bytes.fromhex(each)) for each in ("09e40000000320c0010a", "09d40003000420c0010a"))
        other = packet(bytes.fromhex("04f0000280") + b"\1\0\1\0read")
        for sent in ((("left", request), ("right", other)), (("left", request), ("right", answer), ("left", other))):
            made = Frames()
            for side, octets in sent:
                made.send(side, octets)
            report = judged(made.frames)
            self.assertRegex(report.why or "", "^begins in the middle")

    @needs_osi
    def test_a_connection_whose_first_segments_are_missing_is_judged_in_class_0(self):
        self.innocent(whole()[0][3:])

    @needs_osi
    def test_the_same_frames_before_and_after_a_router(self):
        self.innocent([each for frame in whole()[0] for each in (frame, frame[:8] + bytes([frame[8] - 1]) + frame[9:])])

    @needs_osi
    def test_overlapping_copies_with_the_same_octets(self):
        for seed in range(12):
            chance, made = random.Random(seed), Frames().open()
            frames, start = made.frames, dict(made.next)
            sent = {side: [] for side in streams.SIDES}
            for _ in range(6):
                for side in streams.SIDES:
                    sent[side].append(DT)
                    made.send(side, DT)
                    octets, back = b"".join(sent[side]), chance.randrange(1, 40)
                    at = max(len(octets) - back, 0)
                    made.frames.append(made.segment(side, octets[at:at + chance.randrange(1, 30)], PUSH | ACK, start[side] + at))
            self.innocent(frames)

    @needs_osi
    def test_segments_as_long_as_a_card_takes_them(self):
        much = b"".join([DT] * 4_000)
        made = Frames(mtu=65_000).open().send("left", much).send("right", much).close()
        self.innocent(made.frames)

    @needs_osi
    def test_nobody_is_blamed_for_disorder_copies_and_losses(self):
        for seed in range(16):
            chance = random.Random(seed)
            for disorder, loss, wanted in ((0, 0, (0,)), (6, 0, (0,)), (6, 0.1, (None, 0, 3))):
                frames = Turns(chance).captured(disorder, loss)
                found = judged(frames)
                self.assertIn(found.status, wanted, (seed, disorder, loss, found.lines()))


class Middles(unittest.TestCase):
    """A stream that began before the capture."""

    def test_it_is_listed_from_the_first_packets_that_follow_one_another(self):
        frames = Frames(mtu=9).open().talk(3).frames
        for skipped in range(4, 20):
            stream = stream_of(frames[skipped:])
            view = asking.viewed(stream)
            self.assertIsInstance(view, middle.Middle)
            for side in streams.SIDES:
                octets = b"".join(piece.octets for where, piece in view.by_side() if where == side)
                self.assertEqual([at for at, length in streams.packets(octets) if not streams.is_packet(octets[at:])], [], (skipped, side))
            self.assertIn("begins in the middle, at frame ", asking.why_not(stream))

    def test_octets_that_look_like_a_header_are_none_without_another_after_them(self):
        piece = streams.Piece(1, 0.0, 0, b"\3\0\0\x10\2\xf0\x80" + bytes(30))
        self.assertIsNone(middle.begin_of([piece]))
        self.assertEqual(middle.begin_of([streams.Piece(1, 0.0, 0, b"xx"), streams.Piece(2, 0.0, 2, DT + DT)]), 2)

    @needs_osi
    def test_it_is_listed_and_not_judged(self):
        frames = Frames().open().talk(3).frames[7:]
        status, out, _ = call(frames, "judge", "--show")
        self.assertEqual((status, out.splitlines()[0].endswith("not judged: begins in the middle, at frame 1")), (2, True))
        self.assertIn("DT octets 4", out)
        self.assertIn("begins in the middle, at frame 1", call(frames, "list")[1])
        self.assertTrue(call(frames, "show")[1].startswith("begins in the middle, at frame 1\n"))

    def test_the_rest_of_a_tsdu_is_no_fault(self):
        """Of the first TSDU of each direction, and in class 2 of each reference; later ones, and those of transport, no history excuses."""
        rows = ["packet 0 length 31 code f0", "  DT number 0 eot 0 octets 24",
                "packet 31 length 31 code f0", "  DT number 0 eot 1 octets 24", "    tsdu 48", "    fault 0 UnknownSi",
                "packet 62 length 10 code f0", "  DT number 0 eot 1 octets 3", "    tsdu 3", "    fault 0 UnknownSi",
                "packet 72 length 7 code 33", "  fault 1 UnknownCode"]
        wanted = [*rows[:5], listing.REST, *rows[6:]]
        self.assertEqual(list(listing.from_middle(rows)), wanted)
        both = [row for reference in ("0001", "0002") for row in
                (f"  DT dst {reference} number 0 eot 1 octets 3", "    fault 1 LengthPastEnd 2")]
        self.assertEqual(list(listing.from_middle(both + both)), [both[0], listing.REST, both[2], listing.REST, *both])

    @needs_osi
    def test_a_capture_that_begins_within_a_tsdu(self):
        parts = [packet(b"\x02\xf0" + (b"\x80" if last else b"\0") + bytes(range(40, 90))) for last in (False, False, True)]
        made = Frames().open().send("right", *parts).talk(2).send("right", data(b"\x77\0")).put("left").frames[8:]
        shown = call(made, "show")[1]
        self.assertEqual((shown.count("perhaps the rest of a TSDU"), shown.count("fault 0 UnknownSi")), (1, 1))
        source = reading.of_network(middle.Middle(stream_of(made)), False)
        self.assertIn("perhaps the rest", source.listed({"left": "", "right": "\n".join(listing.shown(OSI, tapped.octets_of(
            source.pieces, "right")))})["right"])


class Ladders(unittest.TestCase):
    """osi-ladders draws a stream as osi-capture reads it."""

    @needs_osi
    def test_a_stream_from_the_middle_and_one_with_a_gap(self):
        frames = Frames().open().talk(3).frames
        for made, said in ((frames[7:], "The stream begins in the middle, at frame 1."),
                           (frames[:9] + frames[10:], f"Shown up to frame 10, where left lost {len(DT)} octets.")):
            with tempfile.TemporaryDirectory() as room:
                name = os.path.join(room, "run.pcap")
                with open(name, "wb") as file:
                    file.write(pcap_of(made))
                self.assertEqual(ladder(["--osi", OSI, name, "-o", f"{name}.svg"]), 0)
                with open(f"{name}.svg", encoding="utf-8") as file:
                    drawn = file.read()
            self.assertIn(said, drawn)
            self.assertIn("DT", drawn)


class Programs(unittest.TestCase):
    """Which program `osi` is run."""

    def test_it_is_that_of_the_repository_or_beside_the_scripts_or_on_the_path(self):
        with tempfile.TemporaryDirectory() as room, mock.patch.object(script, "TOP", os.path.join(room, "share")):
            self.assertEqual(listing.program(None), "osi")
            for name in (os.path.join(room, "bin", "osi"), os.path.join(room, "share", "osi")):
                os.makedirs(os.path.dirname(name), exist_ok=True)
                with open(name, "w", encoding="ascii"):
                    pass
                os.chmod(name, 0o755)
                self.assertEqual(listing.program(None), name)
            self.assertEqual(listing.program("other"), "other")


class Kinds(unittest.TestCase):
    """What is no session is not judged."""

    def kind(self, *sent):
        return kinds.of(stream_of(self.frames(*sent)))

    @staticmethod
    def frames(*sent):
        made = Frames().begin()
        for side, octets in sent:
            made.send(side, octets)
        return made.frames

    def test_other_protocols_are_named(self):
        opened = ("left", CR), ("right", CC)
        cookie = packet(bytes.fromhex("27e00000000000") + b"Cookie: mstshash=user\r\n" + bytes.fromhex("0100080003000000"))
        for sent, wanted in (
                ((*opened, ("left", data(bytes.fromhex("32010000")))), "S7comm"),
                ((*opened, ("left", data(bytes.fromhex("72010000")))), "S7comm-plus"),
                ((*opened, ("left", data(bytes.fromhex("7f658201")))), "RDP (T.125)"),
                ((*opened, ("left", b"\x16\3\1\0\x20")), "TLS"),
                ((("left", packet(bytes.fromhex("0ee000000000000100080003000000"))),), "RDP"),
                ((("left", cookie),), "RDP"),
                ((("left", CR), ("right", packet(bytes.fromhex("0ed000001234000200080001000000")))), "RDP"),
                ((("left", packet(bytes.fromhex("080200010504038090a5"))),), "Q.931 (H.225)"),
                ((("left", packet(b"MEGACO/1 [192.0.2.1]:2944")),), "MEGACO"),
                ((("left", packet(b"\5\5\5\5\5")),), "TPKT without X.224"),
                ((*opened, ("left", data(b"\x60\x10"))), "a protocol whose data begins with 6010")):
            self.assertEqual(self.kind(*sent), wanted, sent)

    def test_sessions_are_no_other_protocol(self):
        for frames in (whole()[0], self.frames(("left", CR)), self.frames(("left", CR), ("right", CC)),
                       self.frames(("left", CR), ("right", CC), ("left", CN), ("right", data(b"\x32\1\0\0"))),
                       self.frames(("left", CR), ("right", CC), ("left", data(b"\x60\x10")), ("right", AB)),
                       self.frames(("left", CR), ("right", packet(b"\5\5\5\5\5"))),
                       self.frames(("left", CR), ("right", CC), ("left", b"garbage"))):
            self.assertIsNone(kinds.of(stream_of(frames)))

    @needs_osi
    def test_they_are_not_judged(self):
        status, out, _ = call(self.frames(("left", CR), ("right", CC), ("left", data(bytes.fromhex("32010000")))), "judge")
        self.assertEqual((status, "not judged: S7comm, not a session" in out), (2, True))


class Frame(unittest.TestCase):
    """The frame of a fault that begins no packet is the frame of that octet."""

    @needs_osi
    def test_it_is_named_in_the_sentence_the_listing_and_the_ladder(self):
        frames = Frames().open().talk().send("left", b"garbage").talk(2).frames
        report = judged(frames)
        self.assertEqual(report.judged.place()[0], 10)
        said = f"left broke the protocol first, at its octet {len(CR + CN + DT)}. No packet begins there: its first octet (hexadecimal 67)"
        self.assertIn(said, report.lines()[-2])
        rows = call(frames, "judge", "--show")[1].splitlines()
        self.assertEqual([row.split()[0] for row in rows if " fault " in row], ["10"])
        pieces = report.judged.pieces
        listings = {side: script.run(OSI, "show", b"".join(it.octets for it in pieces if it.side == side).hex()) for side in streams.SIDES}
        steps = tapped.steps_of(pieces, listings)
        self.assertEqual([step.piece.frame for step in steps if step.packet.lines[0].startswith("fault")], [10])


class Outcomes(unittest.TestCase):
    """How a stream ended."""

    def ended(self, made):
        stream = stream_of(made.frames)
        return [(each.how, each.text) for each in outcome.all_of(stream, list(stream.by_side()))]

    def test_each_end_is_named(self):
        refusal = packet(bytes.fromhex("068000010000") + b"\3")
        rf = data(bytes.fromhex("0c033201 81"))
        for made, wanted in (
                (Frames().begin().send("left", CR).send("right", refusal),
                 ("refused", "right refused the transport connection: DR reason 3, the address is unknown")),
                (Frames().begin().send("left", CR).send("right", CC).send("left", CN).send("right", rf),
                 ("refused", "right refused the session: RF reason 129, the session selector is unknown")),
                (Frames().open().send("left", AB).send("right", AA), ("aborted", "left aborted by its user: AB 17=03")),
                (Frames().open().send("right", data(bytes.fromhex("1903110105"))),
                 ("aborted", "right aborted by its session layer, protocol error: AB 17=05")),
                (Frames().open().send("left", FN), ("unanswered", "left asked for the release (FN), and there is no answer")),
                (Frames().open().send("left", packet(bytes.fromhex("068000000001") + b"\x80")),
                 ("closed", "left closed the transport connection: DR reason 128, by the session layer")),
                (Frames().open().talk().close(), ("released", "released: left asked for it (FN), right agreed (DN)"))):
            self.assertEqual(self.ended(made)[0], wanted)

    def test_an_answer_that_need_not_be_here(self):
        """It may be what the capture lost, or of the direction that isn't here."""
        frames = whole()[0]
        alone = stream_of([frame for frame in frames if frame[12:16] == bytes((192, 0, 2, 1))])
        lost = stream_of([frame for place, frame in enumerate(frames) if place != 10])
        for stream, limit in ((alone, None), (lost, "judged up to frame 12")):
            found = outcome.all_of(stream, list(stream.by_side()), limit)
            self.assertEqual((found[0].how, found[0].text), ("unanswered", "left asked for the release (FN)"))

    def test_how_tcp_ended_is_named(self):
        self.assertEqual(self.ended(Frames().open().talk().close())[-1], ("tcp closed", "left closed TCP"))
        self.assertEqual(self.ended(Frames().open().put("right", flags=RESET))[-1], ("tcp reset", "right reset TCP"))
        self.assertEqual(self.ended(Frames().open())[-1][0], "open")

    def test_since_when_nothing_passed(self):
        stream = stream_of(Frames().open().frames)
        stream.until = stream.last[1] + 60
        self.assertIn("60.000 seconds", outcome.of_tcp(stream).text)


class Status(unittest.TestCase):
    """The status of the program, and each stream by itself."""

    @needs_osi
    def test_the_four(self):
        kept, broke = whole()[0], Frames().open().send("left", MIP).frames
        foreign = Kinds.frames(("left", CR), ("right", CC), ("left", data(b"\x32\1\0\0")))
        for frames, wanted in (([kept], 0), ([kept, kept], 0), ([kept, broke, foreign], 1), ([foreign, kept], 3), ([foreign], 2)):
            self.assertEqual(call(frames, "judge")[0], wanted)

    @needs_osi
    def test_a_stream_that_is_too_long_to_be_listed_is_judged(self):
        with mock.patch.object(listing, "MOST_OCTETS", 40), tempfile.TemporaryDirectory() as room:
            status, out, _ = call(whole()[0], "judge", "--show", "--pictures", room)
        self.assertEqual((status, "both kept the protocol" in out, out.count("osi show lists at most 40")), (0, True, 2), out)

    @needs_osi
    def test_an_address_may_be_written_in_any_form(self):
        for text, wanted in (("192.0.2.1", "192.0.2.1"), ("2001:DB8:0::01", "2001:db8::1"), ("[2001:db8::1]", "2001:db8::1")):
            self.assertEqual(judging.address(text), wanted)
        with self.assertRaisesRegex(BadInput, "--host plant7: it is no address"):
            judging.address("plant7")

    def test_streams_and_hosts_are_chosen(self):
        frames = [whole()[0], whole()[0], whole()[0]]
        self.assertEqual(call(frames, "judge", "--stream", "0", "--stream", "2")[1].count("both kept"), 2)
        self.assertEqual(call(frames, "judge", "--host", "192.0.2.1")[1].count("both kept"), 3)
        self.assertEqual(call(frames, "judge", "--host", "192.0.2.9")[0], 2)

    @needs_osi
    def test_a_stream_that_is_not_there_keeps_no_other_from_its_verdict(self):
        for words, status, count in ((("--stream", "0", "--stream", "7"), 3, 1), (("--stream", "7"), 2, 0)):
            found, out, err = call([whole()[0], whole()[0]], "judge", *words)
            self.assertEqual((found, out.count("both kept"), err.count("run.pcap: stream 7 carries no TPKT\n")), (status, count, 1), err)
        status, out, err = call([whole()[0]], "judge", "other.pcap", "--stream", "0", "--stream", "7")
        self.assertEqual((status, out.count("both kept"), err.count("stream 7 carries no TPKT\n")), (3, 2, 2), err)


if __name__ == "__main__":
    unittest.main()
