"""Honest ends in nasty captures: whatever the network, the tap or another protocol did, no side is blamed. What passes is compared with
what was sent, without `osi`: if it is a part of it in its order, then no verdict on it blames an end that kept the protocol."""
import contextlib
import io
import itertools
import random
import struct
import types
import unittest
from unittest import mock

from . import asking, damage, directions, frames, judging, kinds, pcap, reports, streams, test_unsure, tshark, watching
from .test_frames import (AB, AC, ACK, CC, CN, CR, DT, ETHERNET, FIN, FIRST, IPV4, PUSH, RESET, SPACE, SYN, TOKENS, Frames, Room, data,
                          fragments, linked, packet, pcap_of, segment_of, stream_of, whole)
from .test_unsure import blamed, flagged, in_turns, is_beginning, sure


class Run:
    """Two ends that take turns: each sends only when it has received all that the other one sent. What is sent again has any boundaries,
    and acknowledges what its sender had received by then. A keepalive has an octet that means nothing."""

    def __init__(self, chance, again=0.2, keepalives=0.0):
        first = chance.choice((FIRST, {"left": SPACE - chance.randrange(90), "right": SPACE - chance.randrange(60)}))
        self.chance, self.again, self.keepalives = chance, again, keepalives
        self.frames = Frames(first, mtu=chance.choice((1, 3, 20, 1_400)))
        self.now, self.seen, self.sent, self.before = 0.0, [], [], None
        self.late = {side: chance.random() + 0.1 for side in streams.SIDES}
        self.frames.begin()
        for side, octets in (("left", CR), ("right", CC), ("left", CN), ("right", AC)):
            self.turn(side, octets)
        for place in range(chance.randrange(3, 8)):
            noise = bytes(chance.randrange(256) for _ in range(chance.randrange(1, 30)))
            self.turn(streams.SIDES[place % 2], *[data(TOKENS + TOKENS + noise)] * chance.randrange(1, 3))

    def pass_tap(self, side, frame, time):
        """A frame passes the tap, on its way from a side."""
        self.seen.append((time + self.late[side], len(self.seen), frame))

    def turn(self, side, *packets):
        """One end sends, and the other one acknowledges it at once or with its own turn."""
        made, octets, far = self.frames, b"".join(packets), streams.SIDES[side == "left"]
        begun = len(made.frames)
        made.send(side, *packets)
        start = (made.next[side] - len(octets)) % SPACE
        for frame in made.frames[begun:]:
            self.pass_tap(side, frame, self.now)
            self.now += self.chance.random() / 4
        there = self.now + sum(self.late.values())
        is_quiet = self.chance.random() < self.keepalives
        if is_quiet or self.chance.random() < 0.5:
            self.pass_tap(far, made.segment(far), there)
        if self.chance.random() < self.again:
            first = self.chance.randrange(len(octets))
            part = octets[first:self.chance.randrange(first, len(octets)) + 1]
            self.pass_tap(side, made.segment(side, part, PUSH | ACK, (start + first) % SPACE), self.now + self.chance.random() * 3)
        if self.before and self.chance.random() < self.again:
            self.repeat(far, there, *self.before)
        self.before, self.now = (octets, start), there + self.chance.random()
        if is_quiet:
            self.pass_tap(side, made.segment(side, b"\0", ACK, (made.next[side] - 1) % SPACE), self.now + 5)
            self.now += 6
        self.sent.append((side, octets))

    def repeat(self, side, time, octets, start):
        """An end sends its turn again, after it has received the answer."""
        for first in range(0, len(octets), self.frames.mtu):
            part = octets[first:first + self.frames.mtu]
            self.pass_tap(side, self.frames.segment(side, part, PUSH | ACK, (start + first) % SPACE), time + self.chance.random() / 10)

    def captured(self, disorder=0.0, loss=0.0):
        """The stream of what a tap writes: each frame as much as some seconds late, or not at all."""
        seen = [(0.0, 0, frame) for frame in self.frames.frames[:3]] + \
            sorted(self.seen, key=lambda each: (each[0] + self.chance.random() * disorder, each[1]))
        found = [segment_of(place, frame) for place, (_, _, frame) in enumerate(seen, 1) if self.chance.random() >= loss]
        for segment in found:
            segment.time = 1_000 + seen[segment.frame - 1][0]
        return streams.joined(found).get(0)


class Turns(unittest.TestCase):
    """Any honest run, in any capture, is read as its beginning."""

    def test_disorder_losses_copies_and_keepalives(self):
        for seed in range(60):
            run = Run(random.Random(seed), keepalives=(seed % 3 == 0) / 3)
            for disorder, loss in ((0, 0), (0.3, 0), (0, 0.1), (0, 0.3), (0.9, 0.1), (0.9, 0.3)):
                stream = run.captured(disorder, loss)
                if stream is None or asking.why_not(stream):
                    self.assertTrue(loss, seed)
                    continue
                found = in_turns((side, piece.octets) for side, piece in stream.by_side())
                self.assertTrue(is_beginning(in_turns(sure(stream)), run.sent), (seed, disorder, loss))
                if not loss:
                    self.assertEqual((found, stream.gap()), (run.sent, None), (seed, disorder))


class Honest(Room):
    """Captures in which something else went wrong than a protocol."""

    def beginning(self, made, wanted=None, gap=None, is_whole=False):
        """What passed in frames is the beginning of what was sent; and how it is said that there is more."""
        stream = made if isinstance(made, streams.Stream) else stream_of(made)
        found = in_turns((side, piece.octets) for side, piece in stream.by_side())
        wanted = in_turns(wanted or whole()[1])
        self.assertTrue(asking.why_not(stream) or is_beginning(found, wanted), found)
        if is_whole:
            self.assertEqual((found, stream.gap()), (wanted, None))
        if gap:
            self.assertRegex(str(stream.gap()), gap)
        return stream

    def test_octets_that_came_damaged_and_are_sent_again_late(self):
        """However many others passed since then: they aren't acknowledged, so they may come again."""
        made = Frames().open()
        start = made.next["left"]
        made.put("left", bytes(len(DT)), PUSH | ACK)
        for _ in range(2_000):
            made.put("left", bytes(200) + DT, PUSH | ACK)
        end = made.next["left"]
        made.put("left", DT, PUSH | ACK, sequence=start)
        made.next["left"] = end
        stream = stream_of(made.frames)
        self.assertEqual(str(stream.gap()), "frame 8, whose octets left sent again as others in frame 2009")
        self.assertEqual(in_turns((side, piece.octets) for side, piece in stream.by_side())[-1], ("right", AC))

    def test_octets_that_are_forgotten(self):
        """A watch keeps what isn't acknowledged, up to a bound; what is sent again beyond it isn't known to be the same."""
        made = Frames().open().talk()
        stream = self.taken(made)
        start = made.next["left"]
        for _ in range(400):
            self.taken(made.put("left", DT, PUSH | ACK), stream)
        self.assertLessEqual(stream.directions[("192.0.2.1", 40_000)].starts[0], len(CR + CN))
        with mock.patch.object(directions, "IN_FLIGHT", 1_000), mock.patch.object(directions, "SPARE", 100):
            self.taken(made.put("left", DT, PUSH | ACK), stream)
            self.taken(made.put("left", DT, PUSH | ACK, sequence=start), stream)
        stream.finish()
        self.assertRegex(str(stream.gap()), "^frame [0-9]+, in which left sent octets again that are kept no longer$")
        made.next["left"] = start + 401 * len(DT)

    def taken(self, made, stream=None):
        """The stream of frames, which forgets what passed; the frames are taken from what is made."""
        for number, frame in enumerate(made.frames, 1):
            segment = segment_of(number, frame)
            stream = stream or streams.Stream(0, (segment.source, segment.target))
            stream.take(segment)
            stream.forget()
        made.frames.clear()
        return stream

    def test_what_is_acknowledged_is_forgotten(self):
        made = Frames().open()
        stream = self.taken(made)
        for _ in range(3_000):
            self.taken(made.talk(), stream)
        for direction in stream.directions.values():
            self.assertLess(len(direction.passed), 2 * directions.SPARE_SEGMENTS + 2)
            self.assertEqual(direction.forgotten, 0)

    def test_a_keepalive_whose_octet_is_lost(self):
        """The last segment has one octet and is lost; the keepalive has another one in its place."""
        made = Frames(mtu=len(DT) - 1).open().send("left", DT)
        made.frames.pop()
        made.put("right")
        first = len(made.frames)
        made.put("left", b"\0", sequence=made.next["left"] - 1)
        made.next["left"] -= 1
        made.send("right", DT)
        found = [segment_of(place, frame) for place, frame in enumerate(made.frames, 1)]
        for segment in found[first:]:
            segment.time += 10
        stream = streams.joined(found)[0]
        self.assertEqual([piece.octets for _, piece in stream.by_side()][-1], DT[:-1])
        self.assertEqual(str(stream.gap()), f"frame {first}, where left lost 1 octet")

    def test_a_probe_of_a_closed_window(self):
        """The probe has the next octet, which the receiver throws away; it comes again with those after it."""
        made = Frames().open().talk()
        for _ in range(3):
            made.put("left", DT[:1]).put("right")
            made.next["left"] -= 1
        self.beginning(made.talk().close().frames, [*whole()[1][:6], ("left", DT), ("right", DT), *whole()[1][6:]], is_whole=True)

    def test_copies_with_other_boundaries_and_overlaps(self):
        made = Frames().open()
        start, octets = made.next["left"], DT * 4
        for first, end in ((0, 20), (10, 30), (5, 12), (25, 60), (0, 60), (59, 60)):
            made.frames.append(made.segment("left", octets[first:end], PUSH | ACK, start + first))
        made.next["left"] = start + len(octets)
        made.send("right", DT)
        wanted = [*whole()[1][:4], ("left", octets), ("right", DT)]
        self.beginning(made.frames, wanted, is_whole=True)
        made.frames.append(made.segment("left", b"damaged" + octets[20:40], PUSH | ACK, start + 13))
        self.beginning(made.frames, wanted, "frame 8, whose octets left sent again as others in frame 15")

    def test_octets_with_the_first_segment(self):
        """TCP Fast Open: the server takes the octets, or it doesn't and they come again."""
        for is_taken in (True, False):
            made = Frames().put("left", CR, SYN)
            made.put("right", flags=SYN | ACK, acknowledged=made.next["left"] - (0 if is_taken else len(CR)))
            if not is_taken:
                made.next["left"] -= len(CR)
                made.send("left", CR)
            made.send("right", CC).send("left", CN).send("right", AC).talk().close()
            self.beginning(made.frames, is_whole=True)

    def test_a_reset_within_a_packet(self):
        for flags in (RESET, RESET | ACK):
            made = Frames().open().talk().put("left", DT[:7], PUSH | ACK).put("right", flags=flags)
            self.beginning(made.frames, [*whole()[1][:6], ("left", DT)])

    def test_a_reset_that_did_not_arrive(self):
        """A firewall's reset with a wrong number: the connection goes on."""
        made = Frames().open().put("right", b"go away", RESET | ACK, sequence=99)
        made.next["right"] -= 7
        self.beginning(made.talk().close().frames, is_whole=True)

    def test_ports_that_are_used_again_with_the_same_numbers(self):
        other = Frames().open().send("left", DT).send("right", data(TOKENS + TOKENS + b"no")).close()
        self.beginning(whole()[0] + other.frames, gap="whose octets right sent again as others")
        self.beginning(whole()[0] + whole()[0], is_whole=True)

    def test_cells_with_the_same_addresses(self):
        """Two machines with equal addresses and numbers, each in a VLAN of its own."""
        other = Frames().open().send("left", DT).send("right", data(TOKENS + TOKENS + b"no")).close().frames
        both = [linked(frame, ETHERNET, ((0x8100, tag),)) for pair in zip(whole()[0], other) for tag, frame in enumerate(pair, 7)]
        self.beginning(self.streams(pcap_of(both, ETHERNET))[0], gap="whose octets right sent again as others")

    def test_a_mirror_of_one_direction_that_sees_both_later(self):
        made = Frames().open().talk(3).close().frames
        for hidden in (bytes((192, 0, 2, 1)), bytes((192, 0, 2, 2))):
            for since in range(1, len(made)):
                seen = [frame for place, frame in enumerate(made) if place >= since or frame[12:16] != hidden]
                self.beginning(seen, [*whole()[1][:6], *whole()[1][4:6] * 2, *whole()[1][6:]])

    def test_a_capture_that_begins_anywhere(self):
        made = Frames(mtu=5).open().talk(2).close().frames
        for since in range(len(made)):
            found = streams.joined(segment_of(place, frame) for place, frame in enumerate(made[since:], 1))
            self.beginning(found[0], [*whole()[1][:6], *whole()[1][4:]])

    def test_every_two_frames_may_be_lost(self):
        made = Frames(first={"left": SPACE - 30, "right": SPACE - 40}, mtu=9).open().talk(1).close().frames
        for first in range(len(made)):
            for second in range(first):
                self.beginning([frame for place, frame in enumerate(made) if place not in (first, second)])

    def test_many_frames_in_a_row_may_be_lost_while_numbers_begin_anew(self):
        made = Frames(first={"left": SPACE - 60, "right": SPACE - 70}).open().talk(6).close().frames
        wanted = [*whole()[1][:6], *whole()[1][4:6] * 5, *whole()[1][6:]]
        for first in range(3, len(made)):
            self.beginning(made[:first] + made[first + 5:], wanted)

    def test_frames_of_which_only_the_long_ones_are_cut(self):
        made = Frames().open().talk().send("left", data(TOKENS + TOKENS + bytes(300))).send("right", DT).close().frames
        wanted = [*whole()[1][:6], ("left", data(TOKENS + TOKENS + bytes(300)))]
        path = pcap_of([linked(frame) for frame in made], ETHERNET, cut=128)
        self.beginning(self.streams(path)[0], wanted, r"frame 10, where left lost 237 octets \(frames were cut at 128 octets\)")

    def test_copies_with_another_tag_or_life(self):
        """A mirror of a trunk and of an access port: each frame twice, with and without a tag, the second one some frames late."""
        tagged = [linked(frame, ETHERNET, ((0x8100, 7),)) for frame in whole()[0]]
        plain = [linked(frame[:8] + bytes([frame[8] - 1]) + frame[9:]) for frame in whole()[0]]
        for late in (0, 1, 5):
            order = sorted([*enumerate(tagged), *((place + late + 0.5, each) for place, each in enumerate(plain))])
            self.beginning(self.streams(pcap_of([each for _, each in order], ETHERNET))[0], is_whole=True)

    def test_two_taps_in_one_file(self):
        """One at each machine, with clocks that differ: each sees all frames, in its own order."""
        for shift in (-6, -3, 3, 6):
            both = sorted([(place, frame) for place, frame in enumerate(whole()[0])] +
                          [(place + shift + 0.5, frame) for place, frame in enumerate(whole()[0])])
            self.beginning([frame for _, frame in both], is_whole=True)

    def test_one_direction_after_the_other(self):
        """Two files of one direction each, one behind the other."""
        made = whole()[0]
        for first in (bytes((192, 0, 2, 1)), bytes((192, 0, 2, 2))):
            self.beginning(sorted(made, key=lambda frame: frame[12:16] != first), is_whole=True)

    def test_a_mirror_in_a_tunnel_beside_the_frames_themselves(self):
        """The machine that captures sees each frame itself and a copy that a switch sends (ERSPAN), late or cut."""
        if not tshark.is_there():
            self.skipTest("tshark is not installed")
        made = whole()[0]
        for late, cut in ((0, None), (3, None), (-2, None), (0, 110)):
            both = sorted([*((place, 0, linked(frame)) for place, frame in enumerate(made)),
                           *((place + late, 1, linked(mirrored(frame, place)[:cut])) for place, frame in enumerate(made))])
            path = self.write(pcap_of([frame for _, _, frame in both], ETHERNET))
            self.beginning(asking.joined(path, path, 102)[0], is_whole=True)
            only = self.write(pcap_of([linked(mirrored(frame, place)) for place, frame in enumerate(made)], ETHERNET))
            self.beginning(asking.joined(only, only, 102)[0], is_whole=True)

    @staticmethod
    def multipath():
        """A connection whose first segments have the option of Multipath TCP."""
        made = whole()[0]
        for place in (0, 1):
            frame = made[place]
            option = b"\x01\x01\x1e\x0a\0\x81" + bytes(range(1, 9)) + b"\0\0"
            made[place] = frame[:2] + struct.pack(">H", len(frame) + len(option)) + frame[4:32] + b"\x90" + frame[33:] + option
        return made

    def test_octets_that_pass_in_other_streams(self):
        stream = self.streams(pcap_of(self.multipath()))[0]
        self.assertEqual(asking.why_not(stream), "Multipath TCP, so octets may pass in other streams")
        self.assertIsNone(asking.why_not(stream_of(whole()[0])))

    def test_times_out_of_order(self):
        chance = random.Random(1)
        times = [1_000_000_000 + chance.randrange(10 ** 9) for _ in whole()[0]]
        self.beginning(self.streams(pcap_of(whole()[0], times=times))[0], is_whole=True)

    def test_fragments_that_a_live_tap_leaves_out(self):
        reader = frames.Reader(True)
        parts = [part for place, frame in enumerate(whole()[0]) for part in (fragments(frame) if place == 7 else [frame])]
        self.beginning(streams.joined(reader.feed(pcap_of(parts)))[0], gap=f"where left lost {len(DT)} octets")
        self.assertRegex(reader.odd, "fragment")

    def test_data_that_is_sent_again_after_the_end(self):
        made = Frames().open().talk().close()
        made.put("left", DT, PUSH | ACK, sequence=FIRST["left"] + 1 + len(CR + CN))
        self.beginning(made.frames, is_whole=True)

    def test_an_end_that_was_damaged_on_its_way(self):
        """A frame says by a wrong flag that the direction ends there."""
        made = Frames().open().talk(2)
        frame = made.frames[-4]
        made.frames[-4] = frame[:33] + bytes([frame[33] | FIN]) + frame[34:]
        self.beginning(made.frames, [*whole()[1][:6], *whole()[1][4:6]])

    def test_a_firewall_that_changes_the_numbers(self):
        """Captured on both of its sides: each segment twice, with other numbers."""
        inner, outer = whole()[0], Frames(first={"left": 2_000_000_000, "right": 3_500_000_000}).open().talk().close().frames
        reader = frames.Reader(True)
        for stream in streams.joined(reader.feed(pcap_of([frame for pair in zip(inner, outer) for frame in pair]))).values():
            self.beginning(stream)

    def test_numbers_of_an_earlier_connection(self):
        made = Frames().open().talk()
        made.put("left", b"old octets", PUSH | ACK, sequence=FIRST["left"] + 1_000_000, acknowledged=FIRST["right"] - 1_000_000)
        made.next["left"] -= 10
        self.beginning(made.talk().close().frames, [*whole()[1][:6], *whole()[1][4:]])


def tunnelled(frame):
    """A datagram in a tunnel of GRE."""
    return struct.pack(">BBHHHBBH4s4s", 0x45, 0, 24 + len(frame), 0, 0, 64, 47, 0, *IPV4.values()) + b"\0\0\x08\0" + frame


def mirrored(frame, number):
    """A datagram in a frame of Ethernet that a switch sends to the machine that captures (ERSPAN of type II)."""
    head = b"\x10\0\x88\xbe" + struct.pack(">I", number) + bytes.fromhex("1007000700000001")
    inner = head + linked(frame)
    return struct.pack(">BBHHHBBH4s4s", 0x45, 0, 20 + len(inner), 0, 0, 64, 47, 0, bytes((10, 0, 0, 1)), bytes((10, 0, 0, 2))) + inner


def summed(frame):
    """A frame with its TCP checksum."""
    segment = frame[20:36] + b"\0\0" + frame[38:]
    return frame[:36] + struct.pack(">H", pcap.checksum(frame[12:20] + struct.pack(">HH", 6, len(segment)) + segment)) + frame[38:]


class Damaged(Room):
    """A frame that was damaged on its way, and of which no other copy is here."""

    def judged(self, made):
        """What is said of frames by a judge that blames whoever sends the word `wrong`."""
        path = self.write(pcap_of(made))
        stream = asking.found_in(path, 102)[0]
        return judging.Judged(stream, blamed)

    def test_its_sender_is_not_blamed(self):
        made = Frames().open().talk().send("left", data(b"\1\0\1\0wrong")).send("right", DT)
        right = [summed(frame) for frame in made.frames]
        hurt = right[:9] + [made.frames[9][:36] + b"\x12\x34" + made.frames[9][38:]] + right[10:]
        found = self.judged(hurt)
        said = "judged up to frame 10, which was damaged on its way from left (its TCP checksum is wrong)"
        self.assertEqual((found.status(), found.limit), (3, said))
        self.assertIsNone(reports.first_of(found))
        self.assertEqual(self.judged(right).status(), 1)

    def test_frames_that_are_damaged_anywhere(self):
        """A bit of a segment is another one: of a number, a flag or data. Nothing but the frame itself is doubtful."""
        for seed in range(60):
            chance = random.Random(seed)
            run = Run(chance)
            made = [summed(frame) for frame in [*run.frames.frames[:3], *(frame for _, _, frame in sorted(run.seen))]]
            hurt = chance.randrange(len(made))
            at = chance.randrange(24, len(made[hurt]))
            made[hurt] = made[hurt][:at] + bytes([made[hurt][at] ^ 1 << chance.randrange(8)]) + made[hurt][at + 1:]
            path = self.write(pcap_of([frame for place, frame in enumerate(made) if place == hurt or chance.random() < 0.97]))
            try:
                stream = asking.found_in(path, 102)[0]
            except tshark.BadInput:
                continue
            damage.look(stream)
            parts = itertools.takewhile(lambda part, stream=stream: not stream.unsure(*part), stream.pieces)
            found = in_turns((streams.SIDES[source != stream.left()], piece.octets) for source, piece in parts)
            self.assertTrue(asking.why_not(stream) or is_beginning(found, run.sent), (seed, hurt, at))

    def test_a_capture_that_only_tshark_reads(self):
        """The frames are in a tunnel."""
        if not tshark.is_there():
            self.skipTest("tshark is not installed")
        made = Frames().open().talk().send("left", data(b"\1\0\1\0wrong")).send("right", DT).frames
        right = [summed(frame) for frame in made]
        for hurt, status in ((right, 1), (made, 1), (right[:9] + [made[9][:36] + b"\x12\x34" + made[9][38:]] + right[10:], 3)):
            self.assertEqual(self.judged([tunnelled(frame) for frame in hurt]).status(), status)

    def test_checksums_that_the_card_has_still_to_write_say_nothing(self):
        made = Frames().open().talk().send("left", data(b"\1\0\1\0wrong")).send("right", DT)
        self.assertEqual(self.judged(made.frames).status(), 1)
        sums = [~pcap.checksum(frame[12:20] + struct.pack(">HH", 6, len(frame) - 20)) & 0xFFFF for frame in made.frames]
        partial = [frame[:36] + struct.pack(">H", value) + frame[38:] for frame, value in zip(made.frames, sums)]
        self.assertEqual(self.judged([summed(frame) for frame in made.frames[:9]] + partial[9:]).status(), 1)

    def test_a_break_before_it_stays_found(self):
        made = Frames().open().talk().send("left", data(b"\1\0\1\0wrong")).send("right", DT, DT, DT)
        right = [summed(frame) for frame in made.frames]
        right[10] = right[10][:36] + b"\x12\x34" + right[10][38:]
        self.assertEqual(self.judged(right).status(), 1)


class Foreign(unittest.TestCase):
    """Other protocols at the port."""

    def kind(self, *sent):
        made = Frames().begin()
        for side, octets in sent:
            made.send(side, octets)
        return kinds.of(stream_of(made.frames))

    def test_what_has_no_packets(self):
        for sent in ((("left", b"GET / HTTP/1.0\r\n\r\n"),), (("left", b"\x16\3\1\0\x20"), ("right", b"\x16\3\3\0\x31")),
                     (("right", b"SSH-2.0-OpenSSH_9.2\r\n"), ("left", b"SSH-2.0-plink\r\n"))):
            self.assertEqual(self.kind(*sent), "no TPKT")

    def test_blocks_of_a_plc_without_a_session(self):
        """Data of the program may begin as a unit of X.225 does."""
        for octets in (b"\1\0\1\0\0\7", b"\2\0\0\0", b"\x09\0", bytes(20), b"S5\x10\1\3"):
            said = f"a protocol whose data begins with {octets[:2].hex()}"
            self.assertEqual(self.kind(("left", CR), ("right", CC), ("left", data(octets))), said)
            self.assertEqual(self.kind(("left", CR), ("right", CC), ("right", data(octets)), ("left", data(octets))), said)

    def test_blocks_that_begin_as_a_session_does(self):
        """But neither is as long as it says, nor does the other side answer it."""
        opened = ("left", CR), ("right", CC)
        for octets in (b"\r\nGET 1\r\n", b"\r\nGET /status 1\r\n", b"\x19\0\1\2\3"):
            said = f"a protocol whose data begins with {octets[:2].hex()}"
            self.assertEqual(self.kind(*opened, ("left", data(octets)), ("right", data(b"OK\r\n"))), said)
            self.assertEqual(self.kind(*opened, ("left", data(octets))), said)
            self.assertIsNone(self.kind(*opened, ("left", data(octets)), ("right", AC)))
        self.assertIsNone(self.kind(*opened, ("left", CN), ("right", data(b"OK\r\n"))))
        for octets in (b"\x10\2\0\1\2", b"\x0e\7\1", b"\x19\0\0", b"\x0c\3\0\0"):
            said = self.kind(*opened, ("left", data(bytes(9))), ("right", data(octets)))
            self.assertEqual(said, "a protocol whose data begins with 0000")
            self.assertEqual(self.kind(*opened, ("right", data(octets)), ("right", data(octets))),
                             f"a protocol whose data begins with {octets[:2].hex()}")

    def test_a_connect_of_a_wrong_length_is_one(self):
        """Also if nobody answers it, or if something else does."""
        opened = ("left", CR), ("right", CC)
        for wrong in (data(CN[7:] + b"\0"), data(CN[7:8] + b"\x0d" + CN[9:]), data(CN[7:8] + b"\xff\0\x0c" + CN[9:] + b"\0")):
            self.assertIsNone(self.kind(*opened, ("left", wrong)))
            self.assertIsNone(self.kind(*opened, ("left", wrong), ("right", AB)))

    def test_a_connect_in_small_parts(self):
        """Each data unit has some octets of the TSDU."""
        def parts(unit, size):
            return b"".join(packet(b"\2\xf0" + (b"\0" if at + size < len(unit) else b"\x80") + unit[at:at + size])
                            for at in range(7, len(unit), size))
        for size in (1, 2, 3, 20):
            sent = ("left", CR), ("right", CC), ("left", parts(CN, size)), ("right", parts(AC, size))
            self.assertIsNone(self.kind(*sent))
            self.assertIsNone(self.kind(*sent[:3]))
            made = Frames().begin()
            for side, octets in sent:
                made.send(side, octets)
            self.assertIsNone(asking.why_not(stream_of(made.frames)))

    def test_empty_data_before_anything_else(self):
        """Some controllers answer the CC with an empty data unit."""
        opened, empty = (("left", CR), ("right", CC)), data(b"")
        self.assertEqual(self.kind(*opened, ("left", empty), ("right", empty)), "a protocol whose data begins with an empty TSDU")
        self.assertEqual(self.kind(*opened, ("left", empty), ("left", data(bytes.fromhex("32010000")))), "S7comm")
        self.assertIsNone(self.kind(*opened, ("left", empty), ("left", CN)))
        self.assertIsNone(self.kind(*opened, ("left", empty), ("right", AB)))
        self.assertIsNone(self.kind(*opened, ("left", CN), ("right", empty)))

    def test_a_side_that_has_no_packets(self):
        """The other one begins with a packet, so somebody has the wrong port, or there is TLS on one side alone."""
        for octets, said in ((b"\x15\3\3\0\2\2\x28", "TLS"), (b"\x16\3\1\0\x20", "TLS"), (b"SSH-2.0-OpenSSH_9.2\r\n", "SSH"),
                             (b"HTTP/1.1 400 Bad Request\r\n", "HTTP"), (b"\xff\xfd\x18", "Telnet"), (b"220 ready\r\n", "text")):
            self.assertEqual(self.kind(("left", CR), ("right", octets)), said)
            self.assertEqual(self.kind(("right", octets), ("left", CR)), said)
            self.assertEqual(self.kind(("left", octets), ("right", packet(bytes.fromhex("06800000000080")))), said)
        for octets in (b"\0\0\0\7ready", CC[4:]):
            self.assertIsNone(self.kind(("left", CR), ("right", octets)))
        self.assertEqual(self.kind(("left", b"\3\0\0\1"), ("right", b"\1\2")), "no TPKT")

    def test_sessions_of_version_1(self):
        """X.400 of 1984 and old FTAM; if version 2 is offered, or the session is refused, there is something to judge."""
        opened = ("left", CR), ("right", CC)
        old, oldest = (lambda unit: unit.replace(bytes.fromhex("160102"), bytes.fromhex("160101"))), \
            (lambda unit: data(unit[7:8] + bytes.fromhex("0905031301001402") + b"\0\2"))
        for sent, wanted in (((old(CN), old(AC)), True), ((oldest(CN), oldest(AC)), True), ((oldest(CN), old(AC)), True),
                             ((old(CN), AC), False), ((CN, old(AC)), False), ((old(CN), AB), False), ((old(CN), b""), False)):
            made = Frames().begin().send("left", CR).send("right", CC).send("left", sent[0]).send("right", sent[1])
            said = kinds.VERSION_1 if wanted else None
            self.assertEqual(asking.why_not(stream_of(made.frames)), said, sent)
            self.assertIsNone(self.kind(*opened, ("left", sent[0]), ("right", sent[1])))

    def test_what_a_load_balancer_writes_first(self):
        for octets in (b"PROXY TCP4 192.0.2.1 192.0.2.2 40000 102\r\n", b"\r\n\r\n\0\r\nQUIT\n\x21\x11\0\x0c" + bytes(12)):
            said = "the PROXY protocol of a load balancer"
            self.assertEqual(self.kind(("left", octets), ("left", CR), ("right", CC), ("left", CN), ("right", AC)), said)

    def test_a_handshake_with_selectors_as_ours(self):
        request = packet(bytes.fromhex("11e00000000100c0010ac1020100c2020102"))
        self.assertEqual(self.kind(("left", request), ("right", CC), ("left", data(bytes.fromhex("32010000"))),
                                   ("right", data(bytes.fromhex("32030000")))), "S7comm")


class Told:
    """A break that a judge tells."""

    kind, rule, connection = types.SimpleNamespace(name="BROKE"), types.SimpleNamespace(name="BAD_VERSION"), None

    def __str__(self):
        return "left broke packet 35 TPKT BadVersion"


class Judge:
    """A judge that blames whoever sends octets without a packet, or the word `wrong`."""

    said = "both kept the protocol"

    def feed(self, side, octets):
        """The verdicts that are certain."""
        if octets[:1] != b"\3" or b"wrong" in octets:
            yield Told()

    def text(self):
        """What `osi judge` would print."""
        return self.said + "\n"

    def close(self):
        """Frees nothing."""


class Watched(unittest.TestCase):
    """The same while it passes."""

    def setUp(self):
        patched = mock.patch.object(watching, "osi_session", types.SimpleNamespace(Judge=Judge))
        patched.start()
        self.addCleanup(patched.stop)
        self.reader = frames.Reader(True, 102)
        self.watching = watching.Watching(102, forget=self.reader.forget)
        list(self.reader.feed(pcap_of([])))

    def fed(self, made, is_end=False, times=None):
        """What is printed while frames pass."""
        with contextlib.redirect_stdout(io.StringIO()) as out:
            watching.follow(self.watching, self.reader.feed(pcap_of(made, times=times)[24:]), 1)
            self.watching.look(is_end=is_end)
        return out.getvalue()

    def test_a_keepalive_in_place_of_an_octet_that_is_lost(self):
        made, number = test_unsure.Keepalives().lost()
        times = [10 ** 12 + 1_000 * place + (place >= number - 1) * 10 ** 7 for place in range(len(made))]
        with self.finding(b"wro"):
            out = self.fed(made, times=times)
        self.assertIn(f"both kept the protocol, judged up to frame {number}, whose one octet may be that of a keepalive of left", out)
        self.assertEqual(self.watching.status(), 3)

    def test_octets_that_pass_in_other_streams(self):
        self.assertIn("not judged: Multipath TCP", self.fed(Honest.multipath()))

    @staticmethod
    def finding(octets):
        """Lets a judge find a break in these octets."""
        return mock.patch.object(Judge, "feed", lambda judge, side, piece: iter([Told()] if octets in piece else []))

    def test_a_break_before_a_keepalive_is_told(self):
        wrong = test_unsure.Keepalives.WRONG
        made = Frames().open().send("left", wrong).put("right").put("left", b"\0").put("right").send("left", wrong)
        times = [10 ** 12 + 1_000 * place + (place >= 9) * 10 ** 7 for place in range(len(made.frames))]
        out = self.fed(made.put("right").frames, True, [*times, times[-1] + 1_000])
        self.assertEqual((out.count("broke"), self.watching.status()), (1, 1))
        self.assertIn("judged up to frame 10, whose one octet may be that of a keepalive of left", out)

    def test_octets_that_come_alone_are_judged(self):
        made = Frames(mtu=1).open().send("left", test_unsure.Keepalives.WRONG).put("right")
        with self.finding(b"w"):
            self.assertIn("broke", self.fed(made.frames))

    def test_a_frame_that_was_damaged_and_whose_other_copy_is_lost(self):
        self.reader.has_sums = True
        made = Frames().open().talk().send("left", data(b"\1\0\1\0wrong")).send("right", DT).frames
        right = [summed(frame) for frame in made]
        hurt = right[:9] + [made[9][:36] + b"\x12\x34" + made[9][38:]] + right[10:]
        out = self.fed(hurt, True)
        self.assertIn("both kept the protocol, judged up to frame 10, which was damaged on its way from left (its TCP checksum", out)
        self.assertNotIn("broke", out)
        self.assertIn("broke", self.fed([summed(frame) for frame in self.moved(made)]))
        unwritten = self.fed(self.moved(made, 43_000), True)
        self.assertIn("broke", unwritten)

    def test_the_first_frame_with_octets_was_damaged(self):
        self.reader.has_sums = True
        made = Frames().begin().send("left", packet(CR[4:] + b"wrong")).send("right", CC).send("left", CN).send("right", AC).frames
        right = [summed(frame) for frame in made]
        with self.finding(b"wrong"):
            out = self.fed(right[:3] + [made[3][:36] + b"\x12\x34" + made[3][38:]] + right[4:], True)
        self.assertIn("not judged: nothing of left is known up to frame 4, which was damaged on its way from left", out)
        self.assertEqual(self.watching.status(), 2)

    @staticmethod
    def moved(made, port=42_000):
        """The frames of a connection from another port."""
        return [frame[:20] + struct.pack(">H", port) + frame[22:] if frame[12:16] == bytes((192, 0, 2, 1)) else
                frame[:22] + struct.pack(">H", port) + frame[24:] for frame in made]

    def test_what_is_remembered_of_unsure_octets_has_a_bound(self):
        made = Frames(mtu=1).open().talk(40).frames
        times = [10 ** 12 + place * 2_000_000 for place in range(len(made))]
        with mock.patch.object(watching, "MOST_UNSURE", 20), mock.patch.object(directions, "SPARE_SEGMENTS", 20), self.finding(b"none"):
            self.fed([flagged(frame, ACK) if len(frame) == 41 else frame for frame in made], times=times)
        watched = next(iter(self.watching.watched.values()))
        self.assertLessEqual(len(watched.unsure), 21)
        self.assertTrue(all(len(each.alone) < 60 for each in watched.stream.directions.values()))

    def test_what_has_no_packets(self):
        made = Frames().begin().send("left", b"GET / HTTP/1.0\r\n\r\n").put("right")
        self.assertIn("not judged: no TPKT, not a session", self.fed(made.frames, True))

    def test_a_break_is_told_once_its_octets_are_acknowledged(self):
        """They may have been damaged on their way: then they come again."""
        made = Frames().open().send("left", data(b"\1\0\1\0wrong"))
        self.assertEqual(self.fed(made.frames), "")
        self.assertIn("broke", self.fed(Frames.put(made, "right").frames[-1:]))
        made = Frames(ports={"left": 41_000, "right": 102}).open()
        start = made.next["left"]
        made.put("left", data(b"\1\0\1\0wrong"), PUSH | ACK).put("left", data(b"\1\0\1\0right"), PUSH | ACK, sequence=start)
        made.next["left"] = start + len(data(b"\1\0\1\0right"))
        out = self.fed(made.put("right").frames)
        self.assertNotIn("broke", out)
        self.assertIn("both kept the protocol, judged up to frame 17, whose octets left sent again as others in frame 18", out)

    def test_a_side_that_sends_nothing(self):
        """A break of the other one is none that anybody can be sure of."""
        made = Frames().begin().send("left", data(b"\1\0\1\0wrong")).put("right").put("right", flags=RESET | ACK)
        self.assertIn("not judged: a protocol whose data", self.fed(made.frames, is_end=True))
        made = Frames(ports={"left": 41_000, "right": 102}).begin().send("left", CR, data(CN[7:] + b"wrong")).put("right")
        self.assertIn("not judged: right sent nothing", self.fed(made.put("right", flags=RESET | ACK).frames, is_end=True))

    def test_a_connection_with_the_numbers_of_the_one_before(self):
        self.assertEqual(self.fed(whole()[0]).count("both kept"), 1)
        self.assertRegex(self.fed(whole()[0]), "stream 1 .*both kept")


class Fields(unittest.TestCase):
    """What a header says."""

    def test_an_urgent_octet_is_one_of_the_stream(self):
        frames_made = [frame[:38] + struct.pack(">H", 1) + frame[40:] for frame in whole()[0]]
        stream = stream_of(frames_made)
        self.assertEqual(in_turns((side, piece.octets) for side, piece in stream.by_side()), in_turns(whole()[1]))


if __name__ == "__main__":
    unittest.main()
