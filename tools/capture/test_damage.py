"""Frames with wrong TCP checksums: those that were damaged on their way blame nobody, however many they are; those that a card has still to
write, and those of a capture whose addresses were changed, are judged as others."""
import contextlib
import io
import json
import random
import struct
import unittest
from unittest import mock

from ladders import judged, reading, script, tapped

from . import (asking, damage, frames, judging, pcap, processes, program, reports, sums, test_honest, test_judging, test_unsure, tshark,
               watching)
from .test_frames import AC, ACK, CC, CN, CR, DN, DT, IPV4, IPV6, SYN, Frames, Room, data, pcap_of
from .test_unsure import blamed

WRONG, LATER = data(b"\1\0\1\0wrong"), data(b"\1\0\1\0" + bytes(range(90)))
LEFT = bytes((192, 0, 2, 1))
DAMAGED = "judged up to frame {}, which was damaged on its way from {} (its TCP checksum is wrong)"
ALL_WRONG = "not judged: nothing of {} is known up to frame {}, since all {} TCP checksums of {} are wrong, as in a capture that was " \
            "changed (--ignore-checksums judges it all the same)"


def addresses_of(frame):
    """Both addresses of a datagram, and where its segment is."""
    return (frame[12:20], 20) if frame[0] >> 4 == 4 else (frame[8:40], 40)


def with_sum(frame, value):
    """A datagram with this TCP checksum."""
    at = addresses_of(frame)[1] + 16
    return frame[:at] + struct.pack(">H", value % 2 ** 16) + frame[at + 2:]


def pseudo(frame, has_length=True):
    """The sum of the pseudo header, as drivers write it."""
    addresses, at = addresses_of(frame)
    return ~pcap.checksum(addresses + struct.pack(">HH", 6, len(frame) - at if has_length else 0)) & 0xFFFF


def right(frame):
    """A datagram with its TCP checksum."""
    addresses, at = addresses_of(frame)
    segment = with_sum(frame, 0)[at:]
    return with_sum(frame, pcap.checksum(addresses + struct.pack(">HH", 6, len(segment)) + segment))


# What a machine that captures what it sends itself has in place of checksums.
FORMS = {"none": lambda frame: 0, "none, complemented": lambda frame: 0xFFFF, "with the length": pseudo,
         "without the length": lambda frame: pseudo(frame, False), "with the length, complemented": lambda frame: ~pseudo(frame),
         "without the length, complemented": lambda frame: ~pseudo(frame, False)}


def talk(addresses=None):
    """The datagrams of a connection with their checksums: the left side breaks the protocol with frame 20."""
    made = Frames(addresses=addresses).open()
    for _ in range(6):
        made.send("left", LATER).send("right", DT)
    return [right(frame) for frame in made.send("left", WRONG).send("right", DT).put("left").frames]


def spoiled(frame, chance):
    """A datagram of which an octet of data was changed on its way."""
    at = chance.randrange(addresses_of(frame)[1] + 20, len(frame))
    return frame[:at] + bytes([frame[at] ^ chance.randrange(1, 256)]) + frame[at + 1:]


def moved(frame, addresses):
    """A datagram with other addresses, and the TCP checksum that it had."""
    at = 12 if frame[0] >> 4 == 4 else 8
    sides = (addresses["left"], addresses["right"])
    return frame[:at] + b"".join(sides if LEFT == frame[12:16] or frame[8:24] == IPV6["left"] else sides[::-1]) + \
        frame[at + 2 * len(sides[0]):]


def tunnelled(frame):
    """A datagram in a tunnel of GRE, which tshark has to read."""
    kind = b"\x08\0" if frame[0] >> 4 == 4 else b"\x86\xdd"
    head = struct.pack(">BBHHHBBH4s4s", 0x45, 0, 24 + len(frame), 0, 0, 64, 47, 0, *IPV4.values())
    return head + b"\0\0" + kind + frame


class Ways(Room):
    """What is said of frames by a judge that blames whoever sends the word `wrong`: of a file, of one that tshark reads, of a tap."""

    @staticmethod
    def ways(made, by_tshark=True):
        """The capture as it is, and in a tunnel."""
        yield pcap_of(made)
        if by_tshark and tshark.is_there():
            yield pcap_of([tunnelled(frame) for frame in made])

    def of_file(self, content, has_sums=True):
        """The judgement of a file."""
        stream = asking.found_in(self.write(content), 102)[0]
        stream.has_sums = has_sums
        return judging.Judged(damage.mended(stream), blamed)

    def of_tap(self, made, has_sums=True):
        """The same while it passes."""
        with contextlib.redirect_stdout(io.StringIO()):
            watching_it = watching.Watching(102, blamed)
            watching.follow(watching_it, frames.Reader(True, 102, has_sums).feed(pcap_of(made)), 1)
            watched = next(iter(watching_it.watched.values()))
            return watched.verdict(blamed, True)

    def is_blamed(self, made, by_tshark=True):
        """The break is found."""
        for content in self.ways(made, by_tshark):
            found = self.of_file(content)
            self.assertEqual((found.status(), found.limit), (1, None))
        self.assertEqual(self.of_tap(made)[1], 1)

    def is_not_blamed(self, made, limit, by_tshark=True):
        """Nobody is blamed, and it is said why."""
        for content in self.ways(made, by_tshark):
            found = self.of_file(content)
            self.assertEqual((found.status(), found.limit), (3, limit))
            self.assertIsNone(reports.first_of(found))
        line, status = self.of_tap(made)
        self.assertEqual((line, status), (f"both kept the protocol, {limit}", 3))


class Judged(Ways):
    """Checksums of all kinds."""

    OTHERS = {"left": bytes((10, 1, 2, 3)), "right": bytes((10, 9, 8, 7))}
    OTHERS_6 = {side: bytes.fromhex("fd00") + bytes(13) + bytes([last]) for side, last in (("left", 77), ("right", 99))}

    def test_right_checksums(self):
        self.is_blamed(talk())
        self.is_blamed(talk(IPV6))

    def test_most_frames_of_a_direction_are_damaged(self):
        """Their other copies aren't in the file, as a tap loses them that sits before a bad cable."""
        for addresses in (None, IPV6):
            made, chance = talk(addresses), random.Random(1)
            hurt = [spoiled(frame, chance) if place in (9, 11, 13, 15, 17, 19) else frame for place, frame in enumerate(made, 1)]
            self.is_not_blamed(hurt, DAMAGED.format(9, "right"))
            hurt = [spoiled(frame, chance) if place in (8, 10, 12, 14, 16, 18) else frame for place, frame in enumerate(made, 1)]
            self.is_not_blamed(hurt, DAMAGED.format(8, "left"))

    def test_all_frames_with_octets_of_a_direction_are_damaged(self):
        made, chance = talk(), random.Random(2)
        for side, first in (("left", 4), ("right", 5)):
            hurt = [spoiled(frame, chance) if place >= first and (place - first) % 2 == 0 else frame
                    for place, frame in enumerate(made[:-1], 1)]
            said = f"nothing of {side} is known up to frame {first}, which was damaged on its way from {side} (its TCP checksum is wrong)"
            for content in self.ways(hurt):
                with self.assertRaises(asking.BadInput) as caught:
                    self.of_file(content)
                self.assertEqual(str(caught.exception), said)

    def test_checksums_that_a_card_has_still_to_write(self):
        """Of one side or of both, of all frames or of some."""
        for addresses in (None, IPV6):
            made = talk(addresses)
            for name, form in FORMS.items():
                for since, step in ((0, 1), (0, 2), (1, 2), (9, 1)):
                    with self.subTest(name, since=since, step=step):
                        own = [with_sum(frame, form(frame)) if place >= since and (place - since) % step == 0 else frame
                               for place, frame in enumerate(made)]
                        self.is_blamed(own, form is pseudo and since == 1)

    def test_a_mixture_of_both(self):
        """The machine that captures sends without checksums, and what it receives was damaged; and the other way round."""
        made, chance = talk(), random.Random(3)
        for form in FORMS.values():
            own = [with_sum(frame, form(frame)) if frame[12:16] == LEFT else frame for frame in made]
            self.is_not_blamed([spoiled(frame, chance) if place == 13 else frame for place, frame in enumerate(own, 1)],
                               DAMAGED.format(13, "right"), form is pseudo)
            both = [with_sum(frame, form(frame)) if place > 7 and place % 4 == 0 else frame for place, frame in enumerate(made, 1)]
            self.is_not_blamed([spoiled(frame, chance) if place in (10, 14, 18) else frame for place, frame in enumerate(both, 1)],
                               DAMAGED.format(10, "left"), form is pseudo)

    def test_segments_that_a_card_has_joined(self):
        """They have more octets than their receiver takes, and the checksum of the first one."""
        most = b"\2\4" + struct.pack(">H", 60)
        for asks, is_hurt, status in ((True, False, 1), (True, True, 3), (False, False, 3)):
            made = Frames().put("left", flags=SYN).put("right", flags=SYN | ACK)
            if asks:
                made.frames[:] = [frame[:3] + bytes([len(frame) + 4]) + frame[4:32] + b"\x60" + frame[33:] + most for frame in made.frames]
            made.put("left").send("left", CR).send("right", CC).send("left", CN).send("right", AC)
            whole = [right(frame) for frame in made.send("left", LATER).send("right", DT).send("left", WRONG).put("right").frames]
            whole[7] = with_sum(whole[7], 0x1234)
            whole[1] = with_sum(whole[1], 0x1234) if is_hurt else whole[1]
            for content in self.ways(whole):
                self.assertEqual(self.of_file(content).status(), status)
            self.assertEqual(self.of_tap(whole)[1], status)

    def test_a_capture_with_other_addresses_and_the_checksums_that_it_had(self):
        """All are wrong by the same number, so each one still says whether its frame is whole."""
        for made, others in ((talk(), self.OTHERS), (talk(IPV6), self.OTHERS_6)):
            changed = [moved(frame, others) for frame in made]
            self.assertNotEqual(changed, [right(frame) for frame in changed])
            self.is_blamed(changed)
            self.is_not_blamed([spoiled(frame, random.Random(4)) if place == 12 else frame for place, frame in enumerate(changed, 1)],
                               DAMAGED.format(12, "left"))

    def test_a_short_capture_with_other_addresses(self):
        """The called side sent two segments."""
        made = Frames().begin().send("left", CR).send("right", CC).send("left", CN, WRONG).frames
        self.is_blamed([moved(right(frame), self.OTHERS) for frame in made])

    def test_a_capture_with_other_addresses_of_a_machine_that_sends_without_checksums(self):
        for made, others in ((talk(), self.OTHERS), (talk(IPV6), self.OTHERS_6)):
            for form in FORMS.values():
                own = [with_sum(frame, form(frame)) if frame[12:16] == LEFT or frame[8:24] == IPV6["left"] else frame for frame in made]
                changed = [moved(frame, others) for frame in own]
                self.is_blamed(changed, form is pseudo)

    def test_a_frame_whose_header_was_damaged(self):
        """It says that the header is shorter than any, so that its octets aren't known."""
        if not tshark.is_there():
            self.skipTest("tshark is not installed")
        made = talk()
        made[11] = made[11][:32] + b"\x20" + made[11][33:]
        found = self.of_file(pcap_of(made))
        self.assertEqual((found.status(), found.limit), (3, f"judged up to frame 13, where left lost {len(LATER)} octets"))

    def test_any_frame_that_is_damaged_among_many_forms(self):
        """Nothing but offload and a change of addresses excuses a wrong checksum: no damaged frame is taken for one of these."""
        for seed in range(40):
            chance = random.Random(seed)
            made = talk(chance.choice((None, IPV6)))
            form = chance.choice([*FORMS.values(), None])
            own = [with_sum(frame, form(frame)) if form and place % 2 else frame for place, frame in enumerate(made)]
            hurt = chance.choice([place for place in range(7, 19) if not (form and place % 2)])
            own[hurt] = spoiled(own[hurt], chance)
            found = self.of_file(pcap_of(own))
            self.assertEqual((found.status(), found.gap and found.gap.frame), (3, hurt + 1), seed)


class Copies(Ways):
    """A damaged frame ends no judgement if a right copy of its octets came before they were acknowledged."""

    @staticmethod
    def sent_again(parts=((0, 101),), hurt=True, is_first=False):
        """A connection in which frame 9 was damaged and its octets came again in these parts, before or after the damaged copy; then left
        breaks the protocol."""
        made = Frames().open().send("right", DT)
        start = made.next["left"]
        copies = [made.segment("left", LATER[first:last], ACK, start + first) for first, last in parts]
        made.send("left", LATER)
        place = len(made.frames) - 1 if is_first else len(made.frames)
        made.frames[place:place] = copies
        made.send("right", DT).send("left", WRONG).send("right", DT).put("left")
        chance = random.Random(9)
        damaged = len(made.frames) - 5 if is_first else 8
        return [spoiled(right(frame), chance) if hurt and place == damaged else right(frame) for place, frame in enumerate(made.frames)]

    def test_a_whole_copy(self):
        self.is_blamed(self.sent_again())
        self.is_blamed(self.sent_again(is_first=True))

    def test_copies_with_other_boundaries(self):
        for parts in (((0, 20), (20, 101)), ((0, 60), (30, 101)), ((50, 101), (0, 50))):
            self.is_blamed(self.sent_again(parts), by_tshark=False)

    def test_a_copy_that_is_captured_after_its_acknowledgement(self):
        """As mirror ports do it, and captures of two places that are merged."""
        made = self.sent_again()
        for place in (10, 11, 12):
            moved = made[:9] + made[10:place + 1] + [made[9]] + made[place + 1:]
            found = self.of_file(pcap_of(moved))
            self.assertEqual((found.status(), found.limit), (1, None))

    def test_a_copy_of_a_part(self):
        """The rest isn't surely what was sent."""
        self.is_not_blamed(self.sent_again(((0, 60),)), DAMAGED.format(9, "left"))

    def test_a_copy_that_is_damaged_too(self):
        made = self.sent_again()
        made[9] = spoiled(made[9], random.Random(10))
        self.is_not_blamed(made, DAMAGED.format(9, "left"))

    def test_the_first_octets(self):
        """Nothing of a side would be known else."""
        made = Frames().begin()
        made.frames.append(made.segment("left", CR))
        made.send("left", CR).send("right", CC).send("left", CN).send("right", AC).send("left", WRONG).put("right")
        self.is_blamed([spoiled(right(frame), random.Random(11)) if place == 4 else right(frame) for place, frame in
                        enumerate(made.frames, 1)])

    def test_who_keeps_the_protocol_is_judged_to_the_end(self):
        """Also if only the damaged copy is here."""
        for parts in (((0, 101),), ()):
            kept = self.sent_again(parts)[:-3]
            self.assertEqual((self.of_file(pcap_of(kept)).status(), self.of_tap(kept)), (0, ("both kept the protocol", 0)))

    def test_the_ladder_agrees(self):
        source, judge = reading.surely(reading.by_name(self.write(pcap_of(self.sent_again())), 102, None), blamed, True)
        self.assertEqual((judge(tapped.text_of(source.pieces)), source.notes), (blamed("77726f6e67"), []))


class Changed(Room):
    """A capture of which all checksums are wrong, each by another number: it isn't judged, and it is said what to do."""

    def made(self, places=None):
        """Datagrams with such checksums; only those of some places, or all."""
        chance = random.Random(5)
        return [with_sum(frame, chance.randrange(1, 0xFFFF)) if places is None or place in places else frame
                for place, frame in enumerate(talk(), 1)]

    def call(self, *words):
        """The status of `osi-capture`, and what it printed."""
        out, err = io.StringIO(), io.StringIO()
        with contextlib.ExitStack() as room:
            for each in (contextlib.redirect_stdout(out), contextlib.redirect_stderr(err),
                         mock.patch.object(judged, "runner", lambda osi, tick: blamed),
                         mock.patch.object(script, "run", lambda osi, word, text: blamed(text)),
                         mock.patch.object(processes.Programs, "has_live", lambda programs: False)):
                room.enter_context(each)
            status = program.main(list(words))
        return status, out.getvalue(), err.getvalue()

    def contents(self):
        """The capture as it is, and in a tunnel."""
        yield pcap_of(self.made())
        if tshark.is_there():
            yield pcap_of([tunnelled(frame) for frame in self.made()])

    def test_it_is_not_judged_and_the_option_is_named(self):
        for content in self.contents():
            status, out, err = self.call("judge", self.write(content))
            self.assertEqual((status, err), (2, ""))
            self.assertIn(ALL_WRONG.format("left", 4, 12, "left"), out)
            self.assertNotIn("broke", out)

    def test_json_says_it_too(self):
        status, out, _ = self.call("judge", "--json", self.write(pcap_of(self.made())))
        told = json.loads(out)
        self.assertEqual((status, told["verdict"], told["first"], told["breaks"]), (2, "none", None, []))
        self.assertEqual(f"not judged: {told['why']}", ALL_WRONG.format("left", 4, 12, "left"))
        self.assertEqual(test_judging.wrongs(told), [])

    def test_the_option_judges_it(self):
        for content in self.contents():
            path = self.write(content)
            for job in (("judge",), ("watch", "--by", "program")):
                status, out, _ = self.call(*job, path, "--ignore-checksums")
                self.assertEqual((status, "left broke the protocol first" in out), (1, True), job)

    def test_a_watch_says_it(self):
        for content in self.contents():
            status, out, _ = self.call("watch", "--by", "program", self.write(content))
            self.assertEqual((status, "broke" in out), (2, False))
            self.assertIn("TCP checksums of left are wrong, as in a capture that was changed (--ignore-checksums judges it", out)

    def test_one_direction(self):
        places = range(2, 30)
        found = self.made([place for place in places if place % 2 and place > 3 or place == 2])
        status, out, _ = self.call("judge", self.write(pcap_of(found)))
        self.assertEqual((status, "all 10 TCP checksums of right are wrong" in out), (2, True), out)

    def test_who_kept_the_protocol_did_so_whatever_the_checksums_are(self):
        status, out, _ = self.call("judge", self.write(pcap_of(self.made()[:19])))
        self.assertEqual((status, "both kept the protocol" in out), (0, True))


class Ladders(Room):
    """A ladder with a verdict blames nobody for what isn't surely what was sent, as the verdict itself."""

    def drawn(self, made, has_sums=True):
        """What is judged of frames, what is said of it, and the notes."""
        source = reading.by_name(self.write(pcap_of(made)), 102, None)
        source, judge = reading.surely(source, blamed, has_sums)
        return len(source.pieces), judge(tapped.text_of(source.pieces)), source.notes

    def test_what_surely_was_sent_is_judged(self):
        self.assertEqual(self.drawn(talk())[1:], (blamed("77726f6e67"), []))

    def test_a_frame_that_was_damaged(self):
        hurt = [spoiled(frame, random.Random(7)) if place == 12 else frame for place, frame in enumerate(talk(), 1)]
        self.assertEqual(self.drawn(hurt), (8, "both kept the protocol\n", ["Judged up to frame 12, which was damaged on its way from left "
                                                                            "(its TCP checksum is wrong)."]))
        self.assertEqual(self.drawn(hurt, False)[1:], (blamed("77726f6e67"), []))

    def test_a_capture_that_was_changed(self):
        chance = random.Random(8)
        pieces, said, _ = self.drawn([with_sum(frame, chance.randrange(1, 0xFFFF)) for frame in talk()])
        self.assertEqual((pieces, said), (18, ALL_WRONG.format("left", 4, 12, "left") + "\n"))

    def test_an_octet_that_may_be_that_of_a_keepalive(self):
        made, number = test_unsure.Keepalives().lost()
        said, notes = self.drawn(made)[1:]
        self.assertEqual((said, notes), ("both kept the protocol\n", [f"Judged up to frame {number}, whose one octet may be that of a "
                                                                       "keepalive of left."]))

    def test_another_session_on_the_transport_connection_of_one_that_has_ended(self):
        made = Frames().open().send("left", data(bytes.fromhex("0903110100"))).send("right", DN).send("left", CN).put("right").frames
        said = "left 1 broke packet 47 Connect BadState\nleft broke the protocol first, packet 47: Connect BadState\n"

        def judge(text):
            """Blames whoever sends two CN."""
            return said if text.count("0d0c0506") > 1 else "both kept the protocol\n"
        source, found = reading.surely(reading.by_name(self.write(pcap_of(made)), 102, None), judge, True)
        self.assertEqual((len(source.pieces), found(tapped.text_of(source.pieces))), (6, "both kept the protocol\n"))
        self.assertEqual(source.notes, ["Judged up to frame 10, with which left opens another session on the same transport connection."])

    def test_what_is_not_judged(self):
        for made, said in ((talk()[5:], "begins in the middle, at frame 1"), (test_honest.Honest.multipath(), asking.MULTIPATH),
                           ([frame for frame in talk() if frame[12:16] == LEFT], asking.ALONE)):
            self.assertEqual(self.drawn(made)[1], f"not judged: {said}\n")


def right_sum(frame):
    """The TCP checksum of a datagram."""
    at = addresses_of(frame)[1] + 16
    return int.from_bytes(right(frame)[at:at + 2], "big")


class Sums(Room):
    """What is kept of checksums."""

    def test_what_is_kept_has_a_bound(self):
        found = sums.Sums()
        found.note(1, (0, 5), 0)
        for frame in range(2, 3 * sums.MOST):
            found.note(frame, (frame % 7 and frame, 1), 10)
        self.assertEqual((len(found.hurt), found.wrong + found.right), (sums.MOST, 3 * sums.MOST - 1))
        self.assertEqual([found.is_hurt(frame) for frame in (1, 2, 7, 2 * sums.MOST, 3 * sums.MOST)], [False, True, False, True, True])

    def test_frames_without_octets_are_not_kept(self):
        found = sums.Sums()
        for frame in range(2 * sums.MOST):
            found.note(frame, (frame + 1, 3 * frame + 7), 0)
        self.assertEqual((len(found.hurt), found.later, found.wrong), (0, None, 2 * sums.MOST))

    def test_a_number_that_a_few_checksums_are_wrong_by_is_no_change_of_all(self):
        """As of a card that spoils the same bit of each frame with octets, but not those without."""
        found = sums.Sums()
        for frame, error in enumerate((0, 0, 256, 256, 256, 256, 256), 1):
            found.note(frame, (error, frame), 10)
        self.assertEqual([found.is_hurt(frame) for frame in range(1, 8)], [False, False, True, True, True, True, True])
        self.assertFalse(found.are_all_wrong())

    def test_own_frames_and_those_of_tshark_say_the_same(self):
        if not tshark.is_there():
            self.skipTest("tshark is not installed")
        chance = random.Random(6)
        forms = (*FORMS.values(), lambda frame: chance.randrange(2 ** 16))
        for addresses in (None, IPV6):
            path = self.write(pcap_of([with_sum(frame, form(frame)) for frame in talk(addresses) for form in (right_sum, *forms)]))
            both = [[(each.frame, each.sum, each.most) for each in found] for found in
                    (frames.segments(path, lambda: None, True), tshark.segments(path, has_sums=True))]
            self.assertEqual(*both)


if __name__ == "__main__":
    unittest.main()
