"""Captures that lack how a connection began: it is judged only if what is here is surely its beginning, whether it is read from a file or
watched."""
import contextlib
import io
import unittest
from unittest import mock

from ladders import judged as judged_by_ladders

from . import annotating, asking, frames, judging, outcome, streams, texts, units, watching
from .test_frames import AC, ACK, CC, CN, CR, DN, DT, FN, PUSH, SYN, Frames, Room, packet, pcap_of, stream_of, whole
from .test_honest import Judge as Strict
from .test_passing import OSI, call, judged, needs_osi

MIDDLE = "begins in the middle"
# Units of class 2: two CRs, the second of which also offers class 0, what may answer them, and what is of an earlier connection.
REQUEST, EITHER = (packet(bytes.fromhex(each)) for each in ("09e40000000320c0010a", "0ce40000000320c70100c0010a"))
CONFIRM, REFUSAL, ERROR = (packet(bytes.fromhex(each)) for each in ("09d40003000420c0010a", "06800003000080", "0570000300c100"))
CLOSE, KNOWLEDGE, DATA = (packet(bytes.fromhex(each)) for each in ("06800001000280", "0464000104", "04f00001820100010072"))
UNKNOWN = packet(bytes.fromhex("0635000300000a"))


class Judge(Strict):
    """A judge that blames nobody."""

    def feed(self, side, octets):
        """No verdict is certain."""
        return ()


def watched(made):
    """What a watch prints of frames."""
    reader, found = frames.Reader(True, 102), watching.Watching(102)
    with mock.patch.object(watching, "osi_session", mock.Mock(Watch=Judge)), contextlib.redirect_stdout(io.StringIO()) as out:
        watching.follow(found, reader.feed(pcap_of(made)), 0)
        found.look(is_end=True)
    return out.getvalue()


class Beginnings(unittest.TestCase):
    """What may be the beginning of a connection, and what not."""

    def said(self, made):
        """Why frames aren't judged, which a watch says, too; or None."""
        why, out = asking.why_not(stream_of(made)), watched(made).splitlines()[0]
        self.assertIn(f"not judged: {why.partition(',')[0]}" if why else "both kept the protocol", out)
        return why

    @staticmethod
    def sent(*parts, mtu=1_400):
        """The frames of a connection whose first segments aren't here."""
        made = Frames(mtu=mtu)
        for side, octets in parts:
            made.send(side, octets)
        return made.frames

    def test_a_request_of_class_2_may_be_a_later_one(self):
        """Its answer may be that of an earlier connection, also if it comes in small segments."""
        for answer in (CONFIRM, REFUSAL, ERROR, CLOSE, KNOWLEDGE, DATA, UNKNOWN):
            for request in (REQUEST, EITHER):
                for mtu in (1_400, 10, 4):
                    self.assertRegex(self.said(self.sent(("left", request), ("right", answer), mtu=mtu)) or "", MIDDLE)

    def test_a_request_of_class_0_is_the_first(self):
        for answer in (CC, REFUSAL, ERROR, UNKNOWN, CC[:5], CC[:8]):
            for mtu in (1_400, 4):
                self.assertIsNone(self.said(self.sent(("left", CR), ("right", answer), mtu=mtu)))
        for answer in (KNOWLEDGE, DT):
            self.assertRegex(self.said(self.sent(("left", CR), ("right", answer))), MIDDLE)
        for request in (packet(bytes.fromhex("09e00000000300c0020a0a")), packet(bytes.fromhex("09e00000000300c70100"))):
            self.assertTrue(streams.offers_class_0_alone(request))
        for request in (REQUEST, EITHER, packet(bytes.fromhex("0ce00000000300c00102c70120")), CR[:8], b""):
            self.assertFalse(streams.offers_class_0_alone(request))

    def test_octets_before_the_first_ones_were_acknowledged(self):
        """So the connection is older than its first CR that is here."""
        made = Frames()
        made.put("left", acknowledged=made.next["right"] - 200).put("right", acknowledged=made.next["left"] - 100)
        self.assertRegex(self.said(made.send("left", CR).send("right", CC).frames), MIDDLE)

    def test_an_answer_to_octets_with_the_first_segment_is_lost(self):
        """TCP Fast Open: nothing shows that the other side sent octets before its first ones that are here."""
        made = Frames().put("left", CR, SYN).put("right", flags=SYN | ACK).put("left").send("right", CC)
        made.send("left", CN).send("right", AC).send("left", DT)
        self.assertIsNone(self.said(made.frames))
        for lost, said in (((1, 2, 3), MIDDLE), ((1, 3), f"the first {len(CC)} octets of right are lost"), ((1, 2), "None")):
            why = self.said([frame for place, frame in enumerate(made.frames) if place not in lost])
            self.assertRegex(str(why), f"^{said}")


class Again(unittest.TestCase):
    """A session on the transport connection of one that has ended: X.225 allows it, if the unit that ended it says so."""

    KEPT = (("0903110100", "0a00"), ("", "0c06110100320102"), ("0903110102", "0a02c100"), ("1903110102", "1a00"))
    ENDED = (("0900", "0a00"), ("0903110101", "0a00"), ("", "0c03320102"), ("1903110103", "1a00"))
    OPEN = "0903110100", "0800"

    @staticmethod
    def made(call, answer):
        """The frames of a session that ends so, and another one; and the number of the frame with the second CN."""
        made = Frames().open() if call else Frames().begin().send("left", CR).send("right", CC).send("left", CN)
        for side, octets in (("left", call), ("right", answer)):
            if octets:
                made.send(side, packet(b"\2\xf0\x80" + bytes.fromhex(octets)))
        return made.send("left", CN).send("right", AC).put("left").frames, len(made.frames) - 2

    @needs_osi
    def test_it_is_judged_up_to_there(self):
        for each in self.KEPT:
            frames_made, number = self.made(*each)
            report = judged(frames_made)
            said = f"judged up to frame {number}, with which left opens another session on the same transport connection"
            self.assertEqual((report.status, report.judged.limit), (3, said), each)
        for each in self.ENDED:
            report = judged(self.made(*each)[0])
            self.assertEqual((report.status, report.judged.limit), (3, None), each)
        self.assertEqual(judged(self.made(*self.OPEN)[0]).status, 1)

    def test_a_watch_says_so(self):
        told, later = (mock.Mock(kind=mock.Mock(), rule=mock.Mock(), connection=None) for _ in range(2))
        told.__str__ = lambda each: "left 1 broke packet 70 Connect BadState"
        later.__str__ = lambda each: "right 1 broke packet 70 Accept BadState"
        for each in (told, later):
            each.kind.name, each.rule.name = "BROKE", "BAD_STATE"
        for ended in self.KEPT + self.ENDED:
            frames_made, number = self.made(*ended)
            found = []

            def feed(_, side, octets, found=found):
                found.append(octets)
                return ([told] if octets == CN else [later] if octets == AC else []) if found.count(CN) == 2 else []
            with mock.patch.object(Judge, "feed", feed):
                out = watched(frames_made)
            said = f"both kept the protocol, judged up to frame {number}, with which left opens another session" \
                if ended in self.KEPT else f"frame {number}, [0-9.]+ seconds: left 1 broke"
            self.assertRegex(out, said)
            self.assertEqual("broke" in out, ended not in self.KEPT)


class BothRelease(Room):
    """Both sides ask for the release before they know of each other, as X.225 allows in duplex; then each agrees."""

    @staticmethod
    def made():
        """The frames, and the number of that with the second FN."""
        made = Frames().open()
        made.put("left", FN, PUSH | ACK).put("right", FN, PUSH | ACK, acknowledged=made.next["left"] - len(FN))
        return made.send("left", DN).send("right", DN).put("left").frames, 9

    @needs_osi
    def test_nobody_is_blamed(self):
        made, number = self.made()
        report = judged(made)
        said = f"judged up to frame {number}, with which right asks for the release (FN), as the other side does"
        self.assertEqual((report.status, report.judged.limit), (3, said))

    @needs_osi
    def test_nor_in_a_text(self):
        rows = ("left", CR), ("right", CC), ("left", CN), ("right", AC), ("left", FN), ("right", FN), ("left", DN), ("right", DN)
        text = "".join("\t" * (side == "right") + octets.hex() + "\n" for side, octets in rows)
        stream = texts.read(self.write(text.encode(), "run"))
        found = judging.Judged(stream, judged_by_ladders.runner(OSI, lambda name: lambda seconds: None))
        said = "judged up to octet 35 of right, with which right asks for the release (FN), as the other side does"
        self.assertEqual((found.status(), found.limit), (3, said))

    def test_one_that_is_answered_is_none(self):
        """A session that goes on, or one after another."""
        for asked in ((("left", "FN"), ("right", "NF"), ("right", "FN")), (("left", "FN"), ("left", "FN")),
                      (("left", "FN"), ("right", "DN"), ("left", "CN"), ("right", "FN"))):
            follower = outcome.Follower()
            for side, name in asked:
                follower.look_for_collision(side, mock.Mock(frame=1), units.Unit(name, 0, 1))
            self.assertEqual(follower.unfollowed, {}, asked)


class Silent(Room):
    """Nothing passed, since the first octets of a side are lost."""

    @needs_osi
    def test_the_stream_is_named(self):
        made = whole()[0]
        for lost, said in (((0, 3), f"the first {len(CR)} octets of left are lost, at frame 3"),
                           ((1, 2, 3, 4), f"the first {len(CR)} octets of left are lost, at frame 2"),
                           ((1, 4), f"the first {len(CC)} octets of right are lost, at frame 4")):
            kept = [frame for place, frame in enumerate(made) if place not in lost]
            status, out, err = call(kept, "judge")
            self.assertEqual((status, err), (2, ""))
            self.assertRegex(out, f"^stream 0 .* not judged: .*{said}\nended: .* [0-9.]+ seconds")
            self.assertIn(said, watched(kept))
            self.assertIn(said, call(kept, "list")[1])
            if "left" in said:
                self.assertEqual(call(kept, "split", "-o", self.path("run")), (2, "", f"osi-capture: run.pcap: stream 0: {said}\n"))
            report = mock.Mock(ended=[], why=said, stream=stream_of(kept))
            self.assertEqual(annotating.comments_of(report), [(1 if "left" in said else 3, f"not judged: {said}")])

    def test_what_waits_at_the_port_has_to_be_packets(self):
        made = Frames().begin().send("left", CR).send("right", b"HTTP/1.1 400\r\n").frames
        with self.assertRaisesRegex(asking.BadInput, "carries no TPKT|no TCP stream carries TPKT"):
            asking.found_in(self.write(pcap_of(made[:3] + made[4:])), 102)


if __name__ == "__main__":
    unittest.main()
