"""Captures that tests write: frames of a TCP connection, in files of several forms. Tests that tshark and the tools read each form."""
import gzip
import os
import struct
import tempfile
import unittest

from . import asking, frames, pcap, streams, tshark

ETHERNET, RAW_IP, SLL, SLL_2 = 1, 101, 113, 276
FIN, SYN, RESET, PUSH, ACK = 0x01, 0x02, 0x04, 0x08, 0x10
PORTS = {"left": 40_000, "right": 102}
FIRST = {"left": 1_000, "right": 5_000}
IPV4 = {"left": bytes((192, 0, 2, 1)), "right": bytes((192, 0, 2, 2))}
IPV6 = {side: bytes.fromhex("20010db8") + bytes(11) + bytes([last]) for side, last in (("left", 1), ("right", 2))}
SPACE = 2 ** 32


def packet(unit):
    """A transport unit in a TPKT packet."""
    return struct.pack(">BBH", 3, 0, len(unit) + 4) + unit


def data(tsdu):
    """A TSDU in a DT of class 0."""
    return packet(b"\x02\xf0\x80" + tsdu)


CR, CC = bytes.fromhex("0300000e09e00000000100c0010a"), bytes.fromhex("0300000e09d00001000100c0010a")
CN, AC = (data(bytes([code]) + bytes.fromhex("0c0506130100160102140200 02")) for code in (13, 14))
TOKENS = bytes.fromhex("0100")
DT = data(TOKENS + TOKENS + b"read")
FN, DN, AB, AA = (data(bytes.fromhex(each)) for each in ("0900", "0a00", "1903110103", "1a00"))
MIP = data(TOKENS + bytes.fromhex("31032a0132"))


class Frames:
    """The frames of a TCP connection, with the numbers that both ends count. `mtu` cuts what is sent into segments."""

    def __init__(self, first=None, ports=None, addresses=None, mtu=1_400):
        self.next, self.ports, self.addresses, self.mtu = dict(first or FIRST), dict(ports or PORTS), addresses or IPV4, mtu
        self.frames = []

    def segment(self, side, octets=b"", flags=ACK, sequence=None, acknowledged=None):
        """A datagram with a segment, whose numbers may be named; the frame isn't kept."""
        far = "right" if side == "left" else "left"
        sequence = self.next[side] if sequence is None else sequence
        acknowledged = self.next[far] if acknowledged is None else acknowledged
        acknowledged = acknowledged if flags & ACK else 0
        head = struct.pack(">HHIIBBHHH", self.ports[side], self.ports[far], sequence % SPACE, acknowledged % SPACE, 5 << 4, flags,
                           65_535, 0, 0)
        if len(self.addresses[side]) == 16:
            first = struct.pack(">IHBB", 6 << 28, len(head) + len(octets), 6, 64)
            return first + self.addresses[side] + self.addresses[far] + head + octets
        whole = struct.pack(">BBHHHBBH4s4s", 0x45, 0, 20 + len(head) + len(octets), 0, 0x4000, 64, 6, 0, self.addresses[side],
                            self.addresses[far])
        return whole[:10] + struct.pack(">H", pcap.checksum(whole)) + whole[12:] + head + octets

    def put(self, side, octets=b"", flags=ACK, **more):
        """Adds a frame, and counts its octets."""
        self.frames.append(self.segment(side, octets, flags, **more))
        self.next[side] = (self.next[side] + len(octets) + bool(flags & (SYN | FIN))) % SPACE
        return self

    def begin(self):
        """The three segments with which TCP begins."""
        return self.put("left", flags=SYN).put("right", flags=SYN | ACK).put("left")

    def send(self, side, *packets):
        """Sends packets, each in segments of its own."""
        for octets in packets:
            for start in range(0, len(octets), self.mtu):
                self.put(side, octets[start:start + self.mtu], PUSH | ACK)
        return self

    def open(self):
        """Begins, and opens a session with duplex."""
        return self.begin().send("left", CR).send("right", CC).send("left", CN).send("right", AC)

    def talk(self, times=1):
        """A request and an answer, some times."""
        for _ in range(times):
            self.send("left", DT).send("right", DT)
        return self

    def close(self):
        """Releases the session, and closes TCP."""
        return self.send("left", FN).send("right", DN).put("left", flags=FIN | ACK).put("right", flags=FIN | ACK).put("left")


def segment_of(number, frame, cut=None):
    """The segment of a datagram, as tshark tells it of a frame with this number; `cut` is how many octets of it are captured."""
    is_6 = frame[0] >> 4 == 6
    at = 40 if is_6 else 20
    source, target = (".".join(map(str, part)) for part in ((frame[8:24], frame[24:40]) if is_6 else (frame[12:16], frame[16:20])))
    ports, sequence, acknowledged = struct.unpack(">HH", frame[at:at + 4]), *struct.unpack(">II", frame[at + 4:at + 12])
    octets = frame[at + 20:cut]
    return tshark.Segment([str(number), f"{1_000 + number / 1_000:.6f}", "0", source, "", str(ports[0]), target, "", str(ports[1]),
                           str(sequence), str(acknowledged), hex(frame[at + 13]), str(len(frame) - at - 20), str(cut or len(frame)),
                           octets.hex()])


def stream_of(frames, cut=None):
    """The stream of frames, without tshark."""
    return streams.joined(segment_of(number, frame, cut) for number, frame in enumerate(frames, 1))[0]


def linked(datagram, link=ETHERNET, tags=()):
    """A datagram in a frame of its link."""
    kind = struct.pack(">H", 0x86DD if datagram[0] >> 4 == 6 else 0x0800)
    if link == RAW_IP:
        return datagram
    if link == SLL:
        return struct.pack(">HHH8s", 0, 1, 6, bytes(8)) + kind + datagram
    return bytes(12) + b"".join(struct.pack(">HH", code, number) for code, number in tags) + kind + datagram


def pcap_of(frames, link=RAW_IP, order=">", is_nano=False, cut=None, times=None):
    """A pcap of frames, a millisecond apart; `cut` is how many octets of each are captured."""
    made = [struct.pack(order + "IHHiIII", 0xA1B23C4D if is_nano else 0xA1B2C3D4, 2, 4, 0, 0, cut or 262_144, link)]
    for place, frame in enumerate(frames):
        seconds, rest = divmod(times[place] if times else 1_000_000_000 + place * 1_000, 1_000_000)
        made.append(struct.pack(order + "IIII", seconds, rest * (1_000 if is_nano else 1), min(len(frame), cut or len(frame)), len(frame)))
        made.append(frame[:cut])
    return b"".join(made)


def pcapng_of(*sections, link=RAW_IP, order="<", options=b"", units=1):
    """A pcapng with a section for each list of frames, as files that are merged have them; a millisecond between two frames. `options`
    are those of the interfaces, and `units` how many units their times have in a microsecond."""
    made, place = [], 0
    for frames in sections:
        made += [block(0x0A0D0D0A, struct.pack(order + "IHHq", 0x1A2B3C4D, 1, 0, -1), order),
                 block(1, struct.pack(order + "HHI", link, 0, 0) + options, order)]
        for frame in frames:
            time = (1_000_000_000_000_000 + place * 1_000) * units
            made.append(block(6, struct.pack(order + "IIIII", 0, time >> 32, time % SPACE, len(frame), len(frame)) + frame, order))
            place += 1
    return b"".join(made)


def block(kind, body, order="<"):
    """A block of a pcapng."""
    body += bytes(-len(body) % 4)
    return struct.pack(order + "II", kind, 12 + len(body)) + body + struct.pack(order + "I", 12 + len(body))


def told(segment):
    """What a segment says."""
    return [getattr(segment, name) for name in ("frame", "time", "stream", "source", "target", "sequence", "octets", "acknowledged",
                                                "missing", "captured", "is_first", "is_last", "is_reset", "is_answer", "is_pushed",
                                                "is_multipath")]


class Room(unittest.TestCase):
    """A folder for what tests write."""

    def setUp(self):
        self.room = tempfile.TemporaryDirectory()
        self.addCleanup(self.room.cleanup)

    def path(self, name):
        return os.path.join(self.room.name, name)

    def write(self, content, name="run.pcap"):
        """The path of a file with this content."""
        with open(self.path(name), "wb") as file:
            file.write(content)
        return self.path(name)

    def streams(self, content, port=102):
        """The streams of a capture, which is read here and by tshark, if it is there, and both find the same segments."""
        path = self.write(content)
        found = list(frames.segments(path, lambda: None))
        if tshark.is_there():
            self.assertEqual([told(each) for each in found], [told(each) for each in tshark.segments(path)])
        return streams.joined(found, port)

    def passed(self, content, number=0):
        """What passed in a stream: the side and the octets of each piece."""
        return [(side, piece.octets) for side, piece in self.streams(content)[number].by_side()]


def whole():
    """A connection from its beginning to its end, with what passes in it."""
    frames = Frames().open().talk().close().frames
    return frames, [("left", CR), ("right", CC), ("left", CN), ("right", AC), ("left", DT), ("right", DT), ("left", FN), ("right", DN)]


class Forms(Room):
    """Each form in which captures come."""

    def same(self, content, wanted=None):
        self.assertEqual(self.passed(content), wanted or whole()[1])

    def test_frames_of_ethernet_with_and_without_tags(self):
        for tags in ((), ((0x8100, 7),), ((0x88A8, 7), (0x8100, 8))):
            self.same(pcap_of([linked(frame, ETHERNET, tags) for frame in whole()[0]], ETHERNET))

    def test_frames_of_linux_cooked_capture(self):
        self.same(pcap_of([linked(frame, SLL) for frame in whole()[0]], SLL))
        self.same(pcap_of([struct.pack(">HHIHBB8s", 0x0800, 0, 1, 1, 0, 6, bytes(8)) + frame for frame in whole()[0]], SLL_2))

    def test_frames_of_a_loopback(self):
        self.same(pcap_of([struct.pack("<I", 2) + frame for frame in whole()[0]], 0, "<"))

    def test_frames_of_a_ring_with_hsr(self):
        tag = struct.pack(">HHH", 0x892F, 0x1000, 7)
        self.same(pcap_of([bytes(12) + tag + b"\x08\0" + frame for frame in whole()[0]], ETHERNET))

    def test_frames_with_octets_after_their_datagram(self):
        self.same(pcap_of([linked(frame) + bytes(20) for frame in whole()[0]], ETHERNET))

    def test_datagrams_whose_length_the_card_had_still_to_write(self):
        frames = [frame[:2] + b"\0\0" + frame[4:] for frame in whole()[0]]
        self.same(pcap_of([linked(frame) for frame in frames], ETHERNET))

    def test_frames_that_were_cut(self):
        for cut in (60, 70, 90):
            self.streams(pcap_of([linked(frame) for frame in whole()[0]], ETHERNET, cut=cut))

    def test_what_else_passes(self):
        """Address resolution, GOOSE, spanning trees, names, echoes, and an error about something else."""
        others = [bytes(12) + struct.pack(">H", kind) + bytes(46) for kind in (0x0806, 0x88B8, 0x88BA, 38)]
        for protocol, octets in ((17, struct.pack(">HHHH", 40_000, 53, 8, 0)), (1, b"\x08" + bytes(7)),
                                 (1, b"\3\3" + bytes(6) + b"\x45" + bytes(8) + b"\x11" + bytes(18))):
            head = struct.pack(">BBHHHBBH4s4s", 0x45, 0, 20 + len(octets), 0, 0, 64, protocol, 0, *IPV4.values())
            others.append(linked(head + octets))
        self.same(pcap_of([each for frame in whole()[0] for each in (linked(frame), *others)], ETHERNET))

    def test_headers_between_ipv6_and_tcp(self):
        frames = Frames(addresses=IPV6).open().talk().close().frames
        more = [frame[:4] + struct.pack(">HB", len(frame) - 32, 0) + frame[7:40] + bytes([6, 0, 1, 4, 0, 0, 0, 0]) + frame[40:]
                for frame in frames]
        self.same(pcap_of(more))

    def test_datagrams_without_a_link(self):
        self.same(pcap_of(whole()[0]))

    def test_files_of_either_order_of_octets_and_with_nanoseconds(self):
        for order, is_nano in (("<", False), (">", True)):
            self.same(pcap_of(whole()[0], order=order, is_nano=is_nano))

    def test_files_that_are_compressed(self):
        self.same(gzip.compress(pcap_of(whole()[0])))

    def test_sections_of_a_merged_pcapng(self):
        frames = whole()[0]
        self.same(pcapng_of(frames[:7], frames[7:]))

    def test_a_pcapng_of_either_order_of_octets_and_with_nanoseconds(self):
        frames = whole()[0]
        self.same(pcapng_of(frames, order=">"))
        self.same(pcapng_of(frames, options=struct.pack("<HHB3xHH", 9, 1, 9, 0, 0), units=1_000))

    def test_ipv6(self):
        self.same(pcap_of(Frames(addresses=IPV6).open().talk().close().frames))

    def test_a_file_that_ends_within_a_packet(self):
        frames = whole()[0]
        content = pcap_of(frames[:8])
        self.assertEqual(self.passed(content[:-5]), whole()[1][:4])
        self.assertEqual(self.passed(pcapng_of(frames[:8])[:-5]), whole()[1][:4])

    def test_streams_that_pass_at_the_same_time(self):
        one, other = whole()[0], Frames(ports={"left": 41_000, "right": 102}).open().talk().close().frames
        found = self.streams(pcap_of([frame for pair in zip(one, other) for frame in pair]))
        self.assertEqual([[(side, piece.octets) for side, piece in found[number].by_side()] for number in (0, 1)], [whole()[1]] * 2)

    def test_what_only_tshark_reads(self):
        """Fragments, tunnels, labels, and ports that are used again without a beginning."""
        if not tshark.is_there():
            self.skipTest("tshark is not installed")
        gre = [struct.pack(">BBHHHBBH4s4s", 0x45, 0, 24 + len(frame), 0, 0, 64, 47, 0, *IPV4.values()) + b"\0\0\x08\0" + frame
               for frame in whole()[0]]
        label = [bytes(12) + b"\x88\x47" + bytes.fromhex("00010140") + frame for frame in whole()[0]]
        split = [part for frame in whole()[0] for part in fragments(frame)]
        late = [*whole()[0][3:], *Frames(first={"left": 900_000, "right": 700_000}).open().close().frames]
        outer = bytes(32)
        in_6 = [struct.pack(">IHBB", 6 << 28, len(frame), 4, 64) + outer + frame for frame in whole()[0]]
        in_4 = [struct.pack(">BBHHHBBH8s", 0x45, 0, 20 + len(frame), 0, 0, 64, 41, 0, outer[:8]) + frame
                for frame in Frames(addresses=IPV6).open().talk().close().frames]
        for content, wanted in ((pcap_of(gre), whole()[1]), (pcap_of(label, ETHERNET), whole()[1]), (pcap_of(split), whole()[1]),
                                (pcap_of(in_6), whole()[1]), (pcap_of(in_4), whole()[1]), (pcap_of(late), None)):
            path = self.write(content)
            with self.assertRaises(frames.Odd):
                list(frames.segments(path, lambda: None))
            found = asking.joined(path, path, 102)
            self.assertEqual([(side, piece.octets) for side, piece in found[0].by_side()][:8], (wanted or whole()[1])[:8])

    def test_octets_come_in_any_pieces(self):
        content = pcapng_of(*[whole()[0]] * 2)
        for size in (1, 7, 100):
            reader = frames.Reader(True)
            found = [segment for at in range(0, len(content), size) for segment in reader.feed(content[at:at + size])]
            self.assertEqual([told(each) for each in found], [told(each) for each in frames.Reader(True).feed(content)])

    def test_ports_that_are_used_again(self):
        again = Frames(first={"left": 900_000, "right": 700_000}).open().close().frames
        found = self.streams(pcap_of(whole()[0] + again))
        self.assertEqual([len(stream.pieces) for stream in found.values()], [8, 6])


def fragments(datagram):
    """A datagram of IPv4 in two fragments, if it is long enough."""
    if len(datagram) < 50:
        yield datagram
        return
    head, rest = datagram[:20], datagram[20:]
    for at, part, more in ((0, rest[:24], 0x2000), (24, rest[24:], 0)):
        made = head[:2] + struct.pack(">HHH", 20 + len(part), 7, more | at // 8) + head[8:10] + b"\0\0" + head[12:]
        yield made[:10] + struct.pack(">H", pcap.checksum(made)) + made[12:] + part


class Segments(unittest.TestCase):
    """What TCP does with segments, without tshark."""

    @staticmethod
    def joined(frames):
        """What passed in a stream of frames, with pieces of one side in a row as one."""
        found = []
        for side, piece in stream_of(frames).by_side():
            found[-1:] = [(side, found[-1][1] + piece.octets)] if found and found[-1][0] == side else [*found[-1:], (side, piece.octets)]
        return found

    def test_numbers_that_begin_anew(self):
        self.assertEqual(self.joined(Frames(first={"left": SPACE - 20, "right": SPACE - 3}).open().talk().close().frames), whole()[1])

    def test_an_acknowledgement_of_the_number_0(self):
        """What acknowledges lost octets up to the place at which numbers begin anew is left out."""
        made = Frames(first={"left": SPACE - len(CR + CN) - 1, "right": 5_000}).open().frames
        reader = frames.Reader()
        found = streams.joined(reader.feed(pcap_of(made[:5] + made[6:])))[0]
        self.assertEqual([piece.octets for _, piece in found.by_side()], [CR, CC])
        self.assertEqual(str(found.gap()), f"frame 6, where left lost {len(CN)} octets")

    def test_segments_of_one_octet(self):
        for first in (FIRST, {"left": SPACE - 9, "right": SPACE - 30}):
            self.assertEqual(self.joined(Frames(first, mtu=1).open().talk().close().frames), whole()[1])

    def test_frames_that_come_twice(self):
        frames = whole()[0]
        self.assertEqual(self.joined([each for frame in frames for each in (frame, frame)]), whole()[1])
        self.assertEqual(self.joined(frames[:8] + frames[3:]), whole()[1])

    def test_addresses_of_ipv6(self):
        self.assertEqual(self.joined(Frames(addresses=IPV6).open().talk().close().frames), whole()[1])


if __name__ == "__main__":
    unittest.main()
