"""Writes two captures as a pcap: IPv4, and one TCP segment for each TPKT packet, so that a dissector shows them one by one."""
import struct

from .streams import SIDES, packets

MAGIC, RAW_IP, LONGEST = 0xA1B2C3D4, 101, 65_495
ADDRESSES = {"left": bytes((192, 0, 2, 1)), "right": bytes((192, 0, 2, 2))}
PORTS = {"left": 40_000, "right": 102}
SYN, ACK, PUSH = 0x02, 0x10, 0x08


def checksum(octets):
    """The checksum of RFC 1071."""
    padded = octets + b"\0" * (len(octets) % 2)
    total = sum(struct.unpack(f">{len(padded) // 2}H", padded))
    while total >> 16:
        total = (total & 0xFFFF) + (total >> 16)
    return ~total & 0xFFFF


def datagram(side, sequence, acknowledged, flags, octets):
    """An IPv4 datagram with a TCP segment of one side."""
    far = SIDES[side == "left"]
    head = struct.pack(">HHIIBBHHH", PORTS[side], PORTS[far], sequence % 2 ** 32, acknowledged % 2 ** 32, 5 << 4, flags, 65_535, 0, 0)
    pseudo = ADDRESSES[side] + ADDRESSES[far] + struct.pack(">BBH", 0, 6, len(head) + len(octets))
    head = head[:16] + struct.pack(">H", checksum(pseudo + head + octets)) + head[18:]
    whole = struct.pack(">BBHHHBBH4s4s", 0x45, 0, 20 + len(head) + len(octets), 0, 0x4000, 64, 6, 0, ADDRESSES[side], ADDRESSES[far])
    return whole[:10] + struct.pack(">H", checksum(whole)) + whole[12:] + head + octets


class Writer:
    """Puts records into a pcap, and counts sequence numbers."""

    def __init__(self, time):
        self.parts = [struct.pack(">IHHiIII", MAGIC, 2, 4, 0, 0, 262_144, RAW_IP)]
        self.next = {side: 1 for side in SIDES}
        self.shake_hands(time)

    def shake_hands(self, time):
        self.record(time, datagram("left", 0, 0, SYN, b""))
        self.record(time, datagram("right", 0, 1, SYN | ACK, b""))
        self.record(time, datagram("left", 1, 1, ACK, b""))

    def record(self, time, octets):
        seconds, rest = divmod(round(time * 1_000_000), 1_000_000)
        self.parts.append(struct.pack(">IIII", seconds, rest, len(octets), len(octets)) + octets)

    def segment(self, time, side, octets):
        """Writes a TCP segment; more octets than one can have go into several."""
        for start in range(0, len(octets), LONGEST):
            part = octets[start:start + LONGEST]
            far = SIDES[side == "left"]
            self.record(time, datagram(side, self.next[side], self.next[far], PUSH | ACK, part))
            self.next[side] += len(part)


def written(pieces):
    """A pcap of pieces, each with its time, its side and its octets: a packet is written at the time of its last octet."""
    last = pieces[0][0] if pieces else 0
    writer, waiting = Writer(last), {side: b"" for side in SIDES}
    for time, side, octets in pieces:
        waiting[side] += octets
        last = time
        used = 0
        for start, length in packets(waiting[side]):
            packet = waiting[side][start:start + length]
            if len(packet) >= 7 and int.from_bytes(packet[2:4], "big") == length:
                writer.segment(time, side, packet)
                used = start + length
        waiting[side] = waiting[side][used:]
    for side in SIDES:
        writer.segment(last, side, waiting[side])
    return b"".join(writer.parts)
