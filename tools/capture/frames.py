"""Reads the TCP segments of a capture, pcap or pcapng, without tshark: as tshark tells them, with the same numbers of frames and streams.

It reads what captures of a control network have. What it doesn't (tunnels, fragments, other links, ports that are used again in an
unusual way) is `Odd`, and tshark has to read the capture. A tap that can't be read again (`is_live`) is read without such frames.
"""
import gzip
import socket
import struct
import zlib

from . import sums
from .records import CHUNK, Odd, Records
from .tshark import ACK, FIN, PUSH, RESET, SYN, Segment

ETHERNET, IP_4, IP_6, UNKNOWN = 1, 0x0800, 0x86DD, 0
# Where the type of the frame's content is, and where the content begins, by link.
PLACES = {ETHERNET: (12, 14), 113: (14, 16), 276: (0, 20)}
RAW = {12: UNKNOWN, 14: UNKNOWN, 101: UNKNOWN, 228: IP_4, 229: IP_6}
LOOPBACK = (0, 108)
# Tags of VLANs, and of HSR (IEC 62439-3), with their lengths.
TAGS = {0x8100: 4, 0x88A8: 4, 0x9100: 4, 0x892F: 6}
# Types that have no TCP in them: ARP, LLDP, GOOSE, sampled values, PTP, PROFINET, EtherCAT, PRP, loops, EAPOL, slow protocols and PPPoE's
# discovery.
OTHERS = {0x0806, 0x8035, 0x88CC, 0x88B8, 0x88B9, 0x88BA, 0x88F7, 0x8892, 0x88A4, 0x88FB, 0x9000, 0x888E, 0x8809, 0x8863}
LENGTHS, SNAP = 1536, 0xAA
TCP, UDP, ICMP, ICMP_6, FRAGMENT, NOTHING = 6, 17, 1, 58, 44, 59
# Protocols over IP without TCP in them: IGMP, EGP, ESP, EIGRP, OSPF, PIM, VRRP, SCTP.
BESIDE = {2, 8, 50, 88, 89, 103, 112, 132}
EXTENSIONS = (0, 43, 60)
# Ports of UDP that carry no other network: DNS, DHCP, TFTP, NTP, NetBIOS, SNMP, syslog, PTP, SSDP, mDNS, LLMNR, DHCPv6.
PLAIN_PORTS = {53, 67, 68, 69, 123, 137, 138, 161, 162, 319, 320, 514, 546, 547, 1900, 5353, 5355}
# The errors of ICMP that quote a packet.
QUOTES = {ICMP: (3, 4, 5, 11, 12), ICMP_6: (1, 2, 3, 4)}
# The options of a first segment: the most octets of a segment, and Multipath TCP (RFC 8684).
MOST, MULTIPATH = 2, 30
HEAD = struct.Struct(">IIBB")


class Way:
    """One direction of a stream: its number and its ends, the first sequence number if SYN was there, whether it had any segment and was
    ended or reset, and the other direction."""

    __slots__ = ("stream", "source", "target", "first", "is_begun", "is_ended", "back", "key")

    def __init__(self, stream, source, target, key):
        self.stream, self.source, self.target, self.key = stream, source, target, key
        self.first, self.is_begun, self.is_ended, self.back = None, False, False, None


class Reader:
    """Reads segments. With `port` only those at this port, and only these have streams; with `has_sums` their checksums are read."""

    def __init__(self, is_live=False, port=None, has_sums=False):
        self.ways, self.count, self.is_live, self.port, self.has_sums, self.odd = {}, 0, is_live, port, has_sums, None
        self.records = Records()

    def feed(self, octets):
        """The segments in the next octets of a capture."""
        for number, time, link, frame, length in self.records.feed(octets):
            try:
                made = self.segment(number, time, link, frame)
            except Odd as odd:
                if not self.is_live:
                    raise
                self.odd = self.odd or f"frame {number} is {odd}"
                continue
            if made is not None:
                made.captured = min(len(frame), length)
                yield made

    def segment(self, number, time, link, frame):
        """The segment in a frame, or None."""
        kind, at = network(link, frame)
        if kind == IP_4:
            found = within_4(frame, at)
        elif kind == IP_6:
            found = within_6(frame, at)
        else:
            return None
        return found and self.of_tcp(number, time, frame, *found)

    def of_tcp(self, number, time, frame, addresses, at, end):
        """The segment at a place of a frame. `end` is where it ends, which may be more than was captured."""
        if at + 20 > len(frame):
            raise Odd("cut within the header of TCP")
        sequence, acknowledged, offset, flags = HEAD.unpack_from(frame, at + 4)
        begin = at + (offset >> 4) * 4
        if begin < at + 20 or begin > end:
            raise Odd("wrong in the length of the header of TCP")
        key = addresses + frame[at:at + 4]
        way = self.ways.get(key) or self.way(key)
        if way is None:
            return None
        if flags & SYN:
            way = self.begun(way, sequence, flags)
        way.is_begun = True
        if flags & (FIN | RESET):
            way.is_ended = True
        made = made_of(number, time, way, sequence, acknowledged, flags, frame[begin:end], end - begin)
        if flags & SYN:
            found = dict(options(frame[at + 20:begin]))
            made.is_multipath, made.most = MULTIPATH in found, int.from_bytes(found.get(MOST, b""), "big")
        if self.has_sums and end <= len(frame):
            made.sum = sums.of_segment(addresses, frame[at:end])
        return made

    def way(self, key):
        """A new direction, and that back; None if it isn't at the port."""
        ports = struct.unpack(">HH", key[-4:])
        if self.port is not None and self.port not in ports:
            return None
        half = len(key) // 2 - 2
        names = [address_of(key[:half]), address_of(key[half:-4])]
        there = Way(self.count, (names[0], ports[0]), (names[1], ports[1]), key)
        if there.source == there.target:
            raise Odd("from a port to itself")
        back = Way(self.count, there.target, there.source, key[half:-4] + key[:half] + key[-2:] + key[-4:-2])
        there.back, back.back = back, there
        self.ways[key], self.ways[back.key] = there, back
        self.count += 1
        return there

    def begun(self, way, sequence, flags):
        """The direction of a first segment: a new one if the ports are used again. (tshark counts one with the same number as the same
        stream; a tap that can't be read again counts by itself.)"""
        is_again = self.is_live and not flags & ACK and way.is_ended
        if way.first is None and not way.is_begun or way.first == sequence and not is_again:
            way.first = sequence
            return way
        if not self.is_live and (way.first is None or flags & ACK):
            raise Odd("the first of a direction that had begun")
        if not flags & ACK:
            way = self.way(way.key)
        way.first = sequence
        return way

    def forget(self, key, stream):
        """Forgets a stream that is over, by the key of one of its directions."""
        way = self.ways.get(key)
        if way is not None and way.stream == stream:
            del self.ways[key], self.ways[way.back.key]


def made_of(number, time, way, sequence, acknowledged, flags, octets, length):
    """A segment from its fields."""
    made = Segment.__new__(Segment)
    made.frame, made.time, made.stream, made.source, made.target = number, time, way.stream, way.source, way.target
    made.sequence, made.octets, made.key = sequence, octets, way.key
    made.tell(flags, acknowledged)
    if length > len(octets):
        made.missing = length - len(octets)
    if len(octets) == 1:
        made.is_pushed = bool(flags & PUSH)
    return made


def options(octets):
    """The options of a header of TCP: for each its kind and its value."""
    at = 0
    while at < len(octets) and octets[at]:
        length = 1 if octets[at] == 1 else max(2, int.from_bytes(octets[at + 1:at + 2], "big"))
        yield octets[at], octets[at + 2:at + length]
        at += length


def address_of(octets):
    """An address as text."""
    return socket.inet_ntop(socket.AF_INET if len(octets) == 4 else socket.AF_INET6, octets)


def network(link, frame):
    """What a frame has of a network, IPv4 or IPv6, and where; None if it has neither."""
    if link in PLACES:
        kind_at, at = PLACES[link]
        return typed(frame, frame[kind_at] << 8 | frame[kind_at + 1], at) if len(frame) >= at else (None, 0)
    if link in RAW:
        return version(frame, 0)
    if link in LOOPBACK:
        return version(frame, 4)
    raise Odd(f"of the link type {link}")


def typed(frame, kind, at):
    """What follows a type at a place, after the tags."""
    while kind in TAGS:
        length = TAGS[kind]
        kind, at = int.from_bytes(frame[at + length - 2:at + length], "big"), at + length
    if kind in (IP_4, IP_6):
        return kind, at
    if kind in OTHERS or kind < LENGTHS and frame[at:at + 1] != bytes([SNAP]):
        return None, at
    raise Odd(f"of the type {kind:04x}")


def version(frame, at):
    """IPv4 or IPv6 at a place, by its first digit."""
    if len(frame) <= at:
        return None, at
    kind = {4: IP_4, 6: IP_6}.get(frame[at] >> 4)
    if kind is None:
        raise Odd("neither of IPv4 nor of IPv6")
    return kind, at


def within_4(frame, at):
    """Where a TCP segment is in IPv4: both addresses, its place, and where it ends; None if there is none."""
    if at + 20 > len(frame):
        raise Odd("cut within the header of IPv4")
    first, whole, parts, protocol = frame[at], frame[at + 2] << 8 | frame[at + 3], frame[at + 6:at + 8], frame[at + 9]
    head = (first & 15) * 4
    if first >> 4 != 4 or head < 20 or whole and whole < head:
        raise Odd("wrong in the header of IPv4")
    if parts[0] & 0x3F or parts[1]:
        raise Odd("a fragment of IPv4")
    # A segment that the card has still to cut may have no length.
    end = at + whole if whole else len(frame)
    if protocol != TCP:
        return beside(frame, protocol, at + head, 9)
    return frame[at + 12:at + 20], at + head, end


def within_6(frame, at):
    """The same in IPv6."""
    if at + 40 > len(frame):
        raise Odd("cut within the header of IPv6")
    length, following, place = frame[at + 4] << 8 | frame[at + 5], frame[at + 6], at + 40
    end = place + length if length else len(frame)
    while following in EXTENSIONS and place + 2 <= len(frame):
        following, place = frame[place], place + 8 + 8 * frame[place + 1]
    if following == FRAGMENT:
        raise Odd("a fragment of IPv6")
    if following == NOTHING:
        return None
    return (frame[at + 8:at + 40], place, end) if following == TCP else beside(frame, following, place, 6)


def beside(frame, protocol, at, protocol_at):
    """None for what has no TCP in it; `Odd` for what may have."""
    if protocol in BESIDE:
        return None
    if protocol in QUOTES and len(frame) > at:
        quoted = frame[at + 8 + protocol_at:at + 9 + protocol_at]
        if frame[at] not in QUOTES[protocol] or quoted and quoted[0] != TCP:
            return None
        raise Odd("an error of ICMP about TCP")
    if protocol == UDP and PLAIN_PORTS & {int.from_bytes(frame[place:place + 2], "big") for place in (at, at + 2)}:
        return None
    raise Odd(f"of the protocol {protocol} over IP")


def chunks(path):
    """The octets of a file in pieces, also if it was packed by gzip."""
    with open(path, "rb") as file:
        with gzip.open(file) if file.peek(2)[:2] == b"\x1f\x8b" else file as octets:
            while True:
                piece = octets.read(CHUNK)
                if not piece:
                    return
                yield piece


def segments(path, cut, has_sums=False):
    """The segments of a file, one by one; `Odd` if tshark has to read it. If it ends within a packet, `cut` is called."""
    reader = Reader(has_sums=has_sums)
    try:
        for octets in chunks(path):
            yield from reader.feed(octets)
    except (OSError, EOFError, zlib.error):
        raise Odd("a file that can't be read") from None
    if not reader.records.is_known():
        raise Odd("no pcap and no pcapng")
    if reader.records.rest:
        cut()


__all__ = ["FIN", "Odd", "RESET", "Reader", "segments"]
