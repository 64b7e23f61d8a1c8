"""Cuts a capture, pcap or pcapng, into its frames, piece by piece as its octets come."""
import struct

CHUNK = 1 << 20
# The longest frame that is taken for one (libpcap's limit for most links is 262,144 octets).
MOST = 1 << 24
# The magic numbers of pcap, and how many units its times have in a second.
MAGICS = {0xA1B2C3D4: 1_000_000, 0xA1B23C4D: 1_000_000_000}
SECTION, INTERFACE, SIMPLE, NAMES, STATISTICS, PACKET, SECRETS = 0x0A0D0D0A, 1, 3, 4, 5, 6, 10
BYTE_ORDER = 0x1A2B3C4D
END, RESOLUTION, OFFSET = 0, 9, 14


class Odd(Exception):
    """Something that isn't read here; the text completes the sentence "it is ..".."""


class Records:
    """The frames of a capture: for each its number, its time, its link, its octets, and how long it was."""

    def __init__(self):
        self.rest, self.cut, self.number, self.order, self.links = b"", None, 0, "<", []

    def is_known(self):
        """Whether the form of the capture is known, which its first octets say."""
        return self.cut is not None

    def feed(self, octets):
        """The frames that the next octets complete."""
        self.rest += octets
        if self.cut is None and len(self.rest) >= 24:
            self.begin()
        return self.cut() if self.cut else ()

    def begin(self):
        """Looks for the form of the capture."""
        if self.rest.startswith(b"\x0a\x0d\x0d\x0a"):
            self.cut = self.of_pcapng
            return
        for self.order in "<>":
            units = MAGICS.get(struct.unpack_from(self.order + "I", self.rest)[0])
            if units:
                link = struct.unpack_from(self.order + "I", self.rest, 20)[0] & 0xFFFF
                self.links, self.rest, self.cut = [(link, units, 0)], self.rest[24:], self.of_pcap
                return
        raise Odd("no pcap and no pcapng")

    def of_pcap(self):
        """The whole frames of a pcap."""
        octets, at, unpack = self.rest, 0, struct.Struct(self.order + "IIII").unpack_from
        (link, units, _), last = self.links[0], len(self.rest)
        while at + 16 <= last:
            seconds, rest, captured, length = unpack(octets, at)
            if captured > MOST:
                raise Odd(f"a frame of {captured:,} octets")
            end = at + 16 + captured
            if end > last:
                break
            self.number += 1
            yield self.number, (seconds * units + rest) / units, link, octets[at + 16:end], length
            at = end
        self.rest = octets[at:]

    def of_pcapng(self):
        """The frames of the whole blocks of a pcapng."""
        octets, at, last = self.rest, 0, len(self.rest)
        while at + 12 <= last:
            kind, length = self.block(octets, at)
            if at + length > last:
                break
            if kind == PACKET:
                yield self.packet(octets, at, at + length)
            elif kind == INTERFACE:
                self.links.append(self.interface(octets, at, at + length))
            elif kind == SECTION:
                self.links = []
            elif kind not in (NAMES, STATISTICS, SECRETS):
                raise Odd(f"a block of the type {kind}")
            at += length
        self.rest = octets[at:]

    def block(self, octets, at):
        """The type and the length of a block. The first of a section says the order of octets."""
        kind = struct.unpack_from(self.order + "I", octets, at)[0]
        if kind == SECTION:
            self.order = "<" if struct.unpack_from("<I", octets, at + 8)[0] == BYTE_ORDER else ">"
        length = struct.unpack_from(self.order + "I", octets, at + 4)[0]
        if length < 12 or length % 4 or length > MOST:
            raise Odd(f"a block of {length:,} octets")
        return kind, length

    def interface(self, octets, at, end):
        """The link of an interface, how many units its times have in a second, and the seconds to add."""
        link, units, offset = struct.unpack_from(self.order + "H", octets, at + 8)[0], 1_000_000, 0
        at += 16
        while at + 4 <= end - 4:
            code, length = struct.unpack_from(self.order + "HH", octets, at)
            value = octets[at + 4:at + 4 + length]
            if code == RESOLUTION and value:
                units = 2 ** (value[0] & 0x7F) if value[0] & 0x80 else 10 ** value[0]
            elif code == OFFSET and length == 8:
                offset = struct.unpack(self.order + "q", value)[0]
            elif code == END:
                break
            at += 4 + (length + 3) // 4 * 4
        return link, units, offset

    def packet(self, octets, at, end):
        """The frame of a block."""
        which, high, low, captured, length = struct.unpack_from(self.order + "IIIII", octets, at + 8)
        if which >= len(self.links) or at + 28 + captured > end - 4:
            raise Odd("a block without its interface, or longer than itself")
        self.number += 1
        link, units, offset = self.links[which]
        return self.number, (high << 32 | low) / units + offset, link, octets[at + 28:at + 28 + captured], length
