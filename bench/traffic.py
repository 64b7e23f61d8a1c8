#!/usr/bin/env python3
"""Writes a pcap with MMS-like traffic in four TCP streams, for bench/capture.sh: python3 bench/traffic.py FILE [REQUESTS]

Each stream opens an association with duplex, reads and writes in turn, and is released. A request has some 80 octets of MMS and an
answer some 130, as reads of a few values have them; every fourth answer is a report of 400. The streams take turns.
"""
import os
import struct
import sys

sys.dont_write_bytecode = True
sys.path.insert(0, os.path.join(os.path.dirname(os.path.dirname(os.path.abspath(__file__))), "tools"))
from capture.test_frames import AC, CC, CN, CR, DN, FIN, FN, ACK, ETHERNET, PUSH, TOKENS, Frames, data, linked  # noqa: E402

STREAMS, REQUESTS = 4, 277_000
# What a presentation data value has before MMS: a fully encoded user data of P-DATA (context 3).
BEFORE = bytes.fromhex("61820050308200 4c020103a0820045".replace(" ", ""))


def data_of(place, octets):
    """A TSDU of data with a running number in it."""
    return data(TOKENS + TOKENS + BEFORE + struct.pack(">I", place) + bytes(octets))


def traffic(requests):
    """The frames of all streams in turn."""
    made = [Frames(first={"left": 1_000 * each, "right": 7_000 * each}, ports={"left": 40_000 + each, "right": 102})
            for each in range(1, STREAMS + 1)]
    for each in made:
        yield from each.open().frames
        each.frames.clear()
    for place in range(requests):
        each = made[place % STREAMS]
        each.put("left", data_of(place, 40 + place % 24), PUSH | ACK)
        each.put("right", data_of(place, 400 if place % 16 == 0 else 60 + place % 48), PUSH | ACK)
        yield from each.frames
        each.frames.clear()
    for each in made:
        yield from each.close().frames


def main(path, requests=REQUESTS):
    """Writes the file."""
    with open(path, "wb") as file:
        file.write(struct.pack("<IHHiIII", 0xA1B2C3D4, 2, 4, 0, 0, 262_144, ETHERNET))
        for place, frame in enumerate(traffic(int(requests))):
            octets = linked(frame)
            file.write(struct.pack("<IIII", 1_700_000_000 + place // 5_000, place % 5_000 * 200, len(octets), len(octets)) + octets)


if __name__ == "__main__":
    sys.exit(main(*sys.argv[1:]))
