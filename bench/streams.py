#!/usr/bin/env python3
"""Measures the memory of `osi-capture watch`: 100,000 streams in turn, and beside them one with 1,000,000 TSDUs of data.

The judge is one that keeps nothing, so this measures what the command itself keeps: python3 bench/streams.py [STREAMS]
"""
import os
import sys

sys.dont_write_bytecode = True
sys.path.insert(0, os.path.join(os.path.dirname(os.path.dirname(os.path.abspath(__file__))), "tools"))
from capture.test_watch import Months  # noqa: E402

STREAMS, PARTS = 100_000, 10


def main(streams=STREAMS):
    """Prints the memory after each tenth."""
    one = Months("memory")
    one.setUp()
    steady = one.steady()
    for part in range(PARTS):
        used = one.memory(int(streams) // PARTS, steady)
        done = (part + 1) * (int(streams) // PARTS)
        print(f"{done:,} streams, {10 * done:,} TSDUs: {used / 2 ** 20:.1f} MiB, held {one.held()}", flush=True)
    one.doCleanups()


if __name__ == "__main__":
    sys.exit(main(*sys.argv[1:]))
