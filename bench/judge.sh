#!/usr/bin/env bash
# Judges captures of 16 MiB of text by the proved program, compared with `osi show` on the octets of both directions.
set -eu
cd "$(dirname "$0")/.."
make >&2
mkdir -p bench/out
python3 - bench/out <<'P'
import os, subprocess, sys, time
sys.dont_write_bytecode = True
sys.path.insert(0, "bench")
from processor import processor
from script import JUDGED_OPENING, packet, point

RUNS, SIZE = 5, (1 << 24) - 1024
PROGRAM = "crates/osi_tool/out/osi_tool"
# With duplex both sides send data at any time: CR, CC, and a CN and an AC that select it alone.
DUPLEX = JUDGED_OPENING.replace("140200b9", "14020002")


def texts():
    """What is judged, by its name: the smallest data of both sides in turn, data of left alone, and confirmed points."""
    for name, tsdu in (("smallest data", "0100010041"), ("data of 1,000 octets", "01000100" + "41" * 1000)):
        each = packet(tsdu) + "\t" + packet(tsdu)
        yield f"{name}, both ways", DUPLEX + each * (SIZE // len(each))
    points, size = [JUDGED_OPENING], 0
    while size < SIZE:
        points.append(point(len(points)))
        size += len(points[-1])
    yield "confirmed points", "".join(points)


def most_of(pid):
    """The most KiB of memory that a process has had so far, or 0 if it is gone. (What wait4 tells counts this program's memory, too.)"""
    with open(f"/proc/{pid}/status") as status:
        return max([int(line.split()[1]) for line in status if line.startswith("VmHWM")], default=0)


def timed(word, path):
    """Seconds of processor time, the most MiB of memory, and the status."""
    with open(path, "rb") as text, open(os.devnull, "wb") as out:
        child = subprocess.Popen([PROGRAM, word], stdin=text, stdout=out)
        peak, ended = 0, 0
        while not ended:
            peak = max(peak, most_of(child.pid))
            time.sleep(0.002)
            ended, status, used = os.wait4(child.pid, os.WNOHANG)
        return used.ru_utime + used.ru_stime, peak / 1024, os.waitstatus_to_exitcode(status)


print("Judging 16 MiB of text, in seconds of processor time, beside `osi show` on the same octets\n"
      f"{processor()}, the best of {RUNS} runs of each in turn. Below \"show / judge\" stands its speed divided by that of show.")
print(f"{'capture':>32} {'judge':>8} {'MiB used':>8} {'show':>8} {'show / judge':>12}")
for name, text in texts():
    judged, listed = f"{sys.argv[1]}/judge.hex", f"{sys.argv[1]}/judge-show.hex"
    with open(judged, "w") as out:
        out.write(text)
    # osi show reads one direction: both in one stream are the same octets.
    with open(listed, "w") as out:
        out.write(text.replace("\t", ""))
    best, peak = [1e9, 1e9], 0
    for _ in range(RUNS):
        seconds, used, status = timed("judge", judged)
        assert status == 0, status
        best[0], peak = min(best[0], seconds), max(peak, used)
        best[1] = min(best[1], timed("show", listed)[0])
    print(f"{name:>32} {best[0]:8.3f} {peak:8.1f} {best[1]:8.3f} {best[1] / best[0]:12.2f}")
P
