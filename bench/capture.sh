#!/usr/bin/env bash
# Judges 100 MB of MMS-like traffic in four streams (277,000 requests) by osi-capture, compared with tshark, which only prints the octets
# of TCP: bench/capture.sh [PROGRAM], where PROGRAM is the program osi.
set -eu
cd "$(dirname "$0")/.."
program=${1:-crates/osi_tool/out/osi_tool}
[ -x "$program" ] || make >&2
mkdir -p bench/out
[ -s bench/out/traffic.pcap ] || python3 bench/traffic.py bench/out/traffic.pcap
python3 - "$program" bench/out/traffic.pcap <<'P'
import os, subprocess, sys
sys.dont_write_bytecode = True
sys.path.insert(0, "bench")
from processor import processor

PROGRAM, FILE, RUNS = sys.argv[1], sys.argv[2], 3
WORDS = {"tshark": ["tshark", "-n", "-r", FILE, "-d", "tcp.port==1-65535,data", "-T", "fields", "-e", "tcp.payload"],
         "osi-capture judge": ["scripts/osi-capture", "judge", FILE, "--osi", PROGRAM]}


def timed(words):
    """Seconds of processor time with those of the programs that it runs, and the most MiB of memory of one of them."""
    with open(os.devnull, "wb") as out:
        child = subprocess.Popen(words, stdout=out, stderr=subprocess.DEVNULL)
        _, status, used = os.wait4(child.pid, 0)
        assert os.waitstatus_to_exitcode(status) == 0, words
        return used.ru_utime + used.ru_stime, used.ru_maxrss // 1024


best = {name: [1e9, 0] for name in WORDS}
for _ in range(RUNS):
    for name, words in WORDS.items():
        seconds, used = timed(words)
        best[name] = [min(best[name][0], seconds), max(best[name][1], used)]
print(f"{processor()}, the best of {RUNS} runs of each in turn\n{'':>20} {'seconds':>8} {'MiB':>6}")
for name, (seconds, used) in best.items():
    print(f"{name:>20} {seconds:8.2f} {used:6}")
print(f"osi-capture judge / tshark: {best['osi-capture judge'][0] / best['tshark'][0]:.2f}")
P
