#!/usr/bin/env bash
# Compares three programs on scripts of two ends: the proved program; two ends of the library for C with the same calls, octets
# and indications; and a program in C that reads the scripts and prints the same transcript. A script of 1,000 lines and one of
# 10,000 repeat the same calls. A carry costs time in proportion to its octets, so the longer script takes about ten times as
# long.
set -eu
cd "$(dirname "$0")/.."
make all lib >&2
mkdir -p bench/out
for program in pair transcript; do
    gcc -O2 -Wall -Wextra -Iinclude -o "bench/out/$program" "bench/$program.c" build/libosi-session.a
done
python3 - bench/out <<'P'
import re, subprocess, sys, time
sys.dont_write_bytecode = True
sys.path.insert(0, "bench")
from processor import processor
from script import script

RUNS = 25


def timed(command, script):
    with open(script, "rb") as text:
        start = time.perf_counter()
        done = subprocess.run(command, stdin=text, stdout=subprocess.PIPE)
        took = time.perf_counter() - start
    assert done.returncode == 0, command
    return took, done.stdout.decode()


def alike(transcript, counts):
    """Both carried as many octets, and showed as many indications."""
    carried = sum(int(number) for number in re.findall(r"^\w+ carried (\d+)$", transcript, re.M))
    shown = len(re.findall(r"^\w+ 1 [A-Z]", transcript, re.M))
    return "refused" not in transcript and counts.split() == [str(carried), str(shown)]


def best_of(lines):
    """The least seconds of the program, of two ends for C, and of C that reads the script, from start to end of a process."""
    turns = (lines - 7) // 6
    path = f"{sys.argv[1]}/pair-{lines}.script"
    with open(path, "w") as out:
        out.write(script(turns))
    program = ends = reader = 1e9
    for _ in range(RUNS):
        seconds, transcript = timed(["crates/osi_tool/out/osi_tool", "pair"], path)
        program = min(program, seconds)
        seconds, counts = timed([f"{sys.argv[1]}/pair", str(turns)], path)
        ends = min(ends, seconds)
        seconds, told = timed([f"{sys.argv[1]}/transcript"], path)
        reader = min(reader, seconds)
        assert told == transcript, "C prints another transcript"
    assert alike(transcript, counts), (transcript[:200], counts)
    return program, ends, reader


def row(name, program, ends, reader, lines):
    print(f"{name:>24} {program * 1e3:8.2f} {program / lines * 1e6:9.2f} {ends * 1e3:8.2f} {ends / program:8.2f}"
          f" {reader * 1e3:8.2f} {reader / program:8.2f}")


print("Scripts of two ends, in ms, beside two ends by the library for C that do the same calls, and beside C that reads the"
      " script and prints the same transcript\n"
      f"{processor()}, the best of {RUNS} runs of each in turn. Below \"ours / C\" stands our speed divided by that of C:"
      " more is better.")
print(f"{'lines':>24} {'ours':>8} {'us a line':>9} {'ends':>8} {'ours / C':>8} {'reader':>8} {'ours / C':>8}")
took = {lines: best_of(lines) for lines in (1000, 10000)}
for lines in took:
    row(f"{lines:,}", *took[lines], lines)
row("9,000 behind the first", *(took[10000][way] - took[1000][way] for way in range(3)), 9000)
P
