#!/usr/bin/env bash
# Messages over loopback TCP: by the programs of examples/gateway, in class 0 and in class 2 with a window of 15, compared with C
# in the same loop: with stacks written by hand (byhand.c), and with nothing but frames and copies (plain.c), without a window and
# with one of 15.
set -eu
cd "$(dirname "$0")/.."
make lib >&2
mkdir -p bench/out
for name in plain byhand; do
    gcc -O2 -Wall -Wextra -o "bench/out/$name" "bench/$name.c"
done
for name in server client; do
    gcc -std=c99 -O2 -Wall -Wextra -Iinclude -o "bench/out/$name" "examples/gateway/$name.c" examples/gateway/gateway.c build/libosi-session.a
done
python3 - bench/out <<'P'
import os, re, subprocess, sys
sys.dont_write_bytecode = True
sys.path.insert(0, "bench")
from processor import processor

RUNS = 15
COUNT, OCTETS = 200000, 1000
OUT = sys.argv[1]


def rate_of(text):
    """Messages a second."""
    return int(re.search(r": (\d+) messages/s", text).group(1))


def in_c(name, *more):
    words = [f"{OUT}/{name}", str(COUNT), str(OCTETS), *more]
    return rate_of(subprocess.run(words, capture_output=True, text=True, check=True).stdout)


def gateway(number):
    terms = ["--classes", number, "--window", "15"]
    server = subprocess.Popen([f"{OUT}/server", "--port", "0", "--peers", "1", *terms], stdout=subprocess.PIPE, text=True)
    port = server.stdout.readline().split()[1]
    client = subprocess.run([f"{OUT}/client", "--port", port, *terms, "--bulk", str(COUNT), "--size", str(OCTETS)],
                            capture_output=True, text=True, check=True)
    took, _ = server.communicate()
    assert took == f"took {COUNT} messages, {COUNT * OCTETS} octets\n", took
    return rate_of(client.stdout)


WAYS = {"class 0": lambda: gateway("0"), "class 2, a window of 15": lambda: gateway("2"),
        "C by hand, class 0": lambda: in_c("byhand", "0"), "C by hand, class 2": lambda: in_c("byhand", "2"),
        "plain C": lambda: in_c("plain"), "plain C, a window of 15": lambda: in_c("plain", "15")}


def measure(place, processors):
    """The rates of each way, of programs that run on these processors alone."""
    os.sched_setaffinity(0, processors)
    rates = {name: [] for name in WAYS}
    for _ in range(RUNS):
        for name, way in WAYS.items():
            rates[name].append(way())
    print(f"{place:>28} {'best':>10} {'middle':>10} {'of class 0':>10}")
    for name, those in rates.items():
        print(f"{name:>28} {max(those):10,} {sorted(those)[RUNS // 2]:10,} {max(those) / max(rates['class 0']):10.2f}")


print(f"{COUNT:,} messages of {OCTETS:,} octets over loopback TCP, in messages a second: more is better\n"
      f"{processor()}, the best and the middle of {RUNS} runs of each in turn. Below \"of class 0\" stands the best divided by the"
      " best of class 0.")
there = os.sched_getaffinity(0)
measure("both on one processor", {max(there)})
measure(f"on {len(there)} processors", there)
P
