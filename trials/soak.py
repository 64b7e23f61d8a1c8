"""Runs two ends in one process for many messages, and prints a table: nothing is lost, and memory does not grow.

    scripts/trials soak [MESSAGES [ROW ..]]

Each row is one run of trials/soak.c, which exchanges MESSAGES messages (by default 200,000): in memory and over loopback TCP,
in both classes, with one connection and 64, with and without points, restarts and data in parts. A row fails if a message is
lost or changed, or if the resident memory at the end and after the first hundredth differ by 1 MiB or more. Rows are counted
from 1; without numbers all are run.
"""
import os
import subprocess

from counts import Counts

TOP = os.path.dirname(os.path.dirname(os.path.abspath(__file__)))

ROWS = [
    ("in", "0", "1", "data"), ("in", "0", "1", "duplex"), ("in", "0", "1", "points"), ("in", "0", "1", "restarts"),
    ("in", "0", "1", "parts"), ("in", "2", "1", "data"), ("in", "2", "1", "points"), ("in", "2", "1", "parts"),
    ("in", "2", "64", "data"), ("in", "2", "64", "duplex"), ("in", "2", "64", "points"), ("in", "2", "64", "restarts"),
    ("in", "2", "64", "parts"),
    ("tcp", "0", "1", "data"), ("tcp", "0", "1", "duplex"), ("tcp", "0", "1", "points"), ("tcp", "0", "1", "restarts"),
    ("tcp", "0", "1", "parts"), ("tcp", "2", "1", "data"), ("tcp", "2", "64", "duplex"), ("tcp", "2", "64", "restarts"),
    ("tcp", "2", "64", "parts"),
]


def main(words):
    counts = Counts()
    messages = words[0] if words else "200000"
    wanted = [int(word) for word in words[1:]] or range(1, len(ROWS) + 1)
    if not os.path.exists(f"{TOP}/build/libosi-session.a"):
        raise SystemExit("there is no build/libosi-session.a: `make lib` builds it")
    os.makedirs(f"{TOP}/build/trials", exist_ok=True)
    flags = ["-std=c99", "-O2", "-Wall", "-Wextra", "-Wpedantic", "-Werror", "-I", f"{TOP}/include"]
    subprocess.run([os.environ.get("CC", "cc"), *flags, "-o", f"{TOP}/build/trials/soak", f"{TOP}/trials/soak.c",
                    f"{TOP}/build/libosi-session.a"], check=True)
    print("| Carried | Class | Connections | Traffic | Messages | Points | Restarts | Opened | Seconds | Messages a second | "
          "KiB at the end | KiB more than after 1 % |")
    print("|---|---|---|---|---|---|---|---|---|---|---|---|")
    failures = []
    for number in wanted:
        done = subprocess.run([f"{TOP}/build/trials/soak", messages, *ROWS[number - 1]], stdout=subprocess.PIPE, text=True)
        print(done.stdout, end="", flush=True)
        if done.returncode != 0:
            failures.append(" ".join(ROWS[number - 1]))
    counts.passed, counts.failed = len(wanted) - len(failures), len(failures)
    for failure in failures:
        print(f"FAILED: {failure}")
    return counts
