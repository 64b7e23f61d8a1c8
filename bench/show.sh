#!/usr/bin/env bash
# Lists captures of 16 MiB of text by the proved program, compared with `xxd -r -p` on the same text.
set -eu
cd "$(dirname "$0")/.."
make >&2
mkdir -p bench/out
python3 - bench/out <<'P'
import os, subprocess, sys
sys.dont_write_bytecode = True
sys.path.insert(0, "bench")
from processor import processor

RUNS = 9
PART = "0300008402f0%02x%s\n"
# The shortest packets, each with an empty TSDU, which is no group of session units; GT and DT in a TSDU of eight data units;
# GT and MIP with its number; CN with a group and five octets of user data.
TEXTS = {
    "the shortest packets": "0300000702f080\n",
    "data units of 125 octets": PART % (0, "01000100" + "41" * 121) + PART % (0, "41" * 125) * 6 + PART % (0x80, "41" * 125),
    "a minor point each": "0300000e02f080010031032a0131\n",
    "a CN each": "0300002202f0800d19050c1301001601021701311a0100140200b9c1054142434445\n",
}


def timed(job, path):
    """Seconds of processor time, the most MiB of memory, and the status."""
    with open(path, "rb") as text, open(os.devnull, "wb") as out:
        child = subprocess.Popen(job, stdin=text, stdout=out)
        _, status, used = os.wait4(child.pid, 0)
        return used.ru_utime + used.ru_stime, used.ru_maxrss // 1024, os.waitstatus_to_exitcode(status)


print("Listing 16 MiB of text, in seconds of processor time, beside `xxd -r -p`, which reads the digits and no more\n"
      f"{processor()}, the best of {RUNS} runs of each in turn. Below \"ours / xxd\" stands our speed divided by that of xxd: more"
      " is better.")
print(f"{'packets':>24} {'ours':>8} {'MB/s':>8} {'MiB used':>8} {'xxd':>8} {'ours / xxd':>10}")
for name, text in TEXTS.items():
    path = f"{sys.argv[1]}/show.hex"
    with open(path, "w") as out:
        out.write(text * ((1 << 24) // len(text)))
    best, peak = [1e9, 1e9], 0
    for _ in range(RUNS):
        seconds, used, status = timed(["crates/osi_tool/out/osi_tool", "show"], path)
        # 1 says that the listing has a fault
        assert status == (1 if "shortest" in name else 0), status
        best[0], peak = min(best[0], seconds), max(peak, used)
        best[1] = min(best[1], timed(["xxd", "-r", "-p"], path)[0])
    size = os.path.getsize(path)
    print(f"{name:>24} {best[0]:8.3f} {size / best[0] / 1e6:8.0f} {peak:8} {best[1]:8.3f} {best[1] / best[0]:10.2f}")
P
