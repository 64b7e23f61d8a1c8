"""What many lines and many connections cost: each run yields what it tests, whether that holds, and why not."""
import os
import subprocess
import time

from gateway_peers import peers

PROGRAM = os.path.join(os.path.dirname(os.path.abspath(__file__)), "lines.py")
LINES, ECHOES = 500, 20
# How many times as much processor time an echo over lines may take as one over plain byte connections: with the module in C it takes
# some 2 to 3 times as much. It is measured again, up to so many times, if other work of the machine was in the way.
MOST_RATIO, TRIES = 5, 5
# How many nanoseconds a call for verdicts takes for each connection: a hundred times as many as on an idle machine.
MOST_LOOK = 13_000


def echoes(python, kind, lines, count):
    """The seconds of so many echoes on each of so many lines, the median of one, and the processor time of all, on both sides."""
    server = subprocess.Popen([python, PROGRAM, kind, "serve"], stdout=subprocess.PIPE, text=True)
    try:
        port = server.stdout.readline().strip()
        done = subprocess.run([python, PROGRAM, kind, port, str(lines), str(count), str(server.pid)], capture_output=True, text=True,
                              timeout=300)
        return [float(word) for word in done.stdout.split()] or [float("inf")] * 3, done.stderr
    finally:
        server.kill()
        server.wait()
        server.stdout.close()


def many_lines(python, version):
    """500 lines over asyncio, 20 echoes on each: at most some times the processor time of as many plain byte connections."""
    best = (float("inf"),)
    for _ in range(TRIES):
        (_, median, took), errors = echoes(python, "osi", LINES, ECHOES)
        (_, _, plain), _ = echoes(python, "plain", LINES, ECHOES)
        best = min(best, (took / plain, took / LINES / ECHOES, median, errors))
        if best[0] <= MOST_RATIO:
            break
    ratio, each, median, errors = best
    yield (f"on each of {LINES} lines, each of {ECHOES} echoes takes {1e6 * each:.0f} us of processor time on Python {version}, {ratio:.1f}"
           f" times as much as without sessions; the median is {1000 * median:.0f} ms", ratio <= MOST_RATIO,
           f"the bound is {MOST_RATIO} times; {errors}")


def closed_connections(count):
    """What both sides of a byte connection send for connections of class 2 that are opened and closed, one after the other."""
    for number in range(count):
        left, right = (number % 65_535 + 1).to_bytes(2, "big"), (number % 65_535 + 1).to_bytes(2, "big")
        yield False, peers.connect_request(number % 65_535 + 1, 2)
        yield True, peers.packet(b"\6\xd0" + left + right + b"\x20")
        yield False, peers.packet(b"\6\x80" + right + left + b"\x80")
        yield True, peers.packet(b"\5\xc0" + left + right)


def judged():
    """What a look for verdicts costs a judge for each connection that was ever requested on its byte connection."""
    from osi_session import Judge, JudgedSide
    for count in (1_000, 15_000):
        with Judge() as judge:
            for is_right, octets in closed_connections(count):
                judge.feed(JudgedSide.RIGHT if is_right else JudgedSide.LEFT, octets)
            times = []
            for _ in range(20):
                began = time.perf_counter()
                told = list(judge.verdicts())
                times.append(time.perf_counter() - began)
        each = 1e9 * min(times) / count
        yield (f"osi_judge_next takes {each:.0f} ns for each of {count} connections", not told and each <= MOST_LOOK,
               f"the bound is {MOST_LOOK} ns; {told[:3]}")
