#!/usr/bin/env python3
"""Times the calls of the package for Python: with the module in C, over ctypes, and without sessions. It needs what `make lib` builds.

    bench/python.py                             prints microseconds of processor time, the least of several runs, which take turns
    bench/python.py --beside CHECKOUT PYTHON..  compares this checkout with another one in which `make lib` was run, such as one of a
                                                release: many lines over asyncio, and messages of one line, with each of these Pythons.
                                                Prints medians of several runs, which take turns
"""
import asyncio
import contextlib
import os
import statistics
import subprocess
import sys
import time

TOP = os.path.dirname(os.path.dirname(os.path.abspath(__file__)))
sys.dont_write_bytecode = True
sys.path[:0] = [os.path.dirname(os.path.abspath(__file__)), os.path.join(TOP, "trials")]
from gateway_peers.costs import ECHOES, LINES, echoes  # noqa: E402
from processor import processor  # noqa: E402

RUNS, RUNS_BESIDE, CALLS, MESSAGES = 7, 3, 20000, 5000
DATA = bytes(range(100))
# How large the pieces are that a judge is fed.
PIECE = 65536
# What each process measures, by the unit of its figures.
OF_CALLS = ("a call for data of 100 octets", "an indication of them", "a call of a judge's feed, of no octets",
            "a TSDU of data in a judge's pieces of 64 KiB")
OF_MESSAGES = ("a message of 100 octets, asyncio, class 0", "the same, class 2", "a message and its echo, asyncio, class 0",
               "the same, class 2")
OF_LINES = (f"an echo on each of {LINES} lines, asyncio, both sides", "seconds of all of these, by the clock",
            "milliseconds of one, the median by the clock")


def opened(classes, passes=lambda is_called, piece: None):
    """Two ends with an open connection. What they send is passed on."""
    from osi_session import Connect, Connected, End, Opening, Terms

    caller, called = End.caller(Terms(classes=classes)), End.called(Terms(classes=classes))
    reference = caller.connect(Opening())
    for _ in range(4):
        for source, sink in ((caller, called), (called, caller)):
            piece = source.outgoing()
            source.taken(len(piece))
            passes(source is called, piece)
            for shown in sink.feed_all(piece):
                if isinstance(shown, Connect):
                    sink.accept(shown.reference, shown.requirements)
                else:
                    assert isinstance(shown, Connected), shown
    return caller, called, reference


def calls():
    """Microseconds of a call for data, and of an indication of data."""
    from osi_session import Classes

    caller, called, reference = opened(Classes.CLASS_0)
    data = caller.data
    began = time.process_time()
    for _ in range(CALLS):
        data(reference, DATA)
    said = time.process_time() - began
    piece = caller.outgoing()
    began = time.process_time()
    count = sum(1 for _ in called.feed_all(piece))
    heard = time.process_time() - began
    assert count == CALLS, count
    return said / CALLS * 1e6, heard / CALLS * 1e6


def judged():
    """Microseconds of a call of a judge's feed with no octets, and of a TSDU of data in large pieces."""
    from osi_session import Classes, Judge, JudgedSide

    judge = Judge()
    caller, _, reference = opened(Classes.CLASS_0, lambda is_called, piece: judge.feed(JudgedSide(is_called), piece))
    feed, side = judge.feed, JudgedSide.LEFT
    began = time.process_time()
    for _ in range(CALLS):
        feed(side, b"")
    called = time.process_time() - began
    for _ in range(CALLS):
        caller.data(reference, DATA)
    said = caller.outgoing()
    began = time.process_time()
    for at in range(0, len(said), PIECE):
        feed(side, said[at : at + PIECE])
    took = time.process_time() - began
    assert judge.text().endswith("both kept the protocol\n"), judge.text()
    return called / CALLS * 1e6, took / CALLS * 1e6


@contextlib.asynccontextmanager
async def session_of(classes, answer):
    """A session over loopback, both ends in this process."""
    from osi_session import Opening, Terms, Units
    from osi_session.aio import dial, serve_sessions

    async with await serve_sessions(answer, "127.0.0.1", 0, terms=Terms(classes=classes)) as server:
        port = server.sockets[0].getsockname()[1]
        async with dial("127.0.0.1", port, terms=Terms(classes=classes)) as line:
            async with line.session(Opening(Units.DUPLEX)) as session:
                yield session


async def streamed(classes):
    """Microseconds of a message that is sent as soon as the line takes it."""
    from osi_session import Data

    came = asyncio.Event()

    async def take(session):
        await session.accept()
        left = MESSAGES
        async for shown in session:
            left -= isinstance(shown, Data)
            if left == 0:
                came.set()

    async with session_of(classes, take) as session:
        began = time.process_time()
        for _ in range(MESSAGES):
            await session.data(DATA)
        await came.wait()
        return (time.process_time() - began) / MESSAGES * 1e6


async def exchanged(classes):
    """Microseconds of a message and its echo."""
    from osi_session import Data

    async def echo(session):
        await session.accept()
        async for shown in session:
            if isinstance(shown, Data):
                await session.data(shown.user_data)

    async with session_of(classes, echo) as session:
        began = time.process_time()
        for _ in range(MESSAGES):
            await session.data(DATA)
            await session.expect(Data)
        return (time.process_time() - began) / MESSAGES * 1e6


class Plain(asyncio.Protocol):
    """A byte connection without sessions. It answers what comes, or waits for it."""

    def __init__(self, answers):
        self.answers = answers

    def connection_made(self, transport):
        self.transport = transport

    def data_received(self, data):
        if self.answers:
            self.transport.write(data)
        else:
            self.awaited.set_result(data)


async def exchanged_plainly():
    """The same as `exchanged`, of octets alone."""
    loop = asyncio.get_running_loop()
    async with await loop.create_server(lambda: Plain(True), "127.0.0.1", 0) as server:
        transport, asker = await loop.create_connection(lambda: Plain(False), *server.sockets[0].getsockname())
        began = time.process_time()
        for _ in range(MESSAGES):
            asker.awaited = loop.create_future()
            transport.write(DATA)
            await asker.awaited
        took = time.process_time() - began
        transport.close()
        return took / MESSAGES * 1e6


def of_messages():
    """What each process measures of messages."""
    from osi_session import Classes

    both = (Classes.CLASS_0, Classes.CLASS_2)
    return [*(asyncio.run(streamed(classes)) for classes in both), *(asyncio.run(exchanged(classes)) for classes in both)]


def of_lines(python, kind):
    """An echo on each of many lines, or on as many byte connections: microseconds of one, seconds of all, milliseconds of one."""
    (seconds, median, took), errors = echoes(python, kind, LINES, ECHOES)
    assert not errors, errors
    return took / (LINES * ECHOES) * 1e6, seconds, median * 1e3


def of_process(python, checkout, what, way=""):
    """What a process measures with the package of a checkout."""
    os.environ.update(OSI_SESSION_DIR=f"{checkout}/build", PYTHONPATH=f"{checkout}/bindings/python/src",
                      OSI_SESSION_CTYPES="1" * (way == "ctypes"))
    done = subprocess.run([python, os.path.abspath(__file__), "--measure", what], check=True, capture_output=True, text=True)
    return [*map(float, done.stdout.split()), *of_lines(python, "osi")]


def of_way(way):
    """The figures of one way; 0 for what it doesn't have."""
    if way == "plain":
        return [*[0] * (len(OF_CALLS) + 2), *[asyncio.run(exchanged_plainly())] * 2, *of_lines(sys.executable, "plain")]
    return of_process(sys.executable, TOP, "all", way)


def table(names, columns, rows):
    print(f"{'':52}" + "".join(f" {name:>14}" for name in names))
    for name, row in zip(columns, rows):
        print(f"{name:52}" + "".join(f" {f'{figure:.2f}' if figure else '':>14}" for figure in row))


def ways():
    best = {}
    for _ in range(RUNS):
        for way in ("in C", "ctypes", "plain"):
            figures = of_way(way)
            best[way] = [min(pair) for pair in zip(best.get(way, figures), figures)]
    print(f"{processor()}, Python {sys.version.split()[0]}, microseconds of processor time, the least of {RUNS} runs")
    rows = [(ours, other, other / ours, plain) for ours, other, plain in zip(*best.values())]
    table(("in C", "ctypes", "ctypes / in C", "no session"), (*OF_CALLS, *OF_MESSAGES, *OF_LINES), rows)


def beside(checkout, python):
    """This checkout beside another one."""
    checkouts = (os.path.abspath(checkout), TOP)
    runs = {place: [] for place in checkouts}
    for _ in range(RUNS_BESIDE):
        for place in checkouts:
            runs[place].append(of_process(python, place, "messages"))
    medians = [[statistics.median(figures) for figures in zip(*runs[place])] for place in checkouts]
    version = subprocess.run([python, "-V"], check=True, capture_output=True, text=True).stdout.strip()
    print(f"{processor()}, {version}, microseconds of processor time, the median of {RUNS_BESIDE} runs; load {os.getloadavg()[0]:.1f}")
    rows = [(other, ours, ours / other) for other, ours in zip(*medians)]
    table(("the other one", "this one", "this / other"), (*OF_MESSAGES, *OF_LINES), rows)
    sys.stdout.flush()


def main(words):
    if words[:1] == ["--measure"]:
        calls_too = words[1] == "all"
        print(*(calls() + judged() if calls_too else ()), *of_messages())
    elif words[:1] == ["--beside"] and len(words) >= 2:
        for python in words[2:] or [sys.executable]:
            beside(words[1], python)
    elif words:
        sys.exit(__doc__)
    else:
        ways()


if __name__ == "__main__":
    main(sys.argv[1:])
