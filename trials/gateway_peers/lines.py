#!/usr/bin/env python3
"""Echoes over many lines of asyncio at once, and over as many plain byte connections, to compare with.

    lines.py osi|plain serve                      prints its port
    lines.py osi|plain PORT LINES ECHOES [PID]    opens all lines, then asks on each so many times; prints the seconds of all
                                                  echoes together, the median of one, and the seconds of processor time that they
                                                  took here and in the process PID, the server
"""
import asyncio
import os
import resource
import sys
import time

from osi_session import Data, Opening, Units, aio

HOST, TEXT = "127.0.0.1", b"0123456789"


async def answer(session):
    await session.accept(Units.DUPLEX)
    async for shown in session:
        if isinstance(shown, Data):
            await session.data(shown.user_data)


class Plain(asyncio.Protocol):
    """A byte connection. It answers what comes, or waits for it."""

    def __init__(self, answers=False):
        self.answers, self.awaited = answers, None

    def connection_made(self, transport):
        self.transport = transport

    def data_received(self, data):
        if self.answers:
            self.transport.write(data)
        elif self.awaited is not None:
            self.awaited.set_result(data)
            self.awaited = None

    async def echo(self):
        self.awaited = asyncio.get_running_loop().create_future()
        self.transport.write(TEXT)
        await self.awaited


async def serve(kind):
    loop = asyncio.get_running_loop()
    if kind == "osi":
        listener = await aio.serve_sessions(answer, HOST, 0, backlog=1024)
    else:
        listener = await loop.create_server(lambda: Plain(True), HOST, 0, backlog=1024)
    print(listener.sockets[0].getsockname()[1], flush=True)
    await listener.serve_forever()


def processor_seconds(processes):
    """The processor time that these processes have taken."""
    ticks = 0
    for process in processes:
        with open(f"/proc/{process}/stat") as file:
            fields = file.read().rpartition(")")[2].split()
        ticks += int(fields[11]) + int(fields[12])
    return ticks / os.sysconf("SC_CLK_TCK")


class Run:
    """So many echoes on each of so many lines, which begin once all are open."""

    def __init__(self, port, lines, echoes, *others):
        self.port, self.lines, self.echoes, self.left = port, lines, echoes, lines
        self.times, self.begins, self.processes = [], asyncio.Event(), (os.getpid(), *others)

    async def begin(self):
        self.left -= 1
        if self.left == 0:
            self.began, self.taken = time.perf_counter(), processor_seconds(self.processes)
            self.begins.set()
        await self.begins.wait()

    async def ask(self, echo):
        await self.begin()
        for _ in range(self.echoes):
            began = time.perf_counter()
            await echo()
            self.times.append(time.perf_counter() - began)
        self.left += 1
        if self.left == self.lines:
            self.ended, self.taken = time.perf_counter(), processor_seconds(self.processes) - self.taken

    async def osi(self):
        async with aio.dial(HOST, self.port) as line, line.session(Opening(Units.DUPLEX)) as session:

            async def echo():
                await session.data(TEXT)
                await session.expect(Data)

            await self.ask(echo)

    async def plain(self):
        _, line = await asyncio.get_running_loop().create_connection(Plain, HOST, self.port)
        await self.ask(line.echo)
        line.transport.close()

    async def run(self, kind):
        await asyncio.gather(*(getattr(self, kind)() for _ in range(self.lines)))
        print(f"{self.ended - self.began:.3f} {sorted(self.times)[len(self.times) // 2]:.6f} {self.taken:.2f}")


async def main(kind, *words):
    if words == ("serve",):
        await serve(kind)
    else:
        await Run(*(int(word) for word in words)).run(kind)


if __name__ == "__main__":
    files = resource.getrlimit(resource.RLIMIT_NOFILE)
    resource.setrlimit(resource.RLIMIT_NOFILE, (min(4096, files[1]), files[1]))
    if os.environ.get("OSI_SESSION_LOOP") == "uvloop":
        import uvloop

        asyncio.set_event_loop_policy(uvloop.EventLoopPolicy())
    asyncio.run(main(*sys.argv[1:]))
