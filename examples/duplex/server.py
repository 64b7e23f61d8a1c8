#!/usr/bin/env python3
"""A duplex server to copy: it answers data with the same data. Your application goes into ``answer``.

    server.py [PORT [SELECTOR]]    4000, and the session selector that callers have to name; without one, any

docs/TUTORIAL.md walks through it, and docs/GUIDE.md (Bounds) has the reason for each bound and time.
"""
from __future__ import annotations

import asyncio
import signal
import socket
import sys
from time import monotonic
from typing import Optional, Set, Tuple

from osi_session import Classes, Data, End, Indication, Terms, Units, aio

# Seconds that a peer may owe something, and places.
WAIT, MOST_PEERS = 10.0, 256
# The most octets that are not whole yet. A line bounds the others (docs/PYTHON.md, What a line keeps).
MOST_KEPT = 65_536
selector = b""


async def answer(session: aio.CalledSession, asked: bytes) -> None:
    """Your application. The call waits until there is room; a peer that takes no answers is given up."""
    await asyncio.wait_for(session.data(asked), WAIT)


async def serve_session(session: aio.CalledSession) -> None:
    addresses = session.addresses
    called = addresses.called_selector if addresses is not None else b""
    if called != (selector or called) or not session.asked.requirements & Units.DUPLEX:
        await session.refuse()
        return
    await session.accept(Units.DUPLEX)
    try:
        # (The loop accepts a release, and raises SessionOver if the session ends in another way.)
        async for shown in session:
            if isinstance(shown, Data):
                await answer(session, shown.user_data)
    except asyncio.TimeoutError:
        print(f"session {session.reference} takes no answers", file=sys.stderr)
        session.line.give_up(session.reference)
    except aio.SessionOver as over:
        print(over, file=sys.stderr)


class Peer(aio.EndProtocol):
    """One byte connection, and what its peer owes."""

    def __init__(self, end: End) -> None:
        super().__init__(end)
        # When the last indication came, and whether one did; when the peer last owed no session and no rest of data; and
        # since when it reads too slowly.
        self.shown = self.whole = monotonic()
        self.has_session = False
        self.slow_since: Optional[float] = None
        self.timer: Optional[asyncio.TimerHandle] = None

    def connection_made(self, transport: asyncio.BaseTransport) -> None:
        super().connection_made(transport)
        made = self.get_extra_info("socket")
        # An idle session may stay for days. TCP finds out if the peer's machine is gone.
        made.setsockopt(socket.SOL_SOCKET, socket.SO_KEEPALIVE, 1)
        self.look()

    def data_received(self, data: bytes) -> None:
        super().data_received(data)
        self.note()

    def indication_received(self, indication: Indication) -> None:
        self.has_session = True
        self.shown = self.whole = monotonic()
        super().indication_received(indication)

    def pause_writing(self) -> None:
        super().pause_writing()
        self.slow_since = monotonic()

    def resume_writing(self) -> None:
        super().resume_writing()
        self.slow_since = None

    def connection_lost(self, error: Optional[Exception]) -> None:
        if self.timer is not None:
            self.timer.cancel()
        super().connection_lost(error)

    def note(self) -> None:
        """Notes if nothing is incomplete, or if this side has not fed the rest."""
        if self.end.closed or self.holds_back or (self.has_session and self.end.kept() == 0):
            self.whole = monotonic()

    def look(self) -> None:
        """Drops the peer if it owes something for too long, or has sent too much; looks again in a second."""
        self.note()
        oldest = min(self.whole, self.slow_since or self.whole)
        if monotonic() - oldest > WAIT or (not self.end.closed and self.end.kept() > MOST_KEPT):
            self.drop("it is too slow, or sends too much")
        else:
            self.timer = asyncio.get_running_loop().call_later(1.0, self.look)

    def activity(self) -> Tuple[bool, float]:
        return self.has_session, self.shown

    def drop(self, why: str) -> None:
        print(f"a peer is dropped: {why}", file=sys.stderr)
        self.abort()


peers: Set[Peer] = set()


async def serve_peer(line: aio.EndProtocol) -> None:
    """One byte connection. If all places are taken, a peer without a session, or else the one that sent nothing whole for
    longest, gives way."""
    assert isinstance(line, Peer)
    if len(peers) >= MOST_PEERS:
        least = min(peers, key=Peer.activity)
        peers.discard(least)
        least.drop("it gives way to another peer")
    peers.add(line)
    try:
        await line.answer_sessions(serve_session)
    finally:
        peers.discard(line)


async def main(port: int) -> None:
    terms = Terms(Classes.BOTH)
    listener = await aio.serve(serve_peer, "127.0.0.1", port, terms, Peer, backlog=MOST_PEERS)
    stopped = asyncio.Event()
    asyncio.get_running_loop().add_signal_handler(signal.SIGINT, stopped.set)
    await stopped.wait()
    listener.close()
    for peer in set(peers):
        peer.abort()
    while peers:
        await asyncio.sleep(0.01)


if __name__ == "__main__":
    selector = sys.argv[2].encode() if len(sys.argv) > 2 else b""
    asyncio.run(main(int(sys.argv[1]) if len(sys.argv) > 1 else 4000))
    sys.exit(130)
