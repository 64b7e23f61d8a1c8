#!/usr/bin/env python3
"""The called side of a gateway over asyncio, for many peers at once.

It accepts each connection that a peer asks for, confirms each point, answers after it has received the tokens, and releases
the connection.

    server.py [--port 4000] [--peers COUNT] [--classes 0|2|20] [--window 1..15] [--tsdu OCTETS] [--wait SECONDS]
              [--log FILE]

It prints the port that it listens on (0 takes a free one). With --peers it ends after COUNT peers have come and gone,
and prints how much data it took. It gives up a peer that asks for no connection within --wait seconds, that is silent for that
long, that has not ended a packet or data by then, or reads nothing; and if all places are taken, the least active one. It logs
this.
"""
from __future__ import annotations

import argparse
import asyncio
import signal
import sys
from time import monotonic
from typing import Awaitable, Optional, Set, TextIO, Tuple, cast

from client import log_to, words
from osi_session import Classes, Data, End, Given, Indication, Minor, Phase, SessionError, Sizes, Terms, Units, aio

UNITS = Units.HALF_DUPLEX | Units.MINOR_SYNC | Units.NEGOTIATED_RELEASE
# If a peer gives no credit for this many octets of answers, its connection is answered no more and given up.
MOST_UNSENT = 16_384
# The most byte connections at a time. If another comes, the least active peer gives way.
MOST_PEERS = 256


class Peer(aio.EndProtocol):
    """One byte connection, the sessions that its peer asks for, and how long the peer may take."""

    def __init__(self, end: End, server: Server) -> None:
        super().__init__(end)
        self.server, self.messages = server, 0
        # When octets last came; when no packet or data was incomplete, or one was completed; since when the peer reads too
        # slowly; and when the last indication came.
        self.began = self.moved = self.whole = self.shown_at = monotonic()
        self.slow_since: Optional[float] = None
        self.was_heard = self.was_shown = False
        self.watching: Optional[asyncio.TimerHandle] = None

    def tell(self, text: str) -> None:
        print(f"right {text}", file=self.server.log, flush=True)

    # ---- timers

    def connection_made(self, transport: asyncio.BaseTransport) -> None:
        super().connection_made(transport)
        self.look()

    def data_received(self, data: bytes) -> None:
        self.was_heard, self.moved = True, monotonic()
        super().data_received(data)
        self.note_whole()

    def indication_received(self, indication: Indication) -> None:
        self.was_shown = True
        self.whole = self.shown_at = monotonic()
        super().indication_received(indication)

    def pause_writing(self) -> None:
        super().pause_writing()
        self.slow_since = monotonic()

    def resume_writing(self) -> None:
        super().resume_writing()
        self.slow_since = None

    def connection_lost(self, error: Optional[Exception]) -> None:
        if self.watching is not None:
            self.watching.cancel()
        super().connection_lost(error)

    def note_whole(self) -> None:
        """Notes if no packet or data is incomplete, or if this side has not fed the rest of it."""
        if self.end.closed or self.end.kept() == 0 or self.holds_back:
            self.whole = monotonic()

    def look(self) -> None:
        """Gives the peer up if it is overdue; else looks again when it may be."""
        now, patience = monotonic(), self.server.patience
        self.note_whole()
        times = [self.moved if self.was_shown else self.began, self.whole]
        left = min(times + [self.slow_since or now]) + patience - now
        if left <= 0:
            self.drop(self.overdue(now - patience))
        else:
            self.watching = asyncio.get_running_loop().call_later(max(left, 0.01), self.look)

    def overdue(self, since: float) -> str:
        """What the peer has not done since this time."""
        if self.whole <= since:
            return "a packet or data is not ended"
        if self.slow_since is not None and self.slow_since <= since:
            return "the peer does not read"
        return "nothing was shown" if self.was_heard and not self.was_shown else "the peer is silent"

    def activity(self) -> Tuple[bool, float]:
        """How active the peer is: one with less of it has no session, or has sent nothing whole for longer."""
        return self.was_shown, self.shown_at

    def drop(self, why: str) -> None:
        """Gives the peer up. Logs why, and the phase of each connection that had no indication yet."""
        self.tell(f"gives up: {why}")
        reference = 1
        while not self.was_shown and not self.end.closed and self.end.phase(reference) is not Phase.NONE:
            self.tell(f"{reference} was never shown, OSI_PHASE_{self.end.phase(reference).name}")
            reference += 1
        self.abort()

    # ---- sessions

    async def did(self, session: aio.Session, verb: str, call: Awaitable[None]) -> None:
        """Awaits a call, and writes it to the log."""
        try:
            await call
            self.tell(f"{session.reference} {verb} ok")
        except SessionError as error:
            self.tell(f"{session.reference} {verb} refused: {error}")
            raise

    def may_answer(self, session: aio.Session) -> bool:
        """Whether a session may be answered. If its peer keeps asking and gives no credit for the answers, it is given
        up; its next indication is GivenUp."""
        if session.end.unsent(session.reference) <= MOST_UNSENT:
            return True
        self.give_up(session.reference)
        return False

    async def answer(self, session: aio.CalledSession) -> None:
        self.tell(f"{session.reference} {words(session.asked)}")
        accepted = session.accept(session.asked.requirements & UNITS, 0, sizes=self.server.sizes)
        await self.did(session, "accept", accepted)
        try:
            async for shown in session:
                self.tell(f"{session.reference} {words(shown)}")
                await self.react(session, shown)
        except aio.SessionOver as over:
            self.tell(f"{session.reference} {words(over.indication)}")

    async def react(self, session: aio.Session, shown: Indication) -> None:
        if isinstance(shown, Data):
            self.messages += 1
            self.server.took(shown)
        elif isinstance(shown, Minor) and shown.confirm and self.may_answer(session):
            await self.did(session, "minorconfirm", session.minor_confirm(shown.number))
        elif isinstance(shown, Given) and self.may_answer(session):
            await self.did(session, "data", session.data(f"{self.messages} messages".encode()))
            await self.did(session, "release", session.release())


class Server:
    """All peers."""

    def __init__(self, options: argparse.Namespace, log: TextIO) -> None:
        self.sizes, self.awaited, self.log = Sizes(options.tsdu, options.tsdu), options.peers, log
        self.patience: float = options.wait
        self.messages = self.octets = 0
        self.peers: Set[Peer] = set()
        self.done, self.status = asyncio.Event(), 0

    def interrupt(self) -> None:
        self.status = 130
        self.done.set()

    def took(self, data: Data) -> None:
        self.messages += 1
        self.octets += len(data.user_data)

    async def serve(self, line: aio.EndProtocol) -> None:
        peer = cast(Peer, line)
        if self.awaited == 0:
            peer.abort()
            return
        self.awaited -= 1
        if len(self.peers) >= MOST_PEERS:
            least = min(self.peers, key=Peer.activity)
            self.peers.discard(least)
            least.drop("it gives way to another peer")
        self.peers.add(peer)
        try:
            await peer.answer_sessions(peer.answer)
        finally:
            self.peers.discard(peer)
            if self.awaited == 0 and not self.peers:
                self.done.set()


async def run(options: argparse.Namespace, log: TextIO) -> int:
    server = Server(options, log)
    asyncio.get_running_loop().add_signal_handler(signal.SIGINT, server.interrupt)
    classes = Classes(("0" in options.classes) | ("2" in options.classes) << 1)
    terms = Terms(classes, window=options.window)
    peer = lambda end: Peer(end, server)
    listener = await aio.serve(server.serve, "127.0.0.1", options.port, terms, peer, backlog=MOST_PEERS)
    print(f"port {cast(asyncio.Server, listener).sockets[0].getsockname()[1]}", flush=True)
    await server.done.wait()
    listener.close()
    print(f"took {server.messages} messages, {server.octets} octets")
    return server.status


def main() -> int:
    parser = argparse.ArgumentParser(description=(__doc__ or "").splitlines()[0])
    parser.add_argument("--port", type=int, default=4000)
    parser.add_argument("--peers", type=int, default=sys.maxsize)
    parser.add_argument("--classes", default="20")
    parser.add_argument("--window", type=int, default=15)
    parser.add_argument("--tsdu", type=int, default=0)
    parser.add_argument("--wait", type=float, default=10)
    parser.add_argument("--log", default="-")
    options = parser.parse_args()
    with log_to(options.log) as log:
        return asyncio.run(run(options, log))


if __name__ == "__main__":
    sys.exit(main())
