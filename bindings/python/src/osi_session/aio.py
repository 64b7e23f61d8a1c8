"""Ends over asyncio: lines that read and write their octets, and a session for each connection.

    async with aio.dial("127.0.0.1", 4000) as line:
        async with line.session(Opening(user_data=b"gateway")) as session:
            await session.data(b"hello")

``serve_sessions`` is the other side. ``dial`` and ``serve`` make a line, an ``EndProtocol``, for one byte connection.
"""
from __future__ import annotations

import asyncio
from contextlib import asynccontextmanager
from typing import Any, AsyncIterator, Awaitable, Callable, Optional, Set

from ._end import End
from ._line import EndProtocol
from ._over import GivenUp, SessionOver, UnexpectedIndication
from ._sessions import CalledSession, CallingSession, Session
from ._values import Terms

__all__ = [
    "CalledSession",
    "CallingSession",
    "EndProtocol",
    "GivenUp",
    "Session",
    "SessionOver",
    "UnexpectedIndication",
    "dial",
    "serve",
    "serve_sessions",
]


@asynccontextmanager
async def dial(
    host: str, port: int, terms: Terms = Terms(), protocol: Callable[[End], EndProtocol] = EndProtocol, **options: Any
) -> AsyncIterator[EndProtocol]:
    """A line with a calling end to a TCP port. After the block, the byte connection is closed once everything is
    written (``EndProtocol.close``), or at once if the block raises, and the end is freed. ConnectionResetError if the
    byte connection was lost before everything was written, and the block doesn't know. Options are those of
    ``loop.create_connection``, such as ``ssl``."""
    loop = asyncio.get_running_loop()
    line = protocol(End.caller(terms))
    try:
        await loop.create_connection(lambda: line, host, port, **options)
        yield line
        await _closed(line)
        if line.untold > 0:
            raise ConnectionResetError(f"the byte connection was closed with {line.untold} octets unwritten")
    finally:
        line.abort()
        line.end.close()


async def _closed(line: EndProtocol) -> None:
    line.close()
    await line.wait_closed()


async def serve(
    handler: Callable[[EndProtocol], Awaitable[None]],
    host: Optional[str],
    port: Optional[int],
    terms: Terms = Terms(),
    protocol: Callable[[End], EndProtocol] = EndProtocol,
    **options: Any,
) -> asyncio.AbstractServer:
    """Listens on a TCP port. For each byte connection it calls the handler with a line with a called end. After the
    handler, the byte connection is closed once everything is written, or at once if the handler raises, and the end is
    freed. The event loop's exception handler gets what it raises. Options are those of ``loop.create_server``, such as
    ``ssl``."""
    loop = asyncio.get_running_loop()
    tasks: Set[asyncio.Task[None]] = set()

    async def handle(line: EndProtocol) -> None:
        try:
            await handler(line)
            await _closed(line)
        except Exception as error:
            told = {"message": "the handler of a line raised", "exception": error, "protocol": line}
            loop.call_exception_handler(told)
        finally:
            line.abort()
            line.end.close()

    def accepted() -> EndProtocol:
        line = protocol(End.called(terms))
        line.stays = True
        line.on_made(lambda: begin(line))
        return line

    def begin(line: EndProtocol) -> None:
        task = loop.create_task(handle(line))
        tasks.add(task)
        task.add_done_callback(tasks.discard)

    if port is not None:
        options["port"] = port
    return await loop.create_server(accepted, host, **options)


async def serve_sessions(
    handler: Callable[[CalledSession], Awaitable[None]],
    host: Optional[str],
    port: Optional[int],
    terms: Terms = Terms(),
    protocol: Callable[[End], EndProtocol] = EndProtocol,
    **options: Any,
) -> asyncio.AbstractServer:
    """Listens as ``serve`` does, and calls the handler for each session that a peer asks for, in a task of its own (see
    ``EndProtocol.answer_sessions``)."""
    return await serve(lambda line: line.answer_sessions(handler), host, port, terms, protocol, **options)
