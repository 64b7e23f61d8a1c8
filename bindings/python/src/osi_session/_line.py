"""An end on a byte connection of asyncio: a line."""
from __future__ import annotations

import asyncio
from collections import deque
from contextlib import asynccontextmanager, suppress
from typing import (
    Any,
    AsyncIterator,
    Awaitable,
    Callable,
    Deque,
    Dict,
    Optional,
    Set,
    Type,
    TypeVar,
    Union,
    cast,
    overload,
)

from ._codes import Code, Phase, SessionError
from ._end import End
from ._over import GivenUp, SessionOver, UnexpectedIndication
from ._pending import Answers, Feed, Pending
from ._sessions import CalledSession, CallingSession, Session
from ._turns import Turns
from ._values import Connect, Connected, Indication, Opening

S = TypeVar("S", bound=Indication)
T = TypeVar("T", bound=Indication)

# The most octets that are handed to the transport at once. A caller that waits for room waits until no more are unsent.
_PIECE = 65536


def _unwritten(transport: asyncio.Transport) -> int:
    """How many octets the transport still has. (In Python 3.9 and 3.10 a TLS transport whose socket is gone raises
    AttributeError until connection_lost is called.)"""
    try:
        return transport.get_write_buffer_size()
    except AttributeError:
        return 0


class EndProtocol(asyncio.Protocol):
    """An end on a byte connection of asyncio: a line.

    Most programs want a session for each connection: ``session`` asks for one, and ``next_session`` and
    ``answer_sessions`` take those that the peer asks for. You can also make calls of ``end``, whose octets are written
    at once, and fetch the indications of all connections without a session by ``next``, ``expect`` or ``async for``. If
    you want indications as they come, override ``indication_received``. Use a line in one event loop, and only from its
    thread.

    Memory stays bounded. If a connection has 64 pending indications, or 256 KiB of them, the line reads no more until
    some are fetched, so TCP slows the peer down. While somebody waits for an indication of another connection, it reads
    on until ``most_ahead`` octets are pending in all. While somebody waits for room (``drain``, or a call of a session),
    it always reads on, because the peer's acknowledgements come in the same octets. Then, if ``most`` octets are pending,
    or ``most_unpaid`` that came while their connections gave no credit, it gives up the connection that has most of them
    (see ``give_up``). The others go on.

    No peer delays those of other lines for long: in one turn of the event loop a line is fed for half a millisecond, and its
    indications are fetched for half a millisecond, at most 64 of them. The rest comes in the next turns.

    The line closes the byte connection if the end has ended, and, unless ``stays`` is true, after its last connection.
    A line of ``serve`` stays open, because its peer may ask for more connections; so does one on which ``session`` was
    called.
    """

    stays: bool = False
    most: int = 67_108_864
    """How many octets of indications may be pending: their user data, and 512 for each."""
    most_ahead: int = 8_388_608
    """How many of these may be pending while somebody waits for an indication of another connection."""
    most_unpaid: int = 8_388_608
    """How many of these may be unpaid: they came on connections for whose credit this side waits, and that gave none."""
    linger: float = 30.0
    """How many seconds a closing line waits until its peer takes some octets, and at the end until it closes too."""

    def __init__(self, end: End) -> None:
        self.end = end
        end.on_outgoing = self.flush
        self._transport: Optional[asyncio.Transport] = None
        self._made: Callable[[], None] = lambda: None
        self._feed, self._pending, self._answers = Feed(end), Pending(), Answers()
        self._shown: Deque[Indication] = deque()
        self._sessions: Dict[int, Session] = {}
        # Connections that had an indication and are not over; those whose indications are no longer kept; and those that
        # were lost with unwritten octets, with their number, until their users have been told.
        self._open: Set[int] = set()
        self._left: Set[int] = set()
        self._cut: Set[int] = set()
        self._cut_octets = 0
        # The waiting tasks, and the share of each turn of the event loop; how many tasks wait for room, and for an indication.
        self._turns = Turns(self._begin_turn)
        self._draining = self._awaiting = 0
        self._reading = True
        self._paused = self._feeding = self._was_live = False
        # Whether the rest of the octets is fed in the next turn; whether octets may be outgoing.
        self._is_behind, self._has_outgoing = False, True
        # The progress of closing: asked for; the peer's or our direction is closed; the transport is gone, the end has been
        # told, and all indications have come.
        self._closing = self._came_to_end = self._half_closed = self._closed = self._aborted = False
        self._is_broken = self._is_done = False
        self._lingering: Optional[asyncio.TimerHandle] = None
        self._took = 0

    # ---- sessions

    @asynccontextmanager
    async def session(self, asked: Opening = Opening()) -> AsyncIterator[CallingSession]:
        """Asks for a connection and waits for the answer: ``async with line.session(..) as session``. SessionOver if it
        is refused, SessionError as ``End.connect`` raises it. It waits until the line's first connection is answered.

        After the block it closes the session (``Session.close``), or gives it up if the block raises an exception."""
        self.stays = True
        session = CallingSession(self, await self._connect(asked))
        try:
            session.connected = await session.expect(Connected)
            yield session
            await session.close()
        finally:
            session.leave()

    async def _connect(self, asked: Opening) -> int:
        """Asks for a connection as soon as the first one has been answered."""
        while True:
            try:
                return self.end.connect(asked)
            except SessionError as error:
                if error.code is not Code.NEGOTIATING:
                    raise
            happened = self._turns.happened
            await self.until(lambda: self._turns.happened != happened)

    async def next_session(self) -> Optional[CalledSession]:
        """The next session that the peer asks for: accept or refuse it. None once the line is closed. Indications of
        connections without a session are dropped."""
        while True:
            await self.indication_or(self._has_shown, reads_on=False)
            indication = self._fetch()
            if indication is None:
                return None
            if isinstance(indication, Connect):
                return CalledSession(self, indication)

    async def answer_sessions(self, handler: Callable[[CalledSession], Awaitable[None]]) -> None:
        """Calls the handler for each session that the peer asks for, in a task of its own, until the line is closed.
        After the handler the session is closed (``Session.close``). If the handler raises an exception, only that
        session is given up, and the event loop's exception handler is called, unless it is SessionOver."""
        tasks: Set[asyncio.Task[None]] = set()
        try:
            session = await self.next_session()
            while session is not None:
                task = asyncio.get_running_loop().create_task(self._answer(handler, session))
                tasks.add(task)
                task.add_done_callback(tasks.discard)
                session = await self.next_session()
            if tasks:
                await asyncio.wait(tasks)
        finally:
            rest = list(tasks)
            for task in rest:
                task.cancel()
            await asyncio.gather(*rest, return_exceptions=True)

    async def _answer(self, handler: Callable[[CalledSession], Awaitable[None]], session: CalledSession) -> None:
        try:
            await handler(session)
            await session.close()
        except SessionOver:
            pass
        except Exception as error:
            told = {"message": f"session {session.reference} is given up", "exception": error, "protocol": self}
            asyncio.get_running_loop().call_exception_handler(told)
        finally:
            session.leave()

    # ---- indications of connections without a session

    async def next(self) -> Optional[Indication]:
        """The next indication; None once the line is closed and all have been fetched."""
        await self.indication_or(self._has_shown)
        return self._fetch()

    def _has_shown(self) -> bool:
        return bool(self._shown) or self._is_done

    def _fetch(self) -> Optional[Indication]:
        if not self._shown:
            return None
        indication = self._shown.popleft()
        self.fetched(indication)
        return indication

    @overload
    async def expect(self, kind: Type[S], /) -> S: ...

    @overload
    async def expect(self, kind: Type[S], other: Type[T], /) -> Union[S, T]: ...

    @overload
    async def expect(self, *kinds: Type[Indication]) -> Indication: ...

    async def expect(self, *kinds: Any) -> Any:
        """The next indication. If it isn't of one of these kinds, UnexpectedIndication."""
        indication = await self.next()
        if not isinstance(indication, kinds):
            raise UnexpectedIndication(indication)
        return indication

    def __aiter__(self) -> EndProtocol:
        return self

    async def __anext__(self) -> Indication:
        indication = await self.next()
        if indication is None:
            raise StopAsyncIteration
        return indication

    # ---- the byte connection

    async def drain(self, reference: Optional[int] = None) -> None:
        """Waits until the transport has all outgoing octets, and at most 64 KiB of this connection (or of all
        connections together) wait for the peer's credit. If you send much, call it now and then, because octets that
        are not written yet are kept. It returns if the line closes."""
        if reference is None:
            await self._wait_for_room(lambda: self.end.outgoing_length() == 0 and self.end.backlog() <= _PIECE)
            return
        of, target = reference, self._answers.taken + self.end.outgoing_length()
        await self._wait_for_room(lambda: self._answers.taken >= target and self._unsent(of) <= _PIECE)

    def give_up(self, reference: int) -> None:
        """Ends one connection at once, and no other. Its pending indications are dropped, and its user gets GivenUp. Its
        peer gets an abort; if octets of it wait for credit, it is disconnected, and the peer gets Lost."""
        self.end_alone(reference)
        self._drop(reference)
        if reference in self._open:
            self._open.discard(reference)
            self._show(GivenUp(reference))
        self._left.add(reference)
        self._turns.tell()

    async def wait_closed(self) -> None:
        """Waits until either side has closed the byte connection, and all indications have come."""
        await self.until(lambda: self._is_done)

    def close(self) -> None:
        """Closes the byte connection once everything is written, including what waits for the peer's credit. Over plain
        TCP it then waits until the peer has closed too, so that nothing in flight is lost. If the peer takes nothing
        for ``linger`` seconds, it closes at once."""
        if self._lingering is None:
            self._linger()
        self._closing = True
        self._go_on()

    def abort(self) -> None:
        """Closes the byte connection at once. Octets that are not written yet are lost."""
        self._aborted = True
        if self._transport is not None and not self._closed:
            self._transport.abort()

    def get_extra_info(self, name: str, default: Any = None) -> Any:
        """Information from the transport: ``peername``, ``sockname``, ``socket``, ``ssl_object``, ``peercert`` and so on,
        as asyncio's BaseTransport.get_extra_info. The default while there is no byte connection yet."""
        return default if self._transport is None else self._transport.get_extra_info(name, default)

    @property
    def holds_back(self) -> bool:
        """Whether octets that came are not fed yet, because their indications are not fetched, or other lines have their turn."""
        return not self._feed.is_empty

    # ---- what a subclass may override

    def indication_received(self, indication: Indication) -> None:
        """Called with each indication, in order. It may call the end. This one keeps the indication until it is fetched."""
        self._show(indication)

    # ---- what asyncio calls

    def connection_made(self, transport: asyncio.BaseTransport) -> None:
        self._transport = cast(asyncio.Transport, transport)
        if hasattr(transport, "max_size"):
            # The transports of asyncio make room for 256 KiB at each read. The C library gets so much from the system, and
            # gives it back, each time.
            setattr(transport, "max_size", _PIECE)
        if self._closing:
            self._linger()
        self._go_on()
        self._made()

    def data_received(self, data: bytes) -> None:
        if not self.end.closed:
            self._feed.add(data)
            self._proceed()
            self._turns.tell_now()

    def eof_received(self) -> bool:
        self._came_to_end = True
        self.close()
        # (asyncio closes a TLS transport by itself)
        return self.get_extra_info("ssl_object") is None

    def connection_lost(self, error: Optional[Exception]) -> None:
        self._closed = True
        if self._lingering is not None:
            self._lingering.cancel()
        if self._transport is not None and not self._transport.is_closing():
            # (a TLS transport in Python 3.9 and 3.10 doesn't know)
            self._transport.close()
        if not (self._aborted or self.end.closed):
            self._note_loss()
        self._go_on()

    def pause_writing(self) -> None:
        self._paused = True

    def resume_writing(self) -> None:
        self._paused = False
        # Not at once: a transport of asyncio that is closed while it calls this closes twice.
        asyncio.get_running_loop().call_soon(self._go_on)

    # ---- what serve and sessions call

    def on_made(self, call: Callable[[], None]) -> None:
        """This is called once the byte connection is there."""
        self._made = call

    @property
    def is_done(self) -> bool:
        """Whether no more indications can come."""
        return self._is_done

    @property
    def is_shut(self) -> bool:
        """Whether nothing more can be written."""
        is_closing = self._transport is not None and self._transport.is_closing()
        return self._closed or self._half_closed or is_closing or self.end.closed

    @property
    def untold(self) -> int:
        """How many octets were not written when the byte connection was lost, until their users have been told."""
        return self._cut_octets if self._cut else 0

    def begin(self, session: Session) -> None:
        """From now on this session takes the indications of its connection, including pending ones."""
        of = session.reference
        self._sessions[of] = session
        for indication in [shown for shown in self._shown if shown.reference == of]:
            session.take(indication)
        self._shown = deque(shown for shown in self._shown if shown.reference != of)

    def leave(self, session: Session) -> None:
        """The session fetches no more indications, nor does anybody else."""
        self._drop(session.reference)
        self._left.add(session.reference)
        self._cut.discard(session.reference)
        self._sessions.pop(session.reference, None)
        self._go_on()

    def fetched(self, indication: Indication) -> None:
        """An indication is no longer pending."""
        self._pending.fetched(indication)
        if indication.is_over:
            self._cut.discard(indication.reference)
        if not self._is_behind and not (self._reading and self._feed.is_empty):
            self._go_on()

    def end_alone(self, reference: int) -> None:
        """Ends this connection, if it is not over, and no other."""
        if self.end.closed:
            return
        with suppress(SessionError):
            self.end.abort(reference)
        # An abort waits for credit, and a disconnection does not.
        disconnect = getattr(self.end, "disconnect", None)
        if disconnect is not None and self.end.unsent(reference) > 0:
            with suppress(SessionError):
                disconnect(reference)

    def has_room(self, reference: int) -> bool:
        """Whether there is room for more of this connection, and something can still be written."""
        return self._outgoing() <= _PIECE and self._unsent(reference) <= _PIECE and not self.is_shut

    async def room(self, reference: int, or_else: Callable[[], bool]) -> None:
        """Waits until there is room for more of this connection, or until another condition holds."""
        await self._wait_for_room(
            lambda: or_else() or (self._outgoing() <= _PIECE and self._unsent(reference) <= _PIECE)
        )

    def may_fetch(self) -> bool:
        """Whether an indication of this line may be fetched in this turn of the event loop. It is counted."""
        return self._turns.takes(self._turns.fetches)

    async def indication_or(self, holds: Callable[[], bool], reads_on: bool = True) -> None:
        """Waits until this holds because an indication came, and until one may be fetched in this turn of the event loop. If
        the line reads on, indications of other connections may come before it."""
        while True:
            if not holds():
                self._awaiting += reads_on
                try:
                    if not self._is_behind and not (self._reading and self._feed.is_empty):
                        self._go_on()
                    await self._turns.until(holds)
                finally:
                    self._awaiting -= reads_on
            if self.may_fetch():
                return
            await self._turns.until(lambda: self._turns.is_left(self._turns.fetches))

    async def until(self, holds: Callable[[], bool]) -> None:
        """Waits until this condition holds. It is tested whenever something happens."""
        await self._turns.until(holds)

    # ---- waiting

    async def _wait_for_room(self, holds: Callable[[], bool]) -> None:
        if self._closed or self.end.closed or holds():
            return
        self._draining += 1
        try:
            self._go_on()
            await self.until(lambda: self._closed or self.end.closed or holds())
        finally:
            self._draining -= 1
            self._go_on()

    def _begin_turn(self) -> None:
        """Feeds what the last turn of the event loop has left."""
        if self._is_behind:
            self._go_on()

    # ---- octets

    def flush(self) -> None:
        """Writes what is outgoing, as long as the transport takes it. If nothing more can come, it closes."""
        self._has_outgoing = True
        self._write()
        self._turns.tell()

    def _go_on(self) -> None:
        """Does everything that can be done now, and says that something has happened."""
        self._proceed()
        self._turns.tell()

    def _proceed(self) -> None:
        """Does everything that can be done now: feeds, writes or closes, and pauses or resumes reading."""
        self._pump()
        if self._closed and not self._feeding:
            self._break()
        self._write()
        self._read_or_wait()

    def _write(self) -> None:
        transport = self._transport
        if transport is None or self._closed or self.end.closed:
            return
        while self._has_outgoing and not (self._paused or self._half_closed or transport.is_closing()):
            octets = self.end.outgoing(_PIECE)
            if octets:
                self.end.taken(len(octets))
                self._answers.went(len(octets))
                transport.write(octets)
            self._has_outgoing = len(octets) == _PIECE
        self._close_if_done(transport)

    def _pump(self) -> None:
        """Feeds the received octets, as long as there is room for the indications that they cause, and as this line has a
        share of this turn."""
        if self._feeding:
            return
        self._feeding, self._is_behind = True, False
        try:
            while self._may_feed():
                if not self._turns.takes(self._turns.feeds):
                    self._is_behind = True
                    break
                indication = self._step()
                if indication is not None:
                    self._note(indication)
                    self.indication_received(indication)
        except Exception as error:
            # The user closed the end in the middle of a piece; or else a subclass has failed, and nothing more is fed.
            if not (isinstance(error, SessionError) and error.code is Code.SLOT_EMPTY):
                self._feed.drop()
                self.abort()
                raise
        finally:
            self._feeding = False

    def _may_feed(self) -> bool:
        """Whether there are octets to feed, and room for what they cause."""
        if self.end.closed or self._feed.is_empty:
            return False
        if self._draining > 0 or self._closing:
            self._make_room()
        return not self._must_wait()

    def _step(self) -> Optional[Indication]:
        """Feeds up to the next indication, or else some of the received octets."""
        end = self.end
        if not self._feed.has_octets:
            return self._feed.step()
        outgoing, backlog = end.outgoing_length() if self._has_outgoing else 0, end.backlog()
        unsent = [(of, end.unsent(of)) for of in self._pending.owing]
        indication = self._feed.step()
        if not end.closed:
            now = end.outgoing_length()
            self._has_outgoing = now > 0
            # Octets that left the backlog are the users' own.
            own = max(0, backlog - end.backlog()) if backlog > 0 else 0
            self._answers.came(now - outgoing - own, now)
            for of, before in unsent:
                if end.unsent(of) < before:
                    self._pending.paid(of)
        return indication

    def _note(self, indication: Indication) -> None:
        """Notes which connections are open."""
        if indication.is_over:
            self._open.discard(indication.reference)
        else:
            self._open.add(indication.reference)
            self._was_live = True

    def _show(self, indication: Indication) -> None:
        """Keeps an indication until it is fetched."""
        if indication.reference in self._left:
            return
        self._pending.add(indication, self._unsent(indication.reference) > _PIECE)
        session = self._sessions.get(indication.reference)
        if session is not None:
            session.take(indication)
        else:
            self._shown.append(indication)

    def _drop(self, reference: int) -> None:
        """Drops the pending indications of a connection."""
        session = self._sessions.get(reference)
        if session is not None:
            session.drop()
        self._shown = deque(shown for shown in self._shown if shown.reference != reference)
        self._pending.forget(reference)

    def _must_wait(self) -> bool:
        """Whether to read no more: nobody fetches indications, or the peer doesn't read what is written."""
        if self._closed:
            return False
        if self._answers.octets > _PIECE:
            return True
        if (self._draining > 0 or self._closing) and self._waits_for_room():
            return False
        if self._pending.octets > self.most or self._outgoing() > self.most:
            return True
        return self._pending.is_full and (self._awaiting == 0 or self._pending.octets > self.most_ahead)

    def _outgoing(self) -> int:
        """How many octets wait for the transport. It has them all as long as it takes them."""
        return self.end.outgoing_length() if self._paused or self._transport is None else 0

    def _make_room(self) -> None:
        """If too much is pending and the line has to read on, gives up the connections to blame."""
        while self._waits_for_room():
            if self._pending.unpaid > self.most_unpaid:
                blamed = self._pending.most_unpaid()
            elif self._pending.octets > self.most:
                blamed = self._pending.most_octets()
            else:
                return
            if blamed is None or blamed in self._left:
                return
            self.give_up(blamed)

    def _waits_for_room(self) -> bool:
        """Whether somebody waits for the peer's credit, which comes only if the line reads."""
        return not (self._closed or self._came_to_end) and (self._draining > 0 or self._closing)

    def _read_or_wait(self) -> None:
        transport = self._transport
        if transport is None or self._closed or self._came_to_end or self.end.closed or transport.is_closing():
            return
        self._read(transport, self._feed.is_empty and not self._must_wait())

    def _read(self, transport: asyncio.Transport, reads: bool) -> None:
        """From now on the transport is read, or is not."""
        if reads != self._reading:
            self._reading = reads
            with suppress(AttributeError):
                (transport.resume_reading if reads else transport.pause_reading)()

    # ---- closing

    def _shut(self, transport: asyncio.Transport) -> None:
        """Closes the transport. (A TLS transport in Python 3.9 and 3.10 closes when it has read what the peer answers.)"""
        self._read(transport, True)
        transport.close()

    def _unsent(self, reference: int) -> int:
        """How many octets of a connection wait for credit. After an abort nobody waits for it."""
        unsent = self.end.unsent(reference)
        return 0 if unsent > 0 and self.end.phase(reference) is Phase.ABORTING else unsent

    def _unsent_of_all(self) -> int:
        return sum(self._unsent(reference) for reference in self._open)

    def _note_loss(self) -> None:
        """The byte connection is gone. Notes which users lose octets because of it."""
        lost = max(0, self.end.outgoing_length() - self._answers.octets) + self._unsent_of_all()
        if lost > 0:
            self._cut = {of for of in self._open if self.end.phase(of) not in (Phase.ABORTING, Phase.ENDED)}
            self._cut_octets = lost

    def _break(self) -> None:
        """Tells the end that the byte connection is gone, once everything that came before has been fed."""
        try:
            if not (self._is_broken or self._is_behind or self.end.closed):
                self._is_broken = True
                self.end.broken()
                self._feed.add(b"")
                self._pump()
        finally:
            if not self._is_behind:
                # A subclass that overrides indication_received has seen it by now.
                self._cut = {reference for reference in self._cut if self._pending.has(reference)}
                self._is_done = True
                self._turns.tell()

    def _all_sent(self) -> bool:
        """Whether everything that can still be written has been written."""
        return self.end.outgoing_length() == 0 and (self._came_to_end or self._unsent_of_all() == 0)

    def _is_over(self) -> bool:
        """Whether everything is written, and either the end has ended, or its last connection is gone and no other is awaited."""
        is_over = self.end.ended() is not None
        if not (is_over or self.stays):
            is_live = self.end.live() > 0
            self._was_live = self._was_live or is_live
            is_over = self._was_live and not is_live
        return is_over and self.end.outgoing_length() == 0

    def _close_if_done(self, transport: asyncio.Transport) -> None:
        """Closes the transport once everything is fed that may be, everything is written, and nothing is awaited."""
        if transport.is_closing() or self._is_behind:
            return
        if self._half_closed:
            if self._came_to_end or self.end.live() == 0:
                self._shut(transport)
        elif self._is_over() or (self._closing and self._all_sent()):
            self._finish(transport)

    def _finish(self, transport: asyncio.Transport) -> None:
        """Closes the transport, which has all octets, or begins to."""
        if _unwritten(transport) > 0:
            # So the transport calls back when it has written them.
            transport.set_write_buffer_limits(0)
        elif self._came_to_end or self.end.live() == 0 or not transport.can_write_eof():
            self._shut(transport)
        else:
            # (A close while the peer still writes would drop octets that it has not read.)
            self._half_closed = True
            transport.write_eof()

    def _linger(self) -> None:
        """From now on, if the peer takes nothing for this many seconds, the transport is closed."""
        transport = self._transport
        if transport is None or self._closed:
            return
        took = self._answers.taken - _unwritten(transport)
        if self._lingering is not None and took == self._took:
            (transport.close if self._half_closed else transport.abort)()
            return
        self._took = took
        self._lingering = asyncio.get_running_loop().call_later(self.linger, self._linger)
