"""Sessions: one object for each connection of a line."""
from __future__ import annotations

from collections import deque
from typing import TYPE_CHECKING, Any, Callable, Deque, Optional, Type, TypeVar, Union, overload

from ._codes import Phase, SessionError, Tokens, Units
from ._end import End
from ._over import SessionOver, UnexpectedIndication
from ._values import (
    Addresses,
    Connect,
    Connected,
    Indication,
    Lost,
    Release,
    Released,
    ReleaseRefused,
    Sides,
    Sizes,
)

if TYPE_CHECKING:
    from ._line import EndProtocol

S = TypeVar("S", bound=Indication)
T = TypeVar("T", bound=Indication)


class Session:
    """One connection of a line, as its user sees it.

    A call waits until this connection has room: until at most 64 KiB of its octets are unsent, and at most 64 KiB of
    the line's are outgoing. Then it calls the method of ``End`` with that name; if it is cancelled before, it has no
    effect. So a loop that awaits each call keeps little, however slow the peer is.

    Indications are fetched by ``next``, ``expect`` or ``async for``. If the session ends in another way than by a
    release, these raise SessionOver after the last pending indication; calls raise it at once. If the body of an
    ``async for`` doesn't answer ``Release``, the loop accepts it, and ends.
    """

    def __init__(self, line: EndProtocol, reference: int) -> None:
        """Use ``EndProtocol.session`` and ``EndProtocol.next_session``."""
        self.line = line
        self.reference = reference
        """The reference of the connection, for calls of ``end``."""
        self._shown: Deque[Indication] = deque()
        # The indication that ended it; and whether its own user has ended it.
        self._over: Optional[Indication] = None
        self._is_done = False
        # Whether the last indication that was fetched asks for the release.
        self._asked_for_release = False
        line.begin(self)

    # ---- what its user may read

    @property
    def end(self) -> End:
        """The end of the line, for everything else: ``session.end.unsent(session.reference)``."""
        return self.line.end

    @property
    def phase(self) -> Phase:
        """Its phase, as ``End.phase``."""
        return self.end.phase(self.reference)

    @property
    def held(self) -> Tokens:
        """The tokens that this side holds."""
        return self.end.held(self.reference)

    @property
    def addresses(self) -> Optional[Addresses]:
        """Its addresses, as ``End.addresses``."""
        return self.end.addresses(self.reference)

    def get_extra_info(self, name: str, default: Any = None) -> Any:
        """As ``EndProtocol.get_extra_info``."""
        return self.line.get_extra_info(name, default)

    # ---- indications

    async def next(self) -> Optional[Indication]:
        """The next indication; None once the session is released or this side has ended it. SessionOver."""
        if not (self._shown and self.line.may_fetch()):
            await self.line.indication_or(self._has_news)
        if self._shown:
            indication = self._shown.popleft()
            self.line.fetched(indication)
            self._asked_for_release = isinstance(indication, Release)
            if indication.is_over and not isinstance(indication, Released):
                raise SessionOver(indication)
            return indication
        if isinstance(self._over, Released) or (self._is_done and self._over is None):
            return None
        raise SessionOver(self._over or Lost(self.reference))

    @overload
    async def expect(self, kind: Type[S], /) -> S: ...

    @overload
    async def expect(self, kind: Type[S], other: Type[T], /) -> Union[S, T]: ...

    @overload
    async def expect(self, *kinds: Type[Indication]) -> Indication: ...

    async def expect(self, *kinds: Any) -> Any:
        """The next indication. If it isn't of one of these kinds, UnexpectedIndication. SessionOver, unless its
        indication is expected."""
        try:
            indication = await self.next()
        except SessionOver as over:
            if isinstance(over.indication, kinds):
                return over.indication
            raise
        if not isinstance(indication, kinds):
            raise UnexpectedIndication(indication)
        return indication

    def __aiter__(self) -> Session:
        return self

    async def __anext__(self) -> Indication:
        if self._asked_for_release and not self._shown and self.phase is Phase.RELEASE_DUE:
            # The body of the loop has not answered it.
            await self.release_accept()
        indication = await self.next()
        if indication is None:
            raise StopAsyncIteration
        return indication

    # ---- calls

    async def drain(self) -> None:
        """Waits until this connection has room, whatever the others of the line do. SessionOver."""
        await self.line.room(self.reference, lambda: self._over is not None or self._is_done)
        if self._over is not None:
            raise SessionOver(self._over)
        if self.line.is_shut:
            raise SessionOver(Lost(self.reference))

    async def _call(self, call: Callable[..., None], *arguments: Any) -> None:
        """Makes a call as soon as there is room."""
        if self._over is not None or not self.line.has_room(self.reference):
            await self.drain()
        call(self.reference, *arguments)

    async def data(self, user_data: bytes) -> None:
        """``End.data``."""
        await self._call(self.end.data, user_data)

    async def give(self, tokens: Tokens) -> None:
        """``End.give``."""
        await self._call(self.end.give, tokens)

    async def please(self, tokens: Tokens, user_data: bytes = b"") -> None:
        """``End.please``."""
        await self._call(self.end.please, tokens, user_data)

    async def minor(self, confirm: bool = True, user_data: bytes = b"") -> int:
        """``End.minor``, and the number of the point."""
        await self._call(self.end.minor, confirm, user_data)
        return self.end.next_serial(self.reference) - 1

    async def minor_confirm(self, number: int, user_data: bytes = b"") -> None:
        """``End.minor_confirm``."""
        await self._call(self.end.minor_confirm, number, user_data)

    async def major(self, user_data: bytes = b"") -> int:
        """``End.major``, and the number of the point."""
        await self._call(self.end.major, user_data)
        return self.end.next_serial(self.reference) - 1

    async def major_confirm(self, user_data: bytes = b"") -> None:
        """``End.major_confirm``."""
        await self._call(self.end.major_confirm, user_data)

    async def restart(self, number: int, wishes: Sides = Sides(), user_data: bytes = b"") -> None:
        """``End.restart``."""
        await self._call(self.end.restart, number, wishes, user_data)

    async def restart_confirm(self, sides: Sides = Sides(), user_data: bytes = b"") -> None:
        """``End.restart_confirm``."""
        await self._call(self.end.restart_confirm, sides, user_data)

    async def release(self, user_data: bytes = b"") -> None:
        """``End.release``. The answer is ``Released``, the last indication, or ``ReleaseRefused``."""
        await self._call(self.end.release, user_data)

    async def release_accept(self, user_data: bytes = b"") -> None:
        """``End.release_accept``: the session is over, and ``async for`` ends."""
        await self._call(self.end.release_accept, user_data)
        self._is_done = True

    async def release_refuse(self, user_data: bytes = b"") -> None:
        """``End.release_refuse``."""
        await self._call(self.end.release_refuse, user_data)

    async def abort(self, user_data: bytes = b"") -> None:
        """``End.abort``, at once: the session is over, and its pending indications are dropped."""
        if self._over is not None:
            raise SessionOver(self._over)
        self.end.abort(self.reference, user_data)
        self._is_done = True
        self.line.leave(self)

    async def close(self) -> None:
        """Ends the session in an orderly way, as the end of its block does.

        If the peer asked for the release, this accepts it. Else this side asks for it, if it may (``End.release``),
        and waits for the answer; other indications that come meanwhile are dropped. If it may not, or the peer refuses,
        it aborts. If the peer asked for the connection and it was not answered yet, it is refused. If the session is
        over, nothing happens. SessionOver, if it ends meanwhile in another way."""
        if self._is_done or isinstance(self._over, Released):
            return
        try:
            if self.phase is Phase.RELEASE_DUE:
                await self.release_accept()
                return
            if self.phase is not Phase.RELEASING:
                await self.release()
        except SessionOver:
            raise
        except SessionError:
            await self.abort()
            return
        await self._released()

    async def _released(self) -> None:
        """Awaits the answer to a release."""
        async for indication in self:
            if isinstance(indication, ReleaseRefused):
                await self.abort()
                return
            if isinstance(indication, Release):
                await self.release_accept()

    def _has_news(self) -> bool:
        """Whether there is an indication to fetch, or no more can come."""
        return bool(self._shown) or self._is_done or self._over is not None or self.line.is_done

    # ---- what its line calls

    def take(self, indication: Indication) -> None:
        """An indication has come."""
        self._shown.append(indication)
        if indication.is_over:
            self._over = indication

    def drop(self) -> None:
        """Its pending indications are dropped."""
        self._shown.clear()

    def leave(self) -> None:
        """Its user has left it: if it is not over, it is given up."""
        if not self._is_done and self._over is None:
            self.line.end_alone(self.reference)
        self._is_done = True
        self.line.leave(self)


class CallingSession(Session):
    """A session that this side asked for."""

    connected: Connected
    """The peer's answer."""


class CalledSession(Session):
    """A session that the peer asks for. Call ``accept`` or ``refuse`` first."""

    def __init__(self, line: EndProtocol, asked: Connect) -> None:
        super().__init__(line, asked.reference)
        self.asked = asked
        """The peer's request."""

    async def accept(
        self,
        requirements: Optional[Units] = None,
        number: Optional[int] = None,
        sides: Sides = Sides(),
        user_data: bytes = b"",
        sizes: Sizes = Sizes(),
    ) -> None:
        """``End.accept``, by default with all units that can be selected (half-duplex, if the peer offers both that and
        duplex), and with the peer's number for the first point."""
        units = _usual(self.asked.requirements) if requirements is None else requirements
        first = self.asked.number or 0 if number is None else number
        await self._call(self.end.accept, units, first, sides, user_data, sizes)

    async def refuse(self, user_data: bytes = b"") -> None:
        """``End.refuse``: the session is over."""
        await self._call(self.end.refuse, user_data)
        self._is_done = True

    async def close(self) -> None:
        if self.phase is Phase.ANSWERING and self._over is None:
            await self.refuse()
            return
        await super().close()


# The units that can be combined with half-duplex.
_WITH_HALF_DUPLEX = (
    Units.HALF_DUPLEX | Units.MINOR_SYNC | Units.MAJOR_SYNC | Units.RESYNCHRONIZE | Units.NEGOTIATED_RELEASE
)


def _usual(offered: Units) -> Units:
    """The units of an offer that can be selected together: half-duplex with those that can be combined with it, or duplex."""
    return offered & _WITH_HALF_DUPLEX if offered & Units.HALF_DUPLEX else Units.DUPLEX
