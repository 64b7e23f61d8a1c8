"""The turns of an event loop: what a line may do in each, and the tasks that wait for something to happen on a line."""
from __future__ import annotations

import asyncio
from time import monotonic
from typing import Callable, Dict, List, Optional
from weakref import WeakKeyDictionary

MOST_STEPS = 64
"""In one turn of the event loop a line is fed so many times, and so many of its indications are fetched, at most."""
MOST_SECONDS = 0.0005
"""For either it takes about as many seconds of a turn, at most."""


class Share:
    """How many steps of one kind a line may do in a turn of the event loop, and for how long. So a line whose peer sends without
    a pause leaves the others their turn."""

    __slots__ = ("_steps", "_turn", "_until")

    def __init__(self) -> None:
        self._steps = self._turn = 0
        self._until = 0.0

    def is_left(self, turn: int) -> bool:
        """Whether the line may do another step in this turn. The first one it may always do."""
        return self._turn != turn or (self._steps < MOST_STEPS and monotonic() < self._until)

    def take(self, turn: int) -> bool:
        """Does a step, if it may."""
        if self._turn != turn:
            self._turn, self._steps = turn, 1
            self._until = monotonic() + MOST_SECONDS
            return True
        if self._steps >= MOST_STEPS or monotonic() >= self._until:
            return False
        self._steps += 1
        return True


class _Waiter:
    """A task that waits until a condition holds."""

    __slots__ = ("holds", "future")

    def __init__(self, holds: Callable[[], bool]) -> None:
        self.holds = holds
        self.future: Optional[asyncio.Future[None]] = None

    def tell(self) -> None:
        if self.future is not None and not self.future.done() and self.holds():
            self.future.set_result(None)


class _Loop:
    """The turns of an event loop, for all lines in it. They are counted while some line does a step or plans something."""

    __slots__ = ("turn", "is_counted", "_planned", "__weakref__")

    def __init__(self) -> None:
        self.turn = 1
        self.is_counted = False
        # The lines for which something is planned in the next turn.
        self._planned: List[Turns] = []

    def count(self) -> None:
        """The next turn will be counted."""
        self.is_counted = True
        asyncio.get_running_loop().call_soon(self._next)

    def plan(self, line: Turns) -> None:
        if not self.is_counted:
            self.count()
        self._planned.append(line)

    def _next(self) -> None:
        self.turn += 1
        self.is_counted = False
        if not self._planned:
            return
        planned, self._planned = self._planned, []
        for line in planned:
            try:
                line.next()
            except Exception as error:
                told = {"message": "a line failed", "exception": error}
                asyncio.get_running_loop().call_exception_handler(told)


_loops: WeakKeyDictionary[asyncio.AbstractEventLoop, _Loop] = WeakKeyDictionary()


class Turns:
    """The turns of a line, and the tasks that wait for it."""

    def __init__(self, begin: Callable[[], None]) -> None:
        """``begin`` is called when a turn begins for which something was planned."""
        self._begin = begin
        self.feeds, self.fetches = Share(), Share()
        self.happened = 0
        """How often something has happened."""
        # Waiting tasks, the oldest first.
        self._waiters: Dict[_Waiter, None] = {}
        self._is_planned = False
        self._loop: Optional[_Loop] = None

    async def until(self, holds: Callable[[], bool]) -> None:
        """Waits until this condition holds. It is tested whenever something happens. Of several tasks, the one that has
        waited longest goes on first."""
        if holds():
            return
        waiter = _Waiter(holds)
        self._waiters[waiter] = None
        try:
            waits = True
            while waits:
                waiter.future = asyncio.get_running_loop().create_future()
                await waiter.future
                waits = not holds()
        finally:
            del self._waiters[waiter]

    def tell(self) -> None:
        """Something has happened. Waiting tasks are woken once for everything that happens in a turn of the event loop."""
        self.happened += 1
        if self._waiters:
            self._later()

    def tell_now(self) -> None:
        """Octets have come. Waiting tasks are woken at once."""
        self.happened += 1
        for waiter in self._waiters:
            waiter.tell()

    def takes(self, share: Share) -> bool:
        """Does another step of this kind in this turn of the event loop, if the line may. If it may not, something is planned in
        the next turn."""
        loop = self._loop or self._counted()
        if not loop.is_counted:
            loop.count()
        return share.take(loop.turn) or self._later()

    def is_left(self, share: Share) -> bool:
        """Whether the line may do another step of this kind in this turn. If it may not, something is planned in the next turn: so
        who waits until it may is told."""
        return self._loop is None or share.is_left(self._loop.turn) or self._later()

    def _later(self) -> bool:
        """Plans something in the next turn. (False: not in this one.)"""
        if not self._is_planned:
            self._plan()
        return False

    def _counted(self) -> _Loop:
        """The turns of the event loop that the line is in."""
        self._loop = _loops.setdefault(asyncio.get_running_loop(), _Loop())
        return self._loop

    def _plan(self) -> None:
        """Goes on in the next turn of the event loop."""
        self._is_planned = True
        (self._loop or self._counted()).plan(self)

    def next(self) -> None:
        """The next turn has begun."""
        self._is_planned = False
        try:
            self._begin()
        finally:
            for waiter in tuple(self._waiters):
                waiter.tell()
