"""The judge of a byte connection between two other programs, while it passes."""
from __future__ import annotations

import ctypes
import threading
import weakref
from ctypes import byref
from typing import TYPE_CHECKING, NoReturn, TypeVar

from ._calls import checked
from ._library import JudgeSlot, library

if TYPE_CHECKING:
    from ._verdicts import JudgeCalls
else:
    from ._native_or_not import JudgeCalls

T = TypeVar("T", bound="Judge")


class Judge(JudgeCalls):
    """Judges a byte connection between two other programs: it says which side first sent what no conforming end could
    have sent there, as ``osi judge`` does, while the octets pass. It judges both classes of transport and any number of
    connections: the transport of each side, and the session of each side of each connection. It needs no ``End``, no
    key and no clock.

        with Judge() as judge:
            for side, octets in pieces:
                for verdict in judge.feed(side, octets):
                    print(verdict)
            print(judge.text())

    Of each connection it keeps the TSDUs that passed, without their user data and equal ones in a row once, and what has
    passed of unfinished ones: at most 3,145,728 octets, of which each TSDU counts 48 more than it has. So data may pass for
    ever. If there is no room for a DT, the connection is judged no further, and a side that was kept until then has
    NOT_JUDGED with Rule.LIMIT.

    It is freed by ``close``, at the end of a ``with`` block, or when nothing refers to it any more. Calls of several
    threads wait for each other.
    """

    def __init__(self) -> None:
        """On the byte connection nothing has passed. NO_MEMORY."""
        self._osi = library()
        self._slot = JudgeSlot()
        self._lock = threading.Lock()
        checked(self._osi.osi_judge_new(byref(self._slot)))
        self._free = weakref.finalize(self, self._osi.osi_judge_free, self._slot)
        self._attach(ctypes.addressof(self._slot))

    def close(self) -> None:
        """Frees it. Each call then raises SLOT_EMPTY."""
        with self._lock:
            self._free()

    @property
    def closed(self) -> bool:
        """Whether it was freed."""
        return not self._free.alive

    def __enter__(self: T) -> T:
        return self

    def __exit__(self, *raised: object) -> None:
        self.close()

    def __copy__(self) -> NoReturn:
        raise TypeError("a judge is not copied")

    def __deepcopy__(self, memo: object) -> NoReturn:
        raise TypeError("a judge is not copied")

    def __reduce__(self) -> NoReturn:
        raise TypeError("a judge is not pickled")
