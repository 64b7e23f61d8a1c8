"""The verdicts of a judge, and its calls over ctypes. The module ``_native`` has these calls in C."""
from __future__ import annotations

import ctypes
import threading
from ctypes import byref, c_size_t, c_uint64, create_string_buffer
from dataclasses import dataclass
from typing import Any, Iterator, Optional

from ._calls import address_of, checked, octets_of
from ._codes import Code, JudgedSide, Rule, Said, VerdictKind
from ._library import NO_CONNECTION, VERDICT_TEXT, JudgeSlot, Octets, VerdictOfC, library


@dataclass(frozen=True)
class Verdict:
    """A verdict on a side of a byte connection."""

    side: JudgedSide
    kind: VerdictKind
    said: Said
    """What was sent."""
    rule: Rule
    """The rule that it broke."""
    offset: int
    """The offset of the packet, in the direction of ``by``, from 0. A TSDU has that of its last packet."""
    by: JudgedSide
    """The side that sent the packet. If nothing more of both sides is judged, it may be the other one."""
    connection: Optional[int]
    """The number of the connection in the order of the CRs, from 0; None if it is of no single one."""
    left: Optional[int]
    """The reference that left gave the connection; None if it gave none."""
    right: Optional[int]
    """The same of right."""

    @classmethod
    def of(cls, shown: VerdictOfC) -> Verdict:
        """The verdict that the library shows."""
        return cls(
            JudgedSide(shown.side),
            VerdictKind(shown.kind),
            Said(shown.said),
            Rule(shown.rule),
            shown.offset,
            JudgedSide(shown.by),
            None if shown.connection == NO_CONNECTION else shown.connection,
            shown.left or None,
            shown.right or None,
        )

    def _shown(self) -> VerdictOfC:
        """The verdict as the library has it."""
        connection = NO_CONNECTION if self.connection is None else self.connection
        return VerdictOfC(
            self.offset, connection, self.kind, self.side, self.by, self.rule, self.said, self.left or 0, self.right or 0
        )

    def __str__(self) -> str:
        """The line of the verdict, in the words of ``osi judge``, such as
        ``left 1 broke packet 143 Data TokenNotHeld``; ``osi.h`` lists the forms."""
        text = create_string_buffer(VERDICT_TEXT)
        library().osi_verdict_text(byref(self._shown()), text, VERDICT_TEXT)
        return text.value.decode()


class JudgeCalls:
    """The calls of a judge. Those of several threads wait for each other."""

    _osi: Any
    _slot: JudgeSlot
    _lock: threading.Lock

    def _attach(self, address: int) -> None:
        """The slot lies at this address."""

    def _call(self, function: Any, *arguments: Any) -> int:
        """What a function of the library answers; no other thread calls one meanwhile."""
        with self._lock:
            return int(function(byref(self._slot), *arguments))

    def feed(self, side: JudgedSide, piece: bytes) -> Iterator[Verdict]:
        """Feeds octets of a side, in the order in which they passed, cut in any way, and returns an iterator
        over the verdicts that are certain by then. They are fed even if you don't iterate. SLOT_EMPTY, NO_MEMORY (the
        octets before have passed)."""
        octets, used = octets_of(piece), c_size_t()
        checked(self._call(self._osi.osi_judge_feed, JudgedSide(side), address_of(octets), len(octets), byref(used)))
        return self.verdicts()

    def verdicts(self) -> Iterator[Verdict]:
        """The verdicts that are certain, whatever passes later: each once, that on the break that passed first before
        the others, and never KEPT. What right sends before the first packet of left is certain once that packet has
        passed: if it is no CR, the capture begins in the middle of a connection, and nothing is judged
        (Rule.NO_OPENING). SLOT_EMPTY, NO_MEMORY (the next call goes on)."""
        while True:
            shown = VerdictOfC()
            code = self._call(self._osi.osi_judge_next, byref(shown))
            if code == Code.NOTHING:
                return
            checked(code)
            yield Verdict.of(shown)

    def verdict(self, connection: Optional[int], side: JudgedSide) -> Verdict:
        """The verdict by what has passed so far, whether it is certain or not: on the session of a side of the connection
        with this number; or, with None, on the transport of a side: its first break, else the packet after which nothing
        more of it is judged, else KEPT. SLOT_EMPTY, NO_MEMORY, NO_SUCH_CONNECTION (none has this number so far)."""
        number = NO_CONNECTION if connection is None else connection
        if not 0 <= number <= NO_CONNECTION:
            raise ValueError(f"no number of a connection: {number}")
        shown = VerdictOfC()
        checked(self._call(self._osi.osi_judge_verdict, number, JudgedSide(side), byref(shown)))
        return Verdict.of(shown)

    def connections(self) -> int:
        """How many connections were requested so far. Their numbers are 0 to one less. SLOT_EMPTY, NO_MEMORY."""
        connections = c_uint64()
        checked(self._call(self._osi.osi_judge_connections, byref(connections)))
        return connections.value

    def text(self) -> str:
        """The text of the verdict on all that has passed so far: what ``osi judge`` prints for it. Its last line is "both
        kept the protocol" only if all that passed was judged. SLOT_EMPTY, NO_MEMORY."""
        lent = Octets()
        with self._lock:
            checked(self._osi.osi_judge_write(byref(self._slot)))
            self._osi.osi_judge_text(byref(self._slot), byref(lent))
            return ctypes.string_at(lent.at, lent.length).decode()
