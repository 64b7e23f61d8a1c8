"""One end of a byte connection."""
from __future__ import annotations

import ctypes
import logging
import threading
import weakref
from ctypes import byref, c_uint16, sizeof
from typing import TYPE_CHECKING, Callable, List, NoReturn, Optional, Tuple, Type, TypeVar

from ._calls import address_of, checked, octets_of, within
from ._codes import Classes, Code, Direction, Refusal, Tokens, Trace, Units
from ._library import AddressingOfC, CountersOfC, Octets, OpeningOfC, SidesOfC, Slot, TallyOfC, TermsOfC, library
from ._values import Addresses, Counters, Opening, Sides, Sizes, Tally, Terms

if TYPE_CHECKING:
    from ._calls import Calls
else:
    from ._native_or_not import Calls

T = TypeVar("T", bound="End")
OnLine = Callable[[Direction, Optional[str]], None]

_log = logging.getLogger("osi_session")


def _lent(octets: bytes) -> Octets:
    return Octets(address_of(octets), len(octets))


def _sides(sides: Sides) -> SidesOfC:
    return SidesOfC(*(within("side", s, 8) for s in (sides.data, sides.minor, sides.major, sides.release)))


def _sizes(sizes: Sizes) -> Tuple[int, int]:
    return within("size", sizes.from_asker, 16), within("size", sizes.from_answerer, 16)


def _tally(shown: TallyOfC) -> Tally:
    return Tally(shown.octets, shown.packets, shown.units, shown.tsdus, shown.session_units, shown.refused)


class End(Calls):
    """One end of a byte connection, with up to 64 session connections in transport class 2, and one in
    class 0. Make it by ``End.caller`` or ``End.called``.

    It is freed by ``close``, at the end of a ``with`` block, or when nothing refers to it any more. Calls of
    several threads wait for each other. User data of a call has at most 10,240 octets, unless the call says
    otherwise. A refused call raises ``SessionError``, whose ``code`` is the first that applies, and changes
    nothing.
    """

    def __init__(self, *, caller: bool, terms: Terms = Terms()) -> None:
        """Use ``End.caller`` and ``End.called``."""
        self._osi = library()
        self._slot = Slot()
        self._lock = threading.Lock()
        self._on_line: Optional[OnLine] = None
        self._has_credit = bool(terms.classes & Classes.CLASS_2)
        self._closed = False
        passed = TermsOfC(
            within("classes", terms.classes, 8), within("size", terms.size, 8), within("window", terms.window, 8)
        )
        make = self._osi.osi_caller if caller else self._osi.osi_called
        checked(make(byref(self._slot), byref(passed)))
        self._free = weakref.finalize(self, self._osi.osi_free, self._slot)
        self._attach(ctypes.addressof(self._slot))

    @classmethod
    def caller(cls: Type[T], terms: Terms = Terms()) -> T:
        """Makes the calling end. BAD_ARGUMENT (terms), NO_MEMORY."""
        return cls(caller=True, terms=terms)

    @classmethod
    def called(cls: Type[T], terms: Terms = Terms()) -> T:
        """Makes the called end. BAD_ARGUMENT (terms), NO_MEMORY."""
        return cls(caller=False, terms=terms)

    def close(self) -> None:
        """Frees the end. Each call then raises SLOT_EMPTY."""
        with self._lock:
            self._free()
            self._closed = True

    @property
    def closed(self) -> bool:
        """Whether it was freed."""
        return self._closed

    def __enter__(self: T) -> T:
        return self

    def __exit__(self, *raised: object) -> None:
        self.close()

    def __copy__(self) -> NoReturn:
        raise TypeError("an end is not copied")

    def __deepcopy__(self, memo: object) -> NoReturn:
        raise TypeError("an end is not copied")

    def __reduce__(self) -> NoReturn:
        raise TypeError("an end is not pickled")

    # ---- calls

    def connect(self, asked: Opening = Opening()) -> int:
        """Asks for a connection, and returns its reference. The peer's answer comes as an indication:
        ``Connected``, one of the two refusals, or one that says why the connection is over.

        BAD_ARGUMENT (the serial, a size of 1 to 63, a transport address of more than 32 octets), SLOT_EMPTY,
        NOT_CALLER, ENDED, NEGOTIATING, ONE_CONNECTION, TOO_MANY, REFERENCES_USED_UP, NOT_SELECTED, TOO_LONG, NO_MEMORY."""
        kept = [
            octets_of(octets)
            for octets in (
                asked.calling_tsap,
                asked.called_tsap,
                asked.calling_selector,
                asked.called_selector,
                asked.user_data,
            )
        ]
        passed = OpeningOfC(
            within("requirements", asked.requirements, 16),
            within("serial", asked.serial, 32),
            _sides(asked.wishes),
            *map(_lent, kept),
            *_sizes(asked.sizes),
        )
        made = c_uint16()
        with self._lock:
            code = self._osi.osi_connect_with_size(byref(self._slot), byref(passed), sizeof(passed), byref(made))
        checked(code)
        if self.on_outgoing is not None:
            self.on_outgoing()
        return made.value

    def accept(
        self,
        reference: int,
        requirements: Units,
        number: int = 0,
        sides: Sides = Sides(),
        user_data: bytes = b"",
        sizes: Sizes = Sizes(),
    ) -> None:
        """Answers ``Connect``. Select some of the units that were offered: half-duplex, with or without
        others, or duplex alone. The number is that of the first point, 0 to 999,999. The sides say who holds
        the tokens whose choice was left to this side. The sizes are this side's own: if the CN names a size,
        the smaller of the two is agreed; if it names 0, there is no limit. BAD_ARGUMENT, BAD_STATE,
        NOT_SELECTED, TOO_LONG, and those of every call: SLOT_EMPTY, NO_SUCH_CONNECTION, ENDED, NO_MEMORY."""
        data, passed = octets_of(user_data), _sides(sides)
        units = within("requirements", requirements, 16)
        first = within("number", number, 32)
        both = _sizes(sizes)
        self._call(self._osi.osi_accept_sized, reference, units, first, byref(passed), *both, data, len(data))

    def refuse_with(self, reference: int, reason: Refusal, user_data: bytes = b"") -> None:
        """``refuse`` with a reason. Only ``Refusal.WITH_DATA`` may have user data.
        BAD_ARGUMENT, and those of ``refuse``."""
        data = octets_of(user_data)
        self._call(self._osi.osi_refuse_with, reference, within("reason", reason, 8), data, len(data))

    def restart(self, reference: int, number: int, wishes: Sides = Sides(), user_data: bytes = b"") -> None:
        """Restarts at this number, which the next point then has. BAD_STATE, NOT_SELECTED, BAD_NUMBER,
        TOO_LONG, and those of every call."""
        data, passed = octets_of(user_data), _sides(wishes)
        point = within("number", number, 32)
        self._call(self._osi.osi_restart, reference, point, byref(passed), data, len(data))

    def restart_confirm(self, reference: int, sides: Sides = Sides(), user_data: bytes = b"") -> None:
        """Answers ``Restart``. BAD_ARGUMENT, BAD_STATE, TOO_LONG, and those of every call."""
        data, passed = octets_of(user_data), _sides(sides)
        self._call(self._osi.osi_restart_confirm, reference, byref(passed), data, len(data))

    def disconnect(self, reference: int) -> None:
        """Gives up one connection at once, whatever it waits for. It drops the octets that the peer's credit
        holds back, and the pending indications of this connection, which has no more of them. In class 2 it
        sends a disconnect request, the peer's user receives ``Lost``, and all other connections go on. In
        class 0 the end ends. If the connection is gone already, only its pending indications are dropped.
        SLOT_EMPTY, NO_SUCH_CONNECTION, BAD_STATE (WAIT_TRANSPORT: the peer has not answered yet; call again
        in a later phase), NO_MEMORY."""
        self._call(self._osi.osi_disconnect, reference)

    # ---- octets

    def broken(self) -> None:
        """Says that the byte connection is over: it broke, or the peer closed it. Each user who doesn't yet know
        that his connection is over then receives ``Lost``. If the end has ended, nothing changes. SLOT_EMPTY."""
        with self._lock:
            code = self._osi.osi_broken(byref(self._slot))
        checked(code)
        self._may_show = True

    def is_over(self) -> bool:
        """Whether you may close the byte connection now: nothing is outgoing, and either the end has ended, or
        there were connections and none is live. To ask for another connection, keep it open."""
        with self._lock:
            return bool(self._osi.osi_is_over(byref(self._slot)))

    def kept(self) -> int:
        """How many octets the end keeps of a packet, of TSDUs and of data in parts that are not whole yet: at
        most 65,535, and 2,097,148 for each live connection."""
        with self._lock:
            return int(self._osi.osi_kept(byref(self._slot)))

    # ---- trace and counters

    def trace(self, on_line: Optional[OnLine] = None, what: Optional[Trace] = None) -> None:
        """Begins a trace in both directions, and ends an earlier one. ``trace(on_line)`` calls
        ``on_line(direction, line)`` with what ``osi show`` prints for each packet, as soon as ``feed`` has used it or
        ``taken`` says that it is sent. The line is None if the trace of this direction has stopped: you are told once.
        ``trace(what=Trace.COUNTS)`` only counts, and ``trace()`` ends the trace. An end begins without one.

        Call it right after you have made the end, because the first octet that a trace takes has to begin a packet. A
        trace never changes what the end does: an exception of ``on_line`` is logged by the logger ``osi_session``. Its
        memory is bounded: in each direction it keeps a packet and TSDUs that are not whole yet, of at most 64 DST-REFs,
        and the lines of one call, at most 1,048,576 octets. If it would keep more, or if an allocation fails, the trace of
        this direction stops. SLOT_EMPTY."""
        if what is None:
            what = Trace.OFF if on_line is None else Trace.LINES
        with self._lock:
            code = self._osi.osi_trace(byref(self._slot), Trace(what))
        checked(code)
        self._on_line = on_line if what == Trace.LINES else None
        self._traces(self._on_line is not None)

    def _tell(self, direction: Direction) -> None:
        """Passes the lines that nobody has fetched to ``on_line``."""
        lent = Octets()
        with self._lock:
            code = self._osi.osi_trace_fetch(byref(self._slot), direction)
            self._osi.osi_trace_lines(byref(self._slot), byref(lent))
            text = ctypes.string_at(lent.at, lent.length).decode("ascii") if lent.length > 0 else ""
        lines: List[Optional[str]] = [*text.splitlines()]
        if code == Code.NO_MEMORY:
            lines.append(None)
        for line in lines:
            try:
                if self._on_line is not None:
                    self._on_line(direction, line)
            except Exception:
                _log.exception("a function for traced lines failed")

    def counts(self) -> Counters:
        """What both traces have counted: all 0 without a trace, and if the end is closed."""
        shown = CountersOfC()
        with self._lock:
            self._osi.osi_counts(byref(self._slot), byref(shown))
        return Counters(_tally(shown.received), _tally(shown.sent))

    # ---- the state of a connection

    def held(self, reference: int) -> Tokens:
        """The tokens that this end holds."""
        return Tokens(self._look(self._osi.osi_held, reference))

    def next_serial(self, reference: int) -> int:
        """V(M) (X.225 section 5.9): the number of the next point. 0 for a connection that is gone or
        never was."""
        return self._look(self._osi.osi_next_serial, reference)

    def confirmed_below(self, reference: int) -> int:
        """V(A): the number below which all points are confirmed, or 0 as above."""
        return self._look(self._osi.osi_confirmed_below, reference)

    def lowest_restart(self, reference: int) -> int:
        """V(R): the lowest number at which this end may restart, or 0 as above."""
        return self._look(self._osi.osi_lowest_restart, reference)

    def addresses(self, reference: int) -> Optional[Addresses]:
        """The addresses of a connection: those that you asked for, or on the called side the peer's, from the
        moment ``Connect`` is pending. None for a connection that is gone or never was, and before the CN has
        come."""
        shown = AddressingOfC()
        if not 0 <= reference < 1 << 16:
            return None
        with self._lock:
            if self._osi.osi_addresses(byref(self._slot), reference, byref(shown)) != Code.OK:
                return None
        held = (shown.calling_tsap, shown.called_tsap, shown.calling_selector, shown.called_selector)
        return Addresses(*(bytes(address.octets[: address.length]) for address in held))
