"""The calls of an end that a program makes for each message, over ctypes. The module ``_native`` has the same, in C."""
from __future__ import annotations

import ctypes
import threading
from collections import deque
from ctypes import byref, c_uint64, sizeof
from typing import Any, Callable, Deque, Iterator, Optional

from ._codes import Code, Direction, Phase, Reason, SessionError, Tokens
from ._library import FedOfC, IndicationOfC, Octets, Slot
from ._values import KINDS, Ending, Fed, Indication


def octets_of(value: bytes) -> bytes:
    """The octets of a bytes, bytearray or memoryview, as an immutable copy. (``bytes`` of a number would be
    that many zeros.)"""
    if not isinstance(value, (bytes, bytearray, memoryview)):
        raise TypeError(f"octets are bytes, not {type(value).__name__}")
    return bytes(value)


def address_of(octets: bytes) -> int:
    """The address of octets, valid as long as they are kept."""
    return ctypes.cast(ctypes.c_char_p(octets), ctypes.c_void_p).value or 0


def within(name: str, value: int, bits: int) -> int:
    """A number that fits this many bits in C: ctypes would cut a larger one silently."""
    if not 0 <= value < 1 << bits:
        raise SessionError(Code.BAD_ARGUMENT) from ValueError(f"{name} is {value}")
    return value


def checked(code: int) -> None:
    """Raises what a code says if it is not OK."""
    if code != Code.OK:
        raise SessionError(Code(code))


class Slotted:
    """A slot of the library that holds an end. Calls over ctypes of several threads wait for each other."""

    _osi: Any
    _slot: Slot
    _lock: threading.Lock
    _may_show = True
    """Whether an indication may be pending."""
    _has_credit = True
    """Whether octets may have to wait for credit: only class 2 has that."""

    on_outgoing: Optional[Callable[[], None]] = None
    """Called after each call of a user that was done, because ``outgoing`` may then have more."""

    def _call(self, function: Any, reference: int, *arguments: Any) -> None:
        """A call of the user of a connection."""
        within("reference", reference, 16)
        with self._lock:
            code = function(byref(self._slot), reference, *arguments)
        checked(code)
        if self.on_outgoing is not None:
            self.on_outgoing()

    def _look(self, function: Any, reference: int) -> int:
        """What a function says of a connection; 0 for a reference that none can have."""
        if not 0 <= reference < 1 << 16:
            return 0
        with self._lock:
            return int(function(byref(self._slot), reference))

    def _tell(self, direction: Direction) -> None:
        """Passes the lines of a trace on."""
        raise NotImplementedError


class Calls(Slotted):
    """The calls of each message."""

    _has_lines = False
    """Whether a trace has lines to be told."""

    def _attach(self, address: int) -> None:
        """The slot lies at this address."""
        # The octets of feed_all that are not fed yet, and how many of the first are.
        self._unfed: Deque[bytes] = deque()
        self._used = 0

    def _traces(self, has_lines: bool) -> None:
        """From now on a trace has lines to be told, or has none."""
        self._has_lines = has_lines

    # ---- calls

    def _say(self, function: Any, reference: int, octets: bytes) -> None:
        """A call with user data alone."""
        data = octets_of(octets)
        self._call(function, reference, data, len(data))

    def refuse(self, reference: int, user_data: bytes = b"") -> None:
        """Refuses the connection of ``Connect``. BAD_STATE, TOO_LONG, and those of every call."""
        self._say(self._osi.osi_refuse, reference, user_data)

    def data(self, reference: int, user_data: bytes) -> None:
        """Sends data, 1 to 1,048,572 octets. BAD_STATE, TOKEN_NOT_HELD, EMPTY, TOO_LONG, and those of
        every call."""
        self._say(self._osi.osi_data, reference, user_data)

    def give(self, reference: int, tokens: Tokens) -> None:
        """Gives tokens that this side holds, at least one. BAD_STATE, NOT_SELECTED, TOKEN_NOT_HELD, EMPTY, and
        those of every call."""
        self._call(self._osi.osi_give, reference, within("tokens", tokens, 8))

    def please(self, reference: int, tokens: Tokens, user_data: bytes = b"") -> None:
        """Asks for tokens that this side doesn't hold, at least one. BAD_STATE, NOT_SELECTED, TOKEN_ALREADY_HELD,
        EMPTY, TOO_LONG, and those of every call."""
        data = octets_of(user_data)
        self._call(self._osi.osi_please, reference, within("tokens", tokens, 8), data, len(data))

    def minor(self, reference: int, confirm: bool = True, user_data: bytes = b"") -> None:
        """Sets a minor point, with or without a request for its confirmation. The point has the number that
        ``next_serial`` has before the call. BAD_STATE, NOT_SELECTED, TOKEN_NOT_HELD, SERIALS_USED_UP,
        TOO_LONG, and those of every call."""
        data = octets_of(user_data)
        self._call(self._osi.osi_minor, reference, int(bool(confirm)), data, len(data))

    def minor_confirm(self, reference: int, number: int, user_data: bytes = b"") -> None:
        """Confirms all minor points up to this number. BAD_STATE, NOT_SELECTED, BAD_NUMBER, TOO_LONG, and
        those of every call."""
        data = octets_of(user_data)
        self._call(self._osi.osi_minor_confirm, reference, within("number", number, 32), data, len(data))

    def major(self, reference: int, user_data: bytes = b"") -> None:
        """Sets a major point. BAD_STATE, NOT_SELECTED, TOKEN_NOT_HELD, SERIALS_USED_UP, TOO_LONG, and
        those of every call."""
        self._say(self._osi.osi_major, reference, user_data)

    def major_confirm(self, reference: int, user_data: bytes = b"") -> None:
        """Answers ``Major``. BAD_STATE, TOO_LONG, and those of every call."""
        self._say(self._osi.osi_major_confirm, reference, user_data)

    def release(self, reference: int, user_data: bytes = b"") -> None:
        """Asks for the release. BAD_STATE, TOKEN_NOT_HELD, TOO_LONG, and those of every call."""
        self._say(self._osi.osi_release, reference, user_data)

    def release_accept(self, reference: int, user_data: bytes = b"") -> None:
        """Answers ``Release``: the connection is over. BAD_STATE, TOO_LONG, and those of every call."""
        self._say(self._osi.osi_release_accept, reference, user_data)

    def release_refuse(self, reference: int, user_data: bytes = b"") -> None:
        """Answers ``Release``: the connection goes on. BAD_STATE, NOT_SELECTED, TOO_LONG, and those of
        every call."""
        self._say(self._osi.osi_release_refuse, reference, user_data)

    def abort(self, reference: int, user_data: bytes = b"") -> None:
        """Aborts the connection. BAD_STATE, TOO_LONG, and those of every call."""
        self._say(self._osi.osi_abort, reference, user_data)

    # ---- octets

    def _feed(self, at: int, length: int) -> FedOfC:
        fed = FedOfC()
        with self._lock:
            code = self._osi.osi_feed(byref(self._slot), at, length, byref(fed))
        checked(code)
        self._may_show = fed.waits
        if self._has_lines:
            self._tell(Direction.RECEIVED)
        return fed

    def _feed_first(self) -> FedOfC:
        """Feeds what ``feed_all`` was given first and is not fed yet."""
        octets = self._unfed[0]
        fed = self._feed(address_of(octets) + self._used, len(octets) - self._used)
        self._used += fed.used
        if self._used == len(octets):
            self._unfed.popleft()
            self._used = 0
        return fed

    def feed(self, piece: bytes) -> Fed:
        """Feeds octets that you received from the peer, in their order, cut in any way. It stops after a packet
        that causes an indication, and uses nothing while one is pending; ``feed_all`` is the loop around it. Octets
        that ``feed_all`` keeps are fed before. Once the end has ended, it uses everything. SLOT_EMPTY."""
        octets = octets_of(piece)
        while self._unfed:
            if self._feed_first().waits:
                return Fed(0, True)
        fed = self._feed(address_of(octets), len(octets))
        return Fed(fed.used, fed.waits)

    def unfed(self) -> int:
        """How many octets ``feed_all`` was given that are not fed yet, because its loop has not come to its end."""
        return sum(map(len, self._unfed)) - self._used

    def feed_all(self, piece: bytes) -> Iterator[Indication]:
        """Feeds all of a piece, and yields each indication, pending ones first. You may call the end between
        them. The octets are fed as you go on. If you leave the loop early, by an exception or by ``break``, the end
        keeps those that are not fed, and the next ``feed_all`` begins with them; ``feed_all(b"")`` goes on with
        these alone. SLOT_EMPTY, if octets are left and the end was closed."""
        octets = octets_of(piece)
        if octets:
            self._unfed.append(octets)
        return self._indications()

    def _is_spent(self) -> bool:
        """Whether it is known that a loop over ``feed_all`` would yield nothing more."""
        return not (self._unfed or self._may_show)

    def _indications(self) -> Iterator[Indication]:
        while self._unfed:
            # It uses nothing while an indication is pending.
            if self._feed_first().waits:
                indication = self.next_indication()
                if indication is not None:
                    yield indication
        indication = self.next_indication()
        while indication is not None:
            yield indication
            indication = self.next_indication()

    def outgoing(self, most: Optional[int] = None) -> bytes:
        """A copy of the octets to send to the peer, in their order, or of at most ``most`` of them, from the
        first. They stay until ``taken`` says that you have sent them. No octets if the end is closed."""
        octets = Octets()
        with self._lock:
            self._osi.osi_outgoing(byref(self._slot), byref(octets))
            length = octets.length if most is None else min(most, octets.length)
            return ctypes.string_at(octets.at, length) if length > 0 else b""

    def outgoing_length(self) -> int:
        """How many octets are to be sent."""
        octets = Octets()
        with self._lock:
            self._osi.osi_outgoing(byref(self._slot), byref(octets))
        return int(octets.length)

    def wants_write(self) -> bool:
        """Whether there are octets to be sent."""
        with self._lock:
            return bool(self._osi.osi_wants_write(byref(self._slot)))

    def taken(self, octets: int) -> None:
        """Says that you have sent this many octets, from the first. SLOT_EMPTY, BAD_ARGUMENT (there are fewer)."""
        passed = within("octets", octets, 8 * ctypes.sizeof(ctypes.c_size_t))
        with self._lock:
            code = self._osi.osi_taken(byref(self._slot), passed)
        checked(code)
        if self._has_lines:
            self._tell(Direction.SENT)

    def next_indication(self) -> Optional[Indication]:
        """Fetches the oldest indication of the connection with the lowest reference that has one."""
        if not self._may_show:
            return None
        said = IndicationOfC()
        with self._lock:
            if self._osi.osi_fetch(byref(self._slot)) != Code.OK:
                self._may_show = False
                return None
            self._osi.osi_last_with_size(byref(self._slot), byref(said), sizeof(said))
            user_data = ctypes.string_at(said.user_data.at, said.user_data.length)
        return KINDS[said.tag](said, user_data)

    # ---- what an end says of itself

    def ended(self) -> Optional[Ending]:
        """Why the end has ended; None if it has not. If it has, send what is still outgoing (unless the byte
        connection broke), and close the byte connection."""
        detail = c_uint64()
        with self._lock:
            reason = self._osi.osi_ended(byref(self._slot), byref(detail))
        return Ending(Reason(reason), detail.value) if reason != 0 else None

    def unsent(self, reference: int) -> int:
        """How many octets of a connection's TSDUs the peer's credit holds back, so that they are not outgoing
        yet; 0 for a connection that is gone or never was."""
        return self._look(self._osi.osi_unsent, reference) if self._has_credit else 0

    def backlog(self) -> int:
        """The sum of ``unsent`` over all connections."""
        if not self._has_credit:
            return 0
        with self._lock:
            return int(self._osi.osi_backlog(byref(self._slot)))

    def live(self) -> int:
        """How many connections are live, at most 64: those whose transport connection is being opened, open or
        closing."""
        with self._lock:
            return int(self._osi.osi_live(byref(self._slot)))

    def phase(self, reference: int) -> Phase:
        """The phase of a connection; NONE for a reference that was never given."""
        return Phase(self._look(self._osi.osi_phase, reference))
