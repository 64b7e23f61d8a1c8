"""What a line keeps: pending indications, octets that are not fed yet, and those that answer its peer."""
from __future__ import annotations

from collections import deque
from typing import Deque, Dict, Iterator, List, Optional, Set, Tuple

from ._end import End
from ._values import Indication

MOST_INDICATIONS = 64
"""A connection is full if this many of its indications are pending."""
MOST_OCTETS = 262_144
"""It is also full if its pending indications have this many octets."""
_EACH = 512
"""How many octets an indication counts in addition to its user data."""
_STEP_OCTETS = 16_384
"""The most octets that are fed in one step, if they cause no indication."""


def _weight(indication: Indication) -> int:
    return _EACH + len(getattr(indication, "user_data", b""))


class _Share:
    """The pending indications of one connection."""

    __slots__ = ("count", "octets", "unpaid")

    def __init__(self) -> None:
        self.count = self.octets = self.unpaid = 0


class Pending:
    """How many indications of each connection are pending, and their octets. Unpaid indications are those that came while
    this side waited for credit of their connection and got none."""

    def __init__(self) -> None:
        self.octets = self.unpaid = 0
        self._shares: Dict[int, _Share] = {}
        self._full: Set[int] = set()
        self._owing: Set[int] = set()

    @property
    def is_full(self) -> bool:
        """Whether some connection has so many that the line should read no more."""
        return bool(self._full)

    @property
    def owing(self) -> Tuple[int, ...]:
        """The connections that have unpaid pending indications."""
        return tuple(self._owing)

    def has(self, reference: int) -> bool:
        """Whether this connection has pending indications."""
        return reference in self._shares

    def most_octets(self) -> Optional[int]:
        """The connection with most pending octets."""
        return max(self._shares, key=lambda of: self._shares[of].octets) if self._shares else None

    def most_unpaid(self) -> Optional[int]:
        """The connection with most unpaid octets."""
        return max(self._owing, key=lambda of: self._shares[of].unpaid) if self._owing else None

    def add(self, indication: Indication, is_unpaid: bool) -> None:
        share = self._shares.get(indication.reference)
        if share is None:
            share = self._shares[indication.reference] = _Share()
        weight = _weight(indication)
        self._set(indication.reference, share, share.count + 1, share.octets + weight, share.unpaid + weight * is_unpaid)

    def fetched(self, indication: Indication) -> None:
        share = self._shares.get(indication.reference)
        if share is not None:
            octets = share.octets - _weight(indication)
            self._set(indication.reference, share, share.count - 1, octets, min(share.unpaid, octets) if share.unpaid else 0)

    def paid(self, reference: int) -> None:
        """The connection has given credit."""
        share = self._shares[reference]
        self._set(reference, share, share.count, share.octets, 0)

    def forget(self, reference: int) -> None:
        """The pending indications of this connection were dropped."""
        share = self._shares.get(reference)
        if share is not None:
            self._set(reference, share, 0, 0, 0)

    def _set(self, reference: int, share: _Share, count: int, octets: int, unpaid: int) -> None:
        self.octets += octets - share.octets
        self.unpaid += unpaid - share.unpaid
        share.count, share.octets, share.unpaid = count, octets, unpaid
        if count >= MOST_INDICATIONS or octets >= MOST_OCTETS:
            self._full.add(reference)
        elif self._full:
            self._full.discard(reference)
        if unpaid > 0:
            self._owing.add(reference)
        elif self._owing:
            self._owing.discard(reference)
        if count == 0:
            del self._shares[reference]


class Answers:
    """How many of the outgoing octets the end wrote by itself while it was fed (acknowledgements, refusals) and are not
    taken yet. Only these grow if a peer sends and doesn't read."""

    def __init__(self) -> None:
        self.octets = 0
        self.taken = 0
        """How many outgoing octets were taken since the end was made."""
        self._runs: Deque[List[int]] = deque()

    def came(self, grown: int, outgoing: int) -> None:
        """This many octets were appended to the outgoing ones."""
        if grown <= 0:
            return
        end = self.taken + outgoing
        if self._runs and self._runs[-1][0] == end - grown:
            self._runs[-1][0] = end
            self._runs[-1][1] += grown
        else:
            self._runs.append([end, grown])
        self.octets += grown

    def went(self, octets: int) -> None:
        """This many of the outgoing octets were taken, from the first."""
        self.taken += octets
        while self._runs and self._runs[0][0] <= self.taken:
            self.octets -= self._runs.popleft()[1]


class Feed:
    """The received octets that have not been fed yet, in order."""

    def __init__(self, end: End) -> None:
        self._end = end
        self._pieces: Deque[bytes] = deque()
        self._current: Optional[Iterator[Indication]] = None

    @property
    def is_empty(self) -> bool:
        return self._current is None and not self._pieces

    @property
    def has_octets(self) -> bool:
        """Whether there is more than indications that may be pending in the end."""
        return bool(self._pieces) or self._end.unfed() > 0

    def add(self, piece: bytes) -> None:
        if len(piece) <= _STEP_OCTETS:
            self._pieces.append(piece)
        else:
            self._pieces.extend(piece[at : at + _STEP_OCTETS] for at in range(0, len(piece), _STEP_OCTETS))

    def drop(self) -> None:
        """Drops them all."""
        self._pieces.clear()
        self._current = None

    def step(self) -> Optional[Indication]:
        """Feeds up to the next indication, or else some octets: None."""
        if self._current is None:
            self._current = iter(self._end.feed_all(self._pieces.popleft()))
        indication = next(self._current, None)
        if indication is None or self._end._is_spent():
            self._current = None
        return indication
