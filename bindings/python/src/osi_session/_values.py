"""The arguments of an end's calls, and its indications."""
from __future__ import annotations

from dataclasses import dataclass, field
from typing import Callable, ClassVar, Dict, Optional, Union

from ._codes import Classes, FaultKind, Reason, Side, Spelling, Tokens, Units
from ._library import IndicationOfC, SidesOfC


@dataclass(frozen=True)
class Terms:
    """The transport protocol of an end (X.224 section 6.5)."""

    classes: Classes = Classes.CLASS_0
    """A caller should offer both classes only to a peer that is known to have class 2: one that has only
    class 0 may leave a request that prefers class 2 unanswered. A called end with both takes the class that
    the caller prefers."""
    size: int = 13
    """The exponent of the largest TPDU in octets: 7 (128 octets) to 13 (8,192)."""
    window: int = 15
    """How many units the peer may send before they are acknowledged, in class 2: 1 to 15."""


@dataclass(frozen=True)
class Sides:
    """Which side holds, or is to hold, each token at first."""

    data: Side = Side.ASKER
    minor: Side = Side.ASKER
    major: Side = Side.ASKER
    release: Side = Side.ASKER


@dataclass(frozen=True)
class Sizes:
    """The most octets of a TSDU in each direction: 64 to 65,535, or 0 for no limit (X.225 section 8)."""

    from_asker: int = 0
    from_answerer: int = 0


@dataclass(frozen=True)
class Opening:
    """The parameters of a connection that you ask for."""

    requirements: Units = Units.HALF_DUPLEX
    serial: int = 0
    """The number of the first point, 0 to 999,999."""
    wishes: Sides = field(default_factory=Sides)
    """Which side is to hold each token at first."""
    calling_tsap: bytes = b""
    """The transport address of this end, 1 to 32 octets. If it is empty, none is sent."""
    called_tsap: bytes = b""
    calling_selector: bytes = b""
    """The session address of this user, 1 to 16 octets. If it is empty, none is sent."""
    called_selector: bytes = b""
    user_data: bytes = b""
    """At most 10,240 octets."""
    sizes: Sizes = Sizes()
    """The sizes that you ask for."""


@dataclass(frozen=True)
class Addresses:
    """The addresses of a connection: the transport addresses of its CR (X.224 section 13.3.4) and the session
    addresses of its CN (X.225 section 8). An empty one means that there is no address."""

    calling_tsap: bytes
    called_tsap: bytes
    calling_selector: bytes
    called_selector: bytes


@dataclass(frozen=True)
class Fed:
    """What ``End.feed`` did."""

    used: int
    """How many octets of the piece were used, from the first."""
    waits: bool
    """An indication is pending."""


@dataclass(frozen=True)
class Tally:
    """What the trace of one direction has counted; once it has stopped, up to then, and all 0 once you were told of it."""

    octets: int = 0
    """Octets."""
    packets: int = 0
    """Packets (RFC 1006 section 6)."""
    units: int = 0
    """Transport units (X.224 section 13)."""
    tsdus: int = 0
    """Whole TSDUs."""
    session_units: int = 0
    """Session units (X.225 section 8)."""
    refused: int = 0
    """Packets, transport units and TSDUs that break a rule of spelling."""


@dataclass(frozen=True)
class Counters:
    """What both traces of an end have counted."""

    received: Tally = Tally()
    """Of the octets that ``End.feed`` used."""
    sent: Tally = Tally()
    """Of the octets that ``End.taken`` says are sent."""


@dataclass(frozen=True)
class Ending:
    """Why an end has ended."""

    reason: Reason
    detail: int
    """0, unless ``Reason`` says what it is."""


@dataclass(frozen=True)
class Fault:
    """Why a received session unit is bad."""

    kind: FaultKind
    si: int = 0
    """For all kinds but SPELLING: the SI of the unit (X.225 section 8)."""
    spelling: Spelling = Spelling.NONE
    parameter: int = 0
    """If the spelling is about a parameter: its code."""
    offset: int = 0
    """For SPELLING: the offset of the octet in the TSDU, from 0."""


@dataclass(frozen=True)
class Shown:
    """An indication for the user of a connection (X.215 section 10, indications and confirms)."""

    reference: int
    """The connection, as this end names it: 1 to 65,535."""
    is_over: ClassVar[bool] = False
    """Whether the connection is over after this indication."""


@dataclass(frozen=True)
class Connect(Shown):
    """CN: the peer asks for a connection. Answer by ``End.accept`` or ``End.refuse``."""

    requirements: Units
    number: Optional[int]
    """The number of the first point, 0 to 999,999, if the CN names one."""
    wishes: Sides
    user_data: bytes
    sizes: Sizes = Sizes()
    """The sizes that the CN names."""


@dataclass(frozen=True)
class Connected(Shown):
    """AC: the peer accepts the connection."""

    requirements: Units
    number: Optional[int]
    """The number of the first point, 0 to 999,999, if the AC names one."""
    sides: Sides
    user_data: bytes
    sizes: Sizes = Sizes()
    """The sizes that the AC names."""


@dataclass(frozen=True)
class RefusedByTransport(Shown):
    """DR: the transport connection is refused."""

    reason: int
    """The reason of the DR (X.224 section 13.5.3)."""
    is_over: ClassVar[bool] = True


@dataclass(frozen=True)
class RefusedBySession(Shown):
    """RF: the session connection is refused."""

    reason: int
    """0, 1 and 2 come from the called user."""
    user_data: bytes
    is_over: ClassVar[bool] = True


@dataclass(frozen=True)
class Data(Shown):
    """DT: data, at least one octet."""

    user_data: bytes


@dataclass(frozen=True)
class Given(Shown):
    """GT: the peer gives tokens to this side."""

    tokens: Tokens


@dataclass(frozen=True)
class Asked(Shown):
    """PT: the peer asks for tokens."""

    tokens: Tokens
    user_data: bytes


@dataclass(frozen=True)
class Minor(Shown):
    """MIP: a minor point."""

    number: int
    confirm: bool
    """Whether the peer asks for ``End.minor_confirm``."""
    user_data: bytes


@dataclass(frozen=True)
class MinorConfirmed(Shown):
    """MIA: the peer confirms the minor points up to this number."""

    number: int
    user_data: bytes


@dataclass(frozen=True)
class Major(Shown):
    """MAP: a major point. Answer by ``End.major_confirm``."""

    number: int
    user_data: bytes


@dataclass(frozen=True)
class MajorConfirmed(Shown):
    """MAA: the peer confirms the major point."""

    user_data: bytes


@dataclass(frozen=True)
class Restart(Shown):
    """RS: a restart at a point. Answer by ``End.restart_confirm``."""

    number: int
    """The number that the next point then has."""
    wishes: Sides
    user_data: bytes


@dataclass(frozen=True)
class Restarted(Shown):
    """RA: the peer confirms the restart."""

    number: int
    sides: Sides
    user_data: bytes


@dataclass(frozen=True)
class Release(Shown):
    """FN: the peer asks for the release. Answer by ``End.release_accept`` or ``End.release_refuse``."""

    user_data: bytes


@dataclass(frozen=True)
class Released(Shown):
    """DN: the connection is released."""

    user_data: bytes
    is_over: ClassVar[bool] = True


@dataclass(frozen=True)
class ReleaseRefused(Shown):
    """NF: the peer refuses the release."""

    user_data: bytes


@dataclass(frozen=True)
class Aborted(Shown):
    """AB of the peer's user."""

    user_data: bytes
    is_over: ClassVar[bool] = True


@dataclass(frozen=True)
class Lost(Shown):
    """The transport connection was closed, broke, or had a fault."""

    is_over: ClassVar[bool] = True


@dataclass(frozen=True)
class PeerAbort(Shown):
    """AB of the peer's provider."""

    reason: int
    """The octet of its parameter 17 (X.225 section 8)."""
    is_over: ClassVar[bool] = True


@dataclass(frozen=True)
class BadUnit(Shown):
    """This end aborts because it received a bad unit."""

    fault: Fault
    is_over: ClassVar[bool] = True


Indication = Union[
    Connect,
    Connected,
    RefusedByTransport,
    RefusedBySession,
    Data,
    Given,
    Asked,
    Minor,
    MinorConfirmed,
    Major,
    MajorConfirmed,
    Restart,
    Restarted,
    Release,
    Released,
    ReleaseRefused,
    Aborted,
    Lost,
    PeerAbort,
    BadUnit,
]
"""Each kind of indication."""


def _sides(sides: SidesOfC) -> Sides:
    return Sides(Side(sides.data), Side(sides.minor), Side(sides.major), Side(sides.release))


def _sizes(said: IndicationOfC) -> Sizes:
    return Sizes(said.size_from_asker, said.size_from_answerer)


def _number(said: IndicationOfC) -> Optional[int]:
    return said.number if said.has_number else None


def _fault(said: IndicationOfC) -> Fault:
    fault = said.fault
    return Fault(FaultKind(fault.fault), fault.si, Spelling(fault.spelling), fault.parameter, fault.offset)


# How to make an indication, by its tag: osi.h says which fields each has.
KINDS: Dict[int, Callable[[IndicationOfC, bytes], Indication]] = {
    1: lambda i, data: Connect(i.reference, Units(i.requirements), _number(i), _sides(i.sides), data, _sizes(i)),
    2: lambda i, data: Connected(i.reference, Units(i.requirements), _number(i), _sides(i.sides), data, _sizes(i)),
    3: lambda i, data: RefusedByTransport(i.reference, i.reason),
    4: lambda i, data: RefusedBySession(i.reference, i.reason, data),
    5: lambda i, data: Data(i.reference, data),
    6: lambda i, data: Given(i.reference, Tokens(i.tokens)),
    7: lambda i, data: Asked(i.reference, Tokens(i.tokens), data),
    8: lambda i, data: Minor(i.reference, i.number, i.confirm != 0, data),
    9: lambda i, data: MinorConfirmed(i.reference, i.number, data),
    10: lambda i, data: Major(i.reference, i.number, data),
    11: lambda i, data: MajorConfirmed(i.reference, data),
    12: lambda i, data: Restart(i.reference, i.number, _sides(i.sides), data),
    13: lambda i, data: Restarted(i.reference, i.number, _sides(i.sides), data),
    14: lambda i, data: Release(i.reference, data),
    15: lambda i, data: Released(i.reference, data),
    16: lambda i, data: ReleaseRefused(i.reference, data),
    17: lambda i, data: Aborted(i.reference, data),
    18: lambda i, data: Lost(i.reference),
    19: lambda i, data: PeerAbort(i.reference, i.reason),
    20: lambda i, data: BadUnit(i.reference, _fault(i)),
}
