"""The numbers of osi.h by name, and the exception of a refused call."""
from __future__ import annotations

from enum import IntEnum, IntFlag


class Code(IntEnum):
    """What a call answers. After any code but OK nothing has changed."""

    OK = 0
    SLOT_EMPTY = 1
    """The end was freed by ``End.close``."""
    BAD_ARGUMENT = 2
    """A number or a length is outside its range. The calling program has a bug."""
    NO_MEMORY = 3
    """Memory ran out. Call again when there is some, or close the socket and call ``End.broken``."""
    IN_USE = 4
    """The slot holds an end already. No call of this package answers it."""
    NOTHING = 5
    """No indication is pending. No call of this package answers it."""
    NO_SUCH_CONNECTION = 10
    """This end never gave the reference; a judge knows no such number."""
    ENDED = 11
    """The connection, or the end, is over."""
    BAD_STATE = 12
    """The call is not allowed in this phase (X.225 annex A)."""
    NOT_SELECTED = 13
    """A functional unit or a token isn't available, or units can't be combined."""
    TOKEN_NOT_HELD = 14
    """The call needs a token that the other side holds."""
    TOKEN_ALREADY_HELD = 15
    """The call asks for a token that this side holds."""
    BAD_NUMBER = 16
    """The call may not name a point of this number."""
    SERIALS_USED_UP = 17
    """All numbers of points, up to 999,999, are used."""
    EMPTY = 18
    """Data without an octet, or a set without a token."""
    TOO_LONG = 19
    """Too many octets; each call states its limit."""
    NOT_CALLER = 20
    """Only the calling end asks for connections."""
    NEGOTIATING = 21
    """The first connection is not answered yet: ask again later."""
    ONE_CONNECTION = 22
    """The end uses class 0, which has one connection."""
    TOO_MANY = 23
    """64 connections are live."""
    REFERENCES_USED_UP = 24
    """All 65,535 references are used."""


_TEXTS = {
    Code.SLOT_EMPTY: "the end was freed",
    Code.BAD_ARGUMENT: "a number or a length is outside its range",
    Code.NO_MEMORY: "there is no memory",
    Code.IN_USE: "the slot holds an end already",
    Code.NOTHING: "no indication waits",
    Code.NO_SUCH_CONNECTION: "no connection has this reference or number",
    Code.ENDED: "the connection is over",
    Code.BAD_STATE: "the call is not allowed in this phase",
    Code.NOT_SELECTED: "a functional unit or a token is not selected",
    Code.TOKEN_NOT_HELD: "the other side holds a token that the call needs",
    Code.TOKEN_ALREADY_HELD: "a token is held already",
    Code.BAD_NUMBER: "the number is of no point that the call may name",
    Code.SERIALS_USED_UP: "all numbers of points are used",
    Code.EMPTY: "there is no octet of data, or no token",
    Code.TOO_LONG: "there are too many octets",
    Code.NOT_CALLER: "only the calling end asks for connections",
    Code.NEGOTIATING: "the first connection is not answered yet",
    Code.ONE_CONNECTION: "class 0 has one connection",
    Code.TOO_MANY: "64 connections are live",
    Code.REFERENCES_USED_UP: "all references were given",
}


class SessionError(Exception):
    """A call was refused, and has changed nothing. ``code`` says why."""

    code: Code

    def __init__(self, code: Code) -> None:
        super().__init__(_TEXTS.get(code, f"the library answers {int(code)}"))
        self.code = code

    def __reduce__(self) -> tuple[type[SessionError], tuple[Code]]:
        return SessionError, (self.code,)


class Classes(IntFlag):
    """Classes of the transport protocol (X.224 section 5.4)."""

    NONE = 0
    """A caller with none takes class 0; a called end with none refuses every connection."""
    CLASS_0 = 1
    """One connection for each byte connection."""
    CLASS_2 = 2
    """With explicit flow control: up to 64 connections."""
    BOTH = 3


class Units(IntFlag):
    """Functional units (X.225 section 8): half-duplex with any of the last four, or duplex alone."""

    NONE = 0
    HALF_DUPLEX = 0x0001
    DUPLEX = 0x0002
    MINOR_SYNC = 0x0008
    MAJOR_SYNC = 0x0010
    RESYNCHRONIZE = 0x0020
    NEGOTIATED_RELEASE = 0x0080


class Tokens(IntFlag):
    """Tokens (X.215 section 7). A token is available if its functional unit is selected."""

    NONE = 0
    DATA = 0x01
    MINOR = 0x04
    MAJOR = 0x10
    RELEASE = 0x40


class Side(IntEnum):
    """A side of a connection or of a restart (X.215 section 12.1.2)."""

    ASKER = 0
    """The side that asks."""
    ANSWERER = 1
    """The side that answers."""
    CHOICE = 2
    """Only in a wish: the answering side chooses."""


class Refusal(IntEnum):
    """Why a user refuses a connection (X.225 section 8.3.5)."""

    UNSPECIFIED = 0
    """No reason is given."""
    CONGESTION = 1
    """Temporary congestion: the caller may ask again later."""
    WITH_DATA = 2
    """User data says why. Only this reason may have user data, which may be empty."""


class Phase(IntEnum):
    """The phase of a connection (X.225 annex A, states)."""

    NONE = 0
    """The reference was never given, or the end is closed."""
    WAIT_TRANSPORT = 1
    """The transport connection is awaited."""
    WAIT_CN = 2
    """A CN is awaited."""
    CONNECTING = 3
    """The answer to the CN is awaited."""
    ANSWERING = 4
    """The user is to accept or refuse."""
    READY = 5
    MAJOR_ASKED = 6
    """The confirmation of a major point is awaited."""
    MAJOR_DUE = 7
    """The user is to confirm a major point."""
    RELEASING = 8
    """The answer to the release is awaited."""
    RELEASE_DUE = 9
    """The user is to answer the release."""
    RESTARTING = 10
    """The answer to the restart is awaited."""
    RESTART_DUE = 11
    """The user is to answer the restart."""
    ABORTING = 12
    """The answer to the abort is awaited."""
    ENDED = 13
    """The connection is gone."""


class Trace(IntEnum):
    """What a trace keeps."""

    OFF = 0
    """There is no trace."""
    COUNTS = 1
    """Counters."""
    LINES = 2
    """Counters, and lines for a log."""


class Direction(IntEnum):
    """The direction of a trace."""

    RECEIVED = 0
    """The octets that ``End.feed`` used."""
    SENT = 1
    """The octets that ``End.taken`` says are sent."""


class Reason(IntEnum):
    """Why an end has ended. From UNKNOWN_REFERENCE on, each names a rule of X.224 or RFC 1006 that the peer
    broke, or says that memory ran out for what the peer sent."""

    BROKEN = 1
    """``End.broken`` was called."""
    CLOSED = 2
    """Its connection of class 0 was closed here."""
    PEER_CLOSED = 3
    """The peer closed it by a DR: the detail is the reason (X.224 section 13.5.3)."""
    NO_MEMORY = 4
    """Memory ran out in ``End.feed``."""
    UNKNOWN_REFERENCE = 5
    BAD_ANSWER = 6
    UNEXPECTED_UNIT = 7
    BAD_VERSION = 10
    """The detail is the offset of the packet's first octet in the stream."""
    BAD_LENGTH = 11
    """The detail is the offset of the packet's first octet in the stream."""
    NO_MEMORY_FOR_PACKET = 12
    BAD_LI = 13
    """For this one and the next four, the detail is the offset of the octet in the packet's units."""
    UNKNOWN_CODE = 14
    BAD_PARAMETER_LENGTH = 15
    BAD_PARAMETER_VALUE = 16
    DUPLICATE_PARAMETER = 17
    WRONG_FORM = 18
    OUT_OF_SEQUENCE = 19
    CREDIT_REDUCED = 20
    TSDU_TOO_LONG = 21
    NO_MEMORY_FOR_TSDU = 22


class FaultKind(IntEnum):
    """Why a received session unit is bad (X.225 section 8 and annex A)."""

    SPELLING = 1
    """Its octets are no unit."""
    UNEXPECTED = 2
    """It is not expected in this phase."""
    NOT_SELECTED = 3
    """Its functional unit is not selected."""
    TOKEN_NOT_HELD = 4
    """The peer does not hold a token that it needs."""
    BAD_NUMBER = 5
    """It may not name a point of this number."""
    BAD_TOKENS = 6
    """It names tokens or sides that it may not name."""
    BAD_ENCLOSURE = 7
    """It is a part of a Data that is out of its place."""
    DATA_TOO_LONG = 8
    """With this part, the Data has more than 1,048,572 octets."""


class Spelling(IntEnum):
    """What is wrong with the octets of a session unit (X.225 section 8)."""

    NONE = 0
    UNKNOWN_SI = 1
    LENGTH_PAST_END = 2
    MISSING_PARAMETER = 3
    DUPLICATE_PARAMETER = 4
    BAD_VALUE = 5
    BAD_CONCATENATION = 6
    OCTETS_LEFT_OVER = 7


class JudgedSide(IntEnum):
    """A side of a byte connection that a ``Judge`` is fed."""

    LEFT = 0
    """The side that opened the byte connection, and sent the CR."""
    RIGHT = 1
    """The other side."""

    @property
    def other(self) -> JudgedSide:
        """The other side."""
        return JudgedSide(1 - self)


class VerdictKind(IntEnum):
    """What a ``Verdict`` says. KEPT may change while octets pass. The others may change only to NONE, if the other
    side leaves the profile."""

    NONE = 0
    """Nothing: the other side of the connection left the profile."""
    KEPT = 1
    """All that was judged of it is what a conforming end may send."""
    BROKE = 2
    """It broke the protocol."""
    LEAVES = 3
    """It sent what X.225 allows and this product leaves out."""
    TOO_MANY = 4
    """More than 4,096 sessions explain it, so it is judged no further."""
    NOT_JUDGED = 5
    """It is judged no further; the rule says why."""


class Rule(IntEnum):
    """The rule that a side broke, or why it is judged no further."""

    NONE = 0
    NO_SUCH_CONNECTION = 10
    """There was no session connection."""
    ENDED = 11
    """The session connection was over."""
    BAD_STATE = 12
    """A session may not send it in this phase (X.225 annex A)."""
    NOT_SELECTED = 13
    """Its functional unit or token is not available."""
    TOKEN_NOT_HELD = 14
    """It needs a token that the other side held."""
    TOKEN_ALREADY_HELD = 15
    """It asks for a token that this side held."""
    BAD_NUMBER = 16
    """It names a point that it may not name."""
    SERIALS_USED_UP = 17
    """All numbers of points were used."""
    EMPTY = 18
    """Data without an octet, or a set without a token."""
    TOO_LONG = 19
    """It is longer than the sides have agreed."""
    BAD_TOKENS = 30
    """It settles a token that the other side has settled."""
    BAD_ENCLOSURE = 31
    """A part of data is out of its place."""
    NO_FAULT = 32
    """It aborts for a protocol error that nobody made."""
    NOTHING_TO_ANSWER = 33
    """An AA, although no AB came; or a DC, although no DR came."""
    OUTSIDE = 34
    """X.225 allows it, and this product leaves it out."""
    UNKNOWN_SI = 40
    """The TSDU is no session units: an SI is unknown."""
    LENGTH_PAST_END = 41
    """A length of the TSDU goes past its end."""
    MISSING_PARAMETER = 42
    """A session unit lacks a parameter that it must have."""
    DUPLICATE_PARAMETER = 43
    """A parameter of a session unit occurs twice."""
    BAD_VALUE = 44
    """A parameter of a session unit has a value that it may not have."""
    BAD_CONCATENATION = 45
    """A session unit may not be in that place of the TSDU."""
    TRAILING_OCTETS = 46
    """Octets are left after the last session unit."""
    NO_OPENING = 50
    """No break: the capture begins in the middle of a connection. Its first packet has no CR."""
    BAD_VERSION = 54
    """No packet begins there: its version is not 3 (RFC 1006 section 6)."""
    BAD_LENGTH = 55
    """No packet begins there: its length is below 7."""
    BAD_LI = 56
    """The length of a transport unit is wrong (X.224 section 13)."""
    UNKNOWN_CODE = 57
    """The code of a transport unit is unknown."""
    BAD_TPDU_PARAMETER_LENGTH = 58
    """A parameter of a transport unit has a wrong length."""
    BAD_TPDU_PARAMETER_VALUE = 59
    """A parameter of a transport unit has a value that it may not have."""
    DUPLICATE_TPDU_PARAMETER = 60
    """A parameter of a transport unit occurs twice."""
    UNEXPECTED_UNIT = 61
    """A transport unit that has no place there, such as data before the CC."""
    WRONG_FORM = 62
    """A DR that refuses no CR."""
    TSDU_TOO_LONG = 63
    """A TSDU of more than 1,048,576 octets."""
    LIMIT = 70
    """No break: more was to be kept of a connection than a judge keeps."""
    TOO_MANY_CONNECTIONS = 71
    """No break: there are more than 128 connections at once. Or nobody can tell whether the unit is right,
    since a connection is not judged any more."""
    ONE_CONNECTION = 80
    """A CR in class 0, which has one connection."""
    NEGOTIATING = 81
    """A CR while another one is unanswered and the class is not known."""
    REFERENCE_IN_USE = 82
    """A CR or CC with a reference that its sender has given another connection."""
    UNKNOWN_REFERENCE = 83
    """A unit for a reference of no connection."""
    BAD_ANSWER = 84
    """A CC that selects what its CR does not offer."""
    LARGER_SIZE = 85
    """A CC with a larger TPDU size than its CR."""
    CLOSED = 86
    """A unit on a connection that its sender has closed."""
    OUT_OF_SEQUENCE = 87
    """A DT or an AK with a wrong number."""
    NO_CREDIT = 88
    """A DT that the window does not allow."""
    SIZE_EXCEEDED = 89
    """A DT that is longer than the size that the CC selects."""
    CREDIT_REDUCED = 90
    """An AK that moves the upper edge of the window down."""


class Said(IntEnum):
    """What a side sent: a session unit by its name in X.225, or what could not be read."""

    NOTHING = 0
    CN = 1
    """CONNECT."""
    AC = 2
    """ACCEPT."""
    RF = 3
    """REFUSE."""
    DT = 4
    """DATA TRANSFER."""
    GT = 5
    """GIVE TOKENS."""
    PT = 6
    """PLEASE TOKENS."""
    MIP = 7
    """MINOR SYNC POINT."""
    MIA = 8
    """MINOR SYNC ACK."""
    MAP = 9
    """MAJOR SYNC POINT."""
    MAA = 10
    """MAJOR SYNC ACK."""
    RS = 11
    """RESYNCHRONIZE."""
    RA = 12
    """RESYNCHRONIZE ACK."""
    FN = 13
    """FINISH."""
    DN = 14
    """DISCONNECT."""
    NF = 15
    """NOT FINISHED."""
    AB = 16
    """ABORT."""
    AA = 17
    """ABORT ACCEPT."""
    TSDU = 18
    """A TSDU that is no session units."""
    TPKT = 19
    """Octets that begin no packet."""
    TPDU = 20
    """A transport unit."""
    TRANSPORT_DT = 21
    """A DT of the transport, by which a TSDU is too long."""
    TRANSPORT_DR = 22
    """A DR of the transport."""
    TRANSPORT_CR = 23
    """A CR of the transport."""
    TRANSPORT_CC = 24
    """A CC of the transport."""
    TRANSPORT_DC = 25
    """A DC of the transport."""
    TRANSPORT_AK = 26
    """An AK of the transport."""
    TRANSPORT_ER = 27
    """An ER of the transport."""
