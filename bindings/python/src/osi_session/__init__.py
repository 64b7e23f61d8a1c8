"""One end of an OSI session (ITU-T X.225 version 2) over the transport classes 0 and 2 of X.224 in TPKT
packets (RFC 1006). You pass in the octets that you received, and it returns the octets to send.

    from osi_session import Connect, End, Opening

    caller, called = End.caller(), End.called()
    connection = caller.connect(Opening(user_data=b"who is there?"))

Send the octets of ``end.outgoing()`` to the peer, and pass the number that you sent to ``end.taken(count)``.
Pass the octets that you received to ``end.feed_all(piece)``, which yields the indications.
``osi_session.aio`` does both over asyncio.

``Judge`` judges a byte connection between two other programs, of either class and with any number of connections, and
says which side broke the protocol first.

The package calls the shared library libosi-session.so of the same project over ctypes. It takes the library
from the folder that OSI_SESSION_DIR names (or the file OSI_SESSION_LIBRARY), else the one in this package, if
it was built with one, else the one that the loader or pkg-config finds.
"""
from ._codes import (
    Classes,
    Code,
    Direction,
    FaultKind,
    JudgedSide,
    Phase,
    Reason,
    Refusal,
    Rule,
    Said,
    SessionError,
    Side,
    Spelling,
    Tokens,
    Trace,
    Units,
    VerdictKind,
)
from ._end import End
from ._judge import Judge
from ._library import VERSION as __version__, LibraryNotFound, library_version
from ._values import (
    Aborted,
    Addresses,
    Asked,
    BadUnit,
    Connect,
    Connected,
    Counters,
    Data,
    Ending,
    Fault,
    Fed,
    Given,
    Indication,
    Lost,
    Major,
    MajorConfirmed,
    Minor,
    MinorConfirmed,
    Opening,
    PeerAbort,
    RefusedBySession,
    RefusedByTransport,
    Release,
    Released,
    ReleaseRefused,
    Restart,
    Restarted,
    Shown,
    Sides,
    Sizes,
    Tally,
    Terms,
)
from ._verdicts import Verdict

__all__ = [
    "Aborted",
    "Addresses",
    "Asked",
    "BadUnit",
    "Classes",
    "Code",
    "Connect",
    "Connected",
    "Counters",
    "Data",
    "Direction",
    "End",
    "Ending",
    "Fault",
    "FaultKind",
    "Fed",
    "Given",
    "Indication",
    "Judge",
    "JudgedSide",
    "LibraryNotFound",
    "Lost",
    "Major",
    "MajorConfirmed",
    "Minor",
    "MinorConfirmed",
    "Opening",
    "PeerAbort",
    "Phase",
    "Reason",
    "Refusal",
    "RefusedBySession",
    "RefusedByTransport",
    "Release",
    "ReleaseRefused",
    "Released",
    "Restart",
    "Restarted",
    "Rule",
    "Said",
    "SessionError",
    "Shown",
    "Side",
    "Sides",
    "Sizes",
    "Spelling",
    "Tally",
    "Terms",
    "Tokens",
    "Trace",
    "Units",
    "Verdict",
    "VerdictKind",
    "library_version",
]
