"""How a connection ends in a way that its user did not ask for."""
from __future__ import annotations

from dataclasses import dataclass
from typing import Optional, Tuple, Type

from ._codes import Code, SessionError
from ._values import Indication, Lost


class UnexpectedIndication(Exception):
    """An unexpected indication came: ``indication``, or None if no more can come."""

    def __init__(self, indication: Optional[Indication]) -> None:
        super().__init__(f"shown: {indication!r}" if indication is not None else "the line is closed")
        self.indication = indication

    def __reduce__(self) -> Tuple[Type[UnexpectedIndication], Tuple[Optional[Indication]]]:
        return UnexpectedIndication, (self.indication,)


@dataclass(frozen=True)
class GivenUp(Lost):
    """This side has given the connection up: see ``EndProtocol.give_up`` and ``EndProtocol.most``."""


class SessionOver(SessionError):
    """The session is over, and not by its own user: the peer refused, aborted or released it, it was lost, or it was
    given up. ``indication`` says which; ``code`` is ENDED. The line and its other sessions go on, unless the byte
    connection itself is gone."""

    indication: Indication

    def __init__(self, indication: Indication) -> None:
        Exception.__init__(self, f"the session is over: {indication!r}")
        self.code = Code.ENDED
        self.indication = indication

    def __reduce__(self) -> Tuple[Type[SessionError], Tuple[Indication]]:  # type: ignore[override]
        return SessionOver, (self.indication,)
