#!/usr/bin/env python3
"""The calling side of a gateway over asyncio.

It sends messages, sets a minor point after each and waits for its confirmation; then it gives the tokens and accepts
the release.

    client.py [--port 4000] [--classes 0|2|20] [--tsdu OCTETS] [--wait SECONDS] [--messages 5] [--log FILE]

The status is 0 if the connection was released, and 3 if it was lost.
"""
from __future__ import annotations

import argparse
import asyncio
import contextlib
import sys
from typing import Any, Callable, ContextManager, TextIO, Union

from osi_session import (
    Asked,
    BadUnit,
    Classes,
    Connect,
    Connected,
    Data,
    Given,
    Indication,
    Lost,
    Minor,
    MinorConfirmed,
    Opening,
    PeerAbort,
    RefusedBySession,
    RefusedByTransport,
    Release,
    SessionError,
    Sides,
    Sizes,
    Terms,
    Tokens,
    Units,
    aio,
)

UNITS = Units.HALF_DUPLEX | Units.MINOR_SYNC | Units.NEGOTIATED_RELEASE
TOKENS = Tokens.DATA | Tokens.MINOR | Tokens.RELEASE


def opened(shown: Union[Connect, Connected], sides: Sides) -> str:
    serial = "-" if shown.number is None else shown.number
    letters = "".join("arc"[side] for side in (sides.data, sides.minor, sides.major, sides.release))
    return f"units {shown.requirements:04x} serial {serial} sides {letters}"


def fields(shown: Indication) -> str:
    """The words between the name of an indication and its user data, for those that come here."""
    if isinstance(shown, Connect):
        return " " + opened(shown, shown.wishes)
    if isinstance(shown, Connected):
        return " " + opened(shown, shown.sides)
    if isinstance(shown, (Given, Asked)):
        return f" {shown.tokens:02x}"
    if isinstance(shown, Minor):
        return f" {shown.number} confirm {'yes' if shown.confirm else 'no'}"
    if isinstance(shown, PeerAbort):
        return f" {shown.reason:02x}"
    if isinstance(shown, BadUnit):
        return f" {shown.fault.kind.name}"
    return "".join(f" {getattr(shown, name)}" for name in ("number", "reason") if hasattr(shown, name))


def named(shown: Indication) -> str:
    """The sizes that a CN or an AC names, if one of them is not 0."""
    sizes = getattr(shown, "sizes", Sizes())
    return "" if sizes == Sizes() else f" tsdu {sizes.from_asker} {sizes.from_answerer}"


NAMES = {
    RefusedByTransport: "Refused transport",
    RefusedBySession: "Refused session",
    Lost: "ProviderAbort Lost",
    PeerAbort: "ProviderAbort Peer",
    BadUnit: "ProviderAbort Unit",
}


def words(shown: Indication) -> str:
    """The words of an indication in a transcript (docs/TOOL.md)."""
    text = NAMES.get(type(shown), type(shown).__name__) + fields(shown)
    user_data = getattr(shown, "user_data", None)
    if user_data is None:
        return text
    data = user_data.hex() or "-"
    return f"{text} {data}" if isinstance(shown, Data) else f"{text} data {data}{named(shown)}"


def log_to(name: str) -> ContextManager[TextIO]:
    """The log that --log FILE names; - is standard output."""
    if name == "-":
        return contextlib.nullcontext(sys.stdout)
    return open(name, "w")


class Client:
    def __init__(self, line: aio.EndProtocol, sizes: Sizes, messages: int, log: TextIO) -> None:
        self.line, self.end, self.sizes, self.log = line, line.end, sizes, log
        self.messages, self.said = messages, 0
        self.released = self.lost = False

    def tell(self, text: str) -> None:
        print(f"left {text}", file=self.log)

    def did(self, reference: int, verb: str, call: Callable[..., None], *arguments: Any) -> bool:
        """Makes a call, writes it to the log, and answers whether it was done."""
        try:
            call(reference, *arguments)
        except SessionError as error:
            self.tell(f"{reference} {verb} refused: {error}")
            return False
        self.tell(f"{reference} {verb} ok")
        return True

    def go_on(self, reference: int) -> None:
        """Sends the next message with a point after it, or gives the tokens after the last message."""
        if self.said == self.messages:
            self.did(reference, "give", self.end.give, TOKENS)
            return
        self.said += 1
        self.did(reference, "data", self.end.data, f"message {self.said}".encode())
        self.did(reference, "minor", self.end.minor)

    async def run(self) -> int:
        asked = Opening(requirements=UNITS, user_data=b"gateway", sizes=self.sizes)
        self.tell(f"connect ok {self.end.connect(asked)}")
        async for shown in self.line:
            self.tell(f"{shown.reference} {words(shown)}")
            if isinstance(shown, (Connected, MinorConfirmed)):
                self.go_on(shown.reference)
            elif isinstance(shown, Release):
                self.released = self.did(shown.reference, "releaseaccept", self.end.release_accept)
            elif shown.is_over:
                self.lost = not self.released
        return 3 if self.lost else 0 if self.released else 2


async def run(options: argparse.Namespace, log: TextIO) -> int:
    classes = Classes(("0" in options.classes) | ("2" in options.classes) << 1)
    async with aio.dial("127.0.0.1", options.port, Terms(classes=classes)) as line:
        client = Client(line, Sizes(options.tsdu, options.tsdu), options.messages, log)
        return await asyncio.wait_for(client.run(), options.wait)


def main() -> int:
    parser = argparse.ArgumentParser(description=(__doc__ or "").splitlines()[0])
    parser.add_argument("--port", type=int, default=4000)
    parser.add_argument("--classes", default="0")
    parser.add_argument("--tsdu", type=int, default=0)
    parser.add_argument("--wait", type=int, default=10)
    parser.add_argument("--messages", type=int, default=5)
    parser.add_argument("--log", default="-")
    options = parser.parse_args()
    try:
        with log_to(options.log) as log:
            return asyncio.run(run(options, log))
    except KeyboardInterrupt:
        return 130


if __name__ == "__main__":
    sys.exit(main())
