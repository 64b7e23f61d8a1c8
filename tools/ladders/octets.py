"""The contents of the queues of octets: messages, their packets, and the pieces that carries carried."""
from collections import deque


class Message:
    """What one line sends on one connection; `shown` is the index of the indication that it causes.

    Data that leaves in parts is one message for each part. `part` is then its place and the number of parts, and only
    the last part has the name of the call."""

    __slots__ = ("side", "connection", "name", "line", "fields", "shown", "arrived", "part")

    def __init__(self, side, connection, name, line, fields=None, part=None):
        self.side, self.connection, self.name, self.line, self.part = side, connection, name, line, part
        self.fields, self.shown, self.arrived = fields or {}, None, False


class Run:
    """The octets of a message that were written at one line: `length` is None if it is not known."""

    __slots__ = ("message", "line", "length", "passed")

    def __init__(self, message, line):
        self.message, self.line, self.length, self.passed = message, line, 0, 0


class Packet:
    """A packet of a run: its unit, its octets or None, and how many of them were carried."""

    __slots__ = ("run", "unit", "length", "passed", "last")

    def __init__(self, run, unit, length, last=True):
        self.run, self.unit, self.length, self.passed, self.last = run, unit, length, 0, last


class Piece:
    """The octets of a run, from `begin` up to `reach`, that one carry carried.

    They are drawn from the line `start` to the line `end`. A piece without a run has octets of an unknown unit.
    `dropped` is whether they completed a message that causes no indication."""

    __slots__ = ("side", "run", "begin", "reach", "start", "end", "carry", "dropped")

    def __init__(self, side, run, begin, reach, start, carry):
        self.side, self.run, self.begin, self.reach = side, run, begin, reach
        self.start, self.end, self.carry, self.dropped = start, carry, carry, False


class Link:
    """One end of an open transport connection."""

    __slots__ = ("credit", "waiting", "closing")

    def __init__(self, credit):
        self.credit, self.waiting, self.closing = credit, deque(), False
