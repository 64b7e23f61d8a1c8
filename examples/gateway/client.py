#!/usr/bin/env python3
"""The calling side of client.c, over ctypes.

It sends messages, sets a minor point after each and waits for its confirmation; then it gives the tokens and accepts
the release.

    client.py --library build/libosi-session.so [--port 4000] [--classes 0|2|20] [--tsdu OCTETS] [--wait SECONDS]
              [--messages 5] [--log FILE]
"""
import argparse
import ctypes
import select
import socket
import sys
from ctypes import POINTER, byref, c_bool, c_size_t, c_uint8, c_uint16, c_uint32, c_uint64, c_void_p

OK = 0
CONNECT, CONNECTED, REFUSED_BY_TRANSPORT, REFUSED_BY_SESSION, DATA, GIVEN = 1, 2, 3, 4, 5, 6
ASKED, MINOR, MINOR_CONFIRMED, MAJOR, RESTART, RESTARTED, RELEASE = 7, 8, 9, 10, 12, 13, 14
ABORTED, LOST, PEER_ABORT, BAD_UNIT = 17, 18, 19, 20
UNITS = 0x0001 | 0x0008 | 0x0080
TOKENS = 0x01 | 0x04 | 0x40
NAMES = {1: "Connect", 2: "Connected", 3: "Refused transport", 4: "Refused session", 5: "Data", 6: "Given",
         7: "Asked", 8: "Minor", 9: "MinorConfirmed", 10: "Major", 11: "MajorConfirmed", 12: "Restart",
         13: "Restarted", 14: "Release", 15: "Released", 16: "ReleaseRefused", 17: "Aborted",
         18: "ProviderAbort Lost", 19: "ProviderAbort Peer", 20: "ProviderAbort Unit"}
FAULTS = ["", "Spelling", "Unexpected", "NotSelected", "TokenHeld", "BadNumber", "BadTokens",
          "BadEnclosure", "DataTooLong"]
REFUSALS = {3: "OutOfMemory", 10: "NoSuchConnection", 11: "Ended", 12: "BadState", 13: "NotSelected",
            14: "TokenNotHeld", 15: "TokenAlreadyHeld", 16: "BadNumber", 17: "SerialsUsedUp", 18: "Empty",
            19: "TooLong", 20: "NotCaller", 21: "Negotiating", 22: "OneConnection", 23: "TooMany",
            24: "ReferencesUsedUp"}


class Inner(ctypes.Structure):
    _fields_ = [("at", c_void_p)]


class End(ctypes.Structure):
    """A slot, which begins as zeros."""
    _fields_ = [("full", c_bool), ("inner", Inner)]


class Octets(ctypes.Structure):
    _fields_ = [("at", c_void_p), ("length", c_size_t)]


class Terms(ctypes.Structure):
    _fields_ = [("classes", c_uint8), ("size", c_uint8), ("window", c_uint8)]


class Sides(ctypes.Structure):
    _fields_ = [("data", c_uint8), ("minor", c_uint8), ("major", c_uint8), ("release", c_uint8)]


class Opening(ctypes.Structure):
    _fields_ = [("requirements", c_uint16), ("serial", c_uint32), ("wishes", Sides), ("calling_tsap", Octets),
                ("called_tsap", Octets), ("calling_selector", Octets), ("called_selector", Octets),
                ("user_data", Octets), ("size_from_asker", c_uint16), ("size_from_answerer", c_uint16)]


class Fed(ctypes.Structure):
    _fields_ = [("used", c_size_t), ("waits", c_bool)]


class Fault(ctypes.Structure):
    _fields_ = [("fault", c_uint8), ("si", c_uint8), ("spelling", c_uint8), ("parameter", c_uint8),
                ("offset", c_uint64)]


class Indication(ctypes.Structure):
    _fields_ = [("tag", c_uint32), ("number", c_uint32), ("reference", c_uint16), ("requirements", c_uint16),
                ("has_number", c_uint8), ("confirm", c_uint8), ("tokens", c_uint8), ("reason", c_uint8),
                ("sides", Sides), ("fault", Fault), ("user_data", Octets), ("size_from_asker", c_uint16),
                ("size_from_answerer", c_uint16)]


EMPTY = ctypes.create_string_buffer(1)
NO_OCTETS = Octets(ctypes.addressof(EMPTY), 0)
# The arguments of each function after the end, and what it returns.
FUNCTIONS = {
    "osi_caller": ([POINTER(Terms)], c_uint32),
    "osi_free": ([], None),
    "osi_connect_with_size": ([POINTER(Opening), c_size_t, POINTER(c_uint16)], c_uint32),
    "osi_data": ([c_uint16, c_void_p, c_size_t], c_uint32),
    "osi_minor": ([c_uint16, c_uint8, c_void_p, c_size_t], c_uint32),
    "osi_give": ([c_uint16, c_uint8], c_uint32),
    "osi_release_accept": ([c_uint16, c_void_p, c_size_t], c_uint32),
    "osi_feed": ([c_void_p, c_size_t, POINTER(Fed)], c_uint32),
    "osi_outgoing": ([POINTER(Octets)], None),
    "osi_taken": ([c_size_t], c_uint32),
    "osi_broken": ([], c_uint32),
    "osi_is_over": ([], c_bool),
    "osi_fetch": ([], c_uint32),
    "osi_last_with_size": ([POINTER(Indication), c_size_t], None),
}


def load(path):
    library = ctypes.CDLL(path)
    for name, (takes, answers) in FUNCTIONS.items():
        function = getattr(library, name)
        function.argtypes = [POINTER(End), *takes]
        function.restype = answers
    return library


def of(octets):
    """A copy of lent octets."""
    return ctypes.string_at(octets.at, octets.length)


def data(octets):
    return octets.hex() or "-"


def sides(s):
    return "".join("arc"[side] for side in (s.data, s.minor, s.major, s.release))


def fields(i):
    """The words between the name of an indication and its user data."""
    if i.tag in (CONNECT, CONNECTED):
        number = i.number if i.has_number else "-"
        return f" units {i.requirements:04x} serial {number} sides {sides(i.sides)}"
    if i.tag in (REFUSED_BY_TRANSPORT, REFUSED_BY_SESSION):
        return f" {i.reason}"
    if i.tag in (GIVEN, ASKED):
        return f" {i.tokens:02x}"
    if i.tag == MINOR:
        return f" {i.number} confirm {'yes' if i.confirm else 'no'}"
    if i.tag in (MINOR_CONFIRMED, MAJOR):
        return f" {i.number}"
    if i.tag in (RESTART, RESTARTED):
        return f" {i.number} sides {sides(i.sides)}"
    if i.tag == PEER_ABORT:
        return f" {i.reason:02x}"
    return f" {FAULTS[i.fault.fault]}" if i.tag == BAD_UNIT else ""


def sizes(i):
    """The sizes that a CN or an AC names, if one of them is not 0."""
    named = i.tag in (CONNECT, CONNECTED) and (i.size_from_asker or i.size_from_answerer)
    return f" tsdu {i.size_from_asker} {i.size_from_answerer}" if named else ""


def text(i):
    """The words of an indication (docs/TOOL.md)."""
    words, user_data = NAMES[i.tag] + fields(i), data(of(i.user_data))
    if i.tag == DATA:
        return f"{words} {user_data}"
    has_none = i.tag in (REFUSED_BY_TRANSPORT, GIVEN) or i.tag >= LOST
    return words if has_none else f"{words} data {user_data}{sizes(i)}"


class Client:
    def __init__(self, library, words):
        self.osi, self.tsdu, self.messages, self.log = library, words.tsdu, words.messages, words.log
        self.patience = words.wait
        self.end, self.reference = End(), c_uint16()
        self.said, self.released, self.lost = 0, False, False
        terms = Terms(("0" in words.classes) | ("2" in words.classes) << 1, 13, 15)
        assert self.osi.osi_caller(byref(self.end), byref(terms)) == OK

    def did(self, call, code):
        answer = "ok" if code == OK else f"refused {REFUSALS.get(code, code)}"
        print(f"left {self.reference.value} {call} {answer}", file=self.log)
        return code == OK

    def ask(self):
        self.user_data = ctypes.create_string_buffer(b"gateway", 7)
        asked = Opening(UNITS, 0, Sides(), NO_OCTETS, NO_OCTETS, NO_OCTETS, NO_OCTETS,
                        Octets(ctypes.addressof(self.user_data), 7), self.tsdu, self.tsdu)
        code = self.osi.osi_connect_with_size(byref(self.end), byref(asked), ctypes.sizeof(asked), byref(self.reference))
        answer = f"ok {self.reference.value}" if code == OK else f"refused {REFUSALS.get(code, code)}"
        print(f"left connect {answer}", file=self.log)
        return code == OK

    def call(self, name, verb, *arguments):
        return self.did(verb, getattr(self.osi, name)(byref(self.end), self.reference, *arguments))

    def go_on(self):
        if self.said == self.messages:
            self.call("osi_give", "give", TOKENS)
            return
        self.said += 1
        message = f"message {self.said}".encode()
        self.call("osi_data", "data", message, len(message))
        self.call("osi_minor", "minor", 1, EMPTY, 0)

    def shown(self, indication):
        print(f"left {indication.reference} {text(indication)}", file=self.log)
        if indication.tag in (CONNECTED, MINOR_CONFIRMED):
            self.go_on()
        elif indication.tag == RELEASE:
            self.released = self.call("osi_release_accept", "releaseaccept", EMPTY, 0)
        elif indication.tag in (ABORTED, LOST, PEER_ABORT, BAD_UNIT):
            self.lost = not self.released

    def show_all(self):
        indication = Indication()
        while self.osi.osi_fetch(byref(self.end)) == OK:
            self.osi.osi_last_with_size(byref(self.end), byref(indication), ctypes.sizeof(indication))
            self.shown(indication)

    def feed(self, piece):
        fed = Fed()
        while piece:
            self.osi.osi_feed(byref(self.end), piece, len(piece), byref(fed))
            piece = piece[fed.used:]
            self.show_all()

    def outgoing(self):
        octets = Octets()
        self.osi.osi_outgoing(byref(self.end), byref(octets))
        return of(octets)

    def turn(self, connection):
        """Waits once, and reads and writes. False once the peer has closed, or this side may close: everything is sent,
        and its only connection is gone."""
        waiting = self.outgoing()
        if self.osi.osi_is_over(byref(self.end)):
            return False
        readable, writable, _ = select.select([connection], [connection] if waiting else [], [], self.patience)
        if writable:
            self.osi.osi_taken(byref(self.end), connection.send(waiting))
        if readable:
            piece = connection.recv(65536)
            self.feed(piece)
            return bool(piece)
        return bool(writable)

    def run(self, connection):
        try:
            while self.turn(connection):
                pass
        except ConnectionError:
            pass
        self.osi.osi_broken(byref(self.end))
        self.show_all()


def main():
    words = argparse.ArgumentParser(description=__doc__.splitlines()[0])
    words.add_argument("--library", required=True)
    words.add_argument("--port", type=int, default=4000)
    words.add_argument("--classes", default="0")
    words.add_argument("--tsdu", type=int, default=0)
    words.add_argument("--wait", type=int, default=10)
    words.add_argument("--messages", type=int, default=5)
    words.add_argument("--log", type=argparse.FileType("w"), default=sys.stdout)
    words = words.parse_args()
    client = Client(load(words.library), words)
    with socket.create_connection(("127.0.0.1", words.port)) as connection:
        connection.setblocking(False)
        if client.ask():
            client.run(connection)
    client.osi.osi_free(byref(client.end))
    return 3 if client.lost else 0 if client.released else 2


if __name__ == "__main__":
    sys.exit(main())
