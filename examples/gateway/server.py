#!/usr/bin/env python3
"""The called side of server.c, by the package osi_session and without asyncio, for many peers at once.

It accepts each connection that a peer asks for, confirms each point, answers after it has received the tokens, and releases
the connection.

    server.py [--port 4000] [--peers COUNT] [--classes 0|2|20] [--tsdu OCTETS] [--wait SECONDS] [--log FILE]

It prints the port that it listens on (0 takes a free one). With --peers it ends after COUNT peers have come and gone. It
gives up a peer that asks for no connection within --wait seconds, that is silent for that long, that has not ended a packet
or data by then, or reads nothing; and if all places are taken, the least active one. It logs this.
"""
import argparse
import contextlib
import selectors
import socket
import sys
import time

from osi_session import Classes, Connect, Data, End, Given, Minor, SessionError, Sizes, Terms, Units

UNITS = Units.HALF_DUPLEX | Units.MINOR_SYNC | Units.NEGOTIATED_RELEASE
# It reads no more while this many octets are outgoing, because it answers what it reads, even if the peer never reads.
MOST_OUTGOING = 524_288
# If a peer gives no credit for this many octets of answers, its connection is answered no more and given up.
MOST_UNSENT = 16_384
# The most byte connections at a time. If another comes, the least active peer gives way.
MOST_PEERS = 256
# The most that are accepted in a turn, and how many seconds the peers share in a turn. So a peer that sends without a pause
# delays no other.
MOST_TAKEN, TURN = 16, 0.02


def words(shown):
    """The words of an indication in a transcript (docs/TOOL.md), for those that come here."""
    name, data = type(shown).__name__, getattr(shown, "user_data", b"").hex() or "-"
    if isinstance(shown, Connect):
        holders = (shown.wishes.data, shown.wishes.minor, shown.wishes.major, shown.wishes.release)
        serial = "-" if shown.number is None else shown.number
        sizes = f" tsdu {shown.sizes.from_asker} {shown.sizes.from_answerer}" if shown.sizes != Sizes() else ""
        sides = "".join("arc"[side] for side in holders)
        return f"{name} units {shown.requirements:04x} serial {serial} sides {sides} data {data}{sizes}"
    if isinstance(shown, Data):
        return f"{name} {data}"
    if isinstance(shown, Given):
        return f"{name} {shown.tokens:02x}"
    if isinstance(shown, Minor):
        return f"{name} {shown.number} confirm {'yes' if shown.confirm else 'no'} data {data}"
    return f"{name} data {data}" if hasattr(shown, "user_data") else f"ProviderAbort {name}"


class Peer:
    """One byte connection, which never blocks, and its end."""

    def __init__(self, connection, options, log):
        connection.setblocking(False)
        connection.setsockopt(socket.IPPROTO_TCP, socket.TCP_NODELAY, 1)
        self.connection, self.options, self.log = connection, options, log
        classes = Classes(("0" in options.classes) | ("2" in options.classes) << 1)
        self.end, self.messages = End.called(Terms(classes=classes)), 0
        # When octets last moved; when no packet or data was incomplete, or one was completed; when octets were last written,
        # or none waited for the socket; and when the last indication came.
        self.began = self.moved = self.whole = self.written = self.shown_at = time.monotonic()
        self.was_heard = self.was_shown = False
        # Whether the end keeps octets that are fed in the next turn; and the events that the selector waits for.
        self.is_behind, self.watched = False, 0

    def tell(self, text):
        print(f"right {text}", file=self.log)

    def did(self, reference, verb, call, *arguments, **more):
        """Makes a call, and writes it to the log."""
        try:
            call(reference, *arguments, **more)
        except SessionError as error:
            self.tell(f"{reference} {verb} refused: {error}")
        else:
            self.tell(f"{reference} {verb} ok")

    def may_answer(self, reference):
        """Whether a connection may be answered. If its peer keeps asking and gives no credit for the answers, it is given up."""
        if self.end.unsent(reference) <= MOST_UNSENT:
            return True
        self.did(reference, "disconnect", self.end.disconnect)
        return False

    def shown(self, shown):
        of, size = shown.reference, self.options.tsdu
        if isinstance(shown, Connect):
            self.did(of, "accept", self.end.accept, shown.requirements & UNITS, sizes=Sizes(size, size))
        elif isinstance(shown, Data):
            self.messages += 1
        elif isinstance(shown, Minor) and shown.confirm and self.may_answer(of):
            self.did(of, "minorconfirm", self.end.minor_confirm, shown.number)
        elif isinstance(shown, Given) and self.may_answer(of):
            self.did(of, "data", self.end.data, f"{self.messages} messages".encode())
            self.did(of, "release", self.end.release)

    def feed(self, piece, until=float("inf")):
        """Feeds what the end keeps of an earlier turn and this piece, until a time. The end keeps the rest."""
        self.is_behind = False
        for shown in self.end.feed_all(piece):
            self.was_shown, self.shown_at = True, time.monotonic()
            self.whole = self.shown_at
            self.tell(f"{shown.reference} {words(shown)}")
            self.shown(shown)
            if self.shown_at > until:
                self.is_behind = True
                return

    def events(self):
        """The events of its socket to wait for."""
        reads = not self.is_behind and self.end.outgoing_length() <= MOST_OUTGOING
        return reads * selectors.EVENT_READ | self.end.wants_write() * selectors.EVENT_WRITE

    def deadline(self):
        """When to give the peer up, unless something happens before."""
        return min(self.moved if self.was_shown else self.began, self.whole, self.written) + self.options.wait

    def overdue(self, now):
        """What the peer has not done in time."""
        if now >= self.whole + self.options.wait:
            return "a packet or data is not ended"
        if now >= self.written + self.options.wait:
            return "the peer does not read"
        return "nothing was shown" if self.was_heard and not self.was_shown else "the peer is silent"

    def activity(self):
        """How active the peer is: one with less of it has no session, or has sent nothing whole for longer."""
        return self.was_shown, self.shown_at

    def receive(self, until):
        """Reads once. False if the peer has closed."""
        try:
            piece = self.connection.recv(65536)
        except BlockingIOError:
            return True
        self.was_heard = True
        self.feed(piece, until)
        return bool(piece)

    def transmit(self):
        """Writes once, as much as the socket takes."""
        try:
            self.end.taken(self.connection.send(self.end.outgoing(65536)))
            self.moved = self.written = time.monotonic()
        except BlockingIOError:
            pass

    def carry(self, found, until):
        """Reads and writes once. Returns whether the byte connection goes on."""
        try:
            if self.is_behind:
                self.feed(b"", until)
            elif found & selectors.EVENT_READ and not self.receive(until):
                return False
            if self.end.wants_write():
                self.transmit()
        except OSError:
            return False
        return self.is_behind or not self.end.is_over()

    def turn(self, found, share):
        """One turn of the loop, for about so many seconds. False once the byte connection is over, or the peer was given up;
        then close it."""
        now = time.monotonic()
        if found:
            self.moved = now
        goes_on = self.carry(found, now + share)
        if self.end.kept() == 0:
            self.whole = max(self.whole, now)
        if not self.end.wants_write():
            self.written = max(self.written, now)
        if goes_on and now < self.deadline():
            return True
        if goes_on:
            self.give_up(self.overdue(now))
        self.lose()
        return False

    def give_up(self, why):
        """Logs why the peer is given up, and the phase of each connection that had no indication yet."""
        self.tell(f"gives up: {why}")
        of = 1
        while not self.was_shown and self.end.phase(of):
            self.tell(f"{of} was never shown, {self.end.phase(of).name}")
            of += 1

    def lose(self):
        """The byte connection is over: tells the user of each connection that isn't."""
        self.end.broken()
        self.feed(b"")

    def close(self):
        self.connection.close()
        self.end.close()


class Server:
    """All peers, in one thread."""

    def __init__(self, listener, options, log):
        self.listener, self.options, self.log = listener, options, log
        self.awaited, self.peers = options.peers, {}
        self.selector = selectors.DefaultSelector()
        self.selector.register(listener, selectors.EVENT_READ)

    def watch(self, peer, events):
        """Waits for these events of a peer from now on."""
        if events and not peer.watched:
            self.selector.register(peer.connection, events)
        elif peer.watched and not events:
            self.selector.unregister(peer.connection)
        elif events != peer.watched:
            self.selector.modify(peer.connection, events)
        peer.watched = events

    def found(self):
        """Waits until there is something to do: the events at each socket."""
        now, peers = time.monotonic(), self.peers.values()
        timeout = min((peer.deadline() - now for peer in peers), default=None)
        if timeout is not None:
            timeout = 0 if any(peer.is_behind for peer in peers) else max(timeout, 0.001)
        return {key.fileobj: events for key, events in self.selector.select(timeout)}

    def run(self):
        """Runs until all expected peers have come and gone."""
        while self.awaited > 0 or self.peers:
            found, now = self.found(), time.monotonic()
            takes = found.pop(self.listener, 0)
            busy = [peer for connection, peer in self.peers.items()
                    if connection in found or peer.is_behind or now >= peer.deadline()]
            for peer in busy:
                if peer.turn(found.get(peer.connection, 0), TURN / len(busy)):
                    self.watch(peer, peer.events())
                else:
                    self.forget(peer)
            if takes:
                self.take()

    def forget(self, peer):
        self.watch(peer, 0)
        del self.peers[peer.connection]
        peer.close()

    def make_place(self):
        """If all places are taken, gives up the least active peer."""
        if len(self.peers) == MOST_PEERS:
            peer = min(self.peers.values(), key=Peer.activity)
            peer.give_up("it gives way to another peer")
            peer.lose()
            self.forget(peer)

    def take(self):
        """Accepts the peers that wait, some of them in a turn."""
        for _ in range(min(self.awaited, MOST_TAKEN)):
            try:
                connection, _ = self.listener.accept()
            except (BlockingIOError, ConnectionAbortedError):
                return
            self.make_place()
            self.peers[connection] = peer = Peer(connection, self.options, self.log)
            self.watch(peer, peer.events())
            self.awaited -= 1
        if self.awaited == 0:
            self.selector.unregister(self.listener)


def main():
    options = argparse.ArgumentParser(description=__doc__.splitlines()[0])
    options.add_argument("--port", type=int, default=4000)
    options.add_argument("--peers", type=int, default=sys.maxsize)
    options.add_argument("--classes", default="20")
    options.add_argument("--tsdu", type=int, default=0)
    options.add_argument("--wait", type=float, default=10)
    options.add_argument("--log", default="-")
    options = options.parse_args()
    log = contextlib.nullcontext(sys.stdout) if options.log == "-" else open(options.log, "w")
    listener = socket.create_server(("127.0.0.1", options.port), backlog=MOST_PEERS)
    listener.setblocking(False)
    print(f"port {listener.getsockname()[1]}", flush=True)
    try:
        with log as file, listener:
            Server(listener, options, file).run()
    except KeyboardInterrupt:
        return 130
    return 0


if __name__ == "__main__":
    sys.exit(main())
