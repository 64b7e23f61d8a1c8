#!/usr/bin/env python3
"""Peers that make it hard for others, and a peer that measures how it fares beside them.

    neighbours.py PORT KIND COUNT DUPLEX    COUNT peers of class KIND that send data of one octet without a pause
    neighbours.py PORT                      a peer that asks for confirmations in 64 sessions, and gives no credit for them

It prints a line once the sessions are open, and goes on until it is ended.
"""
import os
import selectors
import socket
import subprocess
import sys
import time

if __name__ == "__main__":
    sys.path.insert(0, os.path.dirname(os.path.dirname(os.path.abspath(__file__))))
from gateway_peers import peers  # noqa: E402
from gateway_peers.peers import CC, CN, DT, connect_request, data_in_class_0, data_in_class_2, minor_point  # noqa: E402

# A CN that asks for duplex alone (docs/SESSIONS.md).
CN_OF_DUPLEX = bytes.fromhex("0d0f" + "0509" + "130100" + "160102" + "1a0100" + "14020002")
# Data of one octet, with the GT before it.
ONE_OCTET = b"\1\0\1\0x"


class Talker:
    """A peer that opens a session of class 0 or 2, and waits for each answer."""

    def __init__(self, port, kind=0, duplex=False, longest=60):
        self.connection = socket.create_connection((peers.LOOPBACK, int(port)), longest)
        self.connection.setsockopt(socket.IPPROTO_TCP, socket.TCP_NODELAY, 1)
        self.kind, self.duplex, self.came, self.sent = kind, duplex, b"", 0
        self.connection.sendall(connect_request(1, kind, 15 if kind == 2 else 0))
        self.theirs = int.from_bytes(self.awaited(CC)[8:10], "big")
        self.send(CN_OF_DUPLEX if duplex else CN)
        self.awaited(DT)

    def data(self, tsdu):
        """The packet of a TSDU."""
        self.sent += 1
        return data_in_class_2(self.theirs, self.sent - 1, tsdu) if self.kind == 2 else data_in_class_0(tsdu)

    def send(self, tsdu):
        self.connection.sendall(self.data(tsdu))

    def packet(self):
        """The next packet that the server sends."""
        while len(self.came) < 4 or len(self.came) < int.from_bytes(self.came[2:4], "big"):
            piece = self.connection.recv(65536)
            if not piece:
                raise ConnectionError("the server has closed")
            self.came += piece
        length = int.from_bytes(self.came[2:4], "big")
        packet, self.came = self.came[:length], self.came[length:]
        return packet

    def awaited(self, code):
        """The next packet with a unit of this code."""
        packet = self.packet()
        while code not in (unit for unit, _, _ in peers.units(packet)):
            packet = self.packet()
        return packet

    def echo(self, number):
        """Asks once, and waits for the answer: data for data in duplex, else the confirmation of a point. How many seconds it
        took."""
        began = time.monotonic()
        self.send(ONE_OCTET if self.duplex else minor_point(number))
        self.awaited(DT)
        return time.monotonic() - began

    def close(self):
        self.connection.close()

    def __enter__(self):
        return self

    def __exit__(self, *_):
        self.close()


def slowness():
    """How many times as long as on an idle processor a computation takes now: 1 or more."""
    wall, own = time.perf_counter(), time.process_time()
    while time.process_time() - own < 0.05:
        pass
    return max(1.0, (time.perf_counter() - wall) / (time.process_time() - own))


def best_of_echoes(port, duplex, bound, echoes=10, longest=30):
    """The longest of some echoes in a row, in seconds: of several such rows the best, until one is within the bound on an idle
    processor. So other work of the machine makes no difference, unless it takes all of it for half a minute."""
    began, best, number = time.monotonic(), float("inf"), 0
    try:
        with Talker(port, 0, duplex, longest) as talker:
            while best > bound and time.monotonic() - began < longest:
                slow, row = slowness(), []
                for _ in range(echoes):
                    row.append(talker.echo(number))
                    number += 1
                best = min(best, max(row) / max(slow, slowness()))
    except OSError:
        pass
    return best


class Neighbours:
    """Peers in a process of their own."""

    def __init__(self, port, *words):
        words = [sys.executable, os.path.abspath(__file__), str(port), *(str(int(word)) for word in words)]
        self.process = subprocess.Popen(words, stdout=subprocess.PIPE, text=True)
        self.are_open = self.process.stdout.readline().strip() == "open"

    def __enter__(self):
        return self

    def __exit__(self, *_):
        self.process.kill()
        self.process.wait()
        self.process.stdout.close()


def flood(port, kind, count, duplex):
    """Sends from all peers, whatever the credit is, and reads everything."""
    talkers = [Talker(port, kind, duplex) for _ in range(count)]
    selector, left = selectors.DefaultSelector(), {}
    for talker in talkers:
        talker.connection.setblocking(False)
        selector.register(talker.connection, selectors.EVENT_READ | selectors.EVENT_WRITE, talker)
        left[talker] = b""
    print("open", flush=True)
    while selector.get_map():
        for key, events in selector.select():
            talker = key.data
            try:
                if events & selectors.EVENT_READ and not talker.connection.recv(1 << 20):
                    raise ConnectionError
                if events & selectors.EVENT_WRITE:
                    octets = left[talker] or b"".join(talker.data(ONE_OCTET) for _ in range(1280))
                    left[talker] = octets[talker.connection.send(octets):]
            except BlockingIOError:
                continue
            except OSError:
                selector.unregister(talker.connection)


def ask_without_credit(port):
    print("open", flush=True)
    hang_up, _ = peers.asks_without_credit(port, 64, 8000, 60)
    time.sleep(600)
    hang_up()


if __name__ == "__main__":
    if len(sys.argv) == 2:
        ask_without_credit(int(sys.argv[1]))
    else:
        flood(*(int(word) for word in sys.argv[1:]))
