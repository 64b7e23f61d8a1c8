"""Peers that know TPKT, X.224 and X.225 just well enough to misbehave. Their octets are written by hand."""
import re
import socket
import threading

# Session units, as docs/SESSIONS.md has them: half-duplex and minor synchronize, the first point 0, the asker holds all.
GROUP = "050c" + "130100" + "160102" + "170130" + "1a0100"
CN = bytes.fromhex("0d12" + GROUP + "14020009")
AC = bytes.fromhex("0e12" + GROUP + "14020089")
# The first message of S7, whose TSDU is no session unit.
S7 = bytes.fromhex("320100000000000800" + "00f0000001000101e0")
# Please give me the data token.
PT = bytes.fromhex("0203" + "100101")
LOOPBACK = "127.0.0.1"


def packet(octets):
    return b"\3\0" + (len(octets) + 4).to_bytes(2, "big") + octets


def connect_request(reference, kind, credit=0):
    """A CR for class 0 or 2, which gives credit for so many units."""
    return packet(bytes([6, 0xE0 | credit, 0, 0]) + reference.to_bytes(2, "big") + (b"\x20" if kind == 2 else b"\0"))


def connect_confirm(reference, own):
    """A CC for class 0."""
    return packet(b"\6\xd0" + reference.to_bytes(2, "big") + own.to_bytes(2, "big") + b"\0")


def data_in_class_0(tsdu):
    return packet(b"\2\xf0\x80" + tsdu)


def data_in_class_2(reference, number, tsdu):
    return packet(b"\4\xf0" + reference.to_bytes(2, "big") + bytes([0x80 | number % 128]) + tsdu)


def minor_point(number):
    """A GT, and after it a MIP that asks for its confirmation."""
    digits = b"%d" % number
    return b"\1\0" + bytes([0x31, 2 + len(digits), 0x2A, len(digits)]) + digits


def units(octets):
    """The transport units of whole packets: the high half of their code, and their first and second reference."""
    at = 0
    while at + 4 <= len(octets):
        length = int.from_bytes(octets[at + 2:at + 4], "big")
        place = at + 4
        while place < at + length <= len(octets):
            code = octets[place + 1] & 0xF0
            yield code, int.from_bytes(octets[place + 2:place + 4], "big"), int.from_bytes(octets[place + 4:place + 6], "big")
            place += octets[place] + 1 if code in (0x60, 0xC0) else length
        at += length


CC, DR, DT = 0xD0, 0x80, 0xF0


class Reader(threading.Thread):
    """Reads and keeps all that the peer sends."""

    def __init__(self, connection):
        super().__init__(daemon=True)
        self.connection, self.octets, self.changed, self.over = connection, bytearray(), threading.Condition(), False

    def run(self):
        piece = b"x"
        while piece:
            try:
                piece = self.connection.recv(65536)
            except OSError:
                piece = b""
            with self.changed:
                self.octets += piece
                self.over = not piece
                self.changed.notify_all()

    def wait_for(self, holds, seconds):
        """Waits until this holds of the units that came, or until no more come."""
        with self.changed:
            self.changed.wait_for(lambda: self.over or holds(list(units(self.octets))), seconds)


def asks_without_credit(port, sessions, points, seconds):
    """A peer of class 2 that reads all and gives credit for the answer to a CN alone: it opens so many sessions, and sets so
    many points in each, whose confirmations it asks for. What hangs up on the server, and which of its references this
    disconnected."""
    connection = socket.create_connection((LOOPBACK, int(port)))
    reader = Reader(connection)
    reader.start()
    own = range(1, sessions + 1)
    connection.sendall(b"".join(connect_request(reference, 2, 1) for reference in own))
    reader.wait_for(lambda came: sum(code == CC for code, _, _ in came) == sessions, seconds)
    theirs = {first: second for code, first, second in units(reader.octets) if code == CC}
    try:
        connection.sendall(b"".join(data_in_class_2(theirs[reference], 0, CN) for reference in own))
        reader.wait_for(lambda came: sum(code == DT for code, _, _ in came) == sessions, seconds)
        for begins in range(0, points, 100):
            for reference in own:
                numbers = range(begins, min(begins + 100, points))
                connection.sendall(b"".join(data_in_class_2(theirs[reference], n + 1, minor_point(n)) for n in numbers))
        # A peer that answers this, by a CC or a DR, has read everything before it.
        connection.sendall(connect_request(sessions + 1, 2))
        answer = re.compile(rb"[\x80\xd0-\xdf]" + re.escape((sessions + 1).to_bytes(2, "big")))
        with reader.changed:
            reader.changed.wait_for(lambda: reader.over or answer.search(reader.octets[-4096:]), seconds)
    except OSError:
        pass
    return lambda: connection.shutdown(socket.SHUT_RDWR), {first for code, first, _ in units(reader.octets) if code == DR and first in own}


def writes_much(listener, seconds):
    """A called side of class 0 that accepts, and then asks a million times for the data token before it reads again. Whether
    its peer took all of that."""
    connection, _ = listener.accept()
    with connection:
        connection.settimeout(seconds)
        request = connection.recv(4096)
        connection.sendall(connect_confirm(int.from_bytes(request[8:10], "big"), 1))
        connection.recv(4096)
        connection.sendall(data_in_class_0(AC))
        much = data_in_class_0(PT) * 10_000
        try:
            for _ in range(100):
                connection.sendall(much)
        except OSError:
            return False
    return True
