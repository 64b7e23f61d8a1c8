"""Packets of RFC 1006 over TCP, as a client exchanges them."""
import socket

# The setup of S7: how many requests may be open at once, and how long a PDU may be.
S7_SETUP = bytes.fromhex("0300001902f08032010000040000080000f0000001000101e0")


class Wire:
    """A TCP connection to a server."""

    def __init__(self, host, port):
        self.made = socket.create_connection((host, port), 10)

    def __enter__(self):
        return self

    def __exit__(self, *_):
        self.made.close()

    def packet(self):
        """The next packet, or no octets if the peer closes."""
        octets = b""
        while len(octets) < 4 or len(octets) < int.from_bytes(octets[2:4], "big"):
            length = int.from_bytes(octets[2:4], "big") if len(octets) >= 4 else 4
            came = self.made.recv(length - len(octets))
            if not came:
                return b""
            octets += came
        return octets

    def asked(self, octets):
        """Sends these octets, and gives the packet that comes in answer."""
        self.made.sendall(octets)
        return self.packet()
