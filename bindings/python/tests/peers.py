"""Peers for tests of lines: one that misbehaves on request, and certificates for TLS."""
import asyncio
import os
import shutil
import ssl
import subprocess
import unittest

from osi_session import Classes, End, Terms

# In seconds: nothing takes as long as this, even on a busy machine.
LONGEST = 60

if os.environ.get("OSI_SESSION_LOOP") == "uvloop":
    import uvloop

    asyncio.set_event_loop_policy(uvloop.EventLoopPolicy())


class Case(unittest.IsolatedAsyncioTestCase):
    """Its event loop is not in debug mode, in which it takes many times as long."""

    async def asyncSetUp(self):
        asyncio.get_running_loop().set_debug(False)


async def within(awaited):
    return await asyncio.wait_for(awaited, LONGEST)


def packets(octets):
    """The TPKT packets of octets that begin with one (RFC 1006 section 6)."""
    at = 0
    while at < len(octets):
        length = int.from_bytes(octets[at + 2 : at + 4], "big")
        yield octets[at : at + length]
        at += length


def is_ack(packet, reference=None):
    """Whether it has an AK (X.224 section 13.8) for this reference of the other end, or for any."""
    return packet[5] & 0xF0 == 0x60 and reference in (None, int.from_bytes(packet[6:8], "big"))


class Peer:
    """An end over the streams of asyncio. It keeps its indications, and sends no packet that ``holds_back`` names."""

    def __init__(self, end, reader, writer):
        self.end, self.reader, self.writer = end, reader, writer
        self.shown, self.came = [], asyncio.Event()
        self.on_shown = lambda shown: None
        self.holds_back = lambda packet: False
        self.reading = asyncio.get_running_loop().create_task(self._read())

    @classmethod
    async def dial(cls, port, terms=Terms(Classes.CLASS_2)):
        return cls(End.caller(terms), *await asyncio.open_connection("127.0.0.1", port))

    async def _read(self):
        while True:
            octets = await self.reader.read(65536)
            if not octets:
                return
            for shown in self.end.feed_all(octets):
                self.shown.append(shown)
                self.on_shown(shown)
            self.flush()
            self.came.set()

    def flush(self):
        octets = self.end.outgoing()
        self.end.taken(len(octets))
        self.writer.write(b"".join(packet for packet in packets(octets) if not self.holds_back(packet)))

    async def until(self, holds):
        """Waits until this holds of the indications."""
        while not holds():
            self.came.clear()
            self.flush()
            await asyncio.wait_for(self.came.wait(), LONGEST)

    async def expect(self, kind, count=1):
        """Waits until this many indications of this kind have come, and returns the last."""
        await self.until(lambda: len(self.of(kind)) >= count)
        return self.of(kind)[-1]

    def of(self, kind):
        return [shown for shown in self.shown if isinstance(shown, kind)]

    async def close(self):
        self.reading.cancel()
        self.writer.close()


HAS_OPENSSL = shutil.which("openssl") is not None


def contexts(folder):
    """A context of a server with a certificate, and one of a client that trusts it."""
    certificate, key = os.path.join(folder, "certificate.pem"), os.path.join(folder, "key.pem")
    words = ["openssl", "req", "-x509", "-newkey", "rsa:2048", "-nodes", "-days", "2", "-subj", "/CN=localhost"]
    words += ["-addext", "subjectAltName=DNS:localhost", "-keyout", key, "-out", certificate]
    subprocess.run(words, check=True, capture_output=True)
    server = ssl.SSLContext(ssl.PROTOCOL_TLS_SERVER)
    server.load_cert_chain(certificate, key)
    return server, ssl.create_default_context(cafile=certificate)


def port_of(listener):
    return listener.sockets[0].getsockname()[1]
