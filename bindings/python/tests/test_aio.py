"""A caller and a called end over asyncio, on a loopback port."""
import asyncio
import socket
import unittest

from osi_session import (
    Classes,
    Connect,
    Connected,
    Data,
    Direction,
    End,
    Given,
    Lost,
    Minor,
    MinorConfirmed,
    Opening,
    Release,
    Released,
    Terms,
    Tokens,
    Units,
    aio,
)

UNITS = Units.HALF_DUPLEX | Units.MINOR_SYNC | Units.NEGOTIATED_RELEASE
TOKENS = Tokens.DATA | Tokens.MINOR | Tokens.RELEASE
# In seconds: nothing takes as long as this, even on a busy machine.
LONGEST = 60


class Server:
    """Accepts, confirms points, and answers the tokens with a release."""

    def __init__(self):
        self.shown = []
        self.done = asyncio.Event()

    async def __call__(self, line):
        async for shown in line:
            self.shown.append(shown)
            of = shown.reference
            if isinstance(shown, Connect):
                line.end.accept(of, shown.requirements & UNITS)
            elif isinstance(shown, Minor) and shown.confirm:
                line.end.minor_confirm(of, shown.number)
            elif isinstance(shown, Given):
                line.end.release(of)
        self.done.set()


async def gone(line):
    """Waits until the line has no live connection."""
    while line.end.live() > 0:
        await asyncio.sleep(0.01)


class Lines(unittest.IsolatedAsyncioTestCase):
    async def asyncSetUp(self):
        self.server = Server()
        self.listener = await aio.serve(self.server, "127.0.0.1", 0, Terms(Classes.BOTH))
        self.port = self.listener.sockets[0].getsockname()[1]

    async def asyncTearDown(self):
        self.listener.close()
        await self.listener.wait_closed()

    async def test_a_connection(self):
        for classes in (Classes.CLASS_0, Classes.CLASS_2):
            async with aio.dial("127.0.0.1", self.port, Terms(classes)) as line:
                of = line.end.connect(Opening(UNITS, user_data=b"gateway"))
                opened = await line.expect(Connected)
                self.assertEqual((opened.reference, opened.requirements), (of, UNITS))
                line.end.data(of, b"hello")
                line.end.minor(of)
                self.assertEqual((await line.expect(MinorConfirmed)).number, 0)
                line.end.give(of, TOKENS)
                await line.expect(Release)
                line.end.release_accept(of)
                await line.drain()
            self.assertTrue(line.end.closed)
            await asyncio.wait_for(self.server.done.wait(), LONGEST)
            self.server.done.clear()
            self.assertIn(Data(of, b"hello"), self.server.shown)
            self.assertEqual(self.server.shown.pop(), Released(of, b""))

    async def test_a_line_is_traced(self):
        lines = []
        async with aio.dial("127.0.0.1", self.port) as line:
            line.end.trace(lambda direction, text: lines.append((direction, text)))
            of = line.end.connect(Opening(UNITS))
            await line.expect(Connected)
            line.end.abort(of)
        self.assertEqual([direction for direction, text in lines[:2]], [Direction.SENT] * 2)
        self.assertTrue(lines[0][1].startswith("packet 0 length "))
        self.assertIn("    AB", {text[:6] for _, text in lines})
        self.assertIn("    AC", {text[:6] for direction, text in lines if direction == Direction.RECEIVED})

    async def test_much_data(self):
        """More than the transport takes at once, in messages of more than a packet."""
        async with aio.dial("127.0.0.1", self.port) as line:
            of = line.end.connect(Opening(UNITS))
            await line.expect(Connected)
            for number in range(40):
                line.end.data(of, bytes([number]) * 100_000)
                await line.drain()
            line.end.minor(of)
            await line.expect(MinorConfirmed)
        data = [shown.user_data for shown in self.server.shown if isinstance(shown, Data)]
        self.assertEqual(data, [bytes([number]) * 100_000 for number in range(40)])

    async def test_many_indications_are_not_lost(self):
        async with aio.dial("127.0.0.1", self.port) as line:
            of = line.end.connect(Opening(UNITS))
            await line.expect(Connected)
            for _ in range(500):
                line.end.minor(of)
            numbers = [(await line.expect(MinorConfirmed)).number for _ in range(500)]
        self.assertEqual(numbers, list(range(500)))

    async def test_a_line_closes_with_its_last_connection(self):
        for classes in (Classes.CLASS_0, Classes.CLASS_2):
            async with aio.dial("127.0.0.1", self.port, Terms(classes)) as line:
                of = line.end.connect(Opening(UNITS))
                await line.expect(Connected)
                line.end.give(of, TOKENS)
                await line.expect(Release)
                line.end.release_accept(of)
                self.assertIsNone(await asyncio.wait_for(line.next(), LONGEST))
            async with aio.dial("127.0.0.1", self.port, Terms(classes)) as line:
                line.stays = True
                of = line.end.connect(Opening(UNITS))
                await line.expect(Connected)
                line.end.abort(of)
                if classes == Classes.CLASS_2:
                    await asyncio.wait_for(gone(line), LONGEST)
                    with self.assertRaises(asyncio.TimeoutError):
                        await asyncio.wait_for(line.next(), 0.2)
                    line.end.connect(Opening(UNITS))
                    await line.expect(Connected)
                else:
                    self.assertIsNone(await asyncio.wait_for(line.next(), LONGEST))

    async def test_draining_waits_for_credit(self):
        listener = await aio.serve(self.server, "127.0.0.1", 0, Terms(Classes.CLASS_2, window=1))
        async with aio.dial("127.0.0.1", listener.sockets[0].getsockname()[1], Terms(Classes.CLASS_2)) as line:
            of = line.end.connect(Opening(UNITS))
            await line.expect(Connected)
            most = 0
            for _ in range(300):
                line.end.data(of, bytes(8000))
                most = max(most, line.end.backlog())
                await line.drain()
            self.assertLess(most, 100_000)
        listener.close()

    async def test_a_peer_that_does_not_read_is_not_read(self):
        """The peer sends requests that are all answered, and reads no answer."""
        lines = []

        async def serve(line):
            lines.append(line)
            async for _ in line:
                pass

        listener = await aio.serve(serve, "127.0.0.1", 0, Terms(Classes.CLASS_2))
        address = listener.sockets[0].getsockname()
        with socket.socket() as peer:
            peer.setsockopt(socket.SOL_SOCKET, socket.SO_RCVBUF, 4096)
            peer.connect(address)
            peer.setblocking(False)
            refused = bytes.fromhex("0300000b06e00000000120")  # a CR, whose reference is live from then on
            sent, still = 0, 0
            while still < 20 and sent < 100_000_000:
                try:
                    sent += peer.send(refused * 5000)
                    still = 0
                except BlockingIOError:
                    still += 1
                await asyncio.sleep(0.01)
            self.assertLess(sent, 100_000_000)
            self.assertLess(lines[0].end.outgoing_length(), 1_000_000)
        listener.close()

    async def test_a_loss_is_shown(self):
        async with aio.dial("127.0.0.1", self.port) as line:
            of = line.end.connect(Opening(UNITS))
            await line.expect(Connected)
        await asyncio.wait_for(self.server.done.wait(), LONGEST)
        self.assertEqual(self.server.shown[-1], Lost(of))

    async def test_what_is_not_expected(self):
        async with aio.dial("127.0.0.1", self.port) as line:
            of = line.end.connect(Opening(UNITS))
            with self.assertRaises(aio.UnexpectedIndication) as raised:
                await line.expect(Release, Released)
            self.assertIsInstance(raised.exception.indication, Connected)
            line.close()
            await line.wait_closed()
            self.assertEqual([shown async for shown in line], [Lost(of)])
            with self.assertRaises(aio.UnexpectedIndication) as raised:
                await line.expect(Release)
            self.assertIsNone(raised.exception.indication)

    async def test_indications_as_they_come(self):
        shown = []

        class Told(aio.EndProtocol):
            def indication_received(self, indication):
                shown.append(indication)
                if isinstance(indication, Connected):
                    self.end.give(indication.reference, TOKENS)
                elif isinstance(indication, Release):
                    self.end.release_accept(indication.reference)

        async with aio.dial("127.0.0.1", self.port, Terms(Classes.CLASS_0), Told) as line:
            line.end.connect(Opening(UNITS))
            await asyncio.wait_for(line.wait_closed(), LONGEST)
        self.assertEqual([type(one) for one in shown], [Connected, Release])

    async def test_a_block_that_raises_waits_for_nobody(self):
        """The peer reads nothing, and much is to be written."""
        silent = asyncio.Event()

        async def read_nothing(reader, writer):
            await silent.wait()
            writer.close()

        listener = await asyncio.start_server(read_nothing, "127.0.0.1", 0, limit=1)
        port = listener.sockets[0].getsockname()[1]
        with self.assertRaises(KeyError):
            async with aio.dial("127.0.0.1", port) as line:
                line.end.connect(Opening(UNITS))
                line._transport.write(bytes(50_000_000))
                raise KeyError
        self.assertTrue(line.end.closed)
        silent.set()
        listener.close()

    async def test_a_handler_that_raises_closes(self):
        async def fails(line):
            await line.expect(Released)

        listener = await aio.serve(fails, "127.0.0.1", 0)
        asyncio.get_running_loop().set_exception_handler(lambda loop, context: None)
        async with aio.dial("127.0.0.1", listener.sockets[0].getsockname()[1]) as line:
            of = line.end.connect(Opening(UNITS))
            self.assertEqual([shown async for shown in line], [Lost(of)])
        listener.close()

    async def test_nobody_listens(self):
        self.listener.close()
        made = []

        def kept(end):
            made.append(end)
            return aio.EndProtocol(end)

        with self.assertRaises(OSError):
            async with aio.dial("127.0.0.1", 1, protocol=kept):
                pass
        self.assertTrue(made[0].closed)

    async def test_an_end_of_ones_own(self):
        """The protocol on an end that was made before, as create_connection takes it."""
        line = aio.EndProtocol(End.caller())
        of = line.end.connect(Opening(UNITS))
        await asyncio.get_running_loop().create_connection(lambda: line, "127.0.0.1", self.port)
        self.assertEqual((await line.expect(Connected)).reference, of)
        line.close()
        await line.wait_closed()
        line.end.close()


if __name__ == "__main__":
    unittest.main()
