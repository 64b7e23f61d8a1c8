"""Lines whose peers send ahead, give no credit, abort or go: nothing stops, and nothing is lost without a word."""
import asyncio
import os
import re
import tempfile
import unittest

from osi_session import (
    Aborted,
    Classes,
    Connect,
    Connected,
    Data,
    End,
    Minor,
    MinorConfirmed,
    Opening,
    Phase,
    SessionError,
    Terms,
    Units,
    aio,
)
from peers import HAS_OPENSSL, Case, Peer, contexts, is_ack, port_of, within

HALF = Units.HALF_DUPLEX | Units.MINOR_SYNC | Units.NEGOTIATED_RELEASE
CLASS_2 = Terms(Classes.CLASS_2)
PAGE = os.path.join(os.path.dirname(__file__), *[os.pardir] * 3, "docs", "PYTHON.md")


async def collect(line, into):
    """Accepts what is asked for and keeps all data, until the line closes."""
    async for shown in line:
        if isinstance(shown, Connect):
            line.end.accept(shown.reference, shown.requirements)
        elif isinstance(shown, Data):
            into.append(shown.user_data)


class Draining(Case):
    async def answered(self, count, size, answer, send):
        """A server that answers each message and drains, and a client that sends all of them ahead."""

        async def serve(line):
            async for shown in line:
                if isinstance(shown, Connect):
                    line.end.accept(shown.reference, shown.requirements)
                elif isinstance(shown, Data):
                    line.end.data(shown.reference, shown.user_data[:4] + bytes(answer - 4))
                    await line.drain()

        listener = await aio.serve(serve, "127.0.0.1", 0, CLASS_2)
        async with aio.dial("127.0.0.1", port_of(listener), CLASS_2) as line:
            of = line.end.connect(Opening(Units.DUPLEX))
            await line.expect(Connected)
            await within(send(line, of, [number.to_bytes(4, "big") + bytes(size - 4) for number in range(count)]))
            for number in range(count):
                shown = await within(line.expect(Data))
                self.assertEqual((int.from_bytes(shown.user_data[:4], "big"), len(shown.user_data)), (number, answer))
        listener.close()

    async def test_who_answers_and_drains_goes_on_where_requests_come_ahead(self):
        """Each of these sends all requests before it fetches an answer: at once, or as fast as it has room."""

        async def at_once(line, of, messages):
            for message in messages:
                line.end.data(of, message)

        async def draining(line, of, messages):
            for message in messages:
                line.end.data(of, message)
                await line.drain()

        for send in (at_once, draining):
            for size, answer in ((100_000, 100_000), (1_000, 100_000), (100_000, 200_000), (100_000, 10)):
                with self.subTest(send=send.__name__, size=size, answer=answer):
                    await self.answered(300, size, answer, send)

    async def test_both_sides_send_much_before_they_read(self):
        """In class 0, and in duplex: neither waits for the other to read first."""

        async def send(line, of):
            for _ in range(20):
                line.end.data(of, bytes(500_000))
            for _ in range(20):
                await within(line.expect(Data))

        async def answer(line):
            shown = await line.expect(Connect)
            line.end.accept(shown.reference, shown.requirements)
            await send(line, shown.reference)
            answered.set()

        answered = asyncio.Event()
        listener = await aio.serve(answer, "127.0.0.1", 0, Terms(Classes.BOTH))
        for classes in (Classes.CLASS_0, Classes.CLASS_2):
            answered.clear()
            async with aio.dial("127.0.0.1", port_of(listener), Terms(classes)) as line:
                of = line.end.connect(Opening(Units.DUPLEX))
                await within(line.expect(Connected))
                await send(line, of)
                await within(answered.wait())
        listener.close()

    async def test_one_connection_without_credit_stops_no_other(self):
        """The peer acknowledges nothing of the first connection, and all of the second."""
        lines, handled = [], asyncio.Event()

        async def answer(line):
            lines.append(line)
            for _ in range(2):
                shown = await line.expect(Connect)
                line.end.accept(shown.reference, shown.requirements)
            await handled.wait()

        listener = await aio.serve(answer, "127.0.0.1", 0, CLASS_2)
        peer = await Peer.dial(port_of(listener))
        peer.holds_back = lambda packet: is_ack(packet, 1)
        for number in (1, 2):
            peer.end.connect(Opening(Units.DUPLEX))
            await peer.expect(Connected, number)
        line = lines[0]
        line.end.data(1, bytes(1_000_000))
        stuck = asyncio.ensure_future(line.drain(1))
        of_all = asyncio.ensure_future(line.drain())
        for _ in range(10):
            line.end.data(2, bytes(1_000_000))
            await within(line.drain(2))
        self.assertFalse(stuck.done() or of_all.done())
        self.assertGreater(line.end.unsent(1), 500_000)
        await peer.until(lambda: len(peer.of(Data)) == 10)
        peer.writer.close()
        await within(asyncio.gather(stuck, of_all))
        handled.set()
        await peer.close()
        listener.close()


class Closing(Case):
    async def sent(self, terms, messages, size, server_ssl=None, **options):
        """What a server has received when the client leaves its block after this many messages."""
        came, done = [], asyncio.Event()

        async def keep(line):
            await asyncio.sleep(0.2)
            await collect(line, came)
            done.set()

        listener = await aio.serve(keep, "127.0.0.1", 0, terms, ssl=server_ssl)
        async with aio.dial("127.0.0.1", port_of(listener), terms, **options) as line:
            of = line.end.connect(Opening())
            await within(line.expect(Connected))
            for _ in range(messages):
                line.end.data(of, bytes(size))
        await within(done.wait())
        listener.close()
        return sum(map(len, came))

    async def test_the_end_of_a_block_loses_nothing(self):
        for terms in (Terms(), CLASS_2):
            for count, size in ((10, 1_000_000), (5_000, 1_000), (1, 10)):
                with self.subTest(classes=terms.classes, size=size):
                    self.assertEqual(await within(self.sent(terms, count, size)), count * size)

    @unittest.skipUnless(HAS_OPENSSL, "there is no openssl")
    async def test_the_end_of_a_block_loses_nothing_over_tls(self):
        with tempfile.TemporaryDirectory() as folder:
            server, client = contexts(folder)
            for terms in (Terms(), CLASS_2):
                for count, size in ((5, 1_000_000), (5_000, 1_000), (1, 10)):
                    with self.subTest(classes=terms.classes, size=size):
                        sent = self.sent(terms, count, size, server, ssl=client, server_hostname="localhost")
                        self.assertEqual(await within(sent), count * size)

    @unittest.skipUnless(HAS_OPENSSL, "there is no openssl")
    async def test_close_over_tls_loses_nothing(self):
        """Not the block's end, but the call, and a transport that keeps as little as it may."""
        came, done = [], asyncio.Event()

        async def keep(line):
            await collect(line, came)
            done.set()

        with tempfile.TemporaryDirectory() as folder:
            server, client = contexts(folder)
            listener = await aio.serve(keep, "127.0.0.1", 0, ssl=server)
            tls = {"ssl": client, "server_hostname": "localhost"}
            async with aio.dial("127.0.0.1", port_of(listener), **tls) as line:
                of = line.end.connect(Opening())
                await within(line.expect(Connected))
                for _ in range(5):
                    line.end.data(of, bytes(1_000_000))
                line.close()
                await within(line.wait_closed())
                self.assertEqual(line.end.outgoing_length(), 0)
            await within(done.wait())
            self.assertEqual(sum(map(len, came)), 5_000_000)
            listener.close()

    async def test_a_peer_that_goes_before_all_is_written_is_told_of(self):
        async def go(line):
            shown = await line.expect(Connect)
            line.end.accept(shown.reference, shown.requirements)
            await asyncio.sleep(0.2)
            line.abort()

        for terms in (Terms(), CLASS_2):
            listener = await aio.serve(go, "127.0.0.1", 0, terms)
            with self.assertRaises(ConnectionResetError):
                async with aio.dial("127.0.0.1", port_of(listener), terms) as line:
                    of = line.end.connect(Opening())
                    await within(line.expect(Connected))
                    for _ in range(20):
                        line.end.data(of, bytes(1_000_000))
            listener.close()

    async def test_a_peer_that_takes_nothing_is_awaited_for_a_while(self):
        """It gives no credit: the block ends, and says what was lost."""

        class Brief(aio.EndProtocol):
            linger = 0.2

        peers = []

        async def hold(reader, writer):
            peers.append(Peer(End.called(CLASS_2), reader, writer))
            peers[0].holds_back = is_ack
            asked = await peers[0].expect(Connect)
            peers[0].end.accept(asked.reference, asked.requirements)
            peers[0].flush()

        listener = await asyncio.start_server(hold, "127.0.0.1", 0)
        with self.assertRaises(ConnectionResetError):
            async with aio.dial("127.0.0.1", port_of(listener), CLASS_2, Brief) as line:
                of = line.end.connect(Opening())
                await within(line.expect(Connected))
                line.end.data(of, bytes(1_000_000))
        await peers[0].close()
        listener.close()

    async def test_a_peer_that_never_closes_is_awaited_for_a_while(self):
        class Brief(aio.EndProtocol):
            linger = 0.2

        released = asyncio.Event()

        async def stay(reader, writer):
            await released.wait()
            writer.close()

        listener = await asyncio.start_server(stay, "127.0.0.1", 0)
        async with aio.dial("127.0.0.1", port_of(listener), CLASS_2, Brief) as line:
            line.end.connect(Opening())
        self.assertTrue(line.end.closed)
        released.set()
        listener.close()


class HalfClosing(Case):
    """A peer closes its direction while much is unwritten, and then reads: the line writes all, and closes once."""

    async def half_closed(self, octets):
        raised, over = [], asyncio.Event()
        asyncio.get_running_loop().set_exception_handler(lambda loop, context: raised.append(context))

        async def send(line):
            shown = await line.expect(Connect)
            line.end.accept(shown.reference, shown.requirements)
            for _ in range(octets // 1_000_000):
                line.end.data(shown.reference, bytes(1_000_000))
            await line.wait_closed()
            over.set()

        listener = await aio.serve(send, "127.0.0.1", 0)
        reader, writer = await asyncio.open_connection("127.0.0.1", port_of(listener))
        end = End.caller()
        end.connect(Opening(Units.DUPLEX))
        came = 0
        for awaited in (None, Connected):
            writer.write(end.outgoing())
            end.taken(end.outgoing_length())
            piece = await within(reader.read(100))
            came += len(piece)
            list(end.feed_all(piece))
        writer.write_eof()
        await asyncio.sleep(0.2)
        piece = b"x"
        while piece:
            piece = await within(reader.read(1_000_000))
            came += len(piece)
        await within(over.wait())
        writer.close()
        await asyncio.sleep(0.05)
        listener.close()
        self.assertEqual(raised, [])
        self.assertGreater(came, octets)

    async def test_while_the_socket_is_full(self):
        await self.half_closed(20_000_000)

    async def test_again_and_again(self):
        for octets in (1_000_000, 3_000_000, 7_000_000):
            for _ in range(3):
                await self.half_closed(octets)


class Aborting(Case):
    async def outlives(self, handler):
        """Of two connections of a line the peer aborts one between a point and its confirmation: the other goes on."""
        listener = await aio.serve(handler, "127.0.0.1", 0, CLASS_2)
        peer = await Peer.dial(port_of(listener))
        first = peer.end.connect(Opening(HALF))
        await peer.expect(Connected, 1)
        second = peer.end.connect(Opening(HALF))
        await peer.expect(Connected, 2)
        # Both go in one write, so the server is fed the abort before its user fetches the point.
        peer.end.minor(first)
        peer.end.abort(first)
        peer.flush()
        peer.end.minor(second)
        confirmed = await peer.expect(MinorConfirmed)
        self.assertEqual(confirmed.reference, second)
        self.assertEqual(peer.end.phase(second), Phase.READY)
        await peer.close()
        listener.close()

    async def test_the_server_of_the_page_outlives_an_abort(self):
        if not os.path.exists(PAGE):
            self.skipTest("the page is not here")
        with open(PAGE) as file:
            program = re.search(r"^`server.py`.*?^```python\n(.*?)^```$", file.read(), re.M | re.S).group(1)
        names = {}
        exec(compile(program.replace("asyncio.run(main())", ""), PAGE, "exec"), names)
        handler = names.get("serve") or (lambda line: line.answer_sessions(names["answer"]))
        await self.outlives(handler)

    async def test_a_line_outlives_a_session_that_is_aborted(self):
        over = []

        async def answer(session):
            await session.accept()
            try:
                async for shown in session:
                    if isinstance(shown, Minor):
                        await session.minor_confirm(shown.number)
            except aio.SessionOver as error:
                over.append(error.indication)
                raise

        await self.outlives(lambda line: line.answer_sessions(answer))
        self.assertEqual(over[0], Aborted(1, b""))

    async def test_without_sessions_the_refused_call_says_it(self):
        async def serve(line):
            async for shown in line:
                try:
                    if isinstance(shown, Connect):
                        line.end.accept(shown.reference, shown.requirements & HALF)
                    elif isinstance(shown, Minor):
                        line.end.minor_confirm(shown.reference, shown.number)
                except SessionError:
                    pass

        await self.outlives(serve)


class Leaving(Case):
    async def test_with_much_unwritten_raises_nothing(self):
        """The peer reads slowly: the transport's buffer is full when the block is left."""

        async def read_slowly(reader, writer):
            while await reader.read(1_000_000):
                await asyncio.sleep(0.001)
            writer.close()

        listener = await asyncio.start_server(read_slowly, "127.0.0.1", 0)
        for size in (10_000_000, 100_000):
            line = None
            async with aio.dial("127.0.0.1", port_of(listener)) as line:
                line.end.connect(Opening())
                line._transport.write(bytes(size))
            self.assertTrue(line.end.closed)
        listener.close()

    async def test_with_much_data_unwritten_raises_nothing(self):
        came = []
        listener = await aio.serve(lambda line: collect(line, came), "127.0.0.1", 0, Terms(Classes.BOTH))
        for terms in (Terms(), CLASS_2):
            async with aio.dial("127.0.0.1", port_of(listener), terms) as line:
                of = line.end.connect(Opening())
                await within(line.expect(Connected))
                for _ in range(10):
                    line.end.data(of, bytes(1_000_000))
            line.abort()
        listener.close()

    async def test_a_block_that_raises_with_much_unwritten(self):
        async def read_nothing(reader, writer):
            await over.wait()
            writer.close()

        over = asyncio.Event()
        listener = await asyncio.start_server(read_nothing, "127.0.0.1", 0, limit=1)
        with self.assertRaises(KeyError):
            async with aio.dial("127.0.0.1", port_of(listener)) as line:
                line.end.connect(Opening())
                line._transport.write(bytes(10_000_000))
                raise KeyError
        self.assertTrue(line.end.closed)
        over.set()
        listener.close()


if __name__ == "__main__":
    unittest.main()
