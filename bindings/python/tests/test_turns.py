"""Lines whose peers send without a pause: the other tasks of the event loop have their turns."""
import asyncio
import time
import unittest

from osi_session import Classes, Connect, Connected, Data, Lost, Opening, Terms, Units, aio
from peers import Case, Peer, port_of, within

# The most indications of a line that are fetched in a turn.
MOST = 64


class Turns(Case):
    """A server line, whose peer sends data of one octet: what its tasks do in a turn of the event loop."""

    async def asyncSetUp(self):
        await super().asyncSetUp()
        self.got, self.lines, self.over, self.seconds = [], [], asyncio.Event(), 0.0

    async def serving(self, serve, protocol=aio.EndProtocol):
        async def handle(line):
            self.lines.append(line)
            await serve(line)
            self.over.set()

        self.listener = await aio.serve(handle, "127.0.0.1", 0, Terms(Classes.BOTH), protocol)
        self.addCleanup(self.listener.close)

    async def count(self, session):
        """Only counts, and takes some seconds for each."""
        await session.accept()
        async for shown in session:
            self.got.append(shown)
            if self.seconds > 0:
                time.sleep(self.seconds)

    async def connected(self, sessions=1):
        peer = await Peer.dial(port_of(self.listener))
        for number in range(1, sessions + 1):
            peer.end.connect(Opening(Units.HALF_DUPLEX))
            await peer.expect(Connected, number)
        return peer

    async def flooded(self, octets, all_of_them):
        """The most indications that are fetched between two turns of another task, until all are."""
        self.lines[0].data_received(octets)
        most = before = len(self.got)
        while len(self.got) < all_of_them:
            await asyncio.sleep(0)
            most, before = max(most, len(self.got) - before), len(self.got)
        return most

    def one_octet(self, messages):
        """The packets of messages of one octet in class 2, for its first connection, after its CN."""
        return b"".join(b"\3\0\0\x0e\4\xf0\0\1" + bytes([0x80 | (number + 1) % 128]) + b"\1\0\1\0x" for number in range(messages))

    async def test_a_handler_that_only_counts(self):
        await self.serving(lambda line: line.answer_sessions(self.count))
        peer = await self.connected()
        most = await within(self.flooded(self.one_octet(20_000), 20_000))
        self.assertLessEqual(most, MOST)
        self.assertEqual(len({shown.user_data for shown in self.got}), 1)
        await peer.close()

    async def test_a_handler_that_is_slow(self):
        """It takes more than a line's share of the time: other tasks go on after each indication."""
        await self.serving(lambda line: line.answer_sessions(self.count))
        peer = await self.connected()
        self.seconds = 0.002
        self.assertLessEqual(await within(self.flooded(self.one_octet(200), 200)), 1)
        await peer.close()

    async def test_a_line_without_sessions(self):
        async def serve(line):
            async for shown in line:
                if isinstance(shown, Connect):
                    line.end.accept(shown.reference, shown.requirements)
                else:
                    self.got.append(shown)

        await self.serving(serve)
        peer = await self.connected()
        self.assertLessEqual(await within(self.flooded(self.one_octet(20_000), 20_000)), MOST)
        await peer.close()

    async def test_a_subclass_that_keeps_nothing(self):
        """Its indications are not fetched, but passed on as they come."""

        class Passing(aio.EndProtocol):
            def indication_received(own, indication):
                if isinstance(indication, Data):
                    self.got.append(indication)
                else:
                    super().indication_received(indication)

        await self.serving(lambda line: line.answer_sessions(self.count), Passing)
        peer = await self.connected()
        self.assertLessEqual(await within(self.flooded(self.one_octet(20_000), 20_000)), MOST)
        await peer.close()

    async def test_each_session_of_a_line_has_its_turn(self):
        """Of 8 sessions that are sent data in turn none is far ahead of the others."""
        counts = {}

        async def answer(session):
            counts[session.reference] = 0
            await session.accept()
            async for _ in session:
                counts[session.reference] += 1

        await self.serving(lambda line: line.answer_sessions(answer))
        peer = await self.connected(8)
        for _ in range(60):
            for session in range(1, 9):
                peer.end.data(session, b"x")
        peer.flush()
        while sum(counts.values()) < 8 * 60:
            await asyncio.sleep(0)
            self.assertLessEqual(max(counts.values()) - min(counts.values()), MOST)
        await peer.close()

    async def test_what_came_before_a_loss_is_fetched_before_it(self):
        """The byte connection is lost while much is not fed."""
        await self.serving(lambda line: line.answer_sessions(self.ends))
        peer = await self.connected()
        line = self.lines[0]
        line.data_received(self.one_octet(5_000))
        line.abort()
        await within(line.wait_closed())
        await within(self.over.wait())
        self.assertEqual(len(self.got), 5_000)
        self.assertIsInstance(self.ended, Lost)
        await peer.close()

    async def ends(self, session):
        try:
            await self.count(session)
        except aio.SessionOver as over:
            self.ended = over.indication
            raise

    async def test_an_exception_of_a_subclass_closes_its_line(self):
        """It comes in a later turn than the octets, or in that of a task that fetches."""

        class Failing(aio.EndProtocol):
            def indication_received(own, indication):
                if isinstance(indication, (Data, Lost)):
                    self.got.append(indication)
                    if len(self.got) >= 1_000:
                        raise KeyError
                super().indication_received(indication)

        raised = []
        asyncio.get_running_loop().set_exception_handler(lambda loop, context: raised.append(context["exception"]))
        await self.serving(lambda line: line.answer_sessions(self.count), Failing)
        peer = await self.connected()
        line = self.lines[0]
        line.data_received(self.one_octet(5_000))
        await within(line.wait_closed())
        await within(self.over.wait())
        self.assertTrue(line.end.closed or line.end.ended() is not None)
        self.assertLess(len(self.got), 1_100)
        self.assertIn(KeyError, [type(error) for error in raised])
        await peer.close()

    async def test_two_tasks_fetch_from_one_session(self):
        async def answer(session):
            await session.accept()
            await asyncio.gather(self.fetch(session), self.fetch(session))

        await self.serving(lambda line: line.answer_sessions(answer))
        peer = await self.connected()
        self.assertLessEqual(await within(self.flooded(self.one_octet(2_000), 2_000)), MOST)
        await peer.close()

    async def fetch(self, session):
        while len(self.got) < 2_000:
            self.got.append(await session.next())


if __name__ == "__main__":
    unittest.main()
