"""Sessions over asyncio: how they open and end, that each goes on without the others, and how much a line keeps."""
import asyncio
import pickle
import tempfile
import unittest

from osi_session import (
    Aborted,
    Classes,
    Code,
    Connect,
    Connected,
    Data,
    End,
    Given,
    Lost,
    Minor,
    MinorConfirmed,
    Opening,
    Phase,
    RefusedBySession,
    RefusedByTransport,
    Release,
    Released,
    ReleaseRefused,
    SessionError,
    Terms,
    Tokens,
    Units,
    aio,
)
from peers import HAS_OPENSSL, Case, Peer, contexts, is_ack, port_of, within

HALF = Units.HALF_DUPLEX | Units.MINOR_SYNC | Units.NEGOTIATED_RELEASE
TOKENS = Tokens.DATA | Tokens.MINOR | Tokens.RELEASE
BOTH, CLASS_2 = Terms(Classes.BOTH), Terms(Classes.CLASS_2)


class Sessions(Case):
    async def asyncSetUp(self):
        await super().asyncSetUp()
        self.raised, self.ended, self.release = [], asyncio.Queue(), asyncio.Event()
        keep = lambda loop, context: self.raised.append(context.get("exception"))
        asyncio.get_running_loop().set_exception_handler(keep)
        self.listener = await aio.serve_sessions(self.answer, "127.0.0.1", 0, BOTH)
        self.port = port_of(self.listener)

    async def asyncTearDown(self):
        self.listener.close()

    async def answer(self, session):
        """Does what the session was asked to do in its first user data."""
        wanted = session.asked.user_data
        if wanted == b"refuse":
            await session.refuse(b"busy")
            return
        if wanted == b"return":
            return
        await session.accept(user_data=b"a gateway")
        if wanted == b"abort":
            await session.abort(b"enough")
        elif wanted == b"raise":
            raise KeyError(session.reference)
        elif wanted == b"deaf":
            await self.release.wait()
        try:
            async for shown in session:
                if isinstance(shown, Data):
                    got = shown.user_data
                    if wanted == b"echo":
                        await session.data(got)
                elif isinstance(shown, Minor) and shown.confirm:
                    await session.minor_confirm(shown.number)
                elif isinstance(shown, Given):
                    await session.release()
                elif isinstance(shown, Release):
                    await session.release_accept(b"bye")
            self.ended.put_nowait(None)
        except aio.SessionOver as over:
            self.ended.put_nowait(over.indication)
            raise

    def opening(self, wanted, units=HALF):
        return Opening(units, user_data=wanted)

    async def test_a_session(self):
        for classes in (Classes.CLASS_0, Classes.CLASS_2):
            async with aio.dial("127.0.0.1", self.port, Terms(classes)) as line:
                async with line.session(self.opening(b"")) as session:
                    self.assertEqual(session.connected.user_data, b"a gateway")
                    self.assertEqual((session.phase, session.held), (Phase.READY, TOKENS))
                    await session.data(b"hello")
                    self.assertEqual(await session.minor(), 0)
                    self.assertEqual(await session.minor(), 1)
                    self.assertEqual((await session.expect(MinorConfirmed)).number, 0)
                    await session.expect(MinorConfirmed)
                    await session.give(TOKENS)
                    await within(session.expect(Release))
                    await session.release_accept()
                    self.assertEqual([shown async for shown in session], [])
                    self.assertIsNone(await session.next())
            self.assertIsNone(await within(self.ended.get()))

    async def test_the_end_of_a_block_releases(self):
        for classes in (Classes.CLASS_0, Classes.CLASS_2):
            for units in (HALF, Units.HALF_DUPLEX, Units.DUPLEX):
                async with aio.dial("127.0.0.1", self.port, Terms(classes)) as line:
                    async with line.session(self.opening(b"", units)) as session:
                        await session.data(bytes(1_000_000))
                    self.assertIs(session.phase, Phase.ENDED)
                self.assertIsNone(await within(self.ended.get()))

    async def test_the_end_of_a_block_aborts_where_the_peer_has_the_tokens(self):
        async with aio.dial("127.0.0.1", self.port) as line:
            async with line.session(self.opening(b"", HALF)) as session:
                await session.give(Tokens.DATA)
        self.assertIsInstance(await within(self.ended.get()), Aborted)

    async def test_two_at_once(self):
        """Opened at the same time, so the second waits until the first is answered."""

        async def talk(line, number):
            async with line.session(self.opening(b"echo", Units.DUPLEX)) as session:
                for message in range(50):
                    await session.data(b"%d %d" % (number, message))
                    self.assertEqual((await session.expect(Data)).user_data, b"%d %d" % (number, message))
                return session.reference

        async with aio.dial("127.0.0.1", self.port, CLASS_2) as line:
            references = await within(asyncio.gather(*(talk(line, number) for number in range(10))))
            self.assertEqual(sorted(references), list(range(1, 11)))

    async def test_one_after_the_other(self):
        async with aio.dial("127.0.0.1", self.port, CLASS_2) as line:
            for reference in range(1, 4):
                async with line.session(self.opening(b"")) as session:
                    self.assertEqual(session.reference, reference)
                    await session.data(b"hello")

    async def test_a_refusal_is_an_exception_that_the_line_outlives(self):
        async with aio.dial("127.0.0.1", self.port, CLASS_2) as line:
            for wanted, data in ((b"refuse", b"busy"), (b"return", b"")):
                with self.assertRaises(aio.SessionOver) as raised:
                    async with line.session(self.opening(wanted)):
                        self.fail("it is refused")
                refused = raised.exception.indication
                self.assertEqual((type(refused), refused.user_data), (RefusedBySession, data))
            async with line.session(self.opening(b"")) as session:
                await session.data(b"hello")

    async def test_a_refusal_of_the_transport(self):
        async with aio.dial("127.0.0.1", self.port) as line:
            async with line.session(self.opening(b"")):
                with self.assertRaises(SessionError) as raised:
                    async with line.session(self.opening(b"")):
                        pass
                self.assertEqual(raised.exception.code, Code.ONE_CONNECTION)
        listener = await aio.serve_sessions(self.answer, "127.0.0.1", 0)
        async with aio.dial("127.0.0.1", port_of(listener), CLASS_2) as line:
            with self.assertRaises(aio.SessionOver) as raised:
                async with line.session():
                    pass
            self.assertIsInstance(raised.exception.indication, RefusedByTransport)
        listener.close()

    async def test_an_abort_is_an_exception_that_the_line_outlives(self):
        async with aio.dial("127.0.0.1", self.port, CLASS_2) as line:
            async with line.session(self.opening(b"echo", Units.DUPLEX)) as other:
                with self.assertRaises(aio.SessionOver) as raised:
                    async with line.session(self.opening(b"abort")) as session:
                        async for _ in session:
                            self.fail("nothing else comes")
                over = aio.SessionOver(Aborted(2, b"enough"))
                self.assertEqual(raised.exception.indication, over.indication)
                self.assertEqual(raised.exception.code, Code.ENDED)
                self.assertEqual(pickle.loads(pickle.dumps(over)).indication, over.indication)
                with self.assertRaises(aio.SessionOver):
                    await session.data(b"x")
                with self.assertRaises(aio.SessionOver):
                    await session.next()
                await other.data(b"still here")
                self.assertEqual((await within(other.expect(Data))).user_data, b"still here")

    async def test_a_loop_accepts_a_release_that_its_body_does_not_answer(self):
        shown, done = [], asyncio.Event()

        async def answer(session):
            await session.accept()
            async for one in session:
                shown.append(type(one))
                if one.user_data == b"not yet":
                    await session.release_refuse()
            done.set()

        listener = await aio.serve_sessions(answer, "127.0.0.1", 0)
        async with aio.dial("127.0.0.1", port_of(listener)) as line:
            async with line.session(Opening(HALF)) as session:
                await session.release(b"not yet")
                await within(session.expect(ReleaseRefused))
                await session.data(b"hello")
            await within(done.wait())
        self.assertEqual(shown, [Release, Data, Release])
        listener.close()

    async def test_an_end_may_be_expected(self):
        async with aio.dial("127.0.0.1", self.port, CLASS_2) as line:
            with self.assertRaises(aio.SessionOver):
                async with line.session(self.opening(b"abort")) as session:
                    self.assertEqual((await session.expect(Aborted)).user_data, b"enough")
            async with line.session(self.opening(b"")) as session:
                await session.minor()
                with self.assertRaises(aio.UnexpectedIndication) as raised:
                    await session.expect(Data, Release)
                self.assertIsInstance(raised.exception.indication, MinorConfirmed)
                await session.give(TOKENS)
                await session.expect(Release)
                await session.release_accept()
                with self.assertRaises(aio.UnexpectedIndication):
                    await session.expect(Data)

    async def test_who_releases_is_shown_it_last(self):
        async with aio.dial("127.0.0.1", self.port, CLASS_2) as line:
            async with line.session(self.opening(b"")) as session:
                await session.release()
                shown = [one async for one in session]
                self.assertEqual(shown, [Released(session.reference, b"bye")])

    async def test_an_exception_gives_up_its_own_session_alone(self):
        async with aio.dial("127.0.0.1", self.port, CLASS_2) as line:
            async with line.session(self.opening(b"echo", Units.DUPLEX)) as other:
                with self.assertRaises(KeyError):
                    async with line.session(self.opening(b"")):
                        raise KeyError
                self.assertIsInstance(await within(self.ended.get()), Aborted)
                await other.data(b"still here")
                await within(other.expect(Data))

    async def test_an_exception_of_a_handler_ends_its_own_session_alone(self):
        async with aio.dial("127.0.0.1", self.port, CLASS_2) as line:
            async with line.session(self.opening(b"echo", Units.DUPLEX)) as other:
                with self.assertRaises(aio.SessionOver) as raised:
                    async with line.session(self.opening(b"raise")) as session:
                        await within(session.next())
                self.assertIsInstance(raised.exception.indication, Aborted)
                self.assertIsInstance(self.raised[0], KeyError)
                await other.data(b"still here")
                await within(other.expect(Data))

    async def test_a_session_is_cancelled_in_its_opening(self):
        with self.assertRaises(asyncio.TimeoutError):
            async with aio.dial("127.0.0.1", self.port, CLASS_2) as line:

                async def open_it():
                    async with line.session(self.opening(b"")):
                        pass

                line._transport.pause_reading()
                await asyncio.wait_for(open_it(), 0.1)

    async def test_a_loss(self):
        async with aio.dial("127.0.0.1", self.port, CLASS_2) as line:
            with self.assertRaises(aio.SessionOver) as raised:
                async with line.session(self.opening(b"deaf")) as session:
                    line.abort()
                    await within(session.next())
            self.assertEqual(raised.exception.indication, Lost(session.reference))
        self.release.set()
        self.assertIsInstance(await within(self.ended.get()), Lost)

    async def test_what_came_before_an_end_is_shown_before_it(self):
        """The peer sends data and aborts while nobody fetches."""
        fetched = []

        async def answer(session):
            await session.accept()
            await self.release.wait()
            try:
                async for shown in session:
                    fetched.append(shown)
            finally:
                self.ended.put_nowait(None)

        listener = await aio.serve_sessions(answer, "127.0.0.1", 0, CLASS_2)
        async with aio.dial("127.0.0.1", port_of(listener), CLASS_2) as line:
            async with line.session() as session:
                for number in range(3):
                    await session.data(b"%d" % number)
                await session.abort()
            await asyncio.sleep(0.2)
            self.release.set()
            await within(self.ended.get())
        self.assertEqual([shown.user_data for shown in fetched], [b"0", b"1", b"2"])
        listener.close()

    async def test_a_protocol_of_ones_own(self):
        made = []

        class Mine(aio.EndProtocol):
            def indication_received(self, indication):
                made.append((self, indication))
                super().indication_received(indication)

        wanted = [(False, Connect), (True, Connected), (False, Data), (False, Release), (True, Released)]
        by_lines = lambda line: line.answer_sessions(self.answer)
        for serve, handler in ((aio.serve_sessions, self.answer), (aio.serve, by_lines)):
            made.clear()
            listener = await serve(handler, "127.0.0.1", 0, BOTH, protocol=Mine)
            async with aio.dial("127.0.0.1", port_of(listener), protocol=Mine) as line:
                async with line.session(self.opening(b"")) as session:
                    await session.data(b"hello")
            self.assertCountEqual([(one is line, type(indication)) for one, indication in made], wanted)
            listener.close()

    async def test_extra_info(self):
        lines = []

        async def answer(session):
            lines.append(session)
            await session.accept()
            await session.next()

        listener = await aio.serve_sessions(answer, "127.0.0.1", 0)
        self.assertEqual(aio.EndProtocol(End.caller()).get_extra_info("peername", "none yet"), "none yet")
        async with aio.dial("127.0.0.1", port_of(listener)) as line:
            self.assertEqual(line.get_extra_info("peername"), ("127.0.0.1", port_of(listener)))
            self.assertIsNone(line.get_extra_info("ssl_object"))
            self.assertEqual(line.get_extra_info("nothing", "else"), "else")
            async with line.session() as session:
                own = session.get_extra_info("sockname")
                self.assertEqual(lines[0].get_extra_info("peername"), own)
        self.assertEqual(line.get_extra_info("sockname"), own)
        listener.close()

    @unittest.skipUnless(HAS_OPENSSL, "there is no openssl")
    async def test_tls(self):
        with tempfile.TemporaryDirectory() as folder:
            server, client = contexts(folder)
            listener = await aio.serve_sessions(self.answer, "127.0.0.1", 0, BOTH, ssl=server)
            options = {"ssl": client, "server_hostname": "localhost"}
            for classes in (Classes.CLASS_0, Classes.CLASS_2):
                async with aio.dial("127.0.0.1", port_of(listener), Terms(classes), **options) as line:
                    self.assertIn(("commonName", "localhost"), line.get_extra_info("peercert")["subject"][0])
                    async with line.session(self.opening(b"echo", Units.DUPLEX)) as session:
                        await session.data(bytes(1_000_000))
                        self.assertEqual(len((await within(session.expect(Data))).user_data), 1_000_000)
            listener.close()


class Bounds(Case):
    """What a line keeps, with peers of several kinds."""

    async def serving(self, handler, protocol=aio.EndProtocol):
        lines = []

        async def serve(line):
            lines.append(line)
            await line.answer_sessions(handler)

        self.listener = await aio.serve(serve, "127.0.0.1", 0, CLASS_2, protocol)
        return lines, await Peer.dial(port_of(self.listener))

    async def asyncTearDown(self):
        self.listener.close()

    async def test_a_user_who_fetches_nothing_is_sent_little(self):
        """The peer sends as fast as it may: it is read no more at 64 messages, and all of them come later."""
        for size, most in ((1, 64), (100_000, 3)):
            release, got = asyncio.Event(), []

            async def answer(session):
                await session.accept()
                await release.wait()
                async for shown in session:
                    if isinstance(shown, Data):
                        got.append(shown.user_data)
                    elif isinstance(shown, Release):
                        await session.release_accept()

            lines, peer = await self.serving(answer)
            of = peer.end.connect(Opening())
            await peer.expect(Connected)
            for number in range(500):
                peer.end.data(of, b"x" * size)
                peer.flush()
            shown = lines[0]._sessions[of]._shown
            while len(shown) < most:
                await asyncio.sleep(0.01)
            await asyncio.sleep(0.3)
            self.assertEqual(len(shown), most)
            release.set()
            peer.end.release(of)
            await peer.expect(Released)
            self.assertEqual(got, [b"x" * size] * 500)
            await peer.close()
            self.listener.close()

    async def test_a_session_may_wait_for_another_whose_answers_come_behind(self):
        """For each message of one session the handler asks in another. The peer sends all messages ahead."""
        sessions, over = [], asyncio.Event()

        async def answer(session):
            await session.accept()
            sessions.append(session)
            if len(sessions) == 2:
                await over.wait()
                return
            async for shown in session:
                await sessions[1].data(shown.user_data)
                await session.data((await sessions[1].expect(Data)).user_data)

        lines, peer = await self.serving(answer)
        peer.on_shown = lambda shown: shown.reference == 2 and isinstance(shown, Data) and peer.end.data(2, shown.user_data)
        for number in (1, 2):
            peer.end.connect(Opening(Units.DUPLEX))
            await peer.expect(Connected, number)
        for number in range(500):
            peer.end.data(1, b"%d" % number)
        answers = lambda: [shown.user_data for shown in peer.of(Data) if shown.reference == 1]
        await peer.until(lambda: len(answers()) == 500)
        self.assertEqual(answers(), [b"%d" % number for number in range(500)])
        over.set()
        await peer.close()

    async def test_a_session_that_asks_and_takes_no_answer_is_given_up_alone(self):
        """The peer gives no credit for one session and sends requests in it for ever; another goes on."""

        class Small(aio.EndProtocol):
            most_unpaid = 1_000_000

        over = []

        async def answer(session):
            await session.accept()
            try:
                async for shown in session:
                    if isinstance(shown, Data):
                        await session.data(shown.user_data)
            except aio.SessionOver as error:
                over.append(error.indication)
                raise

        lines, peer = await self.serving(answer, Small)
        peer.holds_back = lambda packet: is_ack(packet, 1)
        for number in (1, 2):
            peer.end.connect(Opening(Units.DUPLEX))
            await peer.expect(Connected, number)
        pending = kept = 0
        for number in range(200):
            for of in (1, 2):
                try:
                    peer.end.data(of, bytes(50_000) if of == 1 else b"%d" % number)
                except SessionError:
                    pass
            peer.flush()
            answers = lambda: [shown for shown in peer.of(Data) if shown.reference == 2]
            await peer.until(lambda: len(answers()) > number)
            pending, kept = max(pending, lines[0]._pending.octets), max(kept, lines[0].end.backlog())
        self.assertEqual(over, [aio.GivenUp(1)])
        self.assertLess(pending, Small.most_unpaid + 400_000)
        self.assertLess(kept, 200_000)
        self.assertEqual(answers()[-1].user_data, b"199")
        await peer.close()

    async def test_64_sessions_that_take_no_answer(self):
        """All ask for confirmations as fast as they can, and give no credit: what is kept stays small."""

        async def answer(session):
            await session.accept()
            async for shown in session:
                if isinstance(shown, Minor):
                    await session.minor_confirm(shown.number, bytes(1_000))

        class Small(aio.EndProtocol):
            most_unpaid = 500_000
            # What came before a connection owed credit counts among these alone.
            most = 1_500_000

        lines, peer = await self.serving(answer, Small)
        peer.holds_back = is_ack
        for number in range(1, 65):
            peer.end.connect(Opening(HALF))
            await peer.expect(Connected, number)
        most = 0
        for number in range(300):
            for of in range(1, 65):
                try:
                    peer.end.minor(of, user_data=bytes(1_000))
                except SessionError:
                    pass
            peer.flush()
            await peer.writer.drain()
            await asyncio.sleep(0)
            line = lines[0]
            most = max(most, line._pending.octets + line.end.backlog() + line.end.outgoing_length())
        self.assertLess(most, 64 * 70_000 + 2_000_000)
        await peer.close()

    async def test_what_waits_for_credit_is_disconnected(self):
        """When an end can disconnect: after an abort that waits for credit, and not after one that leaves at once."""
        told, aborted = [], []

        class Disconnecting(End):
            def disconnect(self, reference):
                told.append((reference, self.phase(reference)))

        async def answer(session):
            await session.accept()
            if session.asked.user_data == b"much":
                session.end.data(session.reference, bytes(200_000))
            raise KeyError

        asyncio.get_running_loop().set_exception_handler(lambda loop, context: aborted.append(context["exception"]))
        own = lambda end: aio.EndProtocol(Disconnecting.called(CLASS_2))
        self.listener = await aio.serve_sessions(answer, "127.0.0.1", 0, CLASS_2, own)
        peer = await Peer.dial(port_of(self.listener))
        peer.holds_back = is_ack
        for number, wanted in ((1, b"little"), (2, b"much")):
            peer.end.connect(Opening(Units.DUPLEX, user_data=wanted))
            await peer.expect(Connected, number)
        await peer.expect(Aborted)
        while len(aborted) < 2:
            await asyncio.sleep(0.01)
        self.assertEqual(told, [(2, Phase.ABORTING)])
        await peer.close()

    async def test_a_connection_is_given_up_by_hand(self):
        lines = []

        async def serve(line):
            lines.append(line)
            shown = await line.expect(Connect)
            line.end.accept(shown.reference, shown.requirements)
            line.give_up(shown.reference)
            self.assertEqual(await line.next(), aio.GivenUp(shown.reference))
            self.assertIsNone(await line.next())

        self.listener = await aio.serve(serve, "127.0.0.1", 0, CLASS_2)
        async with aio.dial("127.0.0.1", port_of(self.listener), CLASS_2) as line:
            with self.assertRaises(aio.SessionOver) as raised:
                async with line.session() as session:
                    await within(session.next())
            self.assertIsInstance(raised.exception.indication, Aborted)


if __name__ == "__main__":
    unittest.main()
