"""Two ends in memory: each kind of indication, each code that is quick to come by, and what is freed."""
import copy
import gc
import pickle
import subprocess
import sys
import threading
import unittest
import weakref

from osi_session import (
    Aborted,
    Addresses,
    Asked,
    BadUnit,
    Classes,
    Code,
    Connect,
    Connected,
    Counters,
    Data,
    Direction,
    End,
    Ending,
    Fault,
    FaultKind,
    Given,
    Lost,
    Major,
    MajorConfirmed,
    Minor,
    MinorConfirmed,
    Opening,
    PeerAbort,
    Phase,
    Reason,
    Refusal,
    RefusedBySession,
    RefusedByTransport,
    Release,
    Released,
    ReleaseRefused,
    Restart,
    Restarted,
    SessionError,
    Side,
    Sides,
    Sizes,
    Spelling,
    Tally,
    Terms,
    Tokens,
    Trace,
    Units,
)

ALL_UNITS = (
    Units.HALF_DUPLEX | Units.MINOR_SYNC | Units.MAJOR_SYNC | Units.RESYNCHRONIZE | Units.NEGOTIATED_RELEASE
)
ALL_TOKENS = Tokens.DATA | Tokens.MINOR | Tokens.MAJOR | Tokens.RELEASE
ASKED = Opening(ALL_UNITS, 1, Sides(), b"here", b"there", b"caller", b"called", b"who is there?")


def carry(source, to, piece=7):
    """Carries the outgoing octets of one end to the other, in pieces of this size, and returns the indications."""
    shown = []
    while source.outgoing_length() > 0:
        octets = source.outgoing(piece)
        source.taken(len(octets))
        shown += to.feed_all(octets)
    return shown


class Pair:
    def __init__(self, caller=Classes.BOTH, called=Classes.BOTH):
        self.caller, self.called = End.caller(Terms(caller)), End.called(Terms(called))

    def carry(self):
        """Carries octets both ways until nothing is left; the indications of the caller and of the called end."""
        by_caller, by_called = [], []
        for _ in range(3):
            by_called += carry(self.caller, self.called)
            by_caller += carry(self.called, self.caller)
        return by_caller, by_called

    @classmethod
    def opened(cls, classes=Classes.CLASS_0, asked=ASKED):
        pair = cls(classes, classes)
        of = pair.caller.connect(asked)
        pair.carry()
        pair.called.accept(of, asked.requirements, asked.serial, user_data=b"a gateway")
        pair.carry()
        return pair


WITHOUT_MEMORY = """
import resource
from osi_session import End, Opening, SessionError, Units
caller, called = End.caller(), End.called()
def carry(source, to):
    octets = source.outgoing()
    source.taken(len(octets))
    return list(to.feed_all(octets))
of = caller.connect(Opening())
carry(caller, called), carry(called, caller), carry(caller, called)
called.accept(of, Units.HALF_DUPLEX)
carry(called, caller)
data, before = bytes(1000000), 0
pages = int(open("/proc/self/statm").read().split()[0])
most = pages * resource.getpagesize() + (64 << 20)
resource.setrlimit(resource.RLIMIT_AS, (most, most))
for _ in range(1000):
    try:
        before = caller.outgoing_length()
        caller.data(of, data)
    except SessionError as error:
        held = caller.outgoing_length() == before
        print(error.code.name + (", and nothing has changed" if held else ""))
        break
"""


def packet(tsdu):
    """A packet of class 0 with a TSDU."""
    return bytes([3, 0, 0, 7 + len(tsdu), 2, 0xF0, 0x80]) + tsdu


class Case(unittest.TestCase):
    def refused(self, code, call, *arguments):
        with self.assertRaises(SessionError) as raised:
            call(*arguments)
        self.assertEqual(raised.exception.code, code)

    def shown(self, pair, *, to_caller=(), to_called=()):
        self.assertEqual(pair.carry(), (list(to_caller), list(to_called)))


class Traces(Case):
    def test_lines(self):
        lines, pair = [], Pair.opened()
        pair.caller.trace(lambda direction, line: lines.append((direction.name, line)))
        pair.caller.data(1, b"hello")
        pair.carry()
        told = ["packet 0 length 16 code f0", "  DT number 0 eot 1 octets 9", "    tsdu 9", "    GT", "    DT octets 5"]
        self.assertEqual([line for _, line in lines[:3]], told[:3])
        self.assertEqual({direction for direction, _ in lines}, {"SENT"})
        pair.called.abort(1)
        pair.carry()
        self.assertEqual([line for direction, line in lines if direction == "RECEIVED"][0][:18], "packet 0 length 12")
        counters = pair.caller.counts()
        self.assertEqual((counters.sent.packets, counters.sent.tsdus, counters.sent.session_units), (2, 2, 3))
        self.assertEqual((counters.received.packets, counters.received.refused), (1, 0))
        pair.caller.trace()
        self.assertEqual(pair.caller.counts(), Counters(Tally(), Tally()))

    def test_counters(self):
        pair = Pair()
        pair.called.trace(what=Trace.COUNTS)
        pair.caller.connect(ASKED)
        pair.carry()
        counters = pair.called.counts()
        self.assertEqual((counters.received.packets, counters.received.tsdus, counters.sent.packets), (2, 1, 2))
        pair.called.close()
        self.assertEqual(pair.called.counts(), Counters())
        self.refused(Code.SLOT_EMPTY, pair.called.trace)

    def test_a_function_that_fails_changes_nothing(self):
        def fails(direction, line):
            raise ValueError(line)

        pair = Pair()
        pair.caller.trace(fails)
        with self.assertLogs("osi_session") as logged:
            pair.caller.connect(ASKED)
            self.assertEqual(len(pair.carry()[1]), 1)
        self.assertGreater(len(logged.records), 2)

    def test_a_stopped_trace_says_so_once(self):
        lines, end = [], End.called()
        end.trace(lambda direction, line: lines.append((direction, line)))
        list(end.feed_all(packet(b"") * 20000))
        self.assertEqual(lines, [(Direction.RECEIVED, None)])
        list(end.feed_all(packet(b"")))
        self.assertEqual(len(lines), 1)


class Indications(Case):
    def test_an_opening(self):
        pair = Pair()
        wishes = Sides(Side.ANSWERER, Side.CHOICE, Side.ASKER, Side.ASKER)
        asked = Opening(ALL_UNITS, 1, wishes, user_data=b"who is there?")
        self.assertEqual(pair.caller.connect(asked), 1)
        self.assertEqual(pair.caller.phase(1), Phase.WAIT_TRANSPORT)
        self.shown(pair, to_called=[Connect(1, ALL_UNITS, 1, wishes, b"who is there?")])
        self.assertEqual(pair.called.phase(1), Phase.ANSWERING)
        self.refused(Code.BAD_ARGUMENT, pair.called.accept, 1, ALL_UNITS, 7, Sides(minor=Side.CHOICE))
        pair.called.accept(1, ALL_UNITS, 7, Sides(minor=Side.ANSWERER), b"a gateway")
        sides = Sides(Side.ANSWERER, Side.ANSWERER, Side.ASKER, Side.ASKER)
        self.shown(pair, to_caller=[Connected(1, ALL_UNITS, 7, sides, b"a gateway")])
        self.assertEqual(pair.called.held(1), Tokens.DATA | Tokens.MINOR)
        self.assertEqual(pair.caller.held(1), Tokens.MAJOR | Tokens.RELEASE)
        self.assertEqual(pair.caller.next_serial(1), 7)

    def test_sizes(self):
        pair, sizes = Pair(Classes.CLASS_0, Classes.CLASS_0), Sizes(64, 200)
        pair.caller.connect(Opening(ALL_UNITS, sizes=sizes))
        self.assertEqual([shown.sizes for shown in pair.carry()[1]], [sizes])
        self.refused(Code.BAD_ARGUMENT, pair.called.accept, 1, ALL_UNITS, 0, Sides(), b"", Sizes(63))
        pair.called.accept(1, ALL_UNITS, sizes=Sizes(0, 100))
        self.assertEqual([shown.sizes for shown in pair.carry()[0]], [Sizes(64, 100)])
        self.refused(Code.TOO_LONG, pair.caller.abort, 1, bytes(60))
        pair.caller.data(1, bytes(61))
        self.assertEqual(pair.carry()[1], [Data(1, bytes(61))])
        pair.called.abort(1, bytes(60))
        for wrong in (Sizes(1), Sizes(0, 63), Sizes(65536), Sizes(-1)):
            self.refused(Code.BAD_ARGUMENT, End.caller().connect, Opening(sizes=wrong))

    def test_duplex_has_no_number(self):
        pair = Pair()
        pair.caller.connect(Opening(Units.DUPLEX))
        self.shown(pair, to_called=[Connect(1, Units.DUPLEX, None, Sides(), b"")])

    def test_refusals(self):
        pair = Pair()
        pair.caller.connect(ASKED)
        pair.carry()
        pair.called.refuse(1, b"not now")
        self.shown(pair, to_caller=[RefusedBySession(1, 2, b"not now")])
        pair = Pair()
        pair.caller.connect(ASKED)
        pair.carry()
        self.refused(Code.BAD_ARGUMENT, pair.called.refuse_with, 1, Refusal.CONGESTION, b"not now")
        self.refused(Code.BAD_ARGUMENT, pair.called.refuse_with, 1, 3)
        pair.called.refuse_with(1, Refusal.CONGESTION)
        self.shown(pair, to_caller=[RefusedBySession(1, 1, b"")])
        pair = Pair(called=Classes.NONE)
        pair.caller.connect(ASKED)
        self.shown(pair, to_caller=[RefusedByTransport(1, 130)])

    def test_data_and_tokens(self):
        for classes in (Classes.CLASS_0, Classes.CLASS_2):
            pair = Pair.opened(classes)
            pair.caller.data(1, bytearray(b"x" * 300))
            self.shown(pair, to_called=[Data(1, b"x" * 300)])
            pair.called.please(1, Tokens.DATA, memoryview(b"please"))
            self.shown(pair, to_caller=[Asked(1, Tokens.DATA, b"please")])
            pair.caller.give(1, Tokens.DATA)
            self.shown(pair, to_called=[Given(1, Tokens.DATA)])

    def test_points(self):
        pair = Pair.opened()
        pair.caller.minor(1, False)
        pair.caller.minor(1, user_data=b"m")
        self.shown(pair, to_called=[Minor(1, 1, False, b""), Minor(1, 2, True, b"m")])
        pair.called.minor_confirm(1, 2, b"c")
        self.shown(pair, to_caller=[MinorConfirmed(1, 2, b"c")])
        pair.caller.major(1, b"M")
        self.assertEqual(pair.caller.phase(1), Phase.MAJOR_ASKED)
        self.shown(pair, to_called=[Major(1, 3, b"M")])
        pair.called.major_confirm(1)
        self.shown(pair, to_caller=[MajorConfirmed(1, b"")])
        self.assertEqual((pair.caller.confirmed_below(1), pair.caller.lowest_restart(1)), (4, 4))

    def test_a_restart(self):
        pair = Pair.opened()
        wishes = Sides(release=Side.CHOICE)
        pair.caller.restart(1, 1, wishes, b"again")
        self.shown(pair, to_called=[Restart(1, 1, wishes, b"again")])
        pair.called.restart_confirm(1, user_data=b"yes")
        self.shown(pair, to_caller=[Restarted(1, 1, Sides(), b"yes")])
        self.assertEqual(pair.caller.held(1), ALL_TOKENS)

    def test_a_release(self):
        pair = Pair.opened()
        pair.caller.release(1, b"bye")
        self.shown(pair, to_called=[Release(1, b"bye")])
        pair.called.release_refuse(1, b"stay")
        self.shown(pair, to_caller=[ReleaseRefused(1, b"stay")])
        pair.caller.release(1)
        pair.carry()
        pair.called.release_accept(1)
        self.shown(pair, to_caller=[Released(1, b"")])
        self.assertEqual(pair.caller.phase(1), Phase.ENDED)
        self.assertEqual(pair.caller.ended(), Ending(Reason.CLOSED, 0))

    def test_an_abort_and_a_loss(self):
        pair = Pair.opened()
        pair.called.abort(1, b"enough")
        self.shown(pair, to_caller=[Aborted(1, b"enough")])
        pair = Pair.opened()
        pair.caller.broken()
        self.assertEqual(list(pair.caller.feed_all(b"")), [Lost(1)])
        self.assertIsNone(pair.caller.next_indication())
        self.assertEqual(pair.caller.ended(), Ending(Reason.BROKEN, 0))

    def test_bad_units(self):
        cases = {
            b"\x21\x00": Fault(FaultKind.SPELLING, spelling=Spelling.UNKNOWN_SI),
            b"\x01\x00\x31\x00": Fault(
                FaultKind.SPELLING, spelling=Spelling.MISSING_PARAMETER, parameter=42, offset=2
            ),
            b"\x0a\x00": Fault(FaultKind.UNEXPECTED, si=10),
            b"\x01\x00\x01\x03\x19\x01\x02A": Fault(FaultKind.BAD_ENCLOSURE, si=1),
        }
        for tsdu, fault in cases.items():
            pair = Pair.opened()
            self.assertEqual(list(pair.called.feed_all(packet(tsdu))), [BadUnit(1, fault)])
            self.shown(pair, to_caller=[PeerAbort(1, 5)])

    def test_those_that_are_an_end(self):
        over = {kind for kind in (Lost, PeerAbort, BadUnit, Aborted, Released) if kind.is_over}
        self.assertEqual(len(over), 5)
        self.assertTrue(RefusedBySession.is_over and RefusedByTransport.is_over)
        self.assertFalse(Release.is_over or Data.is_over or ReleaseRefused.is_over)

    def test_connections_are_told_apart(self):
        pair = Pair.opened(Classes.CLASS_2)
        second = pair.caller.connect(Opening(Units.DUPLEX))
        pair.carry()
        pair.called.accept(second, Units.DUPLEX)
        pair.carry()
        pair.caller.data(second, b"two")
        pair.caller.data(1, b"one")
        self.shown(pair, to_called=[Data(2, b"two"), Data(1, b"one")])


class Octets(Case):
    def test_data_in_parts_is_joined(self):
        pair = Pair.opened()
        head = b"\x01\x00\x01\x03\x19\x01"
        self.assertEqual(list(pair.called.feed_all(packet(head + b"\x01one "))), [])
        self.assertEqual(pair.called.kept(), 4)
        self.assertEqual(list(pair.called.feed_all(packet(head + b"\x02two"))), [Data(1, b"one two")])
        self.assertEqual(pair.called.kept(), 0)

    def test_feeding_stops_where_an_indication_waits(self):
        pair = Pair.opened()
        pair.caller.data(1, b"one")
        one = pair.caller.outgoing()
        fed = pair.called.feed(one + one)
        self.assertEqual((fed.used, fed.waits), (len(one), True))
        self.assertEqual(pair.called.feed(one).used, 0)
        self.assertEqual(list(pair.called.feed_all(one + b"\x03")), [Data(1, b"one")] * 2)
        self.assertEqual(pair.called.kept(), 1)

    def six(self, classes):
        """Two ends, and six messages in one piece."""
        pair = Pair.opened(classes)
        for number in range(6):
            pair.caller.data(1, b"%d" % number)
        octets = pair.caller.outgoing()
        pair.caller.taken(len(octets))
        return pair, octets

    def test_a_loop_that_is_left_loses_nothing(self):
        """At each indication, by an exception and by break: the next loop goes on."""

        def feed(end, piece, got, stops_at, raises):
            for shown in end.feed_all(piece):
                got.append(shown.user_data)
                if len(got) == stops_at + 1:
                    if raises:
                        raise KeyError
                    break

        all_of_them = [b"%d" % number for number in range(6)]
        for classes in (Classes.CLASS_0, Classes.CLASS_2):
            for stops_at in range(6):
                for raises in (True, False):
                    pair, octets = self.six(classes)
                    got, middle = [], len(octets) // 2 + 3
                    for piece in (octets[:middle], octets[middle:], b""):
                        try:
                            feed(pair.called, piece, got, stops_at, raises)
                        except KeyError:
                            pass
                    self.assertEqual(got, all_of_them)

    def test_a_loop_may_be_left_each_time(self):
        pair, octets = self.six(Classes.CLASS_2)
        got = []
        while len(got) < 6:
            for shown in pair.called.feed_all(octets):
                got.append(shown.user_data)
                break
            octets = b""
        self.assertEqual(got, [b"%d" % number for number in range(6)])
        self.assertEqual(list(pair.called.feed_all(b"")), [])

    def test_what_a_loop_left_is_fed_first(self):
        pair, octets = self.six(Classes.CLASS_0)
        middle = len(octets) // 2
        got, rest = [next(pair.called.feed_all(octets[:middle])).user_data], octets[middle:]
        while True:
            fed = pair.called.feed(rest)
            rest = rest[fed.used :]
            shown = pair.called.next_indication()
            while shown is not None:
                got.append(shown.user_data)
                shown = pair.called.next_indication()
            if not fed.waits and not rest:
                break
        self.assertEqual(got, [b"%d" % number for number in range(6)])

    def test_what_is_outgoing_stays_until_it_is_taken(self):
        pair = Pair.opened()
        pair.caller.data(1, b"one")
        waiting = pair.caller.outgoing()
        self.assertEqual(len(waiting), pair.caller.outgoing_length())
        pair.caller.taken(3)
        self.assertEqual(pair.caller.outgoing(), waiting[3:])
        self.assertEqual(pair.caller.outgoing(2), waiting[3:5])
        self.refused(Code.BAD_ARGUMENT, pair.caller.taken, len(waiting))
        self.refused(Code.BAD_ARGUMENT, pair.caller.taken, -1)

    def test_an_end_says_why_it_has_ended(self):
        end = End.called()
        self.assertIsNone(end.ended())
        self.assertEqual(list(end.feed_all(b"\x04")), [])
        self.assertEqual(end.ended(), Ending(Reason.BAD_VERSION, 0))

    def test_octets_are_octets(self):
        pair = Pair.opened()
        for wrong in ("text", 5, None, [1]):
            with self.assertRaises(TypeError):
                pair.caller.data(1, wrong)
            with self.assertRaises(TypeError):
                pair.caller.feed(wrong)


class Backlog(Case):
    def test_what_credit_holds_back_is_unsent(self):
        pair = Pair.opened(Classes.CLASS_2)
        self.assertEqual((pair.caller.live(), pair.called.live()), (1, 1))
        for _ in range(20):
            pair.caller.data(1, bytes(1000))
        self.assertEqual((pair.caller.unsent(1), pair.caller.unsent(2), pair.caller.backlog()), (5020, 0, 5020))
        pair.carry()
        self.assertEqual((pair.caller.unsent(1), pair.caller.backlog()), (0, 0))

    def test_nothing_is_unsent_in_class_0(self):
        pair = Pair.opened()
        for _ in range(20):
            pair.caller.data(1, bytes(1000))
        self.assertEqual((pair.caller.unsent(1), pair.caller.backlog(), pair.caller.live()), (0, 0, 1))

    def test_a_connection_is_live_until_it_is_gone(self):
        pair = Pair(Classes.CLASS_2, Classes.CLASS_2)
        self.assertEqual((pair.caller.live(), pair.called.live()), (0, 0))
        pair.caller.connect(ASKED)
        self.assertEqual((pair.caller.live(), pair.called.live()), (1, 0))
        pair.carry()
        self.assertEqual((pair.caller.live(), pair.called.live()), (1, 1))
        pair.caller.abort(1)
        pair.carry()
        self.assertEqual((pair.caller.live(), pair.called.live()), (0, 0))


class GivenUp(Case):
    def test_a_connection_is_given_up_alone(self):
        pair = Pair.opened(Classes.CLASS_2)
        second = pair.caller.connect(ASKED)
        self.refused(Code.BAD_STATE, pair.caller.disconnect, second)
        self.refused(Code.NO_SUCH_CONNECTION, pair.caller.disconnect, 3)
        pair.carry()
        pair.called.accept(second, ALL_UNITS, 1)
        pair.carry()
        pair.caller.data(1, bytes(200000))
        self.assertTrue(pair.caller.backlog() > 0 and pair.caller.wants_write())
        pair.caller.disconnect(1)
        self.assertEqual((pair.caller.backlog(), pair.caller.phase(1)), (0, Phase.ENDED))
        self.assertEqual(pair.carry(), ([], [Lost(1)]))
        self.assertEqual((pair.caller.live(), pair.called.live(), pair.caller.is_over()), (1, 1, False))
        pair.caller.disconnect(1)
        pair.caller.data(second, b"still here")
        self.assertEqual(pair.carry(), ([], [Data(second, b"still here")]))
        pair.called.disconnect(second)
        self.assertEqual(pair.carry(), ([Lost(second)], []))
        self.assertTrue(pair.caller.is_over() and pair.called.is_over())

    def test_what_waits_of_it_is_dropped(self):
        pair = Pair.opened()
        pair.caller.data(1, b"unseen")
        self.assertTrue(pair.called.feed(pair.caller.outgoing()).waits)
        pair.called.disconnect(1)
        self.assertIsNone(pair.called.next_indication())
        self.assertEqual(pair.called.ended(), Ending(Reason.CLOSED, 0))
        self.assertTrue(pair.called.is_over() and not pair.called.wants_write())


class OfConnections(Case):
    def test_two_connections_are_told_apart_by_whom_they_ask_for(self):
        pair = Pair(Classes.CLASS_2, Classes.CLASS_2)
        first = pair.caller.connect(Opening(calling_tsap=b"here", called_tsap=b"port", calling_selector=b"a", called_selector=b"one"))
        pair.carry()
        second = pair.caller.connect(Opening(calling_tsap=b"here", called_tsap=b"port", called_selector=b"two"))
        self.assertEqual(pair.caller.addresses(second), Addresses(b"here", b"port", b"", b"two"))
        self.assertIsNone(pair.called.addresses(second))
        pair.carry()
        for end in (pair.caller, pair.called):
            self.assertEqual(end.addresses(first), Addresses(b"here", b"port", b"a", b"one"))
            self.assertEqual(end.addresses(second), Addresses(b"here", b"port", b"", b"two"))
            self.assertEqual((end.addresses(0), end.addresses(3), end.addresses(1 << 16)), (None, None, None))

    def test_none_are_known_once_a_connection_is_gone(self):
        pair = Pair.opened(Classes.CLASS_2)
        self.assertEqual(pair.called.addresses(1), Addresses(b"here", b"there", b"caller", b"called"))
        pair.caller.abort(1)
        pair.carry()
        self.assertEqual((pair.caller.addresses(1), pair.called.addresses(1)), (None, None))

    def test_all_octets_of_an_address(self):
        tsap, selector = bytes(range(32)), bytes(range(16))
        pair = Pair.opened(Classes.CLASS_0, Opening(calling_tsap=tsap, called_selector=selector))
        self.assertEqual(pair.called.addresses(1), Addresses(tsap, b"", b"", selector))


class Ends(Case):
    def test_a_closed_end(self):
        pair = Pair.opened()
        pair.caller.data(1, b"lost")
        self.assertFalse(pair.caller.closed)
        with pair.caller as end:
            self.assertIs(end, pair.caller)
        pair.caller.close()
        self.assertTrue(end.closed)
        self.refused(Code.SLOT_EMPTY, end.data, 1, b"x")
        self.refused(Code.SLOT_EMPTY, end.connect)
        self.refused(Code.SLOT_EMPTY, end.feed, b"x")
        self.refused(Code.SLOT_EMPTY, end.taken, 0)
        self.refused(Code.SLOT_EMPTY, end.broken)
        self.refused(Code.SLOT_EMPTY, end.disconnect, 1)
        self.assertEqual((end.is_over(), end.wants_write()), (False, False))
        self.assertEqual((end.outgoing(), end.kept(), end.ended()), (b"", 0, None))
        self.assertEqual((end.unsent(1), end.backlog(), end.live()), (0, 0, 0))
        self.assertEqual((end.phase(1), end.held(1), end.next_serial(1)), (Phase.NONE, Tokens.NONE, 0))
        self.assertEqual((end.next_indication(), end.addresses(1)), (None, None))

    def test_an_end_is_freed_when_nobody_has_it(self):
        end = End.caller()
        freed, slot, gone = end._free, end._slot, weakref.ref(end)
        self.assertTrue(freed.alive and slot.full)
        del end
        gc.collect()
        self.assertIsNone(gone())
        self.assertFalse(freed.alive or slot.full)

    def test_an_end_is_not_copied(self):
        end = End.caller()
        for copied in (copy.copy, copy.deepcopy, pickle.dumps):
            with self.assertRaises(TypeError):
                copied(end)

    def test_threads_wait_for_each_other(self):
        pair = Pair.opened(Classes.CLASS_0)
        size, failures = 200, []

        def send():
            try:
                for _ in range(size):
                    pair.caller.data(1, b"x" * 100)
                    pair.caller.outgoing(10)
            except Exception as error:
                failures.append(error)

        threads = [threading.Thread(target=send) for _ in range(4)]
        for thread in threads:
            thread.start()
        for thread in threads:
            thread.join()
        self.assertEqual(failures, [])
        self.assertEqual(carry(pair.caller, pair.called, 65536), [Data(1, b"x" * 100)] * 4 * size)

    def test_what_is_outgoing_is_told(self):
        pair, told = Pair.opened(), []
        pair.caller.on_outgoing = lambda: told.append(pair.caller.outgoing_length())
        pair.caller.data(1, b"x")
        self.refused(Code.EMPTY, pair.caller.data, 1, b"")
        self.assertEqual(len(told), 1)
        self.assertGreater(told[0], 0)


class Codes(Case):
    def test_terms(self):
        for terms in (Terms(size=6), Terms(size=14), Terms(window=0), Terms(window=16), Terms(size=256 + 13)):
            self.refused(Code.BAD_ARGUMENT, End.caller, terms)
            self.refused(Code.BAD_ARGUMENT, End.called, terms)

    def test_connects(self):
        pair = Pair()
        self.refused(Code.NOT_CALLER, pair.called.connect, ASKED)
        self.refused(Code.BAD_ARGUMENT, pair.caller.connect, Opening(serial=1000000))
        self.refused(Code.BAD_ARGUMENT, pair.caller.connect, Opening(serial=1 << 32))
        self.refused(Code.BAD_ARGUMENT, pair.caller.connect, Opening(called_tsap=b"x" * 33))
        self.refused(Code.NOT_SELECTED, pair.caller.connect, Opening(Units.MINOR_SYNC))
        self.refused(Code.TOO_LONG, pair.caller.connect, Opening(called_selector=b"x" * 17))
        self.refused(Code.TOO_LONG, pair.caller.connect, Opening(user_data=b"x" * 10241))
        self.assertEqual(pair.caller.connect(ASKED), 1)
        self.refused(Code.NEGOTIATING, pair.caller.connect, ASKED)
        self.refused(Code.ONE_CONNECTION, Pair.opened(Classes.CLASS_0).caller.connect, ASKED)
        pair = Pair.opened(Classes.CLASS_2)
        self.assertEqual([pair.caller.connect(ASKED) for _ in range(63)], list(range(2, 65)))
        self.refused(Code.TOO_MANY, pair.caller.connect, ASKED)
        pair.caller.broken()
        self.refused(Code.ENDED, pair.caller.connect, ASKED)

    def test_calls(self):
        pair = Pair.opened()
        caller, called = pair.caller, pair.called
        self.refused(Code.NO_SUCH_CONNECTION, caller.data, 9, b"x")
        self.refused(Code.BAD_ARGUMENT, caller.data, 65537, b"x")
        self.refused(Code.BAD_STATE, caller.accept, 1, ALL_UNITS)
        self.refused(Code.BAD_ARGUMENT, caller.accept, 1, ALL_UNITS, 1000000)
        self.refused(Code.TOKEN_NOT_HELD, called.data, 1, b"x")
        self.refused(Code.TOKEN_ALREADY_HELD, caller.please, 1, Tokens.DATA)
        self.refused(Code.BAD_NUMBER, called.minor_confirm, 1, 5)
        self.refused(Code.EMPTY, caller.data, 1, b"")
        self.refused(Code.EMPTY, caller.give, 1, Tokens.NONE)
        self.refused(Code.TOO_LONG, caller.data, 1, bytes(1048573))
        self.assertEqual(caller.outgoing(), b"")
        caller.data(1, bytes(1048572))
        caller.broken()
        self.refused(Code.ENDED, caller.data, 1, b"x")
        plain = Pair.opened(asked=Opening())
        self.refused(Code.NOT_SELECTED, plain.caller.major, 1)
        last = Pair.opened(asked=Opening(ALL_UNITS, 999999))
        last.caller.minor(1)
        self.refused(Code.SERIALS_USED_UP, last.caller.minor, 1)

    @unittest.skipUnless(sys.platform == "linux", "the limit of a process's memory is that of Linux")
    def test_no_memory(self):
        """In another process, which may take 64 MiB more than it has."""
        done = subprocess.run([sys.executable, "-c", WITHOUT_MEMORY], capture_output=True, text=True, timeout=60)
        self.assertEqual((done.stdout, done.returncode), ("NO_MEMORY, and nothing has changed\n", 0), done.stderr)

    def test_errors_have_texts(self):
        texts = {str(SessionError(code)) for code in Code if code != Code.OK}
        self.assertEqual(len(texts), len(Code) - 1)
        self.assertEqual(str(SessionError(Code.TOKEN_NOT_HELD)), "the other side holds a token that the call needs")
        again = pickle.loads(pickle.dumps(SessionError(Code.EMPTY)))
        self.assertEqual((again.code, str(again)), (Code.EMPTY, str(SessionError(Code.EMPTY))))


if __name__ == "__main__":
    unittest.main()
