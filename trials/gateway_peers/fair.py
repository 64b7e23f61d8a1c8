"""How a server treats its peers if some of them are bad neighbours: each run yields what it tests, whether that holds, and why
not. A server is a program (the words that start it), whether its sessions are duplex, and the words for a time limit of some
seconds."""
import contextlib
import os
import resource
import selectors
import signal
import socket
import subprocess
import tempfile
import time
from concurrent.futures import ThreadPoolExecutor

from gateway_peers import peers
from gateway_peers.neighbours import Neighbours, Talker, best_of_echoes

# The longest that an echo may take beside peers that send without a pause, in seconds, on an idle processor.
MOST_ECHO = 0.1
# More peers than a server of examples/ has places, and the longest that another one may take beside them, in seconds: an idle
# machine takes some 20 ms.
CROWD, MOST_OPENING = 300, 5
# The time limit that servers are given, how much later they may act, and how often a slow peer sends an octet, in seconds.
WAIT, LATER, DRIP = 2, 20, 0.5
LONGEST = 60
# The time limit of the servers of examples/duplex, which is fixed.
WAIT_OF_DUPLEX = 10


class Server:
    """A server that is run, and ended with the block, or after so many peers have come and gone."""

    def __init__(self, words, duplex=False, log=os.devnull, count=10_000):
        self.words, self.duplex, self.log, self.count = words, duplex, log, count

    def __enter__(self):
        self.said = open(self.log, "w")
        self.port = free_port() if self.duplex else 0
        more = [str(self.port)] if self.duplex else ["--port", "0", "--log", self.log, "--peers", str(self.count)]
        self.process = subprocess.Popen([*self.words, *more], stdout=subprocess.PIPE, stderr=self.said, text=True)
        if self.duplex:
            self.await_port()
        else:
            self.port = int(self.process.stdout.readline().split()[1])
        return self

    def await_port(self):
        for _ in range(600):
            with contextlib.suppress(OSError):
                socket.create_connection((peers.LOOPBACK, self.port)).close()
                return
            time.sleep(0.1)

    def __exit__(self, *_):
        self.process.kill()
        self.process.wait()
        self.process.stdout.close()
        self.said.close()

    def lines(self):
        """What it logged, after all its peers have gone."""
        if not self.duplex:
            self.process.wait(LONGEST)
        with open(self.log) as file:
            return file.read().splitlines()


def free_port():
    with socket.socket() as listener:
        listener.bind((peers.LOOPBACK, 0))
        return listener.getsockname()[1]


def beside(servers):
    """Peers that send data of one octet without a pause, and one that asks in 64 sessions and gives no credit: how long an echo
    of another peer takes."""
    cases = [(f"{count} peer{'s' if count > 1 else ''} of class {kind} that send{'s' if count == 1 else ''} without a pause", kind, count)
             for kind in (0, 2) for count in (1, 8)]
    for language, (program, duplex) in servers.items():
        for what, *words in [*cases, ("64 sessions without credit",)]:
            if duplex and not words:
                continue
            with Server(program, duplex) as server, Neighbours(server.port, *words, *[duplex] * bool(words)) as them:
                best = best_of_echoes(server.port, duplex, MOST_ECHO)
            yield (f"the server in {language}: beside {what}, an echo takes {1000 * best:.1f} ms", them.are_open and best <= MOST_ECHO,
                   f"the bound is {1000 * MOST_ECHO:.0f} ms")


# The octets of a packet that is never ended.
HALF_A_PACKET = peers.data_in_class_0(b"\1\0\1\0" + bytes(1000))[:500]


def drip(talkers, longest):
    """Sends an octet from each peer now and then, until the server has closed it: when that was, for each."""
    began, closed = time.monotonic(), []
    with selectors.DefaultSelector() as left:
        for talker in talkers:
            left.register(talker.connection, selectors.EVENT_READ)
        for octet in HALF_A_PACKET[1:]:
            for key in list(left.get_map().values()):
                with contextlib.suppress(OSError):
                    key.fileobj.send(bytes([octet]))
            until = time.monotonic() + DRIP
            while time.monotonic() < until and left.get_map():
                for key, _ in left.select(max(0, until - time.monotonic())):
                    if has_closed(key.fileobj):
                        left.unregister(key.fileobj)
                        closed.append(time.monotonic() - began)
            if not left.get_map() or time.monotonic() - began > longest:
                return closed
    return closed


def has_closed(connection):
    try:
        return not connection.recv(65536)
    except OSError:
        return True


def is_served(port, duplex):
    """How long it takes to connect, to open a session and to get an echo."""
    began = time.monotonic()
    try:
        with Talker(port, 0, duplex, LONGEST) as talker:
            talker.echo(0)
    except OSError:
        return float("inf")
    return time.monotonic() - began


def dripping(language, program, duplex, wait, room):
    """64 peers with a session that send half a packet, an octet at a time, the first once it is open. They are given up; meanwhile
    another is served."""
    with Server(program, duplex, f"{room}/{language}", 65) as server:
        talkers = []
        for _ in range(64):
            talkers.append(Talker(server.port, 0, duplex))
            talkers[-1].connection.sendall(HALF_A_PACKET[:1])
        with ThreadPoolExecutor() as runs:
            other = runs.submit(is_served, server.port, duplex)
            closed = drip(talkers, wait + LATER)
            took = other.result()
        for talker in talkers:
            talker.close()
        said = sum("not ended" in line or "too slow" in line for line in server.lines())
    what = f"the server in {language} gives up 64 peers that send half a packet, an octet at a time"
    first, last = (closed[0], closed[-1]) if closed else (0, 0)
    return (f"{what}, after {first:.1f} to {last:.1f} s", len(closed) == 64 and last <= wait + LATER and said == 64,
            f"{len(closed)} are closed, {said} logged"), (
            f"the server in {language} serves another meanwhile, in {1000 * took:.0f} ms", took < MOST_OPENING, "")


def crowded(language, program, duplex, wait, room):
    """More peers than the server has places, first without a session, and then with one: another is served at once. Some give way,
    unless it took so long to open all that the first were given up."""
    for what in ("without a session", "that send half a packet in a session"):
        with Server(program, duplex, f"{room}/{language}.crowd", CROWD + 1) as server:
            crowd, began = [], time.monotonic()
            for _ in range(CROWD):
                if what.startswith("without"):
                    crowd.append(socket.create_connection((peers.LOOPBACK, server.port), LONGEST))
                    continue
                talker = Talker(server.port, 0, duplex)
                with contextlib.suppress(OSError):
                    talker.connection.send(HALF_A_PACKET)
                crowd.append(talker)
            opened = time.monotonic() - began
            took = is_served(server.port, duplex)
            for each in crowd:
                each.close()
            said = sum("gives way" in line for line in server.lines())
        yield (f"the server in {language}: beside {CROWD} peers {what}, another is served in {1000 * took:.0f} ms",
               took < MOST_OPENING and (said > 0 or opened > wait), f"{said} gave way; all were open after {opened:.1f} s")


def slow(servers):
    """Slow and silent peers, at several servers at once."""
    most = resource.getrlimit(resource.RLIMIT_NOFILE)[1]
    resource.setrlimit(resource.RLIMIT_NOFILE, (min(4096, most), most))
    with tempfile.TemporaryDirectory() as room, ThreadPoolExecutor(4) as runs:
        started = []
        for language, (program, duplex) in servers.items():
            wait = WAIT_OF_DUPLEX if duplex else WAIT
            words = program if duplex else [*program, "--wait", str(WAIT)]
            started.append(runs.submit(lambda *all: list(dripping(*all)), language, words, duplex, wait, room))
        for language, (program, duplex) in servers.items():
            wait = WAIT_OF_DUPLEX if duplex else LONGEST
            words = program if duplex else [*program, "--wait", str(LONGEST)]
            started.append(runs.submit(lambda *all: list(crowded(*all)), language, words, duplex, wait, room))
        for run in started:
            yield from run.result()


def interrupted(servers):
    """SIGINT ends a server in Python without a traceback, whatever its peers do."""
    with tempfile.TemporaryDirectory() as room:
        for language, (program, duplex) in servers.items():
            errors = f"{room}/errors"
            with Server(["sh", "-c", 'exec "$@" 2>"$0"', errors, *program], duplex) as server, Talker(server.port, 0, duplex), \
                    Neighbours(server.port, 0, 1, duplex):
                server.process.send_signal(signal.SIGINT)
                try:
                    status = server.process.wait(LONGEST)
                except subprocess.TimeoutExpired:
                    status = None
            with open(errors) as file:
                said = file.read()
            yield (f"the server in {language} ends at SIGINT without a traceback", status == 130 and "Traceback" not in said,
                   f"{status} {said}")


def ended(servers):
    """A server in Python that ends by itself has closed its log, and says nothing else."""
    with tempfile.TemporaryDirectory() as room:
        for language, (program, duplex) in servers.items():
            if duplex:
                continue
            words = [program[0], "-W", "always::ResourceWarning", *program[1:]]
            errors, log = f"{room}/errors", f"{room}/log"
            with Server(["sh", "-c", 'exec "$@" 2>"$0"', errors, *words], False, log, 1) as server:
                is_served(server.port, duplex)
                said = server.lines()
                status = server.process.returncode
            with open(errors) as file:
                warned = file.read()
            yield (f"the server in {language} ends with its last peer, and closes its log", status == 0 and not warned and said,
                   f"{status} {warned}")
