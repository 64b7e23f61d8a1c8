"""Runs the server and the client of examples/mms against peers that are slow or silent, or that send too much.

    scripts/trials slow_peers

The peers write one octet a second, or read one; never read; send nothing but requests for a connection, or open 64 byte
connections and no session; never answer an abort, or never close after a release; send endless data, or octets changed at
random (trials/mms_octets.c, with the sanitizers of the compiler if it has them). The server has to close each within its time
limits, keep its bound of memory, and go on serving others: a client reads all its objects again and again, each time at once.
It takes less than a minute.
"""
import os
import socket
import threading
import time

import peers
from counts import Counts
from peers import Programs, Relay, client, direction

TOP = os.path.dirname(os.path.dirname(os.path.abspath(__file__)))

# The times that the server is given, in seconds (its defaults are 10 and 300), and how much later than that it may act: the
# machine may have much other work.
WAIT, IDLE, LATER = 3, 5, 6
# How many clients the server takes at once, and how many octets each may take of its memory (docs/GUIDE.md).
CLIENTS, MOST_MEMORY = 96, 524_288
counts = Counts()


def script_of(port):
    """What a client sends, packet by packet: CR, CN, a request, and so on, to the release."""
    with Relay(port) as relay:
        client(relay.port, "identify")
        octets = direction(relay.longest(), True)
    packets = []
    while octets:
        length = int.from_bytes(octets[2:4], "big")
        packets.append(octets[:length])
        octets = octets[length:]
    return packets


def connects(port, small=False):
    made = socket.socket()
    if small:
        made.setsockopt(socket.SOL_SOCKET, socket.SO_RCVBUF, 2048)
    made.settimeout(60)
    made.connect(("127.0.0.1", port))
    return made


def opened(port, packets, small=False):
    """An association: CR and CN were sent, and both answers came."""
    made = connects(port, small)
    for packet in packets[:2]:
        made.sendall(packet)
        made.recv(4)
        made.recv(2000)
    return made


def until_closed(made):
    """Waits until the server has closed the connection, and reads until then."""
    try:
        while made.recv(65536):
            pass
    except OSError:
        pass


def drips(made, octets):
    """Writes an octet a second, until the server closes."""
    try:
        for octet in octets:
            made.sendall(bytes([octet]))
            time.sleep(1)
            made.setblocking(False)
            try:
                if made.recv(100) == b"":
                    return
            except BlockingIOError:
                pass
            made.settimeout(60)
    except OSError:
        pass


def floods(made, octets, longest=30, reads=False):
    """Writes as fast as the server takes it, and reads nothing, or an octet a second."""
    made.setblocking(False)
    began = read = time.time()
    while time.time() - began < longest:
        try:
            made.send(octets)
        except BlockingIOError:
            time.sleep(0.05)
        except OSError:
            return
        if reads and time.time() - read > 1:
            read = time.time()
            try:
                made.recv(1)
            except OSError:
                pass


def writes_a_request_slowly(port, packets):
    drips(connects(port), packets[0])


def writes_data_slowly(port, packets):
    drips(opened(port, packets), packets[2])


def never_reads(port, packets):
    floods(opened(port, packets, small=True), packets[2] * 50)


def reads_slowly(port, packets):
    floods(opened(port, packets, small=True), packets[2] * 50, reads=True)


def asks_for_connections_alone(port, packets):
    made = connects(port)
    for _ in range(20):
        try:
            made.sendall(packets[0])
        except OSError:
            break
    until_closed(made)


def asks_for_a_connection_and_no_more(port, packets):
    made = connects(port)
    made.sendall(packets[0])
    until_closed(made)


def says_nothing(port, packets):
    until_closed(connects(port))


def never_answers_an_abort(port, packets):
    until_closed(opened(port, packets))


def never_closes_after_a_release(port, packets):
    made = opened(port, packets)
    for packet in packets[2:]:
        made.sendall(packet)
        made.recv(2000)
    until_closed(made)


def sends_data_without_end(port, packets):
    part = b"\xff" * 60000
    made = opened(port, packets)
    floods(made, b"\x03\x00" + (7 + len(part)).to_bytes(2, "big") + b"\x02\xf0\x00" + part)


def sends_no_packets(port, packets):
    made = connects(port)
    made.sendall(b"GET / HTTP/1.1\r\n\r\n")
    until_closed(made)


# Each peer, and the seconds after which the server has closed its connection: at least, and at most.
PEERS = {
    writes_a_request_slowly: (WAIT, WAIT + 1), writes_data_slowly: (WAIT, WAIT + 1), never_reads: (WAIT, WAIT + 1),
    reads_slowly: (WAIT, WAIT + 1), asks_for_connections_alone: (0, 0), asks_for_a_connection_and_no_more: (WAIT, WAIT + 1),
    says_nothing: (WAIT, WAIT + 1), never_answers_an_abort: (IDLE + WAIT, IDLE + WAIT + 2),
    never_closes_after_a_release: (WAIT, WAIT + 1), sends_data_without_end: (0, WAIT), sends_no_packets: (0, 0),
}


class Walks:
    """A client that walks through all, again and again, while something else happens."""

    def __init__(self, port):
        self.port, self.times, self.bad, self.goes_on = port, [], [], True
        self.thread = threading.Thread(target=self.walk)

    def walk(self):
        while self.goes_on:
            began = time.time()
            done = client(self.port)
            self.times.append(time.time() - began)
            if done.returncode != 0 or "concluded" not in done.stdout:
                self.bad.append(done.stderr)
            time.sleep(0.05)

    def __enter__(self):
        self.thread.start()
        return self

    def __exit__(self, *_):
        self.goes_on = False
        self.thread.join()
        self.times.sort()
        middle, last = self.times[len(self.times) // 2], self.times[-1]
        counts.check(f"meanwhile a client walked through all {len(self.times)} times, most in less than {middle:.2f} s",
                     not self.bad and middle < WAIT / 2 and last < WAIT + LATER, self.bad[:2] or last)


def one_of_each(server, port, packets):
    """All peers at once: when the server has closed each, and how much memory it had meanwhile."""
    took, most = {}, [0]

    def played(peer):
        began = time.time()
        peer(port, packets)
        took[peer] = time.time() - began

    threads = [threading.Thread(target=played, args=(peer,), daemon=True) for peer in PEERS]
    before = peers.memory(server)
    with Walks(port):
        for thread in threads:
            thread.start()
        while any(thread.is_alive() for thread in threads):
            most[0] = max(most[0], peers.memory(server))
            time.sleep(0.05)
    for peer, (least, last) in PEERS.items():
        counts.check(f"a peer that {peer.__name__.replace('_', ' ')} is closed after {took[peer]:.1f} s",
                     least - 0.5 <= took[peer] <= last + LATER, f"it is to be {least} to {last}")
    counts.check(f"the server took {(most[0] - before) // 1024} KiB more for them",
                 most[0] - before < MOST_MEMORY * (len(PEERS) + 1))


def many_silent_ones(server, port, packets):
    """Opens more byte connections than the server takes, none with a session: others are served."""
    before = peers.memory(server)
    with Walks(port):
        for _ in range(2):
            made = [connects(port) for _ in range(64)]
            for each in made:
                each.sendall(packets[0])
            time.sleep(1)
            grown = peers.memory(server) - before
        for each in made:
            until_closed(each)
    counts.check(f"64 byte connections without a session, twice: the server took {grown // 1024} KiB more",
                 grown < MOST_MEMORY * CLIENTS)


def silent_servers():
    """The client, with servers that are silent, slow, or no servers: it ends, and says why in one line."""
    def silent(made):
        made.recv(1000)
        time.sleep(60)

    def slow(made):
        made.recv(1000)
        for octet in b"\x03\x00\x00\x16\x11\xd0\x00\x01\x00\x01":
            made.sendall(bytes([octet]))
            time.sleep(1)
        time.sleep(60)

    def other(made):
        made.sendall(b"SSH-2.0-OpenSSH\r\n")
        time.sleep(60)

    def closes(made):
        made.close()

    cases = (("is silent", silent, WAIT), ("is slow", slow, WAIT), ("speaks something else", other, 0), ("closes", closes, 0))
    for what, acts, most in cases:
        with socket.create_server(("127.0.0.1", 0)) as listener:
            def takes(acts=acts, listener=listener):
                made, _ = listener.accept()
                try:
                    acts(made)
                except OSError:
                    pass
            threading.Thread(target=takes, daemon=True).start()
            began = time.time()
            done = client(listener.getsockname()[1], "--wait", str(WAIT))
            took = time.time() - began
        counts.check(f"the client gives up a server that {what} after {took:.1f} s: {done.stderr.strip()}",
                     done.returncode in (1, 3) and done.stderr.count("\n") == 1 and took < most + LATER, done.returncode)


def changed_octets(room):
    """What both programs read, fed octets that were changed at random."""
    sources = [f"{TOP}/examples/mms/{name}.c" for name in ("plant", "jobs", "mms", "upper", "ber")]
    words = [os.environ.get("CC", "cc"), "-std=c99", "-O1", "-g", "-Wall", "-Wextra", "-Wpedantic", "-Werror", f"-I{TOP}/include",
             f"-I{TOP}/examples/mms", "-o", f"{room}/mms_octets", f"{TOP}/trials/mms_octets.c", *sources]
    watched = peers.run([*words, "-fsanitize=address,undefined", "-fno-sanitize-recover=all"]).returncode == 0
    if not watched:
        counts.skip("the sanitizers of the compiler", "it has none")
        peers.run(words)
    seed = str(int(time.time()))
    done = peers.run([f"{room}/mms_octets", "400000", seed])
    counts.check(f"octets changed at random, seed {seed}: {peers.words_of(done.stderr)}", done.returncode == 0)


def main(_):
    peers.build()
    with Programs() as programs, peers.room() as room:
        changed_octets(room)
        with open(f"{room}/log", "w") as log:
            server = programs.start([peers.SERVER, "--port", "0", "--wait", str(WAIT), "--idle", str(IDLE), "--clients",
                                     str(CLIENTS), "--log"], stdout=log)
        while not os.path.getsize(f"{room}/log"):
            time.sleep(0.05)
        with open(f"{room}/log") as log:
            port = int(log.readline().split()[1])
        packets = script_of(port)
        one_of_each(server, port, packets)
        many_silent_ones(server, port, packets)
        silent_servers()
        time.sleep(0.5)
        counts.check("the server still runs", server.poll() is None)
        counts.check("it ends well when it is asked to", programs.end(server) == 0)
        with open(f"{room}/log") as log:
            text = log.read()
        counts.check("each client that came was closed", text.count(" came from ") == text.count(" closed"), text[-500:])
    return counts
