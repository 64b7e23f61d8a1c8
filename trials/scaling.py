"""Runs several processes of the server of examples/mms for one port: with SO_REUSEPORT, and with HAProxy in front.

    scripts/trials scaling [READS]

Eight clients at once read READS times each (by default 20,000) from 1, 2 and 4 processes; it prints the reads a second in all.
Then one process of four is killed in the middle. Each of its clients sees one loss and goes on after the last answer that it
has, the other clients see nothing, and all get each of their answers. The same runs behind HAProxy with the configuration of
examples/mms/haproxy.cfg, without and with the PROXY protocol; if HAProxy is not installed, that is left out. It
takes about a minute.
"""
import os
import re
import shutil
import signal
import subprocess
import time

import peers
from counts import Counts
from peers import Programs, version

TOP = os.path.dirname(os.path.dirname(os.path.abspath(__file__)))

CLIENTS = 8
counts = Counts()


def started(programs, room, number, port, *words):
    """Starts a server with its output in a file, and waits until it listens."""
    name = f"{room}/{number}.log"
    with open(name, "w") as log:
        made = programs.start([peers.SERVER, "--host", "127.0.0.1", "--port", str(port), *words], stdout=log)
    while not os.path.getsize(name) and made.poll() is None:
        time.sleep(0.02)
    return made


def associations(room, number):
    """How many clients a server has associated with."""
    with open(f"{room}/{number}.log") as log:
        return log.read().count(" associated\n")


def clients(port, reads, ahead=5, again=50):
    words = [peers.CLIENT, "--host", "127.0.0.1", "--port", str(port), "--reads", str(reads), "--ahead", str(ahead),
             "--again", str(again)]
    return [subprocess.Popen(words, stdout=subprocess.PIPE, stderr=subprocess.PIPE, text=True) for _ in range(CLIENTS)]


def finished(all_of_them):
    """The status, the reads and the losses of each client."""
    found = []
    for each in all_of_them:
        try:
            out, _ = each.communicate(timeout=peers.LONGEST * 2)
        except subprocess.TimeoutExpired:
            each.kill()
            out, _ = each.communicate()
        told = re.search(r"^(\d+) reads, (\d+) losses", out, re.M)
        found.append((each.returncode, *(int(word) for word in told.groups())) if told else (each.returncode, 0, 0))
    return found


def speed(what, servers, port, reads):
    """Reads a second that all clients get together: the best of three runs, since other work may slow one down; and the
    processor time of the servers for one read."""
    best, found, runs = 0, [], 3
    for _ in range(runs):
        began = time.time()
        found += finished(clients(port, reads))
        best = max(best, CLIENTS * reads / (time.time() - began))
    each_read = sum(peers.processor_time(server) for server in servers) / (runs * CLIENTS * reads)
    processes = f"{len(servers)} process{'es' if len(servers) > 1 else ''}"
    counts.check(f"{what}, {processes}: {CLIENTS} clients, {CLIENTS * reads} reads, {best:,.0f} reads a second, "
                 f"{each_read * 1e6:.1f} µs of a server's processor for each", all(each == (0, reads, 0) for each in found), found)


def one_is_killed(what, room, servers, port, reads):
    """Kills one process while all clients read."""
    reads = 5 * reads
    running = clients(port, reads)
    taken, began = [], time.time()
    while sum(taken) < CLIENTS and time.time() - began < peers.LONGEST:
        time.sleep(0.05)
        taken = [associations(room, number) for number in range(len(servers))]
    victim = max(range(len(servers)), key=lambda number: taken[number])
    os.kill(servers[victim].pid, signal.SIGKILL)
    found = finished(running)
    losses = sorted(lost for _, _, lost in found)
    counts.check(f"{what}: one process of {len(servers)} is killed while it has {taken[victim]} of {sum(taken)} clients: "
                 f"{sum(losses)} losses, none twice", sum(losses) == taken[victim] > 0 and losses[-1] == 1, found)
    counts.check(f"{what}: all clients get each of their answers",
                 all(status == 0 and answers == reads for status, answers, _ in found), found)


def by_sharing(room, reads):
    for number in (1, 2, 4):
        with Programs() as programs:
            port = peers.free_port()
            speed("SO_REUSEPORT", [started(programs, room, each, port, "--share") for each in range(number)], port, reads)
    with Programs() as programs:
        port = peers.free_port()
        servers = [started(programs, room, each, port, "--share", "--log") for each in range(4)]
        one_is_killed("SO_REUSEPORT", room, servers, port, reads)


def configuration(room, port, ports, proxy):
    """examples/mms/haproxy.cfg with other ports."""
    with open(f"{TOP}/examples/mms/haproxy.cfg") as file:
        text = file.read().replace("bind :102", f"bind 127.0.0.1:{port}")
    lines = [line for line in text.splitlines() if not re.match(r" +server plant(\d)", line)]
    lines += [f"    server plant{each} 127.0.0.1:{own}{' send-proxy' if proxy else ''}" for each, own in enumerate(ports, 1)]
    with open(f"{room}/haproxy.cfg", "w") as file:
        file.write("\n".join(lines) + "\n")
    return f"{room}/haproxy.cfg"


def behind_haproxy(room, reads, proxy):
    what = f"HAProxy {version('haproxy') or ''}, PROXY protocol {'on' if proxy else 'off'}"
    words = ["--proxy"] if proxy else []
    for number, log in ((1, []), (2, []), (4, []), (4, ["--log"])):
        with Programs() as programs:
            port, ports = peers.free_port(), [peers.free_port() for _ in range(number)]
            servers = [started(programs, room, each, own, *words, *log) for each, own in enumerate(ports)]
            programs.start(["haproxy", "-db", "-f", configuration(room, port, ports, proxy)])
            if not peers.waits_for(port):
                counts.check(f"{what} starts", False)
            elif log:
                one_is_killed(what, room, servers, port, reads)
            else:
                speed(what, servers, port, reads)


def main(words):
    reads = int(words[0]) if words else 20_000
    peers.build()
    with peers.room() as room:
        by_sharing(room, reads)
        if not shutil.which("haproxy"):
            counts.skip("HAProxy", "package haproxy")
        else:
            done = peers.run(["haproxy", "-c", "-f", f"{TOP}/examples/mms/haproxy.cfg"])
            counts.check("HAProxy reads examples/mms/haproxy.cfg", done.returncode == 0, done.stderr)
            for proxy in (False, True):
                behind_haproxy(room, reads, proxy)
    return counts
