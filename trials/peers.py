"""Tools of the scripts that run peers: programs that are started and always ended, a relay that keeps the octets of both
directions, a capture of them that tshark reads, and how far a session came by its octets."""
import os
import re
import shutil
import signal
import socket
import struct
import subprocess
import tempfile
import threading
import time

TOP = os.path.dirname(os.path.dirname(os.path.abspath(__file__)))
BUILD = os.path.join(TOP, "build", "mms")
SERVER, CLIENT = os.path.join(BUILD, "server"), os.path.join(BUILD, "client")
FOLDER = os.path.join(TOP, "examples", "mms")
# How long anything may take, in seconds, on a machine with much other work.
LONGEST = 60


def build():
    """The programs of examples/mms, over the library for C."""
    if not os.path.exists(f"{TOP}/build/libosi-session.a"):
        raise SystemExit("there is no build/libosi-session.a: `make lib` builds it")
    subprocess.run(["make", "-s", "-C", FOLDER], check=True)


# ---- programs


class Programs:
    """Programs that run beside this one. All are ended when the block is left, with what they started."""

    def __enter__(self):
        self.all = []
        return self

    def __exit__(self, *_):
        for each in reversed(self.all):
            self.end(each)

    def start(self, words, **more):
        more = {"stdout": subprocess.DEVNULL, "stderr": subprocess.DEVNULL, "stdin": subprocess.DEVNULL, **more}
        made = subprocess.Popen(words, start_new_session=True, **more)
        self.all.append(made)
        return made

    def server(self, *words, port="0"):
        """Starts a server of examples/mms, and gives it and the port that it prints."""
        made = self.start([SERVER, "--port", port, *words], stdout=subprocess.PIPE, text=True)
        return made, int(made.stdout.readline().split()[1])

    def end(self, made):
        """Asks a program to end, and kills it and its group if it doesn't. Its status."""
        if made.poll() is None:
            made.terminate()
            try:
                made.wait(5)
            except subprocess.TimeoutExpired:
                pass
        try:
            os.killpg(made.pid, signal.SIGKILL)
        except (ProcessLookupError, PermissionError):
            pass
        status = made.wait()
        if made.stdout and not made.stdout.closed:
            made.stdout.close()
        return status


def client(port, *words, host="127.0.0.1", longest=LONGEST):
    """Runs the client of examples/mms."""
    return run([CLIENT, "--host", host, "--port", str(port), *words], longest)


def run(words, longest=LONGEST, **more):
    """Status and output of a program; status None if it had to be killed."""
    made = subprocess.Popen(words, stdout=subprocess.PIPE, stderr=subprocess.PIPE, stdin=subprocess.DEVNULL, text=True,
                            errors="replace", start_new_session=True, **more)
    try:
        out, err = made.communicate(timeout=longest)
        return subprocess.CompletedProcess(words, made.returncode, out, err)
    except subprocess.TimeoutExpired:
        os.killpg(made.pid, signal.SIGKILL)
        out, err = made.communicate()
        return subprocess.CompletedProcess(words, None, out, err)


def free_port(family=socket.AF_INET):
    with socket.socket(family) as listener:
        listener.bind(("::1" if family == socket.AF_INET6 else "127.0.0.1", 0))
        return listener.getsockname()[1]


def waits_for(port, longest=20, server=None):
    """Whether a server takes connections at this port within some seconds, and does not end before."""
    began = time.time()
    while time.time() - began < longest and (server is None or server.poll() is None):
        try:
            socket.create_connection(("127.0.0.1", port), 1).close()
            return True
        except OSError:
            time.sleep(0.1)
    return False


def memory(process):
    """The resident memory of a process, in octets."""
    with open(f"/proc/{process.pid}/statm") as file:
        return int(file.read().split()[1]) * os.sysconf("SC_PAGESIZE")


def processor_time(process):
    """The seconds of processor that a process has had."""
    with open(f"/proc/{process.pid}/stat") as file:
        fields = file.read().rpartition(")")[2].split()
    return (int(fields[11]) + int(fields[12])) / os.sysconf("SC_CLK_TCK")


def version(package):
    """The version of a package of Debian, or None if it is not installed."""
    if not shutil.which("dpkg-query"):
        return None
    done = run(["dpkg-query", "-W", "-f", "${db:Status-Status} ${Version}", package])
    status, _, number = done.stdout.partition(" ")
    return number.strip() if done.returncode == 0 and status == "installed" else None


# ---- a relay, and what it keeps


class Relay:
    """Takes connections at its own port, hands all octets on to another port, and keeps them: for each connection the
    pieces, as (seconds, whether the calling side sent it, octets)."""

    def __init__(self, port, host="127.0.0.1"):
        self.to, self.connections, self.open = (host, port), [], True
        self.listener = socket.create_server(("127.0.0.1", 0))
        self.port = self.listener.getsockname()[1]
        threading.Thread(target=self.take, daemon=True).start()

    def __enter__(self):
        return self

    def __exit__(self, *_):
        self.open = False
        self.listener.close()

    def take(self):
        while self.open:
            try:
                left, _ = self.listener.accept()
                right = socket.create_connection(self.to, 5)
            except OSError:
                continue
            pieces = []
            self.connections.append(pieces)
            right.settimeout(None)
            for calls, source, sink in ((True, left, right), (False, right, left)):
                threading.Thread(target=self.carry, args=(pieces, calls, source, sink), daemon=True).start()

    @staticmethod
    def carry(pieces, calls, source, sink):
        try:
            while octets := source.recv(65536):
                pieces.append((time.time(), calls, octets))
                sink.sendall(octets)
        except OSError:
            pass
        for each, how in ((sink, socket.SHUT_WR), (source, socket.SHUT_RD)):
            try:
                each.shutdown(how)
            except OSError:
                pass

    def longest(self):
        """The connection with the most octets."""
        return max(self.connections, key=lambda pieces: sum(len(octets) for _, _, octets in pieces), default=[])


def direction(pieces, calls):
    return b"".join(octets for _, each, octets in pieces if each == calls)


def capture(pieces, name, port=102):
    """Writes a file for tshark: the pieces as segments of TCP between two addresses, of which the called one has this port."""
    left, right = bytes([192, 0, 2, 1]), bytes([192, 0, 2, 2])
    numbers = {True: 1, False: 1}
    with open(name, "wb") as file:
        file.write(struct.pack("<IHHiIII", 0xa1b2c3d4, 2, 4, 0, 0, 262144, 101))

        def packet(seconds, calls, flags, octets):
            ports = (40000, port) if calls else (port, 40000)
            segment = struct.pack(">HHIIBBHHH", *ports, numbers[calls], numbers[not calls], 0x50, flags, 65535, 0, 0) + octets
            addresses = left + right if calls else right + left
            header = struct.pack(">BBHHHBBH", 0x45, 0, 20 + len(segment), 0, 0, 64, 6, 0) + addresses
            file.write(struct.pack("<IIII", int(seconds), int(seconds % 1 * 1e6), len(header + segment), len(header + segment)))
            file.write(header + segment)

        for seconds, calls, octets in pieces:
            for at in range(0, len(octets), 32768):
                packet(seconds, calls, 0x18, octets[at:at + 32768])
                numbers[calls] += len(octets[at:at + 32768])


def tshark(name, *words):
    done = run(["tshark", "-r", name, *words])
    return done.stdout


def what_tshark_says(name):
    """The protocols that it finds, and whether it calls anything malformed."""
    said = tshark(name, "-T", "fields", "-e", "frame.protocols", "-e", "_ws.malformed")
    found = {word for line in said.splitlines() for word in line.split("\t")[0].split(":")}
    names = [word for word in ("tpkt", "cotp", "ses", "pres", "acse", "mms", "s7comm", "rdp") if word in found]
    malformed = "alformed" in tshark(name, "-V")
    return names, malformed


# ---- how far a session came, by its octets


def packets(octets):
    """The TPDUs of a direction, one for each packet (RFC 1006)."""
    while len(octets) >= 4 and octets[0] == 3:
        length = int.from_bytes(octets[2:4], "big")
        if length < 7 or length > len(octets):
            return
        yield octets[4:length]
        octets = octets[length:]


def tsdus(octets):
    """The user data of DT units of class 0, joined up to their ends."""
    tsdu = b""
    for unit in packets(octets):
        if unit[1] == 0xf0 and unit[0] == 2:
            tsdu += unit[3:]
            if unit[2] & 0x80:
                yield tsdu
                tsdu = b""


STAGES = ["nothing", "packets", "transport", "session", "association", "data", "release"]


def how_far(pieces):
    """The last of STAGES that a connection came to."""
    called = direction(pieces, False)
    units, answers = list(packets(called)), list(tsdus(called))
    if not any(unit[1] & 0xf0 == 0xd0 for unit in units):
        return "packets" if units else "nothing"
    if not any(answer[0] == 14 for answer in answers):
        return "transport"
    far = "session"
    accept = next(answer for answer in answers if answer[0] == 14)
    if b"\xa2\x03\x02\x01\x00" in accept and b"\x28\xca\x22" in accept:
        far = "association"
    if far == "association" and any(answer[0] == 1 and len(answer) > 4 for answer in answers):
        far = "data"
    if far == "data" and any(answer[0] == 10 for answer in answers):
        far = "release"
    return far


def refusals(pieces):
    """Why a connection ended early, by the unit that the called side sent: DR, ER, RF or AB."""
    called = direction(pieces, False)
    said = [name for unit in packets(called) for code, name in ((0x80, "DR"), (0x70, "ER")) if unit[1] & 0xf0 == code]
    said += [name for answer in tsdus(called) for code, name in ((12, "RF"), (25, "AB")) if answer[0] == code]
    return said


def room():
    return tempfile.TemporaryDirectory()


def words_of(text):
    """One line of a text, for a report."""
    return re.sub(r"\s+", " ", text.strip())[:200]
