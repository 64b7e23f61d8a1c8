"""Judges streams while they pass by the program: an `osi judge --live` reads each of them, and says a break as soon as it is certain."""
import os
import select
import subprocess
from collections import OrderedDict

from .streams import is_packet

# How many streams are judged at once, how many characters wait for a program before the watch waits for it, and of how many packets of a
# side it is known when they passed.
MOST_PROGRAMS, MOST_UNWRITTEN, MOST_PLACES = 64, 1_048_576, 4_096
CHUNK = 65_536
REPORT, NOTHING = "left packets ", "not judged: osi judge ended without a verdict\n"


class Process:
    """`osi judge --live` of one stream. It is written octets, and what it says is read without waiting. An interrupt doesn't reach it."""

    def __init__(self, program):
        self.unwritten, self.unread, self.rows, self.is_over, self.whole = bytearray(), b"", [], False, None
        self.child = subprocess.Popen([program, "judge", "--live"], stdin=subprocess.PIPE, stdout=subprocess.PIPE,
                                      stderr=subprocess.DEVNULL, bufsize=0, start_new_session=True)
        for pipe in (self.child.stdin, self.child.stdout):
            os.set_blocking(pipe.fileno(), False)

    def write(self, is_right, octets):
        """Writes octets of a side. If the program is far behind, this waits for it."""
        if self.is_over:
            return
        self.unwritten += b"\t" * is_right + octets.hex().encode() + b"\n"
        self.pump(0)
        while len(self.unwritten) > MOST_UNWRITTEN and not self.is_over:
            self.pump(None)

    def pump(self, seconds):
        """Writes and reads what can be, and waits for that so many seconds at most."""
        readable, writable, _ = select.select([self.child.stdout], [self.child.stdin] if self.unwritten else [], [], seconds)
        try:
            if writable:
                del self.unwritten[:os.write(self.child.stdin.fileno(), self.unwritten[:CHUNK])]
            octets = os.read(self.child.stdout.fileno(), CHUNK) if readable else None
        except BlockingIOError:
            octets = None
        except OSError:
            octets = b""
        if octets == b"":
            self.is_over = True
            self.unwritten.clear()
        self.unread += octets or b""
        *rows, self.unread = self.unread.split(b"\n")
        self.rows += [row.decode("ascii", "replace") for row in rows]

    def news(self):
        """The lines that it has said since this was asked last. Those of its report come at its end, and aren't among them."""
        if not self.is_over:
            self.pump(0)
        found, self.rows = self.rows, []
        return found

    def text(self):
        """The report on all that was written, which ends the program; what it said before that is news."""
        if self.whole is None:
            while self.unwritten:
                self.pump(None)
            self.child.stdin.close()
            while not self.is_over:
                self.pump_out()
            self.child.wait()
            begin = next((place for place, row in enumerate(self.rows) if row.startswith(REPORT)), max(len(self.rows) - 1, 0))
            self.whole, self.rows = "".join(f"{row}\n" for row in self.rows[begin:]) or NOTHING, self.rows[:begin]
        return self.whole

    def pump_out(self):
        """Reads what comes next."""
        select.select([self.child.stdout], [], [])
        octets = os.read(self.child.stdout.fileno(), CHUNK)
        self.is_over = not octets
        self.unread += octets
        *rows, self.unread = self.unread.split(b"\n")
        self.rows += [row.decode("ascii", "replace") for row in rows]

    def close(self):
        """Ends the program, if it runs."""
        if self.child.poll() is None:
            self.child.kill()
            self.child.wait()
        self.child.stdin.close()
        self.child.stdout.close()


class Programs:
    """The programs that judge streams at present: a bounded number."""

    def __init__(self, program):
        self.program, self.running = program, set()
        self.is_live = self.has_live()

    def has_live(self):
        """Whether the program knows `--live`: it then has a report on no octets, too."""
        try:
            done = subprocess.run([self.program, "judge", "--live"], stdin=subprocess.DEVNULL, capture_output=True, check=False)
        except OSError:
            return False
        return b"not judged: no octets" in done.stdout

    def start(self):
        """A program for one more stream; None if there are as many as there may be."""
        if not self.is_live or len(self.running) >= MOST_PROGRAMS:
            return None
        made = Process(self.program)
        self.running.add(made)
        return made

    def end(self, process):
        """Ends a program."""
        process.close()
        self.running.discard(process)


class Places:
    """When the last packets of a direction passed, by the octet at which each begins: its end, the frame and the time, and how many pieces
    of both directions had passed by then."""

    def __init__(self):
        self.begin, self.head, self.first, self.is_over, self.found = 0, b"", None, False, OrderedDict()

    def take(self, piece, count=0):
        """Takes the next octets, which are the last of so many pieces of both directions."""
        at, end = piece.start, piece.start + len(piece.octets)
        while at < end and not self.is_over:
            if len(self.head) < 4:
                self.first = self.first if self.head else (self.begin + 1, piece.frame, piece.time, count)
                more = piece.octets[at - piece.start:at - piece.start + 4 - len(self.head)]
                self.head, at = self.head + more, at + len(more)
                self.is_over = len(self.head) == 4 and not is_packet(self.head)
            else:
                at = min(end, self.begin + int.from_bytes(self.head[2:4], "big"))
                self.pass_by(at, piece, count)

    def pass_by(self, at, piece, count):
        """Notes the packet, if it ends there."""
        if at < self.begin + int.from_bytes(self.head[2:4], "big"):
            return
        self.found[self.begin] = at, piece.frame, piece.time, count
        self.begin, self.head = at, b""
        if len(self.found) > MOST_PLACES:
            self.found.popitem(last=False)

    def of(self, begin):
        """What is known of a packet, or of the octet at which none begins; None if it isn't known any more."""
        return self.found.get(begin) or (self.first if begin == self.begin else None)
