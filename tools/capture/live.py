"""What a watch reads: an interface by dumpcap, what another program captures, or a file."""
import os
import select
import shutil
import signal
import subprocess
import sys

from . import frames, tshark
from .asking import is_pipe, shown
from .records import CHUNK
from .tshark import BadInput


class Source:
    """Segments as they come, and None each time that nothing came for some seconds. An interrupt ends them."""

    def __init__(self, asked):
        self.asked, self.is_stopped, self.program, self.reader = asked, False, None, None
        self.pause = min(max(asked.every, 0.1), 1.0)

    def segments(self):
        """The segments of what the words name."""
        name = self.asked.file
        if name is None:
            return self.of_interface(self.asked.interface)
        if name == "-":
            return self.of_pipe(sys.stdin.buffer.fileno())
        return self.of_named_pipe(name) if is_pipe(name) else self.of_file(name)

    def of_named_pipe(self, name):
        """The segments of a pipe with a name."""
        with open(name, "rb", buffering=0) as pipe:
            yield from self.of_pipe(pipe.fileno())

    def of_interface(self, interface):
        """The segments at the port on an interface; dumpcap captures into a pipe, so that no file grows."""
        if not shutil.which("dumpcap"):
            raise BadInput("there is no dumpcap, which captures (Debian has it in the package wireshark-common)")
        words = ["dumpcap", "-q", "-i", interface, "-f", f"tcp port {self.asked.port} or (vlan and tcp port {self.asked.port})", "-w", "-"]
        self.program = subprocess.Popen(words, stdout=subprocess.PIPE, bufsize=0)
        return self.of_pipe(self.program.stdout.fileno())

    def of_pipe(self, pipe):
        """The segments at the port of a capture that comes through a pipe."""
        self.reader, name = frames.Reader(True, self.asked.port, not self.asked.ignore_checksums), shown(self.asked.file or "the interface")
        for octets in self.chunks(pipe):
            try:
                yield from self.reader.feed(octets) if octets else [None]
            except frames.Odd as odd:
                raise BadInput(f"{name}: this isn't read from a pipe: {odd}") from None
        if self.program is None and not self.reader.records.is_known():
            raise BadInput(f"{name}: there is no pcap and no pcapng in it")

    def chunks(self, pipe):
        """The octets of a pipe as they come; None each time that none came for a while."""
        while True:
            if not select.select([pipe], [], [], self.pause)[0]:
                if self.is_stopped and self.program is None:
                    return
                yield None
                continue
            octets = os.read(pipe, CHUNK)
            if not octets or self.is_stopped and self.program is None:
                return
            yield octets

    def of_file(self, name):
        """The segments of a file. It is read through first, to know whether tshark has to read it."""
        tshark.is_file(name)
        try:
            for _ in frames.segments(name, lambda: None):
                pass
            found = frames.segments(name, lambda: tshark.tell_cut(name), not self.asked.ignore_checksums)
        except frames.Odd:
            found = tshark.segments(name, name, not self.asked.ignore_checksums)
        for segment in found:
            if self.is_stopped:
                return
            yield segment

    def stop(self, *_):
        """Ends what captures; what had passed is still given."""
        self.is_stopped = True
        if self.program is not None:
            self.program.send_signal(signal.SIGINT)

    def forget(self, key, stream):
        """Forgets a stream that is over."""
        if self.reader is not None:
            self.reader.forget(key, stream)

    def close(self):
        """Waits for the program that captures, and says which frames were not read."""
        if self.program is not None:
            self.program.stdout.close()
            self.program.wait()
        if self.reader is not None and self.reader.odd:
            print(f"osi-capture: not every frame was read: {self.reader.odd}", file=sys.stderr)
