"""Reads a capture of a network, pcap or pcapng, through tshark: the TCP segments in it, in their order."""
import os
import shutil
import socket
import subprocess
import sys

from ladders.transcript import BadInput

from . import sums

# What is asked of each segment.
FIELDS = ("frame.number", "frame.time_epoch", "tcp.stream", "ip.src", "ipv6.src", "tcp.srcport", "ip.dst", "ipv6.dst", "tcp.dstport",
          "tcp.seq_raw", "tcp.ack_raw", "tcp.flags", "tcp.len", "frame.cap_len", "tcp.payload", "tcp.options.mptcp.subtype",
          "frame.protocols")
# And if checksums are read: the checksum and the right one, and how long the header is.
CHECKED = ("tcp.checksum", "tcp.checksum_calculated", "tcp.hdr_len", "tcp.options.mss_val")
CHECKING = ("-o", "tcp.check_checksum:TRUE", *(word for field in CHECKED for word in ("-e", field)))
# An ICMP message about a segment quotes it, and is none.
TCP = "tcp and not icmp and not icmpv6"
# Nothing above TCP is dissected, which takes most of tshark's time, and of packets within packets the innermost counts.
WITHOUT_UPPER = ("-d", "tcp.port==1-65535,data", "-o", "tcp.desegment_tcp_streams:FALSE", "-T", "fields", "-E", "separator=/t",
                 "-E", "occurrence=l")
PLAIN = (*WITHOUT_UPPER, *(word for field in FIELDS for word in ("-e", field)))
CUT_SHORT = "cut short in the middle of a packet"
FIN, SYN, RESET, PUSH, ACK, URGENT = 0x01, 0x02, 0x04, 0x08, 0x10, 0x20


class Segment:
    """A TCP segment: when it passed, its stream, both addresses, its first sequence number, its flags and its octets; what it
    acknowledges, if that is known, and how many of its octets the capture doesn't have, though the frame was longer than captured. Of a
    segment of one octet also whether its sender pushed it (PSH), and whether it came soon after another one of its stream; and if
    checksums are read what its checksum says, and of a first segment how many octets of a segment its sender takes."""

    acknowledged, missing, captured, key, sum, most = None, 0, 0, None, None, 0
    is_first = is_last = is_reset = is_answer = is_pushed = is_soon = is_multipath = is_urgent = False

    def __init__(self, values):
        (frame, time, stream, source, source_6, source_port, target, target_6, target_port, sequence, number, flags, length, captured,
         octets, *more) = values
        self.frame, self.time, self.stream = int(frame), float(time), int(stream)
        is_6 = not source or source_6 and more[1].rfind(":ipv6") > more[1].rfind(":ip:")
        self.source, self.target = (source_6 if is_6 else source, int(source_port)), (target_6 if is_6 else target, int(target_port))
        self.sequence = int(sequence)
        self.octets = bytes.fromhex(octets.replace(":", ""))
        self.tell(int(flags, 0), number)
        self.missing = max(int(length or 0) - len(self.octets), 0)
        self.captured = int(captured or 0)
        self.is_multipath = self.is_first and any(more[:1])
        self.is_pushed = len(self.octets) == 1 and bool(int(flags, 0) & PUSH)

        if len(more) > 2:
            self.tell_sum(*more[2:])

    def tell_sum(self, value, right, header, most):
        """Takes the checksum, the right one if it is known, how long the header is, and the most octets of a segment if they are told."""
        self.most = int(most or 0) if self.is_first else 0
        if value and right:
            value, addresses = int(value, 0), b"".join(octets_of(end[0]) for end in (self.source, self.target))
            self.sum = sums.told(value, (value - int(right, 0)) % sums.ONES, addresses, int(header) + len(self.octets))

    def tell(self, flags, number):
        """Takes the flags, and what is acknowledged. What a reset acknowledges need not have been sent."""
        if flags & (FIN | SYN | RESET | URGENT):
            self.is_first, self.is_last, self.is_reset = bool(flags & SYN), bool(flags & FIN), bool(flags & RESET)
            self.is_urgent = bool(flags & URGENT)
            self.is_answer = flags & (SYN | ACK) == SYN | ACK
        self.acknowledged = int(number) if flags & (ACK | RESET) == ACK and number != "" else None


def octets_of(address):
    """An address as octets."""
    return socket.inet_pton(socket.AF_INET6 if ":" in address else socket.AF_INET, address)


def is_there():
    """Whether tshark is installed."""
    return shutil.which("tshark") is not None


def is_file(path):
    """`BadInput` if there is no such file."""
    if not os.path.isfile(path):
        raise BadInput(f"{path}: {'it is no file' if os.path.exists(path) else 'there is no such file'}")


def checked(path):
    """The path of a file that is there, if tshark is; else `BadInput`."""
    is_file(path)
    if not is_there():
        raise BadInput("there is no tshark, which reads such captures (Debian has it in the package tshark)")
    return path


def segments(path, name=None, has_sums=False):
    """The TCP segments of a capture, one by one; of a capture that ends within a packet those before it, which is said if it has a name.
    With `has_sums` their checksums are read."""
    words = ["tshark", "-n", "-r", checked(path), "-Y", TCP, *PLAIN, *(CHECKING if has_sums else ())]
    with subprocess.Popen(words, stdout=subprocess.PIPE, stderr=subprocess.PIPE, text=True, encoding="ascii", errors="replace") as run:
        yield from read(run.stdout)
        said = run.stderr.read()
    if run.returncode != 0 and CUT_SHORT in said:
        if name:
            tell_cut(name)
    elif run.returncode != 0:
        raise BadInput(f"{name or path}: {reason(said, path)}")


def tell_cut(name):
    """Says that a capture ends within a packet."""
    print(f"{os.path.basename(sys.argv[0])}: {name} ends within a packet; it is read up to there", file=sys.stderr)


def read(lines):
    """The segments of lines as tshark prints them."""
    for line in lines:
        made = of_line(line)
        if made is not None:
            yield made


def of_line(line):
    """The segment of a line; None if it has none, or one whose header was damaged."""
    values = line.rstrip("\n").split("\t")
    return Segment(values) if len(values) in (len(FIELDS), len(FIELDS + CHECKED)) and values[9] and values[2] and values[11] else None


def upper(path, stream):
    """What tshark's own column says of each frame of a TCP stream, by the number of the frame: the layers above the session."""
    words = ["tshark", "-n", "-r", checked(path), "-Y", f"tcp.stream == {stream} and tcp.len > 0", "-T", "tabs", "-o",
             'gui.column.format:"No.","%m","Info","%i"']
    done = subprocess.run(words, stdout=subprocess.PIPE, stderr=subprocess.DEVNULL, text=True, errors="replace", check=False)
    rows = (row.strip().partition("\t") for row in done.stdout.splitlines())
    return {int(number): info.strip() for number, _, info in rows if number.strip().isdigit()}


def reason(said, path):
    """What tshark says of a file that it can't read, as one line: the one that names the file, if there is one."""
    lines = [line for line in said.splitlines() if line and not line.startswith("Running as user")]
    lines = [line for line in lines if f'"{path}"' in line] + lines
    return lines[0].removeprefix("tshark: ").replace(f' "{path}"', "") if lines else "tshark can't read it"
