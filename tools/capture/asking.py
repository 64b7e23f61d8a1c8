"""Finds the streams that the words of a program ask for, writes files, and ends the program: what osi-capture and scripts/judge share."""
import argparse
import errno
import os
import shutil
import stat
import sys
import tempfile

from . import damage, frames, kinds, streams, tshark
from .middle import Middle
from .tshark import BadInput

PORT = 102
ALONE = "only one direction is here"
MULTIPATH = "Multipath TCP, so octets may pass in other streams"
# What came from a pipe, as files that go when the program ends.
SPOOLED = []


class Words(argparse.ArgumentParser):
    """A wrong option is one line on standard error."""

    def error(self, message):
        raise BadInput(f"{message} ({self.prog.partition(' ')[0]} --help)")


def status_of(name, run):
    """Runs a program, and returns its status: what `run` returns, or 2 with one line on standard error."""
    try:
        status = run()
        sys.stdout.flush()
        return status
    except BadInput as error:
        print(f"{name}: {line_of(error)}", file=sys.stderr)
        return 2
    except OSError as error:
        # A reader that has enough closes the pipe, and need not be told.
        if not isinstance(error, BrokenPipeError):
            print(f"{name}: {error.filename or 'standard output'}: {error.strerror}", file=sys.stderr)
        os.dup2(os.open(os.devnull, os.O_WRONLY), sys.stdout.fileno())
        return 2
    except KeyboardInterrupt:
        return 130


def line_of(error):
    """What is wrong as a line, in which the copy of what a pipe has is called by the name of the pipe."""
    text = " ".join(str(error).split())
    for copy, name in SPOOLED:
        text = text.replace(copy.name, shown(name))
    return text


def local(name):
    """A file that can be read again: the named one, or a copy of what a pipe or standard input (`-`) has."""
    if name != "-" and not is_pipe(name):
        return name
    copy = tempfile.NamedTemporaryFile(prefix="osi-capture-")
    SPOOLED.append((copy, name))
    try:
        if name == "-":
            shutil.copyfileobj(sys.stdin.buffer, copy)
        else:
            with open(name, "rb") as pipe:
                shutil.copyfileobj(pipe, copy)
    except OSError as error:
        raise BadInput(f"{shown(name)}: {error.strerror}") from None
    copy.flush()
    return copy.name


def is_pipe(name):
    """Whether a name is that of a pipe."""
    try:
        return stat.S_ISFIFO(os.stat(name).st_mode)
    except OSError:
        return False


def shown(name):
    """The name of a file, as it is shown."""
    return "standard input" if name == "-" else name


def found_in(name, port):
    """The streams with TPKT of a capture. `name` may be `-` or a pipe."""
    path = local(name)
    every = joined(path, shown(name), port)
    found = [stream for stream in every.values() if carries_packets(stream)]
    if not found:
        raise BadInput(f"{shown(name)}: no TCP stream carries TPKT (--port N names another port than {port})")
    for stream in found:
        stream.path = path
    return found


def joined(path, name, port):
    """The streams of a capture by number; tshark reads what `frames` doesn't."""
    try:
        return streams.joined(frames.segments(path, lambda: tshark.tell_cut(name)), port)
    except frames.Odd:
        return streams.joined(tshark.segments(path, name), port)


def carries_packets(stream):
    """Whether a stream carries TPKT: a side begins with a CR, or it is at the port, and has packets or its beginning looks so."""
    if stream.is_other or not (stream.pieces or stream.has_waiting_packets()):
        return False
    fronts = [stream.front(end) for end in stream.ends]
    if any(map(streams.is_connect_request, fronts)):
        return True
    return getattr(stream, "is_asked", True) and \
        (not stream.pieces or any(front[:1] == b"\3" for front in fronts) or Middle(stream).frame is not None)


def named(end):
    """An end by its address and its port."""
    return f"{end[0]}:{end[1]}" if "." in end[0] else f"[{end[0]}]:{end[1]}"


def found_by(name, port, numbers, hosts=()):
    """The streams with TPKT of a capture; only those with these numbers and of these hosts, if any are named."""
    found = found_in(name, port)
    named_ones = [stream for stream in found if not numbers or stream.number in numbers]
    wanted = [stream for stream in named_ones if not hosts or any(end[0] in hosts for end in stream.ends)]
    if not named_ones:
        raise BadInput(missing(name, min(numbers)))
    if not wanted:
        raise BadInput(f"{shown(name)}: no stream of {' or '.join(hosts)} carries TPKT")
    return wanted


def missing(name, number):
    """What is said of a stream that was asked for, and isn't among those with TPKT."""
    return f"{shown(name)}: stream {number} carries no TPKT"


def chosen(name, port, number, has_sums=True):
    """The stream with a number, or if that is None the only one of which something can be read; from the middle if it began before. With
    `has_sums` right copies of damaged frames count."""
    found = found_by(name, port, None if number is None else [number])
    whole = [stream for stream in found if number is not None or not is_foreign(stream)]
    if not whole:
        raise BadInput(f"{shown(name)}: stream {found[0].number}: {why_not(found[0])}")
    if len(whole) > 1:
        raise BadInput(f"{shown(name)}: name one of the streams {', '.join(str(it.number) for it in whole)} by --stream")
    whole[0].has_sums = has_sums
    return viewed(damage.mended(whole[0]))


def viewed(stream):
    """A stream, from its first packet if it began before the capture."""
    return stream if not isinstance(stream, streams.Stream) or stream.is_whole() else Middle(stream)


def is_foreign(stream):
    """Whether a stream is of another protocol."""
    return stream.is_whole() and kinds.of(stream) is not None


def why_not(stream):
    """Why a stream can't be judged at all, or None."""
    if not isinstance(stream, streams.Stream):
        return stream.why_not()
    if stream.is_alone():
        return ALONE
    if stream.is_multipath():
        return MULTIPATH
    if not stream.is_whole():
        begun = Middle(stream).frame
        return f"begins in the middle, at frame {begun}" if begun is not None else "begins in the middle"
    why = kinds.why_not(stream)
    if why:
        return why
    return why_silent(stream.gap(), {side for side, _ in stream.by_side()})


def why_silent(gap, heard):
    """Why a stream can't be judged of which octets of these sides are known, up to a gap if there is one; or None."""
    if gap and gap.side not in heard:
        return of_nothing(gap)
    silent = set(streams.SIDES) - heard
    return f"{silent.pop()} sent nothing" if len(silent) == 1 and not gap else None


def of_nothing(gap):
    """Why a stream can't be judged of which nothing is known of one side."""
    if gap.octets:
        return f"the first {gap.many()} of {gap.side} are lost, at frame {gap.frame}"
    if isinstance(gap, streams.Doubt):
        return f"the first octets of {gap.side}, in frame {gap.frame}, were sent again as others in frame {gap.again}"
    return f"nothing of {gap.side} is known up to {gap}"


def write_all(files):
    """Writes files, all of them or none."""
    made = {}
    try:
        for name in files:
            if os.path.isdir(name):
                raise IsADirectoryError(errno.EISDIR, os.strerror(errno.EISDIR))
        for name, content in files.items():
            whole = content.encode() if isinstance(content, str) else content
            room, made[name] = tempfile.mkstemp(prefix=".osi-capture-", dir=os.path.dirname(name) or ".")
            with os.fdopen(room, "wb") as file:
                file.write(whole)
            os.chmod(made[name], 0o644)
        for name, written in made.items():
            os.replace(written, name)
    except OSError as error:
        for written in made.values():
            if os.path.exists(written):
                os.remove(written)
        raise BadInput(f"{name}: {error.strerror}") from None
