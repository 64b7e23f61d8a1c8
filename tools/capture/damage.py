"""Finds what isn't surely what was sent: of a file also the frames that were damaged on their way, by their TCP checksums. That takes
time, so it is done only if a side would be blamed, or if octets were sent again as others."""
import functools
import os
from collections import defaultdict

from . import frames, tshark
from .records import Odd
from .streams import After, Doubt, Stream
from .sums import Sums


def first_unsure(stream):
    """The place of the first piece of a stream that isn't surely what was sent, and why; or None."""
    if stream.has_sums and hasattr(stream, "path"):
        look(stream)
    found = ((place, stream.unsure(*each)) for place, each in enumerate(stream.pieces))
    return next((each for each in found if each[1]), None)


def mended(stream):
    """A stream of a network, in which right copies of damaged frames count if octets were sent again as others."""
    return rejoined(stream) if isinstance(stream, Stream) and isinstance(stream.gap(), (After, Doubt)) else stream


def rejoined(stream):
    """A stream of a file, in which right copies of damaged frames count; the same one if none of its frames was damaged."""
    if not (stream.has_sums and hasattr(stream, "path")):
        return stream
    look(stream)
    if not any(direction.sums.has_damage() for direction in stream.directions.values()):
        return stream
    try:
        return joined(stream, frames.segments(stream.path, lambda: None))
    except Odd:
        return joined(stream, tshark.segments(stream.path))


def joined(stream, segments):
    """The stream of which checksums are known, from the segments of its file."""
    made = Stream(stream.number, stream.ends)
    made.path, made.until, made.is_asked, made.has_sums = stream.path, stream.until, stream.is_asked, stream.has_sums
    for end, direction in made.directions.items():
        direction.sums, direction.is_patient = stream.directions[end].sums, True
    for segment in segments:
        if segment.stream == stream.number:
            made.take(segment)
    made.finish()
    return made


def look(stream):
    """Gives the directions of a stream of a file their checksums."""
    try:
        now = os.stat(stream.path)
    except OSError:
        return
    found = read(stream.path, now.st_mtime_ns, now.st_size)
    for end, direction in stream.directions.items():
        direction.sums = found.get((stream.number, end)) or Sums()


@functools.lru_cache(maxsize=4)
def read(path, *_):
    """The checksums of a file as it is now: for each stream and each end."""
    try:
        return noted(frames.segments(path, lambda: None, True))
    except Odd:
        return noted(tshark.segments(path, has_sums=True)) if tshark.is_there() else {}


def noted(segments):
    """The checksums of segments."""
    found = defaultdict(Sums)
    for segment in segments:
        if segment.is_first:
            found[segment.stream, segment.target].take_most(segment)
        found[segment.stream, segment.source].note(segment.frame, segment.sum, len(segment.octets))
    return found
