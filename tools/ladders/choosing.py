"""Which packets of a capture a picture shows: from one place to another, equal ones in a row once, and no more than can be read."""
import re

from .transcript import SIDES, BadInput

# How many rows a picture has at most, from how many equal packets on they are one row, and which pause is marked, in seconds.
MOST_ROWS, EQUAL, PAUSE = 5_000, 3, 5.0
PLACE = re.compile(r"(?:(frame|left|right|seconds)=)?(\d+(?:\.\d+)?)")


class Place:
    """A place in a run or a capture: the number of a line or packet, or a frame, an octet of a side, or seconds since the first octets."""

    def __init__(self, text):
        found = PLACE.fullmatch(text)
        if not found or ("." in found[2] and found[1] != "seconds"):
            raise BadInput(f"{text} is no line, frame=N, left=OCTET, right=OCTET or seconds=TIME")
        self.kind, self.number = found[1], float(found[2]) if found[1] == "seconds" else int(found[2])

    def is_reached(self, steps, at, begin):
        """Whether a packet is at the place or after it."""
        step = steps[at]
        if self.kind is None:
            return at + 1 >= self.number
        if self.kind == "frame":
            return step.piece.frame is not None and step.piece.frame >= self.number
        if self.kind == "seconds":
            return step.piece.time is not None and step.piece.time - begin >= self.number
        return step.side == self.kind and step.passed[1] > self.number

    def is_passed(self, steps, at, begin):
        """Whether a packet is after the place, which is no octet."""
        step = steps[at]
        if self.kind is None:
            return at + 1 > self.number
        if self.kind == "frame":
            return step.piece.frame is not None and step.piece.frame > self.number
        if self.kind == "seconds":
            return step.piece.time is not None and step.piece.time - begin > self.number
        return False


def window(steps, first, last):
    """The first packet that is shown, and the one after the last."""
    begin = next((step.piece.time for step in steps if step.piece.time is not None), 0)
    start = next((at for at in range(len(steps)) if first.is_reached(steps, at, begin)), None)
    if start is None:
        raise BadInput("there is no packet at or after --from" if first.kind else f"there is no packet {first.number}")
    if last.kind in SIDES:
        return start, next((at + 1 for at in range(start, len(steps)) if last.is_reached(steps, at, begin)), len(steps))
    return start, next((at for at in range(start, len(steps)) if last.is_passed(steps, at, begin)), len(steps))


def shown(steps, first, last, key, middle=None):
    """The packets from one place to another, equal ones in a row as one, and at most so many around `middle`; and a note on what is
    left out. `key` tells which packets are equal: those of which it gives the same, if it isn't None."""
    start, end = window(steps, Place(first), Place(last))
    found = folded(steps[start:end], key)
    places = [at for at, step in enumerate(found) if step is middle or middle in step.others]
    begin = max(0, min((places[0] if places else 0) - MOST_ROWS * 9 // 10, len(found) - MOST_ROWS))
    kept = found[begin:begin + MOST_ROWS]
    return kept, left_out(sum(map(size, found[:begin])), sum(map(size, found[begin + MOST_ROWS:])), kept)


def size(step):
    """How many packets a row has."""
    return 1 + len(step.others)


def left_out(before, after, kept):
    """The note on packets that a picture leaves out because there are too many."""
    parts = [f"{count:,} packets {where} octet {step.start} of {step.side}" for count, where, step in
             ((before, "before", kept[0]), (after, "after", kept[-1])) if count]
    return [f"Not shown: {' and '.join(parts)}. --from and --to show them."] if parts else []


def folded(steps, key):
    """The packets, and of equal ones in a row only the first, which knows the others; so too of pairs that come again."""
    keys, found, at = [key(step) for step in steps], [], 0
    while at < len(steps):
        length, times = repeated(keys, at)
        for place in range(at, at + length):
            steps[place].others = steps[place + length:at + length * times:length]
            found.append(steps[place])
        at += length * times
    return found


def repeated(keys, at):
    """How many keys from a place on come again and again, and how often: 1 and 1 if they don't."""
    for length in (1, 2):
        pattern = keys[at:at + length]
        if None in pattern or len(pattern) < length:
            continue
        times = 1
        while keys[at + times * length:at + (times + 1) * length] == pattern:
            times += 1
        if times >= EQUAL:
            return length, times
    return 1, 1


def pause(before, step):
    """The seconds between two packets as text, if they are many; or None."""
    last = before and (before.others or [before])[-1]
    if not last or last.piece.time is None or step.piece.time is None or step.piece.time - last.piece.time < PAUSE:
        return None
    return f"{step.piece.time - last.piece.time:,.1f} seconds"
