"""A stream that began before the capture: each direction from the first octet from which packets follow one another."""
from .streams import CODES, SIDES, Piece, is_packet


class Middle:
    """The packets of a stream whose beginning isn't in the capture. `by_side` gives them as a stream does; `frame` is the first one."""

    def __init__(self, stream):
        self.number, self.ends, self.stream = stream.number, stream.ends, stream
        sides = {side: [] for side in SIDES}
        for side, piece in stream.by_side():
            sides[side].append(piece)
        self.begins = {side: begin_of(pieces) for side, pieces in sides.items()}
        first = [piece.frame for side, piece in self.by_side()]
        self.frame = first[0] if first else None

    def by_side(self):
        """The pieces from the first packet on, each with its side."""
        for side, piece in self.stream.by_side():
            begin = self.begins[side]
            if begin is None or piece.start + len(piece.octets) <= begin:
                continue
            skipped = max(begin - piece.start, 0)
            yield side, Piece(piece.frame, piece.time, max(piece.start - begin, 0), piece.octets[skipped:])


def begin_of(pieces):
    """The first octet of a direction from which packets follow one another, at the beginning of a piece; or None."""
    octets = b"".join(piece.octets for piece in pieces)
    return next((piece.start for piece in pieces if is_followed(octets, piece.start)), None)


def is_followed(octets, start):
    """Whether a packet of a transport unit begins at an octet, and another one after it, if anything does."""
    if not (is_packet(octets[start:start + 4]) and has_code(octets[start + 4:start + 6])):
        return False
    after = octets[start + int.from_bytes(octets[start + 2:start + 4], "big"):][:6]
    return is_packet(after) and has_code(after[4:]) if len(after) > 3 else b"\3\0".startswith(after[:2])


def has_code(octets):
    """Whether octets may be the length indicator and the code of a transport unit."""
    return len(octets) < 2 or (octets[0] not in (0, 255) and octets[1] & 0xF0 in CODES)
