"""Reads a capture of both sides: a pcap or pcapng by tshark, the files that `osi-capture split` wrote, or a text of hexadecimal digits."""
import os
import re

from capture import asking, damage, listing, middle, outcome, streams, texts, tshark

from . import captures, tapped, verdicts
from .transcript import SIDES, BadInput


def is_capture(text):
    """Whether a text is a capture and no script or transcript: its first line that says something has hexadecimal digits."""
    rows = (row.partition("#")[0].strip() for row in text.split("\n"))
    return re.fullmatch(r"[0-9a-fA-F \t]+", next(filter(None, rows), "")) is not None


def is_network(name):
    """Whether a file is no text, and so perhaps a capture of a network."""
    if not os.path.isfile(name):
        return False
    with open(name, "rb") as file:
        return re.fullmatch(rb"[\t\n\r -~]*", file.read(4096)) is None


class Source:
    """The pieces of a capture; the addresses of its sides, notes on where it begins and ends, and the stream, if it is one of a network,
    and whether it begins in the middle; and what tshark calls the layers above, by frame."""

    is_middle = False

    def __init__(self, pieces, ends=None, notes=(), upper=None, stream=None):
        self.pieces, self.ends, self.notes, self.upper, self.stream = pieces, ends or {}, list(notes), upper, stream

    def up_to(self, place, gap):
        """The part of a capture of a network before a piece, because of a gap."""
        return Source(self.pieces[:place], self.ends, [f"Judged up to {gap}."], self.upper, self.stream)

    def of(self, stream):
        """The source, if the stream was read anew: with its pieces and its notes."""
        return self if stream is self.stream else of_network(asking.viewed(stream), upper=self.upper)

    def listed(self, listings):
        """The listings of both sides. In what begins in the middle, the rest of a TSDU is no fault."""
        if not self.is_middle:
            return listings
        return {side: "".join(f"{row}\n" for row in listing.from_middle(text.splitlines())) for side, text in listings.items()}


def pieces_of(stream):
    """The pieces of a stream or a text, as the ladders have them."""
    return [tapped.Piece(side, piece.octets, piece.frame, piece.time) for side, piece in stream.by_side()]


def by_name(name, port, stream, has_upper=False, has_sums=True):
    """A capture of a network, or the files NAME.left, NAME.right and NAME.follow. None if the name is that of a text."""
    if name in (None, "-"):
        return None
    if is_network(name):
        return of_network(asking.chosen(name, port, stream, has_sums), has_upper)
    found = None if os.path.exists(name) else texts.read(name)
    if found and not found.is_ordered:
        raise BadInput(f"{name}: there is no {name}.follow, and the files don't say when octets passed (name them by --left and --right)")
    return found and Source(pieces_of(found))


def of_network(view, has_upper=False, upper=None):
    """What a picture needs of a stream of a network; `upper` is what tshark calls the layers above, if that is known."""
    stream = getattr(view, "stream", view)
    notes = [f"The stream begins in the middle, at frame {view.frame}."] if isinstance(view, middle.Middle) else []
    notes += ["Only one direction is here."] if stream.is_alone() else []
    gap = stream.gap()
    notes += [f"Shown up to {gap}."] if gap else []
    upper = tshark.upper(stream.path, stream.number) if has_upper else upper
    made = Source(pieces_of(view), {side: asking.named(end) for side, end in stream.by_end().items()}, notes, upper, stream)
    made.is_middle = isinstance(view, middle.Middle)
    return made


def surely(source, judge, has_sums):
    """What can be judged of a capture, and who judges it: no side is blamed for what isn't surely what was sent, nor for what `osi judge`
    doesn't follow."""
    if source.stream is not None:
        source.stream.has_sums = has_sums
    why = asking.why_not(source.stream or texts.Text([(each.frame, each.time, each.side, each.octets) for each in source.pieces]))
    if why:
        return source, lambda text: f"not judged: {why}\n"
    if source.stream is not None and first_break(source, judge):
        source = source.of(damage.rejoined(source.stream))
        unsure = damage.first_unsure(source.stream) if first_break(source, judge) else None
        if unsure and unsure[1].side not in {piece.side for piece in source.pieces[:unsure[0]]}:
            return source, lambda text: f"not judged: {asking.of_nothing(unsure[1])}\n"
        source = source.up_to(*unsure) if unsure else source
    found = outcome.unfollowed(((piece.side, piece) for piece in source.pieces), first_break(source, judge))
    return (source.up_to(*found) if found else source), judge


def first_break(source, judge):
    """The fields of what a judge says of the side that broke the protocol first; none if no side did."""
    verdict = verdicts.printed(judge(tapped.text_of(source.pieces)))
    return verdict.last if verdict.first else {}


def by_caller(pieces):
    """The pieces of a text with the caller at the left: the side that alone begins with a CR, or the other one of that which begins with
    a CC."""
    left, right = (tapped.octets_of(pieces, side) for side in SIDES)
    is_turned = streams.is_connect_request(right) and not streams.is_connect_request(left)
    return turned(pieces) if is_turned or (streams.is_connect_confirm(left) and not right) else pieces


def turned(pieces):
    """The pieces with the sides exchanged."""
    return [tapped.Piece(SIDES[piece.side == "left"], piece.octets, piece.frame, piece.time) for piece in pieces]


def in_time(sides):
    """The pieces of two captures, one of each side, in the order of their times; None if they have no times, or one is a listing."""
    if any(map(captures.is_listing, sides.values())):
        return None
    try:
        found = [tapped.Piece(side, *rest) for side, text in sides.items() for _, *rest in tapped.lines_of(text)]
    except BadInput:
        return None
    return None if any(piece.time is None for piece in found) else sorted(found, key=lambda piece: (piece.time, piece.frame))
