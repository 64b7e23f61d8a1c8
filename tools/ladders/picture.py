"""The contents of a picture before it is drawn: rows of text at their sides, arrows, bands and marks."""
import textwrap

from .history import overlaps

UNITS = {"connect": "CN", "accept": "AC", "refuse": "RF", "data": "DT", "give": "GT", "please": "PT", "minor": "MIP",
         "minorconfirm": "MIA", "major": "MAP", "majorconfirm": "MAA", "restart": "RS", "restartconfirm": "RA",
         "part": "DT", "release": "FN", "releaseaccept": "DN", "releaserefuse": "NF", "abort": "AB", "answer to an abort": "AA"}


class Row:
    """A row of the picture: the whole line, the text that is drawn at its side, a note below it, its mark, its time and its frame as
    text, and the pause before it, if it was long."""

    __slots__ = ("index", "whole", "text", "note", "side", "connection", "mark", "point", "muted", "time", "frame", "pause")

    def __init__(self, index, whole, text, side, connection, mark):
        self.index, self.whole, self.text, self.side = index, whole, text, side
        self.connection, self.mark, self.note, self.point, self.muted = connection, mark, None, None, False
        self.time = self.frame = self.pause = None


class Arrow:
    """Octets that were carried, from one line to another, over the part of the way from `begin` to `reach` (0 to 1).

    `stop` is empty if it arrives, `rest` if more follows, `cut` if it ends inside a packet, `dropped` if it causes no
    indication, and `open` if the transcript doesn't tell where it ends. `wrong` is an arrow that broke the protocol."""

    __slots__ = ("side", "connection", "start", "end", "begin", "reach", "label", "whole", "stop", "minor", "carry", "wrong")

    def __init__(self, side, connection, start, end, begin, reach, label, whole):
        self.side, self.connection, self.start, self.end = side, connection, start, end
        self.begin, self.reach, self.label, self.whole = begin, reach, label, whole
        self.stop, self.minor, self.carry, self.wrong = "", False, end, False


KEY = ("● an accepted call · ○ an indication that a user received · × a refused call · ◆ a point sent · ◇ a point seen · "
       "═ the end of a connection",
       "Bands beside a life line, from left to right: the data (d), minor (m), major (M) and release (r) tokens "
       "that this end holds.",
       "An arrow begins when its octets are written and ends when they are used. Dashed: an acknowledgement.",
       "A bar at the tip of an arrow: it causes no indication. × at the tip: it is cut there, inside a packet.")
TIMES_KEY = ("The first column: the seconds from the first octets to the last of the packet, and its frame. The rows are not to scale.",)
CAPTURE_KEY = ("An arrow is a packet: it begins at the line that names it and ends at the last line of its contents.",)


class Picture:
    """All that is drawn. `spans` has for each end of a connection the lines from and to which it is there; `verdict` has the lines of
    a box, and `is_wrong` tells whether it is a bad one. `ends` has the addresses of the sides, if they are known. A picture of packets
    `is_chosen`: it has only the rows that are shown."""

    key, has_tokens, verdict, is_wrong = KEY, True, (), False
    ends, is_chosen = {}, False

    def __init__(self, title, description):
        self.title, self.description = title, description
        self.rows, self.arrows, self.bands, self.connections, self.notes = [], [], [], [], []
        self.spans, self._columns = {}, None

    def columns_of_times(self):
        """How many columns the times and frames take; 0 if there are none."""
        return max((len(self.when(row)) for row in self.rows if row.time), default=0)

    def columns_of_frames(self):
        """How many columns the frames take; 0 if there are none."""
        return max((max(len(row.frame), len("frame")) for row in self.rows if row.frame), default=0)

    def when(self, row):
        """The time of a row and its frame."""
        width = self.columns
        return f"{row.time} {row.frame or '':>{width}}" if row.time and width else row.time or ""

    @property
    def columns(self):
        """The columns of the frames, counted once."""
        if self._columns is None:
            self._columns = self.columns_of_frames()
        return self._columns

    def head_of_times(self):
        """What stands above the times."""
        return "seconds frame" if self.columns else "seconds"


MARKS = {"connect": "call", "call": "call", "shown": "shown", "carried": "carried", "standing": "standing",
         "broken": "broken", "told": "told", "stop": "stop"}


def of_run(lines, wire, history, title, chosen=None):
    """The picture of a transcript; `chosen` are the connections that are shown, or None for all."""
    present = sorted({line.connection for line in lines if line.connection is not None})
    shown = [each for each in present if chosen is None or each in chosen]
    picture = Picture(title, describe(lines, shown))
    picture.connections = shown
    carried = {piece.carry for piece in wire.pieces if piece.run is None or piece.run.message.connection in shown}
    for line in lines:
        if line.connection is not None and line.connection not in shown:
            continue
        if chosen and line.kind == "carried" and line.index not in carried:
            continue
        picture.rows.append(row_of(line, history))
    for piece in wire.pieces:
        if piece.run is None or piece.run.message.connection in shown:
            picture.arrows.append(arrow_of(piece, lines))
    picture.bands = [band for band in history.bands if band.connection in shown]
    for key, begun in history.begun.items():
        if key[1] in shown:
            picture.spans[key] = begun, history.ended.get(key)
    picture.notes = notes_of(lines, wire, history, [each for each in present if each not in shown])
    return picture


def row_of(line, history):
    """The row of a line."""
    text = line.text.split(" ", 1)[1] if line.side else line.text
    mark = "refused" if line.error else MARKS[line.kind]
    row = Row(line.index, line.text, text, line.side, line.connection, mark)
    row.note = history.notes.get(line.index)
    row.point = history.marks.get(line.index)
    row.muted = line.kind in ("carried", "standing")
    return row


def arrow_of(piece, lines):
    """The arrow of a piece."""
    octets = piece.reach - piece.begin
    if piece.run is None:
        whole = (f"{piece.side} to the other side: {octets} octets, carried at line {piece.carry + 1}; "
                 "the transcript doesn't say which unit they are of")
        return Arrow(piece.side, None, piece.start, piece.end, 0, 1, f"{octets} octets", whole)
    run, message = piece.run, piece.run.message
    total = run.length
    unit = UNITS.get(message.name, message.name)
    label = "{} ({}/{})".format(unit, *message.part) if message.part else unit
    ends = total is not None and piece.reach == total
    begin, reach = (piece.begin / total, piece.reach / total) if total else (0, 0.75)
    of_all = "" if octets == total else f" of {total}" if total else ""
    named = "{}, part {} of {}".format(unit, *message.part) if message.part else unit
    whole = (f"{piece.side}, connection {message.connection}: {named}, {octets}{of_all} octets, "
             f"written at line {run.line + 1}, carried at line {piece.carry + 1}")
    whole += f", seen at line {message.shown + 1}" if ends and message.shown is not None else ""
    arrow = Arrow(piece.side, message.connection, piece.start, piece.end, begin, reach,
                  f"{label} {octets}{of_all}", whole)
    if not ends and piece.reach == run.passed:
        arrow.stop = "cut" if total else "open"
    elif not ends:
        arrow.stop = "rest"
    elif piece.dropped:
        arrow.stop, arrow.whole = "dropped", whole + ", no indication"
    arrow.minor, arrow.carry = unit == "AK", piece.carry
    return arrow


def describe(lines, shown):
    """A description of the picture, for a reader who can't see it."""
    count = {kind: sum(line.kind == kind for line in lines) for kind in ("call", "carried", "shown")}
    refused = sum(line.error is not None for line in lines)
    numbers = ", ".join(map(str, shown[:12])) + (" and more" if len(shown) > 12 else "")
    return (f"A ladder of two ends, time downwards: {len(lines)} lines, with {count['call']} calls, "
            f"{refused} refused requests, {count['carried']} carries and {count['shown']} indications; "
            f"connections shown: {numbers or 'none'}. "
            "Each line is text at its side, in order.")


def notes_of(lines, wire, history, hidden):
    """The notes below a picture."""
    notes = []
    if wire.untold is not None:
        notes.append(f"From line {wire.untold + 1} on the transcript doesn't say which octets are carried, so these arrows are "
                     "drawn at the line of the carry. With the script they would be exact.")
    if any(piece.run and piece.run.length is None for piece in wire.pieces):
        notes.append("An arrow that ends with ? is a packet of unknown length; whether it was used is unknown too.")
    if wire.assumed_window:
        notes.append("The window is unknown: a data unit counts as written when its call is made, so its arrow begins too "
                     "early if it waited for an acknowledgement.")
    notes += never_carried(wire)
    for first, second in overlaps(history.bands)[:3]:
        notes.append(f"The lines contradict each other: both sides hold the {first.token} token of connection "
                     f"{first.connection} at line {second.start + 1}.")
    if history.unknown:
        named = ", ".join(str(index + 1) for index in history.unknown[:9])
        notes.append(f"The transcript doesn't say which tokens are held after line {named}: none is drawn until it does.")
    if hidden:
        notes.append(f"Not shown: {len(hidden)} more connection{'s' * (len(hidden) > 1)} "
                     f"({', '.join(map(str, hidden[:9]))}{' ..' * (len(hidden) > 9)}).")
    return notes


def never_carried(wire):
    """The octets that were written and never carried, if that is known."""
    if wire.untold is not None:
        return []
    notes = []
    for side, queue in wire.queues.items():
        rows = sorted({packet.run.line + 1 for packet in queue if packet.length and packet.passed < packet.length})
        if rows:
            named = ", ".join(map(str, rows[:9])) + (" .." if len(rows) > 9 else "")
            plural = "s" * (len(rows) > 1)
            notes.append(f"Never carried: octets that the {side} end wrote at line{plural} {named}.")
    return notes


def cut(text, width):
    """A text of at most so many columns; a longer one is cut and has an ellipsis."""
    return text if len(text) <= width else text[:max(width - 1, 0)] + "…"


def wrapped(text, width, most):
    """A text in at most so many lines of so many columns; if more is left, the last line has an ellipsis."""
    if len(text) <= width:
        return [text]
    if len(text) > width * (most + 1):
        text = text[:width * (most + 1)]
    rows = textwrap.wrap(text, width, break_long_words=True, break_on_hyphens=False)
    if len(rows) > most:
        rows = rows[:most]
        rows[-1] = cut(rows[-1] + "…" * width, width) if len(rows[-1]) >= width else rows[-1] + "…"
    return rows
