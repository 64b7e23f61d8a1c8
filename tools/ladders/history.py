"""What each end of a connection has, line by line: tokens, points and the data between them, and its end."""
from bisect import bisect_right

from .transcript import other

TOKENS = (("data", 0x01, 0x01), ("minor", 0x04, 0x08), ("major", 0x10, 0x10), ("release", 0x40, 0x80))
ENDINGS = ("Released", "Refused", "Aborted", "ProviderAbort")


class Band:
    """A token that an end holds, from the line `start` to the line `end`; `since` names the packet that brought it, if known."""

    __slots__ = ("side", "connection", "token", "start", "end", "since")

    def __init__(self, side, connection, token, start, since=None):
        self.side, self.connection, self.token, self.start, self.end, self.since = side, connection, token, start, None, since


class History:
    """Bands, points, beginnings and endings of a transcript; `notes` has the note below a line."""

    def __init__(self, lines, wire, asked=None):
        self.lines, self.wire, self.asked = lines, wire, asked or {}
        self.open, self.bands, self.notes, self.marks = {}, [], {}, {}
        self.begun, self.ended, self.available, self.since = {}, {}, {}, {}
        self.unknown = []
        self.later = self.answers_ahead()

    def answers_ahead(self):
        """For each end of a connection its indications and states: their indexes, and the lines."""
        found = {}
        for line in self.lines:
            if line.connection is not None and line.kind in ("shown", "standing"):
                indexes, later = found.setdefault((line.side, line.connection), ([], []))
                indexes.append(line.index)
                later.append(line)
        return found

    def run(self):
        """Follows all lines, and ends the open bands after the last."""
        for line in self.lines:
            if line.connection is not None and not line.error:
                self.follow(line)
        for band in self.open.values():
            band.end = len(self.lines)
        return self

    def follow(self, line):
        """One line of a connection."""
        key = line.side, line.connection
        self.begun.setdefault(key, line.index)
        if line.kind == "call":
            self.call(line, key)
        elif line.kind == "shown":
            self.shown(line, key)
        elif line.kind == "standing":
            self.hold(key, int(line.fields["held"], 16), line.index)

    def call(self, line, key):
        """A call that was accepted."""
        name = line.name
        if name == "accept":
            self.accepted(line, key)
        elif name == "give":
            self.give(line, key)
        elif name == "restartconfirm":
            self.answered(line, key)
        elif name in ("minor", "major"):
            self.point(line, key, self.fields_of(line).get("number"))
        elif name == "data":
            self.since.setdefault(key, []).append(self.fields_of(line).get("data"))
        elif name in ("restart", "abort", "refuse", "releaseaccept"):
            self.hold(key, 0, line.index)
            if name == "restart":
                self.back(line, key, self.fields_of(line).get("number"))
            elif name != "abort":
                self.ended.setdefault(key, line.index)

    def shown(self, line, key):
        """An indication that a user received."""
        name, fields = line.name, line.fields
        if name == "Connected":
            self.available[key[1]] = int(fields["units"], 16)
            self.hold(key, self.of_sides(key, fields["sides"], key[0] == "left"), line.index)
        elif name == "Restarted":
            self.hold(key, self.of_sides(key, fields["sides"], True), line.index)
            self.back(line, key, fields["number"])
        elif name == "Given":
            self.hold(key, self.held(key) | int(fields["tokens"], 16), line.index)
        elif name in ("Minor", "Major"):
            self.point(line, key, fields["number"])
        elif name == "Data":
            self.since.setdefault(key, []).append(fields["data"])
        elif name == "Restart":
            self.hold(key, 0, line.index)
            self.back(line, key, fields["number"])
        elif name in ENDINGS:
            self.hold(key, 0, line.index)
            self.ended.setdefault(key, line.index)

    # Tokens.

    def held(self, key):
        """The tokens that an end holds, as bits."""
        return sum(bit for name, bit, _ in TOKENS if (*key, name) in self.open)

    def hold(self, key, bits, index):
        """From this line on an end holds just these tokens."""
        for name, bit, _ in TOKENS:
            place = (*key, name)
            if bits & bit and place not in self.open:
                self.open[place] = Band(*key, name, index)
                self.bands.append(self.open[place])
            elif not bits & bit and place in self.open:
                self.open.pop(place).end = index

    def of_sides(self, key, sides, is_asker):
        """The tokens that four letters give to a side, of those that are available."""
        units = self.available.get(key[1], 0)
        mine = "a" if is_asker else "r"
        return sum(bit for (_, bit, unit), letter in zip(TOKENS, sides) if letter == mine and units & unit)

    def fields_of(self, line):
        """The known fields of a call: from the script, or from the indication that it caused."""
        fields = dict(self.asked.get(line.index, {}))
        message = self.wire.messages.get(line.index)
        if message is not None:
            fields.update(message.fields)
            if message.shown is not None:
                fields.update(self.lines[message.shown].fields)
        return fields

    def accepted(self, line, key):
        """Follows an accept: the sides of the tokens are those of the AC."""
        fields = self.fields_of(line)
        for seen in self.later.get(("left", key[1]), ((), ()))[1]:
            if seen.name == "Connected":
                fields = seen.fields
        if "units" in fields and "sides" in fields:
            self.available[key[1]] = int(fields["units"], 16)
            self.hold(key, self.of_sides(key, fields["sides"], False), line.index)
        else:
            self.guess(line, key)

    def give(self, line, key):
        """Follows a give: the script or the other user's indication names the tokens."""
        fields = self.fields_of(line)
        if "tokens" in fields:
            self.hold(key, self.held(key) & ~int(fields["tokens"], 16), line.index)
        else:
            self.guess(line, key)

    def answered(self, line, key):
        """Follows the confirmation of a restart."""
        fields = self.fields_of(line)
        if "sides" in fields:
            self.hold(key, self.of_sides(key, fields["sides"], False), line.index)
        else:
            self.guess(line, key)

    def guess(self, line, key):
        """Finds the tokens after a line from the next line of this end, if that is a state; else none are drawn."""
        indexes, later = self.later.get(key, ((), ()))
        place = bisect_right(indexes, line.index)
        if place < len(later) and later[place].kind == "standing":
            self.hold(key, int(later[place].fields["held"], 16), line.index)
        else:
            self.hold(key, 0, line.index)
            self.unknown.append(line.index)

    # Points.

    def point(self, line, key, number):
        """Notes a point, and the data before it since the last point."""
        data = self.since.pop(key, [])
        self.marks[line.index] = number
        text = f"point {'?' if number is None else number}"
        told = ", ".join("?" if each is None else each for each in data)
        self.notes[line.index] = text + (f" after {told}" if data else " after no data")

    def back(self, line, key, number):
        """Notes a restart: the data after its number is void."""
        self.since.pop(key, None)
        if line.kind == "call" or line.name == "Restart":
            self.notes[line.index] = f"back to {'?' if number is None else number}"


def overlaps(bands):
    """The pairs of bands that have one token on both sides at once."""
    found, by_token = [], {}
    for band in bands:
        by_token.setdefault((band.connection, band.token), []).append(band)
    for group in by_token.values():
        group.sort(key=lambda band: (band.start, band.end))
        for first, second in zip(group, group[1:]):
            if second.start < first.end and other(first.side) == second.side:
                found.append((first, second))
    return found
