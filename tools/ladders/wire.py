"""Finds out from a transcript which octets each carry carried: at which line they were written, and which line used them.

Each direction is a queue of packets. Their lengths come from the script, or from the indications that the other user
received. A length that neither of them gives stays open until a carry gives it. If no carry does, nothing more is drawn.
"""
from collections import deque

from . import lengths
from .octets import Link, Message, Packet, Piece, Run
from .transcript import SHOWN_BY, other

SELECTED = {("0", "0"): "0", ("0", "20"): "0", ("20", "0"): "0",
            ("2", "2"): "2", ("2", "20"): "2", ("20", "2"): "2", ("20", "20"): "2"}
ASKED = {"0": 14, "2": 17}


class Untold(Exception):
    """The transcript doesn't say which unit these octets are of."""


class Wire:
    """Follows both directions of the byte connection through a transcript."""

    def __init__(self, lines, asked=None, ends=None):
        self.lines, self.asked, self.ends = lines, asked or {}, ends
        self.queues = {"left": deque(), "right": deque()}
        self.links, self.next, self.pieces, self.messages, self.asked_at = {}, {}, [], {}, {}
        self.restarting, self.aborting, self.over, self.ended = set(), set(), set(), set()
        self.unread, self.untold, self.assumed_window, self.reached = {}, None, False, {}
        self.first_request, self.link_class = None, None
        self.limit = self.window = None
        self.agreed_sizes = {}
        self.opening = self.look_ahead()
        if ends:
            self.first_request = ASKED.get(ends["caller"], 20)
            self.selected = SELECTED.get((ends["caller"], ends["called"]))
        else:
            self.infer_class()

    def look_ahead(self):
        """Finds the fields of CN and AC of each connection, from the indications, and the connections that were denied."""
        found = {}
        self.denied = set()
        for line in self.lines:
            if line.kind == "shown" and line.name in ("Connect", "Connected"):
                found[line.name, line.connection] = line.fields
            elif line.name == "Refused" and "reason" in line.fields:
                self.denied.add(line.connection)
        return found

    def infer_class(self):
        """Finds the transport class, from the number of octets that are carried before the first session unit."""
        sums, stage = [0, 0], 0
        for line in self.lines:
            if line.kind == "carried" and line.octets:
                stage = max(stage, 1 if line.side == "right" else 2 if stage else 0)
                if stage == 2:
                    break
                sums[stage] += line.octets
        heard = stage == 2 or any(line.kind == "standing" and line.side == "left" and
                                  line.fields["phase"] != "WaitTransport" for line in self.lines)
        self.first_request = sums[0] if stage and sums[0] in (14, 17, 20) else None
        certain = sums[1] if heard or sums[1] == 17 else 0
        self.selected = {14: "0", 17: "2"}.get(certain) or {14: "0", 17: "2"}.get(self.first_request)

    def run(self):
        """Follows all lines."""
        follow = {"connect": self.asks, "call": self.calls, "carried": self.carries, "told": self.is_told}
        for line in self.lines:
            if self.untold is not None:
                if line.kind == "carried" and line.octets:
                    self.pieces.append(Piece(line.side, None, 0, line.octets, line.index, line.index))
            elif line.kind in follow and not line.error:
                follow[line.kind](line)
        return self

    # What is written.

    def put(self, side, connection, unit, length, line):
        """Writes a unit in its own packet."""
        run = Run(Message(side, connection, unit, line), line)
        run.length = length
        self.queues[side].append(Packet(run, unit, length))
        return run.message

    def send(self, side, connection, name, line, fields):
        """Hands the TSDUs of a call to the link."""
        tsdus = lengths.tsdu_lengths(name, fields, self.most(side, connection))
        count = len(tsdus)
        messages = [Message(side, connection, name if place == count else "part", line, fields,
                            (place, count) if count > 1 else None) for place in range(1, count + 1)]
        link = self.links.get((side, connection))
        if link is None or link.closing or side in self.ended:
            return messages[-1]
        for message, tsdu in zip(messages, tsdus):
            sizes = lengths.parts(tsdu, self.link_class, self.limit) or [None]
            link.waiting += [(message, size, place == len(sizes)) for place, size in enumerate(sizes, 1)]
        self.flush(side, connection, line)
        return messages[-1]

    def most(self, side, connection):
        """The largest TSDU that a side may send after the CN is answered, in octets; 0 if there is no limit."""
        return self.agreed_sizes.get(connection, {}).get("asker" if side == "left" else "answerer", 0)

    def flush(self, side, connection, line):
        """Writes the data units for which the link has credit."""
        link = self.links[side, connection]
        runs = {}
        while link.waiting and (link.credit is None or link.credit > 0):
            message, size, last = link.waiting.popleft()
            run = runs.setdefault(message, Run(message, line))
            run.length = None if size is None or run.length is None else run.length + size
            self.queues[side].append(Packet(run, "DT", size, last))
            if link.credit is not None:
                link.credit -= 1
            elif self.link_class == "2":
                self.assumed_window = True

    def asks(self, line):
        """Writes the CR of a connect."""
        self.asked_at[line.connection] = line.index
        held = self.link_class is not None or line.reference > 1
        length = self.first_request
        if held and length in (20, None):
            length = 17 if self.link_class == "2" else None
        self.messages[line.index] = self.put("left", line.connection, "CR", length, line.index)

    def calls(self, line):
        """Writes the session unit of a call that was accepted."""
        key = line.side, line.connection
        fields = dict(self.asked.get(line.index, {}))
        if line.name == "accept":
            fields.update(self.opening.get(("Connected", line.connection), {}))
            # An AC names a size only if the CN names one.
            asked = self.opening.get(("Connect", line.connection), {})
            agreed = {size: lengths.smaller(asked.get(size), fields.get(size)) for size in lengths.SIZES}
            fields.update(agreed)
        self.number(line.name, key, fields)
        self.messages[line.index] = self.send(line.side, line.connection, line.name, line.index, fields)
        if line.name == "accept":
            self.agreed_sizes[line.connection] = agreed
        if line.name == "restart":
            self.restarting.add(key)
        elif line.name == "abort":
            self.aborting.add(key)
        elif line.name in ("refuse", "releaseaccept"):
            self.over.add(key)

    def number(self, name, key, fields):
        """Numbers a point or its confirmation, if the number is known."""
        if name == "accept":
            shown = self.opening.get(("Connect", key[1]), {})
            serial = fields.get("serial", shown.get("serial"))
            points = int(fields.get("units", "0"), 16) & lengths.POINTS
            self.next[key] = int(serial) if serial and serial != "-" and points else 0
        known = self.next.get(key)
        if name in ("minor", "major") and known is not None:
            fields["number"] = known
            self.next[key] = known + 1
        elif name in ("majorconfirm", "restartconfirm") and known is not None:
            fields["number"] = known - (name == "majorconfirm")
        elif name == "restart":
            self.next[key] = int(fields["number"]) if "number" in fields else None

    def is_told(self, line):
        """An end that is told of the break has ended."""
        self.ended.add(line.side)

    # What is carried.

    def carries(self, line):
        """Carries the first octets of a queue; packets that become whole arrive."""
        self.unread = self.shown_by(line.index)
        kept = len(self.pieces)
        try:
            self.consume(line)
            left = [index for queue in self.unread.values() for index in queue
                    if self.lines[index].name != "ProviderAbort"]
            if left:
                raise Untold
        except Untold:
            self.untold = line.index
            del self.pieces[kept:]
            self.pieces.append(Piece(line.side, None, 0, line.octets, line.index, line.index))

    def shown_by(self, index):
        """The lines of the indications that the carry at a line caused, by connection."""
        found, place = {}, index + 1
        while place < len(self.lines) and self.lines[place].kind == "shown":
            found.setdefault(self.lines[place].connection, deque()).append(place)
            place += 1
        return found

    def consume(self, line):
        """Takes the octets of a carry from the queue."""
        queue, left = self.queues[line.side], line.octets
        while left:
            if not queue:
                raise Untold
            packet = queue[0]
            if packet.length is None:
                packet = self.resolve(queue, left)
            taken = left if packet.length is None else min(left, packet.length - packet.passed)
            self.pass_over(line, packet, taken)
            left -= taken
            if packet.passed == packet.length:
                queue.popleft()
                self.arrive(packet, line.index)

    def pass_over(self, line, packet, octets):
        """Carries octets of a packet, as a piece."""
        run, last = packet.run, self.pieces[-1] if self.pieces else None
        packet.passed += octets
        if last is None or last.run is not run or last.carry != line.index:
            start = self.reached.get(run, run.line) if run.passed else run.line
            last = Piece(line.side, run, run.passed, run.passed, start, line.index)
            self.pieces.append(last)
        run.passed += octets
        last.reach = run.passed
        self.reached[run] = line.index

    def resolve(self, queue, left):
        """The first packet of a queue, whose length is unknown: an indication may give it now."""
        packet, rest = queue[0], len(queue) > 1
        message = packet.run.message
        receiver = other(message.side), message.connection
        shown = self.unread.get(message.connection)
        if message.name == "CR" or not shown or self.lines[shown[0]].name != SHOWN_BY.get(message.name):
            if receiver in self.restarting and self.link_class == "0" and not rest and message.name != "abort":
                return packet
            if receiver in self.restarting | self.over | self.aborting or receiver[0] in self.ended:
                raise Untold
            if message.name == "data" and self.most(message.side, message.connection):
                raise Untold
            return packet
        message.fields = {**message.fields, **self.lines[shown[0]].fields}
        most = self.most(message.side, message.connection)
        tsdu, *parts = lengths.tsdu_lengths(message.name, message.fields, most)
        if parts:
            raise Untold
        sizes = lengths.parts(tsdu, self.link_class, self.limit)
        if sizes is None and (rest or self.link_class != "0"):
            raise Untold
        sizes = sizes or [packet.passed + left]
        packet.length = packet.run.length = sum(sizes)
        if len(sizes) > 1 or packet.length < packet.passed:
            raise Untold
        return packet

    # What arrives.

    def arrive(self, packet, index):
        """A whole packet arrives at the other side."""
        message = packet.run.message
        side = other(message.side)
        if side in self.ended:
            self.pieces[-1].dropped = packet.last and packet.unit == "DT"
            return
        if packet.unit == "DT":
            self.data_arrives(packet, side, index)
        elif packet.unit == "AK":
            self.acknowledged(side, message.connection, index)
        elif packet.unit in ("CR", "CC", "DR"):
            {"CR": self.asked_for, "CC": self.agreed, "DR": self.closed}[packet.unit](
                message, side, message.connection, index)

    def asked_for(self, message, side, connection, index):
        """A CR arrives: it is answered by a CC, or denied by a DR."""
        if self.link_class is None and self.selected and connection not in self.denied:
            self.link_class = self.selected
            size = self.ends and 2 ** self.ends["size"]
            self.limit = size and size - lengths.DATA_UNIT[self.selected]
            self.window = self.ends and self.ends["window"]
        message.arrived = True
        if connection in self.denied or (self.ends and not self.selected):
            self.put(side, connection, "DR", lengths.CLOSING, index)
            return
        self.open(side, connection)
        self.put(side, connection, "CC", lengths.CONFIRMED.get(self.link_class), index)

    def open(self, side, connection):
        """Opens one end of a transport connection."""
        self.links[side, connection] = Link(self.window if self.link_class == "2" else None)

    def agreed(self, message, side, connection, index):
        """A CC arrives: the CN is sent."""
        self.open(side, connection)
        fields = dict(self.asked.get(self.asked_at.get(connection), {}))
        fields.update(self.opening.get(("Connect", connection), {}))
        self.send(side, connection, "connect", index, fields)

    def data_arrives(self, packet, side, index):
        """A data unit arrives: class 2 acknowledges it, and the last one of a TSDU delivers that."""
        message = packet.run.message
        link = self.links.get((side, message.connection))
        if link is None or link.closing:
            self.pieces[-1].dropped = packet.last
            return
        if self.link_class == "2":
            self.put(side, message.connection, "AK", lengths.ACKNOWLEDGED, index)
        if packet.last:
            self.deliver(message, side, index)

    def acknowledged(self, side, connection, index):
        """An acknowledgement arrives: one more data unit may be sent."""
        link = self.links.get((side, connection))
        if link is not None and not link.closing:
            if link.credit is not None:
                link.credit += 1
            self.flush(side, connection, index)

    def deliver(self, message, side, index):
        """A message arrives at the session of the other side, and may cause an indication there."""
        key = side, message.connection
        message.arrived = True
        name = SHOWN_BY.get(message.name)
        if self.see(key, name):
            message.shown = self.pieces[-1].end = self.seen
            self.settle(key, name, self.lines[self.seen].fields)
            if name in ("Released", "Refused"):
                self.close(key, index)
        else:
            self.pieces[-1].dropped = name is not None
        if message.name == "abort":
            self.aborted(key, index)
        elif message.name == "answer to an abort" and key in self.aborting:
            self.close(key, index)

    def see(self, key, name):
        """Takes the next indication that this carry caused, if it has this name; whether it did."""
        shown = self.unread.get(key[1])
        if not shown or self.lines[shown[0]].name != name:
            return False
        self.seen = shown.popleft()
        return True

    def settle(self, key, name, fields):
        """Follows the numbers that indications name."""
        number = fields.get("number")
        if name in ("Minor", "Major"):
            self.next[key] = int(number) + 1
        elif name in ("Restart", "Restarted"):
            self.restarting.discard(key)
            self.next[key] = int(number)
        elif name == "Connected":
            self.next[key] = 0 if fields["serial"] == "-" else int(fields["serial"])

    def aborted(self, key, index):
        """An AB arrives: it is answered, or closes the connection if this side has sent one too."""
        if key in self.aborting:
            self.close(key, index)
        else:
            self.over.add(key)
            self.send(*key, "answer to an abort", index, {})

    def close(self, key, index):
        """The session closes its transport connection."""
        self.over.add(key)
        self.aborting.discard(key)
        if self.link_class == "0":
            self.ended.add(key[0])
        else:
            self.links[key].closing = True
            self.put(*key, "DR", lengths.CLOSING, index)

    def closed(self, message, side, connection, index):
        """A DR arrives: it refuses a connection, or ends an open one and is confirmed."""
        link = self.links.get((side, connection))
        if link is None:
            if self.see((side, connection), "Refused"):
                message.shown = self.pieces[-1].end = self.seen
        elif not link.closing:
            link.closing = True
            self.over.add((side, connection))
            self.put(side, connection, "DC", lengths.CLOSED, index)
        message.arrived = True
