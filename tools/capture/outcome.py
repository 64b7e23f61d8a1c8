"""How a stream ended: who refused, aborted or released the session, who closed TCP, and since when nothing passed."""
from collections import deque

from . import units
from .streams import SIDES, Another, Collision

# X.224 section 13.5.3, and X.225 section 8.3.5; docs/TROUBLESHOOTING.md says what to do.
OF_TRANSPORT = {0: "no reason is given", 1: "congestion", 2: "nobody is attached to this address", 3: "the address is unknown",
                128: "by the session layer", 129: "congestion", 130: "none of the classes is supported", 131: "a reference is used twice",
                132: "the references don't match", 133: "protocol error", 135: "the references are used up",
                136: "the connection is refused on this network connection", 138: "a header or parameter has a wrong length"}
OF_SESSION = {0: "by the called user", 1: "by the called user: congestion", 2: "by the called user, with data",
              129: "the session selector is unknown", 130: "nobody is attached to the session selector", 131: "congestion",
              132: "no common version of the protocol", 133: "no reason is given", 134: "a restriction of the implementation"}
OF_ERRORS = {0: "no reason is given", 1: "invalid parameter code", 2: "invalid TPDU type", 3: "invalid parameter value"}
UNANSWERED = ", and there is no answer"
USER, PROTOCOL_ERROR, NO_REASON, RESTRICTION = 2, 4, 8, 16


# What `osi judge` says of the CN of another session on a transport connection, and of the answers to FNs of both sides.
SECOND_CONNECT, SECOND_RELEASE = UNFOLLOWED = ("Connect", "BadState"), ("ReleaseAccept", "BadState")


class Ended:
    """How a stream ended: a word for programs, the sentence, and if they are known the side, code, meaning, frame and time."""

    def __init__(self, how, text, side=None, unit=None, meaning=None, place=None):
        self.how, self.text, self.side, self.unit, self.meaning, self.place = how, text, side, unit, meaning, place

    def told(self):
        """As an object of docs/judge.schema.json."""
        frame, time = self.place or (None, None)
        return {"how": self.how, "text": self.text, "side": self.side, "unit": self.unit and self.unit.name,
                "code": self.unit and self.unit.reason, "meaning": self.meaning, "frame": frame,
                "time": None if time is None else round(time, 6)}


class Follower:
    """Follows both sides, and keeps the units that may say how the connection ended: the first ones and the last ones."""

    MOST = 64

    def __init__(self):
        self.readers = {side: units.Reader() for side in SIDES}
        self.begun, self.found, self.is_open = [], deque(maxlen=self.MOST), False
        # Whether a session has ended and its transport connection is kept for another one; the side that asks for the release.
        self.keeps, self.is_ended, self.asking = False, False, None
        # What `osi judge` doesn't follow, though X.225 allows it: where it begins, by what it says of the units after that.
        self.unfollowed = {}

    def take(self, side, piece):
        """Takes octets that have passed."""
        for unit in self.readers[side].feed(piece.octets):
            self.is_open = self.is_open or unit.name == "CC"
            self.look_for_another(side, piece, unit)
            self.look_for_collision(side, piece, unit)
            (self.begun if len(self.begun) < self.MOST else self.found).append(((piece.frame, piece.time), side, unit))

    def look_for_another(self, side, piece, unit):
        """Notes where another session begins on the transport connection of one that has ended (X.225 section 6.2)."""
        if unit.name in ("RF", "FN", "AB"):
            self.keeps = unit.keeps
        if unit.name in ("RF", "DN", "AA"):
            self.is_ended = True
        if unit.name == "CN":
            if self.is_ended and self.keeps:
                self.unfollowed.setdefault(SECOND_CONNECT, Another(side, piece.frame, unit.start))
            self.is_ended = self.keeps = False

    def look_for_collision(self, side, piece, unit):
        """Notes where a side asks for the release, although the other one does (X.225, Vcoll of annex A)."""
        if unit.name == "FN" and self.asking not in (None, side):
            self.unfollowed.setdefault(SECOND_RELEASE, Collision(side, piece.frame, unit.start))
        if unit.name in ("FN", "DN", "NF", "CN"):
            self.asking = side if unit.name == "FN" else None

    def ended(self):
        """How the session or its transport ended; None if it didn't."""
        found = [*self.begun, *self.found]
        names = {(side, unit.name): (place, side, unit) for place, side, unit in reversed(found)}
        return refused(names, self.is_open) or aborted(found) or released(names) or closed(names)


def of(pieces):
    """How the session or its transport ended; None if it didn't, as far as the pieces go."""
    follower = Follower()
    for side, piece in pieces:
        follower.take(side, piece)
    return follower.ended()


def unfollowed(pieces, fields):
    """If a line of `osi judge` tells a break only because it doesn't follow what X.225 allows: the place of the piece with which that
    begins, and what it is; else None."""
    said, follower = said_of(fields), Follower()
    for place, (side, piece) in enumerate(pieces if said in UNFOLLOWED else ()):
        follower.take(side, piece)
        if said in follower.unfollowed:
            return place, follower.unfollowed[said]
    return None


def said_of(fields):
    """What a line of `osi judge` says of a break; of a unit with which a side leaves the profile, as of one that its state forbids."""
    return fields.get("what"), "BadState" if fields.get("rule") == "Outside" else fields.get("rule")


def first(names, *wanted):
    """The earliest of units by their name, of either side; or None."""
    found = [names[side, name] for side in SIDES for name in wanted if (side, name) in names]
    return min(found, key=lambda each: each[0][0] or 0, default=None)


def refused(names, is_open):
    """A connection that was refused."""
    found = first(names, "RF") or (None if is_open else first(names, "DR", "ER"))
    if not found:
        return None
    place, side, unit = found
    table = {"RF": OF_SESSION, "DR": OF_TRANSPORT, "ER": OF_ERRORS}[unit.name]
    meaning = table.get(unit.reason, "a reason that the standard doesn't list")
    what = "the session" if unit.name == "RF" else "the transport connection"
    return Ended("refused", f"{side} refused {what}: {coded(unit)}, {meaning}", side, unit, meaning, place)


def coded(unit):
    """A unit with its reason."""
    if unit.reason is None:
        return f"{unit.name} without a reason"
    return f"AB 17={unit.reason:02x}" if unit.name == "AB" else f"{unit.name} {'cause' if unit.name == 'ER' else 'reason'} {unit.reason}"


def aborted(found):
    """A session that was aborted."""
    every = [each for each in found if each[2].name == "AB"]
    if not every:
        return None
    place, side, unit = min(every, key=lambda each: each[0][0] or 0)
    bits = unit.reason or 0
    why = [text for bit, text in ((PROTOCOL_ERROR, "protocol error"), (NO_REASON, "no reason is given"),
                                  (RESTRICTION, "a restriction of the implementation")) if bits & bit]
    by = "by its user" if bits & USER else "by its session layer"
    meaning = ", ".join([by, *([] if bits & USER else why)])
    return Ended("aborted", f"{side} aborted {meaning}: {coded(unit)}", side, unit, meaning, place)


def released(names):
    """A session that was released, or whose release was asked for in vain."""
    asked = first(names, "FN")
    if not asked:
        return None
    agreed, kept = first(names, "DN"), first(names, "NF")
    if agreed:
        return Ended("released", f"released: {asked[1]} asked for it (FN), {agreed[1]} agreed (DN)", agreed[1], agreed[2], None, agreed[0])
    if kept and kept[0] > asked[0]:
        return None
    return Ended("unanswered", f"{asked[1]} asked for the release (FN){UNANSWERED}", asked[1], asked[2], None, asked[0])


def closed(names):
    """A transport connection that was closed without a release."""
    found = first(names, "DR")
    if not found:
        return None
    place, side, unit = found
    meaning = OF_TRANSPORT.get(unit.reason, "a reason that the standard doesn't list")
    return Ended("closed", f"{side} closed the transport connection: {coded(unit)}, {meaning}", side, unit, meaning, place)


def of_tcp(stream):
    """How TCP ended; if it didn't, since when nothing passed. Only a stream of a network tells it."""
    if not hasattr(stream, "directions") or stream.last is None:
        return None
    ends = [(each, side, what) for side, end in stream.by_end().items() for what, each in
            (("reset", stream.directions[end].reset), ("closed", stream.directions[end].ended)) if each]
    if ends:
        place, side, what = min(ends)
        return Ended(f"tcp {what}", f"{side} {what} TCP", side, None, None, place)
    idle = (getattr(stream, "until", None) or stream.last[1]) - stream.last[1]
    text = "TCP is open at the end of the capture" + (f", and nothing passed for its last {idle:.3f} seconds" if idle >= 1 else "")
    return Ended("open", text, None, None, None, stream.last)


def all_of(stream, pieces, limit=None):
    """Everything that is known of how a stream ended. If it is known only up to a limit, or of one direction, an answer may be in the
    rest."""
    return known(stream, limit, of(pieces), of_tcp(stream))


def known(stream, limit, *found):
    """What is known of these."""
    found = together(*found)
    for each in found if limit or hasattr(stream, "directions") and stream.is_alone() else ():
        each.text = each.text.removesuffix(UNANSWERED)
    return found


def together(*found):
    """What is known of these."""
    return [each for each in found if each]


def line(found, begin):
    """All of it in a line; times are seconds since `begin`."""
    return "ended: " + "; ".join(f"{each.text}{when(each.place, begin)}" for each in found)


def when(place, begin):
    """A frame and its time in brackets."""
    if not place or place[0] is None:
        return ""
    return f" (frame {place[0]}, {place[1] - begin:.6f} seconds)" if place[1] is not None else f" (frame {place[0]})"
