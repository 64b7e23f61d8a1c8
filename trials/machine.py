"""Plays a script and its transcript on the machine of docs/PROMISES.md, by plain Python: each call is answered as the
table of calls says, and each indication is what the table of units says of the next message of the other side. A
message here is a tuple; nothing is known of octets, packets, classes or credit, and so of what a carry brings only
that it is the front of what was sent.

`Machine(script, transcript).play()` gives what is wrong, or None.
"""
DATA, MINOR, MAJOR, RELEASE = 0x01, 0x04, 0x10, 0x40
HALF, DUPLEX, MINOR_UNIT, MAJOR_UNIT, RESTART_UNIT, RELEASE_UNIT = 0x01, 0x02, 0x08, 0x10, 0x20, 0x80
HOLDING = ("Ready", "MajorAsked", "MajorDue", "Releasing", "ReleaseDue")
OVER = ("Aborting", "Ended")
OTHER = {"left": "right", "right": "left"}


def bits(word):
    return int(word, 16)


def available(units):
    pairs = ((HALF, DATA), (MINOR_UNIT, MINOR), (MAJOR_UNIT, MAJOR), (RELEASE_UNIT, RELEASE))
    return sum(token for unit, token in pairs if units & unit)


def tokens_of(sides, letter, units):
    """The tokens that the side with this letter holds."""
    named = sum(token for token, one in zip((DATA, MINOR, MAJOR, RELEASE), sides) if one == letter)
    return named & available(units)


def settled(wishes, answer, units):
    """The sides as they are written: an unavailable token is the asker's."""
    free = available(units)
    return "".join((a if w == "c" else w) if token & free else "a"
                   for w, a, token in zip(wishes, answer, (DATA, MINOR, MAJOR, RELEASE)))


def smaller(a, b):
    """The smaller of two sizes; 0 is no limit."""
    return min(a, b) if a and b else a or b


def sizes_behind(words):
    """The sizes after user data: from the asker, and from the answerer."""
    return (int(words[0]), int(words[1])) if words else (0, 0)


def sizes_text(sizes):
    return " tsdu %d %d" % sizes if sizes != (0, 0) else ""


class Side:
    """One side of one connection."""

    def __init__(self, phase, caller, sizes=(0, 0)):
        self.phase, self.caller, self.sizes = phase, caller, sizes
        self.units = self.owned = self.base = self.next = self.below = self.lowest = 0
        self.flag = False
        self.offer = self.asked = None
        self.known = caller

    @property
    def held(self):
        return self.owned if self.phase in HOLDING else 0

    @property
    def limit(self):
        """The largest TSDU that it may send after the CN is answered, in octets; 0 for no limit."""
        return 0 if self.phase in ("Connecting", "WaitCn", "Answering") else self.sizes[0 if self.caller else 1]

    def begin(self, units, serial, sides, letter):
        self.units, self.phase = units, "Ready"
        serial = serial if units & (MINOR_UNIT | MAJOR_UNIT | RESTART_UNIT) else 0
        self.base = self.next = self.below = self.lowest = serial
        self.owned = tokens_of(sides, letter, units)

    def point(self, sent):
        if self.flag == sent:
            self.below = self.next
            self.flag = not sent
        self.next += 1

    def restart(self, number):
        self.next = number
        self.below, self.lowest = min(self.below, number), min(self.lowest, number)


# ---- calls: what refuses them, and what they do and send

def needs(side, wanted):
    wanted &= available(side.units)
    return None if side.held & wanted == wanted else "TokenNotHeld"


def ready_point(side, unit, wanted):
    if side.phase != "Ready":
        return "BadState"
    if not side.units & unit:
        return "NotSelected"
    return needs(side, wanted) or ("SerialsUsedUp" if side.next > 999999 else None)


def asks_tokens(side, words, verb):
    phases = ("Ready", "MajorDue") if verb == "give" else ("Ready", "MajorAsked", "MajorDue")
    named = bits(words[0])
    if side.phase not in phases:
        return "BadState"
    if named & ~available(side.units):
        return "NotSelected"
    if verb == "give":
        return "TokenNotHeld" if named & ~side.held else None if named else "Empty"
    return "TokenAlreadyHeld" if named & side.held else None if named else "Empty"


def asks_restart(side, words):
    number = int(words[0])
    if side.phase not in ("Ready", "MajorAsked", "MajorDue", "ReleaseDue"):
        return "BadState"
    if not side.units & RESTART_UNIT:
        return "NotSelected"
    most = side.next - 1 if side.phase in ("MajorAsked", "MajorDue") else side.next
    return None if side.lowest <= number <= min(most, 999999) else "BadNumber"


def confirms(side, words):
    if side.phase not in ("Ready", "ReleaseDue"):
        return "BadState"
    if not side.units & MINOR_UNIT:
        return "NotSelected"
    return None if side.flag and side.below <= int(words[0]) < side.next else "BadNumber"


def releases(side):
    if side.phase != "Ready":
        return "BadState"
    if side.units & DUPLEX:
        return None if side.caller else "TokenNotHeld"
    return needs(side, available(side.units))


def in_phase(side, phase):
    return None if side.phase == phase else "BadState"


REFUSES = {
    "accept": lambda s, w: in_phase(s, "Answering"),
    "data": lambda s, w: in_phase(s, "Ready") or needs(s, DATA) or (None if w[0] != "-" else "Empty"),
    "give": lambda s, w: asks_tokens(s, w, "give"),
    "please": lambda s, w: asks_tokens(s, w, "please"),
    "minor": lambda s, w: ready_point(s, MINOR_UNIT, DATA | MINOR),
    "minorconfirm": confirms,
    "major": lambda s, w: ready_point(s, MAJOR_UNIT, DATA | MINOR | MAJOR),
    "majorconfirm": lambda s, w: in_phase(s, "MajorDue"),
    "restart": asks_restart,
    "restartconfirm": lambda s, w: in_phase(s, "RestartDue"),
    "release": lambda s, w: releases(s),
    "releaseaccept": lambda s, w: in_phase(s, "ReleaseDue"),
    "releaserefuse": lambda s, w: in_phase(s, "ReleaseDue") or (None if s.units & RELEASE_UNIT else "NotSelected"),
    "abort": lambda s, w: None,
}


def item(octets):
    """A code, its length and so many octets; nothing if user data is empty."""
    return octets + (4 if octets > 254 else 2)


def written(side, verb, words):
    """How many octets the TSDU of a call has."""
    data = 0 if words[-1] == "-" or verb == "give" else len(words[-1]) // 2
    number = {"minorconfirm": words[0], "restart": words[0], "majorconfirm": side.next - 1, "minor": side.next,
              "major": side.next, "restartconfirm": side.next}.get(verb)
    fixed = {"please": 3, "abort": 3, "major": 3, "restart": 6, "restartconfirm": 3}.get(verb, 0)
    fixed += 3 if verb == "minor" and words[0] == "no" else 0
    fixed += item(len(str(int(number)))) if number is not None else 0
    alone = 5 if verb == "give" else item(fixed + (item(data) if data else 0))
    return alone + (2 if number is not None else 0)


def too_long(side, verb, words):
    """Whether the TSDU of a call is above its size. An answer to a CN, and data, may be."""
    return verb not in ("accept", "refuse", "data") and 0 < side.limit < written(side, verb, words)


def call(side, verb, words):
    """Does an accepted call; gives the message."""
    data = words[-1]
    if verb == "accept":
        units, wishes = bits(words[0]) & side.offer[0], side.offer[2]
        sides, own = settled(wishes, words[2], units), sizes_behind(words[4:])
        side.begin(units, int(words[1]), sides, "r")
        side.sizes = tuple(smaller(a, b) if a else 0 for a, b in zip(side.offer[3], own))
        return ("Connected", units, int(words[1]), sides, side.sizes, words[3])
    if verb == "give":
        side.owned &= ~bits(words[0])
        return ("Given", bits(words[0]))
    if verb in ("minor", "major"):
        number = side.next
        side.point(True)
        side.phase = "MajorAsked" if verb == "major" else side.phase
        return ("Major", number, data) if verb == "major" else ("Minor", number, words[0], data)
    if verb == "minorconfirm":
        side.below = int(words[0]) + 1
        return ("MinorConfirmed", int(words[0]), data)
    if verb == "majorconfirm":
        side.below = side.lowest = side.next
        side.phase = "Ready"
        return ("MajorConfirmed", side.next - 1, data)
    if verb == "restart":
        side.asked = (int(words[0]), words[1])
        side.owned, side.phase = 0, "Restarting"
        side.restart(int(words[0]))
        return ("Restart", int(words[0]), words[1], data)
    if verb == "restartconfirm":
        number, wishes = side.asked
        sides = settled(wishes, words[0], side.units)
        side.owned, side.phase = tokens_of(sides, "r", side.units), "Ready"
        return ("Restarted", number, sides, data)
    phases = {"release": "Releasing", "releaseaccept": "Ended", "releaserefuse": "Ready", "abort": "Aborting"}
    side.phase = phases.get(verb, side.phase)
    names = {"data": "Data", "please": "Asked", "release": "Release", "releaseaccept": "Released",
             "releaserefuse": "ReleaseRefused", "abort": "Aborted"}
    return (names[verb], bits(words[0]), data) if verb == "please" else (names[verb], data)


# ---- messages: the text of the indication, None for one that causes none

def serial_of(message):
    """The serial number of a CN or AC, which is written if a functional unit with points is named."""
    return message[2] if message[1] & (MINOR_UNIT | MAJOR_UNIT | RESTART_UNIT) else "-"


def taken(side, message):
    name, data = message[0], message[-1]
    if side.phase in OVER:
        return None
    if side.phase == "Restarting" and name not in ("Restart", "Restarted", "Aborted"):
        return None
    if name in ("Connect", "Connected"):
        if name == "Connect":
            side.phase, side.offer, side.known = "Answering", message[1:5], True
        else:
            side.begin(message[1], message[2], message[3], "a")
            side.sizes = tuple(smaller(a, b) for a, b in zip(side.sizes, message[4]))
        serial = serial_of(message)
        return f"{name} units {message[1]:04x} serial {serial} sides {message[3]} data {data}{sizes_text(message[4])}"
    if name == "Given":
        side.owned |= message[1]
        return f"Given {message[1]:02x}"
    if name == "Asked":
        return f"Asked {message[1]:02x} data {data}"
    if name == "Minor":
        side.point(False)
        return f"Minor {message[1]} confirm {message[2]} data {data}"
    if name == "MinorConfirmed":
        side.below = message[1] + 1
        return f"MinorConfirmed {message[1]} data {data}"
    if name == "Major":
        side.point(False)
        side.phase = "MajorDue"
        return f"Major {message[1]} data {data}"
    if name == "MajorConfirmed":
        side.below = side.lowest = side.next
        side.phase = "Ready"
        return f"MajorConfirmed data {data}"
    if name == "Restart":
        number = message[1]
        if side.phase == "Restarting" and not (number < side.asked[0] or number == side.asked[0] and not side.caller):
            return None
        side.asked, side.owned, side.phase = (number, message[2]), 0, "RestartDue"
        side.restart(number)
        return f"Restart {number} sides {message[2]} data {data}"
    if name == "Restarted":
        side.owned, side.phase = tokens_of(message[2], "a", side.units), "Ready"
        return f"Restarted {message[1]} sides {message[2]} data {data}"
    phases = {"Release": "ReleaseDue", "Released": "Ended", "ReleaseRefused": "Ready", "Aborted": "Ended"}
    side.phase = phases.get(name, side.phase)
    return f"Data {data}" if name == "Data" else f"{name} data {data}"


class Machine:
    def __init__(self, script, transcript):
        self.events = [line.split() for line in script.splitlines() if line and line[0] != "#"][1:]
        self.lines = transcript.splitlines()
        self.sides = {}     # by reference: left and right
        self.under_way = {}  # by reference and sender
        self.told = set()

    def connect(self, words, line):
        units = bits(words[1])
        if not line.startswith("left connect ok "):
            refused = ("Ended",) if "left" in self.told else ("Ended", "Negotiating", "OneConnection")
            wrong_units = units != DUPLEX and (units & ~0xB9 or not units & HALF)
            return None if line.split()[-1] in (("NotSelected",) if wrong_units else refused) else f"{line}: may connect"
        reference = line.split()[-1]
        sizes = sizes_behind(words[5:])
        self.sides[reference] = {"left": Side("Connecting", True, sizes), "right": Side("WaitCn", False)}
        self.under_way[reference, "left"] = [("Connect", bits(words[1]), int(words[2]), words[3], sizes, words[4])]
        self.under_way[reference, "right"] = []
        return None

    def call(self, words, line):
        name, reference, verb = words[:3]
        side = self.sides.get(reference, {}).get(name)
        if side is None or not side.known:
            unknown = ("NoSuchConnection", "BadState", "Ended")
            return None if line.split()[-1] in unknown else f"{line}: the side knows no connection"
        wanted = "Ended" if side.phase in OVER or name in self.told else REFUSES[verb](side, words[3:])
        wanted = wanted or ("TooLong" if too_long(side, verb, words[3:]) else None)
        text = f"{name} {reference} {verb} " + ("ok" if wanted is None else f"refused {wanted}")
        if line != text:
            return f"{line}: {text}"
        if wanted is None:
            self.under_way[reference, name].append(call(side, verb, words[3:]))
        return None

    def shown(self, line):
        name, reference, text = line.split(" ", 2)
        side = self.sides[reference][name]
        if text == "ProviderAbort Lost":
            over = side.phase in OVER or name not in self.told
            side.phase = "Ended"
            return f"{line}: nothing is lost" if over else None
        if text.startswith("Refused transport ") and name == "left" and side.phase == "Connecting":
            side.phase = "Ended"
            return None
        queue = self.under_way[reference, OTHER[name]]
        while queue:
            told = taken(side, queue.pop(0))
            if told is not None:
                return None if told == text else f"{line}: {told}"
        return f"{line}: nothing is in flight"

    def held(self):
        """A token that both sides hold."""
        both = [reference for reference, pair in self.sides.items() if pair["left"].held & pair["right"].held]
        return f"both sides of {both[0]} hold a token" if both else None

    def lost(self, name):
        """A connection whose end was told of the break and whose user received no loss."""
        left = [pair[name] for pair in self.sides.values() if pair[name].known and pair[name].phase not in OVER]
        return f"the {name} user is not told that he lost his connection" if left else None

    def answered(self, words, line):
        if words[0] == "connect":
            return self.connect(words, line)
        if words[0] == "carry":
            return None if line.startswith(f"{words[1]} carried ") else f"{line}: a carry"
        if words[0] == "break":
            return None if line == "broken" else f"{line}: a break"
        if words[0] == "told":
            self.told.add(words[1])
            return None if line == f"{words[1]} told" else f"{line}: told"
        return self.call(words, line)

    def is_shown(self, line):
        words = line.split()
        return len(words) > 2 and words[0] in OTHER and words[1].isdigit() and words[2][0].isupper()

    def play(self):
        lines = iter(self.lines)
        line = next(lines, None)
        for words in self.events:
            if line is not None and line.startswith("line "):
                return None
            wrong = self.answered(words, line) if line is not None else f"{words}: the transcript ends"
            line = next(lines, None)
            while wrong is None and line is not None and self.is_shown(line):
                wrong = self.shown(line)
                line = next(lines, None)
            wrong = wrong or self.held() or (self.lost(words[1]) if words[0] == "told" else None)
            if wrong is not None:
                return wrong
        return self.stands(line, lines)

    def stands(self, line, lines):
        """The last lines: the state of each connection that has not ended."""
        while line is not None:
            words = line.split()
            side = self.sides[words[1]][words[0]]
            text = (f"{words[0]} {words[1]} phase {side.phase} held {side.held:02x} next {side.next} "
                    f"below {side.below} lowest {side.lowest}")
            if side.phase not in ("Connecting", "WaitCn", "Restarting") and line != text:
                return f"{line}: {text}"
            line = next(lines, None)
        return None
