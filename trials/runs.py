"""Two ends over the library for C: scripts, what passes a tap, and calls at random."""
from osi_session import Classes, End, Opening, Phase, SessionError, Side, Sides, Sizes, Terms, Tokens, Units

SIDES = ("left", "right")
OTHER = {"left": "right", "right": "left"}
CLASSES = {"0": Classes.CLASS_0, "2": Classes.CLASS_2, "20": Classes.CLASS_0 | Classes.CLASS_2}
LETTERS = {"a": Side.ASKER, "r": Side.ANSWERER, "c": Side.CHOICE}


def octets(word):
    return b"" if word == "-" else bytes.fromhex(word)


def sides(word):
    return Sides(*(LETTERS[letter] for letter in word))


def sizes(words):
    return Sizes(*map(int, words)) if words else Sizes()


class Run:
    """Two ends, and a tap at the left end, at the right end or between them.

    `sent[side]` is all that the side has sent, `carried[side]` how much of it the other has, and `pieces` what passed the tap.
    `made` has a row for all octets that a side sent at once: where they begin, and how many octets it had received by then."""

    def __init__(self, tap="between"):
        self.tap, self.pieces, self.calls, self.script = tap, [], 0, []
        self.ends = {}
        self.sent, self.carried = {side: b"" for side in SIDES}, {side: 0 for side in SIDES}
        self.made = {side: [] for side in SIDES}

    def line(self, line):
        """Does what a line of a script says. Says whether the line was done."""
        self.script.append(line)
        words = line.split(" ")
        if words[0] == "ends":
            terms = [Terms(CLASSES[word], int(words[3]), int(words[4])) for word in words[1:3]]
            self.ends = {"left": End.caller(terms[0]), "right": End.called(terms[1])}
            return True
        try:
            if words[0] == "carry":
                self.carry(words[1], int(words[2]))
            elif words[0] == "connect":
                self.ends["left"].connect(Opening(requirements=Units(int(words[1], 16)), serial=int(words[2]), wishes=sides(words[3]),
                                                  user_data=octets(words[4]), sizes=sizes(words[5:])))
            else:
                self.call(self.ends[words[0]], int(words[1]), words[2], words[3:])
        except SessionError:
            return False
        finally:
            for side in SIDES:
                self.look(side)
        self.calls += words[0] != "carry"
        return True

    @staticmethod
    def call(end, reference, verb, words):
        if verb == "accept":
            end.accept(reference, Units(int(words[0], 16)), int(words[1]), sides(words[2]), octets(words[3]), sizes(words[4:]))
        elif verb == "give":
            end.give(reference, Tokens(int(words[0], 16)))
        elif verb == "please":
            end.please(reference, Tokens(int(words[0], 16)), octets(words[1]))
        elif verb == "minor":
            end.minor(reference, words[0] == "yes", octets(words[1]))
        elif verb == "minorconfirm":
            end.minor_confirm(reference, int(words[0]), octets(words[1]))
        elif verb == "restart":
            end.restart(reference, int(words[0]), sides(words[1]), octets(words[2]))
        elif verb == "restartconfirm":
            end.restart_confirm(reference, sides(words[0]), octets(words[1]))
        else:
            call = {"majorconfirm": "major_confirm", "releaseaccept": "release_accept", "releaserefuse": "release_refuse"}
            getattr(end, call.get(verb, verb))(reference, octets(words[0]))

    def look(self, side):
        """Notes what a side has sent since."""
        have = self.carried[side] + self.ends[side].outgoing_length()
        if have == len(self.sent[side]):
            return
        more = self.ends[side].outgoing()[len(self.sent[side]) - self.carried[side]:]
        self.made[side].append((len(self.sent[side]), self.carried[OTHER[side]]))
        self.sent[side] += more
        if self.tap == side:
            self.passes(side, more)

    def passes(self, side, more):
        if more:
            self.pieces.append((side, more))

    def carry(self, side, count):
        piece = self.ends[side].outgoing(count)
        self.ends[side].taken(len(piece))
        if self.tap != side:
            self.passes(side, piece)
        self.carried[side] += len(piece)
        for _ in self.ends[OTHER[side]].feed_all(piece):
            pass

    def capture(self):
        """What passed the tap, as `osi judge` reads it."""
        return "".join("\t" * (side == "right") + more.hex() + "\n" for side, more in self.pieces)

    def close(self):
        for end in self.ends.values():
            end.close()


def played(script, tap="between"):
    """A script that was played."""
    run = Run(tap)
    for line in script.splitlines():
        if line and not line.startswith("#"):
            run.line(line)
    return run


# The calls of each phase, the likelier ones more often; while data flows, of a side that may send it and of one that may not.
CALLS = {
    Phase.ANSWERING: ["accept"] * 20 + ["refuse"],
    Phase.MAJOR_ASKED: ["please", "minorconfirm", "restart"],
    Phase.MAJOR_DUE: ["majorconfirm"] * 8 + ["give", "please", "restart"],
    Phase.RELEASE_DUE: ["releaseaccept"] + ["releaserefuse"] * 4 + ["minorconfirm", "restart"],
    Phase.RESTART_DUE: ["restartconfirm"] * 10 + ["restart"],
}
SENDS = ["data"] * 12 + ["minor"] * 10 + ["give"] * 4 + ["minorconfirm"] * 4 + ["please", "major", "major", "restart", "release"]
WAITS = ["please"] * 4 + ["minorconfirm"] * 8 + ["give", "restart", "data", "minor"]
VERBS = sorted({verb for verbs in CALLS.values() for verb in verbs} | set(SENDS))


def data(random, least=0):
    length = random.choice((least, 1, 3, 10, 40, 200, random.randint(least, 600)))
    return random.randbytes(max(length, least)).hex() or "-"


def letters(random, those):
    return "".join(random.choice(those) for _ in range(4)) if random.random() < 0.5 else random.choice(those) * 4


def units(random):
    if random.random() < 0.2:
        return 0x0002
    return 0x0001 | random.choice((0x00B8, 0x00B8, 0x0028, 0x0080, random.randrange(256) & 0x00B8))


def limits(random):
    return "" if random.random() < 0.6 else f" {random.choice((0, 64, 100, 300))} {random.choice((0, 64, 80, 500))}"


def is_there(run, side, reference):
    """Whether a side has the connection."""
    return side == "left" or run.ends[side].phase(reference) != Phase.NONE


def verb_at_random(random, run, side, reference):
    """A call, mostly one of those that the phase of its side has."""
    if random.random() < 0.01:
        return "abort"
    if random.random() < 0.05 or not is_there(run, side, reference):
        return random.choice(VERBS)
    end = run.ends[side]
    phase = end.phase(reference)
    if phase == Phase.READY:
        return random.choice(SENDS if run.units[reference] == 2 or end.held(reference) & Tokens.DATA else WAITS)
    return random.choice(CALLS.get(phase, VERBS))


def call_at_random(random, run, side, reference):
    """A call of a user."""
    end, verb, asked = run.ends[side], verb_at_random(random, run, side, reference), run.units[reference]
    there = is_there(run, side, reference)
    held = int(end.held(reference)) if there else 0x55
    near = max(0, end.next_serial(reference) + random.choice((-3, -2, -1, -1, -1, 0, 0))) if there else 0
    some = random.choice((0x55, 0x55, 0x01, 0x04, 0x10, 0x40, 0x05))
    words = {
        "accept": lambda: f"{asked if random.random() < 0.7 else asked & units(random):04x} {random.choice((0, 1, 7, 999990))} "
                          f"{letters(random, 'ar')} {data(random)}{limits(random)}",
        "data": lambda: data(random, 1),
        "give": lambda: f"{held & some or some:02x}",
        "please": lambda: f"{0x55 & ~held & some or some:02x} {data(random)}",
        "minor": lambda: f"{random.choice(('yes', 'no'))} {data(random)}",
        "minorconfirm": lambda: f"{near} {data(random)}",
        "restart": lambda: f"{near} {letters(random, 'arc')} {data(random)}",
        "restartconfirm": lambda: f"{letters(random, 'ar')} {data(random)}",
    }.get(verb, lambda: data(random))()
    run.line(f"{side} {reference} {verb} {words}")


def carry_at_random(random, run):
    side = random.choice(SIDES)
    waiting = run.ends[side].outgoing_length()
    if waiting:
        run.line(f"carry {side} {waiting if random.random() < 0.7 else random.randint(1, waiting)}")


def connect_at_random(random, run, asked):
    """The left end asks for another connection, if it may."""
    if run.line(f"connect {asked:04x} {random.choice((0, 1, 5, 999995))} {letters(random, 'arc')} {data(random)}{limits(random)}"):
        run.units[len(run.units) + 1] = asked


def step_at_random(random, run, most):
    """Octets are carried, or a user calls on one of at most so many connections."""
    if random.random() < 0.45:
        carry_at_random(random, run)
    elif len(run.units) < most and random.random() < 0.05:
        connect_at_random(random, run, units(random))
    else:
        side = random.choice(SIDES)
        call_at_random(random, run, side, random.randint(1, len(run.units)) if len(run.units) > 1 else 1)


def run_at_random(random, classes="0"):
    """Two ends of this class, whose users call at random: on one connection in class 0, on at most four in class 2."""
    run = Run(random.choice(("left", "right", "between")))
    run.units, asked = {}, units(random)
    run.line(f"ends {classes} {classes} {random.choice((7, 7, 8, 10, 13))} {random.randint(1, 15)}")
    connect_at_random(random, run, asked)
    opening = random.choice((0, 1, 3, 3, 3, 3, 3, 3))
    for side in ("left", "right", "left")[:opening]:
        run.line(f"carry {side} 99999")
    for _ in range(random.choice((10, 40, 120, 300))):
        step_at_random(random, run, 4 if classes == "2" else 1)
    if random.random() < 0.5:
        for side in SIDES * 2:
            run.line(f"carry {side} 9999999")
    return run
