"""Reads what `osi judge` prints, and tells it in sentences."""
import re

from . import packets, rules
from .history import TOKENS
from .transcript import SIDES, BadInput, other

STATE = r"phase (?P<phase>\w+) held (?P<held>[0-9a-f]{2}) next (?P<next>\d+) below (?P<below>\d+) lowest (?P<lowest>\d+)"
OWN = r"(?P<side>left|right) (?P<reference>\d+) "
PLACE = r"packet (?P<offset>\d+) (?P<what>\w+) (?P<rule>\w+)"
LINES = {name: re.compile(text) for name, text in (
    ("read", r"(?P<side>left|right) packets (?P<packets>\d+) octets (?P<octets>\d+) rest (?P<rest>\d+)"),
    ("kept", OWN + r"kept (?P<count>\d+) " + STATE + r"(?: owes (?P<owes>\w+))?"),
    ("broke", OWN + r"(?P<did>broke) " + PLACE),
    ("knew", OWN + r"knew (?P<taken>\d+) of (?P<passed>\d+) " + STATE),
    ("fault", OWN + r"fault (?P<at>\d+) (?P<fault>\w+)(?: (?P<code>\d+))?"),
    ("leaves", OWN + r"(?P<did>leaves) " + PLACE),
    ("stopped", r"(?P<side>left|right) (?P<did>broke|leaves) " + PLACE),
    ("halted", r"(?P<side>left|right) not judged after (?:left|right) " + PLACE),
    ("without", OWN + r"(?P<why>refused|unanswered|too many)"))}
LAST = re.compile(r"both kept the protocol|not judged: (?P<why>.+)"
                  r"|(?P<first>left|right) (?P<did>broke the protocol|leaves the profile) first, "
                  r"packet (?P<offset>\d+): (?P<what>\w+) (?P<rule>\w+)")
# The tokens that a call needs; Give needs those that it gives.
NEEDS = {"Data": ("data",), "Minor": ("data", "minor"), "Major": ("data", "minor", "major"),
         "Release": tuple(name for name, _, _ in TOKENS)}
WITHOUT_NUMBERS = ("WaitTransport", "WaitCn", "Connecting", "Answering", "Aborting", "Ended")


class State:
    """The state of a session: its phase, the tokens that it holds as bits, and the numbers of points."""

    __slots__ = ("phase", "held", "numbers", "owes")

    def __init__(self, fields):
        self.phase, self.held, self.owes = fields["phase"], int(fields["held"], 16), fields.get("owes")
        self.numbers = {name: int(fields[name]) for name in ("next", "below", "lowest")}

    def text(self, has_points):
        """The state in a line: phase, tokens, the next number if there are points, and what it has to answer."""
        parts = [self.phase]
        parts += ["".join(letters(self.held))] if self.held else []
        parts += [f"next {self.numbers['next']}"] if has_points and self.phase not in WITHOUT_NUMBERS else []
        return ", ".join(parts + ([f"owes {self.owes}"] if self.owes else []))


class Verdict:
    """What `osi judge` printed: `lines` by side and name, and the fields of the last line, which may be missing."""

    def __init__(self, rows):
        self.rows, self.lines = rows, {}
        found = LAST.fullmatch(rows[-1])
        self.last = found.groupdict() if found else {**dict.fromkeys(LAST.groupindex), "why": "osi judge names no verdict"}
        for row in rows[:-1] if found else rows:
            name, fields = line_of(row)
            self.lines[fields["side"], name] = fields

    @property
    def first(self):
        """The side that broke the protocol or left the profile first, or None."""
        return self.last["first"]

    def fields(self, side, *names):
        """The fields of the first of these lines that a side has, or None."""
        return next((self.lines[side, name] for name in names if (side, name) in self.lines), None)

    def state(self, side):
        """The state of a side, or None if it is not printed."""
        found = self.fields(side, "kept", "knew")
        return State(found) if found else None

    def break_of(self, side):
        """Where a side broke the protocol or left the profile: offset, what and rule; or None. On several connections, the first."""
        return self.last if side == self.first else self.fields(side, "broke", "leaves", "stopped")


def line_of(row):
    """The name of a line and its fields."""
    for name, pattern in LINES.items():
        found = pattern.fullmatch(row)
        if found:
            return name, found.groupdict()
    raise BadInput(f"`osi judge` prints no such line: {row[:60]!r}")


def read(text):
    """Reads verdicts, one after the other: each ends with its last line."""
    found, rows = [], []
    for row in text.rstrip("\n").split("\n"):
        rows.append(row)
        if LAST.fullmatch(row):
            found.append(Verdict(rows))
            rows = []
    if rows or not found:
        raise BadInput("what `osi judge` printed has no verdict as its last line")
    return found


def printed(text):
    """What `osi judge` printed of one capture."""
    return Verdict(text.rstrip("\n").split("\n"))


def letters(bits):
    """The names of tokens as letters: d, m, M, r."""
    return [letter for (_, bit, _), letter in zip(TOKENS, "dmMr") if bits & bit]


def sentence(verdict):
    """The last line as a sentence."""
    if verdict.first is None:
        return "Both sides kept the protocol." if verdict.last["why"] is None else f"Not judged: {verdict.last['why']}."
    did = "broke the protocol first" if is_broken(verdict.last) else "was the first to leave the profile"
    return f"{verdict.first} {did}, {place_of(verdict.last)}."


def is_broken(found):
    """Whether a side broke the protocol, and didn't only leave the profile: as `osi judge` says."""
    return found["did"].startswith("broke")


def did_too(found):
    """What a side did after the other one."""
    return "broke the protocol too" if is_broken(found) else "left the profile too"


def place_of(found):
    """Where a break is: the offset of its packet, or of octets that are none."""
    return f"{'at its' if found['rule'] in rules.OF_PACKETS else 'in its packet at'} octet {found['offset']}"


def reason(verdict, side, packet=None, octets=None):
    """What a side sent that it may not send, why it may not, and the clause that says so. `packet` is what is known of the packet, if
    anything is; `octets` what both sides sent."""
    found = verdict.break_of(side)
    clause = rules.clause_of(found["what"], found["rule"])
    quoted = f" ({clause})" if clause else ""
    if found["rule"] in rules.OF_PACKETS:
        text = rules.why(found["what"], found["rule"], known_of(verdict, side, octets))
        return f"{text[0].upper()}{text[1:]}{quoted}."
    sent = rules.SENT.get(found["what"], found["what"])
    if found["rule"] == "TokenNotHeld":
        return f"It sent {sent}; {tokens_missed(verdict, side, found['what'], packet)}{quoted}."
    return f"It sent {sent}; {rules.why(found['what'], found['rule'], known_of(verdict, side, octets))}{where(verdict, side)}{quoted}."


def known_of(verdict, side, octets):
    """What is known of the state of a side at its break, and of the packet."""
    state, found = verdict.state(side), verdict.break_of(side)
    known = {"phase": state.phase, **state.numbers} if state else {}
    return {**known, **packets.known_of(octets, side, int(found["offset"]))} if octets else known


def where(verdict, side):
    """Where in a TSDU a fault is, if that is told."""
    found = verdict.fields(side, "fault")
    if not found or verdict.break_of(side)["what"] != "TSDU":
        return ""
    return f": octet {found['at']} of the TSDU" + (f", parameter {found['code']}" if found["code"] else "")


def tokens_missed(verdict, side, what, packet):
    """Which tokens a side did not hold, and since when the other side held them, if that is known."""
    state = verdict.state(side)
    needed = (packet and packet.tokens) if what == "Give" else NEEDS.get(what)
    missed = [name for name, bit, _ in TOKENS if name in (needed or ()) and (len(needed) == 1 if state is None else not state.held & bit)]
    since = {name: packet.since(other(side), name) for name in missed} if packet else {}
    told = [f"the {tokens} with {other(side)} since {place}" for tokens, place in together(since)]
    if told:
        return ", and ".join(told)
    return f"it did not hold the {missed[0]} token" if len(missed) == 1 else "it did not hold the tokens for that"


def together(since):
    """Tokens that a side held since the same packet, in words, with that packet."""
    for place in dict.fromkeys(place for place in since.values() if place):
        names = [name for name in since if since[name] == place]
        yield ", ".join(names[:-1]) + " and " * (len(names) > 1) + names[-1] + (" tokens were" if len(names) > 1 else " token was"), place


def how_near(verdict, side):
    """How much the session that came nearest had received of what had passed."""
    knew = verdict.fields(side, "knew")
    if not knew or verdict.break_of(side) is None:
        return None
    return (f"The session that comes nearest had taken {knew['taken']} of the {knew['passed']} TSDUs of {other(side)} that had passed, "
            f"and was in the phase {knew['phase']}.")


def box(verdict, packet=None, octets=None):
    """The lines of the box below a picture, the most important first."""
    rows = [sentence(verdict)]
    if verdict.first:
        rows += [text for text in (reason(verdict, verdict.first, packet, octets), how_near(verdict, verdict.first)) if text]
    for side in SIDES:
        later = verdict.break_of(side)
        if later and verdict.first not in (None, side):
            rows.append(f"Later {side} {did_too(later)}, {place_of(later)}: {later['what']} {later['rule']}.")
    rows[0] = rows[0][0].upper() + rows[0][1:]
    return rows + [f"osi judge: {verdict.rows[-1]}"]
