"""Reads what `osi pair` prints: a line for each event, and the lines of the indications that users received because of it."""
import re

SIDES = ("left", "right")
CALLS = ("accept", "refuse", "data", "give", "please", "minor", "minorconfirm", "major", "majorconfirm",
         "restart", "restartconfirm", "release", "releaseaccept", "releaserefuse", "abort")
# The indication that a call of the other user causes.
SHOWN_BY = {"connect": "Connect", "accept": "Connected", "refuse": "Refused", "data": "Data", "give": "Given",
            "please": "Asked", "minor": "Minor", "minorconfirm": "MinorConfirmed", "major": "Major",
            "majorconfirm": "MajorConfirmed", "restart": "Restart", "restartconfirm": "Restarted",
            "release": "Release", "releaseaccept": "Released", "releaserefuse": "ReleaseRefused",
            "abort": "Aborted"}
DATA = r"(?P<data>-|(?:[0-9a-f]{2})+)"
NUMBER = r"(?P<number>\d+)"
SHOWN = [re.compile(text) for text in (
    r"(?P<name>Connect|Connected) units (?P<units>[0-9a-f]{4}) serial (?P<serial>-|\d+) "
    r"sides (?P<sides>[arc]{4}) data " + DATA + r"(?: tsdu (?P<asker>\d+) (?P<answerer>\d+))?",
    r"(?P<name>Refused) transport (?P<reason>\d+)",
    r"(?P<name>Refused) session (?P<cause>\d+) data " + DATA,
    r"(?P<name>Data) " + DATA,
    r"(?P<name>Given) (?P<tokens>[0-9a-f]{2})",
    r"(?P<name>Asked) (?P<tokens>[0-9a-f]{2}) data " + DATA,
    r"(?P<name>Minor) " + NUMBER + " confirm (?P<confirm>yes|no) data " + DATA,
    r"(?P<name>MinorConfirmed|Major) " + NUMBER + " data " + DATA,
    r"(?P<name>Restart|Restarted) " + NUMBER + " sides (?P<sides>[arc]{4}) data " + DATA,
    r"(?P<name>MajorConfirmed|Release|Released|ReleaseRefused|Aborted) data " + DATA,
    r"(?P<name>ProviderAbort) (?:Lost|Peer [0-9a-f]{2}|Unit \w+)")]
SHOWN_OF = {}
for pattern in SHOWN:
    for word in re.match(r"\(\?P<name>([^)]*)\)", pattern.pattern).group(1).split("|"):
        SHOWN_OF.setdefault(word, []).append(pattern)
STANDING = re.compile(r"phase (?P<phase>\w+) held (?P<held>[0-9a-f]{2}) next (?P<next>\d+) "
                      r"below (?P<below>\d+) lowest (?P<lowest>\d+)")
STOP = re.compile(r"line \d+ (refused|NotBroken|AlreadyBroken)")


class BadInput(Exception):
    """The input can't be read; the text is one line for the user."""


class Line:
    """A line of a transcript.

    `kind` is `connect`, `call`, `carried`, `broken`, `told`, `shown` (an indication), `standing` or `stop`; `name` is that of
    the call or the indication; `error` is why a call was refused, or None."""

    __slots__ = ("index", "text", "kind", "side", "reference", "connection", "name", "error", "octets", "fields")

    def __init__(self, index, text, kind, side=None, reference=None):
        self.index, self.text, self.kind, self.side, self.reference = index, text, kind, side, reference
        self.connection = self.name = self.error = None
        self.octets, self.fields = 0, {}

    @property
    def data_octets(self):
        """How many octets of user data the line has, or None."""
        data = self.fields.get("data")
        return None if data is None else 0 if data == "-" else len(data) // 2


def other(side):
    """The other side."""
    return "right" if side == "left" else "left"


def read(text):
    """The lines of a transcript, or `BadInput`."""
    rows = text.split("\n")
    if rows and not rows[-1]:
        rows.pop()
    lines = [read_line(index, row) for index, row in enumerate(rows)]
    if not lines:
        raise BadInput("there is no line")
    name_connections(lines)
    return lines


def read_line(index, text):
    """Reads one line."""
    words = text.split(" ", 3)
    found = None
    if text == "broken":
        return Line(index, text, "broken")
    if STOP.fullmatch(text):
        return Line(index, text, "stop")
    if len(words) > 1 and words[0] in SIDES:
        found = read_of_side(index, text, words)
    if found is None:
        raise BadInput(f"line {index + 1} is no line of a transcript: {text[:60]!r}")
    return found


def read_of_side(index, text, words):
    """Reads a line that begins with a side, or gives None."""
    side, word = words[0], words[1]
    if word == "told" and len(words) == 2:
        return Line(index, text, "told", side)
    if word == "carried" and len(words) == 3 and is_number(words[2]):
        line = Line(index, text, "carried", side)
        line.octets = int(words[2])
        return line
    if word == "connect" and side == "left" and len(words) == 4:
        return read_connect(index, text, words)
    if is_number(word) and len(words) > 2:
        return read_of_connection(index, text, side, int(word))
    return None


def is_number(word):
    """Whether a word is decimal digits."""
    return word.isascii() and word.isdigit() and len(word) < 12


def read_connect(index, text, words):
    """Reads the answer to a connect, or gives None."""
    line = Line(index, text, "connect", "left")
    line.name = "connect"
    if words[2] == "ok" and is_number(words[3]):
        line.reference = int(words[3])
        return line
    line.error = words[3]
    return line if words[2] == "refused" and words[3].isalnum() else None


def read_of_connection(index, text, side, reference):
    """Reads the answer to a call, an indication, or the state of a connection; or gives None."""
    rest = text.split(" ", 2)[2]
    name, _, answer = rest.partition(" ")
    line = Line(index, text, "shown", side, reference)
    line.name = name
    if name in CALLS:
        line.kind = "call"
        verdict, _, line.error = answer.partition(" ")
        line.error = line.error or None
        fits = answer == "ok" or (verdict == "refused" and line.error and line.error.isalnum())
        return line if fits else None
    if name == "phase":
        line.kind = "standing"
        found = STANDING.fullmatch(rest)
    else:
        found = next(filter(None, (pattern.fullmatch(rest) for pattern in SHOWN_OF.get(name, ()))), None)
    if found is None:
        return None
    line.fields = {key: value for key, value in found.groupdict().items() if value is not None}
    return line


def name_connections(lines):
    """Gives each line the connection that it belongs to, by the reference at the left.

    The right end gives references in the order in which it agrees to connections, so those that the
    transport refused have none there."""
    asked = [line.reference for line in lines if line.kind == "connect" and not line.error]
    denied = {line.reference for line in lines
              if line.side == "left" and line.name == "Refused" and "reason" in line.fields}
    agreed = [reference for reference in asked if reference not in denied]
    for line in lines:
        if line.reference is None or line.error == "NoSuchConnection":
            continue
        if line.side == "left":
            line.connection = line.reference
        elif 0 < line.reference <= len(agreed):
            line.connection = agreed[line.reference - 1]
        else:
            line.connection = line.reference


def connections(lines):
    """The connections of some lines, in rising order."""
    return sorted({line.connection for line in lines if line.connection is not None})
