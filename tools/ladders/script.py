"""Reads a script of two ends, and runs `osi pair` on it."""
import os
import re
import subprocess
import threading

from .lengths import SIZES
from .transcript import BadInput, CALLS

TOP = os.path.dirname(os.path.dirname(os.path.dirname(os.path.abspath(__file__))))
# The characters that the program reads at most, and the octets of a capture of one side that these spell.
LONGEST = 16_777_216
MOST_OCTETS = LONGEST // 2
SETTINGS = ("caller", "called", "size", "window")
WORDS_OF = {"accept": ("units", "serial", "sides", "data"), "give": ("tokens",), "please": ("tokens", "data"),
            "minor": ("confirm", "data"), "minorconfirm": ("number", "data"),
            "restart": ("number", "sides", "data"), "restartconfirm": ("sides", "data"),
            "connect": ("units", "serial", "sides", "data")}

ENDS = re.compile(r"ends (0|2|20) (0|2|20) 0*([7-9]|1[0-3]) 0*([1-9]|1[0-5])")
FIELDS = {"units": re.compile(r"[0-9a-fA-F]{4}"), "serial": re.compile(r"[0-9]{1,40}"),
          "sides": re.compile(r"[arc]{4}"), "data": re.compile(r"-|([0-9a-fA-F]{2})+"),
          "tokens": re.compile(r"[0-9a-fA-F]{2}"), "confirm": re.compile(r"yes|no"),
          "number": re.compile(r"[0-9]{1,40}"), "asker": re.compile(r"[0-9]{1,40}"),
          "answerer": re.compile(r"[0-9]{1,40}")}


class Script:
    """The two ends of a script, and what it asks for: for each event the name and its fields."""

    def __init__(self, ends, events):
        self.ends, self.events = ends, events


def is_script(text):
    """Whether the first line that says something is that of a script."""
    for row in text.split("\n"):
        if row and not row.startswith("#"):
            return row.startswith("ends ")
    return False


def read(text):
    """Reads a script. Lines that are no event are left to `osi pair`."""
    rows = [row for row in text.split("\n") if row and not row.startswith("#")]
    if not rows or not ENDS.fullmatch(rows[0]):
        raise BadInput("the first line of the script is no `ends CALLER CALLED SIZE WINDOW`")
    words = rows[0].split(" ")
    ends = dict(zip(SETTINGS, [words[1], words[2], int(words[3]), int(words[4])]))
    return Script(ends, [event_of(row.split(" ")) for row in rows[1:]])


def event_of(words):
    """The name and the fields of an event; no fields if the words don't fit."""
    name, rest = words[0], words[1:]
    if name in ("left", "right") and len(words) > 2:
        name, rest = words[2], words[3:]
    if name == "carry":
        return name, {}
    if name != "connect" and name not in CALLS:
        return name, {}
    keys = WORDS_OF.get(name, ("data",))
    if name in ("connect", "accept") and len(rest) == len(keys) + len(SIZES):
        keys += SIZES
    fits = len(keys) == len(rest) and all(FIELDS[key].fullmatch(word) for key, word in zip(keys, rest))
    return name, {key: word.lower() for key, word in zip(keys, rest)} if fits else {}


def match(script, lines):
    """The fields of the event that each line answers, by the index of the line."""
    answers = [line for line in lines if line.kind in ("connect", "call", "carried", "broken", "told")]
    asked = {}
    for line, (name, fields) in zip(answers, script.events):
        wanted = {"carried": "carry", "broken": "break", "told": "told"}.get(line.kind, line.name)
        if name != wanted:
            raise BadInput(f"line {line.index + 1} of the transcript is no answer to `{name}` of the script")
        asked[line.index] = fields
    return asked


def title_of(text):
    """The comment with which a script begins, or None."""
    first = text.split("\n", 1)[0]
    return first[1:].strip() or None if first.startswith("#") else None


def beside():
    """The program `osi` of this repository, or the one that was installed beside this program, or the one on the path."""
    places = os.path.join(TOP, "osi"), os.path.join(os.path.dirname(os.path.realpath(TOP)), "bin", "osi")
    return next((place for place in places if os.path.isfile(place) and os.access(place, os.X_OK)), "osi")


def run(program, word, text, tick=lambda seconds: None):
    """Runs the program `osi` on a text, or on the parts of one, and gives what it prints; `BadInput` if it prints nothing."""
    parts = [text] if isinstance(text, str) else text
    if word != "judge" and sum(map(len, parts)) > LONGEST:
        raise BadInput(f"this is {sum(map(len, parts)):,} characters of hexadecimal digits and lines, and osi {word} reads at most "
                       f"{LONGEST:,}")
    command = [program or beside(), word]
    try:
        started = subprocess.Popen(command, stdin=subprocess.PIPE, stdout=subprocess.PIPE, stderr=subprocess.PIPE,
                                   encoding="utf-8", errors="replace")
    except OSError as error:
        raise BadInput(f"{command[0]} can't be run: {error.strerror}") from None
    pipe, started.stdin = started.stdin, None
    feeder = threading.Thread(target=feed, args=(pipe, parts), daemon=True)
    feeder.start()
    out, messages = wait(started, tick)
    feeder.join()
    if started.returncode not in (0, 1) or not out:
        said = [row for row in messages.split("\n") if row and not row.startswith(("osi: the proved", "races:"))]
        raise BadInput(f"osi {word} printed nothing" + (f": {said[-1]}" if said else ""))
    return out


def feed(pipe, parts):
    """Writes the parts of a text to a program, which may end before it has read them."""
    try:
        with pipe:
            for part in parts:
                pipe.write(part)
    except OSError:
        pass


def wait(started, tick):
    """Waits for a program: what it prints, and its messages. `tick` is called each second."""
    seconds = 0
    while True:
        try:
            return started.communicate(timeout=1)
        except subprocess.TimeoutExpired:
            seconds += 1
            tick(seconds)
        except BaseException:
            started.kill()
            started.wait()
            raise
