"""What `osi-capture judge --json` says of a stream and `osi-capture watch --json` of a line, as objects of docs/judge.schema.json."""
from ladders import rules, verdicts

from . import listing, texts
from .asking import named, shown
from .streams import SIDES


def of(report):
    """The object of a stream."""
    found = {"file": shown(report.file), "stream": report.stream.number, "left": None, "right": None}
    if not isinstance(report.stream, texts.Text):
        found.update({side: named(end) for side, end in report.stream.by_end().items()})
    begin = listing.begin(report.stream)
    judged = report.judged
    found.update({"verdict": verdict_of(judged), "why": report.why or (judged.verdict.last["why"] if judged else None),
                  "first": first_of(judged), "breaks": breaks_of(judged), "limit": limit_of(judged), "ended": ended_of(report.ended, begin),
                  "lines": judged.verdict.rows if judged else []})
    return found


def verdict_of(judged):
    """The verdict in a word: kept, broke, left, or none."""
    if judged is None:
        return "none"
    if judged.verdict.first:
        return "broke" if verdicts.is_broken(judged.verdict.last) else "left"
    return "kept" if judged.is_kept() else "none"


def break_of(judged, side):
    """The break of a side; or None."""
    found = judged.verdict.break_of(side)
    if not found:
        return None
    return told(found, side, *(judged.place(side) or (None, None)))


def told(fields, side, frame, time):
    """The break of a side that a line of `osi judge` tells."""
    return {"side": side, "octet": int(fields["offset"]), "frame": frame, "time": None if time is None else round(time, 6),
            "what": fields["what"], "rule": fields["rule"], "clause": rules.clause_of(fields["what"], fields["rule"])}


class Line(str):
    """A line of a watch; and the break that it is about, or None."""

    found = None

    def about(self, found):
        """The line with its break, an object with a sentence."""
        self.found = found
        return self


def of_line(watched, name, line):
    """The object of a line of a watch on a stream."""
    ends = {side: named(end) for side, end in watched.by_end().items()}
    return {"stream": watched.number, "name": name, **ends, "line": line, "break": getattr(line, "found", None)}


def first_of(judged):
    """The break that passed first, with its sentence; or None."""
    if judged is None or not judged.verdict.first:
        return None
    return {**break_of(judged, judged.verdict.first), "sentence": judged.sentence()}


def breaks_of(judged):
    """The breaks of both sides."""
    return [found for found in (break_of(judged, side) for side in SIDES) if found] if judged else []


def limit_of(judged):
    """Why a stream isn't judged to its end; or None."""
    if judged is None or not judged.limit:
        return None
    return {"text": judged.limit, **{name: getattr(judged.gap, name, None) for name in ("side", "octets", "frame")}}


def ended_of(ended, begin):
    """How a stream ended; times are seconds since the first octets."""
    found = [each.told() for each in ended]
    return [{**each, "time": None if each["time"] is None else round(each["time"] - begin, 6)} for each in found]
