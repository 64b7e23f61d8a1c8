"""The picture of a capture of both sides: its packets in the order in which they passed, the state of each side, and the verdict."""
import time

from . import choosing, script, verdicts
from .history import TOKENS, Band
from .picture import TIMES_KEY, Picture, Row
from .tapped import Piece, arrow_of, note_upper, octets_of, plain_data, read, row_of, steps_of, text_of, times_of
from .transcript import SIDES, BadInput, other

KEY = ("● a packet as it passed the tap; the number before it is its offset in its direction · × the packet that broke the protocol",
       "Grey, beside a packet: how each side stood after it, by osi judge, if that side had received everything that had passed.",
       "Bands beside a life line, from left to right: the data (d), minor (m), major (M) and release (r) tokens that this side held.")
# What trials/witnesses.py takes from here: it reads captures as `osi judge` does.
__all__ = ["read"]
# The program is asked after so many packets at most, so many of them before the break; only once if that took more than SLOW
# seconds, and no more after LONGEST seconds.
MOST, BEFORE, SLOW, LONGEST = 300, 270, 5, 60


def up_to(pieces, steps, last):
    """The pieces up to the last octet of a step, and so much of the other side as had passed by then."""
    side, end = steps[last].passed
    kept, counts = [], dict.fromkeys(SIDES, 0)
    for piece in pieces:
        octets = piece.octets[:end - counts[side]] if piece.side == side else piece.octets
        counts[piece.side] += len(piece.octets)
        kept.append(Piece(piece.side, octets))
        if counts[side] >= end:
            break
    return kept


def window(steps, verdict):
    """The steps after which the program is asked: all of them, or those around the break if there are very many."""
    if len(steps) <= MOST:
        return range(len(steps))
    broken = broken_step(steps, verdict)
    first = max(0, (len(steps) if broken is None else broken) - BEFORE)
    return range(min(first, len(steps) - MOST), min(first, len(steps) - MOST) + MOST)


def ask(pieces, steps, judge):
    """The verdict on everything. Steps get the verdict on everything up to them, those that are nearest to the break first."""
    began = time.monotonic()
    whole = verdicts.printed(judge(text_of(pieces)))
    broken, places = broken_step(steps, whole), window(steps, whole)
    nearest = sorted(places, key=lambda place: abs(place - (places[-1] if broken is None else broken)))
    for place in nearest if time.monotonic() - began < SLOW else ():
        if time.monotonic() - began > LONGEST:
            break
        steps[place].verdict = verdicts.printed(judge(text_of(up_to(pieces, steps, place))))
    return whole


def given(steps, told):
    """The verdict on everything, from stored verdicts: one for each step, or only one."""
    if len(told) == len(steps):
        for step, verdict in zip(steps, told):
            step.verdict = verdict
    elif len(told) != 1:
        raise BadInput(f"there are {len(told)} verdicts and {len(steps)} packets")
    return told[-1]


def broken_step(steps, verdict, side=None):
    """The step of the packet that a side broke the protocol with, the first that did if none is named; or None."""
    side = side or verdict.first
    found = side and verdict.break_of(side)
    offsets = [(step.side, step.start) for step in steps]
    place = (side, int(found["offset"])) if found else None
    return offsets.index(place) if place in offsets else None


def picture_of(pieces, listings, title, judge=None, told=None, first="1", last=str(10 ** 12), upper=None):
    """The picture of a capture from one place to another. `judge` gives what `osi judge` prints for a text; or `told` has the verdicts.
    `upper` is what tshark calls the layers above, by frame."""
    every = steps_of(pieces, listings)
    if not every:
        raise BadInput("there is no packet in the capture")
    verdict = given(every, told) if told else ask(pieces, every, judge)
    broken = broken_step(every, verdict)
    bands_of(every)
    wrong = {broken_step(every, verdict, side) for side in SIDES if verdict.break_of(side)}
    packet = None if broken is None else every[broken]
    steps, notes = choosing.shown(every, first, last, lambda step: alike(step, [every[at] for at in wrong if at is not None]), packet)
    times = times_of(pieces, steps)
    made = Picture(title, describe(every, verdict))
    made.key, made.connections = KEY + (TIMES_KEY if any(times) else ()), [1]
    made.is_chosen = True
    made.spans = {(side, 1): (0, end_of(steps, side)) for side in SIDES}
    add_rows(made, steps, verdict, times, upper)
    made.verdict = verdicts.box(verdict, packet, {side: octets_of(pieces, side) for side in SIDES})
    made.bands = bands_of(steps)
    made.is_wrong = verdict.first is not None
    made.notes = notes_of(every) + notes
    return made


def alike(step, wrong):
    """What a packet with nothing but data has in common with others after which both sides stood as after it; None for any other, and
    for those that broke the protocol."""
    data = plain_data(step)
    if data is None or step in wrong:
        return None
    states = [step.verdict and step.verdict.state(side) for side in SIDES]
    return (*data, *(state and state.text(True) for state in states))


def told(pieces, listings, judge):
    """What `osi judge` prints after each packet, one text after the other."""
    steps = steps_of(pieces, listings)
    whole = ask(pieces, steps, judge)
    kept = [step.verdict for step in steps if step.verdict]
    return "".join(row + "\n" for verdict in (kept if len(kept) == len(steps) else [whole]) for row in verdict.rows)


def describe(steps, verdict):
    """A description of the picture, for a reader who can't see it."""
    counts = {side: sum(step.side == side for step in steps) for side in SIDES}
    return (f"A ladder of a capture of both sides, time downwards: {counts['left']} packets of left and {counts['right']} of right, "
            f"in the order in which they passed. {' '.join(verdicts.box(verdict)[:2])}")


def add_rows(made, steps, verdict, times, upper=None):
    """Adds for each packet its row and its arrow, and a row with the state of the other side if that has changed."""
    broken = {broken_step(steps, verdict, side) for side in SIDES if verdict.break_of(side)}
    has_points = {side: any(state and state.numbers["next"] for state in states(steps, side)) for side in SIDES}
    shown, over = dict.fromkeys(SIDES), set()
    for place, step in enumerate(steps):
        index, is_wrong = 2 * place, place in broken
        mark = "refused" if is_wrong else "call" if step.packet.octets else "carried"
        row = row_of(step, index, times[place], 1, mark)
        made.rows.append(row)
        row.pause = choosing.pause(steps[place - 1] if place else None, step)
        if is_wrong:
            row.note = "this broke the protocol" if verdicts.is_broken(verdict.break_of(step.side)) else "this left the profile"
            over.add(step.side)
        for side in (step.side, other(step.side)):
            state = step.verdict and side not in over and step.verdict.state(side)
            told = state and state.text(has_points[side])
            if not told or told == shown[side]:
                continue
            shown[side] = told
            if side == step.side:
                row.note = f"{row.note}; {told}" if step.others and row.note else told
            else:
                made.rows.append(Row(index + 1, told, told, side, 1, "standing"))
                made.rows[-1].muted = True
        note_upper(row, step, upper)
        if step.packet.octets:
            made.arrows.append(arrow_of(step, index, made.rows[-1].index, times[place], 1))
            made.arrows[-1].wrong = is_wrong


def states(steps, side):
    """How a side stood after each step, or None."""
    return [step.verdict and step.verdict.state(side) for step in steps]


def end_of(steps, side):
    """The row at which the connection of a side has ended, or None."""
    for place, step in enumerate(steps):
        state = step.verdict and step.verdict.state(side)
        if state and state.phase == "Ended" and not step.verdict.break_of(side):
            return 2 * place + (side != step.side)
    return None


def bands_of(steps):
    """The tokens that each side held, from the row of a packet to that of another; each step knows those that are held as it passes."""
    found, is_open = [], {}
    for place, step in enumerate(steps):
        step.bands = list(is_open.values())
        for side in SIDES:
            state = step.verdict and step.verdict.state(side)
            over = step.verdict and step.verdict.break_of(side)
            row = 2 * place + (side != step.side)
            for name, bit, _ in TOKENS:
                held = bool(state and not over and state.held & bit)
                if held and (side, name) not in is_open:
                    since = f"{step.side}'s packet at octet {step.start}" if place and steps[place - 1].verdict else None
                    is_open[side, name] = Band(side, 1, name, row, since)
                    found.append(is_open[side, name])
                elif not held and (side, name) in is_open:
                    is_open.pop((side, name)).end = row
    for band in is_open.values():
        band.end = 2 * len(steps)
    return found


def notes_of(steps):
    """The notes below the picture."""
    asked = [place for place, step in enumerate(steps) if step.verdict]
    if len(asked) == len(steps):
        return []
    if not asked:
        return ["How each side stood is not shown: one judgement took too long to be asked for after each packet, or only one was given."]
    return [f"How each side stood is shown from octet {steps[asked[0]].start} of {steps[asked[0]].side} to octet "
            f"{steps[asked[-1]].start} of {steps[asked[-1]].side}: of {len(steps)} packets, the {len(asked)} around the verdict."]


def runner(program, progress):
    """A function that gives what `osi judge` prints for a text; `program` is the name or path of `osi`."""
    return lambda text: script.run(program, "judge", text, progress("osi judge"))
