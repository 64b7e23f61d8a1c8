"""Draws a picture in the columns of a terminal: one row for each line."""
from .history import TOKENS
from .picture import cut, wrapped

LETTERS = {"data": "d", "minor": "m", "major": "M", "release": "r"}
SIGNS = {"call": "*", "shown": "o", "refused": "x", "told": "!", "carried": " ", "standing": " "}
LEAST = 60


def draw(picture, first=0, last=10 ** 12, columns=100, progress=None):
    """The rows, each of at most so many columns; the sides and the tokens are aligned."""
    columns, times = max(columns, LEAST), picture.columns_of_times()
    times = times and max(times, len(picture.head_of_times()))
    room = columns - times - bool(times)
    side = (room - 2 * 8 - 6) * 4 // 11
    middle = room - 2 * side - 2 * 8
    held, arrows = holding(picture), {}
    for arrow in picture.arrows:
        arrows.setdefault(arrow.carry, []).append(arrow)

    def timed(text, row):
        """A row with its time in front of it, if the picture has times."""
        return f"{cut(text or '', times):>{times}} {row}" if times else row
    letters = "".join(LETTERS.values()) if picture.has_tokens else ""
    out = [cut(picture.title, columns),
           timed(picture.head_of_times(),
                 row_text("left: the caller", letters, " ", "", " ", letters, "right: the called end", side, middle))]
    if picture.ends:
        out.append(timed("", row_text(picture.ends["left"], "", " ", "", " ", "", picture.ends["right"], side, middle)))
    for row in picture.rows:
        tokens = held(row)
        if first <= row.index <= last:
            if row.pause:
                out.append(timed("", f" {row.pause} ".center(room, "~")))
            out.append(timed(picture.when(row), one_row(row, arrows.get(row.index, []), tokens, side, middle)))
        if progress:
            progress(row.index, picture.rows[-1].index + 1)
    out += box(picture.verdict, columns)
    for note in picture.notes:
        out += wrapped(note, columns, 9)
    return "\n".join(line.rstrip() for line in out) + "\n"


def box(verdict, columns):
    """The verdict in a box, if there is one."""
    rows = [part for text in verdict for part in wrapped(text, columns - 4, 9)]
    edge = "+" + "-" * (columns - 2) + "+"
    return [edge, *(f"| {row:{columns - 4}} |" for row in rows), edge] if rows else []


def holding(picture):
    """A function that gives, for rows in their order, the tokens that both ends of the row's connection hold."""
    if not picture.has_tokens:
        return lambda row: ["", ""]
    starts, ends, now = {}, {}, {}
    for band in picture.bands:
        starts.setdefault(band.start, []).append(band)
        ends.setdefault(band.end, []).append(band)
    waiting = iter(sorted(set(starts) | set(ends)))
    state = {"next": next(waiting, None)}

    def at(row):
        while state["next"] is not None and state["next"] <= row.index:
            for band in ends.get(state["next"], []):
                now.setdefault((band.side, band.connection), set()).discard(band.token)
            for band in starts.get(state["next"], []):
                now.setdefault((band.side, band.connection), set()).add(band.token)
            state["next"] = next(waiting, None)
        number = row.connection
        if number is None and len(picture.connections) == 1:
            number = picture.connections[0]
        return [spelled(now.get((each, number), ())) if number is not None else "    " for each in ("left", "right")]
    return at


def spelled(tokens):
    """The letters of the tokens that are held."""
    return "".join(LETTERS[name] if name in tokens else "." for name, _, _ in TOKENS)


def one_row(row, arrows, tokens, side, middle):
    """A row of the terminal."""
    signs = {"left": "|", "right": "|"}
    texts = {"left": "", "right": ""}
    across = crossing(row, arrows, middle) if row.side else ""
    if row.side:
        sign = SIGNS.get(row.mark, "|")
        signs[row.side] = sign if sign != " " else "|"
        texts[row.side] = row.text + (f" [{row.note}]" if row.note else "")
    else:
        across = cut(f"~~ {row.text} ~~", middle).center(middle, "~" if row.mark == "broken" else " ")
    return row_text(texts["left"], tokens[0], signs["left"], across, signs["right"], tokens[1], texts["right"],
                    side, middle)


def row_text(left, held, sign, across, far_sign, far_held, right, side, middle):
    """A row of its columns, each cut to its width."""
    return (f"{cut(left, side):>{side}} {held:4} {sign} {cut(across, middle - 2):<{middle - 2}} "
            f"{far_sign} {far_held:4} {cut(right, side)}")


def crossing(row, arrows, middle):
    """The arrow of a carry, with what it carries."""
    room = middle - 2
    text = cut(", ".join(arrow.label for arrow in arrows), room - 6)
    text = f" {text} " if text else ""
    stopped = bool(arrows) and arrows[-1].stop in ("rest", "cut", "open")
    body = text.center(room - 1, "-")
    if not arrows:
        return ""
    if row.side == "left":
        return body + ("x" if stopped else ">")
    return ("x" if stopped else "<") + body
