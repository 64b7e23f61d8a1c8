"""Writes a listing of both directions in two columns, with times: what the left side sent on the left."""
from .streams import SIDES

TIME, LEAST = 11, 20


def cut(text, width):
    """A text of at most so many columns; a longer one is cut, and ends with an ellipsis."""
    return text if len(text) <= width else text[:width - 1] + "\u2026"


def rows(lines, whole, when):
    """The rows of lines, no longer than `whole`; `when` gives the time of a line as it is printed."""
    width = max(LEAST, (whole - TIME - 6) // 2)
    yield f"{'seconds':>{TIME}} | {'left':{width}} | right"
    for line in lines:
        text = cut(line.text, width)
        left, right = (text, "") if line.side == SIDES[0] else ("", text)
        yield f"{when(line)} | {left:{width}} | {right}".rstrip()
