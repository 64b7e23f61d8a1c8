"""Draws docs/floors.svg: the crates of the workspace as floors of a house, octets below and users above.

Each crate of crates.txt has to be in the picture.
"""
import os
import re
import sys
from xml.sax.saxutils import escape

TOP = os.path.dirname(os.path.dirname(os.path.dirname(os.path.abspath(__file__))))
FILE = f"{TOP}/docs/floors.svg"
WIDTH, HEIGHT, ROW, BOX = 960, 818, 74, 50

# The floors of an end, from the top: name, what it is, left edge, width.
FLOORS = [
    [("osi_stack", "one end of a byte connection", 40, 440)],
    [("osi_carrier", "connections, references", 40, 210), ("osi_session", "phases, tokens, points", 270, 210)],
    [("osi_class", "negotiation, links, credit", 40, 210), ("osi_message", "what session units mean", 270, 210)],
    [("osi_tpdu", "transport units (X.224)", 40, 210), ("osi_spdu", "session units (X.225)", 270, 210)],
    [("osi_tpkt", "packets (RFC 1006)", 40, 440)],
]
# What all floors stand on; no octet goes through it.
GROUND = ("osi_unit", "what every grammar of units offers", 40, 440)
# The crates next to the floors, by group: a heading, and crates.
GROUPS = [
    ("Two ends", [("osi_pair", "two ends: the theorem"), ("osi_machine", "whole messages, two sides"),
                  ("osi_between", "two carriers"), ("osi_side", "one side of a session, judged"), ("osi_rules", "rules of transport"),
                  ("osi_judge", "who broke the protocol first"), ("osi_blameless", "an end and a judge")]),
    ("Given away", [("osi_c", "an end for C"), ("osi_tool", "the program osi"), ("osi_listing", "listings of captures"),
                    ("osi_script", "scripts, line by line"), ("osi_transcript", "plays a script on two ends"), ("osi_report", "judges a capture as text"),
                    ("osi_witness", "a script of a capture")]),
    ("Checks the others", [("osi_runs", "stored runs"), ("osi_tests", "tests"),
                           ("osi_example", "an example"), ("osi_bench", "benchmarks and trials")]),
]
STYLE = """text { font: 13px sans-serif; fill: #222 } .name { font-weight: bold } .what { font-size: 11px; fill: #555 }
.floor { fill: #e8f0fa; stroke: #4a78b0 } .beside { fill: #f6f6f0; stroke: #999 } .way { stroke: #b04a4a; stroke-width: 2; fill: none }
.head { font-weight: bold; fill: #444 }"""


def text(x, y, words, kind="", anchor="start"):
    return f'<text x="{x}" y="{y}" class="{kind}" text-anchor="{anchor}">{escape(words)}</text>'


def box(x, y, width, height, kind, name, what):
    middle = x + width / 2
    return [f'<rect x="{x}" y="{y}" width="{width}" height="{height}" rx="4" class="{kind}"/>',
            text(middle, y + height / 2 - 3, name, "name", "middle"), text(middle, y + height / 2 + 13, what, "what", "middle")]


def arrow(x, start, end):
    """A vertical arrow."""
    tip = -6 if end > start else 6
    return f'<path class="way" d="M{x} {start} V{end} m-5 {tip} l5 {-tip} l5 {tip}"/>'


def floors():
    """An end, floor by floor, and the ways of octets, calls and indications."""
    rows, top = [], 70
    rows += [text(110, 30, "calls of users", "", "middle"), text(410, 30, "indications", "", "middle"), arrow(110, 38, top - 4),
             arrow(410, top - 4, 38)]
    for number, floor in enumerate(FLOORS):
        for name, what, x, width in floor:
            rows += box(x, top + number * ROW, width, BOX, "floor", name, what)
    bottom = top + (len(FLOORS) - 1) * ROW + BOX
    rows += [arrow(110, bottom + 36, bottom + 4), arrow(410, bottom + 4, bottom + 36),
             text(110, bottom + 54, "octets that come", "", "middle"), text(410, bottom + 54, "octets to send", "", "middle")]
    name, what, x, width = GROUND
    return rows + box(x, bottom + 74, width, BOX, "beside", name, what)


def beside():
    """The boxes on the floors."""
    rows, y = [], 40
    for heading, crates in GROUPS:
        rows.append(text(540, y, heading, "head"))
        for place, (name, what) in enumerate(crates):
            rows += box(540 + place % 2 * 195, y + 8 + place // 2 * 48, 185, 42, "beside", name, what)
        y += 42 + (len(crates) + 1) // 2 * 48
    return rows


def drawn():
    known = {name for floor in [*FLOORS, [GROUND]] for name, *_ in floor} | {name for _, crates in GROUPS for name, _ in crates}
    with open(f"{TOP}/crates.txt", encoding="utf-8") as file:
        listed = set(re.findall(r"^(osi_\w+)", file.read(), re.M))
    if listed != known:
        sys.exit(f"docs/floors.svg: these crates are only in crates.txt, or only in the picture: {', '.join(listed ^ known)}")
    return "\n".join([f'<svg xmlns="http://www.w3.org/2000/svg" width="{WIDTH}" height="{HEIGHT}" viewBox="0 0 {WIDTH} {HEIGHT}">',
                      "<title>The crates as floors</title>", f"<style>{STYLE}</style>",
                      f'<rect width="{WIDTH}" height="{HEIGHT}" fill="#fff"/>', *floors(), *beside(), "</svg>", ""])


def wrong():
    """What differs in the picture."""
    with open(FILE, encoding="utf-8") as file:
        return "" if file.read() == drawn() else "docs/floors.svg has not the crates as they are"


def write():
    picture = drawn()
    with open(FILE, "w", encoding="utf-8") as file:
        file.write(picture)
