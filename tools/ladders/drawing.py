"""Draws a picture as SVG."""
from bisect import bisect_left
from xml.sax.saxutils import escape

from .style import STYLE, VERDICT, PALETTE
from .picture import cut, wrapped

TEXT, LETTER, LINE_HEIGHT, TOP = 270, 7.25, 15, 76
TEXT_COLUMNS, BAND, GAP, MIDDLE = 36, 8, 14, 250
PAUSE = 22
LETTERS = (("data", "d"), ("minor", "m"), ("major", "M"), ("release", "r"))
PLACES = (0.3, 0.45, 0.6, 0.18, 0.74, 0.86)


class Page:
    """The places on the page: columns by connection, rows by line. `edge` is where the column of times ends, `left` the text of left."""

    def __init__(self, picture, first, last):
        self.picture = picture
        self.step = 4 * BAND + GAP
        count, times = max(len(picture.connections), 1), picture.columns_of_times()
        self.edge = int(LETTER * max(times, len(picture.head_of_times())) + 16) if times else 0
        self.left = self.edge + TEXT
        self.width = self.edge + max(1000, 2 * TEXT + 16 + 2 * count * self.step + MIDDLE)
        self.place = {number: place for place, number in enumerate(picture.connections)}
        self.rows = [row for row in picture.rows if first <= row.index <= last]
        self.lay_out()
        self.parts, self.taken = [], {}

    def lay_out(self):
        """The height of each row, and what is above and below."""
        self.at, self.texts, place = {}, {}, TOP
        for row in self.rows:
            rows = wrapped(row.text, TEXT_COLUMNS, 3)
            notes = wrapped(row.note, TEXT_COLUMNS + 4, 2) if row.note else []
            self.texts[row.index] = rows, notes
            place += PAUSE if row.pause else 0
            self.at[row.index] = place + 11
            place += 8 + LINE_HEIGHT * len(rows) + 13 * len(notes)
        self.top, self.bottom = TOP - 6, place + 6
        self.order = sorted(self.at)
        self.notes = [part for note in self.picture.notes for part in wrapped(note, 128, 3)]
        self.box = [part for text in self.picture.verdict for part in wrapped(text, 116, 3)]
        self.below = self.bottom + (18 * len(self.box) + 26 if self.box else 0)
        self.height = self.below + 28 + 16 * (len(self.picture.key) + len(self.notes))

    def y(self, index):
        """The height of a line. A line that is not drawn has that of the next one that is, or that of an edge."""
        found = self.at.get(index)
        if found is not None:
            return found
        if not self.order or index < self.order[0]:
            return self.top
        if index > self.order[-1]:
            return self.bottom
        return self.at[self.order[bisect_left(self.order, index)]]

    def x(self, side, connection):
        """The life line of an end of a connection."""
        inwards = TEXT + 8 + self.place.get(connection, 0) * self.step + 4 * BAND + 3
        return self.edge + inwards if side == "left" else self.width - inwards

    def inner(self, x, width):
        """The place nearest to x at which a label covers no life line."""
        last = self.picture.connections[-1] if self.picture.connections else None
        left, right = self.x("left", last) + 8 + width / 2, self.x("right", last) - 8 - width / 2
        return min(max(x, left), right)

    def colour(self, connection):
        """The classes of a connection: its colour, and a dash if colours come again."""
        place = self.place.get(connection, 0)
        return f"c{place % PALETTE}" + (f" s{min(place // PALETTE, 3)}" if place >= PALETTE else "")

    def add(self, text):
        """A part of the page."""
        self.parts.append(text)

    def free(self, x, y, width):
        """Takes a place for a label if no label is there; whether it did."""
        slot = int(y // 13)
        for near in (slot - 1, slot, slot + 1):
            for left, right, height in self.taken.get(near, ()):
                if abs(height - y) < 13 and left < x + width / 2 and x - width / 2 < right:
                    return False
        self.taken.setdefault(slot, []).append((x - width / 2, x + width / 2, y))
        return True


def draw(picture, first=0, last=10 ** 12, progress=None):
    """The SVG of the lines `first` to `last` of a picture."""
    page = Page(picture, first, last)
    head(page)
    for band in picture.bands:
        draw_band(page, band)
    for (side, connection), span in picture.spans.items():
        draw_life(page, side, connection, span)
    for row in page.rows:
        if row.mark == "broken":
            draw_break(page, row)
        elif row.mark == "refused" and picture.verdict:
            page.add(f'<rect class="wrong" x="8" y="{page.at[row.index] - 9}" width="{page.width - 16}" height="18"/>')
    shown = [arrow for arrow in picture.arrows if arrow.end >= first and arrow.start <= last]
    labels = [draw_arrow(page, arrow) for arrow in sorted(shown, key=lambda arrow: arrow.minor)]
    page.parts.extend(labels)
    for count, row in enumerate(page.rows):
        draw_row(page, row)
        if progress:
            progress(count, len(page.rows))
    foot(page)
    page.add("</svg>\n")
    return "\n".join(part for part in page.parts if part)


def head(page):
    """Draws the beginning of the page: its title, its style, and the heads of the columns."""
    picture, middle = page.picture, page.width / 2
    page.add(f'<svg xmlns="http://www.w3.org/2000/svg" width="{page.width}" height="{page.height}" '
             f'viewBox="0 0 {page.width} {page.height}" role="graphics-document" aria-labelledby="title" '
             f'aria-describedby="description">')
    page.add(f'<title id="title">{escape(picture.title)}</title>')
    page.add(f'<desc id="description">{escape(picture.description)}</desc>')
    page.add(STYLE + (VERDICT if picture.verdict else ""))
    page.add(f'<rect class="paper" width="{page.width}" height="{page.height}"/>')
    page.add(f'<text class="head" x="{middle}" y="24" text-anchor="middle">{escape(cut(picture.title, 112))}</text>')
    if page.edge:
        page.add(f'<text class="muted" x="{page.edge}" y="50" text-anchor="end">{picture.head_of_times()}</text>')
    page.add(f'<text class="head" x="{page.left}" y="50" text-anchor="end">left: the caller</text>')
    page.add(f'<text class="head" x="{page.width - TEXT}" y="50">right: the called end</text>')
    for side, place, anchor in (("left", page.left, "end"), ("right", page.width - TEXT, "start")):
        if picture.ends.get(side):
            end = escape(cut(picture.ends[side], TEXT_COLUMNS))
            page.add(f'<text class="muted" x="{place}" y="65" text-anchor="{anchor}">{end}</text>')
    for connection in picture.connections:
        for side in ("left", "right"):
            x = page.x(side, connection)
            page.add(f'<text class="number {page.colour(connection)}" x="{x}" y="50" '
                     f'text-anchor="middle">{connection}</text>')
            for place, (_, letter) in enumerate(LETTERS if picture.has_tokens else ()):
                page.add(f'<text class="tiny" x="{band_x(page, side, connection, place) + BAND / 2}" y="64" '
                         f'text-anchor="middle">{letter}</text>')


def band_x(page, side, connection, place):
    """The left edge of the band of a token, outside of the life line."""
    x = page.x(side, connection)
    return x - 4 - (4 - place) * BAND if side == "left" else x + 4 + place * BAND


def draw_band(page, band):
    """Draws the band of a token, from the line at which the end got it to that at which it gave it away."""
    top, bottom = page.y(band.start), page.y(band.end)
    if bottom <= top:
        return
    place = [name for name, _ in LETTERS].index(band.token)
    x = band_x(page, band.side, band.connection, place)
    page.add(f'<g class="band {page.colour(band.connection)}" data-side="{band.side}" '
             f'data-connection="{band.connection}" data-token="{band.token}"><title>{band.side} holds the {band.token} '
             f'token of connection {band.connection}, from line {band.start + 1}</title>'
             f'<rect class="t{place}" x="{x + 0.5}" y="{top}" width="{BAND - 1}" height="{bottom - top}"/></g>')


def draw_life(page, side, connection, span):
    """Draws the life line of an end of a connection, with a double bar at its end."""
    x, begun, ended = page.x(side, connection), page.y(span[0]), page.bottom if span[1] is None else page.y(span[1])
    colour = page.colour(connection)
    page.add(f'<path class="way {colour}" d="M{x} {page.top}V{page.bottom}"/>')
    if ended > begun:
        page.add(f'<path class="life {colour}" d="M{x} {begun}V{ended}"/>')
    if span[1] is not None and span[1] in page.at:
        page.add(f'<path class="end {colour}" d="M{x - 7} {ended}H{x + 7}M{x - 7} {ended + 4}H{x + 7}"/>')


def draw_break(page, row):
    """Draws a break of the byte connection, across the middle."""
    y, left, right = page.at[row.index], page.left + 10, page.width - TEXT - 10
    steps = int((right - left) // 12)
    points = " ".join(f"{left + 12 * step},{y + (4 if step % 2 else -4)}" for step in range(steps + 1))
    page.add(f'<polyline class="break" points="{points}"/>')
    page.free((page.edge + page.width) / 2, y, 80)


def draw_arrow(page, arrow):
    """Draws an arrow, and gives its label, which is drawn above all arrows."""
    number = arrow.connection if arrow.connection is not None else (page.picture.connections or [1])[0]
    start, end = page.x(arrow.side, number), page.x("right" if arrow.side == "left" else "left", number)
    way = end - start
    x0, y0, x1, y1 = start + way * arrow.begin, page.y(arrow.start), start + way * arrow.reach, page.y(arrow.end)
    if arrow.stop == "dropped":
        x1 -= 14 if way > 0 else -14
    kind = "plain" if arrow.connection is None else page.colour(arrow.connection)
    kind += (" minor" if arrow.minor else "") + (" open" if arrow.stop == "open" else "") + (" wrong" if arrow.wrong else "")
    parts = [f'<g class="arrow {kind}"><title>{escape(arrow.whole)}</title>'
             f'<path class="shaft" d="M{x0:.1f} {y0}L{x1:.1f} {y1}"/>', tip(x0, y0, x1, y1, arrow.stop), "</g>"]
    page.add("".join(parts))
    width = 6.4 * len(arrow.label) + 4
    for part in PLACES:
        x, y = page.inner(x0 + (x1 - x0) * part, width), y0 + (y1 - y0) * part
        if page.free(x, y, width):
            return (f'<rect class="under" x="{x - width / 2 + 1:.1f}" y="{y - 6:.1f}" width="{width - 2:.1f}" '
                    f'height="12"/><text class="label" x="{x:.1f}" y="{y + 3.5:.1f}" text-anchor="middle">'
                    f'{escape(arrow.label)}</text>')
    return ""


def tip(x0, y0, x1, y1, stop):
    """The tip of an arrow: a head, a ring (more follows), a bar (it causes no indication) or a cross (it is cut)."""
    if stop == "rest":
        return f'<circle class="rest" cx="{x1:.1f}" cy="{y1}" r="2"/>'
    if stop == "cut":
        return f'<path class="cross" d="M{x1 - 5:.1f} {y1 - 5}l10 10m0 -10l-10 10"/>'
    if stop == "open":
        return f'<text class="label" x="{x1:.1f}" y="{y1 + 3}" text-anchor="middle">?</text>'
    if stop == "dropped":
        return f'<path class="cross" d="M{x1:.1f} {y1 - 6}v12"/>'
    length = max(((x1 - x0) ** 2 + (y1 - y0) ** 2) ** 0.5, 0.1)
    dx, dy = (x1 - x0) / length, (y1 - y0) / length
    back_x, back_y = x1 - 9 * dx, y1 - 9 * dy
    return (f'<path class="tip" d="M{x1:.1f} {y1:.1f}L{back_x - 4 * dy:.1f} {back_y + 4 * dx:.1f}'
            f'L{back_x + 4 * dy:.1f} {back_y - 4 * dx:.1f}Z"/>')


def draw_row(page, row):
    """Draws a line: its text at its side, and its mark."""
    y = page.at[row.index]
    rows, notes = page.texts[row.index]
    if row.side:
        x, anchor = (page.left, "end") if row.side == "left" else (page.width - TEXT, "start")
    else:
        x, anchor = (page.edge + page.width) / 2, "middle"
    kind = "refused" if row.mark in ("refused", "stop") else "muted" if row.muted else "plain"
    times = page.picture.when(row)
    spans = [f'<text class="muted" x="{page.edge}" y="{y + 4}" text-anchor="end" xml:space="preserve">{times}</text>'] if times else []
    spans += [f'<text class="{kind}" x="{x}" y="{y + 4 + LINE_HEIGHT * place}" text-anchor="{anchor}">'
              f'{escape(text)}</text>' for place, text in enumerate(rows)]
    below = y + 4 + LINE_HEIGHT * (len(rows) - 1)
    spans += [f'<text class="note" x="{x}" y="{below + 13 * place}" text-anchor="{anchor}">{escape(text)}</text>'
              for place, text in enumerate(notes, 1)]
    draw_pause(page, row, y)
    half = 4 * len(row.text)
    under = "" if row.side else f'<rect class="under" x="{x - half}" y="{y - 8}" width="{2 * half}" height="16"/>'
    page.add(f'<g class="line" id="line{row.index + 1}"><title>{escape(row.whole)}</title>' + under
             + "".join(spans) + mark_of(page, row, y) + "</g>")


def draw_pause(page, row, y):
    """Draws the mark of a long pause above a row: a dotted line with the seconds."""
    if row.pause:
        middle, above, half = (page.edge + page.width) / 2, y - PAUSE + 2, 4 * len(row.pause)
        page.add(f'<g class="plain"><path class="shaft" d="M{page.left + 10} {above}H{middle - half}M{middle + half} {above}'
                 f'H{page.width - TEXT - 10}"/></g>'
                 f'<text class="muted" x="{middle}" y="{above + 4}" text-anchor="middle">{row.pause}</text>')


def mark_of(page, row, y):
    """The mark of a line on its life line."""
    if row.side is None or row.mark in ("carried", "standing"):
        return ""
    if row.mark == "told":
        ends = [page.x(row.side, number) for number in page.picture.connections] or [page.x(row.side, 0)]
        return f'<path class="told" d="M{min(ends) - 10} {y}H{max(ends) + 10}"/>'
    if row.connection is None:
        return ""
    x, colour = page.x(row.side, row.connection), page.colour(row.connection)
    if row.mark == "refused":
        return f'<path class="cross refused" d="M{x - 4} {y - 4}l8 8m0 -8l-8 8"/>'
    if row.point is not None:
        text = str(row.point) if len(str(row.point)) < 3 else ""
        kind, inside = ("diamond", "inside") if row.mark == "call" else ("diamond seen", "tiny")
        return (f'<path class="{kind} {colour}" d="M{x} {y - 10}l10 10l-10 10l-10 -10Z"/>'
                f'<text class="{inside}" x="{x}" y="{y + 3.5}" text-anchor="middle">{text}</text>')
    return f'<circle class="{"call" if row.mark == "call" else "seen"} {colour}" cx="{x}" cy="{y}" r="4"/>'


def draw_box(page):
    """Draws the verdict in a box; its first line is the answer."""
    if not page.box:
        return
    page.add(f'<rect class="box{" bad" if page.picture.is_wrong else ""}" x="16" y="{page.bottom + 10}" width="{page.width - 32}" '
             f'height="{18 * len(page.box) + 10}" rx="4"/>')
    for place, text in enumerate(page.box):
        kind = "verdict" if place else "head"
        page.add(f'<text class="{kind}" x="28" y="{page.bottom + 29 + 18 * place}">{escape(text)}</text>')


def foot(page):
    """Draws the verdict, the key, and the notes about the picture."""
    draw_box(page)
    key = page.picture.key
    for place, text in enumerate(key):
        page.add(f'<text class="key" x="16" y="{page.below + 26 + 16 * place}">{text}</text>')
    for place, text in enumerate(page.notes):
        page.add(f'<text class="key" x="16" y="{page.below + 26 + 16 * (len(key) + place)}">{escape(text)}</text>')
