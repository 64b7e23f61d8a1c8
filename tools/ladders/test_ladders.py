"""Tests of the ladders, over all transcripts of osi_runs: python3 -m unittest discover -s tools -t tools"""
import contextlib
import glob
import io
import os
import re
import tempfile
import time
import unittest
import xml.etree.ElementTree as tree
from unittest import mock

from . import captures, drawing, history, picture, program, script, terminal, transcript, wire

TOP = script.TOP
DATA = os.path.join(TOP, "crates", "osi_runs", "data")
EXAMPLES = os.path.join(TOP, "examples", "ladders")
SVG = "{http://www.w3.org/2000/svg}"


def text_of(name):
    """The text of a file."""
    with open(name, encoding="ascii") as file:
        return file.read()


def is_whole(name):
    """Whether a transcript has its lines as they are; a run with `long` data has shortened ones."""
    text = text_of(name)
    return " times " not in text and "*" not in text


def names():
    """All transcripts that have a script beside them, without their ending."""
    found = glob.glob(os.path.join(DATA, "*.transcript")) + glob.glob(os.path.join(EXAMPLES, "*.transcript"))
    return sorted(name[:-len(".transcript")] for name in found if is_whole(name))


class Run:
    """A transcript, what is found in it, and its picture; with its script or without."""

    def __init__(self, name, with_script=True):
        self.lines = transcript.read(text_of(name + ".transcript"))
        written = script.read(text_of(name + ".script")) if with_script else None
        self.asked = script.match(written, self.lines) if written else {}
        self.wire = wire.Wire(self.lines, self.asked, written.ends if written else None).run()
        self.history = history.History(self.lines, self.wire, self.asked).run()
        self.picture = picture.of_run(self.lines, self.wire, self.history, os.path.basename(name))


def runs():
    """All runs, each with its script and without."""
    for name in names():
        for with_script in (True, False):
            yield f"{os.path.basename(name)}, {'with' if with_script else 'without'} script", Run(name, with_script)


def call(*words, stdin=""):
    """The status of the program, and what it wrote to standard output and standard error."""
    out, err = io.TextIOWrapper(io.BytesIO()), io.StringIO()
    with contextlib.redirect_stdout(out), contextlib.redirect_stderr(err):
        status = program.main(list(words))
    return status, out.buffer.getvalue().decode(), err.getvalue()


class Pictures(unittest.TestCase):
    """Each picture is well formed, and has each line once."""

    def test_each_line_stands_once(self):
        for name, run in runs():
            with self.subTest(name):
                root = tree.fromstring(drawing.draw(run.picture))
                groups = [group for group in root.iter(SVG + "g") if group.get("class") == "line"]
                found = [group.find(SVG + "title").text for group in groups]
                self.assertEqual(found, [line.text for line in run.lines])

    def test_text_is_text_and_nothing_runs(self):
        for name, run in runs():
            with self.subTest(name):
                text = drawing.draw(run.picture)
                root = tree.fromstring(text)
                kinds = {element.tag[len(SVG):] for element in root.iter()}
                self.assertLessEqual(kinds, set("svg title desc style rect text g path circle polyline".split()))
                self.assertEqual([root[0].tag, root[1].tag], [SVG + "title", SVG + "desc"])
                text = text.replace("http://www.w3.org/2000/svg", "")
                self.assertNotRegex(text, "http|url\\(|@import|@font-face|href| on\\w+=")

    def test_short_lines_are_whole_and_long_ones_have_an_ellipsis(self):
        for name, run in runs():
            root = tree.fromstring(drawing.draw(run.picture))
            for group in root.iter(SVG + "g"):
                if group.get("class") == "line":
                    shown = "".join(each.text for each in group.findall(SVG + "text")
                                    if each.get("class") in ("plain", "muted", "refused")).replace(" ", "")
                    whole = group.find(SVG + "title").text.replace(" ", "")
                    self.assertTrue(whole.endswith(shown) or (shown[-1] == "…" and shown[:-1] in whole), name)

    def test_the_same_comes_again(self):
        for name in names()[:5]:
            self.assertEqual(drawing.draw(Run(name).picture), drawing.draw(Run(name).picture))


class Tokens(unittest.TestCase):
    """Bands are what the ends say that they hold."""

    def test_no_band_is_on_both_sides(self):
        for name, run in runs():
            with self.subTest(name):
                self.assertEqual(history.overlaps(run.history.bands), [])
                places = {}
                for group in tree.fromstring(drawing.draw(run.picture)).iter(SVG + "g"):
                    if group.get("class", "").startswith("band"):
                        rect = group.find(SVG + "rect")
                        span = float(rect.get("y")), float(rect.get("y")) + float(rect.get("height"))
                        places.setdefault((group.get("data-connection"), group.get("data-token")), []).append(span)
                for spans in places.values():
                    spans.sort()
                    self.assertTrue(all(first[1] <= second[0] for first, second in zip(spans, spans[1:])))

    def test_overlaps_are_found(self):
        first, second = history.Band("left", 1, "data", 3), history.Band("right", 1, "data", 5)
        first.end, second.end = 6, 9
        self.assertEqual(len(history.overlaps([second, first])), 1)
        first.end = 5
        self.assertEqual(history.overlaps([second, first]), [])

    def test_the_last_lines_hold_what_the_bands_say(self):
        bits = {name: bit for name, bit, _ in history.TOKENS}
        for name, run in runs():
            for line in run.lines:
                if line.kind == "standing":
                    held = sum(bits[band.token] for band in run.history.bands if band.start < line.index < band.end
                               and (band.side, band.connection) == (line.side, line.connection))
                    told = line.index not in run.history.unknown and not run.history.unknown
                    if told:
                        self.assertEqual(f"{held:02x}", line.fields["held"], f"{name}: {line.text}")


class Octets(unittest.TestCase):
    """Arrows have the octets of the carries."""

    def test_the_pieces_of_a_carry_are_its_octets(self):
        for name, run in runs():
            sums = {}
            for piece in run.wire.pieces:
                sums[piece.carry] = sums.get(piece.carry, 0) + piece.reach - piece.begin
                self.assertLess(piece.start if piece.run else -1, piece.carry, name)
                self.assertLessEqual(piece.carry, piece.end)
            carried = {line.index: line.octets for line in run.lines if line.kind == "carried" and line.octets}
            self.assertEqual(sums, carried, name)

    def test_with_the_script_all_is_told(self):
        for name in names():
            with self.subTest(name):
                run = Run(name)
                self.assertIsNone(run.wire.untold)
                self.assertFalse(any(piece.run.length is None for piece in run.wire.pieces))
                seen = {piece.run.message.shown for piece in run.wire.pieces} - {None}
                wanted = {line.index for line in run.lines if line.kind == "shown" and line.name != "ProviderAbort"}
                self.assertEqual(seen, wanted)

    def test_what_a_transcript_tells_by_itself_is_the_same(self):
        for name in names():
            whole, alone = Run(name), Run(name, with_script=False)
            end = alone.wire.untold if alone.wire.untold is not None else len(alone.lines)
            told = [(piece.side, piece.start, piece.end, piece.begin, piece.reach) for piece in alone.wire.pieces
                    if piece.carry < end]
            wanted = [(piece.side, piece.start, piece.end, piece.begin, piece.reach) for piece in whole.wire.pieces
                      if piece.carry < end]
            self.assertEqual(told, wanted, name)

    def test_a_cut_packet_ends_half_way(self):
        run = Run(os.path.join(DATA, "broken"))
        last = run.picture.arrows[-1]
        self.assertEqual((last.stop, last.begin, round(last.reach * 12)), ("cut", 0, 1))
        self.assertEqual(last.label, "DT 1 of 12")

    def test_each_part_of_a_data_is_an_arrow(self):
        # Three hundred octets under a limit of 64 octets a TSDU, with a window of one.
        arrows = Run(os.path.join(DATA, "parts_need_credit")).picture.arrows
        self.assertEqual([arrow.label for arrow in arrows if "/" in arrow.label],
                         [f"DT ({place}/6) 73" for place in range(1, 6)] + ["DT (6/6) 31"])

    def test_each_direction_has_a_limit_of_its_own(self):
        arrows = Run(os.path.join(DATA, "parts_in_one_direction")).picture.arrows
        self.assertEqual([(arrow.side, arrow.label) for arrow in arrows if arrow.label.startswith("DT")],
                         [("left", "DT (1/2) 71"), ("left", "DT (2/2) 18"), ("right", "DT 72")])

    def test_parts_without_their_script_are_not_guessed(self):
        run = Run(os.path.join(DATA, "parts_need_credit"), with_script=False)
        self.assertEqual(run.lines[run.wire.untold].text, "left carried 82")

    def test_a_wrong_transcript_is_not_believed(self):
        text = text_of(os.path.join(DATA, "points.transcript")).replace("left carried 59", "left carried 60")
        followed = wire.Wire(transcript.read(text)).run()
        self.assertEqual(followed.lines[followed.untold].text, "left carried 60")


class Layout(unittest.TestCase):
    """The picture is readable."""

    def test_labels_do_not_overlap(self):
        for name, run in runs():
            boxes = []
            root = tree.fromstring(drawing.draw(run.picture))
            for label in root.iter(SVG + "text"):
                if label.get("class") == "label" and label.text != "?":
                    x, y, half = float(label.get("x")), float(label.get("y")), 3.2 * len(label.text)
                    for near, height, other in boxes[-60:]:
                        self.assertFalse(abs(height - y) < 11 and abs(near - x) < half + other, f"{name}: {label.text}")
                    boxes.append((x, y, half))

    def test_text_stays_on_its_side(self):
        for name, run in runs():
            root = tree.fromstring(drawing.draw(run.picture))
            width = float(root.get("width"))
            for text in root.iter(SVG + "text"):
                x, long = float(text.get("x")), drawing.LETTER * len(text.text or "")
                left = x - {"end": long, "middle": long / 2}.get(text.get("text-anchor"), 0)
                if text.get("class") in ("plain", "muted", "refused"):
                    self.assertTrue(left >= 0 and left + long <= width, f"{name}: {text.text}")

    def test_connections_have_lines_and_colours_of_their_own(self):
        run = Run(os.path.join(DATA, "two"))
        page = drawing.Page(run.picture, 0, 10 ** 6)
        places = {page.x(side, number) for side in transcript.SIDES for number in (1, 2)}
        self.assertEqual((len(places), page.width), (4, 1000))
        self.assertNotEqual(page.colour(1), page.colour(2))
        chosen = picture.of_run(run.lines, run.wire, run.history, "", [2])
        self.assertTrue(all(row.connection in (2, None) for row in chosen.rows))

    def test_columns_stand_below_each_other(self):
        for name, run in runs():
            for columns in (60, 100, 131):
                rows = terminal.draw(run.picture, columns=columns).split("\n")[1:len(run.lines) + 2]
                self.assertTrue(all(len(row) <= columns for row in rows), name)
                side = (columns - 22) * 4 // 11
                at = side + 6
                far = at + columns - 2 * side - 16 + 1
                self.assertTrue(all(row[at:at + 1] in "|*ox!" for row in rows[1:]), name)
                self.assertTrue(all(row[far:far + 1] in "|*ox!" and row[far - 1:far] == " " for row in rows[1:]), name)


class Program(unittest.TestCase):
    """Words, files and statuses."""

    def refused(self, *words):
        with tempfile.TemporaryDirectory() as folder:
            status, out, err = call(*words, "--output", os.path.join(folder, "picture.svg"))
            self.assertEqual((status, out, err.count("\n"), os.listdir(folder)), (2, "", 1, []), err)
            return err

    def test_bad_input_writes_nothing(self):
        with tempfile.TemporaryDirectory() as folder:
            bad = os.path.join(folder, "bad")
            for text in ("", "\n", "left carried\n", "left 1 data perhaps\n", "left 1 Data 4\n", "ends x\n", "\xff",
                         "left connect ok 99999999999999\n", "left 1 phase Ready\n", "left carried 1 \n"):
                with open(bad, "w", encoding="latin-1") as file:
                    file.write(text)
                self.refused(bad)
        good = os.path.join(DATA, "two.transcript")
        self.refused(os.path.join(DATA, "no such file"))
        self.refused(good, "--connection", "7")
        self.refused(good, "--from", "9", "--to", "3")
        self.refused(good, "--from", "900")
        self.refused(good, "--wrong")
        self.refused("--left", good)
        self.refused("--left", good, "--right", good, good)
        self.refused(good, "--script", os.path.join(DATA, "points.script"))
        self.refused(os.path.join(DATA, "two.script"), "--osi", "/no/such/program")
        status, out, err = call(good, "--output", "/no/such/folder/picture.svg")
        self.assertEqual((status, out, err.count("\n"), "/no/such/folder/picture.svg" in err), (2, "", 1, True), err)

    def test_what_no_file_of_xml_can_have_is_not_in_a_title(self):
        good = os.path.join(DATA, "two.transcript")
        for title in ("a\x01b", "a\x1bb", "a\udcffb", "a\nb"):
            for words in ([], ["--text"]):
                status, out, _ = call(good, "--title", title, *words)
                self.assertEqual((status, "a\ufffdb" in out, title in out), (0, True, False))
        tree.fromstring(call(good, "--title", "<a & b>\x01")[1])

    def test_a_script_that_osi_pair_refuses_draws_nothing_and_says_why(self):
        with mock.patch.object(script, "run", lambda *words: "left connect ok 1\nline 3 refused\n"):
            said = self.refused(self.script_of("ends 0 0 10 4\nconnect 00b9 1 aaaa -\nleft 1 dance\n"))
        self.assertIn("osi pair refuses line 3 of the script, so there is no picture: 'left 1 dance'", said)

    def script_of(self, text):
        """The name of a file with a script."""
        room = tempfile.TemporaryDirectory()
        self.addCleanup(room.cleanup)
        with open(os.path.join(room.name, "run.script"), "w", encoding="ascii") as file:
            file.write(text)
        return file.name

    def test_a_program_that_prints_no_text_is_refused(self):
        with tempfile.TemporaryDirectory() as folder:
            fake = os.path.join(folder, "osi")
            with open(fake, "w", encoding="ascii") as file:
                file.write("#!/bin/sh\ncat > /dev/null\nprintf '\\377\\n'\n")
            os.chmod(fake, 0o755)
            self.refused(os.path.join(DATA, "two.script"), "--osi", fake)

    def test_a_file_is_replaced_and_a_link_stays(self):
        good = os.path.join(DATA, "two.transcript")
        with tempfile.TemporaryDirectory() as folder:
            name, link = os.path.join(folder, "picture.svg"), os.path.join(folder, "link.svg")
            os.symlink(name, link)
            self.assertEqual(call(good, "-o", link)[0], 0)
            self.assertTrue(os.path.islink(link))
            with open(name, encoding="utf-8") as file:
                self.assertEqual(file.read(), call(good)[1])
            self.assertEqual(call(good, "-o", folder)[0], 2)
            self.assertEqual(sorted(os.listdir(folder)), ["link.svg", "picture.svg"])
            self.assertEqual(call(good, "-o", os.devnull)[0], 0)
            self.assertFalse(os.path.isfile(os.devnull))

    def test_a_part_of_the_lines(self):
        status, out, _ = call(os.path.join(DATA, "two.transcript"), "--from", "10", "--to", "20")
        found = re.findall(r'id="line(\d+)"', out)
        self.assertEqual((status, found), (0, [str(number) for number in range(10, 21)]))

    def test_a_script_is_run(self):
        name = os.path.join(DATA, "points")
        with tempfile.TemporaryDirectory() as folder:
            fake = os.path.join(folder, "osi")
            with open(fake, "w", encoding="ascii") as file:
                file.write(f"#!/bin/sh\ncat > /dev/null\nsleep 1.5\ncat '{name}.transcript'\n")
            os.chmod(fake, 0o755)
            made = call(name + ".script", "--osi", fake)
        self.assertEqual(made, call(name + ".transcript", "--script", name + ".script"))

    def test_ten_thousand_lines(self):
        lines = text_of(os.path.join(DATA, "opened.transcript")).split("\n")[:8]
        number = 1
        while len(lines) < 10000:
            lines += ["left 1 data ok", "left 1 minor ok", f"left carried {25 + len(str(number))}", "right 1 Data 31",
                      f"right 1 Minor {number} confirm yes data -", "right 1 minorconfirm ok",
                      f"right carried {13 + len(str(number))}", f"left 1 MinorConfirmed {number} data -"]
            number += 1
        with tempfile.TemporaryDirectory() as folder:
            name = os.path.join(folder, "long")
            with open(name, "w", encoding="ascii") as file:
                file.write("\n".join(lines) + "\n")
            for words in ([], ["--text"], ["--from", "9000"]):
                begun = time.process_time()
                status, out, err = call(name, *words)
                self.assertLess(time.process_time() - begun, 2)
                self.assertEqual((status, err), (0, ""))
                self.assertFalse("does not tell" in out)

    def test_progress_is_for_terminals_and_leaves_nothing(self):
        class Terminal(io.StringIO):
            def isatty(self):
                return True
        for stream, silent in ((Terminal(), False), (io.StringIO(), True)):
            progress = program.Progress(stream)
            for place in range(20000):
                progress(place, 20000)
            progress.running("osi pair")(3)
            progress.end()
            said = stream.getvalue()
            self.assertEqual(said == "", silent)
            if not silent:
                self.assertTrue(said.endswith("\r\x1b[K") and "\n" not in said)


class Captures(unittest.TestCase):
    """Two captures in one order."""

    def listings(self):
        return {side: text_of(os.path.join(EXAMPLES, f"gateway.{side}.listing")) for side in transcript.SIDES}

    def test_each_line_stands_once(self):
        listings = self.listings()
        made = captures.picture_of(listings, "")
        for side, text in listings.items():
            self.assertEqual([row.whole for row in made.rows if row.side == side], text.rstrip("\n").split("\n"))
        tree.fromstring(drawing.draw(made))
        self.assertIn("time", made.notes[0])
        self.assertEqual(len(made.notes), 1)

    def test_what_answers_stands_behind(self):
        made = captures.picture_of(self.listings(), "")
        order = [re.sub(r" \d+$", "", arrow.label) for arrow in made.arrows]
        for first, second in (("CR", "CC"), ("CC", "DT CN"), ("DT CN", "DT AC"), ("DT AC", "DT data"),
                              ("DT MIP", "DT MIA"), ("DT FN", "DT DN"), ("DR", "DC")):
            self.assertLess(order.index(first), order.index(second), (first, second))
        sent = acknowledged = 0
        for arrow in made.arrows:
            sent += arrow.side == "left" and arrow.label.startswith("DT")
            acknowledged += arrow.side == "right" and arrow.label.startswith("AK")
            self.assertLessEqual(acknowledged, sent)

    def test_captures_that_begin_late_are_drawn(self):
        listings = self.listings()
        listings["left"] = listings["left"][listings["left"].index("packet", 10):]
        made = captures.picture_of(listings, "")
        self.assertIn("not in the capture", made.notes[1])


if __name__ == "__main__":
    unittest.main()
