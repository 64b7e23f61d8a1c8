"""Tests of `osi-capture annotate`, of the column of tshark for the layers above, and of the plugin for Wireshark: over captures that the
tests write, if tshark is installed; `osi` is not run."""
import contextlib
import io
import os
import shutil
import subprocess
import unittest
from unittest import mock

from ladders import script, test_judged

from . import annotating, listing, program, tshark
from .test_frames import CC, CN, CR, Frames, Room, data, pcap_of
from .test_judging import DISPUTES, ENDED, LAST

PLUGIN = os.path.join(script.TOP, "packaging", "wireshark", "osi.lua")
# What Wireshark gives the plugin, as functions that print.
STUBS = """
function gui_enabled() return true end
MENU_TOOLS_UNSORTED = 0
function register_menu(name, run) print("menu " .. name) run() end
function new_dialog(title, run) run("a file.pcap", "") end
function open_capture_file(name, filter) local file = io.open(name) print("open " .. file:read("*a") .. filter) os.remove(name) end
function report_failure(text) print("failed " .. text) end
TextWindow = {new = function(title)
    print("title " .. title)
    return {set = function(_, text) print("text " .. text) end, add_button = function(_, name, run) print("button " .. name) run() end}
end}
"""


def call(*words):
    """The status of the program, and what it wrote; `osi` is not run."""
    out, err = io.StringIO(), io.StringIO()
    shown = mock.patch.object(listing, "shown", lambda osi, octets: test_judged.answer(osi, "show", octets.hex()).splitlines())
    with contextlib.redirect_stdout(out), contextlib.redirect_stderr(err), shown, mock.patch.object(script, "run", test_judged.answer):
        status = program.main(list(words))
    return status, out.getvalue(), err.getvalue()


class Comments(unittest.TestCase):
    """The texts of the comments, without programs."""

    def test_several_on_one_frame_are_one_comment(self):
        ran = []

        def run(words, **_):
            ran.append(words)
            with open(words[-1], "wb") as file:
                file.write(b"made")
            return mock.Mock(returncode=0)
        with mock.patch.object(annotating.subprocess, "run", run), mock.patch.object(annotating.shutil, "which", lambda name: name), \
                mock.patch.object(annotating.os, "replace", lambda made, name: os.remove(made)):
            annotating.written("in", "out", [(3, "one"), (3, "two"), (4, "three")])
        self.assertEqual(ran[0][3:-2], ["-a", "3:osi: one\nosi: two", "-a", "4:osi: three"])


@unittest.skipUnless(all(map(shutil.which, ("tshark", "editcap"))), "tshark and its tools are not installed")
class Captures(Room):
    """Captures that tshark reads."""

    def pcap(self, name="restart"):
        self.assertEqual(program.main(["join", os.path.join(DISPUTES, name), "-o", self.path("run.pcap")]), 0)
        return self.path("run.pcap")

    def test_the_verdict_is_a_comment_of_its_frame(self):
        made = self.path("made.pcapng")
        self.assertEqual(call("annotate", self.pcap(), "-o", made), (1, "", ""))
        told = subprocess.run(["tshark", "-r", made, "-Y", 'frame.comment contains "osi:"', "-T", "fields", "-e", "frame.number", "-e",
                               "frame.comment"], capture_output=True, text=True, check=True).stdout.splitlines()
        sentence = LAST.partition("seconds: ")[2]
        self.assertEqual(told[0], f"16\tosi: {sentence}")
        self.assertEqual(told[1], "17\tosi: " + ENDED.removeprefix("ended: ").partition(" (frame")[0])

    def test_what_can_not_be_written_is_refused(self):
        self.assertEqual(call("annotate", self.pcap(), "-o", self.path("no/such.pcapng"))[0], 2)
        with mock.patch.object(annotating.shutil, "which", lambda name: None if name == "editcap" else name):
            self.assertIn("there is no editcap", call("annotate", self.pcap(), "-o", self.path("made.pcapng"))[2])
        self.assertEqual(os.listdir(self.room.name), ["run.pcap"])

    def test_the_layers_above_are_named_by_tshark(self):
        abort = data(bytes.fromhex("1903110103"))
        name = self.write(pcap_of(Frames().begin().send("left", CR).send("right", CC).send("left", CN, abort).frames))
        found = tshark.upper(name, 0)
        self.assertEqual([found[4].partition(" ")[0], found[5].partition(" ")[0]], ["CR", "CC"])
        self.assertEqual(set(found), {4, 5, 6, 7})

    def test_the_layers_above_are_shown_if_that_is_asked_for(self):
        rows = call("show", self.pcap(), "--upper")[1].splitlines()
        self.assertTrue(any("      CR TPDU" in row for row in rows))
        self.assertIn("[", call("judge", self.pcap(), "--upper")[1].splitlines()[-1])
        self.assertFalse(any("TPDU src-ref" in row for row in call("show", self.pcap())[1].splitlines()))

    def test_the_plugin_judges_and_shows_the_frames(self):
        with open(PLUGIN, encoding="ascii") as plugin:
            self.write((STUBS + plugin.read()).encode(), "run.lua")
        self.write(b'#!/bin/sh\n[ $1 = judge ] && echo "$@" && exit 1\necho copy >"$4"\n', "osi-capture")
        os.chmod(self.path("osi-capture"), 0o755)
        ran = subprocess.run(["tshark", "-X", f"lua_script:{self.path('run.lua')}", "-r", self.pcap(), "-c", "1"], text=True, check=True,
                             stdout=subprocess.PIPE, env={**os.environ, "PATH": f"{self.room.name}:{os.environ['PATH']}"}).stdout
        if os.getuid() == 0 and "menu" not in ran:
            self.skipTest("this tshark runs no script for root")
        for said in ("menu OSI session/Judge a capture", "title OSI session: a file.pcap", "text A side broke the protocol.",
                     "judge a file.pcap", "button Show the frames", 'frame.comment contains "osi:"'):
            self.assertIn(said, ran)

    def test_the_plugin_does_nothing_in_tshark(self):
        words = ["tshark", "-X", f"lua_script:{PLUGIN}", "-r", self.pcap(), "-c", "1"]
        ran = subprocess.run(words, capture_output=True, text=True, check=True)
        self.assertNotIn("lua", ran.stderr.lower())


if __name__ == "__main__":
    unittest.main()
