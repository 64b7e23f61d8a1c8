"""Standard input and pipes, which every command of osi-capture takes as a file; `osi` is not run."""
import contextlib
import io
import os
import shutil
import subprocess
import unittest
from unittest import mock

from ladders import judged, program as ladders_program

from . import asking, listing, processes, program
from .test_frames import Frames, Room, pcap_of
from .test_unsure import blamed

TEXT = b"0300000e09e00000000100c0010a\n\t0300000e09d00001000100c0010a\n"


class Sources(Room):
    """Each command, over a capture and over a text."""

    def setUp(self):
        super().setUp()
        self.capture = self.write(pcap_of(Frames().open().talk().close().frames))
        self.text = self.write(TEXT, "run.text")
        self.room_of_mocks = contextlib.ExitStack()
        self.addCleanup(self.room_of_mocks.close)
        for each in (mock.patch.object(listing, "shown", lambda osi, octets: [f"packet 0 length {len(octets)} code e0"]),
                     mock.patch.object(judged, "runner", lambda osi, tick: blamed),
                     mock.patch.object(judged, "picture_of", None),
                     mock.patch.object(processes.Programs, "has_live", lambda programs: False)):
            self.room_of_mocks.enter_context(each)

    def call(self, job, name, octets=b""):
        """The status of a command on a name, and what it wrote; standard input has some octets."""
        output = {"split": ("-o", self.path("out")), "annotate": ("-o", self.path("out.pcapng")), "join": ("-o", self.path("out.pcap")),
                  "watch": ("--by", "program")}
        out, err = io.StringIO(), io.StringIO()
        with open(self.write(octets, "input"), "rb") as file, mock.patch.object(asking.sys, "stdin", mock.Mock(buffer=file)), \
                contextlib.redirect_stdout(out), contextlib.redirect_stderr(err), \
                mock.patch("ladders.script.run", lambda osi, word, text: blamed(text)):
            return program.main([job, name, *output.get(job, ())]), out.getvalue(), err.getvalue()

    def piped(self, job, path):
        """The same of a pipe with a name, into which a file goes."""
        pipe = self.path("pipe")
        os.mkfifo(pipe)
        with subprocess.Popen(["cp", path, pipe]):
            found = self.call(job, pipe)
        os.remove(pipe)
        return found

    def jobs(self):
        """The commands, each with a file for it."""
        for job in ("list", "show", "judge", "watch", "split", *(["annotate"] if shutil.which("editcap") else [])):
            yield job, self.capture
        for job in ("show", "judge", "join"):
            yield job, self.text

    def test_each_command_reads_them_as_the_file(self):
        for job, path in self.jobs():
            with self.subTest(job, path=path):
                with open(path, "rb") as file:
                    octets = file.read()
                wanted = self.call(job, path)
                self.assertEqual((wanted[0], wanted[2]), (0, ""))
                self.assertEqual(self.call(job, "-", octets), wanted)
                self.assertEqual(self.piped(job, path), wanted)

    def test_what_can_not_be_read_is_called_by_its_name(self):
        for job, _ in self.jobs():
            with self.subTest(job):
                status, out, err = self.call(job, "-", b"\1\2\3" * 50)
                self.assertEqual((status, out, err.startswith("osi-capture: standard input: "), err.count("\n")), (2, "", True, 1), err)
                self.assertNotIn(self.room.name, err.replace(self.path("input"), ""))

    def test_a_ladder_is_drawn_of_them(self):
        for path in (self.capture, self.text):
            with open(path, "rb") as file:
                octets = file.read()
            found = [self.pieces(name, octets) for name in (path, "-", None)]
            self.assertEqual(found[1:], found[:1] * 2)
            self.assertEqual({side for side, *_ in found[0]}, {"left", "right"})

    def pieces(self, name, octets):
        """What osi-ladders draws of a name; standard input has some octets."""
        options = ladders_program.words().parse_args([name] if name else [])
        with open(self.write(octets, "input"), "rb") as file, mock.patch.object(asking.sys, "stdin", mock.Mock(buffer=file)):
            source, _ = ladders_program.source_of(options.file, options)
        return [(piece.side, piece.octets, piece.frame, piece.time) for piece in source.pieces]

    def test_a_text_and_its_capture_are_the_way_back(self):
        self.assertEqual(self.call("join", self.text)[0], 0)
        self.assertIn("left 14 octets right 14 octets", self.call("list", self.path("out.pcap"))[1])


if __name__ == "__main__":
    unittest.main()
