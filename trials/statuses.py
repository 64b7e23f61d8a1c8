"""Runs osi with words and inputs that give each status and each fault, and compares what it prints.

  scripts/trials statuses [PROGRAM]           the program is crates/osi_tool/out/osi_tool, which `make` builds
  scripts/trials statuses --write [PROGRAM]   writes its help into packaging/help, from which ./osi answers before anything is built

A run has words, an input, and what has to come: the status, standard output, and the line on standard error. Memory is
limited for the runs that have to run out of it. What ./osi answers without a program is compared with what the program
answers.
"""
import os
import resource
import select
import shutil
import socket
import subprocess
import sys
import tempfile

from counts import Counts

TOP = os.path.dirname(os.path.dirname(os.path.abspath(__file__)))
LONGEST = 16_777_216
DATA = b"0300000d02f080010001004142"
JOBS = ("show", "judge", "judge --script", "judge --live", "pair")
LISTED = b"packet 0 length 13 code f0\n  DT number 0 eot 1 octets 6\n    tsdu 6\n    GT\n    DT octets 2\nrest 0\n"
# Texts that capture the one packet of DATA, and texts that are no captures.
SAME = (b"03 00 00 0D 02 F0 80 01 00 01 00 41 42", DATA, b"03\t00 0\r\n0 0d 02 f0 80 01 00 01 00 41 42\n",
        b"# data\n03 00 00 0D 02 F0 80 01 00 01 00 4# one\n1 42",
        "03 00 00 0D 02 F0 80 01 00 01 00 41 42 # no line end \u00e9 7".encode())
NO_CAPTURES = (b"0", b"03 0", b"03 0g", b"03, 00", b"0x03", b"03 # 0\n0")
# A CR with the reference 1, which nobody answers.
ASKED = b"0300000e09e00000000100c0010a"
UNANSWERED = b"left packets 1 octets 14 rest 0\nright packets 0 octets 0 rest 0\nleft 1 unanswered\n"\
    b"not judged: only one direction is here\n"
REFUSED = b"\n\t0300000b06800001000080\n"
KEPT = b"left packets 1 octets 14 rest 0\nright packets 1 octets 11 rest 0\nleft 1 refused\nboth kept the protocol\n"
# A script that opens a connection, and then sends data; each message is received.
OPENED = (b"ends 0 0 10 4\nconnect 0001 0 aaaa -\ncarry left 999\ncarry right 999\ncarry left 999\nright 1 accept 0001 0 aaaa -\n"
          b"carry right 999\n")
SENT = b"left 1 data 41\ncarry left 999\n"
LAST_RECEIVED = (b"left carried 12\nright 1 Data 41\nleft 1 phase Ready held 01 next 0 below 0 lowest 0\n"
                 b"right 1 phase Ready held 00 next 0 below 0 lowest 0\n")
# Questions for help, and words that name no job.
QUESTIONS = (["--help"], ["help"], ["show", "--help"], ["judge", "--help"], ["pair", "--help"])
WRONG = ([], ["list"], ["show", "x"], ["--show"], ["pair", "show"], ["pair", "--script"], ["--script"], ["judge", "--script", "--live"],
         ["show", "--live"], ["-x"], [""], ["help", "list"], ["help", "show", "x"], ["show", "x", "--help"], ["judge", ""], ["--"])
# The program and 64 KiB of input fit into this; the octets of the longest input don't.
LITTLE_MEMORY = 12 << 20


def read(path):
    with open(f"{TOP}/{path}", "rb") as file:
        return file.read()


def little_memory():
    resource.setrlimit(resource.RLIMIT_AS, (LITTLE_MEMORY, LITTLE_MEMORY))


class Runs:
    def __init__(self, program):
        self.program, self.counts = program, Counts(is_quiet=True)
        self.check = self.counts.check

    def run(self, words, given=b"", **more):
        if "stdin" not in more:
            more["input"] = given
        more.setdefault("stdout", subprocess.PIPE)
        return subprocess.run([self.program, *words], stderr=subprocess.PIPE, **more)

    def prints(self, words, given, status, wanted, **more):
        """All of this is printed, and nothing on standard error."""
        done = self.run(words, given, **more)
        came = (done.returncode, done.stdout, done.stderr)
        self.check(f"osi {' '.join(words)} has status {status}", came == (status, wanted, b""), came)

    def ends(self, words, given, wanted):
        """Status 0, a text that ends so, and nothing on standard error."""
        done = self.run(words, given)
        holds = done.returncode == 0 and done.stdout.endswith(wanted) and done.stderr == b""
        self.check(f"osi {' '.join(words)} reads {len(given)} octets", holds, (done.returncode, done.stdout[-80:], done.stderr))

    def begins(self, words, wanted):
        """Help and the version: status 0, and a text that begins so."""
        done = self.run(words)
        holds = done.returncode == 0 and done.stdout.startswith(wanted) and done.stderr == b""
        self.check(f"osi {' '.join(words)} prints its text", holds, (done.returncode, done.stdout[:80], done.stderr))

    def fails(self, words, fault, given=b"", **more):
        """Status 2, nothing on standard output, and the line of the fault on standard error."""
        done = self.run(words, given, **more)
        came = (done.returncode, (done.stdout or b"")[:80], done.stderr)
        self.check(f"osi {' '.join(words)} names {fault}", came == (2, b"", f"osi: {fault}\n".encode()), came)


def captures(runs):
    for text in SAME:
        runs.prints(["show"], text, 0, LISTED)
    for text in NO_CAPTURES:
        runs.fails(["show"], "BadHex", text)
    runs.prints(["judge"], ASKED, 1, UNANSWERED)
    runs.prints(["judge"], ASKED + REFUSED, 0, KEPT)
    runs.prints(["judge", "--script"], ASKED, 0, b"ends 0 0 10 4\nconnect 00b9 1 aaaa -\n")


def longest(runs):
    """Inputs of 16,777,216 octets, a script of 100,007 lines, and a longer capture, which `osi judge` reads in little memory."""
    runs.prints(["show"], b" " * LONGEST, 0, b"rest 0\n")
    packets = 128 * (b"0300ffff02f08001000100" + b"5" * 131_048) + b" " * 256
    runs.ends(["show"], packets, b"    tsdu 65528\n    GT\n    DT octets 65524\nrest 0\n")
    runs.ends(["pair"], OPENED + 50_000 * SENT, LAST_RECEIVED)
    runs.prints(["judge"], ASKED + b" " * (2 * LONGEST) + REFUSED, 0, KEPT, preexec_fn=little_memory)


def octet_by_octet(runs):
    """Each write into the pipe gives an octet."""
    ran = subprocess.Popen([runs.program, "show"], stdin=subprocess.PIPE, stdout=subprocess.PIPE, bufsize=0)
    for at in range(len(DATA)):
        ran.stdin.write(DATA[at:at + 1])
    came, _ = ran.communicate()
    runs.check("osi show reads octet by octet", (ran.returncode, came) == (0, LISTED), (ran.returncode, came))


def live(runs):
    """A finding is written while the input is still open, and once; the whole text comes at its end."""
    ran = subprocess.Popen([runs.program, "judge", "--live"], stdin=subprocess.PIPE, stdout=subprocess.PIPE, bufsize=0)
    ran.stdin.write(read("examples/disputes/token.capture"))
    came = ran.stdout.readline() if select.select([ran.stdout], [], [], 60)[0] else b"nothing"
    runs.check("osi judge --live writes a finding before the input ends", came == b"left 1 broke packet 58 Data TokenNotHeld\n", came)
    came, _ = ran.communicate()
    wanted = read("examples/disputes/token.verdict")
    runs.check("osi judge --live writes the whole text at the end", (ran.returncode, came) == (1, wanted), (ran.returncode, came))
    runs.prints(["judge", "--live"], ASKED + b"\n" + DATA, 1, b"left packets 2 octets 27 rest 0\nright packets 0 octets 0 rest 0\n"
                b"left 1 unanswered\nnot judged: only one direction is here\n")


def broken_off(runs):
    """A read fails after the first octets: the other side of the socket closes it and leaves an octet unread."""
    for job in map(str.split, JOBS):
        here, there = socket.socketpair()
        there.sendall(b"0")
        here.sendall(DATA)
        here.close()
        runs.fails(job, "Input", stdin=there)
        there.close()


def statuses(runs):
    runs.prints(["show"], read("crates/osi_tool/stdin"), 0, read("crates/osi_tool/stdout"))
    runs.prints(["show"], b"04", 1, b"fault 0 BadVersion\n")
    runs.prints(["pair"], read("examples/ladders/two.script"), 0, read("examples/ladders/two.transcript"))
    runs.prints(["pair"], b"ends 0 0 10 4\ntold left\n", 1, b"line 2 NotBroken\n")
    runs.prints(["judge"], read("examples/disputes/token.capture"), 1, read("examples/disputes/token.verdict"))
    runs.prints(["judge"], b"", 1, b"left packets 0 octets 0 rest 0\nright packets 0 octets 0 rest 0\nnot judged: no octets\n")
    runs.prints(["judge", "--script"], read("examples/disputes/token.capture"), 1, read("examples/disputes/token.script"))
    runs.prints(["judge", "--script"], read("examples/disputes/restart_cured.follow"), 0, read("examples/disputes/restart_cured.script"))
    runs.prints(["judge", "--script"], b"", 0, b"")
    # Units of an AC that its CN did not offer have no effect, so no call of a script names them.
    runs.prints(["judge", "--script"], b"0300000e09e00000000100c0010d\n\t0300000e09d00001000100c0010d\n"
                b"0300001b02f0800d12050c1301001601021701311a0100140200b9\n\t0300001b02f0800e12050c1301001601021701311a010014020cb9\n", 0,
                b"ends 0 0 13 4\nconnect 00b9 1 aaaa -\ncarry left 14\ncarry right 14\ncarry left 27\nright 1 accept 00b9 1 aaaa -\n"
                b"carry right 27\n")
    # After a refused connection, left receives the DR.
    runs.prints(["judge", "--script"], b"0300000e09e00000000100c0010a\n\t0300000b06800001000080\n", 0,
                b"ends 0 2 10 4\nconnect 00b9 1 aaaa -\ncarry left 14\ncarry right 11\n")
    for words in QUESTIONS:
        runs.begins(words, b"")
    runs.begins(["--version"], b"osi ")


def help_file(job):
    """The stored help of a job, or of the program."""
    return f"{TOP}/packaging/help/{f'osi-{job}' if job else 'osi'}.txt"


def answers(runs):
    """./osi, where nothing is built and there is no toolchain, answers as the program does; it leaves other words to a program."""
    for job in ("", "show", "pair", "judge"):
        runs.prints([job, "--help"] if job else ["--help"], b"", 0, read(os.path.relpath(help_file(job), TOP)))
    with tempfile.TemporaryDirectory() as room:
        os.mkdir(f"{room}/packaging")
        shutil.copytree(f"{TOP}/packaging/help", f"{room}/packaging/help")
        shutil.copy(f"{TOP}/VERSION", room)
        shutil.copy(f"{TOP}/osi", room)
        for words in (*QUESTIONS, ["-h"], ["-V"], ["--version"], ["help", "pair"], ["help", "show"], ["judge", "-h"], *WRONG):
            of_program = runs.run(words)
            stored = subprocess.run([f"{room}/osi", *words], capture_output=True, env={"PATH": "/usr/bin:/bin"})
            came, wanted = ((it.returncode, it.stdout, it.stderr) for it in (stored, of_program))
            runs.check(f"./osi {' '.join(words)} answers as the program does", came == wanted, (came, wanted))
        for words in (["show"], ["judge", "--script"], ["--help", "show"], ["-hV"], ["judge", "--"]):
            stored = subprocess.run([f"{room}/osi", *words], capture_output=True, env={"PATH": "/usr/bin:/bin"})
            lacks = b"osi: nothing is built here, and the toolchain's command rt, which builds it, is not on the path\n"
            came = (stored.returncode, stored.stdout, stored.stderr)
            runs.check(f"./osi {' '.join(words)} says what it lacks", came == (2, b"", lacks), came)


def faults(runs):
    for words in WRONG:
        runs.fails(words, "Words")
    for job in map(str.split, JOBS):
        folder = os.open(TOP, os.O_RDONLY)
        runs.fails(job, "Input", stdin=folder)
        os.close(folder)
        if job not in (["judge"], ["judge", "--live"]):
            runs.fails(job, "Input", b" " * (LONGEST + 1))
            runs.fails(job, "OutOfMemory", b" " * LONGEST, preexec_fn=little_memory)
        with open("/dev/full", "wb") as full:
            runs.fails(job, "Write", DATA if job != ["pair"] else b"told left\n", stdout=full)
        if job != ["pair"]:
            for given in (b"0", b"03 0g", b"0x03"):
                runs.fails(job, "BadHex", given)
    with open("/dev/full", "wb") as full:
        runs.fails(["--help"], "Write", stdout=full)


def write_help(program):
    """Stores what the program answers to questions for help."""
    for job in ("", "show", "pair", "judge"):
        with open(help_file(job), "wb") as file:
            file.write(subprocess.run([program, *([job] if job else []), "--help"], capture_output=True, check=True).stdout)


def main(words):
    named = [word for word in words if word != "--write"]
    program = named[0] if named else f"{TOP}/crates/osi_tool/out/osi_tool"
    if not os.path.exists(program):
        sys.exit(f"trials: {program} is not there: `make` builds it")
    if "--write" in words:
        write_help(program)
        return Counts()
    runs = Runs(program)
    for part in (statuses, captures, longest, octet_by_octet, live, broken_off, answers, faults):
        part(runs)
    return runs.counts
