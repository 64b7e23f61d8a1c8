"""Runs the proved code with hostile octets, refused allocations, values at their limits, and a break at each octet.

    scripts/trials hostile            all of it, some minutes
    scripts/trials hostile --part     the same with every 16th value of an octet instead of all 256, and every
                              16th capture of a damaged packet instead of each
    scripts/trials hostile --fuzz SECONDS [SEED]    octets at random, for this time
    scripts/trials hostile --wrong    ends with one bug each, which the trials have to find

It needs the programs and libraries that `make trials` builds first.
"""
import glob
import os
import re
import subprocess
import sys
import tempfile
import time

from counts import Counts
from listing import listing
from machine import Machine

TOP = os.path.dirname(os.path.dirname(os.path.abspath(__file__)))
BUILD = os.path.join(TOP, "build", "trials")
OSI = os.path.join(TOP, "crates", "osi_tool", "out", "osi_tool")
RUNS = os.path.join(TOP, "crates", "osi_runs", "out", "osi_runs")
DATA = os.path.join(TOP, "crates", "osi_runs", "data")
WRAPPED = [f"-Wl,--wrap={name}" for name in ("malloc", "calloc", "realloc", "free")]
SHARED = ["text", "memory", "scripts", "ends", "views", "pairs", "hostile"]
LONGEST = 16_777_216

class Counted(Counts):
    """Counts runs, too."""

    def __init__(self):
        super().__init__(is_quiet=True)
        self.runs = 0


counts = Counted()
check = counts.check


# An end that does this wrong (trials/wrong.c), and the program that finds it.
WRONG = {
    "given_and_held": "breaks", "an_octet_is_lost": "breaks", "an_indication_is_lost": "breaks", "confirmed_unseen": "breaks",
    "always_no_memory": "breaks", "nothing_is_freed": "breaks", "nothing_waits": "damage", "the_end_uses_nothing": "damage",
    "a_refused_call_is_done": "growths", "another_reference_is_sent": "growths", "more_is_kept": "limits",
    "room_is_kept": "room", "a_text_is_lost": "judged",
}
WRONG_FUNCTIONS = ["held", "feed", "fetch", "kept", "data", "confirmed_below", "free", "outgoing", "judge_feed", "judge_write",
                   "judge_text"]


def readers():
    """The library that `again` reads with, and the toolchain's library of malloc: the library for C doesn't export its own."""
    doc = subprocess.run(["rt", "doc"], check=True, capture_output=True, text=True).stdout.strip()
    return [f"{TOP}/crates/osi_bench/out/libosi_bench.a", f"{os.path.dirname(doc)}/c/liblibc_c.a"]


def build(*names, wrong=False):
    """The programs of trials/, over the library, or over wrong ends."""
    os.makedirs(BUILD, exist_ok=True)
    cc = os.environ.get("CC", "cc")
    flags = ["-std=c11", "-O2", "-Wall", "-Wextra", "-Wpedantic", "-Werror", "-I", f"{TOP}/include"]
    sources = [f"{TOP}/trials/{name}.c" for name in SHARED]
    for name in names:
        more = readers() if name == "again" else []
        if wrong:
            more = [f"{TOP}/trials/wrong.c", *(f"-Wl,--wrap=osi_{function}" for function in WRONG_FUNCTIONS)]
        subprocess.run([cc, *flags, "-o", f"{BUILD}/{'wrong_' if wrong else ''}{name}", f"{TOP}/trials/{name}.c", *sources,
                        *more, f"{TOP}/build/libosi-session.a", *WRAPPED], check=True)


def build_shim():
    cc = os.environ.get("CC", "cc")
    subprocess.run([cc, "-std=c11", "-O2", "-Wall", "-Wextra", "-Werror", "-shared", "-fPIC", "-o", f"{BUILD}/shim.so",
                    f"{TOP}/trials/shim.c"], check=True)


def run(name, *words):
    """Runs one program; its last line has its counts."""
    began = time.time()
    process = subprocess.Popen([f"{BUILD}/{name}", *words], stdout=subprocess.PIPE, text=True, cwd=TOP)
    last = ""
    for line in process.stdout:
        last = line
        print(line, end="", flush=True)
    status = process.wait()
    found = re.fullmatch(rf"{name}: (\d+) runs, (\d+) checks, (\d+) failed\n", last)
    runs, checks, failed = map(int, found.groups()) if found else (0, 0, 0)
    counts.runs, counts.passed, counts.failed = counts.runs + runs, counts.passed + checks - failed, counts.failed + failed
    if not found or (status != 0) != (failed > 0):
        check(f"{name} ends with status {status}", False)
    print(f"{name}: {time.time() - began:.0f} s", flush=True)


def answer(words, text, **environment):
    """Runs `osi` on a text: its status, output and errors, and what the shim counted."""
    counts.runs += 1
    reader, writer = os.pipe()
    os.dup2(writer, 9)
    done = subprocess.run(words, input=text.encode(), capture_output=True, pass_fds=(9,), cwd=DATA,
                          env={**os.environ, "LD_PRELOAD": f"{BUILD}/shim.so", **environment})
    os.close(9)
    os.close(writer)
    told = os.read(reader, 200).split()
    os.close(reader)
    return done.returncode, done.stdout.decode(), done.stderr.decode(), [int(word) for word in told]


def osi(job, text, **environment):
    return answer([OSI, job], text, **environment)


def pairs(room):
    """Runs of `breaks`, and its scripts, by `osi pair`: the same transcript, octet for octet."""
    names = sorted(glob.glob(f"{room}/*.script"))
    for name in names:
        with open(name) as script, open(name.replace(".script", ".transcript")) as transcript:
            text = script.read()
            status, out, _, _ = osi("pair", text)
            check(f"osi pair: another transcript of\n{text}", (status, out) == (0, transcript.read()))
            wrong = Machine(text, out).play()
            check(f"no run of the machine: {wrong} in\n{text}", wrong is None)
    print(f"osi pair: {len(names)} runs of breaks give the same transcript, and are runs of the machine", flush=True)


def listings(name):
    """Compares each listing with that of trials/listing.py, which reads the octets independently."""
    count, octets, lines = 0, None, []
    with open(name) as file:
        for line in file:
            if octets is None:
                octets = bytes.fromhex(line)
            elif line != "=\n":
                lines.append(line)
            else:
                check(f"osi show {octets.hex()} prints {''.join(lines)} and not {listing(octets)}", "".join(lines) == listing(octets))
                count, octets, lines = count + 1, None, []
    print(f"osi show: {count} listings are those of trials/listing.py", flush=True)


def written_out():
    """The scripts of osi_runs without the shortened ones of its README, which `osi pair` doesn't read."""
    found = []
    for path in sorted(glob.glob(f"{DATA}/*.script")):
        with open(path) as script:
            if not re.search(r"\*\d|^\d+ times ", script.read(), re.M):
                found.append(os.path.basename(path).removesuffix(".script"))
    return found


def examples():
    """The scripts of osi_runs, each with its transcript."""
    names = written_out()
    for name in names:
        with open(f"{DATA}/{name}.script") as script, open(f"{DATA}/{name}.transcript") as transcript:
            text = script.read()
            status, out, _, _ = osi("pair", text)
            check(f"osi pair {name}: another transcript", status in (0, 1) and out == transcript.read())
            wrong = Machine(text, out).play()
            check(f"no run of the machine: {wrong} in {name}", wrong is None)
    print(f"osi pair: {len(names)} scripts of osi_runs give their transcripts, and are runs of the machine", flush=True)


def texts():
    """A capture, and two scripts."""
    found = []
    with open(f"{TOP}/examples/class_2.hex") as capture:
        found.append(("show", capture.read()))
    for name in ("points", "data_in_a_row"):
        with open(f"{DATA}/{name}.script") as script:
            found.append(("pair", script.read()))
    return found


def failing(job, text):
    """Lets the Nth read, write or allocation fail, for each N until a run has none. A run that fails for lack of memory prints
    nothing and ends with status 2; a run that doesn't need what was refused prints the whole text."""
    status, out, _, (reads, _, writes, growths) = osi(job, text)
    check(f"osi {job} gives {status}", status in (0, 1) and out)
    whole = status, out, ""
    for number in range(1, reads + 1):
        status, shown, errors, _ = osi(job, text, TRIALS_READ=str(number))
        check(f"read {number} of osi {job}", (status, shown, errors) == (2, "", "osi: Input\n"))
    for number in range(1, writes + 1):
        status, shown, errors, _ = osi(job, text, TRIALS_WRITE=str(number))
        check(f"write {number} of osi {job}", status == 2 and errors == "osi: Write\n" and out.startswith(shown))
    refused = 0
    for number in range(1, growths + 1):
        status, shown, errors, _ = osi(job, text, TRIALS_GROWTH=str(number))
        refused += status == 2
        check(f"growth {number} of osi {job}: {status} {errors} {shown}",
              (status, shown, errors) in ((2, "", "osi: OutOfMemory\n"), whole))
    check(f"osi {job}: no growth that is refused is missed", refused > 0)
    print(f"osi {job}: {reads} reads, {writes} writes and {growths} growths failed in turn; because of that {refused} runs "
          f"answered OutOfMemory, and the others gave the whole text", flush=True)


def fits(name):
    """Whether a script of osi_runs can be read: each line fits, and there are not too many."""
    with open(f"{DATA}/{name}.transcript") as transcript:
        lines = transcript.read().splitlines()
    return len(lines) < 200 and not any(line.startswith("line ") for line in lines)


def replay(name):
    """Runs a script of osi_runs with each allocation refused in turn: how many there are, and what came of it."""
    status, out, errors, (_, _, _, growths) = answer([RUNS, "again", name], "")
    check(f"again {name}: {status} {errors} {out}",
          (status, out, errors) == (0, f"{name} as it is written, 0 asked again, 0 carried on\n", ""))
    came = {"as it is": 0, "asked again": 0, "carried on": 0, "an end is over": 0, "outside": 0}
    for number in range(1, growths + 1):
        status, out, errors, _ = answer([RUNS, "again", name], "", TRIALS_GROWTH=str(number))
        kind = REPLAYED.get(out.removeprefix(f"{name} ")) if (status, errors) == (0, "") else None
        if status != 0 and out == "" and "OutOfMemory" in errors:
            kind = "outside"
        check(f"growth {number} of again {name}: {status} {errors} {out}", kind is not None)
        if kind is not None:
            came[kind] += 1
    return growths, came


# The line of osi_runs on a script that it plays again: how many allocations it refused, and what failed because of that.
REPLAYED = {
    "as it is written, 0 asked again, 0 carried on\n": "as it is",
    "as it is written, 1 asked again, 0 carried on\n": "asked again",
    "as it is written, 0 asked again, 1 carried on\n": "carried on",
    "is over: an end found no memory\n": "an end is over",
}


def replays(part):
    """The scripts of osi_runs, each with each growth refused that an event of two ends asks for."""
    names = [name for name in written_out() if fits(name)]
    if part:
        names = sorted({*names[::8], "data_in_a_row"})
    growths, came = 0, {}
    for name in names:
        more, found = replay(name)
        growths += more
        came = {kind: came.get(kind, 0) + count for kind, count in found.items()}
    for kind in ("asked again", "carried on", "an end is over"):
        check(f"no script in which a growth is refused {kind}", came.get(kind, 0) > 0)
    print(f"osi_runs: {len(names)} scripts, {growths} growths refused in turn: {came['asked again']} events found no memory, "
          f"changed nothing, and gave the same when they were asked again; carries that stopped early and carried the rest "
          f"when they were asked again: {came['carried on']}; {came['an end is over']} ended an end; {came['outside']} were "
          f"the program's own, and ended it; of {came['as it is']} nothing came", flush=True)


def endless(job):
    status, out, errors, (reads, octets, _, _) = osi(job, "", TRIALS_ENDLESS="1")
    check(f"osi {job}, whose input has no end: {status} {errors}", (status, out, errors) == (2, "", "osi: Input\n"))
    check(f"osi {job} reads {octets} octets in {reads} reads", octets == reads == LONGEST + 1)
    print(f"osi {job}: an input that has no end is given up after {octets} octets in {reads} reads", flush=True)


def capture_of_the_longest():
    """A connection with 127 Data of 65,524 octets from left, and blanks: 16,777,216 characters in all. Its CC names no size."""
    fields = "12050c1301011601021701311a0100140200b9"
    opening = ["0300000b06e00000000100", "\t0300000b06d00001000100",
               f"0300001b02f0800d{fields}", f"\t0300001b02f0800e{fields}", ""]
    return ("\n".join(opening) + ("0300ffff02f08001000100" + "55" * 65_524) * 127).ljust(LONGEST)


def script_of_the_longest():
    """Seven Data of 1,048,572 octets, and a comment: 16,777,216 characters in all."""
    opening = ["ends 0 0 13 15", "connect 0001 0 aaaa -", "carry left 99", "carry right 99", "carry left 99",
               "right 1 accept 0001 0 aaaa -", "carry right 99"]
    data = ["left 1 data " + "55" * 1_048_572] * 7
    script = "\n".join([*opening, *data, "carry left 4294967295", "#"])
    return script.ljust(LONGEST, "#")


def longest():
    """With ample memory the longest input is listed, run and judged."""
    capture = capture_of_the_longest()
    status, out, errors, _ = osi("show", capture)
    check(f"osi show, the longest input: {status} {errors}", (status, errors) == (0, "") and out.count("    DT octets 65524\n") == 127)
    status, out, errors, _ = osi("judge", capture)
    check(f"osi judge, the longest input: {status} {errors}", (status, errors) == (0, "") and out.endswith("both kept the protocol\n"))
    status, out, errors, _ = osi("pair", script_of_the_longest())
    shown = "right 1 Data " + "55" * 1_048_572 + "\n"
    check(f"osi pair, the longest input: {status} {errors}", (status, errors) == (0, "") and out.count(shown) == 7)
    print(f"osi: inputs of {LONGEST} octets are listed, judged and run", flush=True)


def wrong():
    """Each wrong end has to be found."""
    build(*sorted(set(WRONG.values())), wrong=True)
    found = 0
    for name, program in WRONG.items():
        words = ["--step", "64"] if program == "damage" else []
        done = subprocess.run([f"{BUILD}/wrong_{program}", *words], capture_output=True, text=True, cwd=TOP,
                              env={**os.environ, "TRIALS_WRONG": name})
        told = done.stdout.splitlines()
        first = next((line for line in told if line.startswith("FAILED")), "nothing")
        check(f"{program} does not find {name}", done.returncode != 0)
        found += done.returncode != 0
        print(f"{name}: {program} says {first}")
    print(f"wrong ends: {found} of {len(WRONG)} found")
    return counts


def fuzz(words):
    build("fuzz")
    seed = ["--seed", words[1]] if len(words) > 1 else []
    run("fuzz", "--seconds", words[0] if words else "60", *seed)
    return counts


def main(words):
    if words[:1] == ["--fuzz"]:
        return fuzz(words[1:])
    if words == ["--wrong"]:
        return wrong()
    if words not in ([], ["--part"]):
        sys.exit(__doc__.rstrip())
    part = bool(words)
    began = time.time()
    build("breaks", "growths", "traces", "judged", "parts", "turns", "limits", "room", "damage", "again", "shows", "blameless", "faults")
    build_shim()
    with tempfile.TemporaryDirectory() as room:
        run("breaks", "--write", room, "97" if part else "7")
        pairs(room)
        examples()
        run("growths")
        run("traces")
        run("judged")
        run("parts")
        run("turns")
        run("blameless", "--runs", "1250" if part else "20000")
        run("faults", "--runs", "1250" if part else "20000")
        replays(part)
        run("limits")
        run("room")
        run("damage", "--step", "16" if part else "1", "--write", f"{room}/fed")
        run("again", f"{room}/fed")
        run("shows", OSI, f"{room}/fed", "16" if part else "1", f"{room}/listings")
        listings(f"{room}/listings")
        for job, text in texts():
            failing(job, text)
        for job in ("show", "pair"):
            endless(job)
        longest()
    print(f"{'a part' if part else 'all'}: {counts.runs} runs in {time.time() - began:.0f} s")
    return counts
