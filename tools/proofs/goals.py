"""Names the goals that the prover closes late, in the functions whose goals take longest, and calls that close them at once.

  python3 tools/proofs goals CRATE [SECONDS]

The prover tries a goal without an answer in several ways, one after the other, and each that fails costs time. This script
looks at each function whose goals take SECONDS or more (1 by default), and names those goals that the first way, a search
with the prover's own rules, doesn't close. Such a goal is worth an answer. After the goal stand the calls that closed it in a
trial with few steps, or `none`; then a term or a lemma is wanted. `functions` names those that are dear for other reasons.

It checks a copy of the crate in build/tried from nothing, so it takes longer than a proof of the crate. The libraries below the
crate have to be built (make).
"""
import collections
import importlib.machinery
import importlib.util
import os
import re
import shutil
import subprocess
import sys

from antt import TOP, read_lines, write_lines
from functions import parts_that_ended

STEPS = 60000
RULESETS = "use Rattle.std.proofs.lemmas.Grind.{common_steps as common_steps__, elements as elements__, moves as moves__}"
COMMON = "use Rattle.std.proofs.Common.{arith as arith__, rules as rules__}"
FIRST = "search rules"
CALLS = ["grind arith", "grind (arith, common_steps)", "grind (arith, elements)", "grind (arith, moves)"]
WORDS = re.compile(r"(?<=[ (])(rules|arith|common_steps|elements|moves)(?=[ ,)]|$)")


def toolchain():
    """The toolchain's own functions on crates."""
    loader = importlib.machinery.SourceFileLoader("rt_main", os.path.realpath(shutil.which("rt")))
    made = importlib.util.module_from_spec(importlib.util.spec_from_loader("rt_main", loader))
    loader.exec_module(made)
    return made.rtlib


def crate_over_statements(rt, name):
    """A crate, with the libraries of build/libraries below it."""
    crate = next(it for it in rt.crates_below(TOP) if it.name == name)
    for it in crate.below():
        it.rlib = f"{TOP}/build/libraries/{it.name}/{it.name}.rlib"
        if not os.path.isdir(it.rlib):
            sys.exit(f"tools/proofs: {it.name} has no library yet: make builds it")
    return crate


def faults_of(crate, answers):
    """Checks a copy of a crate with these answers in place of its own, and returns the lines of each file that have a fault."""
    source, copy = f"{TOP}/crates/{crate}", f"{TOP}/build/tried/{crate}"
    for part in ("src", "specs", "proofs"):
        shutil.rmtree(f"{copy}/{part}", ignore_errors=True)
        if os.path.isdir(f"{source}/{part}"):
            shutil.copytree(f"{source}/{part}", f"{copy}/{part}")
    for path, lines in answers.items():
        os.makedirs(os.path.dirname(f"{copy}/{path}"), exist_ok=True)
        write_lines(f"{copy}/{path}", lines)
    rt = toolchain()
    words = crate_over_statements(rt, crate).words(["--jobs", "1"])
    command = [rt.RATTLE, "check", *words, "--allow-holes", "--incremental", "kept"]
    os.makedirs(f"{copy}/kept", exist_ok=True)
    how = {"cwd": copy, "stdout": subprocess.PIPE, "stderr": subprocess.STDOUT, "text": True, "errors": "replace"}
    said = subprocess.run(command, check=False, **how).stdout
    if "\nholes=" not in said:
        sys.exit(f"tools/proofs: the copy of {crate} was not checked:\n{said[-2000:]}")
    found = collections.defaultdict(set)
    for path, line in re.findall(r"^\./(\S+/Answers\.antt):(\d+):\d+: error: ", said, re.M):
        found[path].add(int(line))
    if not answers.keys() >= found.keys():
        sys.exit(f"tools/proofs: {crate} is not proved as it stands: {', '.join(found.keys() - answers.keys())}")
    return found


class Goal:
    """A goal without an answer, its binders, and for each call that was tried the lines of its trial."""

    def __init__(self, name, binders):
        self.name, self.binders, self.places = name, binders, {}


class Function:
    """A function of a crate: what its attribute names, and its goals that have no answer."""

    def __init__(self, crate, name, offered):
        self.crate, self.name, self.path = crate, name, f"proofs/{name.replace('::', '/')}/Answers.antt"
        own = f"{TOP}/crates/{crate}/{self.path}"
        self.lines = read_lines(own) if os.path.isfile(own) else []
        answered = set(re.findall(r"^pub (\S+) : ", "\n".join(self.lines), re.M))
        found = re.findall(r"^pub (\S+) : \S+\n\1(.*?) = \?$", offered, re.M)
        self.goals = [Goal(*it) for it in found if it[0] not in answered]
        self.attribute = attribute_of(crate, name)

    def named(self, word):
        """The paths that the attribute lists after `using` or `unfolding`."""
        found = re.search(rf"{word}\(([^()]*)\)", self.attribute)
        paths = [it.strip() for it in found[1].split(",")] if found else []
        return [re.sub(r"^crate(?=\.)", self.crate, it.replace("::", ".")) for it in paths if it]

    def with_trials(self):
        """The lines of the function's answers with its other goals left open, and for each of them a trial for each call."""
        using, opened = self.named("using"), self.named("unfolding")
        uses = [f"use Rattle.{it.rpartition('.')[0]}.{{{last(it)} as {last(it)}__}}" for it in dict.fromkeys(using + opened)]
        goals = next((it.split()[-1] for it in self.lines if re.match(r"use \S+\.Goals as ", it)), None)
        if not goals:
            uses.append(f"use Rattle.{self.crate}.proofs.{self.name.replace('::', '.')}.Goals as goal")
        head = [it for it in self.lines if it.startswith("use ")]
        out = [*head, COMMON, RULESETS, *uses, *(it for it in self.lines if it not in head)]
        tactics = [FIRST, *CALLS] + [f"grind (arith, {', '.join(map(last, using))})"] * bool(using)
        for number, goal in enumerate(self.goals):
            out += ["", f"pub {goal.name} : {goals or 'goal'}.{goal.name}", f"{goal.name}{goal.binders} = ?"]
            for place, tactic in enumerate(tactics):
                mine, begin = f"tried__{number}-{place}", len(out) + 2
                out += ["", f"{mine} : {goals or 'goal'}.{goal.name}"]
                out += [f"unfolding {' '.join(f'{last(it)}__' for it in opened)}"] * bool(opened)
                out.append(f"{mine}{goal.binders} = {under_other_names(tactic, using)} steps {STEPS}"
                    if place else f"{mine}{goal.binders} = {under_other_names(tactic, using)}")
                goal.places[tactic] = range(begin, len(out) + 1)
        return out


def last(path):
    return path.rpartition(".")[2]


def under_other_names(tactic, using):
    """A call with the names under which a file of trials imports what the call lists."""
    for word in map(last, using):
        tactic = re.sub(rf"(?<=[ (]){re.escape(word)}(?=[,)])", f"{word}__", tactic)
    return WORDS.sub(r"\1__", tactic)


def source_of(crate, name):
    """The text of the file that a function stands in, and where its attributes and its name were found there, or None."""
    *modules, function = name.split("::")
    for count in range(len(modules), -1, -1):
        path = f"{TOP}/crates/{crate}/src/{'/'.join(modules[:count]) or 'lib'}.rt"
        if os.path.isfile(path):
            text = "\n".join(read_lines(path))
            return text, re.search(rf"((?: *#\[.*\]\n)*) *(?:pub(?:\([a-z ]+\))? )?(?:\w+ |\"C\" )*fn {re.escape(function)}\b", text)
    return "", None


def attribute_of(crate, name):
    """What stands in the attribute `tactic` of a function, or in that of its file."""
    text, found = source_of(crate, name)
    own = re.search(r"#\[tactic\(auto, (.*)\)\]", found[1]) if found else None
    whole = re.search(r"^#!\[tactic\(auto, (.*)\)\]", text, re.M)
    return (own or whole or [""] * 2)[1]


def seconds_of(crate):
    """The seconds that the goals of each function took when the copy of the crate was checked."""
    spent = collections.Counter()
    for seconds, function, part in parts_that_ended(f"{TOP}/build/tried/{crate}/kept"):
        spent[function] += seconds if part == "goals" else 0
    return spent


def offered_for(crate, names):
    """The text that the prover offers for the answers of each function, with all its goals."""
    rt, copy = toolchain(), f"{TOP}/build/tried/{crate}"
    shutil.rmtree(f"{copy}/offered", ignore_errors=True)
    words = crate_over_statements(rt, crate).words(["--jobs", "1"])
    command = [rt.RATTLE, "check", *words, "--incremental", "kept", "--generated", "offered"]
    for name in names:
        command += ["--start", name]
    subprocess.run(command, cwd=copy, check=False, stdout=subprocess.DEVNULL, stderr=subprocess.DEVNULL)
    paths = {it: f"{copy}/offered/Rattle-{crate}-proofs/{it.replace('::', '/')}/AnswersOffered.antt" for it in names}
    return {it: "\n".join(read_lines(path)) for it, path in paths.items() if os.path.isfile(path)}


def main(words):
    if not words:
        sys.exit(__doc__.strip())
    crate, least = words[0], float(words[1]) if len(words) > 1 else 1
    shutil.rmtree(f"{TOP}/build/tried/{crate}/kept", ignore_errors=True)
    faults_of(crate, {})
    spent = seconds_of(crate)
    # What a derive writes has no answers.
    dear = [it for it in sorted(spent, key=spent.get, reverse=True) if spent[it] >= least and source_of(crate, it)[1]]
    functions = [Function(crate, *it) for it in offered_for(crate, dear).items()]
    texts = {it.path: it.with_trials() for it in functions if it.goals}
    faults = faults_of(crate, texts)
    for function in functions:
        lines = faults[function.path]
        print(f"{spent[function.name]:7.1f} s  {function.name}")
        for goal in function.goals:
            closed = [call for call, place in goal.places.items() if not lines.intersection(place)]
            if FIRST not in closed:
                print(f"           {goal.name}: {', '.join(f'`{it}`' for it in closed) or 'none'}")
