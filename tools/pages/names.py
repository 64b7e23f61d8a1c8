"""The names, clauses and figures that pages claim: README, PROVED, PROMISES, ARCHITECTURE and CONTRIBUTING."""
import glob
import os
import re
import shutil

from checks import FENCE, TOP, check, pages, read, run, skip

LINES, LONGEST = 200, 400
LONGEST_ELSEWHERE = 600
# The operation of the ledger whose speed README says, and the groups that are not compared with C by hand.
WHOLE, OTHERS = "stacks, data of 100 octets, class 2, 1 connection", ("pair", "ends", "transcript")


def check_limits():
    lines = read("README.md").splitlines()
    for what, count, most in (("lines", len(lines), LINES), ("characters in its longest line", max(map(len, lines)), LONGEST)):
        check(f"README has {count} {what}, at most {most}", count <= most)
    for page in pages():
        longest = max(map(len, read(page).splitlines()), default=0)
        check(f"{page}: its longest line has {longest} characters, at most {LONGEST_ELSEWHERE}", longest <= LONGEST_ELSEWHERE)


def sources_of(crate):
    paths = [path for kind in ("rt", "antt") for path in glob.glob(f"{TOP}/crates/{crate}/s*/**/*.{kind}", recursive=True)]
    return "\n".join(read(path) for path in paths)


def has(name, text):
    return re.search(rf"(?<!\w){name}(?!\w)", text)


def check_names(page, crate, cell, text):
    """Each name in code in this cell of a table is in the sources of the crate."""
    for name in re.findall(r"`([^`]+)`", cell):
        last = re.sub(r"\.(antt|rt)$", "", name.split("::")[-1].split("/")[-1])
        if re.fullmatch(r"osi_\w+|crates|src|make|README", last) or not re.fullmatch(r"\w+", last):
            continue
        here = has(last, text) or any(f"{last}.antt" == os.path.basename(path) for path in glob.glob(f"{TOP}/crates/*/specs/**/*", recursive=True))
        check(f"{page}: {crate} has {name}", here or any(has(last, sources_of(other)) for other in re.findall(r"osi_\w+", cell)))


def clauses_of(texts, name):
    """The names of the clauses that each function of this name has."""
    heads = [head for text in texts for head in functions_of(text, name)]
    return [set(re.findall(r"^ +ensures (\w+) \{", head, re.M)) for head in heads]


def check_promises():
    """What docs/PROMISES.md promises of two ends: each cell names calls, and then clauses that each of these has."""
    page = "docs/PROMISES.md"
    texts = [sources_of("osi_pair"), sources_of("osi_stack")]
    section = re.search(r"^## The promises.*?^## ", read(page), re.M | re.S).group()
    for group in (group for cell in re.findall(r"^\| .* \| (`.*) \|$", section, re.M) for group in cell.split(";")):
        first, *more = re.findall(r"`([\w:]+)`", group.partition(" over ")[0])
        of = first.partition("::")[0]
        calls = [first] + [f"{of}::{name}" for name in more if clauses_of(texts, f"{of}::{name}")]
        for call in calls:
            check(f"{page}: there is {call}", clauses_of(texts, call))
            for clause in (name for name in more if f"{of}::{name}" not in calls):
                check(f"{page}: {call} has the clause {clause}", all(clause in each for each in clauses_of(texts, call)))


def check_named_clauses(page, cell, texts):
    """`call`, clauses `one`, `two`: the call has these."""
    for call, names in re.findall(r"`([\w:]+)`, clauses ((?:`\w+`(?:, )?)+)", cell):
        for clause in re.findall(r"\w+", names):
            check(f"{page}: {call} has the clause {clause}", any(clause in each for each in clauses_of(texts, call)))


def check_words():
    """Each name in code on a page of docs/ is in the repository: in a source, or as the name of a file."""
    paths = [path for folder in ("crates", "include", "bindings", "examples", "bench", "scripts", "tools", "trials")
             for path in glob.glob(f"{TOP}/{folder}/**/*", recursive=True) if not re.search(r"/(out|build|__pycache__)/", path)]
    known = set(re.findall(r"\w+", read("Makefile") + " ".join(map(os.path.basename, paths))))
    for path in paths:
        if re.search(r"\.(rt|antt|h|hpp|c|py|rs|edit)$|/edits\.txt$|/scripts/\w+$|/bench/ledger$", path) and os.path.isfile(path):
            known.update(re.findall(r"\w+", read(path)))
    for page in (page for page in pages() if page.startswith("docs/") and page not in ("docs/TOOL.md", "docs/PYTHON.md")):
        spans = " ".join(re.findall(r"`([^`\n]+)`", FENCE.sub("", read(page))))
        for name in sorted(set(re.findall(r"(?<!\w)[A-Za-z]\w{2,}", spans))):
            check(f"{page}: {name} is there", name in known)


def check_exports():
    """README counts the functions for C that are proved."""
    said = re.search(r"its (\d+) exports", read("README.md"))
    count = len(re.findall(r'extern "C" fn \w+', sources_of("osi_c")))
    check(f"README.md: osi_c has {count} exports", said and said.group(1) == str(count))


def check_claims():
    for line in read("README.md").splitlines():
        row = re.fullmatch(r"\| `(osi_\w+)` \| .* \| (.*) \|", line)
        if row:
            check_names("README.md", row.group(1), row.group(2), sources_of(row.group(1)))
    for section in re.split(r"^(?=## )", read("docs/PROVED.md"), flags=re.M):
        check_section(section)


def check_section(section):
    """The claims of a section of docs/PROVED.md. Their names are in the sources of the crate that is the heading, or else of the
    crates that the cell names."""
    named = re.match(r"## (osi_\w+)\n", section)
    has_claims = named or "\n| Proved" in section
    for cell in re.findall(r"^\| .* \| ((?:[^|]|\\\|)*) \|$", section, re.M) if has_claims else ():
        crates = [named.group(1)] if named else re.findall(r"osi_\w+", cell)
        text = "".join(map(sources_of, crates))
        if crates:
            check_names("docs/PROVED.md", " ".join(crates), cell, text)
            check_named_clauses("docs/PROVED.md", cell, [text])


def check_bodies():
    """The table of wrong bodies in docs/PROVED.md: each edit is one that the gate tries, each function has the clause that is
    said to refuse it, and each edit of the gate is in the table."""
    section = re.search(r"^## Bodies that are refused.*?^## ", read("docs/PROVED.md"), re.M | re.S).group()
    shown = set()
    for cell, refused in re.findall(r"^\| .* \| (`osi_.*?) \| (`.*) \|$", section, re.M):
        crate, *names = re.findall(r"`(\w+)`", cell)
        for name in names:
            shown.add(f"crates/{crate}/must-fail/{name}.edit")
            check(f"docs/PROVED.md: the gate tries {name} of {crate}", os.path.exists(f"{TOP}/crates/{crate}/must-fail/{name}.edit"))
        check_refusal(crate, refused)
    tried = {os.path.relpath(path, TOP) for path in glob.glob(f"{TOP}/crates/*/must-fail/*.edit")}
    check("docs/PROVED.md has each edit of the gate in its table", tried == shown, " ".join(sorted(tried ^ shown)))


def check_refusal(crate, cell):
    """`call`, `one`, `two`: the function of this crate has these clauses. `call`, over `word`: its only clause has this word."""
    call, *clauses = re.findall(r"`([\w:]+)`", cell)
    heads = functions_of(sources_of(crate), call)
    check(f"docs/PROVED.md: {crate} has {call}", heads)
    for clause in clauses:
        found = r"ensures \{.*\b%s\b" if ", over " in cell else r"ensures\*? %s \{"
        check(f"docs/PROVED.md: {call} of {crate} has a clause {clause}", any(re.search(found % clause, it, re.S) for it in heads))


def functions_of(text, name):
    """The heads of the functions of this name, as `take` or `Switch::take`, up to their bodies, or to the next item of a trait."""
    of, _, last = name.rpartition("::")
    heads = []
    for part in re.split(r"^(?=impl\b|trait\b|pub trait\b)", text, flags=re.M):
        if not of or re.match(rf"(impl|(pub )?trait)\b(<[^>]*>)?( \w+(<[^>]*>)? for)? ?{of}\b", part):
            heads += re.findall(rf"\bfn {last}\b(.*?)(?:\n *(?:\{{\}}?\n|\}})|;\n\n)", part, re.S)
    return heads


def check_walks():
    """The walks of docs/ARCHITECTURE.md: each file has the functions of its row, and they are as many as the page says."""
    walks = re.findall(r"^## The walk .*?(?=^## |\Z)", read("docs/ARCHITECTURE.md"), re.M | re.S)
    check("docs/ARCHITECTURE.md has two walks", len(walks) == 2)
    for walk in walks:
        rows = re.findall(r"^\| `(osi_\w+/src/\S+\.rt)` \| (.*?) \|", walk, re.M)
        names = {(path, name) for path, cell in rows for name in re.findall(r"`([\w:]+)`", cell)}
        for path, name in sorted(names):
            there = os.path.exists(f"{TOP}/crates/{path}") and functions_of(read(f"crates/{path}"), name)
            check(f"docs/ARCHITECTURE.md: {path} has {name}", there)
        said = re.search(r"(\d+) functions in (\d+) files", walk)
        counts = str(len(names)), str(len({path for path, _ in names}))
        check("docs/ARCHITECTURE.md: a walk is as long as it says", said and said.groups() == counts, str(counts))


def check_task():
    """The first task of CONTRIBUTING.md can be done: the function has the text to be changed once, and it has that clause."""
    task = re.search(r"in `(\w+)` of `(\S+)` write `(.*?)` for `(.*?)`.*\n\| .*clause `(\w+)`.*--only (\w+)::(\w+)`.*\n",
                     read("CONTRIBUTING.md"))
    if check("CONTRIBUTING.md has the first task", task):
        function, path, _, old, clause, module, named = task.groups()
        body = re.search(rf"fn {function}\b.*?\n\}}\n", read(f"crates/osi_tpkt/{path}"), re.S)
        check("the first task can be done", body and body.group().count(old) == 1 and f"ensures {clause} " in body.group() and
              path == f"src/{module}.rt" and named == function)


def check_toolchain():
    """The toolchain that proves here is one of those that README names as trusted."""
    named = re.search(r"Trusted are the toolchain \((.*?), `logic (\w+)`\)", read("README.md"))
    if check("README names toolchains", named) and shutil.which("rt"):
        said = run(["rt", "version"], TOP).stdout.strip()
        kit, _, logic = said.partition(" logic ")
        check("README names the toolchain that proves here", f"`{kit}`" in named.group(1) and logic == named.group(2), said)
        check_rt()
    else:
        skip("README names the toolchain that proves here", "there is no rt")


def check_rt():
    """Each command of the toolchain that a page names is one; not every kit's `rt ci` takes the name of a crate."""
    done = run(["rt", "help"], TOP)
    known = {verb for verbs in re.findall(r"\brt ([a-z|-]+)", done.stdout + done.stderr) for verb in verbs.split("|")}
    for page in pages():
        for verb, more in sorted(set(re.findall(r"`rt ([a-z-]+)([^`]*)`", FENCE.sub("", read(page))))):
            check(f"{page}: there is rt {verb}{more}", verb in known and (verb != "ci" or not more))


def check_figures():
    """README's line on speed says what the ledger has: of data between two ends, and of the slowest operation."""
    said = re.search(r"^\*\*Speed\.\*\* .*? at ([\d.]+) of .*? slowest.*? at ([\d.]+)", read("README.md"), re.M)
    speeds = dict(re.findall(r"^(\S.*?) {2,}[\d.]+ +[\d.]+ +([\d.]+)", read("bench/ledger.txt"), re.M))
    slowest = min(float(speed) for name, speed in speeds.items() if not name.startswith(OTHERS))
    wanted = (float(speeds.get(WHOLE, 0)), slowest)
    check("README's figures are those of the ledger", said and tuple(map(float, said.groups())) == wanted, str(wanted))
