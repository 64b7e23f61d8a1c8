"""Lists the definitions that you have to believe for the promises on two ends, and their lengths.

It begins with the definitions that the public clauses of osi_pair cite, and follows the imports at the head of each file of
specs/ to the definitions that these use, over all crates. A definition counts together with the comment above it. If a
definition uses a type of the code, the lines of that type count.
"""
import glob
import os
import re
import sys

TOP = os.path.dirname(os.path.dirname(os.path.dirname(os.path.abspath(__file__))))
PAGE = "docs/READING-SPECS.md"
BEGIN, END = "<!-- definitions -->", "<!-- end -->"
# What the clauses of Pair cite, part after part: each is read after those before it.
PARTS = [
    ("What users may rely on, by their journal", [
        ("osi_pair", "Promises", name) for name in (
            "OfEachConnection", "AllWereAskedFor", "HaveOneHolder", "AgreeUnlessDuplex", "IsShownAsAsked",
            "ConfirmedIsSeen", "HasNoFault", "EndsForFewReasons", "LoseAsTheyEnd")]),
    ("That the journal is one of the machine", [("osi_pair", "Promises", "IsLegalJournal")]),
    ("That two ends match steps of the machine, and that what was sent is taken", [
        ("osi_pair", "Promises", "IsSafe"), ("osi_pair", "Reached", "IsReached")]),
    ("What an event does", [
        ("osi_pair", "Advancing", "StandsAfter"), ("osi_pair", "Events", "Does"), ("osi_pair", "Events", "CarriesAsMuch"),
        ("osi_pair", "Events", "NotesIfCutShort"), ("osi_pair", "Events", "misfit"),
        ("osi_pair", "Events", "error_by_rule"), ("osi_pair", "Events", "Adds"),
        ("osi_pair", "Running", "RunsThrough"), ("osi_pair", "Running", "StopsAt"), ("osi_pair", "Ends", "fresh_ends"),
        ("osi_pair", "Memory", "ends_in")]),
]
# The order in which crates are read: the promise, the machine that it speaks of, its tables, then the octets below it.
ORDER = ["osi_pair", "osi_machine", "osi_session", "osi_message", "osi_spdu", "osi_stack", "osi_between", "osi_carrier",
         "osi_class", "osi_tpdu", "osi_tpkt", "osi_unit"]
HEAD = re.compile(r"(?:(?:pub|abbrev|unfoldable)\s+)*(record|data)\s+(\S+)|(?:(?:pub|abbrev|unfoldable)\s+)*([^\s({:]+)\s+:\s")
IMPORT = re.compile(r"^(?:unfoldable\s+)?(?:pub\s+)?use\s+Rattle\.(\w+)\.specs\.([\w.]+?)(?:\.\{([^}]*)\}|\s+as\s+(\w+))\s*$", re.M)
TOKEN = re.compile(r"[^\s(){};,\[\]]+")


class File:
    """A file of specs/: its definitions, and the files of the names that it imports."""

    def __init__(self, crate, module, text):
        self.crate, self.module, self.lines = crate, module, text.count("\n")
        self.names, self.aliases, self.passed = {}, {}, {}
        for found in IMPORT.finditer(text):
            self.take(found)
        self.definitions, self.owner = definitions(text)

    def take(self, found):
        crate, path, names, alias = found.groups()
        if alias:
            self.aliases[alias] = (crate, path)
        for name in (names or "").split(","):
            theirs, _, ours = name.strip().partition(" as ")
            if theirs:
                self.names[ours or theirs] = (crate, path, theirs)


def definitions(text):
    """For each definition its lines and its text; and for each constructor the type that has it."""
    found, owner, comment, current = {}, {}, [], None
    for line in text.splitlines():
        if line.startswith("use ") or re.match(r"(unfoldable )?pub use ", line):
            comment, current = [], None
        elif line.startswith("--"):
            comment.append(line)
        elif not line.strip():
            current, comment = (current, [] if comment and comment[-1].startswith("-- ----") else comment)
        else:
            head = None if line[0].isspace() else HEAD.match(line)
            if head:
                current = head.group(2) or head.group(3)
                found.setdefault(current, []).extend(comment)
                kind, comment = head.group(1), []
            if current:
                found[current].append(line)
                inner = re.match(r"\s+(?:pub\s+)?(\w+)\s+:", line)
                if inner and kind == "data":
                    owner[inner.group(1)] = current
    return found, owner


def read_all():
    files = {}
    for path in glob.glob(f"{TOP}/crates/*/specs/**/*.antt", recursive=True):
        crate, module = path[len(TOP) + len("/crates/"):-len(".antt")].split("/specs/")
        with open(path, encoding="utf-8") as file:
            files[crate, module.replace("/", ".")] = File(crate, module.replace("/", "."), file.read())
    return files


def resolved(files, crate, path, name):
    """The definition that a name of a file is: as (crate, module, name), or ("type", crate, path of its type)."""
    if path.startswith("declared."):
        return "type", crate, re.sub(r"^declared\.|\.TheVariants$", "", path)
    file = files.get((crate, path))
    if file is None:
        return None
    if name in file.definitions:
        return crate, path, name
    if name in file.owner:
        return crate, path, file.owner[name]
    return resolved(files, *file.names[name]) if name in file.names else None


def used_by(files, at):
    file = files[at[0], at[1]]
    for line in file.definitions[at[2]]:
        for token in TOKEN.findall(re.sub(r"(^|\s)--.*", "", line)):
            alias, _, name = token.partition(".")
            if name and alias in file.aliases:
                yield resolved(files, *file.aliases[alias], name)
            elif token in file.definitions or token in file.owner or token in file.names:
                yield resolved(files, at[0], at[1], token)


def closure(files, roots):
    """Each definition that the roots depend on, in the order in which it is met, with the one that uses it."""
    came, queue = {root: None for root in roots}, list(roots)
    for at in queue:
        if at[0] != "type":
            for other in used_by(files, at):
                if other and other not in came:
                    came[other] = at
                    queue.append(other)
    return came


def length_of_type(crate, path):
    *folders, name = path.split(".")
    source = f"{TOP}/crates/{crate}/src/{'/'.join(folders)}.rt"
    if not os.path.exists(source):
        return 0
    with open(source, encoding="utf-8") as file:
        lines = file.read().splitlines()
    for number, line in enumerate(lines):
        if re.match(rf"pub(\(\w+\))? (struct|enum) {name}\b", line):
            end = number if line.endswith(";") else next(n for n in range(number, len(lines)) if lines[n].startswith("}"))
            first = number
            while first and lines[first - 1].startswith(("///", "#[")):
                first -= 1
            return end - first + 1
    return 0


def rows_of(files, came):
    rows, types = {}, {}
    for at in came:
        if at[0] == "type":
            types.setdefault(at[1], []).append(at)
        else:
            rows.setdefault(at[:2], []).append(at[2])
    return rows, types


def counted(files, came, known):
    """Definitions that are not known from the parts before: crate, file, how many and how long; and their totals."""
    rows, types = rows_of(files, came)
    found, total, length = [], 0, 0
    for crate in ORDER + sorted({crate for crate, _ in rows} - set(ORDER)):
        for place in (place for place in rows if place[0] == crate):
            names = [name for name in rows[place] if (*place, name) not in known]
            if names:
                count = sum(len(files[place].definitions[name]) for name in names)
                found.append((crate, f"`{place[1].replace('.', '/')}`", len(names), count))
                total, length = total + len(names), length + count
    new_types = [at for group in types.values() for at in group if at not in known]
    return found, (total, length, len(new_types), sum(length_of_type(crate, path) for _, crate, path in new_types))


def by_crate(found):
    """The same with a row for each crate, with its files in their order."""
    for crate in dict.fromkeys(row[0] for row in found):
        rows = [row for row in found if row[0] == crate]
        yield crate, ", ".join(row[1] for row in rows), sum(row[2] for row in rows), sum(row[3] for row in rows)


def tables(files, in_files):
    parts, known, roots, sums = [], {}, [], []
    for number, (title, more) in enumerate(PARTS, 1):
        roots = roots + more
        came = closure(files, roots)
        found, sums_here = counted(files, came, known)
        known = came
        sums.append(f"| {number}. {title} | " + " | ".join(f"{figure:,}" for figure in sums_here) + " |")
        head = [f"### {number}. {title}", "", "| Crate | Files of `specs/` | Definitions | Lines |", "|---|---|---|---|"]
        parts.append("\n".join(head + [f"| `{crate}` | {path} | {count} | {lines} |"
                                       for crate, path, count, lines in (found if in_files else by_crate(found))]))
    head = ["| Part | Definitions | Lines | Types of the code | Their lines |", "|---|---|---|---|---|"]
    return "\n\n".join([BEGIN, "\n".join(head + sums)] + parts + [END])


def of_clause(name):
    """The definitions that a clause of a public call of osi_pair cites, by the clause's name, as `one_holder`."""
    with open(f"{TOP}/crates/osi_pair/src/pairs.rt", encoding="utf-8") as file:
        clauses = re.findall(rf"^ +ensures {name} \{{ (.*) \}}$", file.read(), re.M)
    return {word for clause in clauses for word in re.findall(r"[A-Z]\w+", clause)}


def why(files, name):
    cited = of_clause(name)
    if cited:
        print(f"the clause {name} of Pair cites:")
        return max(why(files, each) for each in sorted(cited) if (each,) in {root[2:] for _, roots in PARTS for root in roots})
    came = closure(files, [root for _, roots in PARTS for root in roots])
    for at in came:
        if at[-1].split(".")[-1] == name:
            while at:
                print(" ".join(at))
                at = came[at]
            return 0
    print(f"{name} is not among them")
    return 1


def read_with_roots():
    """All files of specs/, in which each definition that the clauses cite has to be."""
    files = read_all()
    for root in (root for _, roots in PARTS for root in roots):
        if root[2] not in files[root[0], root[1]].definitions:
            sys.exit(f"{PAGE}: {root[0]} has no {root[2]} in specs/{root[1]}.antt")
    return files


def page_as_it_was_and_is():
    with open(f"{TOP}/{PAGE}", encoding="utf-8") as file:
        page = file.read()
    return page, page.partition(BEGIN)[0] + tables(read_with_roots(), False) + page.partition(END)[2]


def wrong():
    """What differs on the page."""
    was, now = page_as_it_was_and_is()
    return "" if was == now else f"{PAGE}: the tables are others now"


def write():
    page = page_as_it_was_and_is()[1]
    with open(f"{TOP}/{PAGE}", "w", encoding="utf-8") as file:
        file.write(page)


def explain(name):
    """Prints why a name is among the definitions, as a path from a promise."""
    return why(read_with_roots(), name)


def print_files():
    """Prints the tables with a row for each file."""
    print(tables(read_with_roots(), True))
