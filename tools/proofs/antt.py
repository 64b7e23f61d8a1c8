"""The lemmas and imports in the files of proofs/."""
import itertools
import os
import re

TOP = os.path.dirname(os.path.dirname(os.path.dirname(os.path.realpath(__file__))))
LONGEST = 140
# Files whose items are no lemmas.
NO_LEMMAS = {"Goals", "Invariants", "Lib", "Proof", "Vocabulary"}
SIGNATURE = re.compile(r" *(pub )?([^\s:(){}\[\],.]+) : ")
OTHER_ITEM = re.compile(r" *(pub )?(use|mod|record|data|mutual|ruleset|infix\w*|abbrev|unfoldable|ghost) ")
WORD = re.compile(r"[^\s(){}\[\],;:=→λ∙×⊎≡≤<+∷|↦]+")
IMPORT = re.compile(r"use ([^\s{]+)\.\{(.*)\}$")
HEADING = re.compile(r" *-- ---")


def read_lines(path):
    with open(path, encoding="utf-8") as file:
        return file.read().split("\n")


def write_lines(path, lines):
    with open(path, "w", encoding="utf-8") as file:
        file.write("\n".join(lines))


def indent_of(line):
    return len(line) - len(line.lstrip(" "))


def is_comment(line):
    return line.lstrip().startswith("--")


def split_list(text):
    """The entries of a list, split at its own commas."""
    depth, parts = 0, [""]
    for letter in text:
        depth += (letter in "({[") - (letter in ")}]")
        parts = [*parts, ""] if letter == "," and not depth else [*parts[:-1], parts[-1] + letter]
    return [" ".join(it.split()) for it in parts if it.strip()]


def unique(facts):
    return list(dict.fromkeys(facts))


class Lemma:
    """A lemma at the top of a file or in a section: its name and its lines."""

    def __init__(self, lines, first, name, end):
        self.name, self.first, self.end = name, first, end
        while not lines[self.end - 1].strip() or is_comment(lines[self.end - 1]):
            self.end -= 1


def lemmas_from(lines, at, indent):
    """The lemmas with this indent from a line on, those of sections below them too, and the line where that ends."""
    found = []
    while at < len(lines):
        line = lines[at]
        if not line.strip() or is_comment(line) or indent_of(line) > indent:
            at += 1
        elif indent_of(line) < indent:
            break
        elif re.match(r" *module _ ", line):
            while not lines[at].rstrip().endswith("where"):
                at += 1
            more, at = lemmas_from(lines, at + 1, indent + 2)
            found += more
        else:
            lemma, at = lemma_at(lines, at, indent)
            found += [lemma] if lemma else []
    return found, at


def lemma_at(lines, at, indent):
    """The lemma that begins in this line, if one does, and the line after it."""
    is_item = SIGNATURE.match(lines[at]) and not OTHER_ITEM.match(lines[at])
    if not is_item:
        return None, at + 1
    name, has_clauses, end = SIGNATURE.match(lines[at])[2], False, at + 1
    begins = re.compile(rf" {{{indent}}}{re.escape(name)}(?=[ =]|$)")
    while end < len(lines):
        line = lines[end]
        is_within = not line.strip() or indent_of(line) > indent or re.match(r" *unfolding | *[\])}]", line)
        if not is_within and not (begins.match(line) and not SIGNATURE.match(line)):
            break
        has_clauses = has_clauses or not is_within
        end += 1
    return (Lemma(lines, at, name, end) if has_clauses else None), end


def imports_of(path):
    """The paths of the names that a file imports, and those of the modules that it gives a name."""
    names, modules = {}, {}
    for line in read_lines(path) if os.path.isfile(path) else []:
        found = re.match(r"(?:pub )?use ([^\s{]+?)(?:\.\{(.*)\})?(?: as (\S+))?$", line)
        if found and found[3]:
            modules[found[3]] = found[1]
        for leaf in (found[2] or "").split(",") if found else []:
            old, _, new = leaf.strip().partition(" as ")
            names[new or old] = f"{found[1]}.{old}"
    return names, modules


def is_used(name, text):
    """Whether a text has this name, or a part of it if it is an operator."""
    if "◌" in name:
        return any(part and part in text for part in name.split("◌"))
    return bool(re.search(rf"(?<![\w.]){re.escape(name)}(?!\w)", text))


def packed(module, leaves, longest=LONGEST):
    """Lines that import these names from a module."""
    lines, current = [], ""
    for leaf in leaves:
        longer = f"{current}, {leaf}" if current else leaf
        if current and len(f"use {module}.{{{longer}}}") > longest:
            lines, longer = [*lines, f"use {module}.{{{current}}}"], leaf
        current = longer
    return [*lines, f"use {module}.{{{current}}}"] if current else lines


def is_over_nothing(heading, below):
    """Whether no lemma is left under a heading. The lines below it come from the end, so the nearest is the last."""
    nearest = next((it for it in reversed(below) if it.strip()), None)
    return nearest is None or bool(HEADING.match(nearest)) or indent_of(nearest) < indent_of(heading)


def without_empty_modules(lines):
    """The lines of a file without the sections that declare nothing, and without the comments above these."""
    for first in reversed([at for at, line in enumerate(lines) if re.match(r" *module _ ", line)]):
        indent, end = indent_of(lines[first]), first
        while not lines[end].rstrip().endswith("where"):
            end += 1
        end += 1
        while end < len(lines) and (not lines[end].strip() or is_comment(lines[end]) and indent_of(lines[end]) > indent):
            end += 1
        if end < len(lines) and indent_of(lines[end]) > indent:
            continue
        while first > 1 and is_comment(lines[first - 1]) and not HEADING.match(lines[first - 1]):
            first -= 1
        lines = [*lines[:first], *lines[end:]]
    return lines


def without_empty_sections(lines):
    """The lines of a file without sections that declare nothing, and without headings that stand over nothing."""
    out, lines = [], without_empty_modules(lines)
    for line in reversed(lines):
        if not HEADING.match(line) or not is_over_nothing(line, out):
            out.append(line)
            continue
        while out and not out[-1].strip():
            out.pop()
    return [*"\n".join(reversed(out)).rstrip("\n").split("\n"), ""]


def drop_imports(path):
    """Drops names that a file imports and doesn't use, sections that declare nothing, and headings over nothing."""
    lines = read_lines(path)
    text = "\n".join(it for it in lines if not it.startswith("use ") and not is_comment(it))
    out = []
    for module, group in itertools.groupby(lines, lambda line: (IMPORT.match(line) or [line, None])[1]):
        group = list(group)
        leaves = [it.strip() for line in group for it in IMPORT.match(line)[2].split(",")] if module else []
        used = [it for it in leaves if is_used(it.split(" as ")[-1], text)]
        out += group if used == leaves else packed(module, used)
    write_lines(path, without_empty_sections(out))
