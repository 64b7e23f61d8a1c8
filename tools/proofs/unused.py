"""Finds what nothing uses any more in the files of proofs/: lemmas, abbreviations and records.

  python3 tools/proofs unused            names each, with its file and line, and fails if there is one
  python3 tools/proofs unused --write    drops them, with the comments above them, then what only they used, and the imports that nothing needs

A word is used if it stands elsewhere in its own file, if another file imports it from there, or if the code names it by its path
(`using(..)`). Files that import a whole module count as users of all that it has. The crates have to be proved again after --write.
"""
import collections
import glob
import os
import re
import sys

import antt

DEFINITION = re.compile(r"( *)(?:pub )?(?:unfoldable )?(abbrev|record) (?:pub )?([^\s:(){}\[\],.]+)(?= : | :$| [({])")
CITED_PATH = re.compile(r"crate::(proofs(?:::[^\s:,()\]]+)+)")


class Item:
    """A lemma, an abbreviation or a record of a file: its name, and its lines."""

    def __init__(self, name, first, end):
        self.name, self.first, self.end = name, first, end

    def is_alone(self, words):
        """Whether its file names it nowhere but in its own lines; `words` are those of each line."""
        return not any(self.name in line for at, line in enumerate(words) if not self.first <= at < self.end)


def definitions(lines):
    """The abbreviations and records of a file, those of its sections too."""
    for first, line in enumerate(lines):
        found = DEFINITION.match(line)
        if not found:
            continue
        indent, name, end = len(found[1]), found[3], first + 1
        clause = re.compile(rf" {{{indent}}}{re.escape(name)}(?=[ =]|$)")
        while end < len(lines) and (antt.indent_of(lines[end]) > indent or clause.match(lines[end]) or re.match(r" *[\])}]", lines[end])):
            end += 1
        yield Item(name, first, end)


def items_of(lines):
    lemmas = [Item(it.name, it.first, it.end) for it in antt.lemmas_from(lines, 0, 0)[0]]
    return lemmas + [it for it in definitions(lines) if not any(lemma.first <= it.first < lemma.end for lemma in lemmas)]


def module_of(path):
    """The path by which others import from a file: Rattle.osi_pair.proofs.turn.all_is_shown."""
    return "Rattle." + os.path.relpath(path, f"{antt.TOP}/crates").removesuffix(".antt").replace("/", ".")


def cited(files):
    """The paths of all words that are imported from somewhere or named in the code, and of the modules that are taken as a whole."""
    words, modules = set(), set()
    for path in files:
        names, whole = antt.imports_of(path)
        words |= set(names.values())
        modules |= set(whole.values())
    for path in glob.glob(f"{antt.TOP}/crates/*/src/**/*.rt", recursive=True):
        crate = os.path.relpath(path, f"{antt.TOP}/crates").split("/")[0]
        words |= {f"Rattle.{crate}.{it.replace('::', '.')}" for it in CITED_PATH.findall("\n".join(antt.read_lines(path)))}
    return words, modules


def unused(files):
    """The items of each file that nothing uses."""
    words, modules = cited(files)
    found = collections.defaultdict(list)
    for path in files:
        module = module_of(path)
        if ".proofs." not in module or os.path.basename(path).removesuffix(".antt") in antt.NO_LEMMAS | {"Answers"} or module in modules:
            continue
        lines = antt.read_lines(path)
        of_lines = [set() if antt.is_comment(line) else set(antt.WORD.findall(line.replace(".", " "))) for line in lines]
        found[path] = [it for it in items_of(lines) if f"{module}.{it.name}" not in words and it.is_alone(of_lines)]
    return {path: items for path, items in found.items() if items}


def drop(path, items):
    """Drops items with the comments above them."""
    lines = antt.read_lines(path)
    for item in sorted(items, key=lambda it: it.first, reverse=True):
        first, end = item.first, item.end
        while first > 1 and antt.is_comment(lines[first - 1]) and not antt.HEADING.match(lines[first - 1]):
            first -= 1
        while end < len(lines) and not lines[end].strip():
            end += 1
        lines[first:end] = []
    antt.write_lines(path, "\n".join(lines).rstrip("\n").split("\n") + [""])
    antt.drop_imports(path)


def main(words):
    if words not in ([], ["--write"]):
        sys.exit(__doc__.strip())
    writes, dropped = bool(words), 0
    files = sorted(it for it in glob.glob(f"{antt.TOP}/crates/*/**/*.antt", recursive=True) if "/out/" not in it)
    found = unused(files)
    while found and writes:
        for path, items in found.items():
            drop(path, items)
        dropped += sum(map(len, found.values()))
        found = unused(files)
    for path, items in found.items():
        for item in items:
            print(f"{os.path.relpath(path, antt.TOP)}:{item.first + 1}: {item.name}")
    print(f"{dropped} dropped" if writes else f"{sum(map(len, found.values()))} that nothing uses")
    return 1 if found else 0
