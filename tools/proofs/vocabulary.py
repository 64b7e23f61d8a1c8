"""Lets the proofs of a crate take the words of the library, of crates below and of specs/ from proofs/Vocabulary.antt.

  python3 tools/proofs vocabulary CRATE            says how many lines of imports are fewer
  python3 tools/proofs vocabulary CRATE --write    writes Vocabulary.antt, and one list of its words in each file in place of many imports

A word that has two meanings in the crate is passed on with the one that more files want. A file keeps its import of a word that has
another meaning there or that it unfolds, and keeps all its imports if it would not be shorter. Imports from the crate's own proofs
stay, and so do those of whole proofs by hand (Proof.antt), which speak of machine code. The crate has to be proved again after
--write.
"""
import collections
import glob
import os
import re
import sys

import antt
from antt import TOP

HEAD = "-- What the proofs of this crate take from the library, from the crates below and from its own definitions."
NO_USERS = {"Goals", "Lib", "Proof", "Vocabulary"}
# These two modules of the library pass on the same words.
COMMON = re.compile(r"Rattle\.std\.(?:specs\.Prelude|proofs\.Common)$")
PASSED_ON = re.compile(r"(unfoldable )?pub use ([^\s{]+)\.\{(.*)\}$")


def path_of(module, word):
    return f"{COMMON.sub('Rattle.std.proofs.Common', module)}.{word}"


class File:
    """A file of proofs, its imports by their lines, and the words that may come from the vocabulary, with their paths."""

    def __init__(self, crate, path):
        self.own, self.path, self.lines = f"Rattle.{crate}.proofs.", path, antt.read_lines(path)
        unfolded = {word for line in self.lines if line.lstrip().startswith("unfolding ") for word in line.split()[1:]}
        found = ((at, antt.IMPORT.match(line)) for at, line in enumerate(self.lines))
        self.imports = {at: (it[1], antt.split_list(it[2])) for at, it in found if it}
        self.words = {}
        for module, words in self.imports.values():
            if not module.startswith(self.own):
                self.words.update({it: path_of(module, it) for it in words if " as " not in it and it not in unfolded})

    def taken(self, passed_on):
        """The words that the file takes from a vocabulary, in their order."""
        old = [it for module, words in self.imports.values() if module == f"{self.own}Vocabulary" for it in words]
        return antt.unique([*old, *(it for it, path in self.words.items() if passed_on.get(it) == path)])

    def over(self, passed_on):
        """The lines of the file, with one list of the words of a vocabulary."""
        module, taken, out = f"{self.own}Vocabulary", set(self.taken(passed_on)), []
        for at, line in enumerate(self.lines):
            if at == min(self.imports, default=None):
                out += antt.packed(module, self.taken(passed_on))
            of, words = self.imports.get(at, ("", []))
            is_own = of.startswith(self.own) and of != module
            left = words if is_own else [it for it in words if it not in taken]
            out += [line] if left == words else antt.packed(of, left)
        return out


def passed_on_by(path):
    """The words that a vocabulary passes on, with their paths, and those of them that can be unfolded."""
    words, unfoldable = {}, set()
    for found in filter(None, map(PASSED_ON.match, antt.read_lines(path) if os.path.isfile(path) else [])):
        for word in antt.split_list(found[3]):
            old, _, new = word.partition(" as ")
            words[new or old] = path_of(found[2], old)
            unfoldable |= {new or old} if found[1] else set()
    return words, unfoldable


def wanted_by(files):
    """The words that files want from elsewhere, each with the path that most of them want."""
    wanted = collections.defaultdict(collections.Counter)
    for file in files:
        for word, path in file.words.items():
            wanted[word][path] += 1
    return {word: min(paths, key=lambda it, of=paths: (-of[it], it)) for word, paths in wanted.items()}


def crates_in_order():
    with open(f"{TOP}/crates.txt", encoding="utf-8") as file:
        return re.findall(r"^(osi_\w+)", file.read(), re.M)


def written(old, words, unfoldable):
    """The lines of a vocabulary: what is of the library first, then of the lowest crate, and of the crate itself at the end."""
    own = [it for it in old if not PASSED_ON.match(it)]
    head = next((at for at, line in enumerate(own) if not antt.is_comment(line)), len(own))
    order, groups = ["std", *crates_in_order()], collections.defaultdict(list)
    for word, path in sorted(words.items()):
        module, old = path.rsplit(".", 1)
        groups[module, word in unfoldable].append(word if word == old else f"{old} as {word}")
    lines = []
    for module, opens in sorted(groups, key=lambda it: ([*order, it[0].split(".")[1]].index(it[0].split(".")[1]), it)):
        prefix = "unfoldable pub " if opens else "pub "
        lines += [f"{prefix}{it}" for it in antt.packed(module, groups[module, opens], antt.LONGEST - len(prefix))]
    return [*(own[:head] or [HEAD]), *lines, *(own[head:] or [""])]


def rewritten(crate):
    """The files of a crate that change, with their new lines, and how many lines are fewer."""
    vocabulary = f"{TOP}/crates/{crate}/proofs/Vocabulary.antt"
    paths = sorted(glob.glob(f"{TOP}/crates/{crate}/proofs/**/*.antt", recursive=True))
    files = [File(crate, it) for it in paths if os.path.basename(it).removesuffix(".antt") not in NO_USERS]
    known, unfoldable = passed_on_by(vocabulary)
    passed_on = {**wanted_by(files), **known}
    texts = {it: it.over(passed_on) for it in files}
    texts = {it: lines for it, lines in texts.items() if len(lines) < len(it.lines)}
    used = {word.split(" as ")[0] for it in files for word in it.taken(passed_on if it in texts else {})}
    out, old = {it.path: lines for it, lines in texts.items()}, antt.read_lines(vocabulary) if os.path.isfile(vocabulary) else []
    out[vocabulary] = written(old, {word: path for word, path in passed_on.items() if word in used}, unfoldable)
    fewer = sum(len(it.lines) for it in texts) + len(old) - sum(map(len, out.values()))
    if not old:
        declares = f"{os.path.dirname(vocabulary)}/Lib.antt"
        lines = antt.read_lines(declares)
        head = next(at for at, line in enumerate(lines) if not antt.is_comment(line))
        out[declares] = [*lines[:head], "mod Vocabulary", *lines[head:]]
    return out, fewer


def main(words):
    if not words or words[1:] not in ([], ["--write"]):
        sys.exit(__doc__.strip())
    texts, fewer = rewritten(words[0])
    print(f"{words[0]}: {fewer} lines fewer")
    if words[1:] and fewer > 0:
        for path, lines in texts.items():
            antt.write_lines(path, lines)
