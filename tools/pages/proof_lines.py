"""Counts the proofs that are written by hand: the lines of each crate's proofs/, and what makes them hard to read.

A long line has more than 140 characters. A file of lemmas has no head if it does not begin with a comment, and a bare name if that is
a word or two (Pieces, PartLaws) instead of words that say what is proved. Files that answer for one function, the map and the
vocabulary of a crate, and files that only name the files of a folder are no files of lemmas.
"""
import glob
import os
import re

TOP = os.path.dirname(os.path.dirname(os.path.dirname(os.path.abspath(__file__))))
TITLES = ("Lines", "Long lines", "Files of lemmas", "Without a head", "Bare names")
LONGEST = 140
# These files have a name that the toolchain or the layout of a crate gives them.
NAMED = {"Answers", "Goals", "Invariants", "Lib", "Proof", "Vocabulary"}


def read(path):
    with open(path, encoding="utf-8") as file:
        return file.read()


def crates():
    """The names of the crates with proofs, in the order of crates.txt."""
    return [name for name in re.findall(r"^(osi_\w+)", read(f"{TOP}/crates.txt"), re.M) if os.path.isdir(f"{TOP}/crates/{name}/proofs")]


class Proof:
    """A file of proofs."""

    def __init__(self, path):
        self.path, self.name = path, os.path.basename(path).removesuffix(".antt")
        self.lines = read(path).splitlines()
        self.long = sum(len(line) > LONGEST for line in self.lines)
        only_names = all(re.match(r"--|pub mod |$", line) for line in self.lines)
        self.has_lemmas = self.name not in NAMED and not only_names
        self.has_no_head = self.has_lemmas and not (self.lines and self.lines[0].startswith("--"))
        self.has_bare_name = self.has_lemmas and not re.search(r"[a-z]_[a-z0-9]", self.name)


def proofs(crate):
    """The files of a crate's proofs."""
    return [Proof(path) for path in sorted(glob.glob(f"{TOP}/crates/{crate}/proofs/**/*.antt", recursive=True))]


def counted(files):
    """The numbers of some files, in the order of the titles."""
    return (sum(len(file.lines) for file in files), sum(file.long for file in files), sum(file.has_lemmas for file in files),
            sum(file.has_no_head for file in files), sum(file.has_bare_name for file in files))


def rows():
    """The numbers of each crate, and of all."""
    found = {crate: counted(proofs(crate)) for crate in crates()}
    return {**found, "all": tuple(map(sum, zip(*found.values())))}


def wrong():
    """The files of lemmas that have no head, or a bare name."""
    return ", ".join(os.path.relpath(file.path, TOP) for crate in crates() for file in proofs(crate)
                     if file.has_no_head or file.has_bare_name)


def tell():
    """Prints the numbers of each crate, and names the files that should be better."""
    print(f"{'':16}" + "".join(f"{title:>18}" for title in TITLES))
    for name, numbers in rows().items():
        print(f"{name:16}" + "".join(f"{number:18,}" for number in numbers))
    for crate in crates():
        for file in proofs(crate):
            said = ([f"{file.long} long lines"] if file.long else []) + ["no head"] * file.has_no_head + ["a bare name"] * file.has_bare_name
            if said:
                print(f"{os.path.relpath(file.path, TOP)}: {', '.join(said)}")
