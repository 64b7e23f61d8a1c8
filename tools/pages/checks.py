"""What every check of the pages needs: counts, files, and what is built."""
import glob
import importlib.machinery
import importlib.util
import os
import re
import subprocess

TOP = os.path.dirname(os.path.dirname(os.path.dirname(os.path.abspath(__file__))))
FENCE = re.compile(r"^```(\w*)\n(.*?)^```$", re.M | re.S)
OSI = f"{TOP}/crates/osi_tool/out/osi_tool"


def module(path):
    """A script of the repository as a module."""
    loader = importlib.machinery.SourceFileLoader(os.path.basename(path), f"{TOP}/{path}")
    made = importlib.util.module_from_spec(importlib.util.spec_from_loader(loader.name, loader))
    loader.exec_module(made)
    return made


of_sources = module("packaging/render").of_sources


class Counts:
    """How many checks held and failed, what was not run, and whether checks that hold are printed."""

    def __init__(self):
        self.passed, self.failed, self.left_out, self.is_quiet = 0, 0, [], True


counts = Counts()


def check(what, holds, why=""):
    counts.passed, counts.failed = counts.passed + bool(holds), counts.failed + (not holds)
    if not holds:
        print(f"FAILED: {what}{': ' + why if why else ''}")
    elif not counts.is_quiet:
        print(f"ok: {what}")
    return holds


def skip(what, why):
    counts.left_out.append(f"{what} ({why})")


def read(path):
    """A file; of a page what a reader of the repository sees, without the words for an installation (packaging/render)."""
    with open(os.path.join(TOP, path), encoding="utf-8") as file:
        text = file.read()
    return of_sources(text) if path.endswith(".md") else text


def pages():
    """All pages of the repository, but for what is built."""
    found = [os.path.relpath(path, TOP) for path in glob.glob(f"{TOP}/**/*.md", recursive=True)]
    return sorted(page for page in found if not re.search(r"(^|/)(out|build|node_modules)/", page))


def run(words, room, **more):
    return subprocess.run(words, cwd=room, capture_output=True, text=True, shell=isinstance(words, str), **more)


def is_built():
    stamp = f"{TOP}/crates/osi_tool/out/sources"
    return os.path.exists(OSI) and os.path.exists(stamp) and \
        read(stamp).strip() == run([f"{TOP}/scripts/sources"], TOP).stdout.strip()


def has_library():
    return os.path.exists(f"{TOP}/build/libosi-session.a")
