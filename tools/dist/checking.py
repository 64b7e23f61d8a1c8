"""What the parts of scripts/check_dist share: a check with its line, how a program is run, and the names of this version."""
import importlib.machinery
import importlib.util
import os
import subprocess
import sys

TOP = os.path.dirname(os.path.dirname(os.path.dirname(os.path.abspath(__file__))))
LIBDIR = "usr/lib/x86_64-linux-gnu"
passed = failed = 0


def check(what, holds, why=""):
    global passed, failed
    passed, failed = passed + bool(holds), failed + (not holds)
    print(f"{'ok' if holds else 'FAILED'}: {what}{'' if holds or not why else ': ' + why[-3000:]}", flush=True)
    return holds


def run(words, **more):
    return subprocess.run(words, capture_output=True, text=True, **more)


def read(path):
    with open(os.path.join(TOP, path), encoding="utf-8") as file:
        return file.read()


def octets(path):
    with open(path, "rb") as file:
        return file.read()


def has_pip():
    return run([sys.executable, "-m", "pip", "--version"]).returncode == 0


def of_version(*words):
    return run([f"{TOP}/scripts/version", *words]).stdout.strip()


def module(path):
    """A script of the repository as a module."""
    loader = importlib.machinery.SourceFileLoader(os.path.basename(path), f"{TOP}/{path}")
    made = importlib.util.module_from_spec(importlib.util.spec_from_loader(loader.name, loader))
    loader.exec_module(made)
    return made


# The version, as it is, as Debian's packages and those for Python write it, and its number alone.
VERSION, OF_DEBIAN, OF_PIP, NUMBER = of_version(), of_version("--debian"), of_version("--python"), of_version("--number")
ABI = of_version("--abi")
# The project's address, which all packages name; None if it has none. And the maintainer, whom the Debian packages name.
ADDRESS = of_version("--address") or None
MAINTAINER = run([f"{TOP}/packaging/maintainer"]).stdout.strip()
