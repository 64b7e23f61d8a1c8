"""The conditions that public functions put on a caller: each `requires` that a user of a library can break.

A function is public if it is in a module that is `pub`, or if a `pub use` of src/lib.rt names it, its type or its trait.
"""
import glob
import os
import re

TOP = os.path.dirname(os.path.dirname(os.path.dirname(os.path.abspath(__file__))))
# An impl or a trait, or a function up to its body, or the end of an item at the left margin.
ITEMS = re.compile(r"^(?P<of>(?:impl\b|(?:pub )?trait\b)[^{;]*)"
                   r"|^ *(?P<is_pub>pub (?:const )?(?:extern \"C\" )?)?fn (?P<name>\w+)(?P<head>.*?)(?=\n *\{|;\n|\{\}?\n)"
                   r"|^\}$", re.M | re.S)


def read(path):
    with open(path, encoding="utf-8") as file:
        return file.read()


def without_arguments(text):
    """A head without the parts in angle brackets."""
    while "<" in text:
        shorter = re.sub(r"<[^<>]*>", "", text)
        if shorter == text:
            break
        text = shorter
    return text


def owner(head):
    """The type or trait of an `impl` or a trait, and whether its functions are as public as it is."""
    plain = without_arguments(head)
    if "trait" in plain.split()[:2]:
        return re.search(r"trait (\w+)", plain).group(1), True
    return re.findall(r"\w+", plain.partition(" for ")[2] or plain.partition("impl")[2])[0], " for " in plain


def conditions(crate):
    """The public functions of a library that have a `requires`."""
    sources = f"{TOP}/crates/{crate}/src"
    lib = read(f"{sources}/lib.rt")
    named = " ".join(re.findall(r"^pub use (?:\w+::)*(\{[^}]*\}|\w+);", lib, re.M))
    shown, opened = set(re.findall(r"\w+", named)), set(re.findall(r"^pub mod (\w+);", lib, re.M))
    for path in sorted(glob.glob(f"{sources}/**/*.rt", recursive=True)):
        module = os.path.relpath(path, sources).split(os.sep)[0].removesuffix(".rt")
        of, open_impl = None, False
        for item in ITEMS.finditer(read(path)):
            if item["of"]:
                of, open_impl = owner(item["of"])
            elif item["name"] is None:
                of, open_impl = None, False
            elif "requires" in item["head"]:
                is_shown = of in shown if of else item["name"] in shown or module in opened
                if is_shown and (item["is_pub"] or open_impl):
                    yield f"{of}::{item['name']}" if of else item["name"]


def tabled():
    """The functions of the table in docs/PROVED.md, by crate."""
    section = re.search(r"^## Conditions on a caller\n.*?(?=^## )", read(f"{TOP}/docs/PROVED.md"), re.M | re.S)
    rows = re.findall(r"^\| `(osi_\w+)` \| (.*?) \|", section.group() if section else "", re.M)
    table = {crate: set() for crate, _ in rows}
    for crate, cell in rows:
        table[crate].update(re.findall(r"`([\w:]+)`", cell))
    return table


def wrong():
    """The functions that only the sources or only the table has."""
    libraries = sorted(os.path.basename(os.path.dirname(os.path.dirname(lib))) for lib in glob.glob(f"{TOP}/crates/*/src/lib.rt"))
    found, table = {crate: set(conditions(crate)) for crate in libraries}, tabled()
    return "\n".join(f"{crate} {name}: {'not in the table of docs/PROVED.md' if name in found.get(crate, set()) else 'has no condition'}"
                     for crate in sorted({*found, *table}) for name in sorted(found.get(crate, set()) ^ table.get(crate, set())))
