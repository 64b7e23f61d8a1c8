"""Makes docs/LAWS.md: each law of the workspace, with its sentence.

A law is a public function of a crate's src/laws.rt, or of a file of src/laws/, that does nothing, or only calls other laws. Its
clauses are the law, and the comment above it states it in words. The page has these comments, crate by crate in the order of
crates.txt.
"""
import glob
import os
import re

TOP = os.path.dirname(os.path.dirname(os.path.dirname(os.path.abspath(__file__))))
PAGE = f"{TOP}/docs/LAWS.md"
LINK = re.compile(r"\[`([^`]+)`\]: (\S+)")
LAW = re.compile(r"((?:^///.*\n)+)(?:^#\[.*\]\n)*^pub fn (\w+)\([^)]*\)\n((?:^    .*\n)*)\{", re.M)
HEAD = """# Laws

Read this page if you need the exact statement behind a sentence of [PROVED.md](PROVED.md). A contract says what one call does. A law says what follows from contracts, for example over any list of calls, or over a stream that arrives in any pieces. Each law is a public function that does nothing; `rt check` proves its clauses. `scripts/pages --write` takes the sentences below from the comments above the laws.
"""


def read(path):
    with open(path, encoding="utf-8") as file:
        return file.read()


def crates():
    """The names of the crates, in the order of crates.txt."""
    return re.findall(r"^(osi_\w+)", read(f"{TOP}/crates.txt"), re.M)


def modules_of(crate):
    """The files of a crate that have laws, from its src."""
    sources = f"{TOP}/crates/{crate}/src"
    return [os.path.relpath(path, sources) for path in [*glob.glob(f"{sources}/laws.rt"), *sorted(glob.glob(f"{sources}/laws/*.rt"))]]


def laws_of(crate, module):
    """The laws of a file of a crate: name, clauses and text."""
    for comment, name, clauses in LAW.findall(read(f"{TOP}/crates/{crate}/src/{module}")):
        text = "\n".join(line.removeprefix("///").strip() for line in comment.splitlines())
        yield name, re.findall(r"^    ensures (\w+) \{", clauses, re.M), linked(text, os.path.dirname(f"{TOP}/crates/{crate}/src/{module}"))


def linked(text, folder):
    """A comment as the page has it: a name with a file, as seen from a folder, is a link to that file, and any other is code."""
    files = dict(LINK.findall(text))

    def shown(found):
        name = found[1].removeprefix("crate::")
        return f"[`{name}`]({os.path.relpath(f'{folder}/{files[name]}', os.path.dirname(PAGE))})" if name in files else f"`{name}`"
    return re.sub(r"\[`([^`]+)`\]", shown, LINK.sub("", text))


def drawn():
    """The page."""
    parts = [HEAD]
    for crate in crates():
        heading = f"\n## {crate}\n"
        for module in modules_of(crate):
            laws = list(laws_of(crate, module))
            if laws:
                parts.append(f"{heading}[src/{module}](../crates/{crate}/src/{module})\n")
                heading = "\n"
            for name, clauses, text in laws:
                named = f" ({', '.join(f'`{it}`' for it in clauses)})" if len(clauses) > 1 else ""
                parts += ["\n", f"**`{name}`**{named}\n", "\n\n".join("\n".join(folded(each)) for each in text.strip().split("\n\n")), "\n"]
    return "".join(parts)


def folded(text, most=140):
    """Lines of at most this many characters."""
    line = ""
    for word in text.split():
        if line and len(line) + 1 + len(word) > most:
            yield line
            line = word
        else:
            line = f"{line} {word}".strip()
    yield line


def wrong():
    """What differs on the page."""
    return "" if os.path.exists(PAGE) and read(PAGE) == drawn() else "docs/LAWS.md has not the laws as they are"


def write():
    with open(PAGE, "w", encoding="utf-8") as file:
        file.write(drawn())
