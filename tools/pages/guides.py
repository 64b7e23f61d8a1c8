"""The guides and the tutorial, followed with the library; and the programs in Python that pages show."""
import os
import re
import shutil
import socket
import sys
import tempfile

from checks import FENCE, TOP, check, read, run, skip

TUTORIAL = "docs/TUTORIAL.md"
# The listings that the tutorial shows, by case and side.
SHOWN_LISTINGS = {("whole", "left"), ("whole", "right"), ("selector", "right"), ("class", "right"), ("abort", "right")}
# Sections that are run whole if the library for C is built, and the commands that each needs.
EMPTY, COPY = "From an empty folder", "A server to copy"
GUIDES = {
    ("docs/GUIDE.md", EMPTY): ("cc", "pkg-config"), ("docs/CPP.md", EMPTY): ("c++", "pkg-config"), ("docs/RUST.md", EMPTY): ("cargo",),
    ("docs/PYTHON.md", EMPTY): (), ("docs/TLS.md", EMPTY): ("cc", "pkg-config", "openssl"), (TUTORIAL, COPY): ("cc", "pkg-config"),
    ("docs/GUIDE.md", "The gateway"): ("cc",), ("docs/GUIDE.md", "The gateway in C++"): ("c++",),
    ("docs/GUIDE.md", "The gateway in Rust"): ("cc", "cargo", "cargo-clippy"), ("docs/GUIDE.md", "The gateway in Python"): ("cc",),
}


def guided(page, heading):
    """The place of a section of a page: from its heading to the next."""
    return re.search(rf"^## {re.escape(heading)}\n.*?(?=^## |\Z)", read(page), re.M | re.S).span()


def script_of(page, heading, port):
    """A section of a page as a script, and what it prints at last. Its files get the names before them; commands that make
    or install are left out, and the port is a free one."""
    first, last = guided(page, heading)
    section = read(page)[first:last].replace("4000", port)
    script, wanted, at = ["set -eu", "trap 'kill $(jobs -p) 2>/dev/null || true' EXIT"], "", 0
    for block in FENCE.finditer(section):
        kind, text = block.groups()
        names = re.findall(r"`([\w/]+\.\w+)`", section[at:block.start()])
        at = block.end()
        if kind == "sh":
            # (a reader does not type the next line before a server has started)
            lines = [line for line in text.splitlines() if not re.match(r"make |PREFIX=\S+ \./install\.sh|export OSI=", line)]
            script += [line + ("\nsleep 3" if line.endswith("&") else "") for line in lines]
        elif kind in ("cpp", "rust", "python") and names:
            script.append(f"cat > {names[-1]} <<'END_OF_FILE'\n{text}END_OF_FILE")
        elif not kind:
            wanted = text
    return "\n".join(script) + "\n", wanted


def free_port():
    with socket.socket() as listener:
        listener.bind(("127.0.0.1", 0))
        return str(listener.getsockname()[1])


def check_guides(room, may_run):
    """Follows the guides with the library, installed in a new home: each section prints what it says."""
    with tempfile.TemporaryDirectory() as home:
        done = run(["make", "-s", "-C", TOP, f"PREFIX={home}/osi", "install"], home)
        check("make install PREFIX=$HOME/osi", done.returncode == 0, done.stderr)
        places = {name: os.environ.get(name, os.path.expanduser(place))
                  for name, place in (("CARGO_HOME", "~/.cargo"), ("RUSTUP_HOME", "~/.rustup"))}
        known = {**os.environ, **places, "PATH": f"{os.path.dirname(sys.executable)}:{os.environ['PATH']}", "HOME": home,
                 "OSI": TOP, "CARGO_TARGET_DIR": f"{home}/target"}
        for (page, heading), tools in GUIDES.items():
            what, missing = f"{page}: {heading}", [tool for tool in tools if not shutil.which(tool)]
            script, wanted = script_of(page, heading, free_port())
            if missing or ("./osi" in script and not may_run):
                skip(what, f"there is no {', '.join(missing)}" if missing else "`make` has not built the program")
                continue
            folder = tempfile.mkdtemp(dir=home) if heading == EMPTY else room
            done = run(["bash", "-c", script], folder, env=known)
            check(f"{what}: it does what the page says", done.returncode == 0 and done.stdout.endswith(wanted),
                  done.stdout + done.stderr)


def check_tutorial(room, may_run):
    """The programs of the tutorial, in C and in Python: they print and send what the page and its files say."""
    folder = f"{TOP}/examples/tutorial"
    if not shutil.which("cc"):
        skip(f"{TUTORIAL}: its programs", "there is no cc")
        return
    built = run(["cc", "-std=c99", f"-I{TOP}/include", f"{folder}/association.c", f"{TOP}/build/libosi-session.a",
                 "-o", f"{room}/association"], room)
    if not check(f"{TUTORIAL}: its program in C is built", built.returncode == 0, built.stderr):
        return
    shown = [text for kind, text in FENCE.findall(read(TUTORIAL)) if kind == ""]
    environment = {**os.environ, "OSI_SESSION_DIR": f"{TOP}/build", "PYTHONPATH": f"{TOP}/bindings/python/src"}
    for case in ("whole", "selector", "class", "abort"):
        done = run(["./association", case, folder, "c.left", "c.right"], room)
        check(f"{TUTORIAL}: what the program prints for `{case}`", done.returncode == 0 and done.stdout in shown, done.stdout)
        python = run([sys.executable, f"{folder}/association.py", case, folder, "py.left", "py.right"], room, env=environment)
        check(f"{TUTORIAL}: the program in Python ends well for `{case}`", python.returncode == 0, python.stderr)
        for side in ("left", "right"):
            captures = [read(f"{room}/{name}.{side}") if os.path.exists(f"{room}/{name}.{side}") else name for name in ("c", "py")]
            stored = f"examples/tutorial/{case}.{side}.hex"
            check(f"{stored} is what the programs in C and in Python send", captures == [read(stored)] * 2)
            listing = f"examples/tutorial/{case}.{side}.listing"
            if may_run:
                listed = run(f"./osi show < {TOP}/{stored}", room)
                check(f"{listing} is its listing", listed.stdout == read(listing), listed.stderr)
            if (case, side) in SHOWN_LISTINGS:
                check(f"{TUTORIAL} shows {listing}", read(listing) in shown)


def sections(page):
    """The parts of a page between two headings: the blocks of each, by place, kind and text, and the names before them."""
    text = read(page)
    for part in re.split(r"^(?=##? )", text, flags=re.M):
        at, found = 0, []
        for block in FENCE.finditer(part):
            found.append((block[1], block[2], re.findall(r"`([\w/]+\.py)`", part[at:block.start()])))
            at = block.end()
        yield part.partition("\n")[0], found


def check_runs_in_python(page, room):
    """Runs the programs in Python that a page shows and that are no files of a guide, section by section, and compares what they
    print with the text that follows, if there is one."""
    known = {**os.environ, "OSI_SESSION_DIR": f"{TOP}/build", "PYTHONPATH": f"{TOP}/bindings/python/src", "PYTHONDONTWRITEBYTECODE": "1"}
    for heading, blocks in sections(page):
        begun = ""
        for (kind, text, names), following in zip(blocks, [*blocks[1:], ("", "", [])]):
            if kind != "python" or names or re.search(r"^(async |await )", text, re.M) or "await " in text:
                continue
            mark = "print('-' * 9)\n"
            done = run([sys.executable, "-c", begun + mark + text], room, env=known)
            begun += text
            came = done.stdout.rpartition(f"{'-' * 9}\n")[2]
            wanted = following[1] if following[0] == "text" else came
            what = f"{page}: a program of {heading!r} prints what the page says"
            check(what, done.returncode == 0 and came == wanted, came + done.stderr)
