"""The links of the pages, and the commands and programs that they show."""
import glob
import os
import re
import shutil
import sys

from checks import FENCE, TOP, check, has_library, read, run, skip
from guides import GUIDES, TUTORIAL, guided

LINK = re.compile(r"!?\[[^\]]*\]\(([^)\s]+)\)")
# Says what runs a command that is not run here, with the library for C and without it.
BY_GATEWAYS = "`make gateways` runs the bindings' tests and clients"
LACKS_LIBRARY = "it needs the library for C, which is not built (`make lib`); " + BY_GATEWAYS


def anchors(path):
    """The places of a page that a link can name: its headings, as they are turned into names."""
    for heading in re.findall(r"^#+ +(.*?) *$", FENCE.sub("", read(path)), re.M):
        text = re.sub(r"\[([^\]]*)\]\([^)]*\)", r"\1", heading).replace("`", "")
        yield re.sub(r"[^\w\- ]", "", text.lower()).replace(" ", "-")


def check_links(page):
    for target in LINK.findall(FENCE.sub("", read(page))):
        if re.match(r"[a-z]+://", target):
            skip(target, "it is not in this repository")
            continue
        path, _, place = target.partition("#")
        found = os.path.normpath(os.path.join(os.path.dirname(page), path)) if path else page
        if not check(f"{page}: {target} is there", os.path.exists(f"{TOP}/{found}")) or not place:
            continue
        check(f"{page}: {target} has its heading", place in anchors(found))


def scratch(room):
    """A folder from which the repository is seen, with files of the names that the pages use."""
    for name in os.listdir(TOP):
        if not name.startswith(".") and name != "osi":
            os.symlink(f"{TOP}/{name}", f"{room}/{name}")
    with open(f"{room}/osi", "w") as file:
        file.write(f'#!/bin/sh\nexec "{TOP}/osi" "$@"\n')
    os.chmod(f"{room}/osi", 0o755)
    ladders = f"{TOP}/examples/ladders"
    for name, source in (("run.transcript", "two.transcript"), ("run.script", "two.script"),
                         ("a.hex", "gateway.left.listing"), ("b.hex", "gateway.right.listing")):
        shutil.copy(f"{ladders}/{source}", f"{room}/{name}")


def targets():
    names = re.findall(r"^([\w-]+):", read("Makefile"), re.M)
    return set(names)


def check_command(page, line, wanted, room, may_run):
    """A line of a page that a reader is to type; `wanted` is what the page says that it prints, if it does."""
    command = re.sub(r"(^|\s+)# .*", "", line).strip()
    what = f"{page}: {command}"
    if not command:
        return
    if command.startswith("make"):
        check_make(what, command)
    elif command.startswith("./osi "):
        check_osi(what, command, wanted, room, may_run)
    elif command.startswith("scripts/ladders run.pcapng "):
        skip(what, "it needs a capture of the reader's own; `make ladders-check` runs the tests of the ladders")
    elif command.startswith("scripts/ladders ") and (may_run or ".transcript" in command or "--left" in command):
        done = run(command, room)
        check(f"{what} ends well", done.returncode == 0, done.stderr)
    elif command.startswith("scripts/osi-capture "):
        skip(what, "it needs a capture of the reader's own; `make ladders-check` runs the tests of osi-capture")
    elif command.startswith("scripts/judge ") and "examples/" in command and may_run:
        done = run(command, room)
        good = done.returncode in (0, 1) and wanted in (None, done.stdout)
        check(f"{what} prints what the page says", good, done.stdout + done.stderr)
    elif re.match(r"(scripts|bench)/", command):
        check(f"{what} is there", os.access(f"{TOP}/{command.split()[0]}", os.X_OK))
        skip(what, "it needs what `make` builds")
    elif re.match(r"(cc|c\+\+) .*(examples|bindings)/", command):
        check_compiles(what, command, room)
    elif re.match(r"cp (-r )?\$OSI/", command):
        file = command.removeprefix("cp ").removeprefix("-r ").split()[0].replace("$OSI/", "")
        check(f"{what}: {file} is there", os.path.exists(f"{TOP}/{file}"))
    elif re.match(r"(cc|c\+\+|build/|cargo|cd |export|python3|PYTHONPATH|env/|sleep|\./hello|\./server|\./tls|OSI_|openssl|rustc|mkdir|bash)", command):
        skip(what, BY_GATEWAYS if has_library() else LACKS_LIBRARY)
    elif page == TUTORIAL and command.startswith("./association "):
        skip(what, "the whole tutorial is run" if has_library() else "it needs the library for C: with it the whole tutorial is run")
    elif command.startswith("$HOME/osi/bin/"):
        skip(what, "`make check-dist` follows the pages of the archive")
    elif re.match(r"man |tar |sha256sum |sudo |apt |dpkg |pip |(PREFIX=\S+ )?\./install\.sh", command):
        skip(what, "`make check-dist` installs what `make dist` makes, and runs it")
    elif re.match(r"(tshark|xxd)", command):
        skip(what, "it needs a capture of the reader's own, or tshark")
    else:
        check(f"{what}: scripts/pages knows how to check it", False)


def check_make(what, command):
    for target in re.findall(r"(?<!\S)[a-z][\w-]*(?!\S*=)", command[len("make"):]):
        check(f"{what}: there is such a target", target in targets())
    skip(what, "it checks these pages" if "pages" in command else "it proves and builds first")


def check_osi(what, command, wanted, room, may_run):
    """A job of the program on a file: it prints what the page says, and its status is that of success."""
    file = command.partition("< ")[2].split()
    if not file or not os.path.exists(f"{room}/{file[0]}"):
        skip(what, "the file is a reader's own")
    elif not may_run:
        skip(what, "`make` has not built the program; --try runs it unproved")
    else:
        done = run(command, room)
        # (a verdict that a side broke the protocol has status 1)
        good = (0,) if not command.startswith("./osi judge") else (0, 1) if wanted is None else (int("both kept" not in wanted),)
        check(f"{what} prints what the page says", done.returncode in good and wanted in (None, done.stdout), done.stderr)


def check_compiles(what, command, room):
    """The sources that a command compiles read well with the header; what they are linked with has to be proved first."""
    compiler = command.split()[0]
    sources = re.findall(r"\S+\.(?:cpp|c)\b", command)
    flags = re.findall(r"-std=\S+|-I\S+|-W\S+", command)
    if not shutil.which(compiler):
        skip(what, f"there is no {compiler}")
        return
    done = run([compiler, "-fsyntax-only", *flags, *sources], room)
    check(f"{what} reads its sources", done.returncode == 0, done.stderr)


def check_program(page, kind, text, room):
    """A program that a page shows: if it is whole, it compiles."""
    if kind == "c" and page == "README.md":
        head, _, body = text.partition("\n")
        text = f"{head}\nint main(void)\n{{\n{body}return 0;\n}}\n"
    elif kind == "c" or (kind == "cpp" and "int main" not in text):
        where = [path for path in glob.glob(f"{TOP}/examples/**/*.{kind}", recursive=True) if text in read(path)]
        check(f"{page}: its program in {'C' if kind == 'c' else 'C++'} is in examples/", where, text)
        if "int main" not in text:
            return
    if kind in ("c", "cpp"):
        compiler, name = ("cc", "shown.c") if kind == "c" else ("c++", "shown.cpp")
        with open(f"{room}/{name}", "w") as file:
            file.write(text)
        standard = "-std=c99" if kind == "c" else "-std=c++17"
        check_compiles(f"{page}: a program", f"{compiler} {standard} -Wall -Werror -Iinclude {name}", room)
    elif kind == "python":
        check_reads_in_python(page, text)
    elif kind == "rust" and page == "README.md":
        lines = [line.strip() for line in text.splitlines()]
        there = [line.strip() for line in read("crates/osi_example/src/main.rt").splitlines()]
        places = range(len(there) - len(lines) + 1)
        check("README.md: its lines in Rattle are in osi_example", any(there[at:at + len(lines)] == lines for at in places))
    else:
        skip(f"{page}: a program in {kind}", "no compiler of it is asked for")


def check_reads_in_python(page, text):
    try:
        compile(text, page, "exec")
    except SyntaxError as error:
        old = sys.version_info < (3, 10) and text.startswith("match ")
        check(f"{page}: a program in Python reads well", old, str(error))
        return
    check(f"{page}: a program in Python reads well", True)


def check_page(page, room, may_run, has_library):
    blocks = list(FENCE.finditer(read(page)))
    run_whole = [guided(*guide) for guide in GUIDES if guide[0] == page] if has_library else []
    for number, block in enumerate(blocks):
        kind, text = block.groups()
        following = blocks[number + 1] if number + 1 < len(blocks) else None
        wanted = following.group(2) if following and following.group(1) == "" else None
        if kind in ("sh", "rust") and any(first <= block.start() < last for first, last in run_whole):
            continue
        if kind == "sh":
            for at, line in enumerate(text.splitlines()):
                check_command(page, line, wanted if at == 0 else None, room, may_run)
        elif kind:
            check_program(page, kind, text, room)
    for span in re.findall(r"`((?:make [a-z]|scripts/|bench/)[^`]*)`", FENCE.sub("", read(page))):
        named = re.match(r"make ([a-z][\w-]*)(?!\S*=)", span)
        if named:
            check(f"{page}: {span}: there is such a target", named.group(1) in targets())
        elif not span.startswith("make"):
            check(f"{page}: {span} is there", os.path.exists(f"{TOP}/{span.split()[0]}"))


def check_manual(room, may_run):
    """The pages of the manual are read without a warning, and print what they say that a command prints."""
    for path in sorted(glob.glob(f"{TOP}/packaging/man/*.1")):
        page = os.path.relpath(path, TOP)
        if shutil.which("groff"):
            done = run(["groff", "-man", "-ww", "-z", path], room)
            check(f"{page} is read without a warning", not done.stderr, done.stderr)
        else:
            skip(page, "there is no groff")
        for example in re.findall(r"^\.EX\n\$ (.*?)^\.EE$", read(page), re.M | re.S):
            command, _, wanted = example.replace("\\e", "\\").replace("\\-", "-").partition("\n")
            if not may_run:
                skip(f"{page}: {command}", "`make` has not built the program")
                continue
            done = run(command.replace("| osi ", "| ./osi "), room)
            check(f"{page}: {command} prints what the page says", done.stdout == wanted, done.stdout + done.stderr)


def check_functions():
    """The page on the library has each function of osi.h, and no other."""
    header = read("include/osi.h")
    functions = set(re.findall(r"^(?:static inline )?(?!typedef)[\w ]+? \*?(osi_\w+)\(", header, re.M))
    structs = set(re.findall(r"^\} (osi_\w+);", header, re.M)) | set(re.findall(r"^typedef \w+ (osi_\w+);", header, re.M))
    named = set(re.findall(r"\bosi_\w+", read("packaging/man/osi-session.3"))) - structs
    check("packaging/man/osi-session.3 has the functions of osi.h", functions and named == functions, str(sorted(named ^ functions)))


def check_examples(room, may_run):
    """Status and transcript of each file of examples/, as examples/README.md and the files beside them say."""
    rows = re.findall(r"^\| \[(\w+\.hex)\]\(\1\) \| .* \| (\d) \|$", read("examples/README.md"), re.M)
    check("examples/README.md has each capture", {name for name, _ in rows} == {
        os.path.basename(path) for path in glob.glob(f"{TOP}/examples/*.hex")})
    scripts = sorted(glob.glob(f"{TOP}/examples/ladders/*.script"))
    for path in scripts:
        name = os.path.basename(path)[:-len(".script")]
        check(f"examples/README.md names {name}", f"[{name}](ladders/{name}.script)" in read("examples/README.md"))
    if not may_run:
        skip("the statuses and transcripts of examples/", "`make` has not built the program")
        return
    for name, status in rows:
        done = run(f"./osi show < examples/{name}", room)
        check(f"examples/{name} has the status {status}", done.returncode == int(status), done.stderr)
    for path in scripts:
        with open(path[:-len("script")] + "transcript", encoding="utf-8") as file:
            wanted = file.read()
        check(f"{os.path.relpath(path, TOP)} has its transcript", run(f"./osi pair < {path}", room).stdout == wanted)
