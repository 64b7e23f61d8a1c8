"""Follows the pages of the archive and of the packages for Debian: a part of scripts/check_dist."""
import glob
import os
import re
import shutil
import sys
import tempfile

from checking import TOP, check, has_pip, module, octets, run

sys.path.insert(0, f"{TOP}/tools/pages")
import checks  # noqa: E402
import guides  # noqa: E402

# A command of the repository, which no installed page may name.
OF_REPOSITORY = re.compile(r"(\./osi|make (?!OUT=)[a-z][\w-]*|scripts/\w+|bench/\w+|trials/\w+|tools/\w+|build/\w+|rt [a-z]+)(?=$|[ /])")


def check_pages(what, folder):
    """No page has a dead link, or a command that isn't installed; what a command names is there."""
    render = module("packaging/render")
    dead, foreign, lacking = [], [], []
    for path in glob.glob(f"{folder}/**/*.md", recursive=True):
        page = os.path.relpath(path, folder)
        text = octets(path).decode()
        words = render.FENCE.sub("", text)
        dead += [f"{page}: {link[3]}" for link in render.LINK.finditer(words)
                 if not re.match(r"[a-z]+://", link[3]) and not render.is_there(page, link[3], folder)]
        lines = [line for block in re.findall(r"^```sh\n(.*?)^```$", text, re.M | re.S) for line in block.splitlines()]
        spans = [] if page == "CHANGELOG.md" else re.findall(r"`([^`\n]+)`", words)
        foreign += [f"{page}: {it}" for it in lines + spans if OF_REPOSITORY.match(it) or "<!--" in it]
        for line in lines:
            named = re.findall(r"(?:^|[ <])(?:\$OSI/)?((?:examples|bindings|include|lib)/[\w./-]+)", line.partition(" # ")[0])
            lacking += [f"{page}: {name}" for name in named if not os.path.exists(f"{folder}/{name}")]
    check(f"{what}: the pages have no dead link", not dead, str(dead))
    check(f"{what}: the pages have no command that isn't installed", not foreign, str(foreign))
    check(f"{what}: what the commands of the pages name is there", not lacking, str(lacking))


def check_commands(what, folder, programs, room):
    """Runs each command of the pages that lists, judges, plays or draws an example, in a copy, and compares what is printed."""
    here = tempfile.mkdtemp(dir=room)
    shutil.copytree(f"{folder}/examples", f"{here}/examples")
    known, count, wrong = {**os.environ, "PATH": f"{programs}:{os.environ['PATH']}"}, 0, []
    for path in glob.glob(f"{folder}/**/*.md", recursive=True):
        blocks = re.findall(r"^```(\w*)\n(.*?)^```$", octets(path).decode(), re.M | re.S)
        for (kind, text), (following, wanted) in zip(blocks, [*blocks[1:], ("none", "")]):
            for at, line in enumerate(text.splitlines() if kind == "sh" else ()):
                command = line.partition(" # ")[0].strip().replace("$HOME/osi/bin/", "")
                if re.match(r"(osi|osi-ladders|osi-capture judge) .*examples/", command):
                    done, count = run(command, shell=True, cwd=here, env=known), count + 1
                    if done.returncode not in (0, 1) or done.stderr or (at == 0 and following == "" and done.stdout != wanted):
                        wrong.append(f"{os.path.basename(path)}: {command}: {done.stdout[-300:]}{done.stderr}")
    check(f"{what}: {count} commands of the pages print what the pages say", count and not wrong, str(wrong))


def check_guides(unpacked, room):
    """Follows the guides of the archive in an empty folder, with the library that install.sh installs."""
    home, checks.TOP = tempfile.mkdtemp(dir=room), unpacked
    run(["./install.sh"], cwd=unpacked, env={**os.environ, "PREFIX": f"{home}/osi"})
    places = {name: os.environ.get(name, os.path.expanduser(place))
              for name, place in (("CARGO_HOME", "~/.cargo"), ("RUSTUP_HOME", "~/.rustup"))}
    known = {**os.environ, **places, "HOME": home, "OSI": unpacked, "CARGO_TARGET_DIR": f"{home}/target",
             "PATH": f"{home}/osi/bin:{os.path.dirname(sys.executable)}:{os.environ['PATH']}"}
    for (page, heading), tools in guides.GUIDES.items():
        missing = [tool for tool in tools if not shutil.which(tool)]
        if missing or (page == "docs/PYTHON.md" and not has_pip()):
            print(f"not run: {page}: {heading}, of the archive, since there is no {', '.join(missing or ['pip'])}")
            continue
        script, wanted = guides.script_of(page, heading, guides.free_port())
        where = tempfile.mkdtemp(dir=home) if heading == guides.EMPTY else unpacked
        done = run(["bash", "-c", script], cwd=where, env=known)
        check(f"the archive: {page}: {heading}: it does what the page says", done.returncode == 0 and done.stdout.endswith(wanted),
              done.stdout + done.stderr)
