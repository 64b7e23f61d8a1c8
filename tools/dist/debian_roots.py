"""Installs the packages into Debian 11, 12 and 13, and runs them there: a part of scripts/check_dist."""
import os
import shutil

from checking import LIBDIR, TOP, VERSION, check, read, run

# Each release, whether its compiler of Rust is as new as the crate wants, and what is put into its folder besides.
RELEASES = {"bullseye": (11, False), "bookworm": (12, True), "trixie": (13, True)}
MIRROR = "http://deb.debian.org/debian"


def root_of(release, folder):
    """A folder with a release of Debian, which is made if it isn't there; nothing if it can't be made."""
    root, with_rust = f"{folder}/{release}", RELEASES[release][1]
    wanted = ["gcc", "libc6-dev", "python3", *(["cargo", "rustc"] if with_rust else [])]
    if not os.path.exists(f"{root}/usr/bin/{'cargo' if with_rust else 'gcc'}"):
        os.makedirs(folder, exist_ok=True)
        done = run(["debootstrap", "--variant=minbase", release, root, MIRROR])
        done = done if done.returncode else within(root, "apt-get -qq update && DEBIAN_FRONTEND=noninteractive apt-get -qq install -y "
                                                         f"--no-install-recommends {' '.join(wanted)}")
        if done.returncode:
            print(f"not run: Debian {RELEASES[release][0]}, which can't be put into {root}: {done.stderr[-300:]}")
            return None
    return root


def within(root, words):
    """Runs words of a shell in a folder as its root."""
    mounted = f"mount -t proc proc {root}/proc && exec chroot {root} /bin/sh -c \"$1\""
    return run(["unshare", "--mount", "sh", "-c", mounted, "sh", words], env={"PATH": "/usr/sbin:/usr/bin:/sbin:/bin", "HOME": "/root"})


def check_in_root(release, root, files, packages):
    """Installs the packages in Debian, runs what they have, and removes them."""
    what = f"Debian {RELEASES[release][0]}"
    shutil.rmtree(f"{root}/given", ignore_errors=True)
    os.makedirs(f"{root}/given/folder")
    for path in (path for name, path in files.items() if name.endswith(".deb")):
        shutil.copy(path, f"{root}/given")
    for name in ("examples/hello.c", "examples/disputes/token.capture", "examples/disputes/restart.follow", "examples/ladders/two.script",
                 "crates/osi_tool/stdin"):
        shutil.copy(f"{TOP}/{name}", f"{root}/given")
    purge = f"dpkg --purge {' '.join(packages)}"
    done = within(root, "dpkg -i /given/*.deb")
    if not check(f"{what}: the packages are installed", done.returncode == 0, done.stderr):
        within(root, purge)
        return
    for words, wanted in (("osi show </given/stdin", read("crates/osi_tool/stdout")), ("osi --version", f"osi {VERSION}\n"),
                          ("osi judge </given/token.capture", read("examples/disputes/token.verdict")),
                          ("python3 -c 'import osi_session.aio as a; print(a.End.caller and \"an end\")'", "an end\n"),
                          ("cd /given/folder && cc -std=c99 ../hello.c -losi-session -o hello && ./hello", read("examples/hello.txt")),
                          ("cd /given/folder && cc -std=c99 ../hello.c -l:libosi-session.a -o other && ./other",
                           read("examples/hello.txt"))):
        done = within(root, words)
        check(f"{what}: {words}", done.stdout == wanted, done.stdout + done.stderr)
    for words in ("osi-capture judge /given/restart.follow", "osi-ladders /given/two.script --text"):
        done = within(root, words)
        check(f"{what}: {words}", done.returncode in (0, 1) and done.stdout and not done.stderr, done.stdout + done.stderr)
    if RELEASES[release][1]:
        check_rust_in_root(what, root)
    done = within(root, purge)
    check(f"{what}: the packages are removed", done.returncode == 0, done.stderr)
    names = "-name '*osi_session*' -o -name '*osi-session*' -o -path '/usr/share/osi*'"
    left = within(root, f"find /usr /etc /var/lib/dpkg/info {names}").stdout
    check(f"{what}: nothing is left of them", not left, left)
    shutil.rmtree(f"{root}/given")


def check_rust_in_root(what, root):
    """A program that uses the crate, by Debian's own compiler and from the folder of crates that the package fills."""
    os.makedirs(f"{root}/given/rust/src", exist_ok=True)
    texts = {"Cargo.toml": f'[package]\nname = "hello"\nversion = "0.1.0"\nedition = "2021"\n[dependencies]\nosi-session = "{VERSION}"\n',
             "src/main.rs": 'fn main() { println!("{}", osi_session::End::caller(Default::default()).is_ok()); }\n'}
    for name, content in texts.items():
        with open(f"{root}/given/rust/{name}", "w", encoding="utf-8") as file:
            file.write(content)
    source = "--config 'source.crates-io.replace-with=\"debian\"' --config 'source.debian.directory=\"/usr/share/cargo/registry\"'"
    done = within(root, f"cd /given/rust && OSI_SESSION_DIR=/{LIBDIR} cargo run --quiet --offline {source}")
    version = within(root, "rustc --version").stdout.split()[1]
    check(f"{what}: its own Rust {version} builds the crate", done.stdout == "true\n", done.stdout + done.stderr)


def check_roots(files, packages):
    folder = os.path.abspath(os.environ.get("OSI_ROOTS", f"{TOP}/build/roots"))
    if os.geteuid() or not shutil.which("debootstrap"):
        print("not run: Debian 11, 12 and 13, which debootstrap puts into folders, as root")
        return
    for release in RELEASES:
        root = root_of(release, folder)
        if root:
            check_in_root(release, root, files, packages)
