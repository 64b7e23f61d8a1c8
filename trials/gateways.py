"""Runs the programs of examples/gateway over loopback TCP, and tests what they do.

    scripts/trials gateways

It runs client and server of each language in classes 0 and 2, and with sizes of TSDUs. The logs of all clients and servers have
to be the expected ones: each side receives what the other sent. The clients and servers of osi.hpp and of the packages of
bindings/ are among them, and the tests of these packages run first. ./osi show lists the captures, and tshark reads them if it
is installed. The server is killed in the middle of a packet, and has to serve many peers at once, also peers that never open a
session. Many messages are sent as fast as possible, also if the peer gives little credit, reads nothing, or asks for answers
that it gives no credit for; memory has to stay bounded. Beside peers that send without a pause, drip octets or fill all places,
others are served (trials/gateway_peers/fair.py). An end talks over TLS. valgrind watches some runs if it is installed.
"""
import glob
import importlib.machinery
import importlib.util
import os
import re
import shutil
import signal
import socket
import subprocess
import sys
import tempfile
import threading
import time
from concurrent.futures import ThreadPoolExecutor

from counts import Counts
from gateway_peers import costs, fair, peers, tls

TOP = os.path.dirname(os.path.dirname(os.path.abspath(__file__)))

# What a page says to those who have the sources.
loader = importlib.machinery.SourceFileLoader("render", os.path.join(TOP, "packaging", "render"))
render = importlib.util.module_from_spec(importlib.util.spec_from_loader(loader.name, loader))
loader.exec_module(render)
BUILD = os.path.join(TOP, "build")
FOLDER = os.path.join(TOP, "examples", "gateway")
BINDINGS = os.path.join(TOP, "bindings")
SERVER, CLIENT = [os.path.join(BUILD, "server")], os.path.join(BUILD, "client")
# The server over asyncio.
ASYNCIO_SERVER = [sys.executable, os.path.join(BINDINGS, "python", "examples", "server.py")]
# The servers to copy, which are at most this long.
DUPLEX, MOST_LINES = os.path.join(TOP, "examples", "duplex"), 150
CXX = os.environ.get("CXX", "c++")
CXX_FLAGS = ["-Wall", "-Wextra", "-Wold-style-cast", "-Wpedantic", "-Werror", "-I", f"{TOP}/include"]
# No program ever has more memory than this, in KiB (ru_maxrss), however much is sent. A gateway keeps some 512 KiB of what
# waits to be sent, and takes some 2 MiB in all. The memory that this program had when it started another, some 16 MiB, counts
# as the other's, too. Without its bounds a gateway would take 500 MiB and 110 MiB in the two runs that are measured.
MOST_MEMORY = 65_536
# A server never grows by more than this, in KiB (VmHWM), for a peer that asks for answers and gives no credit for them.
MOST_GROWTH = 16_384
# How long a side waits for the other, and how long a program may take, in seconds: if the machine has much other
# work, a program takes long to start. A run that passes waits for neither.
PATIENCE, LONGEST = 60, 300
counts = Counts()
check = counts.check


def build():
    """The clients, by their language; and what was not there."""
    cc = os.environ.get("CC", "cc")
    flags = ["-std=c99", "-O2", "-Wall", "-Wextra", "-Wpedantic", "-Werror", "-I", f"{TOP}/include"]
    for name in ("server", "client"):
        subprocess.run([cc, *flags, "-o", f"{BUILD}/{name}", f"{FOLDER}/{name}.c", f"{FOLDER}/gateway.c",
                        f"{BUILD}/libosi-session.a"], check=True)
    subprocess.run([cc, *flags, "-o", f"{BUILD}/test_osi_c", f"{BINDINGS}/c/test_osi.c", f"{BUILD}/libosi-session.a"], check=True)
    subprocess.run([cc, *flags, "-o", f"{BUILD}/judge", f"{TOP}/examples/judge.c", f"{BUILD}/libosi-session.a"], check=True)
    subprocess.run([cc, *flags, "-o", f"{BUILD}/duplex", f"{DUPLEX}/server.c", f"{BUILD}/libosi-session.a"], check=True)
    clients, missing = {"C": [CLIENT]}, []
    tls.build(cc, [*flags, f"{FOLDER}/tls.c", f"{BUILD}/libosi-session.a"], f"{BUILD}/tls", missing)
    clients["Python"] = [sys.executable, f"{FOLDER}/client.py", "--library", f"{BUILD}/libosi-session.so"]
    clients["Python, by osi_session"] = [sys.executable, f"{BINDINGS}/python/examples/client.py"]
    if shutil.which("rustc"):
        subprocess.run(["rustc", "-O", "--edition", "2021", "-L", BUILD, "-l", "static=osi-session", "-o",
                        f"{BUILD}/client_rust", f"{FOLDER}/client.rs"], check=True)
        clients["Rust"] = [f"{BUILD}/client_rust"]
    else:
        missing.append("rustc")
    build_cpp(clients, missing)
    build_crate(clients, missing)
    return clients, missing


def build_cpp(clients, missing):
    """The programs on osi.hpp: client, server and tests."""
    if not shutil.which(CXX):
        missing.append("C++")
        return
    for name, source in (("client", FOLDER), ("server", FOLDER), ("test_osi", f"{BINDINGS}/cpp")):
        subprocess.run([CXX, "-std=c++17", "-O1", *CXX_FLAGS, "-o", f"{BUILD}/{name}_cpp", f"{source}/{name}.cpp",
                        f"{BUILD}/libosi-session.a"], check=True)
    clients["C++, by osi.hpp"] = [f"{BUILD}/client_cpp"]


def cargo(*words):
    return ["cargo", *words, "--offline", "--quiet", "--manifest-path", f"{BINDINGS}/rust/Cargo.toml",
            "--target-dir", f"{BUILD}/cargo"]


def build_crate(clients, missing):
    if not shutil.which("cargo"):
        missing.append("cargo")
        return
    subprocess.run(cargo("build", "--release", "--examples"), check=True)
    clients["Rust, by osi-session"] = [f"{BUILD}/cargo/release/examples/client"]


def pythons():
    """Each Python that osi_session is for and that is here, by its version: this one, those in PATH, and those of pyenv."""
    versions = os.path.join(os.environ.get("PYENV_ROOT", os.path.expanduser("~/.pyenv")), "versions")
    places = [sys.executable, *(shutil.which(f"python3.{minor}") for minor in range(9, 20)), *glob.glob(f"{versions}/3.*/bin/python3")]
    found = {}
    for place in filter(None, places):
        asked = "import asyncio, ctypes, sys; print('%d.%d' % sys.version_info[:2]) if sys.version_info >= (3, 9) else None"
        version = subprocess.run([place, "-c", asked], capture_output=True, text=True).stdout.strip()
        if version and version != "None":
            found.setdefault(version, place)
    return dict(sorted(found.items(), key=lambda one: int(one[0].split(".")[1])))


def with_uvloop():
    """A Python that has uvloop; None if there is none. (Debian has it for its own.)"""
    for place in (*pythons().values(), "/usr/bin/python3"):
        if os.path.exists(place) and subprocess.run([place, "-c", "import uvloop"], capture_output=True).returncode == 0:
            return place
    return None


def mypy():
    """How mypy is called; None if it is not there."""
    words = ["mypy"] if shutil.which("mypy") else [sys.executable, "-m", "mypy"]
    return words if subprocess.run([*words, "--version"], capture_output=True).returncode == 0 else None


def monitor(name, wanted):
    """The monitor of examples/judge.c, over a dispute: each verdict, and then what `osi judge` prints."""
    with open(f"{TOP}/examples/disputes/{name}.follow", encoding="ascii") as pieces:
        done = subprocess.run([f"{BUILD}/judge"], stdin=pieces, capture_output=True, text=True)
    with open(f"{TOP}/examples/disputes/{name}.verdicts", encoding="ascii") as file:
        text = file.read()
    last = text[text.rindex("left packets"):]
    check(f"a monitor in C judges the dispute {name}", done.returncode == 0 and done.stdout == (f"{wanted}\n" if wanted else "") + last,
          done.stdout + done.stderr)


def tests(clients):
    """The tests of the headers and of the packages."""
    programs = {
        "the tests of osi.h pass": [f"{BUILD}/test_osi_c"],
        "osi.h has what programs of this soname rely on": [f"{TOP}/scripts/layout"],
        **{f"the tests of osi_session pass on Python {version}": [python, "-m", "unittest", "discover", f"{BINDINGS}/python/tests"]
           for version, python in pythons().items()},
    }
    for name, wanted in (("restart", "left 1 broke packet 143 Data TokenNotHeld"), ("restart_cured", None)):
        monitor(name, wanted)
    if with_uvloop():
        programs["the tests of osi_session pass under uvloop"] = [
            "env", "OSI_SESSION_LOOP=uvloop", with_uvloop(), "-m", "unittest", "discover", f"{BINDINGS}/python/tests"]
    if mypy():
        programs["mypy --strict accepts osi_session"] = [*mypy(), "--strict", f"{BINDINGS}/python/src/osi_session"]
        examples = (f"{BINDINGS}/python/examples/client.py", f"{BINDINGS}/python/examples/server.py", f"{DUPLEX}/server.py")
        for example in examples:
            programs[f"mypy --strict accepts {os.path.relpath(example, TOP)}"] = [
                "env", f"MYPYPATH={BINDINGS}/python/src:{BINDINGS}/python/examples", *mypy(), "--strict", example]
    if "C++, by osi.hpp" in clients:
        programs["the tests of osi.hpp pass"] = [f"{BUILD}/test_osi_cpp"]
    if "Rust, by osi-session" in clients:
        programs["the tests of osi-session pass"] = cargo("test", "--release")
    for what, words in programs.items():
        done = subprocess.run(words, capture_output=True, text=True)
        check(what, done.returncode == 0, done.stdout + done.stderr)


def headers():
    """The header alone, as C99 and as C++, and that of C++, by each compiler that is there."""
    text = '#include "%s"\nint main(void) { osi_end end = OSI_END; osi_opening asked = OSI_OPENING; (void)asked;' \
        ' uint32_t code = osi_data(&end, 1, OSI_NO_DATA); osi_free(&end); return code == OSI_OK; }\n'
    flags = ["-Wall", "-Wextra", "-Wpedantic", "-Werror", "-fsyntax-only", "-I", f"{TOP}/include", "-"]
    cast, thrown = "-Wold-style-cast", "-fno-exceptions"
    cases = [(os.environ.get("CC", "cc"), "c", "osi.h", "c99", [])]
    for compiler in dict.fromkeys((CXX, "g++", "clang++")):
        cases += [(compiler, "c++", "osi.h", "c++11", [cast]), (compiler, "c++", "osi.hpp", "c++17", [cast]),
                  (compiler, "c++", "osi.hpp", "c++20", [cast, thrown, "-fno-rtti"])]
    for compiler, language, name, standard, more in cases:
        if shutil.which(compiler):
            done = subprocess.run([compiler, "-x", language, f"-std={standard}", *more, *flags], input=text % name, text=True)
            check(f"{name} is {standard}, without a warning of {compiler}", done.returncode == 0)


# The code around the example at the head of each header.
HEADS = {
    "osi.h": "void carry(osi_end *end);\nvoid feed(osi_end *end);\nint main(void)\n{\n%s}\n",
    "osi.hpp": "void run(std::size_t written, osi::octets piece);\nvoid run(std::size_t written, osi::octets piece)\n{\n%s}\n",
}


def examples():
    """The example at the head of each header compiles as it is."""
    for name, around in HEADS.items():
        compiler, language, standard = (os.environ.get("CC", "cc"), "c", "c99") if name == "osi.h" else (CXX, "c++", "c++17")
        if not shutil.which(compiler):
            continue
        with open(f"{TOP}/include/{name}") as file:
            shown = re.search(r"\n \*\n((?: \*     .*\n)+)", file.read()).group(1)
        text = f'#include "{name}"\n' + around % re.sub(r"^ \*", "", shown, flags=re.M)
        flags = ["-Wall", "-Wextra", "-Wno-unused", "-Wpedantic", "-Werror", "-fsyntax-only", "-I", f"{TOP}/include", "-"]
        done = subprocess.run([compiler, "-x", language, f"-std={standard}", *flags], input=text, text=True, capture_output=True)
        check(f"the example at the head of {name} compiles", done.returncode == 0, done.stderr)


# Values that an opening of osi.hpp takes, and values that end with their statement: these do not compile.
LASTS = ('"text"', "name", "octets", "std::string_view(name)", "osi::octets(name)", "name.c_str()", "{octets.data(), 1}")
GOES = ("made()", "name + name", 'std::string("text")', "std::move(name)", "std::array<std::uint8_t, 4>()")


def temporaries():
    """An opening does not view what is gone before it is used."""
    text = "#include <osi.hpp>\n#include <array>\n#include <string>\n#include <vector>\nstd::string made();\nint main()\n{\n" \
        "    std::string name;\n    std::vector<std::uint8_t> octets;\n    osi::opening asked;\n%s}\n"
    for compiler in (compiler for compiler in dict.fromkeys((CXX, "clang++")) if shutil.which(compiler)):
        words = [compiler, "-x", "c++", "-std=c++17", *CXX_FLAGS, "-fsyntax-only", "-"]
        lasting, *going = ("".join(f"    asked.user_data = {value};\n" for value in values) for values in (LASTS, *zip(GOES)))
        done = subprocess.run(words, input=text % lasting, text=True, capture_output=True)
        check(f"an opening takes what lasts, by {compiler}", done.returncode == 0, done.stderr)
        refused = [subprocess.run(words, input=text % line, text=True, capture_output=True) for line in going]
        check(f"an opening takes no temporary container, by {compiler}",
              all(done.returncode != 0 and "deleted" in done.stderr for done in refused), "".join(done.stderr for done in refused))


def start_server(words, prefix=(), program=SERVER, count=1):
    """A server, which ends after this many peers have come and gone, and the port that it prints."""
    words = [*prefix, *program, "--port", "0", "--peers", str(count), *words]
    words += [] if "--wait" in words else ["--wait", str(PATIENCE)]
    server = subprocess.Popen(words, stdout=subprocess.PIPE, text=True)
    return server, server.stdout.readline().split()[1]


def start_client(client, port, words, prefix=(), **more):
    return subprocess.Popen([*prefix, *client, "--port", port, *words, "--wait", str(PATIENCE)], text=True, **more)


def finish(process):
    """Its status, or that it had to be killed."""
    try:
        return process.wait(LONGEST)
    except subprocess.TimeoutExpired:
        process.kill()
        return process.wait()


def finish_measured(process):
    """Its status, and the most memory that it ever had (ru_maxrss), in KiB. It is killed if it takes longer."""
    killer = threading.Timer(LONGEST, os.kill, (process.pid, signal.SIGKILL))
    killer.start()
    _, status, used = os.wait4(process.pid, 0)
    killer.cancel()
    process.returncode = os.waitstatus_to_exitcode(status)
    return process.returncode, used.ru_maxrss


def servers(clients):
    """The programs of the called side, by their language."""
    known = {"C": SERVER, "C++, by osi.hpp": [f"{BUILD}/server_cpp"], "Rust, by osi-session": [f"{BUILD}/cargo/release/examples/server"]}
    found = {language: program for language, program in known.items() if language in clients}
    return {**found, "Python, by osi_session": [sys.executable, f"{FOLDER}/server.py"], "Python, over asyncio": ASYNCIO_SERVER}


def awaited(messages, tsdu=None):
    """The indications and the answers of both sides, as docs/TOOL.md writes them."""
    sizes = f" tsdu {tsdu} {tsdu}" if tsdu else ""
    hexed = [f"message {n}".encode().hex() for n in range(1, messages + 1)]
    answer = f"{messages} messages".encode().hex()
    left = ["left connect ok 1", f"left 1 Connected units 0089 serial 0 sides aaaa data -{sizes}"]
    right = [f"right 1 Connect units 0089 serial 0 sides aaaa data {b'gateway'.hex()}{sizes}", "right 1 accept ok"]
    for number, data in enumerate(hexed):
        left += ["left 1 data ok", "left 1 minor ok", f"left 1 MinorConfirmed {number} data -"]
        right += [f"right 1 Data {data}", f"right 1 Minor {number} confirm yes data -", "right 1 minorconfirm ok"]
    left += ["left 1 give ok", f"left 1 Data {answer}", "left 1 Release data -", "left 1 releaseaccept ok"]
    right += ["right 1 Given 45", "right 1 data ok", "right 1 release ok", "right 1 Released data -"]
    return left, right


def lines(name):
    with open(name) as file:
        return file.read().splitlines()


def exchange(room, language, client, classes, messages, capture, prefix=(), program=SERVER, tsdu=None):
    """One run, and its logs. If the client has a size, the server has a larger one."""
    own, other_size = (["--tsdu", str(tsdu)], ["--tsdu", str(2 * tsdu)]) if tsdu else ([], [])
    right_log, left_log = f"{room}/{language}{classes}.right", f"{room}/{language}{classes}.left"
    captured = ["--capture", f"{room}/{language}{classes}.server"] if capture else []
    server, port = start_server(["--classes", classes, "--log", right_log, *other_size, *captured], prefix, program)
    captured = ["--capture", f"{room}/{language}{classes}.client"] if capture else []
    words = ["--classes", classes, "--messages", str(messages), "--log", left_log, *own, *captured]
    status = finish(start_client(client, port, words, prefix))
    other = finish(server)
    server.stdout.close()
    return status, other, lines(left_log), lines(right_log)


def exchanges(room, clients):
    others = {language: program for language, program in servers(clients).items() if language != "C"}
    for classes in ("0", "2", "20"):
        for language, client in clients.items():
            exchanged(room, f"client in {language} and server in C", language, client, classes, language == "C", SERVER)
        for language, program in others.items():
            exchanged(room, f"client in C and server in {language}", "server", [CLIENT], classes, False, program)
    for language, client in clients.items():
        exchanged(room, f"client in {language} and server in C", language, client, "2", False, SERVER, 64)
    for language, program in others.items():
        exchanged(room, f"client in C and server in {language}", "server", [CLIENT], "0", False, program, 64)


def exchanged(room, who, name, client, classes, capture, program, tsdu=None):
    status, other, left, right = exchange(room, name, client, classes, 5, capture, (), program, tsdu)
    what = f"{who}, classes {classes}{f', TSDUs of {tsdu} octets' if tsdu else ''}"
    check(f"{what}: released", status == 0 and other == 0, f"status {status} and {other}")
    check(f"{what}: the indications of the client", left == awaited(5, tsdu)[0], "\n".join(left))
    check(f"{what}: the indications of the server", right == awaited(5, tsdu)[1], "\n".join(right))


def captures(room):
    for classes in ("0", "2"):
        for side in ("left", "right"):
            name = f"{room}/C{classes}.client.{side}"
            with open(name) as file:
                listed = subprocess.run([f"{TOP}/osi", "show"], stdin=file, capture_output=True, text=True)
            listing = listed.stdout.splitlines()
            check(f"./osi show lists what the {side} side sent in class {classes}",
                  listed.returncode == 0 and listing and listing[-1] == "rest 0", listed.stdout + listed.stderr)
            traced = [line[2:] for line in lines(f"{room}/C{classes}.client.trace") if line[0] == "><"[side == "right"]]
            check(f"the client traced what ./osi show lists of the {side} side in class {classes}", traced == listing[:-1])
            sent = lines(name)[0]
            came = lines(f"{room}/C{classes}.server.{side}")[0]
            check(f"both sides captured the same octets of the {side} side in class {classes}",
                  sent.startswith(came) or came.startswith(sent))


def wireshark(room):
    """tshark reads the same octets, as TCP of port 102, and names what it finds. The user data of these
    sessions is text and no presentation unit, so its reader of those is left out."""
    if not shutil.which("tshark") or not shutil.which("text2pcap"):
        return False
    for classes in ("0", "2"):
        for side, ports in (("left", "40000,102"), ("right", "102,40000")):
            octets = bytes.fromhex(lines(f"{room}/C{classes}.client.{side}")[0])
            dump = "".join(f"{at:06x} {octets[at:at + 16].hex(' ')}\n" for at in range(0, len(octets), 16))
            subprocess.run(["text2pcap", "-q", "-T", ports, "-", f"{room}/out.pcap"], input=dump, text=True,
                           check=True, stderr=subprocess.DEVNULL)
            read = subprocess.run(["tshark", "--disable-protocol", "pres", "-r", f"{room}/out.pcap", "-V"], capture_output=True, text=True)
            found = all(word in read.stdout for word in ("TPKT", "COTP", "ISO 8327-1"))
            check(f"tshark reads what the {side} side sent in class {classes}, and calls nothing malformed",
                  read.returncode == 0 and found and "alformed" not in read.stdout)
    return True


def within_third_packet(octets):
    """A place in the middle of the third packet: after CC and AC."""
    begins = 0
    for _ in range(2):
        begins += int.from_bytes(octets[begins + 2:begins + 4], "big")
    return begins + 6


def loss(room, clients):
    place = within_third_packet(bytes.fromhex(lines(f"{room}/C0.client.right")[0]))
    for language, client in clients.items():
        server, port = start_server(["--classes", "0", "--stall", str(place)])
        log = f"{room}/{language}.lost"
        left = start_client(client, port, ["--classes", "0", "--log", log])
        stalled = server.stdout.readline().strip() == "stalled"
        time.sleep(0.2)
        server.send_signal(signal.SIGKILL)
        finish(server)
        status = finish(left)
        server.stdout.close()
        check(f"the server is killed in the middle of a packet: the client in {language} is told",
              stalled and status == 3 and lines(log)[-1] == "left 1 ProviderAbort Lost", "\n".join(lines(log)))


def speed():
    for classes, sizes, how in (("0", [], ""), ("2", [], ""), ("0", ["--tsdu", "64"], ", in parts"),
                                ("2", ["--tsdu", "64"], ", in parts")):
        server, port = start_server(["--classes", classes])
        words = ["--classes", classes, *sizes, "--bulk", "10000", "--size", "1000"]
        client = start_client([CLIENT], port, words, stdout=subprocess.PIPE)
        statuses = finish(client), finish(server)
        told, took = client.stdout.read().strip(), server.stdout.read().strip()
        check(f"10,000 messages in class {classes}{how}",
              statuses == (0, 0) and took == "took 10000 messages, 10000000 octets", f"{statuses} {told} {took}")
        print(f"class {classes}{how}: {told}")


def never_shown(room, clients):
    """Peers that stay, and whose connection causes no indication: the server closes it after a while."""
    cases = []
    for language, program in servers(clients).items():
        for what, kind, tsdu in (("sends nothing", 0, b""), ("speaks S7 in class 0", 0, peers.S7), ("speaks S7 in class 2", 2, peers.S7)):
            log = f"{room}/never{len(cases)}"
            server, port = start_server(["--classes", str(kind), "--wait", "1", "--log", log], (), program)
            peer = socket.create_connection(("127.0.0.1", int(port)))
            if tsdu:
                data = peers.data_in_class_2(1, 0, tsdu) if kind == 2 else peers.data_in_class_0(tsdu)
                peer.sendall(peers.connect_request(1, kind) + data)
            cases.append((f"the server in {language} gives up a peer that {what}, and says so", tsdu, server, peer, log))
    for what, tsdu, server, peer, log in cases:
        status = finish(server)
        peer.close()
        server.stdout.close()
        told = [line.upper().replace("OSI_PHASE_", "") for line in lines(log)]
        wanted = ["RIGHT GIVES UP: THE PEER IS SILENT"]
        if tsdu:
            wanted = ["RIGHT GIVES UP: NOTHING WAS SHOWN", "RIGHT 1 WAS NEVER SHOWN, ABORTING"]
        check(what, status == 0 and told == wanted, f"{status} {told}")


def little_credit():
    """A client that has 500 MB to send, and peers that take little at a time: a client that ignored this would keep all of it."""
    for window in ("1", "15"):
        server, port = start_server(["--classes", "2", "--window", window])
        words = ["--classes", "2", "--bulk", "500000", "--size", "1000"]
        client, own = finish_measured(start_client([CLIENT], port, words, stdout=subprocess.DEVNULL))
        other, others = finish_measured(server)
        took = server.stdout.read().strip()
        server.stdout.close()
        check(f"500,000 messages under a window of {window}, within {MOST_MEMORY} KiB: {own} here, {others} there",
              (client, other) == (0, 0) and took == "took 500000 messages, 500000000 octets" and max(own, others) < MOST_MEMORY,
              f"{client} {other} {took}")


def sends_and_never_reads(program):
    """The status of a server whose peer of class 2 sends data and never reads, the most memory that it had, and whether it read
    all the same."""
    octets = b"".join(peers.data_in_class_2(1, number, b"\1\0\1\0x") for number in (*range(1, 128), 0)) * 100
    server, port = start_server(["--classes", "2", "--wait", "3", "--log", "/dev/null"], (), program)
    with socket.socket() as peer:
        peer.setsockopt(socket.SOL_SOCKET, socket.SO_RCVBUF, 4096)
        peer.connect(("127.0.0.1", int(port)))
        peer.settimeout(2)
        sent = 0
        try:
            peer.sendall(peers.connect_request(1, 2) + peers.data_in_class_2(1, 0, peers.CN))
            while sent < 1000 * len(octets):
                peer.sendall(octets)
                sent += len(octets)
        except OSError:
            pass
        status, memory = finish_measured(server)
    server.stdout.close()
    return status, memory, sent == 1000 * len(octets)


def reads_nothing(clients):
    """A server that goes on to read although its peer reads nothing would keep an answer of nine octets for each packet."""
    programs = servers(clients)
    with ThreadPoolExecutor() as runs:
        for language, (status, memory, all_read) in zip(programs, runs.map(sends_and_never_reads, programs.values())):
            check(f"a peer that sends and never reads is read no more by the server in {language}, within {MOST_MEMORY} KiB: {memory}",
                  status == 0 and not all_read and memory < MOST_MEMORY, f"{status} {all_read}")


def most_memory(process):
    """The most memory that a process had until now, in KiB."""
    with open(f"/proc/{process.pid}/status") as file:
        return int(re.search(r"^VmHWM:\s+(\d+) kB", file.read(), re.M).group(1))


def asks_without_credit(clients):
    """A peer of class 2 that opens 64 sessions on one byte connection, reads all, gives no credit once they are open, and asks
    for a confirmation in each session 8,000 times. A server that answered all of them would keep all answers."""
    for language, program in servers(clients).items():
        server, port = start_server(["--log", "/dev/null"], (), program, 2)
        before = most_memory(server)
        hang_up, given_up = peers.asks_without_credit(port, 64, 8000, LONGEST)
        grown = most_memory(server) - before
        other = finish(start_client([CLIENT], port, ["--classes", "2", "--log", "/dev/null"]))
        hang_up()
        status = finish(server)
        server.stdout.close()
        check(f"the server in {language} gives up who asks and gives no credit, within {MOST_GROWTH} KiB: {grown}",
              status == 0 and grown < MOST_GROWTH and len(given_up) == 64, f"{status} {len(given_up)}")
        check(f"the server in {language} has served another peer meanwhile", other == 0, str(other))


def many_peers(clients):
    """A server has a peer that stays silent, and twenty that talk, all at once."""
    for language, program in servers(clients).items():
        server, port = start_server(["--log", "/dev/null"], (), program, 21)
        with socket.create_connection(("127.0.0.1", int(port))):
            words = ["--messages", "50", "--log", "/dev/null"]
            here = [start_client([CLIENT], port, ["--classes", ("0", "2")[number % 2], *words]) for number in range(20)]
            statuses = [finish(client) for client in here]
        statuses.append(finish(server))
        server.stdout.close()
        check(f"the server in {language} has 20 peers at once, beside a silent one", set(statuses) == {0}, str(statuses))


def both_write_much(clients):
    """Both sides write much at once, and neither waits until the other reads."""
    bulk = ["--bulk", "30000", "--size", "1000"]
    for language, points in (("C", ["--points", "1"]), ("C++, by osi.hpp", []), ("Rust, by osi-session", [])):
        if language not in clients:
            continue
        with socket.create_server(("127.0.0.1", 0)) as listener:
            port = str(listener.getsockname()[1])
            client = start_client(clients[language], port, ["--classes", "0", *bulk, *points])
            took = peers.writes_much(listener, PATIENCE)
            status, memory = finish_measured(client)
        check(f"the client in {language} reads while its peer does not, within {MOST_MEMORY} KiB: {memory}",
              took and status == 3 and memory < MOST_MEMORY, f"{took} {status}")
        for classes in ("0", "2"):
            server, port = start_server(["--classes", classes])
            client = start_client(clients[language], port, ["--classes", classes, *bulk, *points], stdout=subprocess.DEVNULL)
            statuses, told = (finish(client), finish(server)), server.stdout.read().strip()
            server.stdout.close()
            check(f"the client in {language} sends 30,000 messages, each with a point that is confirmed, in class {classes}",
                  statuses == (0, 0) and told == "took 30000 messages, 30000000 octets", f"{statuses} {told}")


def neighbours(clients):
    """Each server beside bad neighbours, those in Python on each Python that is here."""
    compiled = {language: (program, False) for language, program in servers(clients).items() if "Python" not in language}
    compiled["C, to copy"] = ([f"{BUILD}/duplex"], True)
    in_python = {}
    for version, python in pythons().items():
        in_python[f"Python {version}"] = ([python, f"{FOLDER}/server.py"], False)
        in_python[f"Python {version}, over asyncio"] = ([python, *ASYNCIO_SERVER[1:]], False)
        in_python[f"Python {version}, over asyncio, to copy"] = ([python, f"{DUPLEX}/server.py"], True)
    both = {**compiled, **in_python}
    for what, holds, why in (*fair.beside(both), *fair.slow(both), *fair.interrupted(in_python), *fair.ended(in_python)):
        check(what, holds, why)
    for name in ("server.c", "server.py"):
        count = len(lines(f"{DUPLEX}/{name}"))
        check(f"examples/duplex/{name} has {count} lines, at most {MOST_LINES}", count <= MOST_LINES)
    for version, python in pythons().items():
        for what, holds, why in costs.many_lines(python, version):
            check(what, holds, why)
    for what, holds, why in costs.judged():
        check(what, holds, why)


# What each page of docs/ needs; its section "From an empty folder" is followed as it is.
DOCUMENTED = {"GUIDE": "cc", "CPP": "c++", "RUST": "cargo", "PYTHON": "python3", "TLS": "openssl", "TUTORIAL": "cc"}
# The section of a page that is followed, if it is another one.
SECTIONS = {"TUTORIAL": "A server to copy"}
# The other sections of a page that are followed after that one in its folder, and what each needs.
FOLLOWING = {"PYTHON": {"Over TLS": "openssl"}}


def script_of(page, port, heading="From an empty folder"):
    """The section as one script, which writes the files that it names and runs its commands; and what is printed at the
    end, as the section says."""
    with open(f"{TOP}/docs/{page}.md") as file:
        text = render.of_sources(file.read())
    section = re.search(rf"^## {heading}\n(.*?)^## ", text, re.M | re.S).group(1).replace("4000", port)
    script, printed, named = [], "", ""
    # (a server that was just started needs some time until it takes connections)
    awaits = f"until (exec 3<>/dev/tcp/127.0.0.1/{port}) 2>/dev/null; do sleep 0.2; done"
    for before, kind, text in re.findall(r"(.*?)^```(\w*)\n(.*?)^```$", section, re.M | re.S):
        named = (re.findall(r"`([\w/]+\.(?:cpp|c|rs|py))`", before) or [named])[-1]
        if kind == "sh":
            script += [awaits if line == "sleep 1" else line for line in text.splitlines() if not line.startswith("make lib")]
        elif kind == "cmake":
            script += ["cat > CMakeLists.txt <<'END_OF_FILE'", text + "END_OF_FILE"]
        elif kind:
            script += [f"cat > {named} <<'END_OF_FILE'", text + "END_OF_FILE"]
        else:
            printed = text
    return "\n".join(["set -eu", "trap 'kill $(jobs -p) 2>/dev/null || true' EXIT", *script]), printed


def free_port():
    with socket.socket() as listener:
        listener.bind(("127.0.0.1", 0))
        return str(listener.getsockname()[1])


def documented(room, missing):
    """Follows the pages as they are written, each in an empty folder: they print what they say."""
    home = f"{room}/home"
    subprocess.run(["make", "-s", "-C", TOP, "install", f"PREFIX={home}/osi"], check=True, capture_output=True)
    old = os.path.expanduser("~")
    own = {"HOME": home, "OSI": TOP, "CARGO_HOME": os.environ.get("CARGO_HOME", f"{old}/.cargo"),
           "RUSTUP_HOME": os.environ.get("RUSTUP_HOME", f"{old}/.rustup")}
    environment = {name: value for name, value in os.environ.items() if name not in ("OSI_SESSION_DIR", "PYTHONPATH")}
    for page, wanted in DOCUMENTED.items():
        if not shutil.which(wanted):
            missing.append(f"{wanted}, for docs/{page}.md")
            continue
        script, printed = script_of(page, free_port(), SECTIONS.get(page, "From an empty folder"))
        script = re.sub(r"^make install .*$", "", script, flags=re.M)
        folder = f"{room}/{page}"
        os.mkdir(folder)
        done = subprocess.run(["bash", "-c", script], cwd=folder, env={**environment, **own}, capture_output=True, text=True)
        check(f"docs/{page}.md prints what it says, typed into an empty folder",
              done.returncode == 0 and printed and done.stdout.endswith(printed), script + done.stdout + done.stderr)
        following(page, folder, {**environment, **own, "OSI_SESSION_DIR": f"{home}/osi"}, missing)
        if page == "CPP" and shutil.which("cmake"):
            done = subprocess.run("cmake -S . -B made && cmake --build made && made/hello", shell=True, cwd=folder, text=True,
                                  env={**environment, **own, "PKG_CONFIG_PATH": f"{home}/osi/lib/pkgconfig"}, capture_output=True)
            check("docs/CPP.md: the same, by its CMakeLists.txt", done.returncode == 0 and done.stdout.endswith(printed),
                  done.stdout + done.stderr)


def following(page, folder, environment, missing):
    for heading, wanted in FOLLOWING.get(page, {}).items():
        if not shutil.which(wanted):
            missing.append(f"{wanted}, for docs/{page}.md")
            continue
        script, printed = script_of(page, free_port(), heading)
        done = subprocess.run(["bash", "-c", script], cwd=folder, env=environment, capture_output=True, text=True)
        check(f"docs/{page}.md: {heading}: it prints what it says", done.returncode == 0 and printed and done.stdout.endswith(printed),
              script + done.stdout + done.stderr)


def installed(room):
    """The program is found through symbolic links, and a relative PREFIX starts at the folder of the call."""
    os.symlink(f"{TOP}/osi", f"{room}/first")
    os.symlink("first", f"{room}/osi")
    with open(f"{TOP}/examples/data.hex") as file:
        done = subprocess.run(["./osi", "show"], stdin=file, capture_output=True, text=True, cwd=room)
    check("./osi runs by a symbolic link to a link", done.stdout.endswith("rest 0\n"), done.stdout + done.stderr)
    words = {**os.environ, "PREFIX": "relative", "LIBDIR": "relative/lib64", "DESTDIR": ""}
    done = subprocess.run([f"{TOP}/scripts/install"], cwd=room, env=words, capture_output=True, text=True)
    there = f"{room}/relative/lib64/pkgconfig/osi-session.pc"
    check("make install takes a relative PREFIX", done.returncode == 0 and os.path.exists(there) and
          {f"prefix={room}/relative", f"libdir={room}/relative/lib64"} <= set(lines(there)), done.stdout + done.stderr)


def watched(room, clients):
    if not shutil.which("valgrind"):
        return False
    prefix = ["valgrind", "-q", "--leak-check=full", "--errors-for-leak-kinds=all", "--error-exitcode=9"]
    for language in ("C", "C++, by osi.hpp"):
        if language in clients:
            status, other, left, right = exchange(room, "valgrind", clients[language], "2", 3, language == "C", prefix)
            what = f"under valgrind, client in {language} and server in C"
            check(f"{what}: no error and no leak", (status, other) == (0, 0), f"status {status} and {other}")
            check(f"{what}: the same logs", (left, right) == awaited(3))
    for header, program in (("osi.h", "test_osi_c"), ("osi.hpp", "test_osi_cpp")):
        if header == "osi.h" or "C++, by osi.hpp" in clients:
            done = subprocess.run([*prefix, f"{BUILD}/{program}"], capture_output=True, text=True)
            check(f"under valgrind: the tests of {header}, no error and no leak", done.returncode == 0, done.stdout + done.stderr)
    return True


def main(_):
    began = time.time()
    # What a shell starts in the background ignores SIGINT, and so would the servers, which have to end at it.
    signal.signal(signal.SIGINT, signal.default_int_handler)
    os.environ.update(OSI_SESSION_DIR=BUILD, PYTHONPATH=f"{BINDINGS}/python/src")
    sys.path.insert(0, f"{BINDINGS}/python/src")
    clients, missing = build()
    headers()
    examples()
    temporaries()
    tests(clients)
    with tempfile.TemporaryDirectory() as room:
        exchanges(room, clients)
        captures(room)
        loss(room, clients)
        never_shown(room, clients)
        little_credit()
        reads_nothing(clients)
        asks_without_credit(clients)
        many_peers(clients)
        neighbours(clients)
        both_write_much(clients)
        if "OpenSSL" not in missing:
            for what, holds, why in tls.runs(f"{BUILD}/tls", room):
                check(what, holds, why)
        speed()
        documented(room, missing)
        installed(room)
        if not mypy():
            missing.append("mypy")
        if not with_uvloop():
            missing.append("uvloop")
        if not wireshark(room):
            missing.append("tshark")
        if not watched(room, clients):
            missing.append("valgrind")
    for each in missing:
        counts.skip(each, "it is not installed")
    print(f"{time.time() - began:.0f} s")
    return counts
