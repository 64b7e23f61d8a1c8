"""The captures of examples/captures: the octets of both directions, their order, and what osi and tshark print of them."""
import glob
import os
import re
import shutil
import subprocess

import peers

KEPT = os.path.join(peers.TOP, "examples", "captures")
OSI = os.path.join(peers.TOP, "crates", "osi_tool", "out", "osi_tool")
SIDES = (("left", True), ("right", False))


def is_listed():
    """Whether the program that lists captures is built."""
    return os.path.exists(OSI)


def listing(octets):
    """What `osi show` prints of a direction."""
    return subprocess.run([OSI, "show"], input=octets.hex() + "\n", capture_output=True, text=True)


def tshark_version():
    """The version of tshark, as the first line of a .tshark file has it; None if there is no tshark."""
    if not shutil.which("tshark"):
        return None
    return "# tshark " + re.search(r"\d+(\.\d+)+", peers.run(["tshark", "--version"]).stdout).group()


def words_of_tshark(name, pieces, room):
    """A line for each packet: who sent it, and tshark's summary of its uppermost layer. tshark knows the protocol by the port."""
    port = 3389 if "rdp" in name else 2944 if name == "megaco" else 102
    peers.capture(pieces, f"{room}/{name}.kept.pcap", port)
    said = peers.tshark(f"{room}/{name}.kept.pcap", "-T", "fields", "-e", "ip.src", "-e", "_ws.col.Protocol", "-e", "_ws.col.Info")
    lines = []
    for line in said.splitlines():
        source, protocol, info = (line.split("\t") + ["", ""])[:3]
        lines.append(f"{'left' if source == '192.0.2.1' else 'right'} {protocol}: {info}".rstrip())
    return "".join(f"{line}\n" for line in lines)


# ---- files


def read(name):
    with open(f"{KEPT}/{name}") as file:
        return file.read()


def write(name, text):
    os.makedirs(KEPT, exist_ok=True)
    with open(f"{KEPT}/{name}", "w") as file:
        file.write(text)


def stored():
    return sorted({os.path.basename(path).split(".")[0] for path in glob.glob(f"{KEPT}/*.order")})


def pieces_of(name):
    """The pieces of a stored capture: .order has a line for each, a side and how many octets."""
    octets, pieces = {}, []
    for side, _ in SIDES:
        there = os.path.exists(f"{KEPT}/{name}.{side}.hex")
        octets[side] = bytes.fromhex(read(f"{name}.{side}.hex")) if there else b""
    for number, line in enumerate(read(f"{name}.order").splitlines()):
        side, length = line.split()
        pieces.append((float(number), side == "left", octets[side][:int(length)]))
        octets[side] = octets[side][int(length):]
    return pieces


def as_lines(octets):
    """Octets as hexadecimal digits, with one packet on a line if they are packets."""
    lines = []
    while len(octets) >= 4 and octets[0] == 3 and 7 <= int.from_bytes(octets[2:4], "big") <= len(octets):
        length = int.from_bytes(octets[2:4], "big")
        lines.append(octets[:length].hex())
        octets = octets[length:]
    return "".join(f"{line}\n" for line in [*lines, *([octets.hex()] if octets else [])])


def store(name, pieces):
    """Writes the octets of a run, and their order."""
    for side, calls in SIDES:
        if octets := peers.direction(pieces, calls):
            write(f"{name}.{side}.hex", as_lines(octets))
    write(f"{name}.order", "".join(f"{'left' if calls else 'right'} {len(octets)}\n" for _, calls, octets in pieces))


def describe(name, room):
    """Writes what osi and tshark print of a stored capture, if they are there."""
    pieces = pieces_of(name)
    for side, calls in SIDES:
        if is_listed() and peers.direction(pieces, calls):
            write(f"{name}.{side}.listing", listing(peers.direction(pieces, calls)).stdout)
    if tshark_version():
        write(f"{name}.tshark", f"{tshark_version()}\n{words_of_tshark(name, pieces, room)}")


def compare(name, room, counts):
    """A stored capture has its listings, and the words of tshark; another version of tshark may use other words."""
    pieces = pieces_of(name)
    if not is_listed():
        counts.skip(f"the listings of examples/captures/{name}", "`make` builds the program")
    for side, calls in SIDES:
        octets = peers.direction(pieces, calls)
        if is_listed() and octets:
            counts.check(f"examples/captures/{name}.{side}.hex has its listing", listing(octets).stdout == read(f"{name}.{side}.listing"))
    head, _, wanted = read(f"{name}.tshark").partition("\n")
    here = tshark_version()
    if here != head:
        why = f"they are those of {head[2:]}, and here is {here[2:]}" if here else "package tshark"
        counts.skip(f"the words of tshark of examples/captures/{name}", why)
        return
    said = words_of_tshark(name, pieces, room)
    counts.check(f"examples/captures/{name} has the words of tshark", said == wanted, said)
