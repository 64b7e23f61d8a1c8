"""Runs examples/mms against itself and against other makers' programs over loopback, and says how far each came.

    scripts/trials interop                all peers that are installed, and the captures in examples/captures
    scripts/trials interop NAME ..        some of ourselves, words, nmap, freerdp, xrdp, erlang, snap7, stand-ins, captures
    scripts/trials interop --keep FOLDER  leaves the captures there, for tshark or Wireshark
    scripts/trials interop --write        writes examples/captures again; `scripts/trials interop captures --write` only what describes them

For each peer a line says who it is, with its version, who called, how far the session came (packets, transport, session,
association, data, release), how it ended early, and what tshark says of the capture. A peer that is not installed is named
with its package, and counted as skipped. Debian 13 has all of them; Debian 12 has no snap7, and an nmap without an MMS script.
There the steps with that script are run by a stand-in (trials/stand_ins), and its lines say so: such a line tests this script,
and says nothing of nmap. docs/INTEROP.md says how to have a Debian 13 in a folder.

It takes about a minute.
"""
import glob
import os
import re
import shutil
import socket
import subprocess
import sys
import time

import captures
import peers
from counts import Counts
from peers import Programs, Relay, client, how_far, refusals, run, version

TOP = os.path.dirname(os.path.dirname(os.path.abspath(__file__)))

counts = Counts()
# Why a peer of S7 comes no further.
S7 = "Siemens S7 over class 0: its data is no session unit"
# The variables of the server's domain, and their values as the client prints them.
PLANT = {"LLN0$DC$NamPlt$configRev": '"1"', "LLN0$DC$NamPlt$d": '"a plant"', "LPHD1$DC$PhyNam$model": '"examples/mms"',
         "LPHD1$DC$PhyNam$serNum": '"1"', "LPHD1$DC$PhyNam$swRev": '"1"', "LPHD1$DC$PhyNam$vendor": '"OSI session"',
         "breaker": "true", "current": "12.5", "name": '"plant 1"', "voltage": "230.25"}
# What was captured: the name of each, and its pieces.
captured = {}
seen_by_tshark = shutil.which("tshark") is not None


def report(name, peer, ours, pieces, wanted, room, port=102):
    """Prints the line of one run, and counts whether it came as far as it should and no further."""
    far, ended = how_far(pieces), refusals(pieces)
    captured[name] = pieces
    said, well = "no tshark", True
    if seen_by_tshark:
        peers.capture(pieces, f"{room}/{name}.pcap", port)
        found, malformed = peers.what_tshark_says(f"{room}/{name}.pcap")
        said, well = ", ".join(found) + (", MALFORMED" if malformed else ""), not malformed or port != 102
    text = f"{peer} | {ours} | {far}{' (' + ', '.join(ended) + ')' if ended else ''} | {said}"
    counts.check(text, far == wanted and well, f"it should have come to {wanted}")


# ---- our own two programs


def check_captures(room):
    """Compares the octets that both programs kept of each direction."""
    with Programs() as programs:
        _, port = programs.server("--capture", f"{room}/server")
        with Relay(port) as relay:
            done = client(relay.port, "--capture", f"{room}/client")
    for side, calls in captures.SIDES:
        kept = []
        for name in (f"{room}/client.{side}", f"{room}/server.1.{side}"):
            with open(name) as file:
                kept.append(bytes.fromhex(file.read()))
        counts.check(f"both programs keep what the {side} side sent", done.returncode == 0 and
                     kept == [peers.direction(relay.longest(), calls)] * 2)


def check_listings(pieces):
    """`osi show` lists both directions of an association to their last octet."""
    if not captures.is_listed():
        counts.skip("the listing of an association", "`make` builds the program")
        return
    for side, calls in captures.SIDES:
        done = captures.listing(peers.direction(pieces, calls))
        counts.check(f"osi show lists what the {side} side sent", done.returncode == 0 and done.stdout.endswith("rest 0\n"),
                     done.stdout + done.stderr)


def server_ends():
    """Asks a server to end: its client gets an abort, and no loss."""
    with Programs() as programs:
        server, port = programs.server()
        made = programs.start([peers.CLIENT, "--host", "127.0.0.1", "--port", str(port), "--reads", "1000000000"],
                              stderr=subprocess.PIPE, text=True)
        time.sleep(0.5)
        status = programs.end(server)
        said = made.stderr.read()
        counts.check("a server that is asked to end aborts its associations", status == 0 and made.wait(peers.LONGEST) == 3 and
                     said.startswith("client: aborted by the server, after "), said)


def watched():
    """Runs both programs under valgrind: they lose no memory, and read none that isn't theirs."""
    if not shutil.which("valgrind"):
        counts.skip("both programs under valgrind", "package valgrind")
        return
    words = ["valgrind", "-q", "--error-exitcode=9", "--leak-check=full", "--errors-for-leak-kinds=definite,indirect"]
    with Programs() as programs:
        server = programs.start([*words, peers.SERVER, "--port", "0", "--wait", "60"], stdout=subprocess.PIPE, text=True)
        port = server.stdout.readline().split()[1]
        statuses = [run([*words, peers.CLIENT, "--host", "127.0.0.1", "--port", port, "--wait", "60", *more]).returncode
                    for more in ([], ["--abort"], ["read:none"])]
        server.terminate()
        counts.check("both programs under valgrind", statuses == [0, 0, 1] and server.wait(peers.LONGEST) == 0, statuses)


def ourselves(room):
    """Runs both programs against each other, by IPv4 and IPv6: whole associations, and refused ones."""
    with Programs() as programs:
        _, port = programs.server("--tsap", "0001", "--ssel", "0001", "--psel", "00000001")
        cases = [
            ("mms", [], 0, "release"), ("mms_classes", ["--classes", "20"], 0, "release"),
            ("mms_class_2", ["--classes", "2"], 1, "packets"), ("mms_abort", ["--abort"], 0, "data"),
            ("mms_other_tsap", ["--called-tsap", "0002"], 1, "transport"),
            ("mms_other_ssel", ["--called-ssel", ":other"], 1, "transport"),
            ("mms_other_psel", ["--called-psel", "02"], 1, "transport"),
            ("mms_error", ["read:plant/none", "names:nowhere", "read:clock"], 1, "release"),
            ("mms_ahead", ["--reads", "50", "--ahead", "5"], 0, "release"),
            ("mms_jobs", ["identify", "domains", "names:plant", "read:plant/voltage"], 0, "release"),
        ]
        for name, words, status, wanted in cases:
            with Relay(port) as relay:
                done = client(relay.port, *words)
                counts.check(f"the client of examples/mms {' '.join(words)} ends with status {status}", done.returncode == status,
                             done.stdout + done.stderr)
                report(name, "examples/mms", f"client and server {' '.join(words)}", relay.longest(), wanted, room)
            if name == "mms":
                counts.check("the walk finds and reads all", is_whole_walk(done.stdout), done.stdout)
                check_listings(relay.longest())
    check_captures(room)
    other_spellings(room)
    requests_by_hand(room)
    server_ends()
    watched()
    with Programs() as programs:
        if not socket.has_ipv6 or not has_loopback_6():
            counts.skip("examples/mms by IPv6", "this machine has no ::1")
            return
        _, port = programs.server("--host", "::1")
        done = client(port, host="::1")
        counts.check("examples/mms by IPv6", done.returncode == 0 and is_whole_walk(done.stdout), done.stdout + done.stderr)


def other_spellings(room):
    """Runs clients that write the same association in another way: another application context of ISO 9506, an indefinite
    length, no selectors. And one that asks for another application."""
    with Programs() as programs:
        _, port = programs.server()
        with Relay(port) as relay:
            client(relay.port, "identify")
            octets = peers.direction(relay.longest(), True)
        request, connect = [b"\x03\x00" + (len(unit) + 4).to_bytes(2, "big") + unit for unit in peers.packets(octets)][:2]
        name = bytes.fromhex("28ca220203")
        cases = {
            "the context 1.0.9506.1.1": (connect.replace(name, bytes.fromhex("28ca220101")), "association"),
            "an indefinite length": (with_indefinite_length(connect), "association"),
            "a context of another application": (connect.replace(name, bytes.fromhex("2b06010101")), "transport"),
        }
        for number, (what, (packet, wanted)) in enumerate(cases.items()):
            with Relay(port) as relay, socket.create_connection(("127.0.0.1", relay.port), 5) as made:
                for each in (request, packet):
                    made.sendall(each)
                    made.recv(2000)
                report(f"spelling_{number}", "an association by hand", f"server, {what}", relay.longest(), wanted, room)


def element(tag, *contents):
    """An element of BER with a length of one octet; a text means its octets."""
    octets = b"".join(each.encode() if isinstance(each, str) else each for each in contents)
    return bytes.fromhex(tag) + bytes([len(octets)]) + octets


def requests_by_hand(room):
    """Requests that the client of examples/mms doesn't send, and the answers that they should get."""
    voltage = element("a1", element("1a", "plant"), element("1a", "voltage"))
    clocks = element("a0", element("30", element("a0", element("80", "clock"))), element("30", element("a0", voltage)))
    names = element("a0", element("80", b"\x00"))
    value = "87050843664000"
    cases = {
        "GetVariableAccessAttributes": (element("a6", element("a0", voltage)), "a1 .. a6 .. 800100 a208 a706020120020108"),
        "the attributes of nothing": (element("a6", element("a0", element("80", "none"))), "a2 .. a003 870102"),
        "two reads at once": (element("a4", element("a1", clocks)), f"a1 .. a4 .. a1 .. 86 .. {value}"),
        "a read that asks for its names": (element("a4", b"\x80\x01\xff", element("a1", clocks)), f"a1 .. a4 .. a0 .. a1 .. {value}"),
        "a list of variables by its name": (element("a4", element("a1", element("a1", element("80", "list")))), "a2 .. 870101"),
        "names after another": (element("a1", names, element("a1", element("81", "plant")), element("82", "current")),
                                 "a1 .. a1 .. a00f 1a046e616d65 1a07766f6c74616765 810100"),
        "a service that doesn't exist": (element("80", b"\x00"), "a4 .. 800105 810101"),
        "a request without its argument": (element("a4"), "a4 .. 800105 810104"),
    }
    with Programs() as programs:
        _, port = programs.server()
        with Relay(port) as relay:
            client(relay.port, "identify")
            request, connect = list(peers.packets(peers.direction(relay.longest(), True)))[:2]
        with Relay(port) as relay, socket.create_connection(("127.0.0.1", relay.port), 5) as made:
            for unit in (request, connect):
                exchanged(made, unit)
            for what, (service, wanted) in cases.items():
                answer = asked_by_hand(made, element("a0", b"\x02\x01\x05", service))
                counts.check(f"by hand: {what}", re.search(wanted.replace(" .. ", "[0-9a-f]+?").replace(" ", ""), answer), answer)
            answer = asked_by_hand(made, b"\xbf\x7f\x00")
            counts.check("by hand: what is no PDU of MMS is rejected", answer.endswith("a403850100"), answer)
            report("requests_by_hand", "requests by hand", "server", relay.longest(), "data", room)


def exchanged(made, unit):
    made.sendall(b"\x03\x00" + (len(unit) + 4).to_bytes(2, "big") + unit)
    return made.recv(4000)


def asked_by_hand(made, pdu):
    """The server's answer to a PDU of MMS, in hexadecimal digits."""
    data = element("61", element("30", b"\x02\x01\x03", element("a0", pdu)))
    return exchanged(made, b"\x02\xf0\x80\x01\x00\x01\x00" + data).hex()


def with_indefinite_length(packet):
    """A CN whose user data, one SET, ends by two octets 0."""
    at = packet.index(b"\xc1", packet.index(b"\x14\x02\x00\x02"))
    data = packet[at + 2:]
    begin = 2 + (data[1] & 0x7f if data[1] >= 0x80 else 0)
    data = b"\x31\x80" + data[begin:] + b"\x00\x00"
    unit = packet[9:at] + b"\xc1" + bytes([len(data)]) + data
    return b"\x03\x00" + (len(unit) + 9).to_bytes(2, "big") + b"\x02\xf0\x80\x0d" + bytes([len(unit)]) + unit


def has_loopback_6():
    try:
        socket.create_server(("::1", 0), family=socket.AF_INET6).close()
        return True
    except OSError:
        return False


def is_whole_walk(text):
    wanted = ["identify: OSI session, examples/mms, 1", "names: clock reads", "domains: plant", r"clock = \d+", r"reads = \d+",
              f"names of plant: {' '.join(map(re.escape, PLANT))}",
              *(f"plant/{re.escape(name)} = {re.escape(value)}" for name, value in PLANT.items()), "concluded"]
    return re.fullmatch("\n".join(wanted) + "\n", text) is not None


def words_that_are_wrong(_):
    """Gives both programs bad input: they print one line on standard error, and end with a status."""
    taken = socket.create_server(("127.0.0.1", 0))
    busy = str(taken.getsockname()[1])
    nobody = str(peers.free_port())
    cases = {
        "server": [["--port", "70000"], ["--port", "-1"], ["--port", "1x"], ["--port"], ["--nothing"], ["word"],
                   ["--tsap", "0"], ["--tsap", "xy"], ["--ssel", "00" * 17], ["--psel", ":"], ["--clients", "0"],
                   ["--wait", "1.5"], ["--host", "no.such.host.invalid"], ["--host", "127.0.0.1", "--port", busy],
                   ["--host", "192.0.2.1", "--port", "0"], ["--port", "0", "--capture", "/nowhere/at/all"],
                   ["--port", "0", "--clients", "65536", "--capture", "/tmp/" + 500 * "x"]],
        "client": [[], ["--host"], ["--host", "no.such.host.invalid"], ["--host", "127.0.0.1", "--port", nobody],
                   ["--host", "127.0.0.1", "--port", "0"], ["--host", "127.0.0.1", "eat"], ["--classes", "3"],
                   ["--host", "127.0.0.1", "read:"], ["--host", "127.0.0.1", "read:/x"], ["--ahead", "6"],
                   ["--reads", "5", "identify"], ["--host", "127.0.0.1", "names:"],
                   ["--host", "127.0.0.1", "--port", busy, "--capture", "/nowhere/at/all"]],
    }
    for name, lists in cases.items():
        for words in lists:
            done = run([f"{peers.BUILD}/{name}", *words], 10)
            counts.check(f"{name} {' '.join(words)[:60]}: one line on standard error, and status 2",
                         done.returncode == 2 and done.stderr.count("\n") == 1 and not done.stdout,
                         f"{done.returncode}: {done.stdout}{done.stderr}")
    taken.close()
    with Programs() as programs, open("/dev/full", "w") as full:
        _, port = programs.server()
        done = subprocess.run([peers.CLIENT, "--host", "127.0.0.1", "--port", str(port)], stdout=full, stderr=subprocess.PIPE, text=True)
        counts.check("client, if standard output is full: one line on standard error, and status 2",
                     done.returncode == 2 and done.stderr.count("\n") == 1, done.stderr)


# ---- programs of others


def nmap(room):
    installed = version("nmap")
    if not shutil.which("nmap"):
        counts.skip("nmap", "package nmap")
        return
    said = run(["nmap", "--version"]).stdout.split()[2]
    number = said if said.endswith(STANDS_IN) else installed or said
    nmap_script(f"nmap {number}, s7-info", "s7-info", "transport", S7, room)
    data = os.environ.get("NMAPDIR", "/usr/share/nmap")
    names = [name for name in ("iec61850-mms", "mms-identify") if os.path.exists(f"{data}/scripts/{name}.nse")]
    if not names:
        counts.skip("nmap's iec61850-mms", f"nmap 7.95 or later has it (Debian 13: docs/INTEROP.md), and this is {number}")
    for name in names:
        output = nmap_script(f"nmap {number}, {name}", name, "data", "MMS", room)
        counts.check(f"nmap's {name} reads who the server is", "examples/mms" in output, output)
    if "iec61850-mms" in names and (folder := corrected_nmap(data, room)):
        peer = f"nmap {number}, iec61850-mms with a line of its library corrected"
        output = nmap_script(peer, "iec61850-mms", "data", "MMS", room, {"NMAPDIR": folder})
        plates = ("productFamily: a plant", "configuration: 1", "vendorName: OSI session", "modelNumber: examples/mms")
        counts.check("nmap's iec61850-mms, corrected, finds the names and reads them", all(each in output for each in plates), output)


def nmap_script(peer, name, wanted, what, room, more={}):
    """What nmap prints when it runs a script against the server; -d also shows what the script says as it goes."""
    with Programs() as programs:
        _, port = programs.server()
        with Relay(port) as relay:
            words = ["nmap", "-d", "-Pn", "-n", "-sT", "-p", str(relay.port), "--script", f"+{name}", "127.0.0.1"]
            done = run(words, 60, env={**os.environ, **more})
            time.sleep(0.3)
            kept = f"nmap_{name.replace('-', '_')}{'_corrected' * bool(more)}"
            report(kept, peer, f"server ({what})", relay.longest(), wanted, room)
    return done.stdout


def corrected_nmap(data, room):
    """A folder with nmap's MMS library in which one line is corrected, or None if that line is not there. In nmap 7.95 the
    library calls encodeSeq of asn1.lua without its first argument, so the script fails before it asks for any name."""
    wrong, right = "asn1.ASN1Encoder.encodeSeq", "function(data) return asn1.ASN1Encoder:encodeSeq(data) end"
    path = "nselib/iec61850mms.lua"
    if not os.path.exists(f"{data}/{path}"):
        return None
    with open(f"{data}/{path}", encoding="utf-8") as file:
        text = file.read()
    if text.count(wrong) != 1:
        return None
    os.makedirs(f"{room}/nmap/nselib")
    with open(f"{room}/nmap/{path}", "w", encoding="utf-8") as file:
        file.write(text.replace(wrong, right))
    return f"{room}/nmap"


def display(programs):
    """A display for programs that need one; None if there is no Xvfb."""
    if not shutil.which("Xvfb"):
        return None
    reader, writer = os.pipe()
    # (after its last client has gone, a display may refuse the next one for a while)
    words = ["-screen", "0", "640x480x24", "-nolisten", "tcp", "-noreset"]
    programs.start(["Xvfb", "-displayfd", str(writer), *words], pass_fds=(writer,))
    os.close(writer)
    with os.fdopen(reader) as file:
        return f":{file.readline().strip()}"


# The client and the server of FreeRDP, each with its package: those of version 3, and those of version 2.
FREERDP_CLIENT = {"xfreerdp3": "freerdp3-x11", "xfreerdp": "freerdp2-x11"}
FREERDP_SHADOW = {"freerdp-shadow-cli3": "freerdp3-shadow-x11", "freerdp-shadow-cli": "freerdp2-shadow-x11"}


def first_of(known):
    """The first of these programs that is installed, or None; and its version."""
    program = next(filter(shutil.which, known), None)
    return program, program and version(known[program]) or ""


def freerdp(room):
    for known, runs in ((FREERDP_CLIENT, freerdp_client), (FREERDP_SHADOW, freerdp_shadow)):
        program, number = first_of(known)
        if program is None:
            counts.skip(" or ".join(known), f"package {' or '.join(known.values())}")
            continue
        with Programs() as programs:
            where = display(programs)
            if where is None:
                counts.skip(program, "it wants a display: package xvfb")
                continue
            runs(room, programs, program, {**os.environ, "DISPLAY": where, "HOME": room}, number)


def freerdp_client(room, programs, program, environment, number):
    _, port = programs.server()
    with Relay(port) as relay:
        run([program, f"/v:127.0.0.1:{relay.port}", "/cert:ignore", "/u:user", "/p:none"], 20, env=environment)
        report("freerdp_client", f"FreeRDP {number}, xfreerdp", "server (RDP puts a cookie, which is no parameter, into the CR)",
               relay.longest(), "nothing", room, 3389)


def freerdp_shadow(room, programs, program, environment, number):
    port = peers.free_port()
    made = programs.start([program, f"/port:{port}", "-auth"], env=environment)
    if not peers.waits_for(port, 20, made):
        counts.skip("FreeRDP's shadow server", "it does not start here")
        return
    with Relay(port) as relay:
        done = client(relay.port, "--wait", "5")
        counts.check("FreeRDP's shadow server has no association for the client", done.returncode in (1, 3), done.stdout)
        report("freerdp_shadow", f"FreeRDP {number}, shadow server", "client (it takes only a CR without parameters)",
               relay.longest(), "nothing", room, 3389)
    report_bare_request("freerdp_shadow_bare", f"FreeRDP {number}, shadow server", port, room)


def report_bare_request(name, peer, port, room):
    """The answer of a server of RDP to the shortest CR of class 0, which has no size and no address: a CC."""
    with Relay(port) as relay, socket.create_connection(("127.0.0.1", relay.port), 5) as made:
        made.settimeout(10)
        made.sendall(bytes.fromhex("0300000b06e00000000000"))
        made.recv(100)
        report(name, peer, "a CR of 11 octets alone", relay.longest(), "transport", room, 3389)


def xrdp(room):
    if not shutil.which("xrdp"):
        counts.skip("xrdp", "package xrdp")
        return
    with Programs() as programs:
        port = peers.free_port()
        with open("/etc/xrdp/xrdp.ini") as file:
            text = re.sub(r"^port=.*", f"port=tcp://.:{port}", file.read(), count=1, flags=re.M)
        with open(f"{room}/xrdp.ini", "w") as file:
            file.write(re.sub(r"^LogFile=.*", f"LogFile={room}/xrdp.log", text, flags=re.M))
        programs.start(["xrdp", "--nodaemon", "--config", f"{room}/xrdp.ini"])
        if not peers.waits_for(port):
            counts.skip("xrdp", "it does not start here")
            return
        with Relay(port) as relay:
            done = client(relay.port, "--wait", "5")
            counts.check("xrdp has no association for the client", done.returncode in (1, 3), done.stdout)
            report("xrdp", f"xrdp {version('xrdp') or ''}", "client (it takes only a CR without parameters)", relay.longest(),
                   "packets", room, 3389)
        report_bare_request("xrdp_bare", f"xrdp {version('xrdp') or ''}", port, room)
        freerdp_to_xrdp(room, programs, port)


def freerdp_to_xrdp(room, programs, port):
    """Two programs of others with each other: their first packets, as this repository lists them."""
    program, number = first_of(FREERDP_CLIENT)
    where = display(programs) if program else None
    if where is None:
        counts.skip("xfreerdp to xrdp", f"packages {' or '.join(FREERDP_CLIENT.values())}, and xvfb")
        return
    with Relay(port) as relay:
        programs.start([program, f"/v:127.0.0.1:{relay.port}", "/sec:rdp", "/cert:ignore", "/u:user", "/client-hostname:station"],
                       env={**os.environ, "DISPLAY": where, "HOME": room})
        began = time.time()
        while len(relay.longest()) < 4 and time.time() - began < 20:
            time.sleep(0.1)
        report("freerdp_xrdp", f"xrdp {version('xrdp') or ''}", f"FreeRDP {number}, not ours", relay.longest()[:4],
               "transport", room, 3389)


# ---- Erlang: packets of RFC 1006 by its runtime, and megaco's transport over them

RELAY = r"""
-module(packets).
-export([start/1, main/0]).
%% Takes a connection, connects on, and hands whole packets on in both directions: each was cut by {packet, tpkt}.
main() -> {ok, [[Port]]} = init:get_argument(to), start(list_to_integer(Port)).
start(Port) ->
    Options = [binary, {packet, tpkt}, {active, true}, {ip, {127, 0, 0, 1}}],
    {ok, Listener} = gen_tcp:listen(0, Options),
    {ok, Own} = inet:port(Listener),
    io:format("port ~p~n", [Own]),
    {ok, Left} = gen_tcp:accept(Listener),
    {ok, Right} = gen_tcp:connect({127, 0, 0, 1}, Port, [binary, {packet, tpkt}, {active, true}]),
    loop(Left, Right, 0).
loop(Left, Right, Count) ->
    receive
        {tcp, Left, <<3, _, Length:16, _/binary>> = Packet} when Length =:= byte_size(Packet) ->
            ok = gen_tcp:send(Right, Packet), loop(Left, Right, Count + 1);
        {tcp, Right, <<3, _, Length:16, _/binary>> = Packet} when Length =:= byte_size(Packet) ->
            ok = gen_tcp:send(Left, Packet), loop(Left, Right, Count + 1);
        {tcp_closed, _} -> io:format("~p packets~n", [Count]), halt(0)
    end.
"""
MEGACO = r"""
-module(megaco_side).
-export([main/0, receive_message/4, receive_message/5]).
%% megaco's own transport: each message leaves in a packet, and received messages are counted.
main() ->
    {ok, [[Port]]} = init:get_argument(to),
    {ok, Supervisor} = megaco_tcp:start_transport(),
    Options = [{host, {127, 0, 0, 1}}, {port, list_to_integer(Port)}, {receive_handle, none}, {module, ?MODULE}],
    {ok, Handle, _} = megaco_tcp:connect(Supervisor, Options),
    ok = megaco_tcp:send_message(Handle, <<
        "MEGACO/1 [192.0.2.1]:2944\nTransaction = 1 {\nContext = - {\nServiceChange = ROOT {\n",
        "Services {\nMethod = Restart, Reason = \"901 Cold Boot\"}\n}\n}\n}\n">>),
    timer:sleep(1000),
    halt(0).
receive_message(_, _, _, _) -> ok.
receive_message(_, _, _, _, _) -> ok.
"""


def erlang(room):
    if not shutil.which("erlc"):
        counts.skip("Erlang's packets and megaco", "packages erlang-base and erlang-megaco")
        return
    number = version("erlang-base") or ""
    modules = {"packets": RELAY}
    if glob.glob("/usr/lib/erlang/lib/megaco-*"):
        modules["megaco_side"] = MEGACO
    else:
        counts.skip("Erlang's megaco", "package erlang-megaco")
    for name, text in modules.items():
        with open(f"{room}/{name}.erl", "w") as file:
            file.write(text)
        done = run(["erlc", "-o", room, f"{room}/{name}.erl"])
        counts.check(f"{name}.erl compiles", done.returncode == 0, done.stdout + done.stderr)
    words, where = ["erl", "-noshell", "-noinput", "-pa", room], {"cwd": room, "env": {**os.environ, "ERL_CRASH_DUMP_SECONDS": "0"}}
    with Programs() as programs:
        _, port = programs.server()
        between = programs.start([*words, "-s", "packets", "main", "-to", str(port)], stdout=subprocess.PIPE, text=True, **where)
        with Relay(int(between.stdout.readline().split()[1])) as relay:
            done = client(relay.port)
            counts.check("a walk by way of Erlang's packets finds all", is_whole_walk(done.stdout), done.stdout + done.stderr)
            report("erlang_packets", f"Erlang {number}, gen_tcp with tpkt", "client and server, each packet cut by Erlang",
                   relay.longest(), "release", room)
    if "megaco_side" in modules:
        with Programs() as programs:
            _, port = programs.server()
            with Relay(port) as relay:
                run([*words, "-s", "megaco_side", "main", "-to", str(relay.port)], 30, **where)
                report("megaco", f"Erlang {version('erlang-megaco') or ''}, megaco_tcp", "server (text in packets, no TPDU)",
                       relay.longest(), "nothing", room, 2944)


# ---- snap7: class 0 with the data of S7

# Its library, whose functions and numbers of parameters snap7.h has: 2 is the port that a client calls, 1 that of a server.
SNAP7 = r"""
import ctypes, sys, time
library, port = ctypes.CDLL("libsnap7.so.1"), ctypes.c_uint16(int(sys.argv[2]))
library.Cli_Create.restype = library.Srv_Create.restype = ctypes.c_void_p
if sys.argv[1] == "client":
    peer = ctypes.c_void_p(library.Cli_Create())
    library.Cli_SetParam(peer, 2, ctypes.byref(port))
    text = ctypes.create_string_buffer(1024)
    status = library.Cli_ConnectTo(peer, b"127.0.0.1", 0, 1) or library.Cli_DBRead(peer, 1, 0, 1, text)
    library.Cli_ErrorText(status, text, 1024)
    print(text.value.decode())
if sys.argv[1] == "server":
    peer = ctypes.c_void_p(library.Srv_Create())
    library.Srv_SetParam(peer, 1, ctypes.byref(port))
    if library.Srv_StartTo(peer, b"127.0.0.1") == 0:
        time.sleep(60)
"""


def snap7(room):
    """The client and the server of snap7's library."""
    if run([sys.executable, "-c", SNAP7, "nobody", "0"]).returncode != 0:
        counts.skip("snap7, as client and as server", "package libsnap7-1 of Debian 13 (docs/INTEROP.md)")
        return
    name = f"snap7 {version('libsnap7-1') or ''}"
    with Programs() as programs:
        _, port = programs.server()
        with Relay(port) as relay:
            done = run([sys.executable, "-c", SNAP7, "client", str(relay.port)], 20)
            counts.check("snap7's client reads nothing", done.returncode == 0 and done.stdout.strip() not in ("", "OK"), done.stdout)
            report("snap7_client", f"{name}, client", f"server ({S7})", relay.longest(), "transport", room)
        port = peers.free_port()
        made = programs.start([sys.executable, "-c", SNAP7, "server", str(port)])
        if counts.check("snap7's server starts", peers.waits_for(port, 20, made)):
            with Relay(port) as relay:
                done = client(relay.port, "--wait", "5")
                counts.check("snap7's server has no association for the client", done.returncode in (1, 3), done.stdout)
                report("snap7_server", f"{name}, server", f"client ({S7})", relay.longest(), "transport", room)


# ---- a stand-in

STAND_INS, STANDS_IN = os.path.join(TOP, "trials", "stand_ins"), "-stand-in"


def by_stand_ins(room):
    """The steps of this script with nmap's MMS script, by a program that sends what that script sends first."""
    known = dict(os.environ)
    os.environ.update(PATH=f"{STAND_INS}:{os.environ['PATH']}", NMAPDIR=STAND_INS, PYTHONDONTWRITEBYTECODE="1")
    try:
        nmap(room)
    finally:
        os.environ.clear()
        os.environ.update(known)


# ---- what is kept

# The captures in the repository: those of others as far as their licences allow, and one of ours, whose octets are the
# same in each run.
STORED = ["freerdp_client", "freerdp_shadow_bare", "freerdp_xrdp", "megaco", "mms_jobs", "xrdp", "xrdp_bare"]


def compare_captures(room):
    """The captures of examples/captures are listed, and read by tshark, as the files next to them say."""
    for name in captures.stored():
        captures.compare(name, room, counts)
    if "mms_jobs" in captured:
        kept = captures.pieces_of("mms_jobs")
        counts.check("an association has the octets of examples/captures/mms_jobs", all(
            peers.direction(kept, calls) == peers.direction(captured["mms_jobs"], calls) for calls in (True, False)))


def write_captures(room):
    """Writes the captures of this run, and what osi and tshark print of all."""
    for name in STORED:
        if captured.get(name):
            captures.store(name, captured[name])
    for name in captures.stored():
        captures.describe(name, room)


PARTS = {"ourselves": ourselves, "words": words_that_are_wrong, "nmap": nmap, "freerdp": freerdp, "xrdp": xrdp,
         "erlang": erlang, "snap7": snap7, "stand-ins": by_stand_ins, "captures": compare_captures}


def main(words):
    keep = words[words.index("--keep") + 1] if "--keep" in words else None
    wanted = [word for word in words if word in PARTS] or list(PARTS)
    peers.build()
    if not seen_by_tshark:
        counts.skip("what tshark says", "package tshark")
    with peers.room() as room:
        for name in wanted:
            if name == "captures" and "--write" in words:
                write_captures(room)
            PARTS[name](room)
        if keep:
            os.makedirs(keep, exist_ok=True)
            for path in glob.glob(f"{room}/*.pcap"):
                shutil.copy(path, keep)
    return counts
