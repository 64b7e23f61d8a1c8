"""An end over TLS: builds examples/gateway/tls.c if OpenSSL is there, and runs it with the certificates that a side awaits, and
with others."""
import os
import shutil
import subprocess

CERTIFICATES = os.path.join(os.path.dirname(__file__), "..", "..", "examples", "gateway", "certificates.sh")


def build(compiler, words, to, missing):
    """Compiles the example, or says that the headers of OpenSSL 3 or its program are missing."""
    probe = "#include <openssl/ssl.h>\n#if OPENSSL_VERSION_NUMBER < 0x30000000L\n#error\n#endif\n"
    found = subprocess.run([compiler, "-fsyntax-only", "-x", "c", "-"], input=probe, text=True, capture_output=True)
    if found.returncode != 0 or not shutil.which("openssl"):
        missing.append("OpenSSL")
        return
    subprocess.run([compiler, *words, "-lssl", "-lcrypto", "-o", to], check=True)


def pair(program, room, server, client, awaits_client, awaits_server, *more):
    """Runs a server and a client, each with its certificate, its authority and the name that it awaits: their output and status."""
    def words(side, own, believes, awaits):
        return [program, "--side", side, "--certificate", f"{room}/{own}.pem", "--key", f"{room}/{own}.key", "--authority",
                f"{room}/{believes}.pem", "--peer", awaits, "--wait", "60"]
    here = subprocess.Popen([*words("server", server, "authority", awaits_client), "--port", "0"], stdout=subprocess.PIPE, text=True)
    port = here.stdout.readline().split()[1]
    there = subprocess.run([*words("client", client, "authority", awaits_server), "--port", port, *more], capture_output=True, text=True,
                           timeout=120)
    said, _ = here.communicate(timeout=120)
    return said.splitlines(), here.returncode, there.stdout.splitlines(), there.returncode


def runs(program, room):
    """For each run: what it tests, whether that holds, and what the programs printed."""
    for names in (("authority", "gateway.example", "centre.example"), ("another", "stranger.example")):
        subprocess.run(["sh", os.path.abspath(CERTIFICATES), *names], cwd=room, check=True)
    said = pair(program, room, "gateway.example", "centre.example", "centre.example", "gateway.example", "--octets", "1000000")
    server, status, client, other = said
    holds = (status, other) == (0, 0) and server[1:] == [
        "a connection is asked for: who is there?", "data: 1000000 octets", "a release is asked for"]
    holds = holds and client[1:] == ["connected: a gateway", "released"]
    holds = holds and server[:1] == ["TLSv1.3 with centre.example"] and client[:1] == ["TLSv1.3 with gateway.example"]
    yield "two ends talk over TLS, and each knows the other's certificate", holds, str(said)
    for what, client, awaits_client, awaits_server, by in (
            ("a client of another authority causes no indication", "stranger.example", "stranger.example", "gateway.example", 0),
            ("a client of another name causes no indication", "centre.example", "others.example", "gateway.example", 0),
            ("a server of another name is told nothing", "centre.example", "centre.example", "others.example", 2)):
        said = pair(program, room, "gateway.example", client, awaits_client, awaits_server)
        why = "unable to get local issuer certificate" if client.startswith("stranger") else "hostname mismatch"
        shown = [line for line in said[0] + said[2] if not line.startswith(("no session: ", "TLSv1.3 "))]
        yield what, said[1] == said[3] == 3 and said[by] == [f"no session: {why}"] and not shown, str(said)
