"""Compiles the examples in the heads of the crates: each is a function of one crate, which `rt try` builds. It proves nothing.

An example is a fenced text in the comment at the head of src/lib.rt or src/main.rt. EXAMPLES has, for each fence of a crate, what an
example leaves out: imports and parameters; or TEXT if it is no code, as a listing. In an example

- an expression in a line of its own counts as a statement, and `..` in place of a block or a value stands for an empty one;
- each `?` may have an error of its own (ERRORS): the function ends with `Failed`.

What compiled once isn't compiled again before a source changes: build/heads keeps a sum of all that was read.
"""
import glob
import hashlib
import os
import re
import shutil
import tempfile

from checks import TOP, check, read, run, skip

CRATE, KEPT = "osi_heads", f"{TOP}/build/heads"
FENCE = re.compile(r"^//! ```\w*\n(.*?)^//! ```$", re.M | re.S)
TEXT = None
EXAMPLES = {
    "osi_unit": [("osi_spdu::Group osi_unit::Unit", "octets: &[u8]")],
    "osi_tpkt": [("osi_tpkt::Cutter", "alloc: Global, piece: &[u8]")],
    "osi_tpdu": [("osi_tpdu::{Tpdu,read_units}", "packet: &[u8]")],
    "osi_class": [("osi_class::{AnyLink,Link} osi_tpdu::Tpdu", "mut link: AnyLink, octets: &[u8], unit: Tpdu")],
    "osi_carrier": [("osi_carrier::{Carrier,Event} osi_class::Local", "alloc: Global, local: Local, piece: &[u8]")],
    "osi_spdu": [("bytes::BytesMut osi_spdu::{Group,Kind,Spdu,read_tsdu,write_tsdu}",
                  "octets: &[u8], user_data: &[u8], mut out: BytesMut")],
    "osi_message": [("osi_message::{Message,Sent} osi_spdu::{Serial,TsduSize,read_tsdu}",
                     "alloc: Global, octets: &[u8], limit: TsduSize, number: Serial, user_data: &[u8]")],
    "osi_session": [("osi_session::{Opening,Request,Session}", "alloc: Global, opening: Opening, user_data: &[u8], tsdu: &[u8]")],
    "osi_stack": [("osi_class::Local osi_session::Request osi_stack::{Connect,Stack} std::io::Write",
                   "alloc: Global, local: Local, asked: Connect, mut socket: impl Write + Drop, mut rest: &[u8], user_data: &[u8]")],
    "osi_machine": [TEXT],
    "osi_pair": [("osi_class::Local osi_pair::{Event,Pair,Side} osi_stack::Connect",
                  "alloc: Global, left: Local, right: Local, asked: Connect")],
    "osi_rules": [("osi_rules::{Direction,Finding,Traffic} osi_tpdu::read_units", "alloc: Global, packet: &[u8]")],
    "osi_side": [("osi_side::{Finding,Side}", "alloc: Global, connect: &[u8], accept: &[u8]")],
    "osi_judge": [("osi_judge::{Direction,Found,Judge}", "alloc: Global, piece: &[u8]")],
    "osi_listing": [TEXT, ("osi_listing::Trace", "alloc: Global, piece: &[u8], used: usize")],
    "osi_script": [TEXT],
    "osi_transcript": [("osi_transcript::transcribe", "alloc: Global, script: &[u8]")],
    "osi_report": [("osi_report::judge_text", "alloc: Global"), ("osi_report::Hearing", "alloc: Global"), TEXT],
    "osi_witness": [("osi_witness::witness_of", "alloc: Global, text: &[u8]"), ("osi_witness::Capture osi_script::Side", "alloc: Global, octets: &[u8]")],
    "osi_tool": [TEXT],
}
ERRORS = ["osi_carrier::OpenError", "osi_carrier::SendError", "osi_class::LinkFault", "osi_listing::CaptureFault",
          "osi_pair::PairError", "osi_session::CallError", "osi_side::TellError", "osi_spdu::SpduFault", "osi_stack::ConnectError",
          "osi_tpdu::TpduFault", "osi_tpkt::TpktFault", "std::alloc::AllocError", "std::io::Error"]
# What the crates above use in their own signatures.
OTHERS = {"bitflags", "bytes", "thiserror"}
MAIN = """#![tactic(auto)]
{}
use std::process::ExitCode;

fn main(rt: HostRuntime) -> ExitCode {{
    ExitCode::from(0)
}}
"""
FROM = """impl From<{0}> for Failed {{
    fn from(_: {0}) -> Self {{
        Failed
    }}
}}
"""


def head_of(crate):
    """The comment at the head of a crate."""
    root = next(path for name in ("lib", "main") for path in [f"crates/{crate}/src/{name}.rt"] if os.path.exists(f"{TOP}/{path}"))
    return re.match(r"(//!.*\n)*", read(root)).group()


def examples():
    """The texts in the heads, by crate."""
    found = {crate: FENCE.findall(head_of(crate)) for crate in re.findall(r"^(osi_\w+)", read("crates.txt"), re.M)}
    return {crate: texts for crate, texts in found.items() if texts}


def statement(line):
    """A line of an example as a line of a function."""
    code = re.sub(r"\s*// .*", "", line.removeprefix("//!").removeprefix(" "))
    code = code.replace("=> ..,", "=> {}").replace("{ .. }", "{}")
    return code + (";" if code.strip() and not re.search(r"[{};,]$", code) else "")


def function(text, frame):
    """An example as a module with one function."""
    imports, parameters = frame
    names = ["crate::failed::Failed", *imports.split(), *(["std::alloc::Global"] if "Global" in parameters else [])]
    return "".join(f"use {name};\n" for name in names) + \
        f"\npub fn example({parameters}) -> Result<(), Failed> {{\n" + "\n".join(map(statement, text.splitlines())) + "\n    Ok(())\n}\n"


def modules(found):
    """The modules of the crate of examples, by name."""
    made = {"failed": "pub struct Failed;\n" + "".join(map(FROM.format, ERRORS))}
    for crate, texts in found.items():
        for number, (text, frame) in enumerate(zip(texts, EXAMPLES[crate]), 1):
            if frame:
                made[f"{crate}_{number}"] = function(text, frame)
    made["main"] = MAIN.format("\n".join(f"mod {name};" for name in made))
    return made


def lay_out(room, made):
    """A workspace in a folder: the sources of the crates without proofs, and the crate of examples. Returns a sum of all of it."""
    for path in glob.glob(f"{TOP}/crates/*/src"):
        shutil.copytree(path, f"{room}/{os.path.relpath(path, TOP)}")
    os.makedirs(f"{room}/crates/{CRATE}/src")
    for name, text in made.items():
        with open(f"{room}/crates/{CRATE}/src/{name}.rt", "w", encoding="utf-8") as file:
            file.write(text)
    used = {name for text in made.values() for name in re.findall(r"(?:use |<)(osi_\w+|bytes)::", text)}
    with open(f"{room}/crates.txt", "w", encoding="utf-8") as file:
        file.write(f"{read('crates.txt')}{CRATE}: {' '.join(sorted(used | OTHERS))}\n")
    total = hashlib.sha256(run(["rt", "version"], TOP).stdout.encode())
    for path in sorted(glob.glob(f"{room}/**/*.*", recursive=True)):
        with open(path, "rb") as file:
            total.update(os.path.relpath(path, room).encode() + file.read())
    return total.hexdigest()


def check_heads(may_build):
    """The examples in the heads of the crates compile."""
    found = examples()
    known = {crate: len(frames) for crate, frames in EXAMPLES.items()}
    wrong = {crate for crate in {*found, *known} if len(found.get(crate, ())) != known.get(crate, 0)}
    if not check("tools/pages/heads.py knows the examples in the heads of the crates", not wrong, ", ".join(sorted(wrong))):
        return
    made = modules(found)
    what = f"{len(made) - 2} examples in the heads of the crates compile"
    if not shutil.which("rt"):
        skip(what, "there is no rt")
        return
    with tempfile.TemporaryDirectory() as room:
        total = lay_out(room, made)
        if os.path.exists(KEPT) and read(KEPT) == total:
            check(what, True)
        elif may_build:
            done = run(["rt", "try"], f"{room}/crates/{CRATE}")
            if check(what, done.returncode == 0, done.stdout + done.stderr):
                os.makedirs(os.path.dirname(KEPT), exist_ok=True)
                with open(KEPT, "w", encoding="utf-8") as file:
                    file.write(total)
        else:
            skip(what, "`scripts/pages` without --quick compiles them")
