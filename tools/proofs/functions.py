"""Lists the functions whose proofs took longest in the last check of a crate from nothing.

  python3 tools/proofs functions CRATE [COUNT]

After the seconds of each function it says which part of them its goals and answers took (`goals`) and which part the borrow
checker (`borrows`), which proofs don't change. A file of lemmas has neither.

It takes the times at which `rt check --jobs 1` wrote each proof to crates/CRATE/out/incremental, so it counts by the clock. If
the crate was checked in pieces, remove its out/ and check it again first.
"""
import os
import re
import sys
from collections import Counter

from antt import TOP

# A longer pause between two proofs is one between two checks, in seconds.
PAUSE = 120
# What a check writes for a function, by the name of the file: the goals that it has to prove and the answers to them, and what
# the borrow checker makes of its code.
PARTS = {"Proof": "goals", "Answers": "goals", "Goals": "goals", "Lts": "borrows"}


def parts_that_ended(folder):
    """How long each proof took by the clock that a check wrote to a folder, whose it is, and which part of it, in their order."""
    ended = []
    for at, _, names in os.walk(folder):
        ended += [(os.stat(f"{at}/{name}").st_mtime_ns / 1e9, name) for name in names if name.endswith(".oantt")]
    ended.sort()
    return [(after - before, *owner_of(name)) for (before, _), (after, name) in zip(ended, ended[1:]) if after - before < PAUSE]


def owner_of(name):
    """`Rattle-osi_spdu-proofs.params.Params.slot.Proof.oantt` is of params::Params::slot, and a part of its goals."""
    path = re.sub(r"^Rattle-\w+-|(\.decls)?\.oantt$", "", name).split(".")
    is_part = len(path) > 2 and path[-1][0].isupper() and path[0] == "proofs"
    return "::".join(path[1:-1] if is_part else path), PARTS.get(path[-1], "") if is_part else ""


def main(words):
    if not words:
        sys.exit(__doc__.strip())
    seconds, parts = Counter(), Counter()
    for spent, function, part in parts_that_ended(f"{TOP}/crates/{words[0]}/out/incremental"):
        seconds[function] += spent
        parts[function, part] += spent
    for name, spent in seconds.most_common(int(words[1]) if len(words) > 1 else 10):
        shares = ", ".join(f"{it} {parts[name, it]:.1f}" for it in ("goals", "borrows") if parts[name, it])
        print(f"{spent:7.1f} s  {name}{shares and f' ({shares})'}")
