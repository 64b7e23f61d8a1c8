"""Lists the functions of a library in which a value with many parts goes out of scope, which makes their proofs dear.

  python3 tools/proofs drops CRATE..     of these libraries, as `make` and `make lib` build them
  python3 tools/proofs drops             of all that are built

Such a value is taken apart in line, with a step of the proof for each of its parts, on each way out of the function. A call of
`drop` before the way out is one step (docs/PROVING.md). A line has how many such steps a function has, if there are five or more.
"""
import json
import os
import re
import sys

from antt import TOP

LIBRARIES = f"{TOP}/build/libraries"
# A call of the destructor of a part. The destructor of a type by itself, which `drop` calls, has a name of its own.
PART, OF_A_TYPE = re.compile(r'"Fn": \["[^"]*::drop"'), re.compile(r"\+Destruct::drop$|::drop$")
LEAST = 5


def functions_of(crate):
    """The functions of a built library, each with how many parts of values are dropped in it."""
    with open(f"{LIBRARIES}/{crate}/{crate}.rlib/toolchain/mir.json", encoding="utf-8") as file:
        for name, function in json.load(file):
            yield len(PART.findall(json.dumps(function["body"]))), name


def main(words):
    built = sorted(os.listdir(LIBRARIES)) if os.path.isdir(LIBRARIES) else []
    for crate in words or built:
        if not os.path.exists(f"{LIBRARIES}/{crate}/{crate}.rlib"):
            if words:
                sys.exit(f"tools/proofs: no library {crate} is built: `make` or `make lib` builds those that it needs")
            continue
        for count, name in sorted(functions_of(crate), reverse=True):
            if count >= LEAST and not OF_A_TYPE.search(name):
                print(f"{count:4} {name}")
