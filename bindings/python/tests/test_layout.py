"""Compares each struct and each number with what the C compiler says of include/osi.h, by the program
bindings/layout.c; and the names in that program, here, in osi.hpp and in the crate with the header."""
import ctypes
import os
import re
import shutil
import subprocess
import tempfile
import unittest

import osi_session
from osi_session import _library, _values

TOP = os.path.dirname(os.path.dirname(os.path.dirname(os.path.dirname(os.path.abspath(__file__)))))
HEADER, PROGRAM = os.path.join(TOP, "include", "osi.h"), os.path.join(TOP, "bindings", "layout.c")
CC = os.environ.get("CC", "cc")

# The prefix that the members of each enumeration have in osi.h.
PREFIXES = {
    osi_session.Code: "OSI_",
    osi_session.Classes: "OSI_",
    osi_session.Units: "OSI_",
    osi_session.Tokens: "OSI_TOKEN_",
    osi_session.Side: "OSI_",
    osi_session.Refusal: "OSI_REFUSAL_",
    osi_session.Phase: "OSI_PHASE_",
    osi_session.Reason: "OSI_END_",
    osi_session.Trace: "OSI_TRACE_",
    osi_session.Direction: "OSI_",
    osi_session.JudgedSide: "OSI_",
    osi_session.VerdictKind: "OSI_VERDICT_",
    osi_session.Rule: "OSI_RULE_",
    osi_session.Said: "OSI_SAID_",
}
# The functions that this package calls, by the kind of their first argument.
PARTS = (_library.FUNCTIONS, _library.JUDGES, _library.LINES, _library.TEXTS)
# Members that stand for more than one number, or for none, and so have no name in C.
JOINED = {("Classes", "BOTH"), ("Classes", "NONE"), ("Units", "NONE"), ("Tokens", "NONE")}


def header():
    """The text of osi.h, without its comments."""
    with open(HEADER, encoding="utf-8") as file:
        return re.sub(r"/\*.*?\*/", "", file.read(), flags=re.DOTALL)


def structs():
    """The fields of each struct of osi.h."""
    found = re.findall(r"^typedef struct (\w+) \{(.*?)^\} \1;", header(), re.MULTILINE | re.DOTALL)
    return {name: re.findall(r"(\w+)(?:\[\d+\])?;", re.sub(r"\{.*?\}", "", body, flags=re.DOTALL)) for name, body in found}


def functions():
    """The functions that the library has; those of the header itself are static."""
    return set(re.findall(r"^(?:uint32_t|uint8_t|size_t|bool|void|const char) \*?(osi_\w+)\(", header(), re.MULTILINE))


def numbers():
    """All numbers of the header but its own version, which is another with each."""
    return set(re.findall(r"^#define (OSI_\w+) (?:\d|0x)", header(), re.MULTILINE)) - {"OSI_VERSION_NUM"}


def sections():
    """The numbers of the header by the function that names them, each with its name."""
    found = {function: {} for function in _library.TEXTS if function != "osi_version"}
    function = None
    for line in header().splitlines():
        number = re.match(r"#define (OSI_\w+) (\d+)u\b", line)
        if not number:
            continue
        name, value = number.group(1), int(number.group(2))
        begins = {"OSI_OK": "osi_code_name", "OSI_CLASS_0": None, "OSI_NONE": "osi_indication_name",
                  "OSI_END_NONE": "osi_end_name", "OSI_PHASE_NONE": "osi_phase_name", "OSI_TRACE_OFF": None,
                  "OSI_LEFT": None, "OSI_VERDICT_NONE": "osi_verdict_name", "OSI_RULE_NONE": "osi_rule_name",
                  "OSI_SAID_NOTHING": "osi_said_name", "OSI_VERDICT_TEXT": None}
        function = begins.get(name, function)
        if function:
            found[function][value] = name
    return found


def capitals(name):
    """MinorConfirmed as MINOR_CONFIRMED."""
    return re.sub(r"(?<!^)(?=[A-Z])", "_", name).upper()


@unittest.skipUnless(os.path.exists(PROGRAM) and shutil.which(CC), "no C compiler, or no bindings/layout.c")
class Layout(unittest.TestCase):
    @classmethod
    def setUpClass(cls):
        with tempfile.TemporaryDirectory() as room:
            program = os.path.join(room, "layout")
            subprocess.run([CC, "-I", os.path.join(TOP, "include"), PROGRAM, "-o", program], check=True)
            text = subprocess.run([program], capture_output=True, text=True, check=True).stdout
        cls.lines = {"struct": {}, "field": {}, "value": {}}
        for line in text.splitlines():
            kind, name, *numbers = line.split()
            cls.lines[kind][name] = tuple(map(int, numbers))

    def test_the_program_says_all_of_the_header(self):
        fields = {f"{name}.{field}" for name, all_of_it in structs().items() for field in all_of_it}
        self.assertEqual(numbers(), set(self.lines["value"]))
        self.assertEqual(set(structs()), set(self.lines["struct"]))
        self.assertEqual(fields, set(self.lines["field"]))

    def test_structs(self):
        here = {name: (ctypes.sizeof(s), ctypes.alignment(s)) for name, s in _library.STRUCTS.items()}
        self.assertEqual(here, self.lines["struct"])

    def test_fields(self):
        here = {}
        for name, struct in _library.STRUCTS.items():
            for field, *_ in struct._fields_:
                place = getattr(struct, field)
                here[f"{name}.{field}"] = (place.offset, place.size)
        self.assertEqual(here, self.lines["field"])

    def test_enumerations(self):
        of_c = {name: number for name, (number,) in self.lines["value"].items()}
        seen = set()
        for kind, prefix in PREFIXES.items():
            for member, value in kind.__members__.items():
                if (kind.__name__, member) not in JOINED:
                    self.assertEqual(of_c[prefix + member], value, f"{kind.__name__}.{member}")
                    seen.add(prefix + member)
        tags = self.tags()
        self.assertEqual(seen | set(tags), set(of_c) - {"OSI_NONE", "OSI_END_NONE", "OSI_VERDICT_TEXT"})
        self.assertEqual({of_c[name] for name in tags}, set(_values.KINDS))

    def tags(self):
        """The names of all indications in C, each looked up by what its number makes."""
        names = {}
        for tag, made in _values.KINDS.items():
            said = _library.IndicationOfC(tag=tag)
            said.fault.fault = 2
            name = "OSI_" + capitals(type(made(said, b"")).__name__)
            self.assertEqual(self.lines["value"][name], (tag,))
            names[name] = tag
        return names


@unittest.skipUnless(os.path.exists(HEADER), "no include/osi.h")
class Names(unittest.TestCase):
    """That nothing of the header is left out."""

    def words(self, *path):
        with open(os.path.join(TOP, *path), encoding="utf-8") as file:
            return set(re.findall(r"\w+", file.read()))

    def test_here(self):
        self.assertEqual(functions(), {name for part in PARTS for name in part})

    def test_in_the_library(self):
        for name in (name for part in PARTS for name in part):
            self.assertTrue(hasattr(_library.library(), name), name)

    def test_each_number_has_its_name(self):
        for function, names in sections().items():
            self.assertGreater(len(names), 5, function)
            for number in (*range(300), 1 << 31, (1 << 32) - 1):
                told = getattr(_library.library(), function)(number).decode()
                self.assertEqual(told, names.get(number, "unknown"), f"{function}({number})")

    def test_the_version(self):
        # Before a release both have its number, and say so in the form that is usual in their language.
        self.assertEqual(osi_session.library_version().replace("-dev", ".dev0"), osi_session.__version__)

    def test_in_osi_hpp(self):
        wanted = {name.replace("_with_size", "") for name in functions()} | numbers()
        self.assertEqual(wanted - self.words("include", "osi.hpp"), set())

    def test_in_the_crate(self):
        wanted = (functions() | set(structs())) - {name for name in functions() if name.endswith("_name")}
        self.assertEqual(wanted - self.words("bindings", "rust", "src", "ffi.rs"), set())


if __name__ == "__main__":
    unittest.main()
