"""The library for C, over ctypes: its functions, and its structs in the layout of include/osi.h."""
from __future__ import annotations

import ctypes
import importlib
import os
import shutil
import subprocess
from ctypes import POINTER, c_bool, c_char_p, c_size_t, c_uint8, c_uint16, c_uint32, c_uint64, c_void_p
from typing import Any, Dict, Iterator, List, Optional, Tuple

VERSION = "0.2.0.dev0"
# The file name of the shared library for programs of this version: its soname.
NAME = "libosi-session.so." + ".".join(VERSION.split(".")[: 2 if VERSION.startswith("0.") else 1])


class Inner(ctypes.Structure):
    _fields_ = [("at", c_void_p)]


class Slot(ctypes.Structure):
    """osi_end: a slot that holds one end, or none. It begins as zeros, which is OSI_END."""

    _fields_ = [("full", c_bool), ("inner", Inner)]


class JudgeSlot(ctypes.Structure):
    """osi_judge: a slot that holds the judge of a byte connection, or none. It begins as zeros, which is OSI_JUDGE."""

    _fields_ = [("full", c_bool), ("inner", Inner)]


class Octets(ctypes.Structure):
    _fields_ = [("at", c_void_p), ("length", c_size_t)]


class TermsOfC(ctypes.Structure):
    _fields_ = [("classes", c_uint8), ("size", c_uint8), ("window", c_uint8)]


class SidesOfC(ctypes.Structure):
    _fields_ = [("data", c_uint8), ("minor", c_uint8), ("major", c_uint8), ("release", c_uint8)]


class OpeningOfC(ctypes.Structure):
    _fields_ = [
        ("requirements", c_uint16),
        ("serial", c_uint32),
        ("wishes", SidesOfC),
        ("calling_tsap", Octets),
        ("called_tsap", Octets),
        ("calling_selector", Octets),
        ("called_selector", Octets),
        ("user_data", Octets),
        ("size_from_asker", c_uint16),
        ("size_from_answerer", c_uint16),
    ]


class FaultOfC(ctypes.Structure):
    _fields_ = [
        ("fault", c_uint8),
        ("si", c_uint8),
        ("spelling", c_uint8),
        ("parameter", c_uint8),
        ("offset", c_uint64),
    ]


class IndicationOfC(ctypes.Structure):
    _fields_ = [
        ("tag", c_uint32),
        ("number", c_uint32),
        ("reference", c_uint16),
        ("requirements", c_uint16),
        ("has_number", c_uint8),
        ("confirm", c_uint8),
        ("tokens", c_uint8),
        ("reason", c_uint8),
        ("sides", SidesOfC),
        ("fault", FaultOfC),
        ("user_data", Octets),
        ("size_from_asker", c_uint16),
        ("size_from_answerer", c_uint16),
    ]


class FedOfC(ctypes.Structure):
    _fields_ = [("used", c_size_t), ("waits", c_bool)]


class TsapOfC(ctypes.Structure):
    _fields_ = [("octets", c_uint8 * 32), ("length", c_uint8)]


class SelectorOfC(ctypes.Structure):
    _fields_ = [("octets", c_uint8 * 16), ("length", c_uint8)]


class AddressingOfC(ctypes.Structure):
    _fields_ = [
        ("calling_tsap", TsapOfC),
        ("called_tsap", TsapOfC),
        ("calling_selector", SelectorOfC),
        ("called_selector", SelectorOfC),
    ]


class TallyOfC(ctypes.Structure):
    _fields_ = [
        ("octets", c_uint64),
        ("packets", c_uint64),
        ("units", c_uint64),
        ("tsdus", c_uint64),
        ("session_units", c_uint64),
        ("refused", c_uint64),
    ]


class CountersOfC(ctypes.Structure):
    _fields_ = [("received", TallyOfC), ("sent", TallyOfC)]


class VerdictOfC(ctypes.Structure):
    _fields_ = [
        ("offset", c_uint64),
        ("connection", c_uint64),
        ("kind", c_uint32),
        ("side", c_uint32),
        ("by", c_uint32),
        ("rule", c_uint32),
        ("said", c_uint32),
        ("left", c_uint16),
        ("right", c_uint16),
    ]


# OSI_NO_CONNECTION
NO_CONNECTION = 2**64 - 1
# OSI_VERDICT_TEXT
VERDICT_TEXT = 96

STRUCTS = {
    "osi_end": Slot,
    "osi_octets": Octets,
    "osi_terms": TermsOfC,
    "osi_sides": SidesOfC,
    "osi_opening": OpeningOfC,
    "osi_fault": FaultOfC,
    "osi_indication": IndicationOfC,
    "osi_fed": FedOfC,
    "osi_tsap": TsapOfC,
    "osi_selector": SelectorOfC,
    "osi_addressing": AddressingOfC,
    "osi_tally": TallyOfC,
    "osi_counters": CountersOfC,
    "osi_judge": JudgeSlot,
    "osi_verdict": VerdictOfC,
}

_DATA = [c_void_p, c_size_t]
# The arguments of each function after the slot, and what it returns.
FUNCTIONS: Dict[str, Tuple[List[Any], Any]] = {
    "osi_caller": ([POINTER(TermsOfC)], c_uint32),
    "osi_called": ([POINTER(TermsOfC)], c_uint32),
    "osi_free": ([], None),
    "osi_connect_with_size": ([POINTER(OpeningOfC), c_size_t, POINTER(c_uint16)], c_uint32),
    "osi_accept": ([c_uint16, c_uint16, c_uint32, POINTER(SidesOfC), *_DATA], c_uint32),
    "osi_accept_sized": (
        [c_uint16, c_uint16, c_uint32, POINTER(SidesOfC), c_uint16, c_uint16, *_DATA],
        c_uint32,
    ),
    "osi_refuse": ([c_uint16, *_DATA], c_uint32),
    "osi_refuse_with": ([c_uint16, c_uint8, *_DATA], c_uint32),
    "osi_data": ([c_uint16, *_DATA], c_uint32),
    "osi_give": ([c_uint16, c_uint8], c_uint32),
    "osi_please": ([c_uint16, c_uint8, *_DATA], c_uint32),
    "osi_minor": ([c_uint16, c_uint8, *_DATA], c_uint32),
    "osi_minor_confirm": ([c_uint16, c_uint32, *_DATA], c_uint32),
    "osi_major": ([c_uint16, *_DATA], c_uint32),
    "osi_major_confirm": ([c_uint16, *_DATA], c_uint32),
    "osi_restart": ([c_uint16, c_uint32, POINTER(SidesOfC), *_DATA], c_uint32),
    "osi_restart_confirm": ([c_uint16, POINTER(SidesOfC), *_DATA], c_uint32),
    "osi_release": ([c_uint16, *_DATA], c_uint32),
    "osi_release_accept": ([c_uint16, *_DATA], c_uint32),
    "osi_release_refuse": ([c_uint16, *_DATA], c_uint32),
    "osi_abort": ([c_uint16, *_DATA], c_uint32),
    "osi_disconnect": ([c_uint16], c_uint32),
    "osi_feed": ([c_void_p, c_size_t, POINTER(FedOfC)], c_uint32),
    "osi_outgoing": ([POINTER(Octets)], None),
    "osi_wants_write": ([], c_bool),
    "osi_taken": ([c_size_t], c_uint32),
    "osi_broken": ([], c_uint32),
    "osi_ended": ([POINTER(c_uint64)], c_uint32),
    "osi_is_over": ([], c_bool),
    "osi_kept": ([], c_size_t),
    "osi_unsent": ([c_uint16], c_size_t),
    "osi_backlog": ([], c_size_t),
    "osi_live": ([], c_size_t),
    "osi_fetch": ([], c_uint32),
    "osi_last_with_size": ([POINTER(IndicationOfC), c_size_t], None),
    "osi_phase": ([c_uint16], c_uint32),
    "osi_held": ([c_uint16], c_uint8),
    "osi_next_serial": ([c_uint16], c_uint32),
    "osi_confirmed_below": ([c_uint16], c_uint32),
    "osi_lowest_restart": ([c_uint16], c_uint32),
    "osi_addresses": ([c_uint16, POINTER(AddressingOfC)], c_uint32),
    "osi_trace": ([c_uint32], c_uint32),
    "osi_trace_fetch": ([c_uint32], c_uint32),
    "osi_trace_lines": ([POINTER(Octets)], None),
    "osi_counts": ([POINTER(CountersOfC)], None),
}
# The same for the functions that take the slot of a judge.
JUDGES: Dict[str, Tuple[List[Any], Any]] = {
    "osi_judge_new": ([], c_uint32),
    "osi_judge_free": ([], None),
    "osi_judge_feed": ([c_uint32, *_DATA, POINTER(c_size_t)], c_uint32),
    "osi_judge_next": ([POINTER(VerdictOfC)], c_uint32),
    "osi_judge_verdict": ([c_uint64, c_uint32, POINTER(VerdictOfC)], c_uint32),
    "osi_judge_connections": ([POINTER(c_uint64)], c_uint32),
    "osi_judge_write": ([], c_uint32),
    "osi_judge_text": ([POINTER(Octets)], None),
}
# The same for the function that takes a verdict in place of a slot.
LINES: Dict[str, Tuple[List[Any], Any]] = {
    "osi_verdict_text": ([c_char_p, c_size_t], c_size_t),
}
# The argument of each function that needs no slot and returns a text.
TEXTS: Dict[str, List[Any]] = {
    "osi_version": [],
    "osi_code_name": [c_uint32],
    "osi_indication_name": [c_uint32],
    "osi_phase_name": [c_uint32],
    "osi_end_name": [c_uint32],
    "osi_verdict_name": [c_uint32],
    "osi_rule_name": [c_uint32],
    "osi_said_name": [c_uint32],
}


class LibraryNotFound(ImportError):
    """The shared library libosi-session.so was not found in any of the places."""


def _named() -> Optional[list[str]]:
    """The place of the library that the environment names."""
    path = os.environ.get("OSI_SESSION_LIBRARY")
    if path:
        return [path]
    folder = os.environ.get("OSI_SESSION_DIR")
    if folder:
        return [os.path.join(folder, NAME), os.path.join(folder, "lib", NAME)]
    return None


def _by_pkg_config() -> Iterator[str]:
    program = os.environ.get("PKG_CONFIG", "pkg-config")
    if shutil.which(program):
        done = subprocess.run([program, "--variable=libdir", "osi-session"], capture_output=True, text=True, check=False)
        if done.returncode == 0:
            yield os.path.join(done.stdout.strip(), NAME)


def _places() -> Iterator[str]:
    """The places where the library may be: the one that the environment names, else this package, if its wheel has the
    library, else those that the loader and pkg-config find."""
    named = _named()
    if named is not None:
        yield from named
        return
    inside = os.path.join(os.path.dirname(os.path.abspath(__file__)), NAME)
    yield inside if os.path.exists(inside) else NAME
    yield from _by_pkg_config()


def native() -> Optional[Any]:
    """The module in C, unless there is none for this Python or OSI_SESSION_CTYPES is set."""
    if os.environ.get("OSI_SESSION_CTYPES"):
        return None
    try:
        return importlib.import_module("._native", __package__)
    except ImportError:
        return None


def load() -> ctypes.CDLL:
    """The library, with its functions declared. Beside the module in C, which lets no other thread run in a call, those over
    ctypes let none run either."""
    tried = []
    in_c = native()
    for place in _places():
        try:
            library = ctypes.CDLL(place) if in_c is None else ctypes.PyDLL(place)
        except OSError as error:
            tried.append(str(error))
            continue
        for slot, functions in ((Slot, FUNCTIONS), (JudgeSlot, JUDGES), (VerdictOfC, LINES)):
            for name, (takes, answers) in functions.items():
                function = getattr(library, name)
                function.argtypes = [POINTER(slot), *takes]
                function.restype = answers
        for name, takes in TEXTS.items():
            function = getattr(library, name)
            function.argtypes = takes
            function.restype = c_char_p
        if in_c is not None:
            in_c.bind({name: ctypes.cast(getattr(library, name), c_void_p).value for name in (*FUNCTIONS, *JUDGES)})
        return library
    raise LibraryNotFound(
        f"{NAME} is not found. Set OSI_SESSION_DIR to the folder that has it, or to the PREFIX of its"
        " `make install`. Tried: " + "; ".join(tried)
    )


_loaded: Optional[ctypes.CDLL] = None


def library_version() -> str:
    """The version of the shared library. ``osi_session.__version__`` is that of this package."""
    return str(library().osi_version().decode())


def library() -> ctypes.CDLL:
    """The library. The first call loads it."""
    global _loaded
    if _loaded is None:
        _loaded = load()
    return _loaded
