"""The calls of each message, of an end and of a judge: those of the module in C, or else those over ctypes."""
from __future__ import annotations

import inspect
from typing import Any, Dict, Tuple, Type

from . import _calls, _verdicts
from ._codes import Direction, JudgedSide, Phase, Reason
from ._library import IndicationOfC, VerdictOfC, native
from ._values import KINDS, Data, Ending, Fed, Indication, Minor, MinorConfirmed


def _made(tag: int, at: int, user_data: bytes) -> Indication:
    """The indication of an osi_indication at this address."""
    return KINDS[tag](IndicationOfC.from_address(at), user_data)


def _ending(reason: int, detail: int) -> Ending:
    return Ending(Reason(reason), detail)


def _verdict(at: int) -> _verdicts.Verdict:
    """The verdict of an osi_verdict at this address."""
    return _verdicts.Verdict.of(VerdictOfC.from_address(at))


def _argument(parameter: inspect.Parameter) -> str:
    """An argument as a signature has it, without its type."""
    return parameter.name if parameter.default is parameter.empty else f"{parameter.name}={parameter.default!r}"


def _texts(calls: Type[Any]) -> Dict[str, str]:
    """The text of each call, after its signature in the form that Python reads in C."""
    texts = {}
    for name, call in vars(calls).items():
        if callable(call) and not name.startswith("_"):
            _, *arguments = inspect.signature(call).parameters.values()
            texts[name] = f"{name}({', '.join(['$self', *map(_argument, arguments)])})\n--\n\n{inspect.getdoc(call)}"
    return texts


def _chosen() -> Tuple[Type[Any], Type[Any]]:
    """The base classes of an end and of a judge."""
    in_c = native()
    if in_c is None:
        return _calls.Calls, _verdicts.JudgeCalls
    end, judge = in_c.calls(
        {
            "refused": _calls.checked,
            "octets": _calls.octets_of,
            "within": _calls.within,
            "made": _made,
            "ending": _ending,
            "data": Data,
            "minor": Minor,
            "minor_confirmed": MinorConfirmed,
            "fed": Fed,
            "phases": [Phase(number) for number in range(len(Phase))],
            "received": Direction.RECEIVED,
            "sent": Direction.SENT,
            "judged_side": JudgedSide,
            "verdict": _verdict,
        },
        _texts(_calls.Calls),
        _texts(_verdicts.JudgeCalls),
    )
    return type("Calls", (end, _calls.Slotted), {}), judge


Calls, JudgeCalls = _chosen()
