"""What dcx answers, worked out in Python from the written rules: a second reading of them that shares no code with the
program, and an exact solver without the program's limits. `python3 -m dcx.exact` is the command.

`answer(script, settings)` and `certificate(script, settings)` are for who has a script; `solve` gives both at once.
"""
from __future__ import annotations

# The names of the exact solver, which is loaded when one of them is asked for: the reader of reports wants the tables
# of stops alone.
__all__ = ["ExactAnswer", "RefusedError", "Solved", "WrongError", "answer", "certificate", "solve"]


def __getattr__(name: str) -> object:
    if name not in __all__:
        raise AttributeError(f"module {__name__!r} has no attribute {name!r}")
    from . import answers

    return getattr(answers, name)
