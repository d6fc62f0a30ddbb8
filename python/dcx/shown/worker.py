"""The exact solver in a process of its own, so that it can be given a time and a limit of memory, and what fails or is
interrupted leaves nothing behind.

The one who asks is `asking`. A request and its reply are pickled; the reply is what was found, or what went wrong.
"""
from __future__ import annotations

import pickle
import sys
from fractions import Fraction
from typing import Optional

from ..exact.answers import solve
from . import making
from .verifier import Verifier


def answered(script: str, settings: str, box: Optional[Fraction], wants_interval: bool) -> dict:
    """The exact answer at the one setting, its certificate where the program can check it, and else an interval."""
    found = solve(script.encode(), settings.encode())
    (answer,) = found.answers
    reply = {"answer": answer, "certificate": None, "made": None}
    if answer.stop is None and answer.wide is None:
        reply["certificate"] = found.certificate().decode()
    elif answer.stop is None and wants_interval and answer.status == "optimal":
        reply["made"] = making.Maker(script, settings, box).interval()
    elif answer.stop is None and wants_interval and answer.status == "infeasible":
        reply["certificate"] = making.Maker(script, settings, box).refuted()
    return reply


def verified(script: str, settings: str, box: Optional[Fraction], values: dict, duals: Optional[dict]) -> tuple:
    """What can be shown of values that are said to be the best."""
    return Verifier(script, settings, box).verified(values, duals)


TASKS = {"answered": answered, "verified": verified}


def main() -> None:
    """Reads a request from standard input, and writes the reply to standard output."""
    sys.setrecursionlimit(100_000)
    task, arguments = pickle.load(sys.stdin.buffer)
    try:
        reply = ("done", TASKS[task](*arguments))
    except MemoryError:
        reply = ("failed", "memory ran out")
    except Exception as error:
        reply = ("failed", f"{type(error).__name__}: {error}")
    data = pickle.dumps(reply)
    sys.stdout.buffer.write(data)


if __name__ == "__main__":
    main()
