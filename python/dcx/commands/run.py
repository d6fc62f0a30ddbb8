"""`python3 -m dcx run MODEL.py ARGS..`: runs a CVXPY script as Python does, with `dcx.cvxpy` in place of `cvxpy`."""
from __future__ import annotations

import argparse
import contextlib
import os
import runpy
import sys
import traceback
from importlib import import_module
from importlib.abc import MetaPathFinder
from typing import Optional

from ..numbers import float_digits
from . import whole

PACKAGE = os.path.dirname(os.path.dirname(os.path.abspath(__file__)))
# Files whose frames stand above the user's script in each traceback.
ABOVE = {os.path.abspath(__file__), os.path.join(PACKAGE, "__main__.py"), os.path.abspath(runpy.__file__)}
FAILED = 1
INTERRUPTED = 130
# What tells processes that the script starts how floats are read.
TOLD = ("DCX_RUN_DIGITS", "DCX_RUN_DECIMALS")


def add_arguments(parser: argparse.ArgumentParser) -> None:
    """The script, and whatever stands behind it."""
    digits, decimals = whole(1, 17), whole(0, 30)
    parser.add_argument("--digits", metavar="N", type=digits, help="round each float to N significant digits")
    parser.add_argument("--decimals", metavar="N", type=decimals, help="round each float to N digits behind the point")
    parser.add_argument("script", metavar="MODEL.py", help="a script that imports cvxpy")
    parser.add_argument("arguments", nargs=argparse.REMAINDER, metavar="ARGS", help="the script's own arguments")


def run(arguments: argparse.Namespace) -> int:
    """Runs the script under `__main__`, with its arguments, its folder on the path and its own status."""
    script = arguments.script
    if not os.path.isfile(script):
        reason = "it is a folder" if os.path.isdir(script) else "no such file"
        print(f"dcx: {script} can't be read: {reason}", file=sys.stderr)
        return 3
    stand_in()
    round_floats(arguments.digits, arguments.decimals)
    sys.argv = [script, *arguments.arguments]
    set_path(os.path.dirname(os.path.abspath(script)))
    try:
        runpy.run_path(script, run_name="__main__")
    except Exception as error:
        print_users(error)
        return FAILED
    except KeyboardInterrupt as error:
        print_users(error)
        return INTERRUPTED
    return 0


def set_path(folder: str) -> None:
    """Puts the script's folder on the path as Python does, and what processes need that the script starts."""
    if getattr(sys.flags, "safe_path", False):
        sys.path.insert(0, os.path.join(PACKAGE, "instead"))
    else:
        sys.path[:1] = [folder, os.path.join(PACKAGE, "instead")]
    if os.path.dirname(PACKAGE) not in sys.path:
        sys.path.append(os.path.dirname(PACKAGE))


def round_floats(*counts: Optional[int]) -> None:
    """Sets the digits that a float keeps, also for the processes that the script starts."""
    for name, count in zip(TOLD, counts):
        os.environ.pop(name, None)
        if count is not None:
            os.environ[name] = str(count)
    float_digits(*counts)


def round_floats_as_told() -> None:
    """Sets the digits that a float keeps in a process that a script started, as they are in the script's own."""
    float_digits(*(int(os.environ[name]) if name in os.environ else None for name in TOLD))


class OneModule(MetaPathFinder):
    """Refuses what lies below the module `cvxpy` beyond those of `stand_in`."""

    @staticmethod
    def find_spec(name: str, path: object = None, target: object = None) -> None:
        if name.startswith("cvxpy."):
            raise ModuleNotFoundError(f"dcx has no {name}: take the names from cvxpy itself, as `cp.norm1`", name=name)


def stand_in() -> None:
    """Lets `import cvxpy` and `from cvxpy import ..` find the recorder, and of what lies below it `error`, `settings`
    and the modules of classes."""
    recorder = import_module("dcx.cvxpy")
    sys.modules["cvxpy"] = recorder
    recorder.__path__ = []
    below = {"error": recorder.error, "settings": recorder.settings, **import_module("dcx.below").MODULES}
    sys.modules.update({f"cvxpy.{name}": module for name, module in below.items()})
    if OneModule not in sys.meta_path:
        sys.meta_path.insert(0, OneModule)


def print_users(error: BaseException) -> None:
    """Prints a traceback of the user's own frames.

    Left out are the frames that stand above the script, and, of an error that the package raises on purpose, its own.
    """
    told = traceback.TracebackException.from_exception(error, capture_locals=False)
    waiting, seen = [(told, error)], set()
    while waiting:
        part, cause = waiting.pop()
        if part is None or cause is None or id(part) in seen:
            continue
        seen.add(id(part))
        is_meant = is_of_package(cause, part.stack)
        files = [frame.filename for frame in part.stack]
        shown = zip(part.stack, ["", *files])
        frames = [frame for frame, before in shown if not is_left_out(frame.filename, before, is_meant)]
        part.stack = traceback.StackSummary.from_list(frames)
        waiting += [(part.__cause__, cause.__cause__), (part.__context__, cause.__context__)]
    if sys.stdout is not None:
        sys.stdout.flush()
    print("".join(told.format()), end="", file=sys.stderr)


def is_of_package(error: BaseException, stack: traceback.StackSummary) -> bool:
    """Whether the package raises such errors on purpose: its own, those of shapes and indices, as CVXPY does, and
    whatever a `raise` of its own raised."""
    from ..errors import DCXError

    if isinstance(error, (DCXError, ValueError, IndexError)):
        return True
    last = stack[-1] if stack else None
    return last is not None and is_inner(last.filename) and (last.line or "").startswith("raise ")


def is_inner(filename: str) -> bool:
    """Whether a file is one of the package."""
    return os.path.abspath(filename).startswith(PACKAGE + os.sep)


def is_left_out(filename: str, before: str, is_meant: bool) -> bool:
    """Whether a frame of this file, called by one of the file before, isn't shown."""
    if filename in ABOVE or filename.startswith("<frozen "):
        return True
    return is_meant and (is_inner(filename) or filename == contextlib.__file__ and is_inner(before))
