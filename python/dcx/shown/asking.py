"""Asks the exact solver, which runs in a process of its own, and waits for it as long as it is given."""
from __future__ import annotations

import os
import pickle
import subprocess
import sys
from pathlib import Path
from typing import Any, Optional

from .. import program
from ..errors import SolverError

SECONDS = 120.0  # where no limit is given
_FOLDER = str(Path(__file__).resolve().parents[2])


def asked(task: str, *arguments: Any, seconds: Optional[float] = None) -> Any:
    """What the worker says to a task.

    Raises `SolverError` where it fails, is ended or takes longer than it is given: then there is nothing of an answer.
    """
    seconds = SECONDS if seconds is None else seconds
    path = os.pathsep.join(filter(None, [_FOLDER, os.environ.get("PYTHONPATH")]))
    try:
        process = program.Process(
            [sys.executable, "-m", f"{__package__}.worker"],
            stdin=subprocess.PIPE,
            stdout=subprocess.PIPE,
            stderr=subprocess.PIPE,
            env={**os.environ, "PYTHONPATH": path},
        )
    except OSError as error:
        raise SolverError(f"the exact solver can't be started: {error.strerror or error}") from None
    with process:
        program.limit_memory(process.pid)
        try:
            reply, said = process.communicate(pickle.dumps((task, arguments)), timeout=program.patience(seconds))
        except subprocess.TimeoutExpired:
            reason = f"the exact solver had no answer after {seconds:g} s, and was ended; time_limit gives it more"
            raise SolverError(reason) from None
    if process.returncode != 0 or not reply:
        text = said.decode(errors="replace").strip().splitlines()
        raise SolverError(f"the exact solver ended without an answer ({text[-1] if text else 'nothing was said'})")
    kind, content = pickle.loads(reply)
    if kind == "failed":
        raise SolverError(f"the exact solver has no answer: {content}")
    return content
