"""The words of the program itself: it runs in place of this process, so that its output and its status are its own."""
from __future__ import annotations

import os
import sys
from typing import Sequence

from ..program import ProgramError, find, limit_memory

NOT_FOUND = 70


def run(words: Sequence[str]) -> int:
    """Runs the program with these words. Where there is none to run, it gives a status that the program hasn't."""
    try:
        path = find()
        limit_memory(os.getpid())
        sys.stdout.flush()
        os.execv(path, [path, *words])
    except (ProgramError, OSError) as error:
        print(f"dcx: {error}", file=sys.stderr)
    return NOT_FOUND
