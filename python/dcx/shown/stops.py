"""Answers behind the stops of a script of the language, which `table` shows."""
from __future__ import annotations

from dataclasses import replace
from typing import Optional

from ..arrays import Array
from ..exact.branching import marked
from ..forms import nested
from ..reports import Answer
from ..tables import Tables
from .fallback import Wishes, helps, shown


def behind(answer: Answer, tables: Tables, script: bytes, wishes: Wishes, is_limited: bool) -> Optional[Answer]:
    """What the exact solver finds in the place of a stop, with the number and the word of that; None where it isn't
    asked: the stop is another one, or variables are to be whole.

    Raises as `fallback.shown`.
    """
    sources = tables.sources
    if not wishes.exact or sources is None or not helps(answer.stop, is_limited) or marked(sources.problem):
        return None
    if answer.word == "setting":
        setting = tables.setting(answer.index)
        if setting is None:
            return None
        line = setting.text + "\n"
    else:
        values = sources.values[answer.index - 1]
        line = ("; ".join(f"{name} = {nested(Array(array.shape, array.entries))}" for name, array in values.items()
                          if name in sources.parameters) or "{}") + "\n"
    found = shown(script.decode(), line, sources.sense == "maximize", wishes)
    return replace(found.answer, word=answer.word, index=answer.index, shown_by=found.by, interval=found.interval)
