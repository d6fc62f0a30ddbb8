"""What a recorded problem shows of itself: a page in a file, and its answer in a notebook."""
from __future__ import annotations

import os
from typing import Any, Optional, Union

from .. import messages
from ..arguments import pivots
from ..reports import Answer
from ..sources import read_settings, read_sources
from ..tables import Tables
from .asking import found
from .constraints import strongest, told
from .figures import named
from .markup import Markup, Part, el
from .notes import cell, state_mark
from .page import capital, page, sentence
from .sides import rows

MOST = 100  # constraints that are shown in a notebook
STYLE = """
.dcx-answer { font-variant-numeric: tabular-nums; line-height: 1.5; }
.dcx-answer p { margin: 0 0 .375em; }
.dcx-answer small, .dcx-answer .quiet, .dcx-answer .k { opacity: .7; font-size: .8125em; }
.dcx-answer .mark { font-weight: 650; }
.dcx-answer ol.vector { display: flex; flex-wrap: wrap; gap: .25em .75em; }
.dcx-answer ol.vector { margin: 0 0 .5em; padding: 0; list-style: none; }
.dcx-answer ol.vector li { display: flex; flex-direction: column; }
.dcx-answer .wide { overflow-x: auto; }
.dcx-answer td.num { text-align: right; white-space: nowrap; }
.dcx-answer table { margin: 0 0 .5em; }
"""


def view(
    problem: Any, file: Union[str, os.PathLike] = "problem.html", parameter: Any = None, max_iters: Optional[int] = None
) -> str:
    """Solves a recorded problem at its parameters' values and writes the page that shows it, of the script that was
    handed over; with a parameter also the value over it. Returns the file's name.

    Raises `ParameterError`, `LimitError` and `ProgramError` as `Problem.solve`, `OSError` where the file can't be
    written, `KeyError` where the parameter is none of the problem. What the rules refuse is shown on the page.
    """
    script = problem.written
    name = None
    if parameter is not None:
        name = script.names.get(script.leaf("parameter", parameter))
        if name is None:
            raise KeyError(f"{parameter!r} is no parameter that the problem reaches")
    settings = script.settings_line()
    shown = found(script.text.encode(), settings.encode(), ("problem.py", "settings.txt"), pivots(max_iters), name)
    text = page(shown, name)
    with open(file, "w", encoding="utf-8", newline="\n") as out:
        out.write(text)
    return os.fspath(file)


def fragment(problem: Any) -> Optional[str]:
    """The answer of a solved problem as HTML for a notebook; None before it is solved, or where the run failed."""
    result = problem._result
    if result is None or result.answer is None:
        return None
    script, answer = result.script, result.answer
    tables = Tables(script.text.encode())
    parts: list[Part] = [el("p", el("b", capital(sentence(tables, answer))))]
    if answer.stop is not None:
        parts.append(el("p", messages.stop(answer.stop).advice))
    for name, array in answer.variables.items():
        label = script.variables[name].name()
        parts.append(named(label, array, " at the point" if answer.ray else ""))
        if name in answer.ray:
            parts.append(named(label, answer.ray[name], " along the ray"))
    parts.append(table(script, answer, problem._asked))
    return el("div", el("style", Markup(STYLE)), parts, class_="dcx-answer")


def table(script: Any, answer: Answer, asked: Optional[str]) -> Optional[Markup]:
    """A row for each constraint, in the user's words, at the setting that was asked."""
    sources = read_sources(script.text.encode())
    settings = read_settings((asked or "").encode())
    if sources is None or not script.constraints or not (answer.duals or answer.variables):
        return None
    values = {**sources.last, **(settings[0].values if settings else {})}
    by_number = rows(sources, answer, values)
    body = []
    for number_of, constraint in list(script.constraints.items())[:MOST]:
        slack, multiplier = told(by_number[number_of])
        cells = [el("td", el("code", str(constraint))), cell(slack), cell(multiplier)]
        body.append(el("tr", cells, el("td", state_mark(strongest(by_number[number_of]), False))))
    heads = [el("th", text, scope="col") for text in ("constraint", "least slack", "greatest multiplier")]
    more = len(script.constraints) - len(body)
    left = el("p", f"and {more:,} constraints more", class_="quiet") if more > 0 else None
    whole = el("table", el("thead", el("tr", heads, el("td"))), el("tbody", body))
    return el("div", whole, left, class_="wide")
