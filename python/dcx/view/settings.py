"""Several answers beside each other: a table of the settings or solves, and the value over them."""
from __future__ import annotations

from fractions import Fraction
from typing import Iterable, NamedTuple, Optional, Sequence

from .. import messages
from ..grids import decimals
from ..reports import Answer
from ..tables import turn_text
from ..values import Entries, number_text, shape_text
from . import plots
from .asking import Found
from .figures import number
from .markup import Markup, Part, el
from .notes import OBJECTIVE

MOST_COLUMNS = 8  # of single numbers among the variables
MOST_ENTRIES = 4  # of a vector that stands in a cell


class Column(NamedTuple):
    """A column of the table: its head, what kind it is, and for each answer a cell and what it is ordered by."""

    head: Part
    is_number: bool
    cells: Sequence[Part]
    keys: Sequence[object]


def overview(found: Found, link: str, places: set[int]) -> Markup:
    """The table, with a plot above it where there are values. `link` is what the place of an answer on the page begins
    with, and `places` has the numbers of those that stand there.
    """
    drawings = [drawing for drawing in (over_parameter(found), over_settings(found)) if drawing is not None]
    plotted = el("div", drawings, class_="plots") if drawings else None
    return el("section", el("h2", head(found)), plotted, table(found, link, places), id="settings")


def head(found: Found) -> str:
    """What the answers are of."""
    return "The settings" if found.given is not None else "The solves"


def word(found: Found) -> str:
    return "setting" if found.given is not None else "solve"


def table(found: Found, link: str, places: set[int]) -> Markup:
    """A row for each answer."""
    answers = found.answers
    indices = [answer.index for answer in answers]
    links = [el("a", index, href=f"#{link}{index}") if index in places else index for index in indices]
    columns = [Column(word(found), True, links, indices)]
    columns += parameters(found)
    statuses = [answer.status for answer in answers]
    columns.append(Column("status", False, [status(answer) for answer in answers], statuses))
    columns.append(numbers(OBJECTIVE[found.tables.sources.sense], [answer.value for answer in answers]))
    columns += variables(found)
    heads = [el("th", column.head, scope="col", class_="num" if column.is_number else None) for column in columns]
    ranks = [ranked(column.keys) for column in columns]
    body = [
        el(
            "tr",
            [el("td", column.cells[at], class_="num" if column.is_number else None) for column in columns],
            data_k=ranks_text(rank[at] for rank in ranks),
        )
        for at in range(len(answers))
    ]
    inner = el("table", el("thead", el("tr", heads)), el("tbody", body), class_="rows sortable")
    return el("div", inner, class_="wide", tabindex=0, role="region", aria_label=f"table of the {word(found)}s")


def ranked(keys: Sequence[object]) -> list[int]:
    """The order of the keys, exactly: equal ones have one rank, those that are None come first."""
    order = sorted({key for key in keys if key is not None})
    at = {key: rank for rank, key in enumerate(order, 1)}
    return [0 if key is None else at[key] for key in keys]


def ranks_text(ranks: Iterable[Optional[int]]) -> str:
    """The ranks of a row's cells, by which the page's script puts rows in order; a hyphen where a cell has none."""
    return " ".join("-" if rank is None else str(rank) for rank in ranks)


def numbers(name: Part, values: Sequence[Optional[Fraction]]) -> Column:
    """A column of numbers."""
    return Column(name, True, [None if value is None else number(value) for value in values], values)


def parameters(found: Found) -> list[Column]:
    """A column for each parameter that isn't the same everywhere; at a solve in a loop one of its turn."""
    columns = []
    values = [found.values(answer.index) for answer in found.answers]
    for name in found.tables.sources.parameters:
        arrays = [one.get(name) for one in values]
        if len({array and array.entries for array in arrays}) == 1:
            continue
        if any(array is not None and array.shape for array in arrays):
            keys = [array and array.entries for array in arrays]
            columns.append(Column(el("code", name), False, list(map(short, arrays)), keys))
        else:
            columns.append(numbers(el("code", name), [array and array.entries[0] for array in arrays]))
    solves = found.tables.sources.solves
    if found.given is None and len(solves) == len(found.answers):
        told = [f"line {source.place.line}{turn_text(source)}" for source in solves]
        columns.insert(0, Column("at", False, told, [(source.place, at) for at, source in enumerate(solves)]))
    return columns


def short(values: Optional[Entries]) -> Part:
    """An array in a cell: its entries in decimals where it has few, else its shape."""
    if values is None:
        return None
    if len(values.entries) > MOST_ENTRIES or len(values.shape) > 1:
        return f"{shape_text(values.shape)}, from {decimals(values.entries[0], 6)}"
    return f"[{', '.join(decimals(entry, 6) for entry in values.entries)}]"


def variables(found: Found) -> list[Column]:
    """A column for each variable that is a single number, where there are few."""
    shapes = {name: array.shape for answer in found.answers for name, array in answer.variables.items()}
    names = [name for name, shape in shapes.items() if not shape]
    if len(names) > MOST_COLUMNS:
        return []
    columns = []
    for name in names:
        arrays = [answer.variables.get(name) if answer.status == "optimal" else None for answer in found.answers]
        columns.append(numbers(el("code", name), [array and array.entries[0] for array in arrays]))
    return columns


def status(answer: Answer) -> Part:
    """How it ends, in a word; of a stop its cause."""
    if answer.stop is not None:
        return [el("b", "stopped", class_="mark"), f": {messages.stop(answer.stop).sentence}"]
    return answer.status if answer.status == "optimal" else el("b", answer.status, class_="mark")


# Plots


def over_settings(found: Found) -> Optional[Markup]:
    """The value over the numbers of the settings."""
    name = word(found)
    shown, missing = split(found, {answer.index: Fraction(answer.index) for answer in found.answers})
    value = OBJECTIVE[found.tables.sources.sense]
    caption = f"The {value} at each {name}. {crosses(missing)}".strip()
    return plots.points(shown, missing, name, value, caption, whole=True)


def over_parameter(found: Found) -> Optional[Markup]:
    """The value over the one number among the parameters that changes; None where there is none, or it stands still."""
    name = changing(found)
    if name is None:
        return None
    places = {answer.index: found.values(answer.index)[name].entries[0] for answer in found.answers}
    shown, missing = split(found, places)
    value = OBJECTIVE[found.tables.sources.sense]
    caption = f"The {value} over {name}, which alone changes. {crosses(missing)}".strip()
    return plots.points(shown, missing, name, value, caption)


def changing(found: Found) -> Optional[str]:
    """The parameter that alone changes from answer to answer, where it is a single number and each answer has it."""
    values = [found.values(answer.index) for answer in found.answers]
    names = {name for one in values for name in one}
    moved = [name for name in names if len({one.get(name) and one[name].entries for one in values}) > 1]
    if len(moved) != 1 or any(moved[0] not in one or one[moved[0]].shape for one in values):
        return None
    return moved[0]


def split(found: Found, places: dict[int, Fraction]) -> tuple[list[plots.Point], list[tuple[Fraction, str]]]:
    """The points of the answers that have a value, and the places of those that have none."""
    shown, missing = [], []
    for answer in found.answers:
        label = f"{word(found)} {answer.index}"
        if answer.value is not None:
            shown.append(plots.Point(places[answer.index], answer.value, f"{label}: {number_text(answer.value)}"))
        else:
            missing.append((places[answer.index], f"{label}: {answer.status}"))
    return shown, missing


def crosses(missing: Sequence) -> str:
    return "A cross stands where there is no value." if missing else ""
