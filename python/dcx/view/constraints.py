"""The constraints of an answer in one table, a row for each, which can be ordered by their multipliers."""
from __future__ import annotations

from fractions import Fraction
from typing import Optional

from ..reports import Answer
from ..tables import shortened
from .asking import Found
from .figures import sides_text
from .markup import Markup, el
from .notes import cell, state_mark, turn
from .settings import ranked, ranks_text
from .sides import Row, rows

MOST = 1_000


def constraints(found: Found, answer: Answer, by_multiplier: bool = False) -> Optional[Markup]:
    """The section; None where the answer says nothing of single constraints, or there are fewer than two."""
    sources = found.tables.sources
    if sources is None or len(sources.constraints) < 2 or answer.stop is not None:
        return None
    irreducible = found.irreducible.get(answer.index)
    members = () if irreducible is None else irreducible.members
    by_number = rows(sources, answer, found.values(answer.index))
    if not answer.duals and not answer.variables:
        return None
    order = list(by_number)
    if by_multiplier or len(order) > MOST:
        order.sort(key=lambda number: -magnitude(by_number[number]))
    shown = order[:MOST]
    slacks, multipliers = zip(*(told(by_number[number]) for number in shown))
    has = [any(one is not None for one in column) for column in (slacks, multipliers)]
    ranks = [ranked(slacks), ranked([None if one is None else abs(one) for one in multipliers])]
    lines = ranked([sources.constraints[number].place for number in shown])
    body = []
    for at, number in enumerate(shown):
        source = sources.constraints[number]
        row = strongest(by_number[number])
        shape = sources.shapes[number]
        entries = [" ", el("span", sides_text(shape), class_="quiet")] if shape else None
        where = [" ", el("span", turn(source), class_="quiet")] if source.turn else None
        cells = [
            el("td", number, class_="num"),
            el("td", el("a", source.place.line, href=f"#L{source.place.line}"), class_="num"),
            el("td", el("code", shortened(source.text)), where, entries),
        ]
        cells += [cell(slacks[at])] * has[0] + [cell(multipliers[at])] * has[1]
        cells.append(el("td", state_mark(row, number in members)))
        idle = slacks[at] and not multipliers[at]
        order_by = [number, lines[at], None, *[rank[at] for rank, is_there in zip(ranks, has) if is_there]]
        body.append(el("tr", cells, class_="idle" if idle else None, data_k=ranks_text(order_by)))
    heads = [el("th", name, scope="col", class_="num") for name in ("no.", "line")]
    heads.append(el("th", "constraint", scope="col"))
    if has[0]:
        heads.append(el("th", "least slack", scope="col", class_="num"))
    if has[1]:
        heads.append(el("th", "greatest multiplier", scope="col", class_="num", data_first="down"))
    heads.append(el("td"))
    table = el("table", el("thead", el("tr", heads)), el("tbody", body), class_="rows sortable")
    explained = EXPLAINED.get(answer.status)
    parts = [el("h2", "The constraints"), explained and el("p", explained, class_="quiet")]
    parts.append(el("div", table, class_="wide", tabindex=0, role="region", aria_label="table of the constraints"))
    if len(order) > MOST:
        left_out = f"Shown are the {MOST:,} with the greatest multipliers, of {len(order):,}."
        parts.append(el("p", left_out, class_="quiet"))
    return el("section", parts, id="constraints")


EXPLAINED = {
    "optimal": "A multiplier is what the objective gains for each unit by which the constraint gives way, as long as "
    "the plan doesn't change. The slack is what is left between both sides.",
    "infeasible": "Left minus right of each constraint, times its multiplier, sums to the gap or more at every point, "
    "and would sum to 0 or less at one that keeps them all.",
}


def magnitude(entries: list[Row]) -> Fraction:
    """The greatest magnitude of a constraint's multipliers."""
    return max((abs(row.multiplier) for row in entries if row.multiplier is not None), default=Fraction(0))


def told(entries: list[Row]) -> tuple[Optional[Fraction], Optional[Fraction]]:
    """The least slack, and the multiplier of greatest magnitude."""
    slacks = [row.slack for row in entries if row.slack is not None]
    multipliers = [row.multiplier for row in entries if row.multiplier is not None]
    return min(slacks, default=None), max(multipliers, key=abs, default=None)


def strongest(entries: list[Row]) -> Row:
    """The entry by whose state the constraint is told: one that binds, where there is any."""
    return next((row for row in entries if row.binds), entries[0])
