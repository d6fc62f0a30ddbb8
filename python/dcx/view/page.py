"""The page as a whole: its head, its sections in order, what is told where there is no answer."""
from __future__ import annotations

import os
from collections import Counter
from typing import Optional

from .. import messages
from ..reports import Answer
from ..tables import Tables
from ..values import Place
from .asking import Found
from .behaviour import SCRIPT
from .constraints import constraints
from .evidence import evidence
from .figures import number
from .listing import listing
from .markup import Markup, Part, el, text
from .notes import OBJECTIVE, Note, Notes, message
from .ranges import course
from .settings import head as answers_head, overview, word
from .sides import rows
from .style import STYLE

MOST_BYTES = 1_000_000  # of the answers that are folded up below each other
MANY, MOST_BYTES_OF_MANY = 200, 180_000  # the same where so many answers have a table and plots that take their time
AROUND = 4  # lines of a settings file around the one that is told of


def page(found: Found, parameter: Optional[str] = None, chosen: int = 1, by_multiplier: bool = False) -> str:
    """The HTML of a page. The answer that is `chosen`, from 1, stands in the source; the others are folded up."""
    file = os.path.basename(found.names[0])
    if found.report.refusal is not None:
        title, sections = refused(found)
    elif found.tables.sources is None:
        raise ValueError("the second reading refuses a script that the program takes")
    else:
        title, sections = answered(found, parameter, chosen, by_multiplier)
    sections.append(evidence(found))
    heads = [(section_id(section), section_head(section)) for section in sections]
    items = [el("li", el("a", Markup(name), href=f"#{of}")) for of, name in heads]
    links = el("nav", el("ul", items), aria_label="parts of the page")
    first = found.tables.files["script"].text(1)
    asks = el("p", first[1:].strip(), class_="lead") if first.startswith("#") else None
    more = el("p", title[1]) if title[1] else None
    header = el("header", el("p", told_files(found), class_="file"), el("h1", title[0]), more, asks, title[2], links)
    footer = el("footer", el("p", "Written by python3 -m dcx view."), id="end")
    scripts = el("script", Markup(SCRIPT))
    body = el("body", header, el("main", sections), footer, scripts)
    top = [
        el("meta", charset="utf-8"),
        el("meta", name="viewport", content="width=device-width, initial-scale=1"),
        el("meta", name="color-scheme", content="light dark"),
        el("link", rel="expect", href="#end", blocking="render"),  # laid out once, and not again as more of it is read
        el("title", f"{file}: {title[0]}"),
        el("style", Markup(STYLE)),
    ]
    return f"<!doctype html>\n{el('html', el('head', top), body, lang='en')}\n"


def section_id(section: Markup) -> str:
    return section.rpartition("</section>")[0].partition('id="')[2].partition('"')[0]


def section_head(section: Markup) -> str:
    return section.partition("<h2>")[2].partition("</h2>")[0]


def told_files(found: Found) -> Part:
    """Which files it is about."""
    names = [os.path.basename(found.names[0])]
    if found.given is not None:
        names.append(os.path.basename(found.names[1]))
    return " with ".join(names)


def tools() -> Markup:
    """What may be shown or hidden."""
    boxes = [("fractions", "fractions", True), ("short", "only lines with an answer", False)]
    labels = [el("label", el("input", type="checkbox", id=of, checked=on), name) for of, name, on in boxes]
    return el("div", labels, class_="tools")


# A refusal


def refused(found: Found) -> tuple[tuple[Part, Part, Part], list[Markup]]:
    """Where the script or the settings are refused."""
    refusal = found.report.refusal
    told = messages.refusal(refusal)
    place = Place(refusal.line, refusal.column)
    of = "settings" if refusal.of == "settings" else "script"
    note = Note(below=[message(f"Refused: {refusal.number} {refusal.name}", told)], tone="way", place=place)
    lines = found.tables.files[of]
    name = os.path.basename(found.names[of == "settings"])
    title = (f"Refused at line {place.line} of {name}", told.sentence, None)
    if of == "script":
        inner = [el("h2", "The script"), listing(lines, {place.line: note}, f"the script {name}")]
    else:
        count = len(lines.lines)
        near = {at: Note() for at in range(max(1, place.line - AROUND), min(count, place.line + AROUND) + 1)}
        notes = {**near, place.line: note}
        inner = [el("h2", "The settings"), listing(lines, notes, f"lines of {name}", is_short=True)]
    return title, [el("section", inner, id="source")]


# Answers


def answered(
    found: Found, parameter: Optional[str], chosen: int, by_multiplier: bool
) -> tuple[tuple[Part, Part, Part], list[Markup]]:
    """Where there are answers."""
    answers = found.answers
    chosen = min(chosen, len(answers))
    answer = answers[chosen - 1]
    is_one = len(answers) == 1
    folded, places = others(found, answer)
    sections = [] if is_one else [overview(found, "answer-", places | {answer.index})]
    middle = course(found, parameter) if parameter is not None else None
    if middle is not None and not is_one:
        sections.append(middle)
    sections.append(source(found, answer, is_one))
    sections.extend(filter(None, [constraints(found, answer, by_multiplier)]))
    if middle is not None and is_one:
        sections.append(middle)
    sections.extend(filter(None, [folded]))
    title = one_title(found, answer) if is_one else many_title(found)
    return title, sections


def one_title(found: Found, answer: Answer) -> tuple[Part, Part, Part]:
    """The head of a page with one answer."""
    told = sentence(found.tables, answer)
    first, mark, rest = told.partition("; ")
    if not mark:
        first, mark, rest = told.partition(", from ")
        rest = f"From {rest}" if mark else ""
    return capital(first), capital(rest) + ("." if rest and not rest.endswith(".") else ""), facts(found, answer)


def sentence(tables: Tables, answer: Answer) -> str:
    """How an answer ends, in a sentence."""
    if answer.stop is not None:
        return f"stopped: {answer.stop.name}; {messages.stop(answer.stop).sentence}"
    return tables.sentence(answer)


def capital(told: str) -> str:
    return told[:1].upper() + told[1:]


def facts(found: Found, answer: Answer) -> Markup:
    """A few numbers on an answer."""
    sources = found.tables.sources
    items: list[tuple[str, Part]] = []
    if answer.gap is not None:
        items.append(("gap", number(answer.gap)))
    if answer.slope is not None:
        items.append(("for each step", number(answer.slope)))
    irreducible = found.irreducible.get(answer.index)
    if irreducible is not None and irreducible.members:
        items.append(("constraints in the way", f"{len(irreducible.members)} of {len(sources.constraints)}"))
    entries = sum(len(array.entries) for array in answer.variables.values())
    if entries:
        items.append(("numbers to choose", f"{entries:,}"))
    if answer.variables and answer.stop is None:
        flat = [row for of in rows(sources, answer, found.values(answer.index)).values() for row in of]
        if flat:
            binding, count = sum(row.binds for row in flat), sum(not row.is_equality for row in flat)
            items.append(("constraints that bind", f"{binding:,} of {count:,}"))
    if answer.nodes is not None:
        items.append(("nodes of the search", f"{answer.nodes:,}"))
    return facts_list(items) if items else text(None)


def facts_list(items: list[tuple[str, Part]]) -> Markup:
    """Numbers below their names."""
    return el("dl", [el("div", el("dt", name), el("dd", value)) for name, value in items], class_="facts")


def many_title(found: Found) -> tuple[Part, Part, Part]:
    """The head of a page with several answers."""
    answers = found.answers
    counts = Counter(answer.status for answer in answers)
    title = f"{len(answers):,} {word(found)}s: " + ", ".join(f"{count:,} {status}" for status, count in counts.items())
    values = [answer for answer in answers if answer.value is not None]
    items: list[tuple[str, Part]] = []
    if values:
        least, most = min(values, key=lambda a: a.value), max(values, key=lambda a: a.value)
        name = OBJECTIVE[found.tables.sources.sense]
        ends = [("at the lowest", least), ("at the highest", most)] if len(values) > 1 else [("", least)]
        for told, one in ends:
            items.append((f"{name}{told and ' '}{told}, {word(found)} {one.index}", number(one.value)))
    if found.report.warm is not None:
        items.append(("from an earlier answer", f"{found.report.warm:,}"))
    return title, None, facts_list(items)


def source(found: Found, answer: Answer, is_one: bool) -> Markup:
    """The source with the answer in its margin."""
    name = os.path.basename(found.names[0])
    parts = [] if is_one else [el("p", capital(sentence(found.tables, answer)) + ".", id=f"answer-{answer.index}")]
    title = "The script with its answer" if is_one else f"The script with the answer of {word(found)} {answer.index}"
    parts += [stop_in_settings(found, answer), in_the_way(found, answer), tools()]
    parts.append(listing(found.tables.files["script"], Notes(found, answer), f"the script {name} with its answer"))
    return el("section", el("h2", title), parts, id="source")


def in_the_way(found: Found, answer: Answer) -> Part:
    """What the marked constraints are, and what their multipliers say."""
    irreducible = found.irreducible.get(answer.index)
    if irreducible is None:
        return None
    if irreducible.stop is not None:
        return message("Which constraints are in the way isn't known", messages.stop(irreducible.stop))
    count = len(irreducible.members)
    told = f"No point keeps the {count} marked constraints together; without any one of them there is one. "
    if len(irreducible.members) == 1:
        told = "No point keeps the marked constraint. "
    if answer.index in found.narrowed:
        told += "The multipliers are those of the marked ones alone."
    elif answer.duals:
        told += "The multipliers show it of all constraints together, and may be those of others than the marked ones."
    return el("p", told)


def stop_in_settings(found: Found, answer: Answer) -> Part:
    """A stop that is about the setting, or about no place at all, with its sentence."""
    if answer.stop is None:
        return None
    places = found.tables.places(answer.stop, answer.index)
    if any(of == "script" for of, _ in places):
        return None
    return message(f"Stopped: {answer.stop.number} {answer.stop.name}", messages.stop(answer.stop))


def others(found: Found, chosen: Answer) -> tuple[Optional[Markup], set[int]]:
    """The other answers, folded up, as far as there is room for them, and the numbers of those that stand there."""
    places: set[int] = set()
    parts: list[Markup] = []
    length = 0
    lines = found.tables.files["script"]
    for answer in found.answers:
        if answer is chosen:
            continue
        which = f"{word(found)} {answer.index}"
        inner = listing(lines, Notes(found, answer), f"lines with the answer of {which}", is_short=True)
        setting = found.tables.setting(answer.index)
        label = [which] + ([": ", el("code", " ".join(setting.text.split())[:200])] if setting else [])
        part = el(
            "details",
            el("summary", label),
            el("p", capital(sentence(found.tables, answer)), id=f"answer-{answer.index}"),
            stop_in_settings(found, answer),
            inner,
            class_="answer",
        )
        length += len(part)
        if length > (MOST_BYTES if len(found.answers) <= MANY else MOST_BYTES_OF_MANY):
            break
        parts.append(part)
        places.add(answer.index)
    if not parts:
        return None, places
    left = len(found.answers) - 1 - len(parts)
    told = None
    if left:
        why = f"The page would grow too large with the other {left:,}; --setting N puts one of them into the script."
        told = el("p", why, class_="quiet")
    title = "The other " + answers_head(found).rpartition(" ")[2]
    return el("section", el("h2", title), parts, told, id="others"), places
