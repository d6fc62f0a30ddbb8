"""Reports in other forms: JSON, and a table of comma-separated values.

In both a number stands as it was printed, `n` or `n/d`, with its decimals beside it: the nearest float.
"""
from __future__ import annotations

import csv
import io
import json
from dataclasses import Field, fields, is_dataclass
from fractions import Fraction
from typing import Iterator, Optional

from .arrays import nested
from .lines import Fault, Refusal, Stop
from .reports import Answer, Report, Section
from .shown.intervals import Interval
from .values import Entries, number_text

COLUMNS = ("word", "index", "status", "what", "name", "row", "column", "exact", "decimal", "text")


def report_json(report: Report) -> str:
    """The report as JSON, fields that it doesn't have left out.

    A number is `{"exact": "1/3", "decimal": 0.333..}`, an array `{"shape": [2], "exact": ["1/3", "1"], "decimal": ..}`,
    of a matrix with a list for each row. Names are keys; so are the numbers of constraints and nodes, as text.
    """
    return json.dumps(plain(report), indent=1, ensure_ascii=False)


def plain(value: object) -> object:
    """The value as JSON has it."""
    if isinstance(value, Fraction):
        return {"exact": number_text(value), "decimal": float(value)}
    if isinstance(value, Entries):
        return {
            "shape": list(value.shape),
            "exact": nested(value.shape, [number_text(entry) for entry in value.entries]),
            "decimal": nested(value.shape, [float(entry) for entry in value.entries]),
        }
    if isinstance(value, Interval):
        return {name: plain(item) for name, item in value.told().items() if item not in (None, ())}
    if isinstance(value, Stop):
        carried = plain(value.detail)
        if value.detail.name is not None:  # `name` is that of the stop
            carried["parameter"] = carried.pop("name")
        return {"number": value.number, "name": value.name, **carried, "text": value.text}
    if isinstance(value, Refusal):
        place = {"line": value.line, "column": value.column}
        return {"of": value.of, "number": value.number, "name": value.name, **place, **plain(value.detail)}
    if isinstance(value, Fault):
        return {"section": value.section, "name": value.name, **plain(value.detail), "text": value.text}
    if isinstance(value, dict):
        return {str(key): plain(item) for key, item in value.items()}
    if isinstance(value, tuple):
        if hasattr(value, "_asdict"):
            return plain(value._asdict())
        return [plain(item) for item in value]
    if is_dataclass(value):
        return {one.name: plain(getattr(value, one.name)) for one in fields(value) if not is_left_out(value, one)}
    return value


def is_left_out(value: object, one: Field) -> bool:
    """Whether a field says nothing, since it has its default: None, empty, or a mark that isn't set."""
    default = {} if one.default_factory is dict else one.default
    return getattr(value, one.name) == default


def report_csv(report: Report) -> str:
    """The report as a table with a head, a row for each number, and for each line without numbers one.

    `word` and `index` tell the setting, `status` its answer, `what` the line; rows and columns of arrays count from 0.
    """
    out = io.StringIO()
    writer = csv.writer(out, lineterminator="\n")
    writer.writerow(COLUMNS)
    for row in rows_of(report):
        writer.writerow(["" if row.get(column) is None else row[column] for column in COLUMNS])
    return out.getvalue()


def rows_of(report: Report) -> Iterator[dict[str, object]]:
    """The rows of the table."""
    if report.verdict is not None:
        head = {"word": "check", "status": "accepted"}
        for what, value in vars(report.verdict).items():
            is_count = isinstance(value, int) and not isinstance(value, bool)
            word = {True: "yes", False: "no"}[value] if isinstance(value, bool) else value
            yield {**head, "what": what, **({"exact": value, "decimal": float(value)} if is_count else {"text": word})}
        return
    for answer in report.answers:
        head = {"word": answer.word, "index": answer.index, "status": status_of(answer)}
        yield from rows_of_answer(head, answer)
    for section in report.sections:
        head = {"word": "section", "index": section.index, "status": section.status}
        yield from rows_of_section(head, section)
    for what in ("answered", "stopped", "warm", "certified", "size"):
        count = getattr(report, what)
        if count is not None:
            yield {"word": report.kind, "what": what, "exact": count, "decimal": float(count)}
    if not report.answers and not report.sections and report.answered is None and report.certified is None:
        found = report.refusal or report.fault
        names = {} if found is None else {"what": found.number if report.refusal else found.section, "name": found.name}
        yield {"word": report.kind, **names, "text": report.text.rstrip("\n")}


def status_of(answer: Answer) -> str:
    """The status, with the word of whole numbers."""
    return f"whole {answer.status}" if answer.whole else answer.status


def rows_of_answer(head: dict[str, object], answer: Answer) -> Iterator[dict[str, object]]:
    """The rows of a solve or a setting; one alone where it has no numbers."""
    rows = [*rows_of_section(head, answer)]
    if answer.stop is not None:
        rows.append({**head, "what": answer.stop.number, "name": answer.stop.name, "text": answer.stop.text})
    if answer.shown_by is not None:
        rows.append({**head, "what": "shown by", "text": answer.shown_by})
    if answer.interval is not None:
        for what in ("low", "high"):
            end = getattr(answer.interval, what)
            rows.append({**head, "what": what, **numbers(end), "text": "none" if end is None else None})
    if answer.nodes is not None:
        rows.append({**head, "what": "nodes", "exact": answer.nodes, "decimal": float(answer.nodes)})
    if answer.range is not None:
        span = answer.range
        for what in ("low", "high", "value", "slope"):
            end = getattr(span, what)
            text = "none" if end is None else None
            rows.append({**head, "what": what, "name": span.name, **numbers(end), "text": text})
    for member in answer.members:
        rows.append({**head, "what": "constraint", "name": member})
    for without in answer.without:
        for name, array in without.variables.items():
            rows.extend(rows_of_array({**head, "what": f"without {without.constraint}", "name": name}, array))
    yield from rows or [head]


def rows_of_section(head: dict[str, object], section: object) -> Iterator[dict[str, object]]:
    """The rows of the numbers and arrays that answers and sections of certificates share."""
    for what in ("value", "gap", "bound", "slope"):
        if getattr(section, what) is not None:
            yield {**head, "what": what, **numbers(getattr(section, what))}
    groups = {"var": section.variables, "ray": section.ray, "dual": section.duals}
    if isinstance(section, Section):
        groups = {"param": section.params, **groups}
        groups["node"] = {node: Entries((len(weights),), weights) for node, weights in section.weights.items()}
        if section.status == "none":
            yield head
    for what, arrays in groups.items():
        for name, array in arrays.items():
            yield from rows_of_array({**head, "what": what, "name": name}, array)


def rows_of_array(head: dict[str, object], array: Entries) -> Iterator[dict[str, object]]:
    """A row for each entry."""
    for at, entry in enumerate(array.entries):
        row = column = None
        if len(array.shape) == 1:
            row = at
        elif len(array.shape) == 2:
            row, column = divmod(at, array.shape[1])
        yield {**head, "row": row, "column": column, **numbers(entry)}


def numbers(value: Optional[Fraction]) -> dict[str, object]:
    """The columns of a number."""
    return {} if value is None else {"exact": number_text(value), "decimal": repr(float(value))}
