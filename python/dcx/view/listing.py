"""The script, line by line, with what an answer says beside and below its lines."""
from __future__ import annotations

from typing import Mapping, Optional, Sequence

from ..sources import Lines
from ..values import Place
from .markup import Markup, Part, el, text
from .notes import Note


def listing(lines: Lines, notes: Mapping[int, Note], label: str, is_short: bool = False) -> Markup:
    """The lines with their notes; with `is_short` those alone that have some, which are no places of the page then."""
    count = len(lines.lines)
    if count and not lines.lines[-1]:
        count -= 1
    count = max([count, *notes])  # a refusal may stand behind the last line
    parts = []
    for at in range(1, count + 1):
        note = notes.get(at)
        if note is None and is_short:
            continue
        parts.append(line(lines, at, note or Note(), None if is_short else f"L{at}"))
    classes = "listing short" if is_short else "listing"
    return el("div", parts, class_=classes, role="group", aria_label=label)


def line(lines: Lines, at: int, note: Note, place: Optional[str]) -> Markup:
    """One line."""
    content = lines.text(at)
    classes = " ".join(["line", *filter(None, [note.tone])])
    if not (note.beside or note.below or note.tone):
        classes += " plain"
    row = el(
        "div",
        el("span", at, class_="no"),
        el("code", marked(content, note, lines)),
        margin(note.beside),
        class_=classes,
        id=place,
    )
    return text([row, el("div", note.below, class_="below") if note.below else None])


def margin(beside: Sequence[Part]) -> Optional[Markup]:
    """What stands beside a line, a paragraph each."""
    if len(beside) == 1:
        return el("p", beside[0], class_="beside")
    return el("div", [el("p", part) for part in beside], class_="beside") if beside else None


def marked(content: str, note: Note, lines: Lines) -> Part:
    """The text of a line: what is marked, and its comment, which is set back."""
    if note.place is not None:
        return at_place(content, note.place, lines)
    comment = comment_of(content)
    code = content[:comment]
    spans = []
    for mark in note.marks:
        first = code.find(mark)
        if first >= 0 and not any(first < end and begin < first + len(mark) for begin, end in spans):
            spans.append((first, first + len(mark)))
    parts: list[Part] = []
    at = 0
    for first, end in sorted(spans):
        parts += [code[at:first], el("mark", code[first:end])]
        at = end
    parts.append(code[at:])
    if comment < len(content):
        parts.append(el("span", content[comment:], class_="comment"))
    return parts


def at_place(content: str, place: Place, lines: Lines) -> Part:
    """The line with the character at a place marked; at its end a caret stands."""
    raw = lines.lines[place.line - 1] if place.line <= len(lines.lines) else b""
    at = len(raw[: place.column - 1].decode("utf-8", "replace"))
    end = at + 1
    word = content[at : at + 1]
    if word.isalnum() or word == "_":
        while end < len(content) and (content[end].isalnum() or content[end] == "_"):
            end += 1
    elif word in "<>=!" and content[end : end + 1] == "=":
        end += 1
    return [content[:at], el("mark", content[at:end] or "‸"), content[end:]]


def comment_of(content: str) -> int:
    """Where the comment of a line begins; its end where it has none."""
    quote: Optional[str] = None
    for at, char in enumerate(content):
        if quote is not None:
            quote = None if char == quote else quote
        elif char in "'\"":
            quote = char
        elif char == "#":
            return at
    return len(content)
