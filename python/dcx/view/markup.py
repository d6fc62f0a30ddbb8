"""HTML and SVG as text. Whatever isn't made here is escaped, so that no text of a script can become markup."""
from __future__ import annotations

from html import escape
from typing import Iterable, Union


class Markup(str):
    """Text that is HTML already."""

    __slots__ = ()


Part = Union[str, int, None, Iterable["Part"]]
EMPTY = {"meta", "link", "br", "wbr", "input"}


def text(part: Part) -> Markup:
    """The HTML of a text, of markup, of none, or of several of them one behind the other."""
    if isinstance(part, Markup):
        return part
    if part is None:
        return Markup("")
    if isinstance(part, (str, int)):
        return Markup(escape(str(part), quote=True))
    return Markup("".join(map(text, part)))


def el(element: str, *parts: Part, **attributes: object) -> Markup:
    """An element with these parts in it.

    An underscore in an attribute's name is a hyphen, one at its end is left out (`class_`). An attribute that is None
    or False is left out, one that is True stands alone.
    """
    words = [element]
    for name, value in attributes.items():
        if value is None or value is False:
            continue
        name = name.rstrip("_").replace("_", "-")
        words.append(name if value is True else f'{name}="{escape(str(value), quote=True)}"')
    start = f"<{' '.join(words)}>"
    return Markup(start) if element in EMPTY else Markup(f"{start}{text(parts)}</{element}>")
