"""What is made of expressions, and what has sides: walks over the tree that a model is recorded as."""
from __future__ import annotations

from typing import Any, Iterable, Iterator

from .arrays import size_of


class Sided:
    """What has a `shape`."""

    __slots__ = ()

    @property
    def size(self) -> int:
        """How many entries there are."""
        return size_of(self.shape)

    @property
    def ndim(self) -> int:
        """How many sides there are."""
        return len(self.shape)


class Made:
    """What is made of expressions: those that `_roots()` gives, and what they stand on."""

    __slots__ = ()

    def _roots(self) -> list:
        """The expressions that it is made of."""
        raise NotImplementedError

    def variables(self) -> list:
        """The variables that stand in it, each once, in the order in which they are met."""
        return leaves_of(self._roots(), "variable")

    def parameters(self) -> list:
        """The parameters that stand in it, each once, in the order in which they are met."""
        return leaves_of(self._roots(), "parameter")

    def constants(self) -> list:
        """The constants that stand in it, each once, in the order in which they are met."""
        return leaves_of(self._roots(), "constant")

    def atoms(self) -> list:
        """The kinds of what it is made of, each once, as the program's language names them."""
        return list(dict.fromkeys(node.kind for node in postorder(self._roots()) if node.args))


def postorder(roots: Iterable[Any]) -> Iterator[Any]:
    """Every node under these, each object once, behind what it is made of. Trees may be deeper than Python's stack."""
    seen: set = set()
    for root in roots:
        stack = [(root, False)]
        while stack:
            item, is_open = stack.pop()
            if is_open:
                yield item
            elif id(item) not in seen:
                seen.add(id(item))
                if not item.args:
                    yield item
                    continue
                stack.append((item, True))
                stack.extend((arg, False) for arg in reversed(item.args))


def leaves_of(roots: Iterable[Any], kind: str) -> list:
    """The leaves of a kind under these, each once, in the order in which they are met."""
    return [item for item in postorder(roots) if item.kind == kind]
