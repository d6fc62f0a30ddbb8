"""A basis as a product of triangular factors, over numbers of any kind, with the columns that have entered since."""
from __future__ import annotations

from typing import Callable, NamedTuple, Optional


class Field(NamedTuple):
    """How numbers of a kind are calculated with: `+`, `-` and `*` are Python's.

    `settled` brings a number into the form in which 0 is 0, `inverse` is 1 divided by it. Where `least` is set, a pivot
    has at least this part of the greatest magnitude in its column.
    """

    settled: Callable
    inverse: Callable
    least: Optional[float] = None


def modulo(p: int) -> Field:
    """Whole numbers modulo a prime."""
    return Field(lambda x: x % p, lambda x: pow(x, -1, p))


FLOATS = Field(lambda x: x if x > 1e-13 or x < -1e-13 else 0.0, lambda x: 1.0 / x, 0.05)


class Factors:
    """Of columns, each a list of (row, number): which of them are independent, in which rows they have their pivots,
    and the solutions with them.

    `places` are the positions of the columns that have pivots; `rest` are the rows that have none. The solutions are
    for as many columns as rows.
    """

    def __init__(self, field: Field, size: int, columns: list):
        self.field, self.size = field, size
        self.lower, self.pivots, self.etas = [], [], []
        self.above = [[] for _ in columns]
        self.is_open_row, self.is_open = [True] * size, [bool(column) for column in columns]
        self._singletons(columns)
        self._kernel(columns)
        self.places = sorted(position for _, position, _, _ in self.pivots)
        self.rest = [row for row in range(size) if self.is_open_row[row]]

    # Factors

    def _pivot(self, row, position, value, below):
        self.is_open_row[row] = self.is_open[position] = False
        self.pivots.append((row, position, self.field.inverse(value), self.above[position]))
        if below:
            self.lower.append((row, below))

    def _singletons(self, columns):
        """Takes columns with one number in the open rows, and rows with one in the open columns, as long as there are
        some.
        """
        is_open, is_open_row = self.is_open, self.is_open_row
        members = [[] for _ in range(self.size)]
        for position, column in enumerate(columns):
            for row, _ in column:
                members[row].append(position)
        in_column, in_row = [len(column) for column in columns], [len(listed) for listed in members]
        waiting = [(position, None) for position, count in enumerate(in_column) if count == 1]
        waiting += [(None, row) for row, count in enumerate(in_row) if count == 1]
        while waiting:
            position, row = waiting.pop()
            if row is None:
                if not is_open[position] or in_column[position] != 1:
                    continue
                row = next(r for r, _ in columns[position] if is_open_row[r])
            elif not is_open_row[row] or in_row[row] != 1:
                continue
            else:
                position = next(c for c in members[row] if is_open[c])
            value, below = None, []
            for r, v in columns[position]:
                if r == row:
                    value = v
                elif is_open_row[r]:
                    below.append((r, v))
                else:
                    self.above[position].append((r, v))
            if self.field.least is not None and below and abs(value) < self.field.least * max(abs(v) for _, v in below):
                in_row[row] = 0  # (left to the kernel)
                continue
            inverse = self.field.inverse(value)
            settled = self.field.settled
            self._pivot(row, position, value, [(r, settled(v * inverse)) for r, v in below])
            for c in members[row]:
                if is_open[c]:
                    in_column[c] -= 1
                    if in_column[c] == 1:
                        waiting.append((c, None))
            for r, _ in below:
                in_row[r] -= 1
                if in_row[r] == 1:
                    waiting.append((None, r))

    def _kernel(self, columns):
        """Takes what is left in an order that keeps it sparse (Markowitz)."""
        settled = self.field.settled
        rows = {row: {} for row in range(self.size) if self.is_open_row[row]}
        members = {}
        for position, column in enumerate(columns):
            if not self.is_open[position]:
                continue
            members[position] = set()
            for r, v in column:
                if r not in rows:
                    self.above[position].append((r, v))
                elif settled(v):
                    rows[r][position] = settled(v)
                    members[position].add(r)
        while members:
            row, position = self._best(rows, members)
            if row is None:
                del members[position]
                continue
            pivot_row = rows.pop(row)
            value = pivot_row.pop(position)
            inverse, below = self.field.inverse(value), []
            taken = members.pop(position)
            for c, v in pivot_row.items():
                members[c].discard(row)
                self.above[c].append((row, v))
            for r in taken:
                if r == row:
                    continue
                other = rows[r]
                factor = settled(other.pop(position) * inverse)
                below.append((r, factor))
                for c, v in pivot_row.items():
                    changed = settled(other.get(c, 0) - factor * v)
                    if changed:
                        if c not in other:
                            members[c].add(r)
                        other[c] = changed
                    elif c in other:
                        del other[c]
                        members[c].discard(r)
            self._pivot(row, position, value, below)

    def _best(self, rows, members):
        """A pivot that fills little; or no row and a column without one."""
        position = min(members, key=lambda c: len(members[c]))
        listed = members[position]
        if not listed:
            return None, position
        if self.field.least is not None:
            bound = self.field.least * max(abs(rows[r][position]) for r in listed)
            listed = [r for r in listed if abs(rows[r][position]) >= bound]
        return min(listed, key=lambda r: len(rows[r])), position

    # Solutions

    def solve(self, right: list) -> list:
        """The numbers x, by position, with which the columns add up to the right side, by row. The list is used up."""
        settled = self.field.settled
        for row, below in self.lower:
            t = settled(right[row])
            if t:
                for r, factor in below:
                    right[r] -= factor * t
        x = [0] * self.size
        for row, position, inverse, above in reversed(self.pivots):
            t = settled(right[row])
            if t:
                t = settled(t * inverse)
                x[position] = t
                for r, v in above:
                    right[r] -= v * t
        for place, inverse, column in self.etas:
            t = settled(x[place])
            if t:
                t = settled(t * inverse)
                for i, v in column:
                    x[i] -= v * t
            x[place] = t
        return [settled(v) for v in x] if self.etas else x

    def price(self, costs: list) -> list:
        """The numbers y, by row, whose product with each column is its cost, by position. The list is used up."""
        settled = self.field.settled
        for place, inverse, column in reversed(self.etas):
            t = costs[place]
            for i, v in column:
                c = costs[i]
                if c:
                    t -= v * c
            costs[place] = settled(settled(t) * inverse)
        y = [0] * self.size
        for row, position, inverse, above in self.pivots:
            t = costs[position]
            for r, v in above:
                if y[r]:
                    t -= v * y[r]
            y[row] = settled(settled(t) * inverse) if t else 0
        for row, below in reversed(self.lower):
            t = y[row]
            for r, factor in below:
                if y[r]:
                    t -= factor * y[r]
            y[row] = settled(t)
        return y

    def replace(self, place: int, alpha: list) -> None:
        """Puts another column in a place; alpha is its solution with the columns so far."""
        self.etas.append(
            (place, self.field.inverse(alpha[place]), [(i, v) for i, v in enumerate(alpha) if v and i != place])
        )
