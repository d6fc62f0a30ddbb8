"""The revised simplex method from any basis, in either arithmetic: the dual method until no level is below 0, then the
primal one.

Where a basis isn't dual feasible, the dual method has other costs, with which it is. Both choose by greatest
improvement in a norm that follows the pivots (Devex, Harris 1973; Forrest and Goldfarb 1992), and in a stretch of
pivots without progress by Bland's rule, which ends.
"""
from __future__ import annotations

from typing import Optional

from .standard import FREE, NONNEG, ZERO

# So many pivots without progress, in whole numbers, until Bland's rule chooses.
PATIENCE = 40
# So many pivots, in floating-point numbers, until factors are formed anew.
FRESH = 50


class End:
    """How a run ends: `optimal`; `infeasible` with the multipliers of rows; `unbounded` with a column, its direction
    and its numbers; or `lost`.
    """

    def __init__(self, kind, multipliers=None, column=None, direction=None, alpha=None, scale=None):
        self.kind, self.multipliers = kind, multipliers
        self.column, self.direction, self.alpha, self.scale = column, direction, alpha, scale


class Run:
    """A run over a program from a basis. `most` is how many pivots it may have, None where there is no limit."""

    def __init__(self, form, numbers, basis, most: Optional[int] = None):
        self.form, self.numbers, self.most = form, numbers, most
        self.kinds, self.pivots, self.idle = form.kinds, 0, 0
        self.costs = list(numbers.costs)
        self.basis = basis
        self.refresh()

    def refresh(self):
        """Factors the basis, and forms levels and reduced costs from it."""
        self.basis = self.numbers.factor(self.basis)
        self.is_basic = [False] * len(self.kinds)
        for c in self.basis:
            self.is_basic[c] = True
        self.levels = self.numbers.levels()
        self.reduced = self.numbers.reduced(self.costs)

    def found(self) -> End:
        end = self.phase_one() if any(self.is_out(i) for i in range(self.form.size)) else None
        return end or self.phase_two()

    # Levels and reduced costs

    def is_out(self, i):
        """Whether the level of a basic column isn't feasible."""
        kind, level, most = self.kinds[self.basis[i]], self.levels[i], self.numbers.feasible
        return kind != FREE and (level < -most or (kind == ZERO and level > most))

    def wants_in(self, c):
        """Whether a column may enter with an improvement."""
        d, most = self.reduced[c], self.numbers.optimal
        if d >= -most and (d <= most or self.kinds[c] != FREE):
            return False
        return not self.is_basic[c] and self.kinds[c] != ZERO

    @property
    def is_bland(self):
        return not self.numbers.drifts and self.idle > PATIENCE

    def pivot(self, r, q, alpha, scale, row, row_scale):
        leaving = self.basis[r]
        makes_progress = self.levels[r] != 0 and self.reduced[q] != 0
        self.idle = 0 if makes_progress else self.idle + 1
        self.levels = self.numbers.moved(self.levels, r, alpha, scale)
        self.reduced = self.numbers.turned(self.reduced, q, leaving, row, row_scale)
        self.numbers.replace(r, q, alpha)
        self.basis[r] = q
        self.is_basic[leaving], self.is_basic[q] = False, True
        self.pivots += 1
        if self.numbers.drifts and self.pivots % FRESH == 0:
            self.refresh()

    def is_over(self):
        return self.most is not None and self.pivots >= self.most

    # The dual method

    def phase_one(self):
        """Pivots until no level is below 0; an end where that can't be."""
        is_changed = self.change_costs()
        self.norms, self.idle = [1.0] * self.form.size, 0
        while (r := self.leaving()) is not None:
            if self.is_over():
                return End("lost")
            multipliers, row, row_scale = self.numbers.row(r)
            sign = 1 if self.levels[r] < 0 else -1
            q = self.dual_entering(row, sign)
            if q is None:
                return End("infeasible", [sign * y for y in multipliers])
            alpha, scale = self.numbers.column(q)
            if not alpha[r]:
                return End("lost")
            self.pivot(r, q, alpha, scale, row, row_scale)
            self.follow_rows(r, alpha)
        if is_changed:
            self.costs = list(self.numbers.costs)
            self.reduced = self.numbers.reduced(self.costs)
        return None

    def change_costs(self):
        """Makes reduced costs 0 that aren't feasible."""
        wrong = [c for c in range(len(self.kinds)) if self.wants_in(c)]
        for c in wrong:
            if self.numbers.drifts:
                self.costs[c] -= self.reduced[c]
            self.reduced[c] = 0
        return bool(wrong)

    def leaving(self):
        """The position whose level is farthest beyond 0."""
        listed = [i for i in range(self.form.size) if self.is_out(i)]
        if not listed:
            return None
        if self.is_bland:
            return min(listed, key=self.basis.__getitem__)
        greatest = max(abs(self.levels[i]) for i in listed)
        return max(listed, key=lambda i: (self.levels[i] / greatest) ** 2 / self.norms[i])

    def dual_entering(self, row, sign):
        """The column that first gets a reduced cost of 0 as the level of the row goes to 0."""
        listed, quotient, kinds = [], self.numbers.quotient, self.kinds
        for c, v in row.items():
            kind = kinds[c]
            if kind == FREE or (kind == NONNEG and (v < 0 if sign > 0 else v > 0)):
                if abs(v) > self.numbers.least:
                    listed.append((c, abs(v), 0 if kind == FREE else max(self.reduced[c], 0)))
        return self.chosen(listed, quotient)

    def chosen(self, listed, quotient, slack=None):
        """Of (choice, pivot, distance) the one whose distance / pivot is least; of those that are as near, the one with
        the greatest pivot.
        """
        if not listed:
            return None
        slack = self.numbers.optimal if slack is None else slack
        least = min(quotient(d + slack, v) for _, v, d in listed)
        near = [(c, v) for c, v, d in listed if quotient(d, v) <= least]
        if self.is_bland:
            return min(near)[0]
        return max(near, key=lambda item: (item[1], -item[0]))[0]

    def follow_rows(self, r, alpha):
        """Norms of the rows behind a pivot."""
        pivot, norm = alpha[r], self.norms[r]
        try:
            for i, a in enumerate(alpha):
                if a:
                    ratio = a / pivot
                    self.norms[i] = max(self.norms[i], ratio * ratio * norm)
            self.norms[r] = max(norm * (1.0 / pivot) ** 2 if self.numbers.drifts else 1.0, 1.0)
        except OverflowError:
            self.norms = [1.0] * self.form.size

    # The primal method

    def phase_two(self):
        """Pivots until no column may enter, or one may without end."""
        self.norms, self.idle = [1.0] * len(self.kinds), 0
        while (q := self.entering()) is not None:
            if self.is_over():
                return End("lost")
            alpha, scale = self.numbers.column(q)
            sign = 1 if self.reduced[q] < 0 else -1
            r = self.primal_leaving(alpha, sign)
            if r is None:
                return End("unbounded", column=q, direction=sign, alpha=alpha, scale=scale)
            _, row, row_scale = self.numbers.row(r)
            if not row.get(q):
                return End("lost")
            leaving = self.basis[r]
            self.pivot(r, q, alpha, scale, row, row_scale)
            self.follow_columns(q, leaving, row)
        return End("optimal")

    def entering(self):
        listed = [c for c in range(len(self.kinds)) if self.wants_in(c)]
        if not listed:
            return None
        if self.is_bland:
            return listed[0]
        greatest = max(abs(self.reduced[c]) for c in listed)
        return max(listed, key=lambda c: (self.reduced[c] / greatest) ** 2 / self.norms[c])

    def primal_leaving(self, alpha, sign):
        """The position whose level first gets to 0 as the column enters."""
        listed = []
        for i, a in enumerate(alpha):
            kind = self.kinds[self.basis[i]] if a else FREE
            if kind == ZERO or (kind == NONNEG and (a > 0 if sign > 0 else a < 0)):
                if abs(a) > self.numbers.least:
                    listed.append((self.basis[i], abs(a), 0 if kind == ZERO else max(self.levels[i], 0), i))
        if not listed:
            return None
        column = self.chosen([item[:3] for item in listed], self.numbers.quotient, self.numbers.feasible)
        return next(i for c, _, _, i in listed if c == column)

    def follow_columns(self, q, leaving, row):
        """Norms of the columns behind a pivot."""
        pivot, norm = row[q], self.norms[q]
        try:
            for c, v in row.items():
                ratio = v / pivot
                self.norms[c] = max(self.norms[c], ratio * ratio * norm)
            self.norms[leaving] = max(norm * (1.0 / pivot) ** 2 if self.numbers.drifts else 1.0, 1.0)
        except OverflowError:
            self.norms = [1.0] * len(self.kinds)
