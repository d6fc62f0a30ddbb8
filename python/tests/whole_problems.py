"""Small problems in whole numbers for tests, with all of their whole points to try."""
from __future__ import annotations

import random
from fractions import Fraction
from itertools import product

import dcx.cvxpy as cp
from dcx.whole.rows import rows_of
from dcx.whole.search import Search
from dcx.whole.steps import step_of


class Small:
    """A random problem whose variables are all whole, within a few numbers; `best()` tries all points."""

    def __init__(self, seed: int):
        r = random.Random(seed)
        self.count = r.randint(1, 3)
        self.numbers = r.randint(0, 2)
        take = cp.Variable(self.count, boolean=True, name="take")
        many = [cp.Variable(integer=True, name=f"many{i}") for i in range(self.numbers)]
        self.rules, given = [], []
        for i, variable in enumerate(many):
            low = r.randint(-2, 1)
            high = low + r.randint(0, 3)
            given += [variable >= low, variable <= high]
            self.rules.append((low, high))
        parts = [take[i] for i in range(self.count)] + many
        self.rows = []
        for _ in range(r.randint(1, 3)):
            row = [r.randint(-4, 5) for _ in parts]
            right = Fraction(r.randint(-2, 9), r.choice((1, 1, 2)))
            self.rows.append((row, right, r.random() < 0.15 and right.denominator == 1))
            left = sum(a * part for a, part in zip(row, parts))
            given.append(left == right if self.rows[-1][2] else left <= right)
        self.costs = [Fraction(r.randint(-6, 9), r.choice((1, 1, 2, 3))) for _ in parts]
        self.bent = r.choice((None, "abs", "max"))
        self.is_maximized = r.random() < 0.4
        cost = sum(c * part for c, part in zip(self.costs, parts))
        if self.bent:
            bent = cp.abs(parts[0] - 2 * parts[-1]) if self.bent == "abs" else cp.max(cp.hstack([parts[0], parts[-1]]))
            cost = cost - bent if self.is_maximized else cost + bent
        self.problem = cp.Problem(cp.Maximize(cost) if self.is_maximized else cp.Minimize(cost), given)

    def cost(self, point) -> Fraction:
        cost = sum(c * x for c, x in zip(self.costs, point))
        if self.bent:
            bent = abs(point[0] - 2 * point[-1]) if self.bent == "abs" else max(point[0], point[-1])
            cost += -bent if self.is_maximized else bent
        return Fraction(cost)

    def best(self):
        """The best value of all points, None where none keeps the constraints."""
        ranges = [(0, 1)] * self.count + [tuple(range(low, high + 1)) for low, high in self.rules]
        costs = [
            self.cost(point) for point in product(*ranges)
            if all(
                (total == right if is_equal else total <= right)
                for row, right, is_equal in self.rows
                for total in [sum(a * x for a, x in zip(row, point))]
            )
        ]
        return (max if self.is_maximized else min)(costs, default=None)


def searched(problem, use_floats: bool = True, **arguments) -> Search:
    """The search of a problem, at its end."""
    script, settings = problem.script(), problem.settings()
    rows = rows_of(script, settings)
    search = Search(rows, step_of(script, settings), use_floats=use_floats, **arguments)
    search.run()
    return search


def knapsack(n: int, seed: int):
    r = random.Random(seed)
    weight = [r.randint(20, 60) for _ in range(n)]
    worth = [w + r.randint(1, 15) for w in weight]
    take = cp.Variable(n, boolean=True, name="take")
    total = cp.sum(cp.multiply(cp.Constant(worth), take))
    return cp.Problem(cp.Maximize(total), [cp.sum(cp.multiply(cp.Constant(weight), take)) <= sum(weight) // 2])


def plant(seed: int):
    """Machines that run or don't, at a power that may have fractions, and a number of crates."""
    r = random.Random(seed)
    runs, crates = cp.Variable(4, boolean=True, name="runs"), cp.Variable(integer=True, nonneg=True, name="crates")
    power = cp.Variable(4, nonneg=True, name="power")
    most = cp.Constant([r.randint(5, 12) for _ in range(4)])
    fuel, fixed = ([r.randint(2, 9) for _ in range(4)] for _ in range(2))
    cost = cp.sum(cp.multiply(cp.Constant(fuel), power)) + cp.sum(cp.multiply(cp.Constant(fixed), runs)) + 3 * crates
    return cp.Problem(cp.Minimize(cost), [power <= cp.multiply(most, runs), cp.sum(power) + 7 * crates / 2 == 23])
