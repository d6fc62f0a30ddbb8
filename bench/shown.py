"""What becomes of problems as the digits of their data and their dense columns grow.

    PYTHONPATH=python python3 bench/shown.py [--kinds fit blend cvar flow] [--columns 2 4 6 8] [--digits 1 2 3 4 5 6]
                                              [--rows 30] [--draws 1] [--seconds 60]

For each kind, number of columns and number of digits behind the point problems are drawn, and the table says who
answers: `program`, `certificate` (one that the program accepted in this run), or the relative width of an interval
whose ends the program accepted. `no` is a problem for which none of these was shown; of several draws each has its
word.
"""
from __future__ import annotations

import argparse
import random
import sys
import time

import dcx.cvxpy as cp
from dcx.errors import DCXError
from dcx.shown import CERTIFICATE, PROGRAM

KINDS = ("fit", "blend", "cvar", "flow")


class Draw:
    """Numbers of so many digits behind the point."""

    def __init__(self, digits: int, seed: int):
        self.random, self.digits = random.Random(seed), digits

    def number(self, low: float, high: float) -> float:
        return round(self.random.uniform(low, high), self.digits)

    def vector(self, count: int, low: float, high: float) -> list[float]:
        return [self.number(low, high) for _ in range(count)]


def matrix(draw: Draw, rows: int, columns: int, low: float, high: float):
    """A matrix, as tuples by row, which the recorder takes as NumPy would."""
    return tuple(tuple(draw.vector(columns, low, high)) for _ in range(rows))


def fit(draw: Draw, columns: int, rows: int) -> cp.Problem:
    """A least absolute fit of points."""
    x = cp.Variable(columns)
    return cp.Problem(cp.Minimize(cp.norm1(matrix(draw, rows, columns, -3, 3) @ x - draw.vector(rows, -3, 3))))


def blend(draw: Draw, columns: int, rows: int) -> cp.Problem:
    """The least cost of a blend of goods that has enough of everything."""
    q = cp.Variable(2 * columns, nonneg=True)
    content = matrix(draw, columns, 2 * columns, 0, 9)
    need = [sum(row) / columns for row in content]
    need = [round(v, draw.digits) for v in need]
    return cp.Problem(cp.Minimize(cp.Constant(draw.vector(2 * columns, 1, 5)) @ q), [content @ q >= need, q <= 2])


def cvar(draw: Draw, columns: int, rows: int) -> cp.Problem:
    """The least mean of the worst tenth of the days of a portfolio."""
    w = cp.Variable(columns, nonneg=True)
    worst = max(1, rows // 10)
    losses = matrix(draw, rows, columns, -1.2, 1)
    return cp.Problem(cp.Minimize(cp.sum_largest(losses @ w, worst) / worst), [cp.sum(w) == 1, w <= 0.6])


def flow(draw: Draw, columns: int, rows: int) -> cp.Problem:
    """The least cost of a flow between so many places, of which each gets what it wants."""
    arcs = [(i, j) for i in range(columns) for j in range(columns) if i != j]
    f = cp.Variable(len(arcs), nonneg=True)
    wants = draw.vector(columns - 1, -2, 2)
    wants.append(round(-sum(wants), draw.digits))
    comes = [sum(f[k] for k, (_, j) in enumerate(arcs) if j == place) for place in range(columns)]
    goes = [sum(f[k] for k, (i, _) in enumerate(arcs) if i == place) for place in range(columns)]
    rules = [comes[place] - goes[place] == wants[place] for place in range(columns)]
    cost = cp.Constant(draw.vector(len(arcs), 1, 9)) @ f
    return cp.Problem(cp.Minimize(cost), rules + [f <= draw.vector(len(arcs), 2, 3)])


def word_of(problem: cp.Problem, seconds: float) -> str:
    """Who answers."""
    try:
        problem.solve(time_limit=seconds)
    except DCXError as error:
        print(f"{type(error).__name__}: {str(error)[:200]}", file=sys.stderr)
        return "no"
    if problem.shown_by in (PROGRAM, CERTIFICATE):
        return "program" if problem.shown_by == PROGRAM else "certificate"
    return f"{problem.interval.width:.0e}"


def main() -> None:
    parser = argparse.ArgumentParser(description=__doc__.partition("\n")[0])
    parser.add_argument("--kinds", nargs="+", choices=KINDS, default=KINDS)
    parser.add_argument("--columns", nargs="+", type=int, default=[2, 4, 6, 8])
    parser.add_argument("--digits", nargs="+", type=int, default=[1, 2, 3, 4, 5, 6])
    parser.add_argument("--rows", type=int, default=30)
    parser.add_argument("--draws", type=int, default=1)
    parser.add_argument("--seconds", type=float, default=60)
    arguments = parser.parse_args()
    print(f"| kind | columns | {' | '.join(f'{d} digits' for d in arguments.digits)} | seconds |")
    print("|---|---|" + "---|" * (len(arguments.digits) + 1))
    for kind in arguments.kinds:
        for columns in arguments.columns:
            began, cells = time.perf_counter(), []
            for digits in arguments.digits:
                draws = (Draw(digits, seed) for seed in range(arguments.draws))
                drawn = (globals()[kind](draw, columns, arguments.rows) for draw in draws)
                cells.append(", ".join(word_of(problem, arguments.seconds) for problem in drawn))
            print(f"| {kind} | {columns} | {' | '.join(cells)} | {time.perf_counter() - began:.1f} |", flush=True)


if __name__ == "__main__":
    main()
