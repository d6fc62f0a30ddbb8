"""Problems in whole numbers, answered with evidence, beside `glpsol`: the table of docs/PYTHON.md, "Whole numbers".

    PYTHONPATH=python /usr/bin/python3 bench/whole_evidence.py [NAME ..]

For each problem: how many yes-or-no and whole variables it has, the relaxations that were solved, the leaves of the
tree, the seconds until the evidence is made, its size, the seconds of its check, and the seconds that the program's own
branch and bound and `glpsol` take, which have at most PROGRAM_SECONDS and SECONDS. Names are those of the table's first
column, without blanks, as `commitment4x12`.
"""
import random
import re
import subprocess
import sys
import tempfile
import time
from pathlib import Path

import numpy as np

import dcx.cvxpy as cp
from dcx import program
from dcx.reports import read_report
from dcx.whole.evidence import evidence
from dcx.whole.rows import rows_of
from dcx.whole.search import Over, Search
from dcx.whole.steps import step_of

SECONDS = 240
PROGRAM_SECONDS = 10


def knapsack(n, seed):
    """Things with a weight and about as much worth, of which those of half the weight are taken."""
    r = random.Random(seed)
    weight = np.array([r.randint(30, 100) for _ in range(n)])
    worth = weight + np.array([r.randint(1, 20) for _ in range(n)])
    take = cp.Variable(n, boolean=True, name="take")
    return cp.Problem(cp.Maximize(worth @ take), [weight @ take <= int(weight.sum()) // 2])


def assignment(n, seed):
    """People and tasks at costs, where all of them together have no more than some hours."""
    r = random.Random(seed)
    cost = np.array([[r.randint(5, 30) for _ in range(n)] for _ in range(n)])
    hours = 35 - cost + np.array([[r.randint(0, 6) for _ in range(n)] for _ in range(n)])
    does = cp.Variable((n, n), boolean=True, name="does")
    rules = [cp.sum(does, axis=0) == 1, cp.sum(does, axis=1) == 1]
    limit = int(np.trace(hours)) * 9 // 10
    return cp.Problem(cp.Minimize(cp.sum(cp.multiply(cost, does))), [*rules, cp.sum(cp.multiply(hours, does)) <= limit])


def commitment(units, hours, seed):
    """Which units run at which hours, and at what power, so that demand and a reserve of a tenth are met."""
    r = random.Random(seed)
    least = np.array([r.randint(15, 45) for _ in range(units)])
    most = least + np.array([r.randint(30, 110) for _ in range(units)])
    fuel = np.array([r.randint(160, 340) for _ in range(units)])
    fixed = np.array([r.randint(8, 35) * 100 for _ in range(units)])
    startup = np.array([r.randint(10, 55) * 100 for _ in range(units)])
    top = int(most.sum())
    demand = np.array(
        [round(top * (0.45 + 0.3 * abs(((t + 6) % 24) - 12) / 12) + r.randint(-8, 8)) for t in range(hours)]
    )
    on = cp.Variable((units, hours), boolean=True, name="on")
    start = cp.Variable((units, hours), boolean=True, name="start")
    power = cp.Variable((units, hours), nonneg=True, name="power")
    cost = cp.sum(fuel @ power) + cp.sum(fixed @ on) + cp.sum(startup @ start)
    rules = [cp.sum(power, axis=0) == demand, -10 * (most @ on) <= -11 * demand]
    for g in range(units):
        rules += [
            int(least[g]) * on[g, :] <= power[g, :], power[g, :] <= int(most[g]) * on[g, :], on[g, 0] <= start[g, 0],
            on[g, 1:] - on[g, :-1] <= start[g, 1:],
        ]
    return cp.Problem(cp.Minimize(cost), rules)


def makespan(jobs, machines, seed):
    """Jobs on machines, where the last machine is to be done soon."""
    r = random.Random(seed)
    takes = np.array([r.randint(10, 60) for _ in range(jobs)])
    runs = cp.Variable((machines, jobs), boolean=True, name="runs")
    return cp.Problem(cp.Minimize(cp.max(runs @ takes)), [cp.sum(runs, axis=0) == 1])


def shifts(days, seed):
    """How many people begin their five days at which day of a week that comes again, where each day wants some."""
    r = random.Random(seed)
    wanted = np.array([r.randint(10, 40) for _ in range(days)])
    works = np.array([[int((day - start) % days < 5) for start in range(days)] for day in range(days)])
    wage = np.array([r.randint(8, 12) for _ in range(days)])
    people = cp.Variable(days, integer=True, nonneg=True, name="people")
    return cp.Problem(cp.Minimize(wage @ people), [works @ people >= wanted])


PROBLEMS = {
    "knapsack 30": lambda: knapsack(30, 1),
    "knapsack 60": lambda: knapsack(60, 1),
    "assignment 8": lambda: assignment(8, 1),
    "assignment 15": lambda: assignment(15, 1),
    "commitment 3x12": lambda: commitment(3, 12, 1),
    "commitment 4x12": lambda: commitment(4, 12, 1),
    "commitment 5x24": lambda: commitment(5, 24, 1),
    "commitment 10x24": lambda: commitment(10, 24, 1),
    "makespan 8 on 3": lambda: makespan(8, 3, 1),
    "makespan 12 on 3": lambda: makespan(12, 3, 1),
    "shifts 7": lambda: shifts(7, 1),
    "shifts 21": lambda: shifts(21, 1),
}


def glpk(rows):
    """The problem in CPLEX's LP format, by the rows in whole numbers."""
    def form(terms):
        parts = [f"{'+' if v > 0 else '-'} {abs(v)} x{u}" for u, v in terms] or ["0 x0"]
        return "\n  ".join(" ".join(parts[i : i + 6]) for i in range(0, len(parts), 6))

    lines = ["Minimize", f" cost: {form(rows.costs)}", "Subject To"]
    for i, row in enumerate(rows.rows):
        lines.append(f" r{i}: {form(rows.terms[i])} {'=' if row.is_equal else '<='} {-rows.constants[i]}")
    lines.append("Bounds")
    for u in range(len(rows.kinds)):
        low, high = rows.ends(rows.relaxation.root, u)
        lines.append(f" {'-inf' if low is None else low} <= x{u} <= {'+inf' if high is None else high}")
    return "\n".join([*lines, "Generals", *(f" x{u}" for u in rows.whole), "End", ""])


def seconds_of_glpsol(rows, best):
    """How long `glpsol` takes, with its cuts; None where it has no answer in time. Its value is to be the same."""
    with tempfile.TemporaryDirectory() as folder:
        path, said = Path(folder, "model.lp"), Path(folder, "said.txt")
        path.write_text(glpk(rows))
        begun = time.monotonic()
        words = ["glpsol", "--lp", path, "--cuts", "--tmlim", str(SECONDS), "-o", said]
        printed = subprocess.run(words, capture_output=True, text=True).stdout
        spent = time.monotonic() - begun
        if "INTEGER OPTIMAL SOLUTION FOUND" not in printed:
            return f"over {SECONDS}"
        value = float(re.search(r"^Objective:  cost = (\S+)", said.read_text(), re.M).group(1)) + rows.cost_constant
        if best is not None and abs(value - float(best * rows.cost_multiple)) > 1e-6 * abs(value):
            raise SystemExit(f"glpsol has another value: {value}, and not {best}")
        return f"{spent:.2f}"


def seconds_of_program(script, settings):
    """How long the program's own branch and bound takes, or what it stops with."""
    begun = time.monotonic()
    try:
        (answer,) = read_report(program.run("resolve", script, settings, timeout=PROGRAM_SECONDS).report).answers
    except program.TimedOut:
        return f"over {PROGRAM_SECONDS}"
    return f"{time.monotonic() - begun:.2f}" if answer.stop is None else f"`{answer.stop.name}`"


def line(name, problem):
    """A line of the table."""
    script, settings = problem.script(), problem.settings()
    begun = time.monotonic()
    rows = rows_of(script, settings)
    count = len(rows.whole) - len(rows.relaxation.added)
    search = Search(rows, step_of(script, settings), seconds=SECONDS)
    try:
        search.run()
    except Over:
        gap = f"over {SECONDS}, gap {100 * search.progress().gap:.3f} %"
        others = f"{seconds_of_program(script, settings)} | {seconds_of_glpsol(rows, None)}"
        return f"| {name} | {count} | {search.nodes:,} | | {gap} | | | {others} |"
    found = evidence(search, script, settings)
    answered = time.monotonic()
    shown = found.check()
    over = time.monotonic()
    return (
        f"| {name} | {count} | {search.nodes:,} | {shown.leaves:,} | {answered - begun:.1f} | {found.size / 1e6:.2f} | "
        f"{over - answered:.1f} | {seconds_of_program(script, settings)} | "
        f"{seconds_of_glpsol(rows, search.best)} |"
    )


def main():
    heads = "problem|whole variables|boxes|leaves|seconds|MB of evidence|check, seconds|`dcx solve`|`glpsol`".split("|")
    print(f"| {' | '.join(heads)} |")
    print("|" + "---|" * len(heads))
    asked = sys.argv[1:]
    for name, problem in PROBLEMS.items():
        if not asked or name.replace(" ", "") in asked:
            print(line(name, problem()), flush=True)


if __name__ == "__main__":
    main()
