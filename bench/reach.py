"""Measures what whole numbers cost, beside `glpsol`: `reach.py [SECONDS [KIND ..]]` prints a row of a table for each problem.

    knapsack N          N things of which those that weigh half of all at the most are to be worth much
    shifts N            how many people begin at each of N slots of a day, so that each slot is covered; a shift has a third of the day
    roster N D          who of N people works on which of D days, no three in a row, at their wishes
    commitment U T      which of U generators run in each of T hours, at costs for starting and for power
    makespan J M        which of J jobs go to which of M machines that are alike, so that all of them are done early

Each is written as a script for `dcx solve` and in CPLEX's LP format for `glpsol`, from the same numbers. SECONDS, 120 where it isn't given, is how many processor seconds each run may take.
`nodes` and the end are those that dcx prints; where both have an optimum, their values are compared. `glpsol` calculates in floating point and has a
tolerance of 1e-7, and its seconds are those that it takes with its own defaults.

    reach.py script KIND N ..   prints the script alone, and `reach.py lp KIND N ..` the other one.
"""
import os
import sys
import tempfile
from fractions import Fraction

from taken import TOP, run


class Program:
    """A mixed-integer program for glpsol: the terms of an objective, rows, and the names of what is whole."""

    def __init__(self, sense):
        self.sense, self.objective, self.rows, self.binary, self.integer = sense, [], [], [], []

    def row(self, terms, end):
        self.rows.append((terms, end))

    def text(self):
        def lines(parts):
            return [" " + " ".join(parts[i : i + 6]) for i in range(0, len(parts), 6)]

        told = [self.sense, " value:", *lines([f"+ {c} {name}" for c, name in self.objective]), "Subject To"]
        for number, (terms, end) in enumerate(self.rows):
            told += [f" r{number}:", *lines([f"{'-' if c < 0 else '+'} {abs(c)} {name}" for c, name in terms]), f" {end}"]
        for word, names in (("Binary", self.binary), ("General", self.integer)):
            told += [word, *lines(names)] if names else []
        return "\n".join([*told, "End", ""])


def script(*lines):
    return "\n".join(["import cvxpy as cp", "import numpy as np", *lines, "prob.solve()", ""])


# ---- the problems
def knapsack(n):
    weight = [11 + 17 * i * i % 41 for i in range(n)]
    worth = [13 + 17 * i * i % 41 + 29 * i % 7 for i in range(n)]
    program = Program("Maximize")
    program.binary = [f"x{i}" for i in range(n)]
    program.objective = list(zip(worth, program.binary))
    program.row(list(zip(weight, program.binary)), f"<= {sum(weight) // 2}")
    return program, script(
        f"weight = np.array({weight})",
        f"worth = np.array({worth})",
        f"take = cp.Variable({n}, boolean=True)",
        f"prob = cp.Problem(cp.Maximize(worth @ take), [weight @ take <= {sum(weight) // 2}])",
    )


def shifts(n):
    need = [2 + (5 * i * i + 3 * i) % 7 for i in range(n)]
    pay = [10 + (3 * i) % 4 for i in range(n)]
    covers = [[1 if (slot - begin) % n < n // 3 else 0 for begin in range(n)] for slot in range(n)]
    program = Program("Minimize")
    program.integer = [f"x{i}" for i in range(n)]
    program.objective = list(zip(pay, program.integer))
    for slot in range(n):
        program.row([(1, f"x{begin}") for begin in range(n) if covers[slot][begin]], f">= {need[slot]}")
    return program, script(
        f"need = np.array({need})",
        f"pay = np.array({pay})",
        f"covers = np.array({covers})",
        f"begin = cp.Variable({n}, integer=True, nonneg=True)",
        "prob = cp.Problem(cp.Minimize(pay @ begin), [covers @ begin >= need])",
    )


def roster(people, days):
    wish = [[(3 * i * i + 5 * d + 7 * i * d) % 6 for d in range(days)] for i in range(people)]
    need = [people // 2 + (d * d + d) % 3 % 2 for d in range(days)]
    most = 5 * days // 7
    program = Program("Maximize")
    works = [[f"works{i}_{d}" for d in range(days)] for i in range(people)]
    program.binary = sum(works, [])
    program.objective = [(wish[i][d], works[i][d]) for i in range(people) for d in range(days)]
    for d in range(days):
        program.row([(1, works[i][d]) for i in range(people)], f"= {need[d]}")
    for i in range(people):
        program.row([(1, name) for name in works[i]], f"<= {most}")
        for d in range(days - 2):
            program.row([(1, name) for name in works[i][d : d + 3]], "<= 2")
    return program, script(
        f"wish = np.array({wish})",
        f"need = np.array({need})",
        f"works = cp.Variable(({people}, {days}), boolean=True)",
        f"rules = [cp.sum(works, axis=0) == need, cp.sum(works, axis=1) <= {most}]",
        "rules += [works[:, :-2] + works[:, 1:-1] + works[:, 2:] <= 2]",
        "prob = cp.Problem(cp.Maximize(cp.sum(cp.multiply(wish, works))), rules)",
    )


def commitment(units, hours):
    least = [10 + 5 * u for u in range(units)]
    most = [40 + 20 * u for u in range(units)]
    price = [30 - 4 * u for u in range(units)]
    keeps = [60 + 45 * u for u in range(units)]
    start = [50 + 70 * u for u in range(units)]
    demand = [sum(most) * (30 + 35 * ((t * t + 3 * t) % 5) // 4 + 20 * (t % 3)) // 120 for t in range(hours)]
    program = Program("Minimize")
    on = [[f"on{u}_{t}" for t in range(hours)] for u in range(units)]
    power = [[f"power{u}_{t}" for t in range(hours)] for u in range(units)]
    starts = [[f"starts{u}_{t}" for t in range(hours)] for u in range(units)]
    program.binary = sum(on, [])
    for u in range(units):
        for t in range(hours):
            program.objective += [(price[u], power[u][t]), (keeps[u], on[u][t]), (start[u], starts[u][t])]
            program.row([(1, power[u][t]), (-most[u], on[u][t])], "<= 0")
            program.row([(1, power[u][t]), (-least[u], on[u][t])], ">= 0")
            program.row([(1, on[u][t]), (-1, starts[u][t])] + ([(-1, on[u][t - 1])] if t else []), "<= 0")
    for t in range(hours):
        program.row([(1, power[u][t]) for u in range(units)], f"= {demand[t]}")
    return program, script(
        f"least = np.array({least})",
        f"most = np.array({most})",
        f"price = np.array({price})",
        f"keeps = np.array({keeps})",
        f"start = np.array({start})",
        f"demand = np.array({demand})",
        f"on = cp.Variable(({units}, {hours}), boolean=True)",
        f"power = cp.Variable(({units}, {hours}), nonneg=True)",
        f"starts = cp.Variable(({units}, {hours}), nonneg=True)",
        "rules = [cp.sum(power, axis=0) == demand, on[:, 0] <= starts[:, 0], on[:, 1:] - on[:, :-1] <= starts[:, 1:]]",
        f"for u in range({units}):",
        "    rules += [power[u] <= most[u]*on[u], power[u] >= least[u]*on[u]]",
        "cost = cp.sum(price @ power + keeps @ on + start @ starts)",
        "prob = cp.Problem(cp.Minimize(cost), rules)",
    )


def makespan(jobs, machines):
    hours = [3 + (7 * j * j + 5 * j) % 11 for j in range(jobs)]
    program = Program("Minimize")
    does = [[f"does{j}_{m}" for m in range(machines)] for j in range(jobs)]
    program.binary = sum(does, [])
    program.objective = [(1, "end")]
    for m in range(machines):
        program.row([(hours[j], does[j][m]) for j in range(jobs)] + [(-1, "end")], "<= 0")
    for j in range(jobs):
        program.row([(1, does[j][m]) for m in range(machines)], "= 1")
    return program, script(
        f"hours = np.array({hours})",
        f"does = cp.Variable(({jobs}, {machines}), boolean=True)",
        "prob = cp.Problem(cp.Minimize(cp.max(hours @ does)), [cp.sum(does, axis=1) == 1])",
    )


KINDS = {"knapsack": knapsack, "shifts": shifts, "roster": roster, "commitment": commitment, "makespan": makespan}
MEASURED = {
    "knapsack": [(20,), (30,), (40,), (60,)],
    "shifts": [(12,), (24,), (48,)],
    "roster": [(6, 7), (10, 7), (8, 14)],
    "commitment": [(3, 8), (3, 12), (4, 12), (4, 24)],
    "makespan": [(8, 2), (12, 2), (8, 3), (10, 3), (13, 3), (12, 4)],
}


# ---- the runs
def timed(words, most):
    """What a run prints, and its processor seconds; None where it takes more of them than it may."""
    made = run(words, most)
    return (None if made.status < 0 else made.printed), made.seconds


def dcx(text, most):
    """How dcx ends, its value, its nodes, its seconds."""
    with tempfile.NamedTemporaryFile("w", suffix=".py") as file:
        file.write(text)
        file.flush()
        report, seconds = timed([os.path.join(TOP, "dist", "dcx"), "solve", file.name], most)
    if report is None:
        return "no answer", None, "", f"over {most}"
    lines = {line.split()[0]: line.split()[1:] for line in report.split("\n") if line}
    end = lines["solve"][1:]
    if end[0] == "stopped":
        return " ".join(end[1:]), None, "", f"{seconds:.2f}"
    return " ".join(end), Fraction(lines["value"][0]), lines["nodes"][0], f"{seconds:.2f}"


def glpsol(text, most):
    """How glpsol ends, its value, its seconds."""
    with tempfile.TemporaryDirectory() as folder:
        model, solution = os.path.join(folder, "model.lp"), os.path.join(folder, "solution.txt")
        with open(model, "w") as file:
            file.write(text)
        report, seconds = timed(["glpsol", "--lp", model, "-w", solution], most)
        head = []
        if os.path.exists(solution):
            with open(solution) as file:
                head = next((line.split() for line in file if line.startswith("s ")), [])
    if report is None or not head or head[4] != "o":
        return "no optimum", None, f"{seconds:.2f}" if seconds < most else f"over {most}"
    return "optimal", Fraction(head[5]), f"{seconds:.2f}"


def measure(most, kinds):
    print("| problem | variables that are whole | `dcx` | nodes | seconds | `glpsol`, seconds |\n|---|---|---|---|---|---|")
    for kind in kinds:
        for size in MEASURED[kind]:
            program, text = KINDS[kind](*size)
            end, value, nodes, seconds = dcx(text, most)
            other, other_value, other_seconds = glpsol(program.text(), most)
            agrees = "" if None in (value, other_value) or abs(value - other_value) < Fraction(1, 10**6) else f", {value} and not {other_value}"
            whole = len(program.binary) + len(program.integer)
            told = other_seconds if other == "optimal" else f"{other}, {other_seconds}"
            print(f"| {kind} {' by '.join(map(str, size))} | {whole} | {end} | {nodes} | {seconds} | {told}{agrees} |", flush=True)


def main(words):
    is_one = words[:1] in (["script"], ["lp"])
    numbers, kinds = (words[2:], words[1:2]) if is_one else (words[:1], words[1:])
    if not all(it.isdigit() for it in numbers) or not set(kinds) <= set(KINDS) or is_one and not (kinds and numbers):
        sys.exit(__doc__)
    if is_one:
        program, text = KINDS[words[1]](*map(int, words[2:]))
        print(text if words[0] == "script" else program.text(), end="")
    else:
        measure(int(words[0]) if words else 120, words[1:] or list(KINDS))


if __name__ == "__main__":
    main(sys.argv[1:])
