"""Writes a problem in whole numbers, for `dcx solve` and for another exact solver: `whole.py knapsack|assignment|shifts dcx|lp N`.

knapsack: N things with a weight and a worth each, of which those that weigh half of all at the most are to be worth much.
assignment: N people and N tasks, each of which one person does, at low costs. Its relaxation has an optimum in whole numbers.
shifts: the same, where each person takes some hours for a task, and all of them together have no more than a limit.

dcx: a script, for `dcx solve FILE`. lp: CPLEX's LP format, for `glpsol --exact --lp FILE`.
"""
import sys


def things(n):
    """The weight and the worth of each thing."""
    return [(11 + 17 * i * i % 41, 13 + (17 * i * i % 41) + 29 * i % 7) for i in range(n)]


def costs(n):
    return [[5 + (7 * i * i + 11 * j + 13 * i * j) % 23 for j in range(n)] for i in range(n)]


def hours(n):
    """What costs little takes long, more or less."""
    return [[12 - cost // 3 + (3 * i + 5 * j) % 5 for j, cost in enumerate(row)] for i, row in enumerate(costs(n))]


def limit(n):
    """The hours that are taken where person i does task i."""
    return sum(row[i] for i, row in enumerate(hours(n)))


def script(lines):
    return ["import cvxpy as cp", "import numpy as np", *lines, "prob.solve()"]


def knapsack_dcx(n):
    weights, worths = zip(*things(n))
    return script([
        f"weight = np.array({list(weights)})",
        f"worth = np.array({list(worths)})",
        f"take = cp.Variable({n}, boolean=True)",
        f"prob = cp.Problem(cp.Maximize(worth @ take), [weight @ take <= {sum(weights) // 2}])",
    ])


def assignment_dcx(n, has_limit=False):
    rules = ["cp.sum(does, axis=0) == 1", "cp.sum(does, axis=1) == 1"]
    if has_limit:
        rules.append(f"cp.sum(cp.multiply(hours, does)) <= {limit(n)}")
    return script([
        f"cost = np.array({costs(n)})",
        *([f"hours = np.array({hours(n)})"] if has_limit else []),
        f"does = cp.Variable(({n}, {n}), boolean=True)",
        f"prob = cp.Problem(cp.Minimize(cp.sum(cp.multiply(cost, does))), [{', '.join(rules)}])",
    ])


def lines_of(parts):
    """The parts, six on a line, since lines of the LP format are short."""
    return [" " + " ".join(parts[i : i + 6]) for i in range(0, len(parts), 6)]


def lp(sense, objective, rows, names):
    text = [sense, " value:", *lines_of(objective), "Subject To"]
    for name, parts, end in rows:
        text += [f" {name}:", *lines_of(parts), f" {end}"]
    return [*text, "Binary", *lines_of(names), "End"]


def knapsack_lp(n):
    weights, worths = zip(*things(n))
    names = [f"x{i}" for i in range(n)]
    terms = [f"+ {w} {x}" for w, x in zip(weights, names)]
    return lp("Maximize", [f"+ {w} {x}" for w, x in zip(worths, names)], [("weight", terms, f"<= {sum(weights) // 2}")], names)


def assignment_lp(n, has_limit=False):
    def terms(numbers):
        return [f"+ {numbers[i][j]} x{i}_{j}" for i in range(n) for j in range(n)]

    rows = [(f"task{j}", [f"+ x{i}_{j}" for i in range(n)], "= 1") for j in range(n)]
    rows += [(f"person{i}", [f"+ x{i}_{j}" for j in range(n)], "= 1") for i in range(n)]
    if has_limit:
        rows.append(("hours", terms(hours(n)), f"<= {limit(n)}"))
    return lp("Minimize", terms(costs(n)), rows, [f"x{i}_{j}" for i in range(n) for j in range(n)])


PROBLEMS = {
    ("knapsack", "dcx"): knapsack_dcx,
    ("knapsack", "lp"): knapsack_lp,
    ("assignment", "dcx"): assignment_dcx,
    ("assignment", "lp"): assignment_lp,
    ("shifts", "dcx"): lambda n: assignment_dcx(n, True),
    ("shifts", "lp"): lambda n: assignment_lp(n, True),
}
if len(sys.argv) != 4 or (sys.argv[1], sys.argv[2]) not in PROBLEMS:
    raise SystemExit(__doc__)
print(*PROBLEMS[sys.argv[1], sys.argv[2]](int(sys.argv[3])), sep="\n")
