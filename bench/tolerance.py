"""Asks `dcx` and `glpsol` the same two problems, which have no feasible point by a hair, and prints both answers: `tolerance.py`.

The scripts are `examples/shortfall/model.py` and `examples/guide/near.py`; the same numbers stand below in CPLEX's LP format. What `glpsol` tells as a
plan is put into the constraints, in fractions: `by` is by how much it breaks the one that it breaks most. Ends with status 1 where `dcx` doesn't answer
`infeasible`, or `glpsol` anything else than a plan.
"""
import os
import shutil
import subprocess
import sys
import tempfile
from fractions import Fraction

TOP = os.path.dirname(os.path.dirname(os.path.abspath(__file__)))
PROBLEMS = {
    "examples/shortfall/model.py": (
        "3 x + 4 y",
        [
            ([1, 1], "=", "1000"),
            ([1, 0], "<=", "600"),
            ([0, 1], "<=", "600"),
            (["0.5", "0.4"], "<=", "439.99999999"),
        ],
        "x y",
        "",
    ),
    "examples/guide/near.py": ("x", [([1], "<=", "1"), ([1], ">=", "1.000000000001")], "x", " x free"),
}


def lp(cost, rows, names, bounds):
    told = [" cost: " + cost]
    for number, (weights, relation, side) in enumerate(rows, 1):
        terms = " + ".join(f"{weight} {name}" for weight, name in zip(weights, names.split()) if weight)
        told.append(f" r{number}: {terms} {relation} {side}")
    return "\n".join(["Minimize", told[0], "Subject To", *told[1:], "Bounds", bounds, "End", ""])


def broken_by(rows, point):
    """By how much the point breaks the row that it breaks most."""
    most = Fraction(0)
    for weights, relation, side in rows:
        over = sum(Fraction(weight) * x for weight, x in zip(weights, point)) - Fraction(side)
        most = max(most, abs(over) if relation == "=" else over if relation == "<=" else -over)
    return most


def glpsol(options, text, rows):
    """Whether glpsol tells a plan, and what it tells."""
    with tempfile.TemporaryDirectory() as folder:
        model, solution = os.path.join(folder, "model.lp"), os.path.join(folder, "solution.txt")
        with open(model, "w") as file:
            file.write(text)
        subprocess.run(["glpsol", *options, "--lp", model, "-w", solution], stdout=subprocess.DEVNULL, check=True)
        with open(solution) as file:
            lines = [line.split() for line in file]
    head = next(words for words in lines if words[:1] == ["s"])
    if head[4:6] != ["f", "f"]:
        return False, "no plan"
    point = [Fraction(words[3]) for words in lines if words[:1] == ["j"]]
    told = " ".join(f"{float(x):.10f}".rstrip("0").rstrip(".") for x in point)
    return True, f"optimal, value {float(Fraction(head[6])):.10g}, point {told}, by {float(broken_by(rows, point)):.1e}"


def dcx(script):
    run = subprocess.run([os.path.join(TOP, "dist", "dcx"), "solve", os.path.join(TOP, script)], stdout=subprocess.PIPE, text=True)
    first, second, *_ = run.stdout.split("\n")
    return first.split()[2] == "infeasible", f"{first.split(' ', 2)[2]}, {second}"


def main():
    if not shutil.which("glpsol"):
        sys.exit("tolerance.py: no glpsol is on the path; it is in Debian's glpk-utils")
    status = 0
    for script, (cost, rows, names, bounds) in PROBLEMS.items():
        text = lp(cost, rows, names, bounds)
        print(script)
        for name, (is_as_told, told) in {
            "dcx": dcx(script),
            "glpsol": glpsol([], text, rows),
            "glpsol --exact": glpsol(["--exact"], text, rows),
        }.items():
            print(f"  {name:15}{told}")
            status = status if is_as_told else 1
    return status


if __name__ == "__main__":
    sys.exit(main())
