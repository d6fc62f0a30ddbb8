"""Counts which fits the program answers, by columns and decimals: `digits.py [DRAWS]` prints a table.

Each is a line through 40 points by least absolute deviations, with K coefficients beside its constant: `cp.Minimize(cp.norm1(data @ slope + start - seen))`.
Data and observations are drawn with so many decimals, between -1 and 1. A cell is how many of the DRAWS fits, 10 where it isn't given, are answered; the
others are stopped as 26 Wide. With `digits.py script K DECIMALS SEED` it prints one of the scripts.
"""
import os
import random
import subprocess
import sys
import tempfile

TOP = os.path.dirname(os.path.dirname(os.path.abspath(__file__)))
POINTS = 40
COLUMNS = [1, 2, 3, 4, 5, 6, 8, 10, 15, 20]
DECIMALS = [1, 2, 3, 4, 5, 6, 8, 10, 12]


def drawn(columns, decimals, seed):
    draw = random.Random(f"{columns} {decimals} {seed}")

    def number():
        return f"{draw.uniform(-1, 1):.{decimals}f}"

    data = ", ".join("[" + ", ".join(number() for _ in range(columns)) + "]" for _ in range(POINTS))
    seen = ", ".join(number() for _ in range(POINTS))
    return "\n".join([
        "import cvxpy as cp",
        "import numpy as np",
        f"data = np.array([{data}])",
        f"seen = np.array([{seen}])",
        f"slope = cp.Variable({columns})",
        "start = cp.Variable()",
        "prob = cp.Problem(cp.Minimize(cp.norm1(data @ slope + start - seen)))",
        "prob.solve()",
        "",
    ])


def is_answered(text):
    with tempfile.NamedTemporaryFile("w", suffix=".py") as file:
        file.write(text)
        file.flush()
        run = subprocess.run([os.path.join(TOP, "dist", "dcx"), "solve", file.name], stdout=subprocess.PIPE, text=True)
    end = run.stdout.split("\n")[0]
    if not end.startswith(("solve 1 optimal", "solve 1 stopped 26 ")):
        raise SystemExit(end)
    return end == "solve 1 optimal"


def main(words):
    is_one = words[:1] == ["script"]
    if not all(it.isdigit() for it in words[is_one:]) or (len(words) != 4 if is_one else len(words) > 1):
        sys.exit(__doc__)
    if is_one:
        print(drawn(*map(int, words[1:])), end="")
        return
    draws = int(words[0]) if words else 10
    print("| columns | " + " | ".join(f"{d} decimals" if d > 1 else "1 decimal" for d in DECIMALS) + " |")
    print("|---" * (len(DECIMALS) + 1) + "|")
    for columns in COLUMNS:
        cells, last = [], draws
        for decimals in DECIMALS:
            # Behind a cell of 0 no fit with more decimals is asked.
            last = sum(is_answered(drawn(columns, decimals, seed)) for seed in range(draws)) if last else 0
            cells.append(str(last))
        print(f"| {columns} | " + " | ".join(cells) + " |", flush=True)


if __name__ == "__main__":
    main(sys.argv[1:])
