"""Measures how the program's time and memory grow with the size of what it is given: `growth.py [RUNS]` prints a row of a table for each input.

    python3 bench/growth.py
    python3 bench/growth.py 3 --program before=OLD --program after=NEW --seconds 120 --only iis dense

Each cell is the least of RUNS runs, 1 where nothing is said: processor seconds of the user and the system, and the most memory. The last column is the
power of the size by which the seconds grow between the last two sizes. Where a run takes more than --seconds, 60 where nothing is said, the cell says so,
and larger sizes aren't tried. A run that ends otherwise than is said beside its input ends this script with status 1.
"""
import argparse
import math
import os
import tempfile

from taken import programs, run

SMALL = 20 << 20  # bytes: below it what is measured may be this script's own memory


def script(folder, *lines, settings="{}"):
    for name, text in (("model.py", "\n".join(["import cvxpy as cp", "import numpy as np", *lines])), ("settings.txt", settings)):
        with open(os.path.join(folder, name), "w", encoding="utf-8") as file:
            file.write(text + "\n")


def numbers(n):
    return [(i * i + 3 * i) % 7 for i in range(n)]


# ---- the inputs: each writes its files into a folder, and gives the words of the command line
def cumsum(n, folder):
    script(folder, f"p = cp.Parameter({n})", "x = cp.Variable()", f"prob = cp.Problem(cp.Minimize(x), [x >= cp.cumsum(p)[{n - 1}]])", settings=f"p = {numbers(n)}")
    return ["resolve", "model.py", "settings.txt"]


def total(n, folder):
    script(folder, f"p = cp.Parameter({n})", "x = cp.Variable()", "prob = cp.Problem(cp.Minimize(x), [x >= cp.sum(p)])", settings=f"p = {numbers(n)}")
    return ["resolve", "model.py", "settings.txt"]


def certified_cumsum(n, folder):
    cumsum(n, folder)
    best = sum(numbers(n))
    with open(os.path.join(folder, "cert.txt"), "w", encoding="utf-8") as file:
        values = " ".join(map(str, numbers(n)))
        file.write(f"certificate 2\nsection 1 optimal\nparam p ({n}) = {values}\nvalue {best}\nvar x () = {best}\ndual 1 () = 1\nend\n")
    return ["certify", "model.py", "settings.txt", "cert.txt"]


def product_map(n, folder):
    script(
        folder,
        f"p = cp.Parameter({n}, nonneg=True)",
        f"x = cp.Variable({n}, nonneg=True)",
        f"prob = cp.Problem(cp.Minimize(cp.cumsum(cp.multiply(cp.cumsum(p), x))[{n - 1}]), [cp.sum(x) == 1])",
        settings=f"p = {numbers(n)}",
    )
    return ["resolve", "model.py", "settings.txt"]


def chain(n, folder):
    script(
        folder,
        f"x = cp.Variable({n - 1})",
        "rules = [x[0] >= 1]",
        f"for i in range(1, {n - 1}):",
        "    rules += [x[i] >= x[i - 1] + 1]",
        f"rules += [x[{n - 2}] <= {n - 2}]",
        "prob = cp.Problem(cp.Minimize(0), rules)",
    )
    return ["iis", "model.py", "settings.txt"]


def fit_beside(n, folder):
    script(
        folder,
        f"time = np.array({list(range(n))})",
        f"seen = np.array({[2 * i + 1 + (10 if i % 5 == 0 else 0) for i in range(n)]})",
        "x = cp.Variable(11, boolean=True)",
        "slope = cp.Variable()",
        "start = cp.Variable()",
        "prob = cp.Problem(cp.Minimize(cp.norm1(slope*time + start - seen)), [2*cp.sum(x) == 11])",
        "prob.solve()",
    )
    return ["solve", "model.py"]


def products(n, folder):
    # (a reflection: dense, and its powers don't grow)
    script(
        folder,
        "A = np.eye(80) - np.ones((80, 80))/40",
        f"x = cp.Variable({n}, nonneg=True)",
        "y = x[:80] + cp.sum(x)",
        "for turn in range(100):",
        "    y = A @ y",
        "prob = cp.Problem(cp.Minimize(y[0]), [cp.sum(x) == 1])",
        "prob.solve()",
    )
    return ["solve", "model.py"]


def loop(turns, folder):
    script(
        folder,
        "A = np.eye(141) - np.ones((141, 141))/141",
        "B = A",
        f"for turn in range({turns}):",
        "    B = A @ B",
        "x = cp.Variable()",
        "prob = cp.Problem(cp.Minimize(x), [x >= B[0, 0]])",
    )
    return ["check", "model.py"]


def dense(n, folder):
    script(
        folder,
        f"gain = np.array({[100 + (7 * i) % 11 for i in range(n)]})",
        f"x = cp.Variable({n}, nonneg=True)",
        "prob = cp.Problem(cp.Maximize(gain @ x), [x + cp.sum(x) <= 100])",
        "prob.solve()",
    )
    return ["solve", "model.py"]


ROWS = [
    ("`cp.cumsum(p)` of a parameter of n entries, `resolve`", cumsum, (500, 1000, 2000), "answered 1 stopped 0"),
    ("`cp.sum(p)` of a parameter of n entries, `resolve`", total, (2500, 5000, 9900), "answered 1 stopped 0"),
    ("`certify` of one setting of `cp.cumsum(p)`", certified_cumsum, (2500, 5000, 9900), "certified 1"),
    ("the map of `cp.cumsum(cp.multiply(cp.cumsum(p), x))`", product_map, (200, 400, 700), "answered 1 stopped 0"),
    ("`iis` over a chain of n constraints, all of them in the way", chain, (75, 150, 299), "answered 1 stopped 0"),
    ("branch and bound of 1,847 nodes beside a fit of n points", fit_beside, (20, 40, 80), "answered 1 stopped 0"),
    ("100 products by an 80 by 80 matrix over n unknowns", products, (250, 500, 1000), "answered 1 stopped 0"),
    ("`check` of n turns that multiply 141 by 141 matrices", loop, (5, 10, 20), "constraints 1 entries 1"),
    ("dense `solve`, n rows by 2n columns", dense, (150, 300, 594), "answered 1 stopped 0"),
]


def measured(path, row, size, runs, most):
    """The least seconds and the most memory; no memory where the seconds pass the limit."""
    _, write, _, end = row
    seconds, memory = math.inf, 0
    for _ in range(runs):
        with tempfile.TemporaryDirectory() as folder:
            made = run([path, *write(size, folder)], most, folder)
        if made.status < 0 and made.seconds > 0.9 * most:
            return math.inf, 0
        last = made.printed.rstrip("\n").split("\n")[-1]
        if last == "want of memory" or made.status == 5:
            return None, made.memory
        if last != end:
            raise SystemExit(f"{row[0]}, {size}: status {made.status}, {last!r} and not {end!r}")
        seconds, memory = min(seconds, made.seconds), max(memory, made.memory)
    return seconds, memory


def cell(size, seconds, memory, most):
    if seconds is None:
        return f"{size:,}: want of memory"
    if seconds == math.inf:
        return f"{size:,}: over {most}"
    held = f"{memory / 1e6:,.0f} MB" if memory > SMALL else "under 20 MB"
    return f"{size:,}: {seconds:.2f} s, {held}"


def power(taken):
    """By which power of the size the seconds grew between the last two sizes that were measured."""
    known = [(size, seconds) for size, seconds, _ in taken if seconds not in (None, math.inf)][-2:]
    if len(known) < 2 or known[0][1] < 0.005:
        return ""
    (n, first), (m, second) = known
    return f"n^{math.log(second / first) / math.log(m / n):.1f}"


def main():
    parser = argparse.ArgumentParser(description=__doc__, formatter_class=argparse.RawDescriptionHelpFormatter)
    parser.add_argument("runs", nargs="?", type=int, default=1)
    parser.add_argument("--program", action="append")
    parser.add_argument("--seconds", type=int, default=60)
    parser.add_argument("--only", nargs="+", default=[])
    asked = parser.parse_args()
    asked_programs = programs(asked.program)
    print("| input | program | n | 2n or so | 4n or so | grows as |\n|---|---|---|---|---|---|")
    for row in ROWS:
        name, _, sizes, _ = row
        if asked.only and not any(word in name for word in asked.only):
            continue
        for program in asked_programs:
            taken = []
            for size in sizes:
                taken.append((size, *measured(program.path, row, size, asked.runs, asked.seconds)))
                if taken[-1][1] in (None, math.inf):
                    break
            cells = [cell(*one, asked.seconds) for one in taken] + [""] * (len(sizes) - len(taken))
            print(f"| {name} | {program.name} | {' | '.join(cells)} | {power(taken)} |", flush=True)
            name = ""


if __name__ == "__main__":
    main()
