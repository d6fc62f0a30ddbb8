"""Writes the problem that `dcx trial N` solves at the setting Q for another exact solver: `other_solvers.py lp|smt N Q`.

lp: CPLEX's LP format, for `glpsol --exact --lp FILE`. smt: SMT-LIB with an objective, for `z3 FILE`.

The line s i + a is fitted to N points i with the heights 2i + 1, of which each fifth lies 10 too high: t_i is at least its distance at i, u at least
the size of s, and the t_i and Q times u are added up. These are the rows that `dcx` has, with whole numbers alone.
"""
import sys


def points(n):
    return [(i, 2 * i + 1 + (10 if i % 5 == 0 else 0)) for i in range(n)]


def lines_of(parts):
    """The parts, six on a line, since lines of the LP format are short."""
    return [" " + " ".join(parts[i : i + 6]) for i in range(0, len(parts), 6)]


def lp(n, q):
    cost = [f"+ t{i}" for i in range(n)] + ([f"+ {q} u"] if q else [])
    rows = []
    for i, height in points(n):
        over = f"{i} s + a" if i else "a"
        under = f"- {i} s - a" if i else "- a"
        rows += [f" over{i}: {over} - t{i} <= {height}", f" under{i}: {under} - t{i} <= -{height}"]
    rows += [" rising: s - u <= 0", " falling: - s - u <= 0"]
    return ["Minimize", " cost:", *lines_of(cost), "Subject To", *rows, "Bounds", " s free", " a free", "End"]


def smt(n, q):
    names = ["s", "a", "u", *(f"t{i}" for i in range(n))]
    rows = []
    for i, height in points(n):
        line = f"(+ (* {i} s) a)" if i else "a"
        rows += [f"(assert (<= (- {line} {height}) t{i}))", f"(assert (<= (- {height} {line}) t{i}))"]
    rows += ["(assert (<= s u))", "(assert (<= (- s) u))"]
    cost = " ".join([f"(* {q} u)", *(f"t{i}" for i in range(n))])
    declared = [f"(declare-const {name} Real)" for name in names]
    signs = [f"(assert (>= {name} 0))" for name in names[2:]]
    return [*declared, *signs, *rows, f"(minimize (+ {cost}))", "(check-sat)", "(get-objectives)"]


if len(sys.argv) != 4 or sys.argv[1] not in ("lp", "smt"):
    raise SystemExit(__doc__)
print(*{"lp": lp, "smt": smt}[sys.argv[1]](int(sys.argv[2]), int(sys.argv[3])), sep="\n")
