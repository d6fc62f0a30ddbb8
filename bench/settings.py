"""Writes a planning problem and its settings: `settings.py kept|anew N COUNT FOLDER` makes FOLDER/model.py and FOLDER/settings.txt.

N products share 20 machines; the hours of the machines grow with a parameter, which COUNT settings give COUNT values. With `kept` the hours are
affine in the parameters, so that `dcx resolve` reduces the problem once. With `anew` they are the product of two parameters, of which the second is
1: the same rows at each setting, reduced anew at each.
"""
import os
import sys

if len(sys.argv) != 5 or sys.argv[1] not in ("kept", "anew") or not all(it.isdigit() for it in sys.argv[2:4]):
    sys.exit(__doc__)
kind, n, count, folder = sys.argv[1], int(sys.argv[2]), int(sys.argv[3]), sys.argv[4]
machines = 20
hours = [["%d" % ((i * 7 + j * 3) % 11 + 1) for j in range(n)] for i in range(machines)]
script = [
    "import cvxpy as cp",
    "import numpy as np",
    "use = np.array([" + ", ".join("[" + ", ".join(row) + "]" for row in hours) + "])",
    "gain = np.array([" + ", ".join("%d" % (j * 5 % 13 + 1) for j in range(n)) + "])",
    f"x = cp.Variable({n}, nonneg=True)",
    "p = cp.Parameter(nonneg=True)",
    *(["q = cp.Parameter(nonneg=True)"] if kind == "anew" else []),
    "prob = cp.Problem(cp.Maximize(gain @ x), [use @ x <= 10*p" + ("*q" if kind == "anew" else "") + "])",
]
settings = [f"p = {k}/100" + ("; q = 1" if kind == "anew" else "") for k in range(1, count + 1)]
os.makedirs(folder, exist_ok=True)
for name, lines in (("model.py", script), ("settings.txt", settings)):
    with open(os.path.join(folder, name), "w", encoding="utf-8") as out:
        out.write("\n".join(lines) + "\n")
