"""Writes a script whose problem takes its time to reduce, as a case that `crates/dcx_cases` runs: `reductions.py sum|all|product|running|chain N`."""
import sys


def script(name, n):
    if name == "sum":
        return [f"x = cp.Variable({n}, nonneg=True)", "t = x[0]", f"for i in range(1, {n}):", "    t = t + x[i]", "y = cp.Problem(cp.Minimize(t))"]
    if name == "all":
        return [f"x = cp.Variable({n}, nonneg=True)", "y = cp.Problem(cp.Minimize(cp.sum(x)))"]
    if name == "product":
        rows = 7
        numbers = ", ".join("[" + ", ".join(str((i * 7 + j * 3) % 11 - 5) for j in range(n)) + "]" for i in range(rows))
        return [f"A = np.array([{numbers}])", f"x = cp.Variable({n}, nonneg=True)", "y = cp.Problem(cp.Minimize(0), [A @ x == 1])"]
    if name == "running":
        return [f"x = cp.Variable({n}, nonneg=True)", f"y = cp.Problem(cp.Minimize(cp.cumsum(x)[{n - 1}]))"]
    if name == "chain":
        numbers = ", ".join("[" + ", ".join(str((i * 7 + j * 3) % 3 - 1) for j in range(n)) + "]" for i in range(n))
        return [f"A = np.array([{numbers}])", f"x = cp.Variable({n}, nonneg=True)", "t = x", "for i in range(10):", "    t = A @ t", "y = cp.Problem(cp.Minimize(cp.sum(t)))"]
    raise SystemExit(__doc__)


if len(sys.argv) != 3 or not sys.argv[2].isdigit():
    sys.exit(__doc__)
lines = script(sys.argv[1], int(sys.argv[2]))
print("case rows model.py")
print("file model.py")
print("imports")
for line in lines:
    print("|", line)
print("gives 0")
print("| rows")
