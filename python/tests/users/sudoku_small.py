"""A sudoku of four by four: a boolean matrix for each digit."""
import cvxpy as cp
import numpy as np

given = """
1 . . .
. . 3 .
. 4 . .
. . . 2
"""
grid = np.array([[0 if c == "." else int(c) for c in line.split()] for line in given.strip().splitlines()])
n = len(grid)
block = int(n ** 0.5)

layers = [cp.Variable((n, n), boolean=True) for _ in range(n)]
rules = [cp.sum(layer, axis=0) == 1 for layer in layers]
rules += [cp.sum(layer, axis=1) == 1 for layer in layers]
rules += [sum(layers) == 1]
for layer in layers:
    for i in range(0, n, block):
        for j in range(0, n, block):
            rules.append(cp.sum(layer[i:i + block, j:j + block]) == 1)
for i, j in zip(*np.nonzero(grid)):
    rules.append(layers[grid[i, j] - 1][i, j] == 1)

problem = cp.Problem(cp.Minimize(0), rules)
problem.solve()
solved = sum((digit + 1) * np.rint(layer.value) for digit, layer in enumerate(layers)).astype(int)
print(solved)
ANSWER = {f"{i} {j}": float(solved[i, j]) for i in range(n) for j in range(n)}
