"""Workers and jobs, where a mask says who can do what."""
import cvxpy as cp
import numpy as np

hours = np.array([
    [9, 2, 7, 8, 0],
    [6, 4, 0, 7, 5],
    [5, 8, 1, 0, 6],
    [7, 0, 9, 4, 3],
    [0, 3, 6, 5, 8],
])
can = hours > 0
n = hours.shape[0]

X = cp.Variable((n, n), nonneg=True)
constraints = [
    cp.sum(X, axis=0) == 1,
    cp.sum(X, axis=1) == np.ones(n),
    X[~can] == 0,
]
total = cp.sum(cp.multiply(hours, X))
prob = cp.Problem(cp.Minimize(total), constraints)
prob.solve()

jobs = np.argmax(X.value, axis=1)
for worker, job in enumerate(jobs):
    print(f"worker {worker} does job {job} in {hours[worker, job]} hours")
ANSWER = {"hours": prob.value, "by hand": float(hours[np.arange(n), jobs].sum())}
