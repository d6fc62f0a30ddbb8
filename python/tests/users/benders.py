"""Benders' decomposition: whole investments above, a flow below whose multipliers make the cuts."""
import cvxpy as cp
import numpy as np

fixed = np.array([30, 45, 25])
capacity = np.array([8, 14, 6])
cost = np.array([[2, 4], [3, 2], [5, 3]])
need = np.array([7, 6])

build = cp.Variable(3, boolean=True)
theta = cp.Variable(nonneg=True)
cuts = [capacity @ build >= need.sum()]

y = cp.Parameter(3)
ship = cp.Variable((3, 2), nonneg=True)
leave = cp.sum(ship, axis=1) <= cp.multiply(capacity, y)
arrive = cp.sum(ship, axis=0) >= need
sub = cp.Problem(cp.Minimize(cp.sum(cp.multiply(cost, ship))), [leave, arrive])

lower, upper = -np.inf, np.inf
for iteration in range(10):
    main = cp.Problem(cp.Minimize(fixed @ build + theta), cuts)
    main.solve()
    lower = main.value
    y.value = np.round(build.value)
    sub.solve()
    upper = min(upper, fixed @ y.value + sub.value)
    print(f"{iteration}: between {lower:.2f} and {upper:.2f}, build {y.value}")
    if upper - lower < 1e-6:
        break
    slope = -capacity * leave.dual_value
    cuts.append(theta >= sub.value + slope @ (build - y.value))

ANSWER = {"cost": float(upper), "gap": float(upper - lower), "built": float(sum(build.value))}
