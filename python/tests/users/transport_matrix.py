"""Which factory supplies which city, when the cost per unit is a matrix?"""
import numpy as np
import cvxpy as cp

cost = np.array([
    [8.5, 6.2, 10.1, 9.7],
    [9.3, 12.8, 13.4, 7.6],
    [14.2, 9.9, 16.5, 5.1],
])
supply = np.array([35, 50, 40])
demand = np.array([45, 20, 28, 30])
m, n = cost.shape

X = cp.Variable((m, n), nonneg=True)
supply_constr = cp.sum(X, axis=1) <= supply
demand_constr = cp.sum(X, axis=0) == demand
prob = cp.Problem(cp.Minimize(cp.sum(cp.multiply(cost, X))), [supply_constr, demand_constr])
prob.solve(solver=cp.CLARABEL, verbose=False)

assert prob.status == cp.OPTIMAL
print("total cost", prob.value)
print(np.round(X.value, 2))
print("unused capacity:", supply - X.value.sum(axis=1))
print("value of capacity:", supply_constr.dual_value)

ANSWER = {
    "cost": prob.value,
    "unused": float((supply - X.value.sum(axis=1)).sum()),
    "check": float((cost * X.value).sum()),
}
for i in range(m):
    ANSWER[f"capacity {i}"] = float(supply_constr.dual_value[i])
    for j in range(n):
        ANSWER[f"x {i} {j}"] = float(X.value[i, j])
