"""A production plan from a table of months, with stock, overtime and a smooth plan."""
import cvxpy as cp
import numpy as np

table = [
    {"month": "Jan", "demand": 120, "price": 3.2},
    {"month": "Feb", "demand": 150, "price": 3.0},
    {"month": "Mar", "demand": 90, "price": 3.4},
    {"month": "Apr", "demand": 210, "price": 3.1},
    {"month": "May", "demand": 180, "price": 2.9},
    {"month": "Jun", "demand": 130, "price": 3.3},
]
demand = np.array([row["demand"] for row in table])
price = np.array([row["price"] for row in table])
months = len(table)

normal = cp.Variable(months, nonneg=True)
overtime = cp.Variable(months, nonneg=True)
stock = 20 + cp.cumsum(normal + overtime) - np.cumsum(demand)

cost = price @ normal + (1.5 * price) @ overtime + 0.25 * cp.sum(stock) + 0.1 * cp.norm1(cp.diff(normal))
limits = [normal <= 140, overtime <= 40, stock >= 10]
prob = cp.Problem(cp.Minimize(cost), limits)
print("is dcp:", prob.is_dcp())
prob.solve()

for row, a, b, s in zip(table, normal.value, overtime.value, stock.value):
    print("{month}: demand {demand:4d}".format(**row), f"normal {a:7.2f} overtime {b:6.2f} stock {s:6.2f}")
ANSWER = {"cost": prob.value, "stock costs": float(0.25 * sum(stock.value)) + 0 * months,
          "least stock": float(stock.value.min())}
