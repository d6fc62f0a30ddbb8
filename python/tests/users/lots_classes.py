"""Lot sizing in classes whose methods give constraints: set-ups, whole batches, stock."""
import cvxpy as cp
import numpy as np


class Item:
    def __init__(self, name, demand, batch, setup, holding):
        self.name, self.batch, self.setup, self.holding = name, batch, setup, holding
        self.demand = np.asarray(demand)
        periods = self.demand.size
        self.batches = cp.Variable(periods, integer=True, name=f"batches_{name}")
        self.runs = cp.Variable(periods, boolean=True, name=f"runs_{name}")
        self.stock = cp.Variable(periods + 1, nonneg=True, name=f"stock_{name}")

    @property
    def cost(self):
        return self.setup * cp.sum(self.runs) + self.holding * cp.sum(self.stock[1:])

    def constraints(self, most=6):
        yield self.stock[0] == 0
        yield self.batches >= 0
        yield self.batches <= most * self.runs
        for t in range(len(self.demand)):
            yield self.stock[t + 1] == self.stock[t] + self.batch * self.batches[t] - self.demand[t]


class Plan:
    def __init__(self, *items, capacity):
        self.items = items
        together = sum(item.batches for item in items)
        rules = [c for item in items for c in item.constraints()] + [together <= capacity]
        self.problem = cp.Problem(cp.Minimize(sum(item.cost for item in items)), rules)

    def solve(self):
        self.problem.solve()
        return self.problem.value


plan = Plan(
    Item("soap", [20, 35, 10, 40], batch=15, setup=30, holding=0.5),
    Item("wax", [12, 0, 25, 18], batch=10, setup=22, holding=0.8),
    capacity=6)
value = plan.solve()
for item in plan.items:
    print(item.name, item.batches.value, item.stock.value)
ANSWER = {"cost": value}
for item in plan.items:
    ANSWER["setups of " + item.name] = float(item.runs.value.sum())
