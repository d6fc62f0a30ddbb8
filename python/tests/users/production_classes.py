"""A furniture shop as classes: what does it make, and which hour is scarce?"""
from dataclasses import dataclass, field

import cvxpy as cp


@dataclass
class Product:
    name: str
    profit: float
    hours: dict
    most: float = float("inf")
    made: cp.Variable = field(default_factory=lambda: cp.Variable(nonneg=True))


class Shop:
    def __init__(self, capacity):
        self.capacity = capacity
        self.products = []
        self.constraints = {}

    def add(self, product):
        self.products.append(product)
        return self

    def build(self):
        for machine, hours in self.capacity.items():
            used = 0
            for product in self.products:
                if machine in product.hours:
                    used += product.hours[machine] * product.made
            self.constraints[machine] = used <= hours
        constraints = list(self.constraints.values())
        for product in self.products:
            if product.most < float("inf"):
                constraints.append(product.made <= product.most)
        profit = sum([p.profit * p.made for p in self.products])
        return cp.Problem(cp.Maximize(profit), constraints)


shop = Shop({"saw": 80, "lathe": 60, "paint": 45.5})
shop.add(Product("table", 90, {"saw": 4, "lathe": 1.5, "paint": 2}))
shop.add(Product("chair", 35, {"saw": 1, "lathe": 2.5, "paint": 0.75}, most=18))
shop.add(Product("shelf", 40, {"saw": 2.5, "paint": 1}))
shop.add(Product("lamp", 22, {"lathe": 0.5, "paint": 0.5}, most=25))

problem = shop.build()
problem.solve()
if problem.status not in ("infeasible", "unbounded"):
    print("Optimal profit: %s" % problem.value)
for product in shop.products:
    print(f"{product.name}: {product.made.value:.2f}")

ANSWER = {"profit": problem.value}
for product in shop.products:
    ANSWER[product.name] = float(product.made.value)
for machine, constraint in shop.constraints.items():
    ANSWER[machine] = float(constraint.dual_value)
