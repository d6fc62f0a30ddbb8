"""Several goods share the pipes of a network; the multipliers price the pipes."""
import cvxpy as cp
import numpy as np

nodes = ["s", "a", "b", "c", "t"]
arcs = {("s", "a"): (10, 2), ("s", "b"): (8, 3), ("a", "b"): (4, 1), ("a", "c"): (7, 4),
        ("b", "c"): (9, 2), ("c", "t"): (12, 1), ("b", "t"): (6, 6)}
goods = {"oil": ("s", "t", 9), "milk": ("s", "c", 4), "wine": ("a", "t", 3)}

index = {node: i for i, node in enumerate(nodes)}
N = np.zeros((len(nodes), len(arcs)))
for k, (tail, head) in enumerate(arcs):
    N[index[tail], k] -= 1
    N[index[head], k] += 1
capacity, price = map(np.array, zip(*arcs.values()))

flow = {good: cp.Variable(len(arcs), nonneg=True, name=good) for good in goods}
balance = []
for good, (source, sink, amount) in goods.items():
    supply = np.zeros(len(nodes))
    supply[index[source]] = -amount
    supply[index[sink]] = amount
    balance.append(N @ flow[good] == supply)
share = sum(flow.values()) <= capacity

prob = cp.Problem(cp.Minimize(sum(price @ f for f in flow.values())), balance + [share])
prob.solve()
full = [arc for arc, k in zip(arcs,
                              range(len(arcs))) if abs(sum(f.value[k] for f in flow.values()) - capacity[k]) < 1e-7]
print("cost", prob.value, "full", full, "prices", share.dual_value)
ANSWER = {"cost": prob.value, "carried": float(sum(f.value[4] + f.value[3] for f in flow.values()))}
