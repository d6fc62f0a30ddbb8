"""A script of two files: the stores and the road lengths come from a module beside it."""
import cvxpy as cp
import numpy as np

from shops import DEPOTS, SHOPS, distance, total_need

names = sorted(DEPOTS)
flows = {(d, s): cp.Variable(nonneg=True, name=f"{d}_to_{s}") for d in names for s in SHOPS}
out = {d: cp.sum(cp.hstack([flows[d, s] for s in SHOPS])) <= DEPOTS[d]["stock"] for d in names}
into = {s: sum(flows[d, s] for d in names) >= need for s, need in SHOPS.items()}
cost = cp.sum([distance(d, s) * flows[d, s] for d, s in flows])

if total_need() > sum(d["stock"] for d in DEPOTS.values()):
    raise ValueError("not enough anywhere")
prob = cp.Problem(cp.Minimize(cost), [*out.values(), *into.values()])
prob.solve()
used = {pair: float(flow.value) for pair, flow in flows.items() if flow.value > 1e-9}
for (d, s), amount in sorted(used.items()):
    print(f"{d:>6} -> {s:<6} {amount:6.1f} over {distance(d, s)}")
ANSWER = {"cost": prob.value, "shipped": float(np.sum(list(used.values())))}
for s in SHOPS:
    ANSWER["price at " + s] = into[s].dual_value.item()
