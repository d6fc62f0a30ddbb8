"""Three power plants over eight hours: who runs, with start costs, ramps and a reserve."""
import cvxpy as cp
import numpy as np

load = np.array([180, 210, 260, 310, 340, 290, 230, 190])
plants = [
    dict(name="coal", low=60, high=200, cost=21, start=400, ramp=80, idle=120),
    dict(name="gas", low=30, high=120, cost=34, start=90, ramp=120, idle=60),
    dict(name="oil", low=10, high=80, cost=52, start=20, ramp=80, idle=15),
]
T, N = len(load), len(plants)
low, high, cost, start, ramp, idle = (
    np.array([p[key] for p in plants]) for key in ("low", "high", "cost", "start", "ramp", "idle"))

on = cp.Variable((T, N), boolean=True)
started = cp.Variable((T, N), nonneg=True)
power = cp.Variable((T, N))

constraints = [
    cp.sum(power, axis=1) == load,
    on @ high >= 1.05 * load,
    started[1:] >= on[1:] - on[:-1],
    started[0] >= on[0],
]
for i in range(N):
    constraints += [power[:, i] >= low[i] * on[:, i], power[:, i] <= high[i] * on[:, i]]
    constraints += [cp.abs(cp.diff(power[:, i])) <= ramp[i]]

running = cp.sum(power @ cost) + cp.sum(on @ idle)
starting = cp.sum(started @ start)
problem = cp.Problem(cp.Minimize(running + starting), constraints)
problem.solve(solver="SCIP")
print(problem.status, problem.value)
for i, plant in enumerate(plants):
    print(f"{plant['name']:>5}", " ".join(f"{p:6.1f}" if o > 0.5 else "     -" for p,
                                          o in zip(power.value[:, i], on.value[:, i])))
ANSWER = {"cost": float(problem.value), "energy": float(power.value.sum())}
