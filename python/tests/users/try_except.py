"""What goes wrong is caught: a problem that isn't convex, one without bounds, one without a point."""
import cvxpy as cp

x = cp.Variable(2, name="x")


def attempt(objective, constraints):
    try:
        problem = cp.Problem(objective, constraints)
        problem.solve()
    except cp.error.DCPError:
        return "not convex", float("nan")
    except (cp.error.SolverError, cp.SolverError) as error:
        return "failed: " + str(error), float("nan")
    return problem.status, problem.value


cases = {
    "plain": (cp.Minimize(cp.sum(x)), [x >= [1, 2]]),
    "unbounded": (cp.Minimize(x[0] - x[1]), [x[0] >= 0]),
    "infeasible": (cp.Maximize(x[0]), [cp.sum(x) <= 1, x >= 1]),
    "concave": (cp.Minimize(cp.min(x)), [cp.norm1(x) <= 1]),
    "reverse": (cp.Minimize(x[0]), [cp.abs(x) >= 1]),
}
ANSWER = {}
for name, (objective, constraints) in cases.items():
    status, value = attempt(objective, constraints)
    print(f"{name}: {status} ({value})")
    ANSWER[name + " " + status] = value if value == value else 0.0
assert not cp.Problem(*cases["reverse"]).is_dcp()
assert x.value is None or len(x.value) == 2
