"""Model predictive control: a cart is brought to rest, one step at a time."""
import numpy as np
import cvxpy as cp

A = np.array([[1, 0.5], [0, 1]])
B = np.array([[0.125], [0.5]])
n, m, T = 2, 1, 8

x = cp.Variable((n, T + 1))
u = cp.Variable((m, T))
x_init = cp.Parameter(n)
cost = 0
constr = [x[:, 0] == x_init]
for t in range(T):
    cost += cp.norm1(x[:, t + 1]) + 0.25 * cp.norm1(u[:, t])
    constr += [x[:, t + 1] == A @ x[:, t] + B @ u[:, t], cp.norm(u[:, t], "inf") <= 1]
problem = cp.Problem(cp.Minimize(cost), constr)

x_now = np.array([3.0, -0.5])
states, inputs, values = [x_now], [], []
for step in range(12):
    x_init.value = x_now
    problem.solve(warm_start=True)
    if problem.status != "optimal":
        raise RuntimeError("no plan at step %d" % step)
    inputs.append(float(u.value[0, 0]))
    values.append(problem.value)
    x_now = A @ x_now + B @ u.value[:, 0]
    states.append(x_now)

states = np.array(states)
print(states.round(3))
ANSWER = {"first plan": values[0], "rest": float(abs(states[-1]).sum()), "force used": float(np.max(np.abs(inputs)))}
