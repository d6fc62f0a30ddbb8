# Two mills grind what a bakery needs, with a hair less power than that takes.
import cvxpy as cp
import numpy as np

need = 1000
power = np.array([0.5, 0.4])
kilos = cp.Variable(2, nonneg=True)

prob = cp.Problem(
    cp.Minimize(3*kilos[0] + 4*kilos[1]),
    [cp.sum(kilos) == need, kilos <= 600, power @ kilos <= 439.99999999],
)
prob.solve()
