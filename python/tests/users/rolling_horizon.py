"""A battery on a rolling horizon: plan a few hours, carry out the first, go on from there."""
import cvxpy as cp
import numpy as np

prices = [30, 28, 25, 27, 35, 52, 60, 48, 40, 38, 36, 45, 58, 64, 50, 33]
WINDOW = 6
CAPACITY, POWER, EFFICIENCY = 10.0, 4.0, 0.8


def plan(level, window):
    """The best charge and discharge of the window's hours."""
    hours = len(window)
    charge = cp.Variable(hours, nonneg=True)
    discharge = cp.Variable(hours, nonneg=True)
    state = cp.Variable(hours + 1)
    constraints = [state[0] == level, state >= 0, state <= CAPACITY, charge <= POWER, discharge <= POWER]
    constraints += [state[1:] == state[:-1] + EFFICIENCY * charge - discharge]
    profit = cp.sum(cp.multiply(window, discharge - charge)) - 0.01 * cp.sum(state)
    problem = cp.Problem(cp.Maximize(profit), constraints)
    problem.solve()
    assert problem.status == "optimal", problem.status
    return charge.value[0], discharge.value[0], problem.value


level, earned, first = 2.0, 0.0, None
for hour, price in enumerate(prices):
    window = np.array(prices[hour:hour + WINDOW])
    charge, discharge, value = plan(level, window)
    if first is None:
        first = value
    level += EFFICIENCY * charge - discharge
    earned += price * (discharge - charge)
    print(f"{hour:2d}: price {price}, charge {charge:.2f}, discharge {discharge:.2f}, level {level:.2f}")

ANSWER = {"first window": first, "earned": float(earned), "level": float(level)}
