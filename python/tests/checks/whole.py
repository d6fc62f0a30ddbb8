"""The second way for the scripts of users/ in whole numbers: SciPy's branch and bound, or every choice tried."""
import itertools

import numpy as np

from .model import Model


def facility_location():
    rents, customers = [130, 160, 110, 95], 6
    distance = np.array([
        [12, 40, 33, 25, 60, 18], [35, 14, 22, 48, 31, 27], [28, 21, 11, 39, 44, 36], [50, 26, 30, 15, 23, 41]])
    best = (np.inf, None)
    for opened in itertools.product([0, 1], repeat=4):
        model = Model()
        share = model.variables(4, customers, low=0)
        model.equal(share.sum(axis=0), np.ones(customers))
        model.at_most(share, np.repeat(opened, customers).reshape(4, customers))
        model.at_most(share.sum(axis=1), 4 * np.ones(4))
        found = model.minimize((3 * distance[..., np.newaxis] * share).sum(axis=(0, 1)) + np.dot(rents,
                                                                                                 opened) * model.one)
        if found is not None:
            best = min(best, (found.value, opened))
    return {"cost": best[0], "fixed": np.dot(rents, best[1]), "count": sum(best[1])}


def knapsack_csv():
    gain, cost = [46, 31, 60, 75, 22, 17, 12, 88], [30, 18, 41, 52, 9, 7, 8, 63]
    people = [2, 1, 3, 2, 1, 2, 1, 4]
    best = max((np.dot(gain, take), np.dot(cost, take), sum(take)) for take in itertools.product([0, 1], repeat=8)
               if np.dot(cost, take) <= 120 and np.dot(people, take) <= 8
               and take[0] + take[1] + take[6] <= 1 and take[2] + take[3] <= 1)
    return {"gain": best[0], "spent": best[1], "number": best[2]}


def infeasible_shifts():
    need = [17, 13, 15, 19, 14, 16, 11]
    model = Model()
    begin = model.variables(7, low=0, whole=True)
    for day in range(7):
        model.at_most(need[day] * model.one, sum(begin[(day - back) % 7] for back in range(5)))
    return {"hired": model.minimize(begin.sum(axis=0)).value - 20, "covered": 1}


def sudoku_small():
    given = {(0, 0): 1, (1, 2): 3, (2, 1): 4, (3, 3): 2}
    rows = list(itertools.permutations([1, 2, 3, 4]))
    found = []
    for grid in itertools.product(rows, repeat=4):
        if any(grid[i][j] != digit for (i, j), digit in given.items()):
            continue
        lines = [set(column) for column in zip(*grid)]
        lines += [{grid[i][j], grid[i][j + 1], grid[i + 1][j], grid[i + 1][j + 1]} for i in (0, 2) for j in (0, 2)]
        if all(len(line) == 4 for line in lines):
            found.append(grid)
    (grid,) = found
    return {f"{i} {j}": grid[i][j] for i in range(4) for j in range(4)}


def cutting_stock():
    """Every pattern is written down, so that no column is to be generated."""
    lengths, orders = np.array([45, 36, 31, 14]), np.array([97, 61, 39, 21])
    fits = [range(100 // length + 1) for length in lengths]
    patterns = np.array([p for p in itertools.product(*fits) if 0 < np.dot(lengths, p) <= 100]).T
    model = Model()
    rolls = model.variables(patterns.shape[1], low=0)
    model.at_most(model.expression(orders), patterns @ rolls)
    relaxed = model.minimize(rolls.sum(axis=0)).value
    return {"relaxed": relaxed, "rounded up": np.ceil(relaxed)}


def unit_commitment():
    load = np.array([180, 210, 260, 310, 340, 290, 230, 190])
    low, high, cost = np.array([60, 30, 10]), np.array([200, 120, 80]), np.array([21, 34, 52])
    start, ramp, idle = np.array([400, 90, 20]), np.array([80, 120, 80]), np.array([120, 60, 15])
    model = Model()
    on, started = model.variables(8, 3, low=0, high=1, whole=True), model.variables(8, 3, low=0)
    power = model.variables(8, 3)
    model.equal(power.sum(axis=1), load)
    for hour in range(8):
        model.at_most(1.05 * load[hour] * model.one, high @ on[hour])
        before = on[hour - 1] if hour else 0 * on[0]
        model.at_most(on[hour] - before, started[hour])
        for i in range(3):
            model.at_most(low[i] * on[hour, i], power[hour, i])
            model.at_most(power[hour, i], high[i] * on[hour, i])
            if hour:
                model.at_most(power[hour, i] - power[hour - 1, i], ramp[i])
                model.at_most(power[hour - 1, i] - power[hour, i], ramp[i])
    found = model.minimize(sum(cost @ power[hour] + idle @ on[hour] + start @ started[hour] for hour in range(8)))
    return {"cost": found.value, "energy": load.sum()}


def lots_classes():
    model = Model()
    items = [([20, 35, 10, 40], 15, 30, 0.5), ([12, 0, 25, 18], 10, 22, 0.8)]
    total, together, runs = 0, 0, []
    for demand, batch, setup, holding in items:
        batches = model.variables(4, low=0, whole=True)
        run = model.variables(4, low=0, high=1, whole=True)
        stock = model.variables(4, low=0)
        model.at_most(batches, 6 * run)
        for t in range(4):
            before = stock[t - 1] if t else 0 * model.one
            model.equal(stock[t], before + batch * batches[t] - demand[t] * model.one)
        total = total + setup * run.sum(axis=0) + holding * stock.sum(axis=0)
        together = together + batches
        runs.append(run)
    model.at_most(together, 6 * np.ones(4))
    found = model.minimize(total)
    return {"cost": found.value, "setups of soap": found.of(runs[0]).sum(), "setups of wax": found.of(runs[1]).sum()}


def tsp_subtours():
    towns = np.array([[0, 0], [2, 1], [1, 3], [7, 1], [8, 3], [6, 4], [4, 8]])
    lengths = np.abs(towns[:, None] - towns[None]).sum(axis=2)
    trips = itertools.permutations(range(1, 7))
    return {"length": min(sum(lengths[a, b] for a, b in zip((0, *trip), (*trip, 0))) for trip in trips)}


def benders():
    fixed, capacity = np.array([30, 45, 25]), np.array([8, 14, 6])
    cost, need = np.array([[2, 4], [3, 2], [5, 3]]), np.array([7, 6])
    best = (np.inf, None)
    for build in itertools.product([0, 1], repeat=3):
        model = Model()
        ship = model.variables(3, 2, low=0)
        model.at_most(ship.sum(axis=1), capacity * build)
        model.at_most(model.expression(need), ship.sum(axis=0))
        found = model.minimize((cost[..., np.newaxis] * ship).sum(axis=(0, 1)))
        if found is not None:
            best = min(best, (found.value + fixed @ np.array(build), build))
    return {"cost": best[0], "gap": 0, "built": sum(best[1])}
