"""The second way for the scripts of users/ with networks, games and closed loops."""
import itertools

import numpy as np

from .model import Model


def max_flow_sparse():
    """The least capacity of a cut, over all cuts."""
    edges = [(0, 1, 16), (0, 2, 13), (1, 2, 10), (2, 1, 4), (1, 3, 12), (3, 2, 9), (2, 4, 14), (4, 3, 7), (3, 5, 20),
             (4, 5, 4)]
    cuts = []
    for chosen in itertools.product([True, False], repeat=4):
        inside = {0, *(node for node, is_in in zip([1, 2, 3, 4], chosen) if is_in)}
        across = [capacity for tail, head, capacity in edges if tail in inside and head not in inside]
        cuts.append((sum(across), len(across)))
    return {"flow": min(cuts)[0], "cut": min(cuts)[0], "edges in the cut": min(cuts)[1]}


def masked_assignment():
    hours = [[9, 2, 7, 8, 0], [6, 4, 0, 7, 5], [5, 8, 1, 0, 6], [7, 0, 9, 4, 3], [0, 3, 6, 5, 8]]
    least = min(sum(hours[i][j] for i, j in enumerate(jobs)) for jobs in itertools.permutations(range(5))
                if all(hours[i][j] for i, j in enumerate(jobs)))
    return {"hours": least, "by hand": least}


def two_files():
    places = {"bakery": (1, 3), "market": (4, 6), "school": (7, 7), "station": (8, 2)}
    need = [25, 40, 35, 20]
    depots = [((2, 9), 60), ((5, 1), 55), ((9, 4), 30)]
    far = np.array([[abs(a - c) + abs(b - d) for c, d in places.values()] for (a, b), _ in depots])
    model = Model()
    x = model.variables(3, 4, low=0)
    model.at_most(x.sum(axis=1), [stock for _, stock in depots])
    into = model.at_most(model.expression(need), x.sum(axis=0))
    found = model.minimize((far[..., np.newaxis] * x).sum(axis=(0, 1)))
    answer = {"cost": found.value, "shipped": 120}
    answer.update({"price at " + shop: price for shop, price in zip(places, found.duals[into])})
    return answer


def multicommodity():
    arcs = {"sa": (10, 2), "sb": (8, 3), "ab": (4, 1), "ac": (7, 4), "bc": (9, 2), "ct": (12, 1), "bt": (6, 6)}
    goods = [("s", "t", 9), ("s", "c", 4), ("a", "t", 3)]
    model = Model()
    flow = model.variables(3, len(arcs), low=0)
    for good, (source, sink, amount) in enumerate(goods):
        for node in "sabct":
            into = sum((flow[good, k] for k, arc in enumerate(arcs) if arc[1] == node), 0 * model.one)
            out = sum((flow[good, k] for k, arc in enumerate(arcs) if arc[0] == node), 0 * model.one)
            model.equal(into - out, amount * ((node == sink) - (node == source)))
    capacity, price = map(np.array, zip(*arcs.values()))
    model.at_most(flow.sum(axis=0), capacity)
    found = model.minimize(sum(price @ part for part in flow))
    return {"cost": found.value, "carried": found.of(flow)[:, 3:5].sum()}


def game_value():
    A = np.kron(np.eye(2), np.array([[0, -1, 1], [1, 0, -1], [-1, 1, 0]]))
    A = A + np.outer(np.arange(6), np.ones(6)) * 0.25 - np.triu(np.ones((6, 6)), 3)
    model = Model()
    p, v = model.variables(6, low=0), model.variables()
    model.equal(p.sum(axis=0), 1)
    for column in A.T:
        model.at_most(v, column @ p)
    value = model.maximize(v).value
    return {"row": value, "column": value, "sure win": value, "weight of the rows": 1}


def robust_plan():
    """The plan is at least 0, so that its size is itself, and the worst prices are written down one after the other."""
    profit, wobble = np.array([12, 9, 14, 7]), np.array([3, 1, 6, 0.5])
    use = np.array([[2, 1, 3, 1], [1, 2, 2, 1], [3, 1, 4, 2]])
    limits = np.array([100, 80, 140])
    answer = {}
    for name, moves in [("nominal", 0), ("box", 4), ("two", 2), ("one", 1)]:
        model = Model()
        x, value = model.variables(4, low=0, high=30), model.variables()
        for row, limit in zip(use, limits):
            for k in range(4):
                model.at_most(row @ x + 0.005 * limit * x[k], limit)
        for chosen in itertools.combinations(range(4), moves):
            lost = np.array([wobble[k] if k in chosen else 0 for k in range(4)])
            model.at_most(value, (profit - lost) @ x)
        answer[name] = model.maximize(value).value
    return answer


def portfolio_cvar():
    np.random.seed(7)
    mu = np.array([0.04, 0.06, 0.08, 0.10, 0.02])
    returns = np.round(mu + np.random.randn(20, 5) * np.array([0.05, 0.08, 0.12, 0.2, 0.01]), 2)
    answer = {}
    for gamma in (0.05, 0.2, 0.5, 1, 2):
        model = Model()
        w, worst = model.variables(5, low=0, high=0.5), model.variables()
        model.equal(w.sum(axis=0), 1)
        for a, b in itertools.combinations(range(20), 2):
            model.at_most(-(returns[a] + returns[b]) @ w / 2, worst)
        answer[f"objective at {gamma}"] = model.maximize(returns.mean(axis=0) @ w - gamma * worst).value
    return answer


def mpc_cart():
    """The first plan by SciPy; the closed loop ends at rest, and its force is at its bound."""
    model = Model()
    position, speed = model.variables(9), model.variables(9)
    force = model.variables(8, low=-1, high=1)
    model.equal(position[0], 3)
    model.equal(speed[0], -0.5)
    model.equal(position[1:], position[:-1] + 0.5 * speed[:-1] + 0.125 * force)
    model.equal(speed[1:], speed[:-1] + 0.5 * force)
    sizes = [model.absolute(part).sum(axis=0) for part in (position[1:], speed[1:], force)]
    return {"first plan": model.minimize(sizes[0] + sizes[1] + 0.25 * sizes[2]).value, "rest": 0, "force used": 1}


def rolling_horizon():
    prices = [30, 28, 25, 27, 35, 52, 60, 48, 40, 38, 36, 45, 58, 64, 50, 33]
    level, earned, first = 2.0, 0.0, None
    for hour, price in enumerate(prices):
        window = prices[hour:hour + 6]
        model = Model()
        charge, discharge = model.variables(len(window), low=0, high=4), model.variables(len(window), low=0, high=4)
        state = stored = level * model.one
        for k in range(len(window)):
            state = state + 0.8 * charge[k] - discharge[k]
            stored = stored + state
            model.at_most(-state)
            model.at_most(state, 10)
        found = model.maximize(np.array(window) @ (discharge - charge) - 0.01 * stored)
        first = found.value if first is None else first
        level += found.of(0.8 * charge[0] - discharge[0])
        earned += price * found.of(discharge[0] - charge[0])
    return {"first window": first, "earned": earned, "level": level}


def bisection_ratio():
    """The best ratio itself: with t = 1 / (greatest load + 1) the ratio is linear in t x and t."""
    output, load = np.array([4, 7, 5]), np.array([[1, 3, 2], [2, 2, 1], [3, 1, 2]])
    model = Model()
    scaled, t = model.variables(3, low=0), model.variables(low=0)
    model.at_most(load @ scaled + t, np.ones(3))
    model.equal(scaled.sum(axis=0), 10 * t)
    model.at_most(scaled, np.broadcast_to(6 * t, scaled.shape))
    return {"ratio": model.maximize(output @ scaled).value, "tries": 30}


def try_except():
    """By hand: 1 + 2, a fall without end, no point, and two problems that aren't convex."""
    return {
        "plain optimal": 3, "unbounded unbounded": -np.inf, "infeasible infeasible": -np.inf,
        "concave not convex": 0, "reverse not convex": 0,
    }
