"""Problems with wide data, drawn at random: fits, blends and portfolios, as scripts and, worked out apart from them, as
programs for HiGHS.
"""
import random
from typing import NamedTuple

HEAD = "import cvxpy as cp\nimport numpy as np\n"


class Drawn(NamedTuple):
    """A script without parameters, what is wanted of it, and the same as a program in floating-point numbers.

    `program` has the keywords of `scipy.optimize.linprog`, to be minimized; `side` is -1 where the script maximizes.
    """

    name: str
    script: bytes
    status: str
    program: dict
    side: int


def lines(*listed):
    """A script of these lines."""
    return (HEAD + "\n".join(listed) + "\n").encode()


def array(rows):
    """Texts of numbers as NumPy's array in a script."""
    if isinstance(rows[0], str):
        return f"np.array([{', '.join(rows)}])"
    return "np.array([" + ", ".join("[" + ", ".join(row) + "]" for row in rows) + "])"


def numbers(rows):
    return [float(v) for v in rows] if isinstance(rows[0], str) else [[float(v) for v in row] for row in rows]


class Draw:
    """One draw: numbers with so many digits behind the point."""

    def __init__(self, seed):
        self.random = random.Random(seed)
        self.digits = self.random.choice([2, 3, 4, 5])
        self.status = self.random.choice(["optimal", "optimal", "infeasible", "unbounded"])

    def number(self, low, high):
        return f"{self.random.uniform(low, high):.{self.digits}f}"

    def vector(self, n, low, high):
        return [self.number(low, high) for _ in range(n)]

    def matrix(self, m, n, low, high):
        return [self.vector(n, low, high) for _ in range(m)]


def fit(seed):
    """The sum of distances to points, with a bound of the greatest slope, or without a minimum."""
    d = Draw(seed)
    m, n = d.random.randint(6, 14), d.random.randint(2, 4)
    a, b, c = d.matrix(m, n, -2, 2), d.vector(m, -5, 5), d.vector(n, 1, 2)
    text = HEAD + f"A = {array(a)}\nb = {array(b)}\nc = {array(c)}\nx = cp.Variable({n})\n"
    A, B, C = numbers(a), numbers(b), numbers(c)
    # The unknowns are x, a distance t of each point, and s, which is at least the size of each slope.
    over = [row + [-float(i == j) for j in range(m)] + [0.0] for i, row in enumerate(A)]
    under = [[-v for v in row] + [-float(i == j) for j in range(m)] + [0.0] for i, row in enumerate(A)]
    sizes = [[side * float(i == j) for j in range(n)] + [0.0] * m + [-1.0] for side in (1, -1) for i in range(n)]
    rows, right = over + under + sizes, B + [-v for v in B] + [0.0] * (2 * n)
    costs = [0.0] * n + [1.0] * m + [0.0]
    rules = ["cp.norm_inf(x) <= 3"]
    if d.status == "unbounded":
        # (the whole of the coefficients is less than what is won by a long x)
        rules, costs = [], [-1000 * v for v in C] + [1.0] * m + [0.0]
        text += "prob = cp.Problem(cp.Minimize(cp.norm1(A @ x - b) - 1000*(c @ x)))\n"
    else:
        rows, right = rows + [[0.0] * (n + m) + [1.0]], right + [3.0]
        if d.status == "infeasible":
            rules.append("c @ x >= 100")
            rows, right = rows + [[-v for v in C] + [0.0] * (m + 1)], right + [-100.0]
        text += f"prob = cp.Problem(cp.Minimize(cp.norm1(A @ x - b)), [{', '.join(rules)}])\n"
    bounds = [(None, None)] * n + [(0, None)] * (m + 1)
    return Drawn("fit", text.encode(), d.status, dict(c=costs, A_ub=rows, b_ub=right, bounds=bounds), 1)


def blend(seed):
    """The cheapest blend with enough of each nutrient: too much of one is asked for, or more may be taken of what
    brings money.
    """
    d = Draw(seed)
    m, n = d.random.randint(3, 8), d.random.randint(4, 8)
    content, costs = d.matrix(m, n, 0.1, 4), d.vector(n, 1, 9)
    need = d.vector(m, 0.2, 0.9)
    text = HEAD + f"N = {array(content)}\ncost = {array(costs)}\nneed = {array(need)}\n"
    text += f"x = cp.Variable({n}, nonneg=True)\n"
    rules = ["N @ x >= need"]
    program = dict(
        c=numbers(costs), A_ub=[[-v for v in row] for row in numbers(content)], b_ub=[-v for v in numbers(need)]
    )
    if d.status == "unbounded":
        text += f"cost = cost - 10*np.array([{', '.join(['0'] * (n - 1) + ['1'])}])\n"
        program["c"][-1] -= 10
    else:
        if d.status == "infeasible":
            program["A_ub"].append([1.0] * n)
            program["b_ub"].append(0.01)
            rules.append("cp.sum(x) <= 1/100")
        else:
            rules.append("cp.max(x) <= 5")
            program["A_ub"] += [[float(i == j) for j in range(n)] for i in range(n)]
            program["b_ub"] += [5.0] * n
    text += f"prob = cp.Problem(cp.Minimize(cost @ x), [{', '.join(rules)}])\n"
    return Drawn("blend", text.encode(), d.status, program, 1)


def portfolio(seed):
    """The greatest mean less the mean of the worst scenarios, of shares that sum to 1: with small caps, or with loans
    without end.
    """
    d = Draw(seed)
    m, n = d.random.randint(5, 9), d.random.randint(3, 6)
    k = d.random.randint(1, 3)
    gains = d.matrix(m, n, -1, 2)
    text = HEAD + f"R = {array(gains)}\nw = cp.Variable({n}{', nonneg=True' if d.status != 'unbounded' else ''})\n"
    R = numbers(gains)
    # The unknowns are w, the threshold q of the worst, and what each scenario loses beyond it.
    means = [sum(row[j] for row in R) / m for j in range(n)]
    worst = [k / k] + [1 / k] * m
    rows = [[-v for v in row] + [-1.0] + [-float(i == j) for j in range(m)] for i, row in enumerate(R)]
    right, weight = [0.0] * m, 0.5
    cap = {"optimal": "0.6", "infeasible": f"{0.9 / n:.4f}"}.get(d.status)
    rules = ["cp.sum(w) == 1"]
    if cap is None:
        # Nothing is risked where the risk counts for nothing, so that one share is sold for another without end.
        weight = 0.0
    else:
        rules.append(f"w <= {cap}")
        rows += [[float(i == j) for j in range(n)] + [0.0] * (m + 1) for i in range(n)]
        right += [float(cap)] * n
    text += f"risk = cp.sum_largest(-R @ w, {k})/{k}\n"
    text += f"prob = cp.Problem(cp.Maximize(cp.sum(R @ w)/{m} - {weight}*risk), [{', '.join(rules)}])\n"
    bounds = [(None, None) if cap is None else (0, None)] * n + [(None, None)] + [(0, None)] * m
    equal = [[1.0] * n + [0.0] * (m + 1)]
    costs = [-v for v in means] + [weight * v for v in worst]
    program = dict(c=costs, A_ub=rows, b_ub=right, A_eq=equal, b_eq=[1.0], bounds=bounds)
    return Drawn("portfolio", text.encode(), d.status, program, -1)


def drawn(count):
    """So many problems, of each kind as many."""
    return [(fit, blend, portfolio)[i % 3](i) for i in range(count)]
