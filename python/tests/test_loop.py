"""A closed loop of model predictive control: fifty steps take under a second of processor time beside what Python
itself takes.
"""
from __future__ import annotations

import os
import time
import unittest
from fractions import Fraction

import numpy as np
from scipy.optimize import linprog

import dcx.cvxpy as cp

A = np.array([[1, 0.5], [0, 1]])
B = np.array([0.125, 0.5])
STEPS, HORIZON = 50, 8


def processor_time():
    """Seconds of this process, and of the programs that it ran."""
    times = os.times()
    return np.array([times.user + times.system, times.children_user + times.children_system])


def slowness():
    """How many times as long as on an idle machine a loop of Python takes here, but 1 at the least."""
    started = time.process_time()
    for _ in range(5_000_000):
        pass
    return max(1.0, (time.process_time() - started) / 0.2)


def plan():
    """The problem, its parameter, and its first input and next state."""
    state, force = cp.Variable((HORIZON + 1, 2)), cp.Variable(HORIZON)
    measured = cp.Parameter(2)
    rules = [state[0] == measured, force <= 1, force >= -1, state[:, 1] <= 1.5, state[:, 1] >= -1.5]
    rules += [state[t + 1] == A @ state[t] + B * force[t] for t in range(HORIZON)]
    cost = cp.norm1(state[1:, 0]) + 0.5 * cp.norm1(state[1:, 1]) + 0.25 * cp.norm1(force)
    return cp.Problem(cp.Minimize(cost), rules), measured, force, state


def least(start):
    """The value of the plan from this state, by SciPy: positions, speeds and forces, and the size of each."""
    n = HORIZON
    count = 3 * n

    def row(*terms):
        left = np.zeros(2 * count)
        for place, factor in terms:
            left[place] += factor
        return left

    equal, right = [], []
    for t in range(n):
        p, v, f = t, n + t, 2 * n + t
        equal.append(row((p, 1), (f, -0.125), *[(p - 1, -1), (v - 1, -0.5)] * (t > 0)))
        equal.append(row((v, 1), (f, -0.5), *[(v - 1, -1)] * (t > 0)))
        right += [0 if t else start[0] + 0.5 * start[1], 0 if t else start[1]]
    above = np.vstack([np.hstack([np.eye(count), -np.eye(count)]), np.hstack([-np.eye(count), -np.eye(count)])])
    bounds = [(None, None)] * n + [(-1.5, 1.5)] * n + [(-1, 1)] * n + [(0, None)] * count
    cost = np.concatenate([np.zeros(count), np.ones(n), 0.5 * np.ones(n), 0.25 * np.ones(n)])
    return linprog(cost, above, np.zeros(2 * count), np.array(equal), right, bounds, method="highs").fun


class Loop(unittest.TestCase):
    def test_fifty_steps(self):
        wind = np.random.default_rng(4).integers(-1, 2, size=(STEPS, 2)) / 8
        problem, measured, force, _ = plan()
        measured.value = [3, 0]
        problem.solve()  # the script is written once, before the loop
        slow = slowness()
        now, states, values = np.array([3.0, 0.0]), [], []
        started = processor_time()
        for step in range(STEPS):
            measured.value = now
            states.append(now)
            values.append(problem.solve(warm_start=True))
            now = A @ now + B * force.value[0] + wind[step]
            now[1] = np.clip(now[1], -1.5, 1.5)
        package, programs = processor_time() - started
        for start, value in zip(states[::7], values[::7]):
            self.assertAlmostEqual(value, least(start), delta=1e-7)
        parts = f"{package:.2f} s of the package, {programs:.2f} s of the program, {slow:.1f} times as slow as if idle"
        self.assertLess(package + programs, slow, parts)
        self.assertLess(package, 0.4 * slow, parts)

    def test_answers_go_back_in(self):
        """`measured.value = state.value[1]` ends at rest, by way of the values of one plan after the other."""
        problem, measured, force, state = plan()
        measured.value = np.array([3, 0])
        costs, used = [], []
        for _ in range(12):
            costs.append(problem.solve())
            used.append(float(force.value[0]))
            measured.value = state.value[1]
        np.testing.assert_allclose(measured.value, [0, 0], atol=1e-9)
        self.assertEqual(costs, sorted(costs, reverse=True))
        self.assertAlmostEqual(costs[0], least([3, 0]), delta=1e-9)
        # What is left to pay after the first step is no more than the first plan says.
        first = abs(float(A[0] @ [3, 0] + B[0] * used[0])) + 0.5 * abs(B[1] * used[0]) + 0.25 * abs(used[0])
        self.assertAlmostEqual(costs[0] - first, costs[1], delta=1e-9)

    def test_exact_answers_go_back_in(self):
        """Fractions stay fractions: `measured.value = state[1].exact` keeps what floats round."""
        x, p = cp.Variable(2), cp.Parameter(2)
        problem = cp.Problem(cp.Minimize(cp.sum(x)), [3 * x >= p])
        p.value = [1, 2]
        for _ in range(10):
            problem.solve()
            p.value = x.exact
        self.assertEqual(problem.exact, Fraction(3, 3**10))


if __name__ == "__main__":
    unittest.main()
