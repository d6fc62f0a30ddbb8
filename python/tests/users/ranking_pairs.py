"""Strengths of teams from scores of their matches: pairs by triu, differences by broadcasting, ties by masks."""
import cvxpy as cp
import numpy as np

teams = ["Ash", "Bay", "Cod", "Dew", "Elm"]
scores = np.array([
    [0, 3, -1, 4, np.nan],
    [0, 0, 2, np.nan, 5],
    [0, 0, 0, -2, 1],
    [0, 0, 0, 0, 6],
    [0, 0, 0, 0, 0],
])
i, j = np.triu_indices(len(teams), k=1)
played = ~np.isnan(scores[i, j])
i, j = i[played], j[played]
margin = scores[i, j]

strength = cp.Variable(len(teams))
misfit = strength[i] - strength[j] - margin
weights = np.where(np.abs(margin) > 4, 0.5, 1.0)
problem = cp.Problem(cp.Minimize(weights @ cp.abs(misfit) + 0.01 * cp.norm(strength, np.inf)), [cp.sum(strength) == 0])
problem.solve()

order = np.argsort(-strength.value)
for place, k in enumerate(order, start=1):
    print(f"{place}. {teams[k]} {strength.value[k]:+.3f}")
ANSWER = {"misfit": problem.value, "sum": float(np.sum(strength.value)) + 1.0}
