# How much water should a dam let out on each of six days, planned anew each morning from the level that was measured?
import cvxpy as cp
import numpy as np

inflow = np.array([30, 45, 60, 50, 35, 25])  # thousand cubic metres a day
price = np.array([5, 5, 6, 7, 6, 4])         # what a thousand cubic metres earn as they pass the turbines

level = cp.Parameter(nonneg=True)            # in the dam this morning

out = cp.Variable(6, nonneg=True)
kept = level + cp.cumsum(inflow - out)       # in the dam at the end of each day

prob = cp.Problem(cp.Maximize(price @ out + 4*kept[5]), [
    out <= 70,                               # 1: what the turbines take
    kept <= 200,                             # 2: what the dam holds
    kept >= 40,                              # 3: what the fish need
    cp.abs(cp.diff(out)) <= 25,              # 4: no wave on the river below
])
