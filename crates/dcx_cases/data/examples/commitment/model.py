# Which of three generators should run in each of six hours, so that the power that is wanted costs the least?
import cvxpy as cp
import numpy as np

least = np.array([20, 15, 5])    # megawatts of a generator that runs
most = np.array([100, 60, 30])
price = np.array([20, 28, 45])   # of a megawatt hour
keeps = np.array([300, 150, 40]) # what an hour costs besides, where it runs
start = np.array([800, 250, 50]) # what a start costs

demand = cp.Parameter(6, nonneg=True, value=np.array([40, 70, 140, 175, 120, 60]))

on = cp.Variable((3, 6), boolean=True)
power = cp.Variable((3, 6), nonneg=True)
starts = cp.Variable((3, 6), nonneg=True)

rules = [cp.sum(power, axis=0) == demand]
rules += [on[:, 0] <= starts[:, 0], on[:, 1:] - on[:, :-1] <= starts[:, 1:]]  # all are off before
for g in range(3):
    rules += [power[g] <= most[g]*on[g], power[g] >= least[g]*on[g]]

prob = cp.Problem(cp.Minimize(cp.sum(price @ power + keeps @ on + start @ starts)), rules)
