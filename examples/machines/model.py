# Which of seven jobs go to which of two machines, so that all of them are done as early as they can be?
import cvxpy as cp
import numpy as np

on_old = np.array([5, 3, 7, 4, 6, 2, 8])  # hours that each job takes on the old machine
on_new = np.array([4, 2, 6, 4, 5, 1, 7])  # and on the new one
repair = cp.Parameter(nonneg=True)        # hours until the new machine runs again

new = cp.Variable(7, boolean=True)        # 1 where a job goes to the new machine

prob = cp.Problem(cp.Minimize(cp.maximum(on_old @ (1 - new), repair + on_new @ new)), [
    new[2] == new[4],                     # the third and the fifth job share a tool that isn't carried about
])
