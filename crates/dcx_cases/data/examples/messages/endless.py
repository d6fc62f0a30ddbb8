# Even numbers that differ by an odd one: there are none, and without upper limits the search goes on for ever.
import cvxpy as cp

left = cp.Variable(integer=True, nonneg=True)
right = cp.Variable(integer=True, nonneg=True)
prob = cp.Problem(cp.Minimize(left), [2*left == 2*right + 1])
