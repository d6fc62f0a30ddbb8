# A problem with an answer of each kind: what is the least of |x| + p x, where x is at least 1 and q x at most 5?
import cvxpy as cp

p = cp.Parameter()
q = cp.Parameter(nonneg=True)
x = cp.Variable()

prob = cp.Problem(cp.Minimize(cp.abs(x) + p*x), [x >= 1, q*x <= 5])
