# Hours above 60 can be worked, at 1 each.
import cvxpy as cp

tables = cp.Variable(nonneg=True)
chairs = cp.Variable(nonneg=True)

boards = 4*tables + chairs
hours = 3*tables + 2*chairs

prob = cp.Problem(cp.Maximize(90*tables + 25*chairs - cp.pos(hours - 60)), [boards <= 40])
prob.solve()
