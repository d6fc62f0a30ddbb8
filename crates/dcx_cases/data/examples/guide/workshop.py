# A workshop has 40 boards and 60 hours: how many tables and chairs make the most money?
import cvxpy as cp

tables = cp.Variable(nonneg=True)
chairs = cp.Variable(nonneg=True)

boards = 4*tables + chairs
hours = 3*tables + 2*chairs

prob = cp.Problem(cp.Maximize(90*tables + 25*chairs), [boards <= 40, hours <= 60])
prob.solve()
