# The same with an order of six tables and twenty chairs.
import cvxpy as cp

tables = cp.Variable(nonneg=True)
chairs = cp.Variable(nonneg=True)

boards = 4*tables + chairs
hours = 3*tables + 2*chairs

prob = cp.Problem(cp.Maximize(90*tables + 25*chairs), [
    boards <= 40,
    hours <= 60,
    tables >= 6,
    chairs >= 20,
])
prob.solve()
