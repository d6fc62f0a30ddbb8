# Nothing limits the chairs: the hours were forgotten, and offcuts of tables are boards for chairs.
import cvxpy as cp

tables = cp.Variable(nonneg=True)
chairs = cp.Variable(nonneg=True)

prob = cp.Problem(cp.Maximize(90*tables + 25*chairs), [4*tables - chairs <= 40])
prob.solve()
