# The workshop in weeks of so many hours, at a price for a chair.
import cvxpy as cp

hours = cp.Parameter(nonneg=True)
price = cp.Parameter(nonneg=True, value=25)
tables = cp.Variable(nonneg=True)
chairs = cp.Variable(nonneg=True)

prob = cp.Problem(cp.Maximize(90*tables + price*chairs), [4*tables + chairs <= 40, 3*tables + 2*chairs <= hours])
for week in [60, 45]:
    hours.value = week
    prob.solve()
