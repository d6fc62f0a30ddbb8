# For each chair above twenty there is a bonus.
import cvxpy as cp

tables = cp.Variable(nonneg=True)
chairs = cp.Variable(nonneg=True)

money = 90*tables + 25*chairs + 5*cp.pos(chairs - 20)
prob = cp.Problem(cp.Maximize(money), [4*tables + chairs <= 40, 3*tables + 2*chairs <= 60])
