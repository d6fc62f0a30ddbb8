# The workshop's problem turned round: what a board and an hour are worth at the least, where a table brings 90 and a chair the price.
import cvxpy as cp

price = cp.Parameter(nonneg=True, value=25)

board = cp.Variable(nonneg=True)
hour = cp.Variable(nonneg=True)

prob = cp.Problem(cp.Minimize(40*board + 60*hour), [
    4*board + 3*hour >= 90,      # 1: tables
    board + 2*hour >= price,     # 2: chairs
])
