# How much should a greenhouse be heated in each of the next six hours, so that it seldom falls below 12 degrees and the heating costs little?
import cvxpy as cp

measured = cp.Parameter()              # degrees now
outside = cp.Parameter(6)              # degrees outside in each hour, as forecast
price = cp.Parameter(6, nonneg=True)   # of a degree's heat in each hour

heat = cp.Variable(6, nonneg=True)     # degrees
warm = cp.Variable(7)                  # degrees at the start of each hour, and at the end

rules = [warm[0] == measured, heat <= 5]
for hour in range(6):
    rules += [warm[hour + 1] == warm[hour] + (outside[hour] - warm[hour])/4 + heat[hour]]
cold = cp.sum(cp.pos(12 - warm[1:]))

prob = cp.Problem(cp.Minimize(price @ heat + 20*cold), rules)
