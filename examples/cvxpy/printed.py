import cvxpy as cp
x = cp.Variable(nonneg=True)
least = cp.Parameter(nonneg=True)
prob = cp.Problem(cp.Minimize(x), [x >= least])
for amount in [1, 2, 3]:
    least.value = amount
    print(prob.solve())
