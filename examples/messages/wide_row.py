import cvxpy as cp

near = cp.Variable()
far = cp.Variable()
prob = cp.Problem(cp.Minimize(near), [near + far >= 1, far/1e20 + 1e20*near <= 1])
