"""A robust line through data with outliers: least absolute deviations."""
import numpy as np
import cvxpy as cp

rng = np.random.default_rng(42)
m = 25
t = np.linspace(0, 6, m)
X = np.column_stack([np.ones(m), t])
true_beta = np.array([2.0, -0.7])
y = (X @ true_beta + 0.3 * rng.standard_normal(m)).round(2)
outliers = rng.choice(m, size=4, replace=False)
y[outliers] += 5

beta = cp.Variable(X.shape[1])
residuals = y - X @ beta
objective = cp.Minimize(cp.norm(residuals, 1))
prob = cp.Problem(objective)
result = prob.solve()

flagged = np.where(np.abs(residuals.value) > 2)[0]
print("beta:", beta.value)
print("outliers found:", sorted(flagged.tolist()), "planted:", sorted(outliers.tolist()))

ANSWER = {"loss": result, "intercept": float(beta.value[0]), "slope": float(beta.value[1]),
          "found": float(len(flagged))}
