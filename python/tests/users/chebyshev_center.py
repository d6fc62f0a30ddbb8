"""The deepest point of a polyhedron, from its half-spaces as a list of pairs."""
import cvxpy as cp
import numpy as np

halfspaces = [([3, 4], 20), ([-4, 3], 15), ([0, -1], 2), ([5, -12], 52), ([-8, -6], 30)]

center = cp.Variable(2, name="center")
radius = cp.Variable(name="radius")
constraints = [radius >= 0]
for normal, bound in halfspaces:
    a = np.array(normal)
    constraints.append(a @ center + np.linalg.norm(a) * radius <= bound)

problem = cp.Problem(cp.Maximize(radius), constraints)
problem.solve()
slacks = [c.args[1].value - c.args[0].value for c in constraints[1:]]
touching = [i for i, slack in enumerate(slacks) if slack < 1e-8]
print(f"The center is {center.value} and the radius {radius.value}; it touches {touching}")
ANSWER = {"radius": problem.value, "x": float(center.value[0]), "y": float(center.value[1]),
          "touching": float(len(touching))}
