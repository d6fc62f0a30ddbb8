"""A maximum flow with a sparse incidence matrix, and the minimum cut from its multipliers."""
import cvxpy as cp
import numpy as np
import scipy.sparse as sp

edges = [(0, 1, 16), (0, 2, 13), (1, 2, 10), (2, 1, 4), (1, 3, 12), (3, 2, 9), (2, 4, 14), (4, 3, 7), (3, 5, 20),
         (4, 5, 4)]
nodes = 1 + max(max(a, b) for a, b, _ in edges)
tails = [e[0] for e in edges]
heads = [e[1] for e in edges]
capacity = np.array([e[2] for e in edges], dtype=float)

columns = np.arange(len(edges))
incidence = sp.csr_matrix(
    (np.concatenate([-np.ones(len(edges)), np.ones(len(edges))]),
     (np.concatenate([tails, heads]), np.concatenate([columns, columns]))),
    shape=(nodes, len(edges)))

flow = cp.Variable(len(edges))
value = cp.Variable()
ends = np.zeros(nodes)
ends[0], ends[-1] = -1, 1

bounds = flow <= capacity
problem = cp.Problem(cp.Maximize(value), [incidence @ flow == value * ends, flow >= 0, bounds])
problem.solve()

cut = [(a, b) for (a, b, _), price in zip(edges, bounds.dual_value) if price > 0.5]
print("flow", value.value, "cut", cut)
ANSWER = {"flow": problem.value, "cut": float(capacity @ bounds.dual_value), "edges in the cut": float(len(cut))}
