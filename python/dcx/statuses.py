"""Words: how a solve ends, in CVXPY's spelling, and the names of CVXPY's solvers and of what it hands problems over by,
which are taken for the one that there is."""
from __future__ import annotations

OPTIMAL = "optimal"
OPTIMAL_INACCURATE = "optimal_inaccurate"
INFEASIBLE = "infeasible"
INFEASIBLE_INACCURATE = "infeasible_inaccurate"
UNBOUNDED = "unbounded"
UNBOUNDED_INACCURATE = "unbounded_inaccurate"
INFEASIBLE_OR_UNBOUNDED = "infeasible_or_unbounded"
USER_LIMIT = "user_limit"
SOLVER_ERROR = "solver_error"
SOLUTION_PRESENT = [OPTIMAL, OPTIMAL_INACCURATE, USER_LIMIT]
INF_OR_UNB = [INFEASIBLE, INFEASIBLE_INACCURATE, UNBOUNDED, UNBOUNDED_INACCURATE, INFEASIBLE_OR_UNBOUNDED]

CBC = "CBC"
CLARABEL = "CLARABEL"
COPT = "COPT"
CPLEX = "CPLEX"
CUCLARABEL = "CUCLARABEL"
CUOPT = "CUOPT"
CVXOPT = "CVXOPT"
DAQP = "DAQP"
DCX = "DCX"
DIFFCP = "DIFFCP"
ECOS = "ECOS"
ECOS_BB = "ECOS_BB"
GLOP = "GLOP"
GLPK = "GLPK"
GLPK_MI = "GLPK_MI"
GUROBI = "GUROBI"
HIGHS = "HIGHS"
MOSEK = "MOSEK"
MPAX = "MPAX"
NAG = "NAG"
OSQP = "OSQP"
PDLP = "PDLP"
PIQP = "PIQP"
PROXQP = "PROXQP"
QOCO = "QOCO"
SCIP = "SCIP"
SCIPY = "SCIPY"
SCS = "SCS"
SDPA = "SDPA"
XPRESS = "XPRESS"

ROBUST_KKTSOLVER = "robust"
COO_CANON_BACKEND = "COO"
CPP_CANON_BACKEND = "CPP"
NUMPY_CANON_BACKEND = "NUMPY"
RUST_CANON_BACKEND = "RUST"
SCIPY_CANON_BACKEND = "SCIPY"

__all__ = [name for name in globals() if name.isupper()]


def installed_solvers() -> list[str]:
    """The solvers that there are: one."""
    return [DCX]
