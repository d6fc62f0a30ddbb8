"""The arguments of `solve`: those that CVXPY and its solvers take, and which of them mean something here."""

from __future__ import annotations

from fractions import Fraction
from typing import Any, Callable, Mapping, Optional

from . import sites, statuses
from .errors import SolverError, UnsupportedError
from .numbers import exact
from .sites import Site

__all__ = ["Arguments", "SOLVERS", "box", "pivots", "seconds_of", "trust_of", "whole_number"]

# the names of solvers are the words of CVXPY that say their own name
SOLVERS = frozenset(word for word in statuses.__all__ if getattr(statuses, word) == word)

# what other solvers are told of tolerances, of their way and of what they print
_MEANINGLESS = frozenset(
    "warm_start ignore_dpp canon_backend solver_path eps abstol reltol feastol abstol_inacc reltol_inacc "
    "feastol_inacc eps_abs eps_rel eps_infeas eps_prim_inf eps_dual_inf eps_inaccurate tol tol_gap_abs tol_gap_rel "
    "tol_feas tol_infeas_abs tol_infeas_rel tol_ktratio reduced_tol_gap_abs reduced_tol_gap_rel reduced_tol_feas "
    "reduced_tol_infeas_abs reduced_tol_infeas_rel reduced_tol_ktratio accept_unknown use_quad_obj verbosity "
    # OSQP, PROXQP, SCS
    "rho sigma alpha delta scale scale_x rho_x normalize scaling adaptive_rho adaptive_rho_interval "
    "adaptive_rho_tolerance adaptive_rho_fraction adaptive_scale polish polishing polish_refine_iter "
    "check_termination scaled_termination check_dualgap linsys_solver backend mu_eq mu_in use_indirect gpu "
    "acceleration_lookback acceleration_interval write_data_filename log_csv_filename "
    # Clarabel, CVXOPT, ECOS_BB
    "equilibrate_enable equilibrate_max_iter max_step_fraction max_threads direct_kkt_solver direct_solve_method "
    "static_regularization_enable dynamic_regularization_enable iterative_refinement_enable presolve_enable "
    "chordal_decomposition_enable refinement kktsolver mi_max_iters mi_abs_eps mi_rel_eps "
    # HiGHS, SciPy, GLPK, CBC, SCIP, CPLEX, MOSEK, NAG, PDLP
    "presolve parallel threads num_threads highs_options mip_rel_gap mip_abs_gap mip_feasibility_tolerance "
    "primal_feasibility_tolerance dual_feasibility_tolerance simplex_strategy run_crossover random_seed log_file "
    "scipy_options glpk logLevel allowableGap ratioGap numberThreads integerTolerance primalTolerance dualTolerance "
    "scip_params cplex_params cplex_filename reoptimize mosek_params bfs save_file nag_params parameters_proto "
    # Gurobi
    "env MIPGap MIPGapAbs MIPFocus Threads OutputFlag LogToConsole LogFile Method NodeMethod ConcurrentMIP Presolve "
    "Aggregate DualReductions Crossover Cuts Heuristics Symmetry NumericFocus ScaleFlag FeasibilityTol OptimalityTol "
    "IntFeasTol BarConvTol BarIterLimit IterationLimit BestObjStop BestBdStop SolutionLimit NonConvex MemLimit "
    "SoftMemLimit NodefileStart Seed".split()
)
# what asks for another kind of problem or answer
_UNSUPPORTED = {
    "gp": "gp=True asks for a geometric program, which isn't made of linear pieces",
    "qcp": "qcp=True asks for a quasiconvex program: ask at fixed values of what makes it one, and bisect",
    "requires_grad": "requires_grad=True asks for derivatives; problem.range(p) tells the value along a parameter, and "
    "dual_value has the multipliers",
}
# the most pivots, and seconds, as solvers call them
_PIVOTS = ("max_iters", "max_iter")
_NODES = ("max_nodes", "mip_max_nodes", "node_limit", "maximumNodes", "NodeLimit")
_SECONDS = ("time_limit", "time_limit_secs", "time_limit_sec", "TimeLimit", "maximumSeconds", "maxtime")
_MOST_PIVOTS = 1_000_000_000


class Arguments:
    """The arguments of one call of `solve`.

    `options` are the program's words, `time_limit` the seconds that it may take or None, `meaningless` the names of
    those that have no meaning here. `exact`, `trust` and `box` are what is said of the exact solver. Raises `TypeError`
    where an argument isn't known, `UnsupportedError` where it asks for what isn't offered, `SolverError` where the
    solver's name is none, `ValueError` where a limit is none.
    """

    def __init__(self, solver: Optional[str], given: Mapping[str, Any]):
        self.meaningless: list[str] = []
        self.options: list[str] = []
        self.time_limit: Optional[float] = None
        self.enforce_dpp = False
        self.exact = True
        self.trust: Optional[str] = None
        self.box: Optional[Fraction] = None
        self.program_seconds: Optional[float] = None
        self.max_nodes: Optional[int] = None
        self.progress: Optional[Callable[[Any], object]] = None
        if solver is not None:
            if not isinstance(solver, str) or solver.upper() not in SOLVERS:
                reason = f"The solver {solver} is not installed: there is one, for which CVXPY's other names are taken"
                raise SolverError(reason, sites.here())
            self.meaningless.append("solver")
        for name, value in given.items():
            self._take(name, value)

    def _take(self, name: str, value: Any) -> None:
        if name in _UNSUPPORTED:
            if value:
                raise UnsupportedError(f"solve({name}={value!r}) isn't offered: {_UNSUPPORTED[name]}", sites.here())
        elif name == "method":
            if value is not None:
                reason = "solve(method=..) isn't offered: call the function itself with the problem"
                raise UnsupportedError(reason, sites.here())
        elif name in _PIVOTS:
            self.options += pivots(value)
        elif name in _SECONDS:
            self.time_limit = seconds_of(value, name)
        elif name == "enforce_dpp":
            self.enforce_dpp = bool(value)
        elif name == "exact":
            self.exact = bool(value)
        elif name == "trust":
            self.trust = trust_of(value)
        elif name == "box":
            self.box = box(value)
        elif name == "program_seconds":
            self.program_seconds = seconds_of(value, name)
        elif name in _NODES:
            self.max_nodes = None if value is None else whole_number(value, name)
        elif name == "progress":
            if value is not None and not callable(value):
                raise TypeError(f"progress is called with a dcx.whole.search.Progress, and {value!r} can't be called")
            self.progress = value
        elif name in _MEANINGLESS:
            self.meaningless.append(name)
        else:
            reason = "which isn't known as one of CVXPY or of its solvers"
            raise TypeError(f"solve() got an unexpected argument {name!r}, {reason}")

    def too_late(self, cause: Exception, site: Site) -> SolverError:
        """What is told where `time_limit` passed."""
        return SolverError(f"{cause}; time_limit gives it more", site)


def box(value: Any) -> Optional[Fraction]:
    """The box that entries of variables are looked at in. Raises `ValueError` where it is no number above 0."""
    found = None if value is None else exact(value)
    if found is not None and found <= 0:
        raise ValueError(f"box is a number above 0, and not {value!r}")
    return found


def trust_of(value: Optional[str]) -> Optional[str]:
    """Whose word is enough. Raises `ValueError` where it is neither "python" nor None."""
    if value not in (None, "python"):
        raise ValueError(f'trust is "python" or None, and not {value!r}')
    return value


def seconds_of(value: Any, name: str = "time_limit") -> Optional[float]:
    """A limit of time, which may be infinite. Raises `ValueError` where it is no number of seconds above 0."""
    if value is None:
        return None
    try:
        seconds = 0.0 if isinstance(value, (bool, str)) else float(value)
    except (TypeError, ValueError, OverflowError):
        seconds = 0.0
    if not seconds > 0:
        raise ValueError(f"{name} is a number of seconds above 0, and not {value!r}")
    return seconds


def whole_number(value: Any, name: str, most: Optional[int] = None) -> int:
    """A limit that is counted. Raises `ValueError`, with the argument's name, where it is no whole number from 1 to
    `most`."""
    try:
        number = 0 if isinstance(value, (bool, str)) else int(value)
        is_good = number == value and number >= 1 and (most is None or number <= most)
    except (TypeError, ValueError, OverflowError):
        is_good = False
    if not is_good:
        limits = "from 1" if most is None else f"from 1 to {most:,}"
        raise ValueError(f"{name} is a whole number {limits}, and not {value!r}")
    return number


def pivots(value: Optional[int]) -> list[str]:
    """The program's words for a limit on pivots. Raises `ValueError` where it is no whole number from 1 to
    1,000,000,000."""
    return [] if value is None else [f"--max-pivots={whole_number(value, 'max_iters', _MOST_PIVOTS)}"]
