"""Problems: an objective and constraints, which are solved by the program, and what is asked of them."""

from __future__ import annotations

import warnings
from typing import Any, Callable, Iterable, Mapping, NamedTuple, Optional

from . import missing, sites
from .answered import Answered, Solution, SolverStats
from .arguments import Arguments
from .constraints import Constraint, Inequality
from .errors import DCPError
from .expressions import Expression
from .objectives import Maximize, Objective
from .questions import refuse_context
from .results import Result
from .scripts import Script, written
from .trees import Made

__all__ = ["Problem", "SizeMetrics", "Solution", "SolverStats"]

_NEVER = (
    "One of the constraints is False, so nothing is feasible. NumPy says False where an array of expressions stands "
    "beside `==`: write cp.hstack(array) == numbers. An array's own A.dot(x) makes such an array: write A @ x."
)


class SizeMetrics(NamedTuple):
    """How large a problem is: entries of its variables, of its constants and parameters, and of its constraints."""

    num_scalar_variables: int
    num_scalar_data: int
    num_scalar_eq_constr: int
    num_scalar_leq_constr: int


class Problem(Answered, Made):
    """An objective, `Minimize(..)` or `Maximize(..)`, and a list of constraints. Neither changes once the problem is
    made.

    After `solve()` the answer stands in `status`, `value` and `exact`, in the variables' `value` and `exact` and in
    the constraints' `dual_value` and `exact_dual`. Where no point is feasible `farkas` has the multipliers that show
    it; where the objective goes on for ever `ray` has the point and the direction. `report` has the bytes that the
    program printed.

    Raises `DCPError` where the objective is none, `ValueError` where a constraint is none, `TypeError` where the
    constraints are no list.
    """

    def __init__(self, objective: Objective, constraints: Optional[Iterable[Any]] = None):
        super().__init__()
        self.site = sites.here()
        if not isinstance(objective, Objective):
            raise DCPError("Problem objective must be Minimize or Maximize.", self.site)
        if isinstance(constraints, Constraint):
            raise TypeError("the constraints are a list, and not a constraint: write [constraint]")
        self._objective = objective
        listed = () if constraints is None else constraints
        self._constraints = [_constraint(item, place) for place, item in enumerate(listed)]
        self._script: Optional[Script] = None
        self._verdict: Any = None
        self._arguments_told = False

    # -- what the problem is made of

    @property
    def objective(self) -> Objective:
        """The objective."""
        return self._objective

    @property
    def constraints(self) -> list[Constraint]:
        """The constraints, in a list of its own: a longer list makes no longer problem."""
        return list(self._constraints)

    @property
    def var_dict(self) -> dict[str, Any]:
        """The variables by name."""
        return {variable.name(): variable for variable in self.variables()}

    @property
    def param_dict(self) -> dict[str, Any]:
        """The parameters by name."""
        return {parameter.name(): parameter for parameter in self.parameters()}

    @property
    def size_metrics(self) -> SizeMetrics:
        """How many entries there are."""
        data = [*self.constants(), *self.parameters()]
        equal, less = (sum(item.size for item in self._constraints if item.op == op) for op in ("==", "<="))
        return SizeMetrics(sum(item.size for item in self.variables()), sum(item.size for item in data), equal, less)

    def is_mixed_integer(self) -> bool:
        """Whether some variable is to be whole."""
        return any(variable.attributes["boolean"] or variable.attributes["integer"] for variable in self.variables())

    # -- what the rules say of it

    def is_dcp(self, dpp: bool = False) -> bool:
        """Whether the rules accept the problem; with `dpp` also where its parameters may vary, so that a new value is
        put in fast."""
        from . import verdicts

        if self._verdict is None:
            self._verdict = verdicts.of_problem(self)
        return self._verdict.is_dpp if dpp else self._verdict.is_dcp

    def is_dpp(self, context: str = "dcp") -> bool:
        """Whether the rules accept the problem also where its parameters may vary. UnsupportedError of another context.
        """
        refuse_context(context)
        return self.is_dcp(dpp=True)

    def is_qp(self) -> bool:
        """Whether it is at most quadratic: all that is accepted is piecewise linear."""
        return self.is_dcp()

    is_lp = is_qp

    # -- what is handed over

    @property
    def written(self) -> Script:
        """The script that is handed to the program, with what its names, numbers and places stand for; it is written
        once."""
        if self._script is None:
            self._script = written(self._objective, self._constraints)
        return self._script

    def script(self) -> str:
        """The text of the script that is handed to the program. Raises `LimitError` where the model passes a limit of
        the language."""
        return self.written.text

    def settings(self) -> str:
        """The line of settings that is handed over with it: the parameters' values. Raises `ParameterError` where one
        has none."""
        return self.written.settings_line()

    # -- answers

    def solve(
        self,
        solver: Optional[str] = None,
        warm_start: Optional[bool] = None,
        verbose: bool = False,
        **arguments: Any,
    ) -> float:
        """Solves the problem at the parameters' values, and returns its value: infinite where it is infeasible or
        unbounded.

        `max_iters` is the most pivots that a run may take, 200,000 by itself, and `time_limit` the seconds after
        which it is ended. Where the program stops since its own numbers pass 128 bits, its rows are too many or its
        own limit of pivots is passed, the exact solver is asked, in Python, and the program checks its certificate;
        `exact=False` leaves that out. `shown_by` tells on what the answer stands. Where an answer's numbers pass 128
        bits an `interval` is shown: the status is `optimal_inaccurate`, and the point is feasible. There `box` is the
        greatest magnitude of entries that have no bounds, a million by itself, and `trust="python"` takes the exact
        answer as it is found. The exact solver has `time_limit` seconds too, 120 by itself.

        With whole variables the program has `program_seconds` for its own branch and bound, five by itself. Behind
        that boxes are searched here, for `time_limit` seconds or 600, and `evidence` has what shows the answer.
        `max_nodes` boxes are solved at the most, and `progress` is called with a `dcx.whole.search.Progress` as it
        goes. Where a limit is passed, or Python is interrupted, the best point is kept, with the status `user_limit`.

        The other arguments of CVXPY's solve, `warm_start` among them, and of its solvers are taken and have no meaning
        here, since there is one solver and its answers are exact; `verbose` says so, and what is done.

        Raises `DCPError` where the rules refuse the problem, `ParameterError` where a parameter has no value,
        `LimitError` where the model passes a limit of the language, `SolverError` where there is no answer (then there
        are no values), `CertificateError` where the program refuses what the exact solver says, `ProgramError` where
        it can't be run, `UnsupportedError` where an argument asks for what isn't offered, `TypeError` where one isn't
        known, `ValueError` where a limit is none.
        """
        from . import solving

        given = arguments if warm_start is None else {"warm_start": warm_start, **arguments}
        return solving.solve(self, Arguments(solver, given), verbose)

    def verify(
        self,
        values: Mapping[Any, Any],
        duals: Optional[Mapping[Any, Any]] = None,
        box: Any = None,
        time_limit: Optional[float] = None,
    ) -> Any:
        """Tells what can be shown of an answer that another solver gave, as a `dcx.shown.verifying.Verified`; see
        `dcx.shown.verifying.verify`."""
        from .shown import verifying

        return verifying.verify(self, values, duals, box, time_limit)

    def solve_at(
        self,
        settings: Iterable[Mapping[Any, Any]],
        warm: bool = True,
        executor: Any = None,
        progress: Optional[Callable[[int, int], object]] = None,
        chunk: Optional[int] = None,
        max_iters: Optional[int] = None,
        **wishes: Any,
    ) -> list[Result]:
        """Answers the problem at each of these settings, and returns a `Result` for each, in order; see
        `dcx.runs.solve_at`. `exact`, `trust`, `box` and `time_limit` are those of `solve`."""
        from . import runs

        return runs.solve_at(self, settings, warm, executor, progress, chunk, max_iters, **wishes)

    def certificate(self, max_iters: Optional[int] = None) -> Any:
        """A certificate of the answer at the parameters' values, as a `dcx.certificates.Certificate`."""
        from . import certificates

        return certificates.certificate(self, max_iters)

    def irreducible(self, max_iters: Optional[int] = None) -> Any:
        """The constraints that are in each other's way at the parameters' values, as a
        `dcx.certificates.Irreducible`."""
        from . import certificates

        return certificates.irreducible(self, max_iters)

    def range(self, parameter: Any, max_iters: Optional[int] = None) -> Any:
        """How far a parameter may move, and the problem's value along its way, as a `dcx.certificates.Span`."""
        from . import certificates

        return certificates.span(self, parameter, max_iters)

    def view(self, file: Any = "problem.html", parameter: Any = None, max_iters: Optional[int] = None) -> str:
        """Writes a page that shows the answer at the parameters' values, and returns the file's name; see
        `dcx.view.notebook.view`."""
        from .view import notebook

        return notebook.view(self, file, parameter, max_iters)

    def _repr_html_(self) -> Optional[str]:
        """The last answer, for a notebook; None before one."""
        from .view import notebook

        return notebook.fragment(self)

    @property
    def _maximized(self) -> bool:
        return isinstance(self._objective, Maximize)

    # -- problems as terms

    def __neg__(self) -> Problem:
        return Problem(-self._objective, self._constraints)

    def __add__(self, other: Any) -> Problem:
        if isinstance(other, Problem):
            return Problem(self._objective + other._objective, dict.fromkeys(self._constraints + other._constraints))
        return self if isinstance(other, (int, float)) and other == 0 else NotImplemented

    __radd__ = __add__

    def __sub__(self, other: Any) -> Problem:
        return self + -other if isinstance(other, Problem) else NotImplemented

    def __mul__(self, factor: Any) -> Problem:
        return Problem(self._objective * factor, self._constraints)

    __rmul__ = __mul__

    def __truediv__(self, divisor: Any) -> Problem:
        return Problem(self._objective / divisor, self._constraints)

    def __str__(self) -> str:
        lines = [f"{' ' * 10} {item}" for item in self._constraints]
        if lines:
            lines[0] = lines[0].replace(" " * 10, "subject to", 1)
        return "\n".join([str(self._objective), *lines])

    def __repr__(self) -> str:
        return f"Problem({self._objective!r}, {self._constraints!r})"

    def _roots(self) -> list:
        return [self._objective.expr, *(side for item in self._constraints for side in item.sides)]


missing.refuse(Problem, "problem")


def _constraint(item: Any, place: int) -> Constraint:
    """A constraint of the list, at a place from 0; a truth value is one that always or never holds, as in CVXPY, with
    a warning where it never does: NumPy says False where it can't compare."""
    if isinstance(item, Constraint):
        return item
    if isinstance(item, bool) or type(item).__name__ in ("bool_", "bool"):
        if not item:
            site = sites.here()
            warnings.warn_explicit(_NEVER, UserWarning, site.file, site.line)
        return Inequality(0 if item else 1, 1 if item else 0)
    hint = ""
    if isinstance(item, (list, tuple)):
        hint = "; lists are joined by +, and not put into each other"
    elif isinstance(item, Expression):
        hint = f"; `{item}` is an expression: compare it by <=, >= or =="
    raise ValueError(f"Problem has an invalid constraint of type {type(item)} at place {place} of the list{hint}")
