"""What a problem tells of its last answer, in CVXPY's words and in fractions."""

from __future__ import annotations

from fractions import Fraction
from typing import Any, NamedTuple, Optional

from .results import Farkas, Ray, Result
from .shown.intervals import Interval

__all__ = ["Answered", "Solution", "SolverStats"]


class SolverStats(NamedTuple):
    """How a solve went: the name of the one solver there is, the seconds that its run took, and of a search for whole
    numbers `extra_stats["nodes"]`. What a run doesn't count is None."""

    solver_name: str
    solve_time: Optional[float] = None
    setup_time: Optional[float] = None
    num_iters: Optional[int] = None
    extra_stats: Optional[dict] = None


class Solution(NamedTuple):
    """An answer, with the values of the variables and the multipliers of the constraints by their `id`."""

    status: str
    opt_val: Optional[float]
    primal_vars: dict[int, Any]
    dual_vars: dict[int, Any]
    attr: dict


class Answered:
    """The last answer of a problem, which is kept as a `Result`."""

    def __init__(self) -> None:
        self._result: Optional[Result] = None
        self._report: Optional[bytes] = None
        self._asked: Optional[str] = None
        self._progress: Any = None
        self._partial: Optional[list[Optional[Result]]] = None

    def _keep(self, result: Result) -> None:
        """Keeps a result, and sets the values of variables and constraints by it."""
        self._result = result
        result.save()

    @property
    def status(self) -> Optional[str]:
        """`optimal`, `infeasible`, `unbounded`, `optimal_inaccurate` where an interval is shown, or `solver_error`
        where there is no answer; None before one."""
        return None if self._result is None else self._result.status

    @property
    def value(self) -> Optional[float]:
        """The value of the last answer as a float, infinite where the problem was infeasible or unbounded; None where
        there is none."""
        return None if self._result is None else self._result.value

    @property
    def exact(self) -> Optional[Fraction]:
        """The value of the last answer as a fraction; None where the problem wasn't optimal."""
        return None if self._result is None else self._result.exact

    @property
    def ray(self) -> Optional[Ray]:
        """Where the objective goes on for ever, in fractions; None where the last answer wasn't `unbounded`."""
        return None if self._result is None else self._result.ray

    @property
    def farkas(self) -> Optional[Farkas]:
        """The multipliers that show that no point is feasible, in fractions; None where the last answer wasn't
        `infeasible`."""
        return None if self._result is None else self._result.farkas

    @property
    def shown_by(self) -> Optional[str]:
        """On what the last answer stands: `the program`, `a certificate that the program accepted`, `an interval`,
        `python`, where its word was enough for the user, or one of the words of `dcx.whole`; None where there is no
        answer."""
        return None if self._result is None else self._result.shown_by

    @property
    def interval(self) -> Optional[Interval]:
        """The interval that holds the best value, where the last answer stands on one, as a
        `dcx.shown.intervals.Interval`."""
        return None if self._result is None else self._result.interval

    @property
    def evidence(self) -> Any:
        """The evidence of the last answer in whole numbers, where it stands on boxes, as a
        `dcx.whole.evidence.Evidence`; its `write(folder)` writes the files, and `python3 -m dcx whole-check` checks
        them."""
        return None if self._result is None else getattr(self._result.shown, "evidence", None)

    @property
    def progress(self) -> Any:
        """How far the last search for whole numbers came, or this one, while it runs, as a
        `dcx.whole.search.Progress` with `best`, `bound`, `gap` and `nodes`; None where there was none."""
        return self._progress

    @property
    def partial_results(self) -> Optional[list[Optional[Result]]]:
        """What the last `solve_at` has found where it didn't come to its end, as where it was interrupted, or while it
        runs: a `Result` for each setting, in order, and None for those that it hasn't answered. None where it came to
        its end, and before one."""
        return None if self._partial is None else list(self._partial)

    @property
    def report(self) -> Optional[bytes]:
        """What the program printed at the last solve."""
        return self._report

    @property
    def solver_stats(self) -> Optional[SolverStats]:
        """How the last solve went."""
        if self._result is None:
            return None
        nodes = self._result.nodes
        return SolverStats("DCX", self._result.seconds, extra_stats=None if nodes is None else {"nodes": nodes})

    @property
    def solution(self) -> Optional[Solution]:
        """The last answer of this problem, by the numbers of variables and constraints, also where their values have
        been set anew since; None before one."""
        result = self._result
        if result is None:
            return None
        primal = {item.id: result[item] for item in self.variables()}
        dual = {item.id: result.dual_value(item) for item in self._constraints if item.size}
        told = ({key: value for key, value in found.items() if value is not None} for found in (primal, dual))
        return Solution(result.status, result.value, *told, {})
