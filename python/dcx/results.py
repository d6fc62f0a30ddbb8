"""What an answer of the program says of the user's own objects: of variables, constraints and settings."""

from __future__ import annotations

from fractions import Fraction
from typing import TYPE_CHECKING, Any, Mapping, NamedTuple, Optional

from .arrays import Array, filled, to_floats, to_fractions
from .errors import DCXError
from .refusals import stopped
from .reports import Answer
from .scripts import Script
from .shown import PROGRAM
from .statuses import INFEASIBLE, OPTIMAL, OPTIMAL_INACCURATE, SOLVER_ERROR, UNBOUNDED, USER_LIMIT

if TYPE_CHECKING:
    from .shown.fallback import Shown
    from .shown.intervals import Interval

__all__ = ["Farkas", "Ray", "Result", "values_of"]

_ENDS = {INFEASIBLE: float("inf"), UNBOUNDED: float("-inf")}
_WITH_POINT = (OPTIMAL, OPTIMAL_INACCURATE, USER_LIMIT)


class Ray(NamedTuple):
    """Where an objective goes on for ever: `point` + k times `direction` is feasible for each k of at least 0, and
    the objective there is at most `bound` - k times `slope` (at least `bound` + k times `slope` where it is
    maximized). Both hold fractions by variable, in its shape."""

    point: dict[Any, Any]
    direction: dict[Any, Any]
    bound: Fraction
    slope: Fraction


class Farkas(NamedTuple):
    """Why no point is feasible: `multipliers` (fractions by constraint, in its shape; at least 0 for `<=`) times left
    minus right sum to at least `gap`, above 0, at each point of the variables' domain, where a feasible point would
    give at most 0."""

    gap: Fraction
    multipliers: dict[Any, Any]


class Result:
    """How the problem ends at one setting.

    `setting` is the setting as it was given, `index` its number from 0. `status` is `optimal`, `infeasible`,
    `unbounded`, `optimal_inaccurate` (a feasible point with an `interval` that holds the best value) or
    `solver_error`, where `error` says why there is no answer. `shown_by` says on what the answer stands. `value` is the
    objective's value as a float, infinite where the problem is infeasible or unbounded, None where there is no answer,
    and `exact` the fraction, None where there is none. `result[x]` is the value of a variable in floats, None where it
    has none. `nodes` is how many nodes the search for whole numbers took, `seconds` how long the run took.
    """

    def __init__(
        self,
        script: Script,
        answer: Optional[Answer],
        maximized: bool,
        setting: Optional[Mapping[Any, Any]] = None,
        index: int = 0,
        error: Optional[DCXError] = None,
        seconds: Optional[float] = None,
        shown: Optional[Shown] = None,
    ):
        self.script = script
        self.answer = answer
        self.setting = setting
        self.index = index
        self.seconds = seconds
        self.shown = shown
        self.error = error
        self._maximized = maximized
        if answer is not None and answer.stop is not None:
            self.error = stopped(answer.stop, script)
        self.status = SOLVER_ERROR if self.error is not None else answer.status

    @property
    def shown_by(self) -> Optional[str]:
        """On what the answer stands: `the program`, `a certificate that the program accepted`, `an interval` or
        `python`; None where there is no answer."""
        if self.error is not None:
            return None
        return PROGRAM if self.shown is None else self.shown.by

    @property
    def interval(self) -> Optional[Interval]:
        """The interval that holds the best value, where the answer stands on one."""
        return None if self.shown is None else self.shown.interval

    @property
    def value(self) -> Optional[float]:
        """The value as a float: infinite where the problem is infeasible or unbounded, None where there is no answer.
        """
        if self.status in _WITH_POINT:
            return float(self.answer.value)
        end = _ENDS.get(self.status)
        return end if end is None or not self._maximized else -end

    @property
    def exact(self) -> Optional[Fraction]:
        """The value as a fraction, None where the problem isn't optimal."""
        return self.answer.value if self.status == OPTIMAL else None

    @property
    def nodes(self) -> Optional[int]:
        """How many nodes the search for whole numbers took, None where none was made."""
        return None if self.answer is None else self.answer.nodes

    def __getitem__(self, variable: Any) -> Any:
        array = self.array(variable)
        return None if array is None else to_floats(array)

    def exact_value(self, variable: Any) -> Any:
        """The value of a variable in fractions, None where it has none."""
        array = self.array(variable)
        return None if array is None else to_fractions(array)

    def array(self, variable: Any) -> Optional[Array]:
        """The value of a variable as an exact array, None where there is no best point. Raises `KeyError` of what is
        no variable of it."""
        if variable in self.script.idle:
            return filled(variable.shape, 0) if self.status in _WITH_POINT else None
        name = self.script.names.get(variable)
        if name not in self.script.variables:
            raise KeyError(f"{variable!r} is no variable that the problem reaches")
        return _array(self.answer.variables[name]) if self.status in _WITH_POINT else None

    def dual_value(self, constraint: Any) -> Any:
        """The multipliers of a constraint in floats, None where there are none."""
        array = self.dual_array(constraint)
        return None if array is None else to_floats(array)

    def exact_dual(self, constraint: Any) -> Any:
        """The multipliers of a constraint in fractions, None where there are none."""
        array = self.dual_array(constraint)
        return None if array is None else to_fractions(array)

    def dual_array(self, constraint: Any) -> Optional[Array]:
        """The multipliers of a constraint as an exact array, None where the problem isn't optimal or is one in whole
        numbers. Raises `KeyError` of what is no constraint of it."""
        number = self.script.numbers.get(constraint)
        if number is None:
            raise KeyError(f"{constraint!r} is no constraint of the problem")
        found = self.answer.duals.get(number) if self.status in _WITH_POINT else None
        return None if found is None else Array(constraint.shape, found.entries)

    @property
    def ray(self) -> Optional[Ray]:
        """The point and the direction along which an unbounded objective goes on for ever, None where the problem
        isn't unbounded."""
        if self.status != UNBOUNDED:
            return None
        answer = self.answer
        point, direction = (values_of(self.script, entries) for entries in (answer.variables, answer.ray))
        return Ray(point, direction, answer.bound, answer.slope)

    @property
    def farkas(self) -> Optional[Farkas]:
        """The multipliers that show an infeasible problem to be one, None where it isn't, or where whole numbers are
        asked for."""
        if self.status != INFEASIBLE or self.answer.gap is None:
            return None
        duals = self.answer.duals
        multipliers = {
            constraint: to_fractions(Array(constraint.shape, duals[number].entries))
            for number, constraint in self.script.constraints.items()
        }
        return Farkas(self.answer.gap, multipliers)

    def save(self) -> None:
        """Sets the values of the variables and the multipliers of the constraints, as `problem.solve()` does; None
        where there are none."""
        idle = (leaf for leaf in self.script.idle if leaf.kind == "variable")
        for variable in (*self.script.variables.values(), *idle):
            variable._set_value(self.array(variable))
        for constraint in self.script.constraints.values():
            constraint._set_dual(self.dual_array(constraint))

    def __repr__(self) -> str:
        told = f"value={self.value}" if self.error is None else f"error={self.error!r}"
        return f"Result(index={self.index}, status={self.status!r}, {told})"


def values_of(script: Script, entries: Mapping[str, Any]) -> dict[Any, Any]:
    """The values of the variables of a script in fractions, of what a report has by their names."""
    return {script.variables[name]: to_fractions(_array(found)) for name, found in entries.items()}


def _array(entries: Any) -> Array:
    """The exact array of the entries of a report."""
    return Array(entries.shape, entries.entries)
