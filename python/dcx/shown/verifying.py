"""What can be shown of an answer that another solver gave: `problem.verify(values, duals)`."""
from __future__ import annotations

from fractions import Fraction
from typing import Any, Mapping, NamedTuple, Optional

from .. import arrays, program
from ..arguments import box as box_of
from ..arguments import seconds_of
from ..arrays import Array, to_fractions
from ..errors import UnsupportedError
from ..refusals import read
from . import asking, fallback
from .intervals import Interval

__all__ = ["Verified", "verify"]


class Verified(NamedTuple):
    """What can be shown of values that are said to be the best.

    `feasible` tells whether the values keep all constraints exactly, as the decimals that they are; `broken` has, of
    each constraint that they break, by how much at most (of a variable by how much they miss its own sign or form).
    `value` is the objective there. `interval` holds the problem's best value: its one end is the value at `point`,
    which keeps all constraints, and `moved` how far that is from the values, in the entry that moves most: 0 where
    they are feasible themselves. Where no feasible point is as near as a hundred-thousandth of the greatest entry,
    that end is None, and so are `point` and `moved`. `why` tells why an end is missing.
    """

    feasible: bool
    broken: dict[Any, Fraction]
    value: Fraction
    interval: Interval
    point: Optional[dict[Any, Any]]
    moved: Optional[Fraction]
    why: str

    @property
    def gap(self) -> Optional[Fraction]:
        """How much better than `point` the best value may be at most; None where an end isn't shown."""
        ends = (self.interval.low, self.interval.high)
        return None if None in ends else ends[1] - ends[0]

    def __str__(self) -> str:
        told = f"the values keep all constraints, with the value {float(self.value):.12g}"
        if not self.feasible:
            worst = max(self.broken, key=self.broken.__getitem__)
            most = float(self.broken[worst])
            told = f"the values break {len(self.broken)} of the constraints, `{worst}` by {most:.3g}"
            if self.moved is not None:
                told += f"; a point that keeps all of them is at most {float(self.moved):.1e} away"
        why = f"; {self.why}" if self.why else ""
        return f"{told}; the best value is {self.interval}{why}"


def verify(
    problem: Any,
    values: Mapping[Any, Any],
    duals: Optional[Mapping[Any, Any]] = None,
    box: Any = None,
    time_limit: Optional[float] = None,
) -> Verified:
    """Tells what can be shown of the values that another solver gave, at the parameters' present values.

    `values` has a value for each variable, by the variable or its name, in its shape: what CVXPY has in `value`, in
    floats. `duals` may have multipliers by constraint, as in CVXPY's `dual_value`; they begin the search for the bound,
    and without them, or where they show too little, the exact solver finds multipliers. The program says yes to both
    ends of the interval. Where multipliers leave something over on a variable without bounds, the bound is one for
    entries of at most `box` in magnitude, a million by itself; `interval.boxed` tells which. `time_limit` is how many
    seconds the exact solver may take, 120 by itself.

    Raises `TypeError` where values or multipliers are no dictionary, `KeyError` where a key is no variable or
    constraint of the problem or a variable has no value, `ValueError` where a value has another shape or isn't finite,
    a variable has two, or a limit is none, `UnsupportedError` of a problem in whole numbers, `SolverError` where the
    search fails or takes too long, `CertificateError` where the program says no, and else as `Problem.solve`.
    """
    for given, what in ((values, "values by variable or name"), (duals, "multipliers by constraint")):
        if not isinstance(given, Mapping) and (given is values or given is not None):
            raise TypeError(f"verify(..) takes {what}, in a dictionary, and not a {type(given).__name__}")
    if problem.is_mixed_integer():
        reason = "verify(..) isn't offered of a problem in whole numbers: no multipliers show its best value"
        raise UnsupportedError(reason, problem.site)
    script = problem.written
    settings = script.settings_line()
    read(program.run("check", script.text), script)
    named = _values(script, values)
    stated = None if duals is None else _duals(script, duals)
    limits = {"seconds": seconds_of(time_limit)}
    made, lacks, value, moved = asking.asked("verified", script.text, settings, box_of(box), named, stated, **limits)
    interval = fallback.checked(made, settings, problem._maximized)
    broken = {}
    for number, lack in lacks.items():
        broken[script.variables[number] if isinstance(number, str) else script.constraints[number]] = lack
    point = None
    if interval.point is not None:
        point = {
            variable: to_fractions(Array(variable.shape, entries))
            for variable, entries in zip(script.variables.values(), made.point)
        }
    return Verified(not lacks, broken, value, interval, point, None if point is None else moved, made.why)


def _values(script: Any, values: Mapping[Any, Any]) -> dict[str, list[Fraction]]:
    """The entries of each variable, by the script's name."""
    found: dict[str, list[Fraction]] = {}
    for key, value in values.items():
        variable = script.leaf("variable", key)
        if variable is None:
            raise KeyError(f"{key!r} is no variable of the problem")
        if variable in script.idle:
            continue
        if script.names[variable] in found:
            raise ValueError(f"there are two values of {variable.name()}: by itself, and by its name")
        if value is None:
            raise KeyError(f"the variable {variable.name()} has no value")
        found[script.names[variable]] = list(variable._shaped(value).dense().entries)
    for name, variable in script.variables.items():
        if name not in found:
            raise KeyError(f"the variable {variable.name()} has no value")
    return {name: found[name] for name in script.variables}


def _duals(script: Any, duals: Mapping[Any, Any]) -> dict[int, list[Fraction]]:
    """The multipliers by the number of the constraint."""
    found = {}
    for constraint, value in duals.items():
        number = script.numbers.get(constraint)
        if number is None:
            raise KeyError(f"{constraint!r} is no constraint of the problem")
        if value is None:
            continue
        array = arrays.array_of(value).dense()
        is_turned = array.ndim == constraint.ndim == 2 and array.shape != constraint.shape
        if array.size != constraint.size or is_turned:
            given = f"multipliers of the shape {array.shape} are given for {constraint}"
            raise ValueError(f"{given}, which has the shape {constraint.shape}")
        found[number] = list(array.entries)
    return found
