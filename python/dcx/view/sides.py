"""What the sides of the constraints are at a point, in fractions, by the second reading of the script."""
from __future__ import annotations

from fractions import Fraction
from typing import NamedTuple, Optional

from ..exact.verify import Values
from ..reports import Answer
from ..sources import Sources
from ..values import Entries


class Row(NamedTuple):
    """An entry of a constraint at an answer. What the answer doesn't tell is None.

    Slack is what the greater side is above the lesser one, and 0 of an equality that holds.
    """

    constraint: int
    entry: int
    is_equality: bool
    slack: Optional[Fraction]
    multiplier: Optional[Fraction]

    @property
    def binds(self) -> bool:
        """Whether it is an inequality whose sides are equal at the point."""
        return self.slack == 0 and not self.is_equality


def rows(sources: Sources, answer: Answer, values: dict[str, Entries]) -> dict[int, list[Row]]:
    """The entries of each constraint, by number from 1, where the parameters have these values.

    Slacks are there where the answer has a point, and the parameters their values; multipliers where it has some.
    """
    problem = sources.problem
    is_set = all(name in values and values[name].shape == problem.nodes[n].shape for name, n in problem.parameters)
    found = None
    if answer.variables and is_set and list(answer.variables) == [name for name, _ in problem.variables]:
        point = [list(array.entries) for array in answer.variables.values()]
        found = Values(problem, point, values).found
    result = {}
    for number, constraint in enumerate(problem.constraints, 1):
        dual = answer.duals.get(number)
        count = 1
        for side in constraint.shape:
            count *= side
        result[number] = [
            Row(
                number,
                entry,
                constraint.kind == "equal",
                None if found is None else found[constraint.right][entry] - found[constraint.left][entry],
                None if dual is None else dual.entries[entry],
            )
            for entry in range(count)
        ]
    return result
