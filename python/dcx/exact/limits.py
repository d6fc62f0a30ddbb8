"""How large the numbers and the reduced programs may get."""
from __future__ import annotations

from typing import NamedTuple, Optional, Union

from .numbers import EXACT, OF_LANGUAGE, Limited, Unlimited


class Limits(NamedTuple):
    """The operations on numbers, and the greatest count of rows and of columns of a reduced program, None where there
    is none.
    """

    numbers: Union[Limited, Unlimited]
    rows: Optional[int]
    columns: Optional[int]

    def hold(self, rows: int, columns: int) -> bool:
        """Whether a program of this size is within the limits."""
        return (self.rows is None or rows <= self.rows) and (self.columns is None or columns <= self.columns)


OF_PROGRAM = Limits(OF_LANGUAGE, 600, 2400)
NONE = Limits(EXACT, None, None)
