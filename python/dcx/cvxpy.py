"""The names of CVXPY, gathered: `import dcx.cvxpy as cp` stands where `import cvxpy as cp` stood.

What isn't offered may be imported too, and is refused where it is called, with what to write in its place.
"""
from __future__ import annotations

from . import __version__, atoms, below as _below, errors as error, statuses as settings, unsupported as _unsupported
from .atoms import *  # noqa: F401,F403  (the calls)
from .constraints import Constraint, NonNeg, NonPos, Zero
from .errors import (
    DCPError,
    DPPError,
    ParameterError,
    SolverError,
    disable_warnings,
    enable_warnings,
    warnings_enabled,
)
from .expressions import Constant, Expression
from .leaves import Parameter, Variable
from .objectives import Maximize, Minimize
from .problems import Problem
from .statuses import *  # noqa: F401,F403  (words of answers and names of solvers)
from .statuses import installed_solvers

constraints, expressions, problems = (_below.MODULES[_name] for _name in ("constraints", "expressions", "problems"))

__all__ = [
    "Constant", "Constraint", "DCPError", "DPPError", "Expression", "Maximize", "Minimize", "NonNeg", "NonPos",
    "Parameter",
    "ParameterError", "Problem", "SolverError", "Variable", "Zero", "constraints", "disable_warnings",
    "enable_warnings", "error", "expressions",
    "installed_solvers", "problems", "settings", "warnings_enabled", *atoms.__all__, *settings.__all__,
]


def __getattr__(name: str):
    if name in _unsupported.NAMES:
        return _unsupported.Refused(name)
    raise AttributeError(f"module {__name__!r} has no attribute {name!r}; dir() of it has the names that are offered")


def __dir__() -> list[str]:
    return sorted(__all__)
