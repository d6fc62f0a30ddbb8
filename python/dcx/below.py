"""The modules below CVXPY's own in which its classes stand, for who takes them from there: `isinstance` and type hints
name `cp.expressions.variable.Variable`."""
from __future__ import annotations

from types import ModuleType

from . import constraints, expressions, leaves, objectives, problems

# for each module where the recorder has its names, and these
_NAMES = {
    "constraints": (constraints, "Constraint Equality Inequality NonNeg NonPos Zero"),
    "constraints.constraint": (constraints, "Constraint"),
    "constraints.nonpos": (constraints, "Inequality NonNeg NonPos"),
    "constraints.zero": (constraints, "Equality Zero"),
    "expressions": (expressions, ""),
    "expressions.constants": (expressions, "Constant Parameter"),
    "expressions.constants.constant": (expressions, "Constant"),
    "expressions.constants.parameter": (leaves, "Parameter"),
    "expressions.expression": (expressions, "Expression"),
    "expressions.leaf": (leaves, "Leaf"),
    "expressions.variable": (leaves, "Variable"),
    "problems": (problems, ""),
    "problems.objective": (objectives, "Maximize Minimize Objective"),
    "problems.problem": (problems, "Problem SizeMetrics SolverStats"),
}


def _made() -> dict[str, ModuleType]:
    modules: dict[str, ModuleType] = {}
    for path, (owner, names) in _NAMES.items():
        module = modules[path] = ModuleType(f"dcx.cvxpy.{path}")
        for name in names.split():
            setattr(module, name, getattr(owner, name))
        above, _, name = path.rpartition(".")
        if above:
            setattr(modules[above], name, module)
    return modules


# by their names below `cvxpy`; each that lies in another one is an attribute of it
MODULES = _made()
