"""Attributes that CVXPY's expressions, constraints and problems have and those here don't: why, and what to write."""
from __future__ import annotations

from typing import Any

from . import sites
from .errors import MissingError

_SPREADS = ("it has squares in it, which aren't piecewise linear", "cp.mean(cp.abs(x - cp.mean(x))), the mean distance")
_PRODUCTS = ("a product of entries isn't piecewise linear", "a sum, or cp.maximum(..) and cp.minimum(..) of tangents")
_COMPLEX = ("there are no complex numbers", "the expression itself")
_SPECTRA = ("no rule here asks for the symmetry or the eigenvalues of a matrix", "X.attributes of a variable X")
_QUASI = ("quasiconvex problems aren't answered", "is_dcp()")
_GEOMETRIC = ("geometric programs aren't answered", "is_dcp()")
_GRADIENTS = ("there are no gradients", "dual_value of a constraint, or problem.range(p) of a parameter p")
_FORMS = ("there is no other solver's form of it", "problem.script(), which is handed to the program")
_LABELS = ("labels aren't kept", "name=.. of a variable or a parameter, or a dictionary of constraints")
_ENTRIES = ("attributes hold of all entries", "cp.hstack([..]) of variables with attributes of their own")
_RESULTS = ("there are no other solver's results to take", "problem.solve()")

# By the word that stands for the object in a message: the reason, what to write, and the names.
_TABLES = {
    "expression": {
        _SPREADS: "std() var()",
        _PRODUCTS: "prod() cumprod()",
        _COMPLEX: "conj() conjugate() real imag",
        _SPECTRA: "is_symmetric() is_skew_symmetric() is_hermitian() is_psd() is_nsd()",
        _QUASI: "is_dqcp() is_quasiconvex() is_quasiconcave() is_quasilinear()",
        _GEOMETRIC: "is_dgp() is_log_log_affine() is_log_log_convex() is_log_log_concave() is_log_log_constant()",
        _GRADIENTS: "grad",
        _FORMS: "canonicalize() canonical_form get_data() tree_copy()",
        _LABELS: "label set_label(..) format_labeled()",
        ("every expression here is defined everywhere", "the constraints that you mean"): "domain",
        ("bounds are known of variables alone", "bounds of a variable, or is_nonneg() and is_nonpos()"): "get_bounds()",
    },
    "leaf": {
        _GRADIENTS: "gradient delta",
        _ENTRIES: "boolean_idx integer_idx sparse_idx value_sparse",
    },
    "constraint": {
        ("a constraint has its multipliers itself", "constraint.dual_value"): "dual_variables",
        ("an answer sets the multipliers", "problem.solve()"): "save_dual_value(..)",
        ("a constraint has one number", "constraint.id"): "constr_id",
        _QUASI: "is_dqcp()",
        _GEOMETRIC: "is_dgp()",
        _FORMS: "canonicalize() canonical_form get_data() tree_copy()",
        _LABELS: "label set_label(..) format_labeled()",
    },
    "problem": {
        ("there is no other solver's data", "problem.script() and problem.settings(), which are handed over"):
            "get_problem_data(..)",
        _RESULTS: "unpack_results(..) unpack(..)",
        ("a function of yours is no method", "its own call, with the problem"): "register_solve(..)",
        ("derivatives aren't taken", "problem.range(p), which tells the value along a parameter"):
            "backward(..) derivative(..)",
        ("nothing is compiled", "problem.solver_stats.solve_time"): "compilation_time",
        _QUASI: "is_dqcp()",
        _GEOMETRIC: "is_dgp()",
        _FORMS: "canonicalize() canonical_form",
        _LABELS: "format_labeled()",
    },
}


class Missing:
    """One of these attributes: whoever asks for it is told, and `hasattr` says that it isn't there."""

    def __init__(self, told: str):
        self.told = told

    def __get__(self, instance: Any, owner: type) -> Any:
        if instance is None:
            return self
        raise MissingError(self.told, sites.here())


def refuse(owner: type, word: str) -> None:
    """Has the objects of a class say of each attribute of their table why it isn't offered, and what to write."""
    for (why, write), names in _TABLES[word].items():
        for name in names.split():
            setattr(owner, name.partition("(")[0], Missing(f"{word}.{name} isn't offered: {why}. Write {write}."))
