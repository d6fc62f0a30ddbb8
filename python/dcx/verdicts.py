"""What the rules of convexity find of an expression, a constraint or a problem. The program is asked: of an expression
whether the sum of its entries, which has its curvature and sign, may be minimized or maximized. Where a model passes
what the program's language holds, the same rules are read in Python, which have no limits."""
from __future__ import annotations

from typing import Any, NamedTuple, Optional

from .errors import LimitError

_CURVATURES = {"constant": "CONSTANT", "affine": "AFFINE", "convex": "CONVEX", "concave": "CONCAVE"}
_SIGNS = {"nonneg": "NONNEGATIVE", "nonpos": "NONPOSITIVE", "zero": "ZERO", "unknown": "UNKNOWN"}


class Verdict(NamedTuple):
    """What is found: a curvature and a sign in CVXPY's words, and whether it holds where parameters may vary too."""

    curvature: str
    sign: str
    is_dpp: bool

    @property
    def is_dcp(self) -> bool:
        """Whether the rules find a curvature."""
        return self.curvature != "UNKNOWN"

    @property
    def is_affine(self) -> bool:
        """Whether it is affine or constant."""
        return self.curvature in ("AFFINE", "CONSTANT")

    @property
    def is_convex(self) -> bool:
        """Whether it is convex, affine or constant."""
        return self.is_affine or self.curvature == "CONVEX"

    @property
    def is_concave(self) -> bool:
        """Whether it is concave, affine or constant."""
        return self.is_affine or self.curvature == "CONCAVE"

    @property
    def is_nonneg(self) -> bool:
        """Whether no entry is below 0."""
        return self.sign in ("NONNEGATIVE", "ZERO")

    @property
    def is_nonpos(self) -> bool:
        """Whether no entry is above 0."""
        return self.sign in ("NONPOSITIVE", "ZERO")


UNKNOWN = Verdict("UNKNOWN", "UNKNOWN", False)


def of(expression: Any) -> Verdict:
    """The verdict on an expression, asked once."""
    if expression._known is None:
        expression._known = _asked(expression)
    return expression._known


def _asked(expression: Any) -> Verdict:
    from .atoms import sum
    from .objectives import Maximize, Minimize
    from .problems import Problem

    total = expression if expression.size == 1 else sum(expression)
    verdicts = (of_problem(Problem(sense(total))) for sense in (Minimize, Maximize))
    return next((verdict for verdict in verdicts if verdict.is_dcp), UNKNOWN)


def of_constraint(constraint: Any) -> Verdict:
    """The verdict on a constraint, asked once: one that the rules accept counts as convex."""
    if constraint._known is None:
        from .objectives import Minimize
        from .problems import Problem

        found = of_problem(Problem(Minimize(0), [constraint]))
        constraint._known = Verdict("CONVEX", "UNKNOWN", found.is_dpp) if found.is_dcp else UNKNOWN
    return constraint._known


def of_problem(problem: Any) -> Verdict:
    """The verdict on a problem: the curvature and the sign of its objective where the rules accept it."""
    try:
        found = _of_program(problem.written)
    except LimitError:
        from . import judging

        found = judging.verdict(problem)
    if found is None:
        return UNKNOWN
    sign, curvature, is_dpp = found
    return Verdict(_CURVATURES[curvature], _SIGNS[sign], is_dpp)


def _of_program(script: Any) -> Optional[tuple[str, str, bool]]:
    """The sign, the curvature and whether parameters may vary, as the program finds it; None where it refuses."""
    from . import program
    from .refusals import read
    from .reports import read_report

    run = program.run("check", script.text)
    refusal = read_report(run.report).refusal
    if refusal is not None and refusal.name == "NotDcp":
        return None
    verdict = read(run, script).verdict
    return verdict.sign, verdict.curvature, verdict.dpp
