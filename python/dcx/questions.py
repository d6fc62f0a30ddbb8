"""What may be asked of an expression by the rules of convexity: its curvature, its sign, and whether these are known.
"""
from __future__ import annotations

from . import sites
from .errors import UnsupportedError


def refuse_context(context: str) -> None:
    """UnsupportedError where the rules that are asked for aren't those of convexity."""
    if context != "dcp":
        raise UnsupportedError(f"there are no rules of the name {context!r}: \"dcp\" is the one context", sites.here())


class Questions:
    """The questions, which the program answers: see `verdicts`."""

    __slots__ = ()

    def _verdict(self):
        from . import verdicts
        return verdicts.of(self)

    @property
    def curvature(self) -> str:
        """CONSTANT, AFFINE, CONVEX, CONCAVE or UNKNOWN, as the program finds it."""
        return self._verdict().curvature

    @property
    def sign(self) -> str:
        """ZERO, NONNEGATIVE, NONPOSITIVE or UNKNOWN, as the program finds it."""
        return self._verdict().sign

    def is_constant(self) -> bool:
        """Whether no variable stands in it."""
        return not self.variables()

    def is_affine(self) -> bool:
        """Whether the rules find it affine, as what is constant is."""
        return self._verdict().is_affine

    def is_convex(self) -> bool:
        """Whether the rules find it convex, as what is affine is."""
        return self._verdict().is_convex

    def is_concave(self) -> bool:
        """Whether the rules find it concave, as what is affine is."""
        return self._verdict().is_concave

    def is_dcp(self, dpp: bool = False) -> bool:
        """Whether the rules find it convex or concave; with `dpp` where parameters may vary too."""
        return self._verdict().is_dpp if dpp else self._verdict().is_dcp

    def is_dpp(self, context: str = "dcp") -> bool:
        """Whether the rules find it convex or concave where parameters may vary too. UnsupportedError of another
        context."""
        refuse_context(context)
        return self._verdict().is_dpp

    def is_nonneg(self) -> bool:
        """Whether the rules find no entry below 0."""
        return self._verdict().is_nonneg

    def is_nonpos(self) -> bool:
        """Whether the rules find no entry above 0."""
        return self._verdict().is_nonpos

    def is_zero(self) -> bool:
        """Whether the rules find every entry 0."""
        return self._verdict().is_nonneg and self._verdict().is_nonpos

    def is_pwl(self) -> bool:
        """Whether it is piecewise linear: everything that is offered is."""
        return True

    def is_quadratic(self) -> bool:
        """Whether it is at most quadratic by its form: here, where it is affine."""
        return self.is_affine()

    def is_qpwa(self) -> bool:
        """Whether it is quadratic of what is piecewise affine: everything that is offered is piecewise affine."""
        return True

    def is_real(self) -> bool:
        """True: there are no complex numbers."""
        return True

    def is_complex(self) -> bool:
        """False: there are no complex numbers."""
        return False

    is_imag = is_complex
