"""The exceptions of the package. Each names the line of the user's file that it is about, where there is one."""
from __future__ import annotations

from .sites import Site


class DCXError(Exception):
    """What went wrong, in `reason`; the message ends with the file, the line and the line's text, from `site`."""

    def __init__(self, reason: str, site: Site | None = None):
        super().__init__(reason)
        self.reason = reason
        self.site = site

    def __str__(self) -> str:
        if self.site is None:
            return self.reason
        text = self.site.text
        return f"{self.reason}\n  {self.site}" + (f"\n    {text}" if text else "")


class DCPError(DCXError):
    """The rules of convexity refuse the problem."""


class DPPError(DCPError):
    """The rules accept the problem at fixed values of its parameters, and not where these may vary."""


class SolverError(DCXError):
    """The program stopped without an answer; `stop` has the stop as it was read from the report."""

    def __init__(self, reason: str, site: Site | None = None, stop=None):
        super().__init__(reason, site)
        self.stop = stop


class ParameterError(DCXError):
    """A parameter of the problem has no value."""


class UnsupportedError(DCXError, NotImplementedError):
    """What was called isn't offered: the message says why, and what to write in its place."""


class MissingError(UnsupportedError, AttributeError):
    """An attribute of CVXPY's objects isn't offered: the message says why, and what to write in its place."""

    def __init__(self, reason: str, site: Site | None = None):
        super().__init__(reason, site)
        self.obj = None  # else Python ends the message with a name that is like this one


class LimitError(DCXError):
    """A limit of the program is passed: the message says which, and by how much."""


_warns = [True]


def disable_warnings() -> None:
    """From now on nothing warns that `*` is taken as the matrix product."""
    _warns[0] = False


def enable_warnings() -> None:
    """From now on `*` warns again where it is taken as the matrix product."""
    _warns[0] = True


def warnings_enabled() -> bool:
    """Whether `*` warns where it is taken as the matrix product."""
    return _warns[0]
