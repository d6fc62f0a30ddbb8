"""The package of `dcx`, an exact solver of CVXPY's piecewise-linear problems whose program is proved.

`import dcx.cvxpy as cp` gives the names of CVXPY, `python3 -m dcx run model.py` runs a CVXPY script without a change,
`dcx.read_report` reads what the program prints. What is proved is the program, over the script that it is handed; the
package isn't, and shows what it hands over.
"""
from __future__ import annotations

__version__ = "0.1.0"

# The public names and the modules in which they stand, which are loaded when one of them is asked for.
_MODULES = {
    "read_report": "reports",
    "Report": "reports",
    "ReportError": "reports",
    "float_digits": "numbers",
    "rounded": "numbers",
    "DCXError": "errors",
    "DCPError": "errors",
    "DPPError": "errors",
    "SolverError": "errors",
    "ParameterError": "errors",
    "UnsupportedError": "errors",
    "LimitError": "errors",
    "ProgramError": "program",
    "CertificateError": "certificates",
}
__all__ = ["__version__", *_MODULES]


def __getattr__(name: str) -> object:
    if name not in _MODULES:
        raise AttributeError(f"module {__name__!r} has no attribute {name!r}")
    from importlib import import_module

    value = getattr(import_module(f"{__name__}.{_MODULES[name]}"), name)
    globals()[name] = value
    return value


def __dir__() -> list[str]:
    return sorted({*globals(), *_MODULES})
