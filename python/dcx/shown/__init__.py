"""Answers where the program itself has none: on what each stands, and who says yes to it.

The exact solver, in Python, finds an answer, and the program checks the certificate of it. Where the answer's own
numbers pass 128 bits an interval is shown instead: a point of few digits that the program finds feasible, and a bound
that it accepts. Nothing here is taken at Python's word, unless the user asks for that.
"""
from __future__ import annotations

__all__ = ["CERTIFICATE", "INTERVAL", "PROGRAM", "PYTHON"]

# On what an answer stands.
PROGRAM = "the program"
CERTIFICATE = "a certificate that the program accepted"
INTERVAL = "an interval"
PYTHON = "python"
