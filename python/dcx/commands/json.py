"""`python3 -m dcx json [REPORT]`: a report as JSON."""
from __future__ import annotations

import argparse

from .reading import add_arguments, rewritten

__all__ = ["add_arguments", "run"]


def run(arguments: argparse.Namespace) -> int:
    """Writes the report's JSON to standard output."""
    return rewritten(arguments, lambda report: report.to_json() + "\n")
