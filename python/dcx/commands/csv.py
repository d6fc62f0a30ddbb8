"""`python3 -m dcx csv [REPORT]`: a report as a table of comma-separated values."""
from __future__ import annotations

import argparse

from .reading import add_arguments, rewritten

__all__ = ["add_arguments", "run"]


def run(arguments: argparse.Namespace) -> int:
    """Writes the report's table to standard output."""
    return rewritten(arguments, lambda report: report.to_csv())
