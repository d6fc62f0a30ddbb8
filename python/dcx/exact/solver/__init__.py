"""Solves reduced programs exactly: a basis that is found in floating-point numbers is factored, and finished from, in
whole numbers.
"""
from __future__ import annotations

from .solution import Solution, solved

__all__ = ["Solution", "solved"]
