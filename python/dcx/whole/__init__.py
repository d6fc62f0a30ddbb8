"""Problems in whole numbers: a best point, and evidence that nothing is better, which the program checks.

Branch and bound splits the whole points into boxes. Over each box the problem without its marks has no point that is
better than the best one that was found, and numbers show it, which are a section of a certificate. Floating point
guesses points, orders and multipliers where SciPy can be imported, and nothing rests on it.

    boxes      the script without marks, and the boxes of a tree: what the checker and the search both go by
    checking   the checker of the evidence, which stands on nothing of the search
    steps      how far apart the values are that an objective can have
    rows       the relaxation in whole numbers, and the multipliers that show a bound
    engines    relaxations solved, by HiGHS where it is there, else exactly
    search     branch and bound
    evidence   the folder that is written
    answering  what `problem.solve()` asks
"""
from __future__ import annotations

__all__ = ["EVIDENCE", "POINT"]

# On what an answer stands, where boxes of a tree show it.
EVIDENCE = "boxes, each with a certificate that the program accepted"
POINT = "a feasible point that the program accepted, which nothing shows to be a best one"
