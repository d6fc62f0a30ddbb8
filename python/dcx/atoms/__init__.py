"""The calls on expressions, with CVXPY's names and signatures. What the program's language lacks is composed of what it
has."""
from __future__ import annotations

from .entrywise import abs, maximum, minimum, multiply, neg, pos, scalene
from .folds import (
    cummax,
    cumsum,
    cvar,
    dotsort,
    max,
    mean,
    min,
    ptp,
    sum,
    sum_largest,
    sum_smallest,
    tv,
)
from .norms import mixed_norm, norm, norm1, norm2, norm_inf, pnorm
from .places import (
    bmat,
    broadcast_to,
    concatenate,
    diag,
    diff,
    expand_dims,
    hstack,
    permute_dims,
    reshape,
    squeeze,
    stack,
    swapaxes,
    trace,
    transpose,
    upper_tri,
    vec,
    vec_to_upper_tri,
    vstack,
)
from .products import conv, convolve, kron, matmul, outer, scalar_product, vdot

__all__ = [
    "abs", "bmat", "broadcast_to", "concatenate", "conv", "convolve", "cummax", "cumsum", "cvar", "diag", "diff",
    "dotsort", "expand_dims", "hstack",
    "kron", "matmul", "max", "maximum", "mean", "min", "minimum", "mixed_norm", "multiply", "neg", "norm", "norm1",
    "norm2", "norm_inf",
    "outer", "permute_dims", "pnorm", "pos", "ptp", "reshape", "scalar_product", "scalene", "squeeze", "stack", "sum",
    "sum_largest",
    "sum_smallest", "swapaxes", "trace", "transpose", "tv", "upper_tri", "vdot", "vec", "vec_to_upper_tri", "vstack",
]
