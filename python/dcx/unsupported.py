"""Names of CVXPY that aren't offered: why, and what to write in their place."""
from __future__ import annotations

from . import sites
from .errors import UnsupportedError

_SQUARES = ("a square isn't piecewise linear, so a least one has no exact answer in fractions in general",
            "cp.norm1(x) for the sum of magnitudes, cp.norm_inf(x) for the greatest, or cp.maximum of tangents of the "
            "square")
_CURVES = ("its graph has no linear pieces, so its answers are no fractions",
           "cp.maximum(..) of tangents where it is to be convex, cp.minimum(..) of tangents where it is to be concave")
_POWERS = ("a power isn't piecewise "
           "linear", "cp.maximum(..) of tangents of a convex power, cp.minimum(..) of tangents of a concave one")
_LENGTHS = ("a Euclidean length isn't piecewise linear",
            "cp.norm1(x) or cp.norm_inf(x), or a bound on c @ x for each of several directions c")
_SPECTRA = ("eigenvalues and singular values of a matrix aren't piecewise linear in its entries",
            "cp.norm(X, 1), cp.norm(X, \"inf\") or cp.trace(X), which bound them, or v.T @ X @ v for each of several "
            "vectors v")
_WRAPS = ("a wrap tells a solver what no rule here asks for",
          "the expression itself, or a variable with nonneg=True, nonpos=True or symmetric=True")
_CONES = ("this cone isn't made of linear pieces", "`<=`, `>=` and `==` between piecewise-linear expressions")
_COMPLEX = ("there are no complex numbers", "the real and the imaginary part as two variables")
_QUASI = ("it isn't convex, and quasiconvex problems aren't answered",
          "one problem for each value of a parameter, by problem.solve_at")
_GEOMETRIC = ("geometric programs aren't answered", "linear pieces of the logarithms of the quantities")
_GRADIENTS = ("there are no "
              "gradients", "dual_value of a constraint, or problem.range(p) for the way in which the value moves with "
                           "a parameter")
_SOLVERS = ("there is one solver", "prob.solve()")

_REASONS = {
    _SQUARES: "square sum_squares quad_form quad_over_lin QuadForm matrix_frac MatrixFrac std var tr_inv",
    _CURVES: "exp log log1p entr rel_entr kl_div logistic log_sum_exp log_det log_normcdf loggamma xexp huber "
             "hyperbolic logdet "
             "von_neumann_entr quantum_rel_entr quantum_cond_entr perspective inv_pos total_variation_distance",
    _POWERS: "power sqrt geo_mean harmonic_mean prod cumprod inv_prod Pnorm gmatmul sin cos tan sinh asinh tanh atanh "
             "cosh",
    _LENGTHS: "Norm2 length dist_ratio",
    _SPECTRA: "lambda_max lambda_min lambda_sum_largest lambda_sum_smallest sigma_max normNuc normnuc norm_nuc "
              "condition_number gen_lambda_max spectral_radius pf_eigenvalue eye_minus_inv resolvent",
    _WRAPS: "symmetric_wrap skew_symmetric_wrap hermitian_wrap nonneg_wrap nonpos_wrap",
    _CONES: "PSD SOC ExpCone PowCone3D PowConeND OpRelEntrConeQuad RelEntrConeQuad",
    _COMPLEX: "real imag conj bilinear partial_transpose partial_trace",
    _QUASI: "ceil floor sign quasiconvex one_minus_pos diff_pos",
    _GEOMETRIC: "dgp2dcp Dgp2Dcp",
    _GRADIENTS: "derivative backward linearize grad",
    _SOLVERS: "partial_optimize reductions interface utilities lin_ops performance_tests",
}

# what is told of one name alone
_OWN = {
    "logic": ("there are no expressions of truth values",
              "linear constraints between boolean variables: x + y <= 1 for `not both`"),
    "indicator": ("a set of constraints is no expression here", "the constraints among those of the problem"),
    "suppfunc": ("a support function is a problem of its own", "cp.max of its values at the corners of the set"),
    "SuppFunc": ("a support function is a problem of its own", "cp.max of its values at the corners of the set"),
    "CallbackParam": ("a parameter has a value and no function", "cp.Parameter, and its value before each solve"),
    "Sum": ("classes of calls aren't offered", "cp.sum"),
    "promote": ("operators broadcast by themselves", "cp.broadcast_to(x, shape)"),
    "transforms": ("several objectives make one by their own sums",
                   "2*objective + other, or cp.maximum of their expressions"),
    "huber": ("a square isn't piecewise linear, and its middle piece is one",
              "cp.maximum(cp.abs(x)/10, cp.abs(x) - 1), or other pieces near to it"),
    "psd_wrap": ("there are no quadratic forms", "cp.norm1(x) or cp.norm_inf(x) as the measure of a deviation"),
    "quad_form": ("a quadratic form isn't piecewise linear, so a least one has no exact answer in fractions in general",
                  "cp.norm1(L.T @ x) with a factor L of the matrix, or the mean of cp.pos(..) over scenarios"),
    "FiniteSet": ("a set of values is no constraint of linear pieces",
                  "a boolean variable for each value: x == values @ b, cp.sum(b) == 1"),
}

NAMES: dict = {name: reason for reason, names in _REASONS.items() for name in names.split()}
NAMES.update(_OWN)


def refusal(name: str, module: str = "cp") -> UnsupportedError:
    """The error for a name that isn't offered, at the user's line."""
    why, write = NAMES[name]
    return UnsupportedError(f"{module}.{name} isn't offered: {why}. Write {write}.", sites.here())


class Refused:
    """What stands for a name that isn't offered: it may be imported, and is refused where it is called or looked into.
    """

    def __init__(self, name: str):
        self._name = name

    def __call__(self, *arguments, **options):
        raise refusal(self._name)

    def __getattr__(self, part: str):
        if part.startswith("__"):
            raise AttributeError(part)
        raise refusal(self._name)

    def __instancecheck__(self, instance) -> bool:
        return False

    def __repr__(self) -> str:
        return f"<cp.{self._name}, which isn't offered>"
