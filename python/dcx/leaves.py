"""Variables and parameters: their shapes, names, attributes and values."""
from __future__ import annotations

from contextlib import contextmanager
from typing import Any, Iterator, Sequence, Union

from . import arrays, foreign, missing, shapes, sites, spelling
from .arrays import Array, Sparse
from .constraints import Inequality
from .errors import UnsupportedError
from .expressions import Expression, Operand, next_number

# attributes of CVXPY that no constraint of linear pieces means
_REFUSED = {
    "PSD": "a constraint on the eigenvalues of a matrix isn't piecewise linear; symmetric=True and diag=True are "
           "offered",
    "NSD": "a constraint on the eigenvalues of a matrix isn't piecewise linear; symmetric=True and diag=True are "
           "offered",
    "complex": "there are no complex numbers: write the real and the imaginary part as two variables",
    "imag": "there are no complex numbers: write the imaginary part as a variable of its own",
    "hermitian": "there are no complex numbers: symmetric=True is what is left of it",
    "sparsity": "write a vector of the entries that aren't 0, and a matrix of 0 and 1 times it",
}
_OFFERED = ("nonneg", "nonpos", "pos", "neg", "symmetric", "diag", "boolean", "integer", "bounds")
# what the program's language knows of a variable
_OF_LANGUAGE = ("nonneg", "nonpos", "symmetric", "diag", "boolean", "integer")
_INFINITY = float("inf")

# how a shape is given: a whole number, or a tuple of at most two
ShapeLike = Union[int, Sequence[int]]


class Leaf(Expression):
    """A variable or a parameter.

    `given_name` is the user's name or None, `id` a number of its own, and `attributes` tells of each attribute that
    CVXPY has whether it holds: nonneg and nonpos also where pos, neg or bounds say so.
    """

    __slots__ = ("given_name", "id", "attributes", "_ends", "_value", "_shown", "_own")

    def __init__(
        self, kind: str, shape: ShapeLike = (), name: str | None = None, value: Operand = None, **attributes: Any
    ):
        if name is not None and not isinstance(name, str):
            raise TypeError(f"Variable name {name!r} must be a string.")
        super().__init__(kind, (), (), shapes.declared(shape))
        foreign.yield_comparisons()
        self.given_name = name
        self.id = next_number()
        self._value: Array | None = None
        # a value, and the floats that the user was given for it
        self._shown = (None, None)
        self._own: list | None = None
        self._declare(attributes)
        if value is not None:
            self.value = value

    # ---- attributes

    def _declare(self, given: dict) -> None:
        word = type(self).__name__
        for key, setting in given.items():
            if key in _REFUSED and setting is not None and setting is not False:
                raise UnsupportedError(f"{word}(.., {key}=..) isn't offered: {_REFUSED[key]}", sites.here())
            if key not in _OFFERED and key not in _REFUSED:
                raise TypeError(f"{word} has no argument {key!r}")
            if key in ("boolean", "integer") and not isinstance(setting, bool) and setting is not None:
                raise UnsupportedError(f"{word}(.., {key}=..) takes True or False, and no places: declare two "
                                       f"variables, one of them with {key}=True, and join them by hstack", sites.here())
        is_set = {key: bool(given.get(key)) for key in _OFFERED if key != "bounds"}
        self.attributes = {**is_set, **dict.fromkeys(_REFUSED, False), "bounds": given.get("bounds")}
        self.attributes["nonneg"] |= is_set["pos"]
        self.attributes["nonpos"] |= is_set["neg"]
        self._ends = None if given.get("bounds") is None else self._bounds(given["bounds"])
        self._judge(word)

    def _judge(self, word: str) -> None:
        """ValueError where attributes exclude each other or want another shape."""
        if self.attributes["nonneg"] and self.attributes["nonpos"]:
            raise ValueError(f"Cannot set more than one special attribute in {word}: nonneg and nonpos leave 0 alone")
        is_square = self.ndim == 2 and self.shape[0] == self.shape[1]
        if (self.attributes["symmetric"] or self.attributes["diag"]) and not is_square:
            raise ValueError(f"Invalid dimensions {self.shape}. Must be a square matrix.")
        for pair in (("symmetric", "diag"), ("boolean", "integer")):
            if all(self.attributes[key] for key in pair):
                raise ValueError(f"Cannot set more than one special attribute in {word}: {' and '.join(pair)}")

    def _bounds(self, bounds) -> tuple:
        """The two ends, each None or a list of an exact number or None for each entry."""
        if not isinstance(bounds, (list, tuple)) or len(bounds) != 2:
            raise ValueError("Bounds should be a list of two items.")
        low, high = (self._end(item, sign) for item, sign in zip(bounds, (-1, 1)))
        if low is not None and high is not None:
            if any(a is not None and b is not None and a > b for a, b in zip(low, high)):
                raise ValueError("Invalid bounds: some upper bounds are less than corresponding lower bounds.")
        return low, high

    def _end(self, item, sign: int) -> list | None:
        if item is None:
            return None
        if isinstance(item, Expression):
            raise UnsupportedError("bounds are numbers: write a constraint with the expression", sites.here())
        found = _open_ended(item, sign)
        shape = getattr(found, "shape", ())
        if shape not in ((), self.shape):
            raise ValueError(f"Bounds should be None, a number, or an array of the shape {self.shape}, and not of "
                             f"{shape}.")
        ends = list(found.entries) if shape else [found.entries[0]] * self.size
        return None if all(end is None for end in ends) else ends

    @property
    def bounds(self) -> list | None:
        """The lower and the upper bounds in floats, in the leaf's shape, infinite where that end is open; None where
        there are none."""
        if self._ends is None:
            return None
        return [self._bound(ends, infinity) for ends, infinity in zip(self._ends, (-_INFINITY, _INFINITY))]

    def _bound(self, ends: list | None, infinity: float):
        each = [None] * self.size if ends is None else ends
        return arrays.to_floats(Array(self.shape, (infinity if end is None else end for end in each)))

    def is_pos(self) -> bool:
        """Whether it was declared with pos=True, which is taken as nonneg=True."""
        return self.attributes["pos"]

    def is_neg(self) -> bool:
        """Whether it was declared with neg=True, which is taken as nonpos=True."""
        return self.attributes["neg"]

    # ---- names

    def name(self) -> str:
        """The user's name, or one that is made of a number."""
        if self.given_name is not None:
            return self.given_name
        return f"{'var' if self.kind == 'variable' else 'param'}{self.id}"

    def __repr__(self) -> str:
        return f"{type(self).__name__}({self.shape}, {self.name()})"

    # ---- values

    def _array(self) -> Array | Sparse | None:
        array, shown = self._shown
        if array is None or array is not self._value or not self.shape:
            return self._value
        rows = shown if isinstance(shown, list) else shown.tolist()
        numbers = rows if self.ndim == 1 else [number for row in rows for number in row]
        pairs = list(zip(array.entries, numbers))
        if any(float(old) != new for old, new in pairs):
            with self._named():
                kept = [old if float(old) == new else arrays.exact(new) for old, new in pairs]
            self._value = self._changed(Array(self.shape, kept))
            self._shown = self._value, shown
        return self._value

    def _changed(self, array: Array) -> Array | Sparse:
        """The value after the user has set entries of the floats. As in CVXPY no attribute is tested."""
        return array

    @property
    def value(self) -> Any:
        """The value in floats: a NumPy array, lists where NumPy isn't there, a float where there is no side; None
        before. Entries that are set in this array are those of the value, as in CVXPY.

        Setting it raises `ValueError` where its shape is another one, an attribute is broken, or an entry is NaN or
        infinite, and `TypeError` where it is no numbers; then the value before stays.
        """
        array = self._array()
        if array is not None and self._shown[0] is not array:
            self._shown = array, arrays.to_floats(array)
        return None if array is None else self._shown[1]

    @value.setter
    def value(self, value: Operand) -> None:
        self._value = None if value is None else self._tested(value)

    @property
    def exact(self) -> Any:
        """The value in fractions; None before."""
        array = self._array()
        return None if array is None else arrays.to_fractions(array)

    def save_value(self, value: Operand) -> None:
        """Sets the value as an answer does: its shape is tested, and no attribute. Raises as setting `value`."""
        self._value = None if value is None else self._shaped(value)

    _set_value = save_value

    def _shaped(self, value) -> Array | Sparse:
        if isinstance(value, Expression):
            array = value._array()
            if array is None:
                raise ValueError(f"an expression without a value can't give one to {self.name()}")
        else:
            with self._named():
                array = arrays.array_of(value)
        if array.shape == self.shape:
            return array
        raise ValueError(f"Invalid dimensions {array.shape} for {type(self).__name__} value: {self.name()} has the "
                         f"shape {self.shape}.")

    @contextmanager
    def _named(self):
        """Tells what is wrong with numbers by the leaf's name."""
        try:
            yield
        except (TypeError, ValueError) as error:
            kind = ValueError if isinstance(error, ValueError) else TypeError
            raise kind(f"{type(self).__name__} value of {self.name()}: {error}") from None

    def _tested(self, value) -> Array | Sparse:
        array = self._shaped(value)
        for wanted, breaks in self._tests(array):
            place = next((place for place, number in enumerate(array.entries) if breaks(place, number)), None)
            if place is not None:
                index = "" if not self.shape else [place] if self.ndim == 1 else list(divmod(place, self.shape[1]))
                found = spelling.number_text(array.entries[place])
                raise ValueError(f"{type(self).__name__} value must be {wanted}: {self.name()}{index} is {found}")
        return array

    def _tests(self, array: Array | Sparse) -> Iterator[tuple]:
        """For each attribute its name in CVXPY's words, and whether an entry, of a place and a number, breaks it."""
        held = self.attributes
        if held["nonneg"]:
            yield "nonnegative", lambda place, number: number < 0
        if held["nonpos"]:
            yield "nonpositive", lambda place, number: number > 0
        if held["symmetric"]:
            turned = arrays.transposed(array.dense()).entries
            yield "symmetric", lambda place, number: number != turned[place]
        if held["diag"]:
            yield "diagonal", lambda place, number: number and place % (self.shape[1] + 1)
        if held["boolean"]:
            yield "boolean", lambda place, number: number not in (0, 1)
        if held["integer"]:
            yield "integer", lambda place, number: number.denominator != 1
        low, high = self._ends or (None, None)
        if low is not None:
            yield "in bounds", lambda place, number: low[place] is not None and number < low[place]
        if high is not None:
            yield "in bounds", lambda place, number: high[place] is not None and number > high[place]

    def project(self, value: Operand) -> Any:
        """Not offered: what is near to a value is a question of its own."""
        raise UnsupportedError("project isn't offered: minimize cp.norm1(x - value) under the constraints",
                               sites.here())

    project_and_assign = project


missing.refuse(Leaf, "leaf")


class Variable(Leaf):
    """What is solved for: `Variable(shape=(), name=None, **attributes)`.

    Attributes are nonneg, nonpos, pos and neg (which are nonneg and nonpos, as in CVXPY), symmetric or diag, boolean or
    integer, and bounds=[l, u] with numbers, arrays, None and infinities as open ends.

    Raises `ValueError` of a shape that is none, of attributes that exclude each other or want another shape, and of
    bounds that are none; `TypeError` of an argument that CVXPY doesn't have, or a name that is no text;
    `UnsupportedError` of what isn't made of linear pieces, as PSD, and of places in boolean or integer.
    """

    __slots__ = ()

    def __init__(self, shape: ShapeLike = (), name: str | None = None, var_id: None = None, **attributes: Any):
        if var_id is not None:
            raise UnsupportedError("var_id isn't offered: a variable has a number of its own", sites.here())
        super().__init__("variable", shape, name, **attributes)

    def _judge(self, word: str) -> None:
        low, high = self._ends or (None, None)
        held = self.attributes
        if not any(held[word] for word in _OF_LANGUAGE if word != "integer"):
            # bounds on one side of 0 give a sign, as they do in CVXPY
            held["nonneg"] = low is not None and all(end is not None and end >= 0 for end in low)
            is_below = high is not None and all(end is not None and end <= 0 for end in high)
            held["nonpos"] = is_below and not held["nonneg"]
        super()._judge(word)

    def own_constraints(self) -> list:
        """The constraints that its attributes mean beyond what the program's language says at a declaration, always the
        same objects. Their multipliers aren't among those of the user's constraints."""
        if self._own is None:
            self._own = self._made()
        return self._own

    def language_attributes(self) -> tuple:
        """The attributes that a declaration in the program's language has: boolean, or integer with a sign, or
        symmetric, diag or a sign. What the language can't say beside another is one of the own constraints."""
        held = self.attributes
        if held["boolean"]:
            return ("boolean",)
        for word in ("symmetric", "diag"):
            if held[word] and not held["integer"]:
                return (word,)
        return tuple(word for word in ("integer", "nonneg", "nonpos") if held[word])

    def _made(self) -> list:
        from .atoms import upper_tri
        held, said = self.attributes, self.language_attributes()
        made = []
        if held["nonneg"] and "nonneg" not in said and not held["boolean"]:
            made.append(self >= 0)
        if held["nonpos"] and "nonpos" not in said:
            made.append(self <= 0)
        if held["symmetric"] and "symmetric" not in said and self.size > 1:
            made.append(upper_tri(self) == upper_tri(self.T))
        if held["diag"] and "diag" not in said and self.size > 1:
            made += [upper_tri(self) == 0, upper_tri(self.T) == 0]
        for ends, sense in zip(self._ends or (), ("low", "high")):
            if ends is not None:
                made += self._bounded(ends, sense, said)
        for constraint in made:
            constraint.site = self.site
        return made

    def _bounded(self, ends: list, sense: str, said: tuple) -> list:
        if self._is_implied(ends, sense, said):
            return []
        side, kept = self, ends
        if any(end is None for end in ends):
            from . import operators
            places = [place for place, end in enumerate(ends) if end is not None]
            side, kept = operators.gathered(self, places, (len(places),)), [ends[place] for place in places]
        limit = Array((), kept[:1]) if len(set(kept)) == 1 else Array(side.shape, kept)
        return [Inequality(limit, side, is_turned=True) if sense == "low" else Inequality(side, limit)]

    @staticmethod
    def _is_implied(ends: list, sense: str, said: tuple) -> bool:
        """Whether what a declaration says already keeps every entry within these ends."""
        if sense == "low":
            return ("nonneg" in said or "boolean" in said) and all(end is None or end <= 0 for end in ends)
        most = 0 if "nonpos" in said else 1 if "boolean" in said else None
        return most is not None and all(end is None or end >= most for end in ends)


class Parameter(Leaf):
    """Numbers that may vary: `Parameter(shape=(), name=None, value=None, **attributes)`. The attributes nonneg and
    nonpos are what the rules know of it; every attribute is tested where a value is set. Raises as `Variable`, and
    `ValueError` or `TypeError` of a value that doesn't fit, as where one is set."""

    __slots__ = ()

    def __init__(
        self, shape: ShapeLike = (), name: str | None = None, value: Operand = None, id: None = None, **attributes: Any
    ):
        if id is not None:
            raise UnsupportedError("id isn't offered: a parameter has a number of its own", sites.here())
        super().__init__("parameter", shape, name, value, **attributes)

    def _changed(self, array: Array) -> Array | Sparse:
        return self._tested(array)

    def _judge(self, word: str) -> None:
        super()._judge(word)
        if self.attributes["boolean"]:
            self.attributes["nonneg"] = True

    def is_constant(self) -> bool:
        """True: for the rules a parameter is constant."""
        return True

    def language_attributes(self) -> tuple:
        """The attributes that a declaration in the program's language has."""
        return tuple(word for word in ("nonneg", "nonpos") if self.attributes[word])


class _Ends:
    """The shape of bounds, and their numbers, each None where that end is open."""

    def __init__(self, shape: tuple, entries: tuple):
        self.shape = shape
        self.entries = entries


def _open_ended(item, sign: int) -> _Ends:
    infinity = _INFINITY * sign

    def end(value):
        if value is None:
            return None
        if isinstance(value, float) and value != value:
            raise ValueError("np.nan is not feasible as lower or upper bound.")
        if isinstance(value, float) and value == infinity:
            return None
        return arrays.exact(value)

    if hasattr(item, "tocsr"):
        item = item.toarray()
    if isinstance(item, (list, tuple)) and any(isinstance(part, (list, tuple)) for part in item):
        rows = [[end(value) for value in row] for row in item]
        if len({len(row) for row in rows}) != 1:
            raise ValueError("lists of different lengths are no matrix")
        if isinstance(item, list):
            rows = [list(row) for row in zip(*rows)]
        return _Ends((len(rows), len(rows[0])), tuple(value for row in rows for value in row))
    if isinstance(item, (list, tuple)):
        return _Ends((len(item),), tuple(end(value) for value in item))
    if getattr(item, "shape", ()) and hasattr(item, "ravel"):
        return _Ends(tuple(item.shape), tuple(end(value) for value in item.ravel().tolist()))
    return _Ends((), (end(item),))
