"""Coefficients: numbers, or affine numbers of the entries of parameters. And forms over unknowns with such
coefficients.
"""
from fractions import Fraction



class Affine:
    """A constant, and for each entry of a parameter (its number in order of declaration, the entry) a coefficient other
    than 0.
    """

    def __init__(self, constant, terms):
        self.constant, self.terms = constant, terms

    def is_zero(self):
        return self.constant == 0 and not self.terms


def numbers_of(constant, items):
    """An affine number of a constant and terms, formed in this order."""
    terms = {}
    for key, formed in items:
        value = formed()
        if value != 0:
            terms[key] = value
    return Affine(constant, terms)


class Numbers:
    """Numbers as coefficients, with operations on them."""

    zero = Fraction(0)

    def __init__(self, numbers):
        self.add, self.scale, self.divide = numbers.add, numbers.mul, numbers.div

    @staticmethod
    def number(value):
        return value

    @staticmethod
    def is_zero(value):
        return value == 0


class Affines:
    """Affine numbers as coefficients."""

    zero = Affine(Fraction(0), {})

    def __init__(self, numbers):
        self.numbers = numbers

    @staticmethod
    def number(value):
        return Affine(value, {})

    @staticmethod
    def is_zero(value):
        return value.is_zero()

    def add(self, a, b):
        add = self.numbers.add
        keys = sorted(a.terms.keys() | b.terms.keys())
        constant = add(a.constant, b.constant)
        return numbers_of(
            constant, [(k, lambda k=k: add(a.terms.get(k, Fraction(0)), b.terms.get(k, Fraction(0)))) for k in keys]
        )

    def scale(self, by, value):
        mul = self.numbers.mul
        constant = mul(by, value.constant)
        return numbers_of(constant, [(k, lambda k=k: mul(by, value.terms[k])) for k in sorted(value.terms)])

    def divide(self, value, by):
        div = self.numbers.div
        constant = div(value.constant, by)
        return numbers_of(constant, [(k, lambda k=k: div(value.terms[k], by)) for k in sorted(value.terms)])


class Form:
    """A constant, and for each unknown a coefficient other than 0."""

    def __init__(self, constant, terms):
        self.constant, self.terms = constant, terms


class Forms:
    """What is done with forms over coefficients of a kind: each operation takes the constant first and then the
    unknowns, rising.
    """

    def __init__(self, kind):
        self.kind = kind
        self.zero = Form(kind.zero, {})

    def number(self, value):
        return Form(self.kind.number(value), {})

    def unknown(self, u):
        return Form(self.kind.zero, {u: self.kind.number(Fraction(1))})

    def mapped(self, form, formed):
        result = Form(formed(form.constant), {})
        for u in sorted(form.terms):
            value = formed(form.terms[u])
            if not self.kind.is_zero(value):
                result.terms[u] = value
        return result

    def scaled(self, by, form):
        return self.mapped(form, lambda value: self.kind.scale(by, value))

    def divided(self, form, by):
        return self.mapped(form, lambda value: self.kind.divide(value, by))

    def times(self, affine, form):
        """An affine number times a form of numbers alone."""
        return self.mapped(form, lambda value: self.kind.scale(value.constant, affine))

    def sum(self, a, b):
        return self.total((a, b))

    def total(self, forms):
        """The sum from 0 on, in this order. (An unknown that the sum hasn't yet is added to 0, which forms nothing.)"""
        kind, constant, terms = self.kind, self.kind.zero, {}
        for form in forms:
            constant = kind.add(constant, form.constant)
            for u in sorted(form.terms):
                value = kind.add(terms[u], form.terms[u]) if u in terms else form.terms[u]
                if kind.is_zero(value):
                    del terms[u]
                else:
                    terms[u] = value
        return Form(constant, terms)
