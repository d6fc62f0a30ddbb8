"""Tokens of a script or a file of settings, each with its place, or the first fault from left to right."""
import re
from fractions import Fraction
from itertools import accumulate

from .faults import Refused
from .numbers import OF_LANGUAGE

MOST_BYTES = 1_048_576
MOST_OPEN = 64
KEYWORDS = set(
    "False None True and as assert async await break class continue def del elif else except finally for from global "
    "if import in is lambda nonlocal not or pass print raise return try while with yield".split()
)
SIGNS = ["**", "//", "<=", ">=", "==", "!=", "+=", "-=", "*=", "/=", *"+-*/@%<>=()[]{},:.;"]
NUMBER = re.compile(r"([0-9]+\.?[0-9]*|\.[0-9]+)([eE][+-]?[0-9]+)?")


class Token:
    """A kind, the text as written, a place, and for a number its value."""

    __slots__ = ("kind", "text", "place", "value", "end")

    def __init__(self, kind, text, place, value=None, end=0):
        self.kind, self.text, self.place, self.value, self.end = kind, text, place, value, end

    def __repr__(self):
        return f"{self.kind} {self.text!r} at {self.place}"


def text_of(data):
    """The text of the bytes of a file."""
    if len(data) > MOST_BYTES:
        raise Refused(8, (1, 1))
    try:
        return data.decode("utf-8")
    except UnicodeDecodeError as fault:
        before = data[: fault.start]
        line_start = before.rfind(b"\n") + 1
        raise Refused(1, (before.count(b"\n") + 1, len(before) - line_start + 1)) from None


def starts_name(char):
    return char.isidentifier()


def goes_on_name(char):
    return ("a" + char).isidentifier()


def value_of(text, place):
    """The value of a NUMBER, within the limits of digits, exponent and size."""
    mantissa, _, exponent = text.lower().partition("e")
    exponent = int(exponent or "0")
    digits = mantissa.replace(".", "")
    if len(digits) > 30 or not -30 <= exponent <= 30:
        raise Refused(3, place)
    decimals = len(mantissa.partition(".")[2])
    value = Fraction(int(digits)) * Fraction(10) ** (exponent - decimals)
    if not OF_LANGUAGE.has(value):
        raise Refused(3, place)
    return value


def is_digits(token):
    """Whether this is a NUMBER of digits alone."""
    return token.kind == "number" and token.text.isdigit()


class Lexer:
    """Reads a text from left to right. In settings a quotient by 0 is a fault of the tokens."""

    def __init__(self, text, is_settings):
        self.text = text
        self.is_settings = is_settings
        self.at = 0
        self.line = 1
        self.line_start = 0
        self.tokens = []
        self.open = []
        self.indents = [0]
        widths = None if text.isascii() else [0, *accumulate(len(c.encode()) for c in text)]
        self.offset = (lambda i: i) if widths is None else widths.__getitem__

    def place(self, at):
        return (self.line, self.offset(at) - self.offset(self.line_start) + 1)

    def push(self, kind, start, end, value=None):
        self.tokens.append(Token(kind, self.text[start:end], self.place(start), value, end))

    def char(self, at):
        return self.text[at] if at < len(self.text) else ""

    def begins_token(self, at):
        """Whether a token begins here."""
        char = self.char(at)
        if char in "'\"" or starts_name(char) or char in "0123456789":
            return True
        return any(self.text.startswith(sign, at) for sign in SIGNS)

    def line_end(self, at):
        """The length of the line end that stands here, 0 where none does."""
        if self.text.startswith("\r\n", at):
            return 2
        return 1 if self.char(at) == "\n" else 0

    def tokens_of_text(self):
        while self.at < len(self.text):
            self.read_line()
        self.finish()
        return self.tokens

    def skip(self):
        """Goes over blanks and a comment."""
        while self.char(self.at) in (" ", "\t") and self.at < len(self.text):
            self.at += 1
        if self.char(self.at) == "#":
            end = self.text.find("\n", self.at)
            end = len(self.text) if end < 0 else end
            if end > self.at and self.text[end - 1] == "\r" and end < len(self.text):
                end -= 1
            self.at = end

    def read_line(self):
        """Reads a physical line."""
        is_fresh = not self.open
        start = self.at
        has_tokens = False
        while True:
            self.skip()
            if self.at >= len(self.text):
                break
            if self.line_end(self.at):
                break
            if not self.begins_token(self.at):
                raise Refused(2, self.place(self.at))
            if is_fresh and not has_tokens:
                self.indent(self.text[start : self.at])
            has_tokens = True
            self.read_token()
        if not self.open and (has_tokens or not is_fresh):
            self.push("newline", self.at, self.at)
        if self.at < len(self.text):
            self.at += self.line_end(self.at)
            self.line += 1
            self.line_start = self.at

    def indent(self, blanks):
        """Takes the indentation of a line whose first token stands here."""
        place = self.place(self.at)
        if "\t" in blanks:
            raise Refused(5, place)
        width = len(blanks)
        if width > self.indents[-1]:
            if len(self.open) + len(self.indents) > MOST_OPEN:
                raise Refused(7, place)
            self.indents.append(width)
            self.push("indent", self.at, self.at)
        while width < self.indents[-1]:
            self.indents.pop()
            if width > self.indents[-1]:
                raise Refused(5, place)
            self.push("dedent", self.at, self.at)

    def read_token(self):
        char = self.char(self.at)
        if char in "'\"":
            self.read_text(char)
        elif char in "0123456789" or (char == "." and self.char(self.at + 1) in tuple("0123456789")):
            self.read_number()
        elif starts_name(char):
            self.read_name()
        else:
            self.read_sign()

    def read_text(self, quote):
        at = self.at + 1
        while True:
            char = self.char(at)
            if char == "\\" and self.char(at + 1) not in ("\n", ""):
                at += 2
            elif char in ("\n", ""):
                raise Refused(4, self.place(self.at))
            elif char == quote:
                break
            else:
                at += 1
        self.push("text", self.at, at + 1)
        self.at = at + 1

    def read_number(self):
        place = self.place(self.at)
        end = NUMBER.match(self.text, self.at).end()
        behind = self.char(end)
        if behind and (behind == "." or goes_on_name(behind)):
            raise Refused(3, place)
        self.push("number", self.at, end, value_of(self.text[self.at : end], place))
        self.at = end
        if self.is_settings:
            self.test_quotient(*self.tokens[-3:])

    def test_quotient(self, *last):
        """Refuses digits that are divided by 0."""
        if len(last) == 3 and is_digits(last[0]) and last[1].text == "/" and is_digits(last[2]) and last[2].value == 0:
            raise Refused(3, last[0].place)

    def read_name(self):
        end = self.at + 1
        while end < len(self.text) and goes_on_name(self.text[end]):
            end += 1
        kind = "keyword" if self.text[self.at : end] in KEYWORDS else "name"
        self.push(kind, self.at, end)
        self.at = end

    def read_sign(self):
        sign = next(s for s in SIGNS if self.text.startswith(s, self.at))
        place = self.place(self.at)
        if sign in ("(", "[", "{"):
            if len(self.open) + len(self.indents) - 1 >= MOST_OPEN:
                raise Refused(7, place)
            self.open.append(place)
        elif sign in (")", "]", "}") and self.open:
            self.open.pop()
        self.push("sign", self.at, self.at + len(sign))
        self.at += len(sign)

    def finish(self):
        """Ends the blocks on the line after the last."""
        if self.open:
            raise Refused(4, self.open[-1])
        if self.text and self.at != self.line_start:
            self.line += 1
        self.line_start = self.at
        for _ in self.indents[1:]:
            self.push("dedent", self.at, self.at)
        self.push("end", self.at, self.at)


def tokens_of(text, is_settings=False):
    """The tokens of a text, the last of them its end."""
    return Lexer(text, is_settings).tokens_of_text()
