"""The settings of a file: for each line a list of names with a shape and numbers."""
from fractions import Fraction

from .faults import Refused
from .grammar import Reader
from .numbers import OF_LANGUAGE
from .tokens import is_digits, text_of, tokens_of

MOST_SETTINGS = 1000
MOST_NUMBERS = 20_000


class SettingsReader(Reader):
    def lines(self):
        lines, places = [], []
        while self.token.kind != "end":
            places.append(self.token.place)
            lines.append(self.line())
        if len(lines) > MOST_SETTINGS:
            raise Refused(8, places[MOST_SETTINGS])
        return lines

    def line(self):
        if self.take_if("{"):
            self.take("sign", "}")
            self.take("newline")
            return []
        items = [self.item([])]
        while self.take_if(";"):
            items.append(self.item([name for name, _ in items]))
        self.take("newline")
        return items

    def item(self, names):
        if self.token.kind == "name" and self.token.text in names:
            self.refuse()
        name = self.take("name").text
        self.take("sign", "=")
        return (name, self.value())

    def value(self):
        """A shape and its numbers."""
        if not self.take_if("["):
            return ((), [self.number()])
        if self.is_sign("["):
            return self.matrix()
        numbers = self.row(MOST_NUMBERS)
        return ((len(numbers),), numbers)

    def matrix(self):
        self.next()
        first = self.row(MOST_NUMBERS)
        rows = [first]
        while not self.take_if("]"):
            if (len(rows) + 1) * len(first) > MOST_NUMBERS:
                self.refuse()
            self.take("sign", ",")
            self.take("sign", "[")
            rows.append(self.row(len(first), len(first)))
        return ((len(rows), len(first)), [n for row in rows for n in row])

    def row(self, most, least=1):
        """The numbers up to the closing bracket, of which there are so many at most and at least."""
        numbers = [self.number()]
        while True:
            if len(numbers) >= least and self.take_if("]"):
                return numbers
            if len(numbers) >= most:
                self.refuse()
            self.take("sign", ",")
            numbers.append(self.number())

    def number(self):
        is_negative = self.take_if("-") is not None
        first = self.take("number")
        value = first.value
        if is_digits(first) and self.is_sign("/"):
            self.next()
            if not is_digits(self.token):
                self.refuse()
            value = Fraction(value, self.next().value)
            assert OF_LANGUAGE.has(value)
        return -value if is_negative else value


def parse_settings(data):
    return SettingsReader(tokens_of(text_of(data), is_settings=True)).lines()
