"""The syntax tree of a script, or the first token that no script goes on with. A tree is a tuple of a kind, a place and
its parts.
"""
from .faults import Refused

COMPARISONS = ("<=", ">=", "==", "<", ">", "!=")
CLOSING = {"(": ")", "[": "]", "{": "}"}


class Reader:
    """Tokens with how many of them are read."""

    def __init__(self, tokens):
        self.tokens = tokens
        self.at = 0

    @property
    def token(self):
        return self.tokens[self.at]

    def ahead(self, count):
        at = self.at + count
        return self.tokens[at].text if at < len(self.tokens) and self.tokens[at].kind != "text" else None

    def refuse(self):
        raise Refused(6, self.token.place)

    def is_sign(self, *texts):
        return self.token.kind == "sign" and self.token.text in texts

    def is_keyword(self, text):
        return self.token.kind == "keyword" and self.token.text == text

    def next(self):
        self.at += 1
        return self.tokens[self.at - 1]

    def take(self, kind, *texts):
        """The next token, which must be of this kind and one of these, where some are named."""
        if self.token.kind != kind or (texts and self.token.text not in texts):
            self.refuse()
        return self.next()

    def take_if(self, *texts):
        """The next token, if it is one of these signs."""
        return self.next() if self.is_sign(*texts) else None


class Parser(Reader):
    def script(self):
        lines = []
        while self.token.kind != "end":
            lines.append(self.line())
        return lines

    def line(self):
        token = self.token
        if self.is_keyword("import"):
            return self.import_line()
        if self.is_keyword("print"):
            return self.print_line()
        if self.is_keyword("for"):
            return self.for_line()
        if token.kind == "name":
            if self.ahead(1) in ("=", "+="):
                name, sign = self.next(), self.next()
                value = self.expr()
                self.take("newline")
                return ("assign" if sign.text == "=" else "join", name.place, name.text, sign.place, value)
            if [self.ahead(i) for i in (1, 2, 3)] == [".", "value", "="]:
                name, _, word, _ = self.next(), self.next(), self.next(), self.next()
                value = self.expr()
                self.take("newline")
                return ("set", name.place, name.text, word.place, value)
        value = self.expr()
        self.take("newline")
        return ("expr", token.place, value)

    def import_line(self):
        place = self.next().place
        module = self.take("name", "cvxpy", "numpy").text
        bound = module
        if self.is_keyword("as"):
            self.next()
            bound = self.take("name").text
        self.take("newline")
        return ("import", place, module, bound)

    def print_line(self):
        place = self.next().place
        if not self.is_sign("("):
            self.refuse()
        self.balanced()
        self.take("newline")
        return ("print", place)

    def balanced(self):
        wanted = [CLOSING[self.next().text]]
        while wanted:
            if self.is_sign("(", "[", "{"):
                wanted.append(CLOSING[self.token.text])
            elif self.is_sign(")", "]", "}"):
                if self.token.text != wanted.pop():
                    self.refuse()
            elif self.token.kind in ("newline", "end", "indent", "dedent"):
                self.refuse()
            self.next()

    def for_line(self):
        place = self.next().place
        name = self.take("name").text
        self.take("keyword", "in")
        items = self.expr()
        self.take("sign", ":")
        self.take("newline")
        self.take("indent")
        lines = [self.line()]
        while self.token.kind != "dedent":
            lines.append(self.line())
        self.next()
        return ("for", place, name, items, lines)

    def chain(self, kind, part, signs):
        """A first part, and signs with a part each."""
        place = self.token.place
        first = part()
        rest = []
        while self.is_sign(*signs):
            sign = self.next()
            rest.append((sign.text, sign.place, part()))
        return (kind, place, first, rest) if rest else first

    def expr(self):
        return self.chain("compare", self.sum, COMPARISONS)

    def sum(self):
        return self.chain("binary", self.term, ("+", "-"))

    def term(self):
        return self.chain("binary", self.factor, ("*", "/", "@"))

    def signs(self):
        signs = []
        while self.is_sign("+", "-"):
            signs.append(self.next())
        return [(sign.text, sign.place) for sign in signs]

    def factor(self):
        place = self.token.place
        signs = self.signs()
        power = self.power()
        return ("signed", place, signs, power) if signs else power

    def power(self):
        place = self.token.place
        base = self.postfix()
        rest = []
        while self.is_sign("**"):
            sign = self.next()
            rest.append((sign.place, self.signs(), self.postfix()))
        return ("power", place, base, rest) if rest else base

    def postfix(self):
        place = self.token.place
        value = self.primary()
        while True:
            if self.take_if("."):
                name = self.take("name")
                value = ("attribute", place, value, name.text, name.place)
            elif self.take_if("("):
                value = ("call", place, value, self.args())
            elif self.is_sign("["):
                bracket = self.next().place
                picks = [self.index()]
                while self.take_if(","):
                    picks.append(self.index())
                self.take("sign", "]")
                value = ("index", place, value, bracket, picks)
            else:
                return value

    def args(self):
        args = []
        while not self.take_if(")"):
            args.append(self.arg())
            if not self.take_if(","):
                self.take("sign", ")")
                break
        return args

    def arg(self):
        place = self.token.place
        name = None
        if self.token.kind == "name" and self.ahead(1) == "=":
            name = self.next().text
            self.next()
        return (name, place, self.expr())

    def index(self):
        """An index `("at", e)` or a slice `("slice", start, stop, step)` with None for what is left out."""
        start = None
        if not self.is_sign(":"):
            start = self.expr()
            if not self.is_sign(":"):
                return ("at", start)
        self.next()
        stop = None if self.is_sign(":", ",", "]") else self.expr()
        step = None
        if self.take_if(":"):
            step = None if self.is_sign(",", "]") else self.expr()
        return ("slice", start, stop, step)

    def primary(self):
        token = self.token
        if token.kind == "number":
            return ("number", token.place, self.next().value)
        if token.kind == "text":
            return ("text", token.place, self.next().text[1:-1])
        if token.kind == "name":
            return ("name", token.place, self.next().text)
        if token.kind == "keyword" and token.text in ("True", "False", "None"):
            return ("word", token.place, {"True": True, "False": False, "None": None}[self.next().text])
        if self.take_if("("):
            return self.in_round(token.place)
        if self.take_if("["):
            return self.in_square(token.place)
        self.refuse()

    def in_round(self, place):
        if self.take_if(")"):
            return ("tuple", place, [])
        first = self.expr()
        if self.take_if(")"):
            return ("round", place, first)
        self.take("sign", ",")
        return ("tuple", place, self.items([first], ")"))

    def in_square(self, place):
        if self.take_if("]"):
            return ("list", place, [])
        element_place = self.token.place
        first = self.expr()
        if self.is_keyword("for"):
            word = self.next().place
            name = self.take("name").text
            self.take("keyword", "in")
            items = self.expr()
            self.take("sign", "]")
            return ("turns", place, first, element_place, word, name, items)
        if self.take_if("]"):
            return ("list", place, [first])
        self.take("sign", ",")
        return ("list", place, self.items([first], "]"))

    def items(self, items, closing):
        """The other items, behind the comma of the first."""
        while not self.take_if(closing):
            items.append(self.expr())
            if not self.take_if(","):
                self.take("sign", closing)
                break
        return items


def parse(tokens):
    """The lines of a script."""
    return Parser(tokens).script()
