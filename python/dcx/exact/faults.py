"""What ends a script, a file of settings, or one setting."""

REFUSALS = {
    1: "NotText", 2: "BadChar", 3: "BadNumber", 4: "Unclosed", 5: "Indent", 6: "Unexpected", 7: "TooDeep", 8: "TooLong",
    9: "UnknownName", 10: "UnknownCall", 11: "BadArgument", 12: "NotOffered", 13: "ShapeClash", 14: "IndexRange",
    15: "EmptyResult", 16: "NoProblem", 17: "TwoProblems", 18: "TooMany", 19: "NotDcp", 20: "PlainWide",
    34: "WholeVariable", 35: "NotRanged",
}
STOPS = {
    21: "UnknownParam", 22: "MissingParam", 23: "ParamShape", 24: "ParamSign", 25: "ZeroDivisor", 26: "Wide",
    27: "PivotLimit", 28: "TooLarge", 30: "RelaxationUnbounded", 31: "Memory", 32: "NodeLimit", 33: "Branch",
    36: "RangeWide", 37: "Filter",
}


class Refused(Exception):
    """A refusal at a line and a column, with what it carries as it is printed."""

    def __init__(self, kind, place, carried=""):
        super().__init__(kind, place, carried)
        self.kind, self.place, self.carried = kind, place, carried

    def text(self, source):
        line, column = self.place
        return f"refused {source} {self.kind} {REFUSALS[self.kind]} at {line}:{column}{self.carried}\n"


class Stopped(Exception):
    """A stop of one setting, with what it carries as it is printed."""

    def __init__(self, kind, carried):
        super().__init__(kind, carried)
        self.kind, self.carried = kind, carried

    def text(self):
        return f"stopped {self.kind} {STOPS[self.kind]}{self.carried}"
