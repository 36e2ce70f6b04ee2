"""The formula language: what a line of bytes stands for, or its fault, and the canonical text of a formula.

The tokens are read one at a time, and the first that doesn't pass is the fault. Chains of `&&` and `||` are loops, so that
long lines need no deep stack; what nests is nested at most 64 deep.
"""
import re
from typing import NamedTuple, Optional, Tuple

from decimals import Decimal, NumberFault, canonical_text, read_decimal

MOST_BYTES = 4096
MOST_NESTED = 64

BLANK = re.compile(rb"[ \t]*")
TOKEN = re.compile(rb"(?P<word>[A-Za-z_][A-Za-z0-9_]*)|(?P<number>[0-9.]+(?:[eE][+-]?[0-9]+)?)|(?P<symbol>&&|\|\||<=|>=|[!(){}\[\],~<>])")
RESERVED = {b"tt", b"ff", b"P", b"S", b"X", b"U", b"quit"}
COMPARISONS = (b"<", b"<=", b">", b">=")


class LineFault(Exception):
    """Why a line stands for no formula, with the column, from 1, of the token that doesn't pass."""

    def __init__(self, column, what):
        super().__init__(column, what)
        self.column, self.what = column, what


class Token(NamedTuple):
    text: bytes
    column: int
    number: Optional[Decimal]
    is_name: bool


class Formula(NamedTuple):
    """A formula by its kind and its parts: formulas, names, comparisons, numbers and bounds."""
    kind: str
    parts: Tuple = ()


class Reader:
    """The tokens of a line, one after another."""

    def __init__(self, line, labels):
        self.line, self.labels = line, labels
        self.place, self.token = 0, None
        self.advance()

    def advance(self):
        """Goes to the next token. What is wrong with its bytes or its number is told here, before all else."""
        start = BLANK.match(self.line, self.place).end()
        if start == len(self.line):
            self.token = None
            return
        found = TOKEN.match(self.line, start)
        if found is None:
            raise LineFault(start + 1, "Token")
        number = None
        if found["number"] is not None:
            try:
                number = read_decimal(found[0])
            except NumberFault:
                raise LineFault(start + 1, "Number") from None
        self.token = Token(found[0], start + 1, number, found["word"] is not None and found[0] not in RESERVED)
        self.place = found.end()

    def unexpected(self):
        return LineFault(self.token.column if self.token else len(self.line) + 1, "Expected")

    def is_at(self, text):
        return self.token is not None and self.token.text == text

    def take(self, text):
        if not self.is_at(text):
            raise self.unexpected()
        self.advance()

    def take_number(self):
        if self.token is None or self.token.number is None:
            raise self.unexpected()
        return self.token.number

    def enclosing(self, depth):
        """Goes past a token that encloses what follows: `!`, `(` or `P`."""
        if depth == MOST_NESTED:
            raise LineFault(self.token.column, "Depth")
        self.advance()
        return depth + 1


def read_line(line, labels):
    """The formula for which the line stands over these labels; where it stands for none, its fault is raised."""
    if len(line) > MOST_BYTES:
        raise LineFault(MOST_BYTES + 1, "Length")
    reader = Reader(line, labels)
    formula = read_formula(reader, 0)
    if reader.token is not None:
        raise reader.unexpected()
    return formula


def read_formula(reader, depth):
    formula = read_conjunction(reader, depth)
    while reader.is_at(b"||"):
        reader.advance()
        formula = Formula("or", (formula, read_conjunction(reader, depth)))
    return formula


def read_conjunction(reader, depth):
    formula = read_unary(reader, depth)
    while reader.is_at(b"&&"):
        reader.advance()
        formula = Formula("and", (formula, read_unary(reader, depth)))
    return formula


def read_unary(reader, depth):
    if reader.is_at(b"!"):
        return Formula("not", (read_unary(reader, reader.enclosing(depth)),))
    if reader.is_at(b"("):
        formula = read_formula(reader, reader.enclosing(depth))
        reader.take(b")")
        return formula
    if reader.is_at(b"P"):
        return read_probability(reader, reader.enclosing(depth))
    for word in (b"tt", b"ff"):
        if reader.is_at(word):
            reader.advance()
            return Formula(word.decode())
    return read_name(reader)


def read_name(reader):
    if reader.token is None or not reader.token.is_name:
        raise reader.unexpected()
    name = reader.token.text
    if name not in reader.labels:
        raise LineFault(reader.token.column, "UnknownLabel")
    reader.advance()
    return Formula("label", (name,))


def read_probability(reader, depth):
    reader.take(b"{")
    comparison = reader.token.text if reader.token else None
    if comparison not in COMPARISONS:
        raise reader.unexpected()
    reader.advance()
    threshold = reader.take_number()
    if threshold.fraction() > 1:
        raise LineFault(reader.token.column, "Threshold")
    reader.advance()
    reader.take(b"}")
    reader.take(b"[")
    formula = read_path(reader, depth, comparison, threshold)
    reader.take(b"]")
    return formula


def read_path(reader, depth, comparison, threshold):
    if reader.is_at(b"X"):
        reader.advance()
        return Formula("next", (comparison, threshold, read_formula(reader, depth)))
    live = read_formula(reader, depth)
    reader.take(b"U")
    bound = read_bound(reader)
    return Formula("until", (comparison, threshold, live, bound, read_formula(reader, depth)))


def read_bound(reader):
    """None, or what is bounded and by what: ("time", t) or ("reward", r)."""
    if not reader.is_at(b"["):
        return None
    read_zero(reader)
    if not reader.is_at(b"~"):
        return "time", read_upper(reader)
    reader.advance()
    reader.take(b"]")
    if not reader.is_at(b"["):
        return None
    read_zero(reader)
    return "reward", read_upper(reader)


def read_zero(reader):
    reader.take(b"[")
    if reader.take_number().c != 0:
        raise reader.unexpected()
    reader.advance()
    reader.take(b",")


def read_upper(reader):
    upper = reader.take_number()
    reader.advance()
    reader.take(b"]")
    return upper


def canonical_line(formula):
    """The canonical text of a formula. A chain to the left is gone down in a loop."""
    backward = []
    while formula.kind in ("and", "or"):
        left, right = formula.parts
        if formula.kind == "and":
            backward.append(b" && " + guarded(right, ("and", "or")))
            if left.kind == "or":
                return b"".join([b"(" + canonical_line(left) + b")", *reversed(backward)])
        else:
            backward.append(b" || " + guarded(right, ("or",)))
        formula = left
    return b"".join([single_text(formula), *reversed(backward)])


def guarded(formula, kinds):
    text = canonical_line(formula)
    return b"(" + text + b")" if formula.kind in kinds else text


def single_text(formula):
    """The text of a formula that is no `&&` and no `||`."""
    if formula.kind in ("tt", "ff"):
        return formula.kind.encode()
    if formula.kind == "label":
        return formula.parts[0]
    if formula.kind == "not":
        return b"!" + guarded(formula.parts[0], ("and", "or"))
    comparison, threshold, *path = formula.parts
    return b"P{" + comparison + canonical_text(threshold) + b"}[" + path_text(path) + b"]"


def path_text(path):
    if len(path) == 1:
        return b"X " + canonical_line(path[0])
    live, bound, goal = path
    return canonical_line(live) + b" " + bound_text(bound) + b" " + canonical_line(goal)


def bound_text(bound):
    if bound is None:
        return b"U"
    kind, upper = bound
    front = b"U[0," if kind == "time" else b"U[0,~][0,"
    return front + canonical_text(upper) + b"]"
