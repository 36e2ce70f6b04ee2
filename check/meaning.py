"""What formulas ask for: which operators stand in them, and what is known of the states that satisfy one.

Verdicts have three values. At each state a formula is satisfied, refuted, or neither, which here is kept as two sets of states:
those that must satisfy it, and those that may.
"""
import operator
from typing import NamedTuple

from language import Formula

COMPARISONS = {b"<": operator.lt, b"<=": operator.le, b">": operator.gt, b">=": operator.ge}
OPERATORS = ("next", "until")
JOINS = {"and": frozenset.intersection, "or": frozenset.union}


class Known(NamedTuple):
    """The states, from 0, that surely satisfy a formula, and those that may: the others are refuted."""
    must: frozenset
    may: frozenset

    def undecided(self):
        return self.may - self.must

    def is_decided(self):
        return self.must == self.may


def surely(states):
    """What is known where exactly these states satisfy a formula."""
    return Known(states, states)


def opposite(known, states):
    every = frozenset(range(states))
    return Known(every - known.may, every - known.must)


def joined(kind, left, right):
    """Of `&&` or `||`: satisfied where both are, or one is; refuted where one is, or both are; else neither."""
    return Known(*map(JOINS[kind], left, right))


def operands(formula):
    return [part for part in formula.parts if isinstance(part, Formula)]


def parts_of(formula):
    """The formula, and all that stand in it."""
    waiting = [formula]
    while waiting:
        part = waiting.pop()
        yield part
        waiting += operands(part)


def operators_of(formula):
    """The probability operators that stand in the formula, or that it is."""
    return [part for part in parts_of(formula) if part.kind in OPERATORS]


def has_operator(formula):
    return bool(operators_of(formula))


def is_nested(formula):
    """Whether an operator stands in an operand."""
    return any(map(has_operator, operands(formula)))


def known_states(formula, states, labels, of_operator=None):
    """What is known of the states that satisfy the formula, where `of_operator` tells it of a next or an until by what is known
    of its operands. These come first, from left to right; a chain to the left is gone down in a loop."""
    rest = []
    while formula.kind in JOINS:
        left, right = formula.parts
        rest.append((formula.kind, right))
        formula = left
    known = known_single(formula, states, labels, of_operator)
    for kind, right in reversed(rest):
        known = joined(kind, known, known_states(right, states, labels, of_operator))
    return known


def known_single(formula, states, labels, of_operator):
    """Of a formula that is no `&&` and no `||`."""
    if formula.kind == "label":
        return surely(frozenset(labels.marked[formula.parts[0]]))
    known = [known_states(operand, states, labels, of_operator) for operand in operands(formula)]
    if formula.kind == "not":
        return opposite(*known, states)
    if formula.kind in OPERATORS:
        return of_operator(formula, *known)
    return surely(frozenset(range(states) if formula.kind == "tt" else ()))
