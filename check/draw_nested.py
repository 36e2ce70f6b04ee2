"""Formulas with operators in one another over a model, such that what an inner one leaves open matters to the outer one."""
from fractions import Fraction

from answers import known_of, next_brackets
from decimals import Decimal
from draw_formulas import (EVERYWHERE, any_bound, any_units, beside, draw_around, draw_bound, draw_next, draw_operator, draw_plain,
                           draw_until, over_of, threshold_of, until_of, until_over)
from draw_lines import COMPARISONS, threshold
from language import Formula
from plans import has_plan

# An operand is drawn so many times, until it leaves some state open.
TRIES = 4
GREATEST_LOAD = 4
# A bound with which an until is too long over all but the slowest chains.
LONG = Decimal(10 ** 17, 0)


def draw_nested(levels):
    """Draws a probability operator in which others stand, so many in one another."""
    return lambda draws, model, options: operator_of(draws, over_of(model, options), levels)


def draw_joined(levels):
    """Draws a formula that has its operators, so many in one another, below `!`, `&&` or `||`."""
    def draw(draws, model, options):
        over = over_of(model, options)
        return joined(draws, over, draw_operand(draws, over, levels))
    return draw


def operator_of(draws, over, levels):
    if levels == 1:
        if draws.chance(1, 4):
            return draw_next(draws, over)
        return draw_until(draws, over, short_bound(draws, over), over.options)
    operand = draw_operand(draws, over, levels - 1)
    if draws.chance(1, 4):
        return next_over(draws, over, operand)
    other = draw_plain(draws, over.labels.names) if draws.chance(3, 4) else draw_operand(draws, over, 1)
    live, goal = draws.one_of([(operand, other), (other, operand), (EVERYWHERE, operand), (Formula("not", (other,)), operand)])
    return until_over(draws, over, live, short_bound(draws, over), goal)


def short_bound(draws, over):
    """A short time, a small reward where it can be a bound, or no bound."""
    if draws.chance(1, 3):
        return None
    bound = draw_bound(draws, over, draws.one_of(["time", "reward"]), GREATEST_LOAD)
    return bound if has_plan(bound, over) else None


def draw_operand(draws, over, levels):
    """A formula with so many operators in one another, mostly one that leaves some state open, and else not all alike."""
    drawn = []
    for _ in range(TRIES):
        formula = operator_of(draws, over, levels)
        drawn.append(formula if draws.chance(2, 3) else joined(draws, over, formula))
    known = [(formula, known_of(formula, over)) for formula in drawn]
    left_open = [formula for formula, known in known if known.undecided()]
    parted = [formula for formula, known in known if 0 < len(known.must) < over.chain.states]
    return draws.one_of(draws.mostly(left_open, parted, drawn) or parted or drawn)


def joined(draws, over, formula):
    """The formula below a connective, mostly beside another part, which at times has an operator too."""
    other = draw_plain(draws, over.labels.names) if draws.chance(1, 2) else operator_of(draws, over, 1)
    pair = draws.one_of([(formula, other), (other, formula)])
    formula = draws.one_of([Formula("not", (formula,)), Formula("and", pair), Formula("or", pair)])
    return draws.mostly(formula, Formula("not", (formula,)))


def next_over(draws, over, operand):
    """A next, mostly with its threshold at an end of a state's bracket, beside one, or between both."""
    brackets = next_brackets(over.chain, known_of(operand, over))
    wide = [bracket for bracket in brackets if bracket[0] < bracket[1]]
    lower, upper, whole = draws.one_of(draws.mostly(wide, brackets) or brackets)
    number = Fraction(draws.one_of([2 * lower, 2 * upper, lower + upper]), 2 * whole)
    units = draws.mostly(beside(draws, number), any_units(draws))
    return Formula("next", (draws.one_of(COMPARISONS), threshold_of(units), operand))


def draw_limited(draws, names, levels):
    """Untils of which any may be past a limit, in one another and side by side, so that it matters which of them is the first.
    Without a bound they are too large, where the number of jumps is."""
    if levels <= 0:
        return draw_plain(draws, names)
    first, second = (draw_limited(draws, names, levels - draws.between(1, 2)) for _ in range(2))
    front = draws.one_of(COMPARISONS), threshold(draws)
    bound = any_bound(draws, draws.one_of([Decimal(1, 0), LONG]))
    return draws.mostly(until_of(*front, first, bound, second), Formula("and", (first, second)), Formula("or", (first, second)),
                        Formula("not", (first,)), Formula("next", (*front, first)))


def draw_some_operators(draws, names):
    """Operators in one another and side by side, with thresholds that know nothing of the chain."""
    formula = draw_operator(draws, names)
    for _ in range(draws.between(1, 3)):
        other = draws.one_of([draw_plain, draw_operator])(draws, names)
        formula = draw_around(draws, formula, other)
    return formula
