"""The answers to formulas: the verdicts of all states, and the brackets of a probability operator, by words that are rounded."""
from typing import NamedTuple, Optional

from command import Options
from exact import exit_rate, rate_into
from meaning import COMPARISONS, OPERATORS, Known, known_states, operands
from model_files import Chain, Labels, Rewards
from plans import bound_of, plan_of
from rounded import ONE, until_words


class Over(NamedTuple):
    """What a formula is answered over; without a file of rewards these are None."""
    chain: Chain
    labels: Labels
    options: Options
    rewards: Optional[Rewards] = None


class Answer(NamedTuple):
    """What is known of the states that satisfy the formula. Of a probability operator also each state's bracket, as two parts of
    a whole, and the whole; of an until the number of jumps that are looked at."""
    known: Known
    brackets: Optional[list] = None
    horizon: Optional[int] = None


def answer_of(formula, over):
    """The answer; where an until in the formula has no plan, it is raised why the first such one has none."""
    if formula.kind in OPERATORS:
        return operator_answer(formula, over, *(known_of(operand, over) for operand in operands(formula)))
    return Answer(known_of(formula, over))


def known_of(formula, over):
    def of_operator(inner, *known):
        return operator_answer(inner, over, *known).known
    return known_states(formula, over.chain.states, over.labels, of_operator)


def operator_answer(formula, over, *known):
    """The answer to an operator, by what is known of its operands."""
    if formula.kind == "next":
        return shown_answer(formula, next_brackets(over.chain, *known))
    plan = plan_of(bound_of(formula), over)
    words = until_words(plan, *known, over.options.bits)
    return shown_answer(formula, [(*pair, ONE) for pair in words], plan.last)


def next_brackets(chain, goal):
    return [(rate_into(row, goal.must), rate_into(row, goal.may), max(1, exit_rate(row))) for row in chain.rows]


def shown_answer(formula, brackets, last=None):
    """What the brackets tell, by the comparison and the threshold of the operator."""
    comparison, threshold = formula.parts[:2]
    found = [outcomes(comparison, threshold, *bracket) for bracket in brackets]
    must = frozenset(state for state, outcome in enumerate(found) if outcome == {True})
    may = frozenset(state for state, outcome in enumerate(found) if outcome != {False})
    return Answer(Known(must, may), brackets, last)


def outcomes(comparison, threshold, lower, upper, whole):
    """Whether the two ends of a bracket meet the threshold: what holds at both holds between them, and so does its contrary."""
    meets, tens = COMPARISONS[comparison], 10 ** threshold.x
    # Compared crosswise.
    return {meets(part * tens, threshold.c * whole) for part in (lower, upper)}
