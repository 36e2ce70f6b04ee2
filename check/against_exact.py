"""Printed answers against the exact level: what they say must be true of the probabilities, as fractions.

Within a bound these are Poisson averages; without one they are jump values, and the solution of the linear equations to which
these rise. Where operators stand in others the verdicts are held against those that come of the exact probabilities of all of
them; and where what is known of an operand leaves states open, the bracket must contain the probability for each choice of these
states. The lines of watched brackets need no look of their own, since these lie round that of the state's line.
"""
import re
from fractions import Fraction
from itertools import islice, product
from typing import NamedTuple

from answers import known_of
from exact import dual, next_probability, reached_at_all, reached_within, reaching, until_averages
from meaning import COMPARISONS, OPERATORS, Known, known_states, operands, operators_of
from plans import bound_of, plan_of, rewards_of
from rounded import ONE, greatest_width

UNITS = 10 ** 12

STATE_LINE = re.compile(rb"([0-9]+) (satisfied|refuted|undecided) ([01][.][0-9]{12}) ([01][.][0-9]{12})")
VERDICT_LINE = re.compile(rb"([0-9]+) (satisfied|refuted|undecided)")
REPLY = re.compile(rb"^(?=formula |refused )", re.MULTILINE)

# Fractions past these take too long: their numbers have as many digits as there are jumps.
MOST_STATES = 8
MOST_JUMPS = 100
# Jump values are cheaper than averages, and the solution of the equations doesn't ask for jumps.
MOST_JUMPS_WITHOUT_BOUND = 600
MOST_OPERATORS = 4
MOST_CHOICES = 12


class Members(NamedTuple):
    """Of a state: numbers that its bracket must contain, the first of them at the horizon, by how much the others may be greater,
    and how wide the bracket may be where it is known which states satisfy the operands."""
    values: list
    past: Fraction
    width: Fraction


def is_small(asked):
    """Whether the exact fractions are looked at."""
    if asked is None or asked.over.chain.states > MOST_STATES:
        return False
    found = operators_of(asked.formula)
    bounded = [part for part in found if part.kind == "until" and bound_of(part) is not None]
    return len(found) <= MOST_OPERATORS and all(jumps_of(until, asked.over) <= MOST_JUMPS for until in bounded)


def jumps_of(until, over):
    return plan_of(bound_of(until), over).last


def dual_of(bound, over):
    return dual(over.chain, rewards_of(bound, over), bound[1])


def untrue_replies(replies, printed):
    """What is untrue in the printed replies to formulas with operators over small chains."""
    texts = REPLY.split(printed)[1:]
    # Where some reply is missing the bytes differ anyhow, and which is whose isn't clear.
    for reply, text in zip(replies, texts) if len(replies) == len(texts) else ():
        if is_small(reply.asked):
            yield from untrue_lines(reply.asked, reply.may_end_early, text)


def untrue_lines(asked, may_be_wide, printed):
    """For each line of an answer that says something untrue, what it is. Where a bracket may be wide, its width says nothing."""
    states = state_lines_of(asked, printed)
    if len(states) != asked.over.chain.states:
        yield f"{len(states)} lines of states, wanted {asked.over.chain.states}"
        return
    is_shown = asked.formula.kind in OPERATORS
    truths = true_states(asked.formula, asked.over)
    for state, line in enumerate(states):
        parts = (STATE_LINE if is_shown else VERDICT_LINE).fullmatch(line)
        if parts is None or int(parts[1]) != state + 1:
            yield f"line of state {state + 1}: isn't one of its form"
            return
        yield from untrue_verdict(parts[2], state, truths)
    if is_shown:
        yield from untrue_brackets(asked, may_be_wide, [STATE_LINE.fullmatch(line) for line in states])


def state_lines_of(asked, printed):
    lines = printed.split(b"\n")[1:-1]
    return lines[1 + asked.over.options.watch:] if asked.is_until() else lines


def untrue_verdict(said, state, truths):
    if said == b"satisfied" and state not in truths.may:
        yield f"line of state {state + 1}: satisfied, and the formula doesn't hold there"
    if said == b"refuted" and state in truths.must:
        yield f"line of state {state + 1}: refuted, and the formula holds there"


# The meaning of a formula, by exact probabilities.

def true_states(formula, over):
    """The states where the formula surely holds, and those where it may. What is open here is where an until with a bound
    hasn't come far enough to tell."""
    def of_operator(inner, *known):
        meets, threshold = COMPARISONS[inner.parts[0]], inner.parts[1].fraction()
        found = [{meets(end, threshold) for end in ends} for ends in zip(*probabilities(inner, over, *known))]
        return Known(*(frozenset(state for state, ends in enumerate(found) if is_so(ends)) for is_so in (all, any)))
    return known_states(formula, over.chain.states, over.labels, of_operator)


def probabilities(operator, over, *known):
    """Numbers below and above each state's probability."""
    if operator.kind == "next":
        goal, = known
        return [[next_probability(row, states) for row in over.chain.rows] for states in goal]
    (live_must, live_may), (goal_must, goal_may) = known
    bound = bound_of(operator)
    if bound is None:
        return reached_at_all(over.chain, live_must, goal_must), reached_at_all(over.chain, live_may, goal_may)
    last, (chain, load) = 2 * jumps_of(operator, over), dual_of(bound, over)
    (least, _), (most, missing) = (until_averages(chain, *sets, load, [last])[last]
                                   for sets in ((live_must, goal_must), (live_may, goal_may)))
    return least, [value + missing for value in most]


# Brackets, for each choice of what is known of the operands.

def untrue_brackets(asked, may_be_wide, lines):
    known = [known_of(operand, asked.over) for operand in operands(asked.formula)]
    exact = [true_states(operand, asked.over) for operand in operands(asked.formula)]
    brackets = [tuple(Fraction(end.decode()) for end in line.groups()[2:]) for line in lines]
    for choice in choices(known, exact):
        for state, (bracket, members) in enumerate(zip(brackets, members_of(asked, choice)), 1):
            for what in untrue_members(bracket, members):
                yield f"line of state {state}: {what}, with the operands {list(map(sorted, choice))}"
    narrow, wide = (members_of(asked, sets) for sets in zip(*known))
    for state, (line, bracket) in enumerate(zip(lines, brackets)):
        if not may_be_wide and is_too_wide(*bracket, narrow[state], wide[state]):
            yield f"line of state {state + 1}: the bracket is too wide"
        for what in untrue_bracket(asked, known, state, line[2], bracket):
            yield f"line of state {state + 1}: {what}"


def choices(known, exact):
    """Lists of sets, one for each operand, that what is known leaves open: the exact ones, where these are found, all that
    must be, all that may be, and some with one state more than must be."""
    sides = [dict.fromkeys([one.must, one.may, *(one.must | {state} for state in sorted(one.undecided()))]) for one in known]
    found = [tuple(one.must for one in exact)] if all(one.is_decided() for one in exact) else []
    return list(dict.fromkeys([*found, *islice(product(*sides), MOST_CHOICES)]))


def untrue_members(bracket, members):
    low, high = bracket
    if not all(low <= value <= high for value in members.values):
        yield "a value from the horizon on isn't in the bracket"
    if max(members.values) - members.values[0] > members.past:
        yield "more lies past the horizon than it may"


def is_too_wide(low, high, narrow, wide):
    """Whether the bracket for all choices is: `narrow` is for what must be, and `wide` for all that may be."""
    # Rounding to twelve decimals adds less than one unit at each end.
    return high - low >= wide.values[0] - narrow.values[0] + wide.width + Fraction(2, UNITS)


def untrue_bracket(asked, known, state, said, bracket):
    """Of the bracket for all choices."""
    low, high = bracket
    if said == b"undecided" and not low <= asked.formula.parts[1].fraction() <= high:
        yield "undecided, and the threshold isn't in the bracket"
    if asked.is_until():
        live, goal = known
        if state in goal.must and not low == high == 1:
            yield "a state that is surely of the goal, and the bracket isn't 1 alone"
        if state not in reaching(asked.over.chain, live.may, goal.may) and not low == high == 0:
            yield "a state that can't reach the goal, and the bracket isn't 0 alone"


def members_of(asked, sets):
    """Each state's members, with these sets in place of the operands."""
    chain = asked.over.chain
    if not asked.is_until():
        return [Members([next_probability(row, *sets)], Fraction(0), Fraction(0)) for row in chain.rows]
    bound, last = bound_of(asked.formula), jumps_of(asked.formula, asked.over)
    if bound is None:
        return members_without_bound(chain, *sets, last)
    chain, load = dual_of(bound, asked.over)
    return members_within_bound(chain, *sets, load, last, asked.over.options.bits)


def members_without_bound(chain, live, goal, last):
    """A state's values at the horizon and past it, and its probability itself.

    The bracket may be as wide as the jump values with the start at the goal, and those with the start wherever it can be reached,
    lie apart, and each word may be one unit further off for each jump.
    """
    found = reached_at_all(chain, live, goal)
    if last > MOST_JUMPS_WITHOUT_BOUND:
        return [Members([probability], Fraction(0), Fraction(1)) for probability in found]
    counts = [last, last + 1, 2 * last]
    risen = reached_within(chain, live, goal, goal, counts)
    fallen = reached_within(chain, live, goal, reaching(chain, live, goal), [last])
    members = []
    for *values, upper, probability in zip(*(risen[count] for count in counts), fallen[last], found):
        members.append(Members([*values, probability], Fraction(1), upper - values[0] + Fraction(2 * last, ONE)))
    return members


def members_within_bound(chain, live, goal, load, last, bits):
    """A state's averages at the horizon and past it."""
    counts = [last, last + 1, 2 * last]
    averages = until_averages(chain, live, goal, load, counts)
    past, width = Fraction(1, 2 ** bits), Fraction(greatest_width(last, bits), ONE)
    return [Members(list(values), past, width) for values in zip(*(averages[count][0] for count in counts))]
