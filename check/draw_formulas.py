"""Formulas over a model: with thresholds at and near the numbers that decide them, and with ones that know nothing of it.

A model is anything that has a chain, labels and rewards.
"""
import math
from fractions import Fraction

from answers import Over, answer_of, known_of
from decimals import Decimal, decimal_of_units
from draw_lines import COMPARISONS, PLAIN_KINDS, draw_leaf, draw_tree, line_of, threshold, tokens_of
from exact import next_probability, reaching
from language import Formula
from meaning import known_states
from plans import NoPlan, jump_rate, plan_of, rewards_of
from rounded import ONE, until_words

FINEST = 10 ** 18
UNITS = 10 ** 12

EVERYWHERE = Formula("tt")


def spelled_formula(draws, formula):
    """The formula in some spelling, with blanks where some must be and at times elsewhere."""
    return line_of(draws, tokens_of(draws, formula))


# Formulas without a probability operator.

def draw_plain(draws, names, greatest=5):
    """Mostly a label, else some parts joined."""
    return draw_tree(draws, draws.mostly(1, draws.between(2, greatest)), names, PLAIN_KINDS)


def states_of(model, formula):
    return known_states(formula, model.chain.states, model.labels).must


# Next operators.

def draw_next(draws, model):
    """A next operator, mostly with its threshold at a probability that is a decimal, or beside one."""
    found = next_probabilities(model, [draw_plain(draws, model.labels.names) for _ in range(4)])
    between = [(operand, probability) for operand, probability in found if 0 < probability < 1]
    decimals = [(operand, probability) for operand, probability in between if FINEST % probability.denominator == 0]
    operand, probability = draws.one_of(draws.mostly(decimals, found) or between or found)
    units = draws.mostly(beside(draws, probability), any_units(draws))
    return Formula("next", (draws.one_of(COMPARISONS), threshold_of(units), operand))


def next_probabilities(model, formulas):
    """For each formula and each state the probability that the next state satisfies it."""
    goals = [(formula, states_of(model, formula)) for formula in formulas]
    return [(formula, next_probability(row, goal)) for formula, goal in goals for row in model.chain.rows]


def has_choice(model):
    """Whether the next operator's probability of some label is neither 0 nor 1."""
    labels = [Formula("label", (name,)) for name in model.labels.names]
    return any(0 < probability < 1 for _, probability in next_probabilities(model, labels))


# Untils within a time or a reward, and without a bound where in place of it there is None.

def over_of(model, options):
    return Over(model.chain, model.labels, options, model.rewards)


def draw_until(draws, model, bound, options):
    live, goal = draw_way(draws, model)
    return until_over(draws, over_of(model, options), live, bound, goal)


def until_over(draws, over, live, bound, goal):
    """An until, mostly with its threshold in a state's bracket or beside one of its ends."""
    try:
        words = until_words(plan_of(bound, over), known_of(live, over), known_of(goal, over), over.options.bits)
    except NoPlan:
        return until_of(draws.one_of(COMPARISONS), threshold_of(any_units(draws)), live, bound, goal)
    wide = [pair for pair in words if pair[0] < pair[1]]
    words = draws.mostly([pair for pair in words if 0 < pair[0] < ONE], wide, words) or wide or words
    units = draws.one_of([at_last_bit, inside, inside, beside_printed, any_units])(draws, words)
    return until_of(draws.one_of(COMPARISONS), threshold_of(units), live, bound, goal)


def draw_within(greatest_load, kind="time"):
    """Draws an until within a time, or a reward, in which at most so many jumps are expected."""
    def draw(draws, model, options):
        return draw_until(draws, model, draw_bound(draws, over_of(model, options), kind, greatest_load), options)
    return draw


def draw_unbounded(draws, model, options):
    return draw_until(draws, model, None, options)


def unsettled_states(model, formula, options):
    """The states, from 1, of which an until's two words differ."""
    try:
        answer = answer_of(formula, over_of(model, options))
    except NoPlan:
        return []
    if answer.horizon is None:
        return []
    return [state for state, (lower, upper, _) in enumerate(answer.brackets, 1) if lower < upper]


def until_of(comparison, limit, live, bound, goal):
    return Formula("until", (comparison, limit, live, bound, goal))


def draw_way(draws, model):
    """The two operands: often such that some way to the goal is barred, else mostly such that the goal is entered."""
    names = model.labels.names
    ways = [(draw_live(draws, names), draw_plain(draws, names)) for _ in range(12)]
    if names:
        ways += [(Formula("not", (draw_leaf(draws, names),)), draw_leaf(draws, names)) for _ in range(12)]
    for is_wanted in draws.mostly([is_barred, is_entered], [is_entered], []):
        for live, goal in ways:
            if is_wanted(model.chain, states_of(model, live), states_of(model, goal)):
                return live, goal
    return ways[0]


def draw_live(draws, names):
    """All states, those without some label, or any others."""
    other = draw_plain(draws, names)
    return draws.one_of([EVERYWHERE, Formula("not", (other,)), other])


def has_way(model):
    """Whether some label is reached from a state that doesn't have it."""
    everywhere = frozenset(range(model.chain.states))
    return any(is_entered(model.chain, everywhere, goal) for goal in model.labels.marked.values())


def has_barred_way(model):
    """Whether some way to a label is barred by another one."""
    everywhere, sets = frozenset(range(model.chain.states)), model.labels.marked.values()
    return any(is_barred(model.chain, everywhere - bar, goal) for bar in sets for goal in sets)


def is_entered(chain, live, goal):
    return any(target in goal for state in live - goal for target, _ in chain.rows[state])


def is_barred(chain, live, goal):
    """Whether a live state leads to one that is neither live nor of the goal, but from which the goal can be reached."""
    barred = {target for state in live - goal for target, _ in chain.rows[state]} - live - goal
    return bool(barred) and not barred.isdisjoint(reaching(chain, frozenset(range(chain.states)), goal))


# Thresholds and bounds.

def threshold_of(units):
    """The nearest threshold to so many units of 10^-18."""
    return decimal_of_units(min(max(units, 0), FINEST), 18)


def any_units(draws, words=()):
    return draws.one_of([0, 1, FINEST, FINEST - 1, FINEST // 2, draws.below(1001) * FINEST // 1000])


def beside(draws, number):
    """One of the two units round the number, or one further off; the number itself where it is a decimal."""
    return draws.one_of([math.floor, math.ceil])(number * FINEST) + draws.mostly(0, 1, -1)


def at_last_bit(draws, words):
    """A unit between some word and the next one, so that the verdict tells whether the word is right to its last bit."""
    found = []
    for word in (word for pair in words for word in pair):
        below, above = word * FINEST // ONE, -(-word * FINEST // ONE)
        found += [below] * ((word - 1) * FINEST < below * ONE) + [above] * (above * ONE < (word + 1) * FINEST)
    return draws.one_of(found) if found else inside(draws, words)


def inside(draws, words):
    """A unit between the two words of a state, or, where none lies there, beside them."""
    lower, upper = (Fraction(word, ONE) * FINEST for word in draws.one_of(words))
    least, most = math.ceil(lower), math.floor(upper)
    return draws.between(least, most) if least <= most else most


def beside_printed(draws, words):
    """A unit at a printed end, which may lie outside of the bracket of words by which the verdict is."""
    lower, upper = (Fraction(word, ONE) * UNITS for word in draws.one_of(words))
    return beside(draws, Fraction(draws.one_of([math.floor(lower), math.ceil(upper)]), UNITS))


def draw_bound(draws, over, kind, greatest_load):
    """A bound of this kind, for which the load is at most so great."""
    try:
        rate = jump_rate(over.chain, rewards_of((kind,), over))
    except NoPlan:
        rate = 0
    return kind, draw_upper(draws, rate, greatest_load)


def draw_upper(draws, rate, greatest_load):
    """A number for which at this rate the load is at most so great, often a whole or a half number, or just below one."""
    if draws.chance(1, 16):
        return Decimal(0, 0)
    # Below 2^-50 a load is 0 in its own units, and beside 10^-18 the number has few digits left.
    small = Fraction(1, 10 ** draws.one_of([draws.between(1, 15), draws.between(16, 20)]))
    load = Fraction(draws.between(1, 2 * greatest_load), 2) if draws.chance(7, 8) else small
    if rate == 0:
        return decimal_of_units(draws.between(1, 10 ** 6), draws.below(7))
    return decimal_at_most(draws, load / rate)


def decimal_at_most(draws, number):
    """The number rounded down to so many decimals that it has at most 18 digits; or one unit less."""
    decimals = draws.mostly(18, draws.below(18))
    while decimals > 0 and number * 10 ** decimals >= FINEST:
        decimals -= 1
    units = min(math.floor(number * 10 ** decimals), FINEST - 1)
    return decimal_of_units(max(0, units - draws.mostly(0, 1)), decimals)


# Formulas of any kind, with thresholds that know nothing of the chain.

def draw_operator(draws, names):
    """A next, or an until within a time or a reward or without a bound, of any kind."""
    front = draws.one_of(COMPARISONS), threshold(draws)
    if draws.chance(1, 2):
        return Formula("next", (*front, draw_plain(draws, names)))
    return until_of(*front, draw_plain(draws, names), any_bound(draws, Decimal(draws.below(10), 0)), draw_plain(draws, names))


def any_bound(draws, upper):
    """This number as a bound of either kind, or no bound."""
    return draws.one_of([None, ("time", upper), ("reward", upper)])


def too_long_until(draws, names):
    """An until past the limit of jumps, where some rate is no small one."""
    live, goal = draw_plain(draws, names), draw_plain(draws, names)
    bound = draws.one_of(["time", "reward"]), Decimal(10 ** 18 - 1, draws.below(3))
    return until_of(draws.one_of(COMPARISONS), threshold(draws), live, bound, goal)


def draw_around(draws, inner, other):
    """A formula in which the inner one stands below one connective or operator more, mostly beside the other one."""
    front = draws.one_of(COMPARISONS), threshold(draws)
    bound = any_bound(draws, Decimal(draws.below(4), 0))
    pair = draws.one_of([(inner, other), (other, inner)])
    return draws.one_of([
        Formula("not", (inner,)), Formula("and", pair), Formula("or", pair), Formula("next", (*front, inner)),
        until_of(*front, pair[0], bound, pair[1]),
    ])


def draw_earning(draws, names):
    """A bound on the reward, often deep in a formula, beside which something may be too long."""
    live, goal = draw_plain(draws, names), draw_plain(draws, names)
    bound = "reward", draws.one_of([Decimal(draws.below(100), 0), threshold(draws), Decimal(10 ** 17, 0)])
    formula = until_of(draws.one_of(COMPARISONS), threshold(draws), live, bound, goal)
    for _ in range(draws.one_of([0, 1, 1, 2, 5])):
        formula = draw_around(draws, formula, draws.one_of([draw_plain, draw_operator, too_long_until])(draws, names))
    return formula
