"""The rounded level: words of 2^-62, rounded down or up at every step, of which the printed bytes are a function."""
import functools
import math
import operator

from exact import reaching
from plans import jump_rows

ONE = 2 ** 62
FINE = 2 ** 50
COARSE = 2 ** 14


def divide_up(number, divisor):
    return -(-number // divisor)


def low_weights(load, last):
    """The weights of 0 to `last` jumps, rounded down, made outward from the mode, whose own weight is 1."""
    mode, fine_load = math.floor(load), math.floor(load * FINE)
    weights = {mode: ONE}
    for jumps in range(mode + 1, last + 1):
        weights[jumps] = weights[jumps - 1] * fine_load // (FINE * jumps)
    for jumps in range(mode, 0, -1):
        weights[jumps - 1] = weights[jumps] * jumps * FINE // (fine_load + 1)
    return weights


def high_weights(load, last):
    """The same, rounded up."""
    mode, fine_load = math.floor(load), math.floor(load * FINE)
    weights = {mode: ONE}
    for jumps in range(mode + 1, last + 1):
        weights[jumps] = divide_up(weights[jumps - 1] * (fine_load + 1), FINE * jumps)
    for jumps in range(mode, 0, -1):
        weights[jumps - 1] = divide_up(weights[jumps] * jumps * FINE, fine_load)
    return weights


class Mix:
    """Sums of weighted words over the numbers of jumps, and the two words that they come to."""

    def __init__(self, load, last, bits):
        self.low, self.high = low_weights(load, last), high_weights(load, last)
        self._low_total = sum(self.low.values()) // COARSE
        self._high_total = divide_up(sum(self.high.values()), COARSE)
        self._past_horizon = 2 ** (62 - bits)

    def low_term(self, jumps, word):
        return self.low[jumps] * word // COARSE

    def high_term(self, jumps, word):
        return divide_up(self.high[jumps] * word, COARSE)

    def words(self, low_sum, high_sum):
        lower = low_sum // self._high_total
        upper = divide_up(high_sum, self._low_total) + self._past_horizon
        return lower, min(ONE, upper)


def until_words(plan, live, goal, bits):
    """Each state's two words, round the probability of reaching the goal by live states: within the bound, or at all where there
    is none. Of both sets it is told what is known: the lower words are those of the states that must be in them, and the upper
    ones those of the states that may be."""
    return last_words(plan, live, goal) if plan.load is None else mixed_words(plan, live, goal, bits)


@functools.lru_cache(maxsize=32)
def mixed_words(plan, live, goal, bits):
    """The mix of a state's words over 0 jumps up to the horizon."""
    mix = Mix(plan.load, plan.last, bits)
    words, unsettled = settled_words(plan.chain, live, goal)
    low_sums, high_sums = dict.fromkeys(unsettled, 0), dict.fromkeys(unsettled, 0)
    for jumps, (low, high) in enumerate(both_layers(plan, live, goal, goal.may)):
        for state in unsettled:
            low_sums[state] += mix.low_term(jumps, low[state])
            high_sums[state] += mix.high_term(jumps, high[state])
    for state in unsettled:
        words[state] = mix.words(low_sums[state], high_sums[state])
    return words


@functools.lru_cache(maxsize=32)
def last_words(plan, live, goal):
    """A state's words after the last jump, where the upper ones are 1 before the first wherever the goal can be reached."""
    words, unsettled = settled_words(plan.chain, live, goal)
    for low, high in both_layers(plan, live, goal, reaching(plan.chain, live.may, goal.may)):
        pass
    for state in unsettled:
        words[state] = low[state], high[state]
    return words


def settled_words(chain, live, goal):
    """The words of the states that are surely of the goal and of those from which no state that may be can be reached; and which
    states are neither.

    The words of the settled states are the same after each jump, so these need no steps; in a large chain with few transitions
    they are nearly all."""
    unsettled = sorted(reaching(chain, live.may, goal.may) - goal.must)
    return [(ONE, ONE) if state in goal.must else (0, 0) for state in range(chain.states)], unsettled


def both_layers(plan, live, goal, start_high):
    """For 0 jumps to the last one the lower and the upper words of all states."""
    lower = layers(plan, live.must, goal.must, goal.must, operator.floordiv)
    return zip(lower, layers(plan, live.may, goal.may, start_high, divide_up))


def layers(plan, live, goal, start, divide):
    """For 0 jumps to the last one the words of all states, from 1 on the start and 0 elsewhere, rounded by this division. The
    words of the goal, and those of the states that can't reach it, stay as they are. The list is the same one each time."""
    moving = sorted(reaching(plan.chain, live, goal) - goal)
    rows = jump_rows(plan.chain, plan.rewards)
    rows = [rows[state] for state in moving]
    words = [ONE if state in start else 0 for state in range(plan.chain.states)]
    yield words
    for _ in range(plan.last):
        moved = [divide(sum(share * words[target] for target, share in shares), divisor) for shares, divisor in rows]
        for state, word in zip(moving, moved):
            words[state] = word
        yield words


def slack(last, bits):
    """By how many words the two words of a state may lie apart for rounding alone."""
    return 2 * (last + 1) * (2 ** 12 * (bits + 2) + 2 * last) + 2 ** 15 + 2 * last + 8


def greatest_width(last, bits):
    """By how many words they may lie apart at all."""
    return 2 ** (62 - bits) + slack(last, bits)
