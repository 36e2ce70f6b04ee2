"""How an until is computed: over which rows of jumps, how many jumps are expected before its bound is passed, and how many are
looked at; or that it has no plan.

A bound on the time is one on a reward of 1 in each state.
"""
import math
from fractions import Fraction
from typing import NamedTuple, Optional

from exact import exit_rate
from model_files import Chain, Rewards

MOST_JUMPS = 16_384
MOST_WORDS = 2 ** 23
DIVISOR_LIMIT = 2 ** 63
LOAD_LIMITS = 2 ** 127, 2 ** 126


class NoPlan(Exception):
    """An until is past a limit, or there is no such reward: what is told, and of which state, from 0, where it is of one."""

    def __init__(self, what, state=None):
        super().__init__(what, state)
        self.what, self.state = what, state


class Plan(NamedTuple):
    """The chain, what is earned in its states, how many jumps are expected before the bound is passed, or None where there is no
    bound, and how many are looked at."""
    chain: Chain
    rewards: Rewards
    load: Optional[Fraction]
    last: int


def bound_of(until):
    """None, or what is bounded and by what: ("time", t) or ("reward", r)."""
    return until.parts[3]


def plan_of(bound, over):
    """The plan of an until with this bound; where it has none, why is raised."""
    rewards = rewards_of(bound, over)
    load = None if bound is None else load_of(over.chain, rewards, bound[1])
    # Without a bound the number of jumps is that of the option, which is in the range.
    last = over.options.jumps if load is None else horizon(load, over.options.bits)
    if last > MOST_JUMPS:
        raise NoPlan("TooLong")
    if (last + 1) * over.chain.states > MOST_WORDS:
        raise NoPlan("TooLarge")
    return Plan(over.chain, rewards, load, last)


def has_plan(bound, over):
    try:
        plan_of(bound, over)
    except NoPlan:
        return False
    return True


def rewards_of(bound, over):
    """What is earned in each state toward the bound."""
    if bound is None or bound[0] == "time":
        return Rewards(0, (1,) * over.chain.states)
    if over.rewards is None:
        raise NoPlan("NoRewards")
    if 0 in over.rewards.amounts:
        raise NoPlan("ZeroReward", over.rewards.amounts.index(0))
    return over.rewards


def deciding(chain, rewards):
    """The exit rate and the reward of the first state that is left fastest for each unit of reward. Where no state is left the
    rate is 0."""
    fastest, earned = 0, 1
    for row, amount in zip(chain.rows, rewards.amounts):
        # Compared crosswise.
        if exit_rate(row) * earned > fastest * amount:
            fastest, earned = exit_rate(row), amount
    return fastest, earned


def jump_rate(chain, rewards):
    """The number of jumps that are expected for one of the bound."""
    fastest, earned = deciding(chain, rewards)
    return Fraction(fastest * 10 ** rewards.scale, 10 ** chain.scale * earned)


def load_of(chain, rewards, upper):
    """The number of jumps that are expected before the bound is passed, if it and the rows' divisors are in their ranges."""
    fastest, _ = deciding(chain, rewards)
    for state, amount in enumerate(rewards.amounts):
        if amount * fastest >= DIVISOR_LIMIT:
            raise NoPlan("RewardRange", state)
    load = jump_rate(chain, rewards) * upper.fraction()
    if load.numerator >= LOAD_LIMITS[0] or load.denominator >= LOAD_LIMITS[1]:
        raise NoPlan("BoundRange")
    return load


def horizon(load, bits):
    """The number of jumps past which at most 2^-bits is left."""
    return math.ceil(2 * load) + bits


def jump_rows(chain, rewards):
    """Of each state the targets with their shares, and the divisor: a jump leads there with the probability share / divisor."""
    fastest, earned = deciding(chain, rewards)
    rows = []
    for state, (row, amount) in enumerate(zip(chain.rows, rewards.amounts)):
        # Where no state is left each one stays where it is.
        divisor = max(1, amount * fastest)
        shares = {target: rate * earned for target, rate in row}
        shares[state] = shares.get(state, 0) + divisor - exit_rate(row) * earned
        rows.append(([(target, share) for target, share in shares.items() if share > 0], divisor))
    return rows
