"""Sound models, drawn, and their files as lines of words; how lines of words are laid out as a text."""
import math
from dataclasses import dataclass

from decimals import Decimal, decimal_of_units
from draw_numbers import number_of_digits, spelled, whole_word

NAMES = [
    b"a", b"b", b"goal", b"up", b"down", b"full", b"x1", b"_", b"__", b"_9", b"e5", b"E", b"s", b"p", b"u",
    # Names that are nearly one of the reserved words.
    b"TT", b"tt1", b"ttt", b"fff", b"PP", b"_P", b"SX", b"X_", b"U0", b"Quit", b"quit_", b"n" * 300,
]
ROUND_SUMS = [1, 2, 4, 5, 8, 10, 16, 20, 25, 32, 50, 64, 100, 1000]


@dataclass
class Draft:
    """A model before it is spelled. States are numbered from 1, as the files do."""
    states: int
    transitions: list
    names: list
    marks: list
    rewards: list


def draw_draft(draws, states, full=False):
    """A model of so many states; a full one has transitions, labels, marks and rewards, so that each can be damaged."""
    names = draw_names(draws, full)
    marks = draw_marks(draws, states, names)
    if full and not marks:
        marks = [(1, names[:1])]
    transitions = draw_transitions(draws, states, full)
    return Draft(states, transitions, names, marks, draw_rewards(draws, states, transitions, full))


def draw_transitions(draws, states, full=False):
    draw_pairs = draws.mostly(any_pairs, ring, birth_and_death, toward_the_end, loops, no_pairs)
    pairs = draws.shuffled(draw_pairs(draws, states))
    if full and not pairs:
        pairs = [(1, 1)]
    if draws.chance(1, 3):
        return with_round_sums(draws, pairs)
    draw_rate = draws.one_of([whole_rate, decimal_rate, small_rate, mixed_rate, mixed_rate, fine_rate, draws.mostly(fine_rate, no_rate)])
    return [(source, target, draw_rate(draws)) for source, target in pairs]


def any_pairs(draws, states):
    """Up to four transitions out of each state, and often none, so that some states are never left."""
    pairs = set()
    for source in range(1, states + 1):
        for _ in range(draws.below(5)):
            pairs.add((source, draws.between(1, states)))
    return sorted(pairs)


def ring(draws, states):
    return [(source, source % states + 1) for source in range(1, states + 1)]


def birth_and_death(draws, states):
    upward = [(state, state + 1) for state in range(1, states)]
    return upward + [(target, source) for source, target in upward]


def toward_the_end(draws, states):
    """No way back: what is behind isn't reached, and the last state is never left."""
    pairs = [(source, target) for source in range(1, states) for target in range(source + 1, min(source + 5, states + 1))]
    return [pair for pair in pairs if draws.chance(1, 2)]


def loops(draws, states):
    return [(state, state) for state in range(1, states + 1)]


def no_pairs(draws, states):
    return []


def whole_rate(draws):
    return Decimal(draws.between(0, 9), 0)


def decimal_rate(draws):
    return decimal_of_units(draws.between(0, 9999), 3)


def small_rate(draws):
    return decimal_of_units(draws.between(1, 99), draws.between(3, 6))


def mixed_rate(draws):
    return draws.one_of([whole_rate, decimal_rate, small_rate, no_rate, large_rate])(draws)


def large_rate(draws):
    return Decimal(draws.between(1, 10 ** 6), 0)


def fine_rate(draws):
    """A rate below 1, since nine of these add up to less than 2^63 at 18 decimals, and no state has more."""
    return decimal_of_units(draws.between(1, 10 ** 18 - 1), 18)


def no_rate(draws):
    return Decimal(0, 0)


def with_round_sums(draws, pairs):
    """Rates that add up to numbers of twos and fives, so that a next operator's probability is often a finite decimal."""
    decimals = draws.mostly(0, 1, 3)
    transitions = []
    for source in sorted({source for source, _ in pairs}):
        targets = [target for start, target in pairs if start == source]
        total = draws.one_of([total for total in ROUND_SUMS if total >= len(targets)])
        transitions += [(source, target, decimal_of_units(part, decimals))
                        for target, part in zip(targets, draw_parts(draws, total, len(targets)))]
    return draws.shuffled(transitions)


def draw_parts(draws, total, count):
    """Positive whole numbers that add up to the total: it is cut at so many places, less one."""
    cuts = sorted(draws.some_of(range(1, total), count - 1))
    return [end - start for start, end in zip([0, *cuts], [*cuts, total])]


def draw_names(draws, full=False):
    if not full and draws.chance(1, 30):
        return []
    if draws.chance(1, 30):
        return [b"n%d" % number for number in range(64)]
    return draws.some_of(NAMES, draws.between(1, 4))


def draw_marks(draws, states, names):
    """Lines of a state and its labels: several for a state or none, without labels, or with one label repeated."""
    # How many states in eight have each name: all, none, but mostly few, since much is reached where much is the goal.
    shares = {name: draws.mostly(draws.between(1, 3), 0, 5, 8) for name in names}
    marks = []
    for state in range(1, states + 1):
        labels = [name for name in names if draws.chance(shares[name], 8)][:6]
        if labels or draws.chance(1, 8):
            marks.append((state, labels))
        if labels and draws.chance(1, 8):
            marks.append((state, [draws.one_of(labels), draws.one_of(labels)]))
    return draws.mostly(marks, draws.shuffled(marks))


def draw_rewards(draws, states, transitions, full=False):
    """Mostly a reward above 0 in each state; else any, or none for some of the states; of a full model, any in each."""
    places = draws.shuffled(range(1, states + 1))
    if full:
        return [(state, any_reward(draws)) for state in places]
    draw_all = draws.one_of([rewards_above, rewards_above, rewards_above, rewards_as_rates, some_rewards])
    return draw_all(draws, places, transitions)


def rewards_above(draws, places, transitions):
    draw_above = draws.one_of([whole_above, whole_above, decimal_above, small_rate, mixed_above])
    return [(state, draw_above(draws)) for state in places]


def rewards_as_rates(draws, places, transitions):
    """Such that most states are left equally fast for each unit of reward, and none much faster."""
    units = dict.fromkeys(places, 0)
    scale = max((rate.x for *_, rate in transitions), default=0)
    for source, _, rate in transitions:
        units[source] += rate.c * 10 ** (scale - rate.x)
    least = max(1, *units.values()) // draws.between(1, 10) + 1
    factor, decimals = draws.one_of([1, 1, 2, 5]), draws.one_of([0, scale, scale])
    return [(state, decimal_of_units((units[state] or least) * factor + draws.mostly(0, 0, 1), decimals)) for state in places]


def some_rewards(draws, places, transitions):
    return [(state, any_reward(draws)) for state in places if draws.chance(2, 3)]


def any_reward(draws):
    return draws.one_of([whole_rate, decimal_rate, small_rate, no_rate])(draws)


def whole_above(draws):
    return Decimal(draws.between(1, 9), 0)


def decimal_above(draws):
    return decimal_of_units(draws.between(1000, 9999), 3)


def mixed_above(draws):
    return draws.one_of([whole_above, decimal_above, small_rate, large_rate])(draws)


def tra_lines(draws, draft):
    head = [[b"STATES", whole_word(draws, draft.states)], [b"TRANSITIONS", whole_word(draws, len(draft.transitions))]]
    return head + [transition_line(draws, *transition) for transition in draft.transitions]


def transition_line(draws, source, target, rate):
    return [whole_word(draws, source), whole_word(draws, target), spelled(draws, rate)]


def lab_lines(draws, draft):
    declarations, rest = [], list(draft.names)
    while rest:
        count = draws.between(1, len(rest))
        declarations.append(rest[:count])
        rest = rest[count:]
    return [[b"#DECLARATION"], *declarations, [b"#END"], *(mark_line(draws, *mark) for mark in draft.marks)]


def mark_line(draws, state, labels):
    return [whole_word(draws, state), *labels]


def rew_lines(draws, draft):
    return [reward_line(draws, *reward) for reward in draft.rewards]


def reward_line(draws, state, reward):
    return [whole_word(draws, state), spelled(draws, reward)]


LINES_OF = {"tra": tra_lines, "lab": lab_lines, "rew": rew_lines}


def limit_rates(draws, total):
    """Two rates that add up to `total` units of the greatest number of decimals among them; the total ends in no 0."""
    scale = draws.between(1, 18)
    dropped = draws.between(1, scale)
    front, back = divmod(total, 10 ** dropped)
    return decimal_of_units(front, scale - dropped), decimal_of_units(back, scale)


def limit_model(draws, total):
    """A chain in which the rates out of one state add up to `total` units, and the greatest reward at one decimal."""
    states = draws.between(2, 4)
    source = draws.between(1, states)
    targets = draws.some_of(range(1, states + 1), 2)
    transitions = [(source, target, rate) for target, rate in zip(targets, limit_rates(draws, total))]
    names = draw_names(draws, full=True)
    rewards = [(1, Decimal(2 ** 63 // 10, 0)), (2, Decimal(draws.between(1, 9), 1))]
    return Draft(states, draws.shuffled(transitions), names, draw_marks(draws, states, names), draws.shuffled(rewards))


def zero_model(draws, states):
    """A model with a reward of 0 in some states, where a line says so or none does."""
    draft = draw_draft(draws, states)
    zeros = draws.some_of(range(1, states + 1), draws.between(1, states))
    rewards = [(state, no_rate(draws) if state in zeros else whole_above(draws)) for state in range(1, states + 1)]
    draft.rewards = draws.shuffled([reward for reward in rewards if reward[0] not in zeros or draws.chance(1, 2)])
    return draft


# The prime factors of 2^63 - 1.
LIMIT_FACTORS = [7, 7, 73, 127, 337, 92_737, 649_657]


def divisor_model(draws, total):
    """A model in which the greatest reward times the rate out of the deciding state is `total`, 2^63 or one less; another state
    is often left at twice that rate, and as fast for each unit of reward."""
    while True:
        factors = [2] * 63 if total % 2 == 0 else LIMIT_FACTORS
        rate = math.prod(draws.some_of(factors, draws.between(1, len(factors))))
        great = total // rate
        if 10 <= rate < 10 ** 17 and 10 <= great < 10 ** 18:
            break
    states = draws.between(3, 6)
    fast, double, much, *others = draws.shuffled(range(1, states + 1))
    decimals = draws.mostly(0, draws.between(1, 18))
    rates, rewards = {fast: rate}, {fast: 1, double: draws.mostly(2, 4), much: great, **dict.fromkeys(others, great - 1)}
    if draws.chance(5, 6):
        rates[double] = 2 * rate
    transitions = [(source, draws.between(1, states), decimal_of_units(units, decimals)) for source, units in rates.items()]
    names = draw_names(draws, full=True)
    earned = [(state, Decimal(reward, 0)) for state, reward in rewards.items()]
    return Draft(states, draws.shuffled(transitions), names, draw_marks(draws, states, names), draws.shuffled(earned))


def fast_model(draws):
    """A model with so many jumps for each unit of reward that a bound of at most 18 digits can be beyond what a load may be."""
    return model_of_one_rate(draws, Decimal(number_of_digits(draws, 18), 0), Decimal(1, draws.between(4, 18)))


def fine_model(draws):
    """A model with so fine a rate and such a reward that with a fine bound the load is near the finest that there may be."""
    rate = draws.one_of([number_of_digits(draws, draws.between(1, 16)), draws.one_of([1, 3, 7])])
    return model_of_one_rate(draws, decimal_of_units(rate, 18), Decimal(draws.between(80, 90), 0))


def model_of_one_rate(draws, rate, reward):
    """The rate is that of each transition, of which there is at most one out of a state, and the reward that of each state."""
    states = draws.between(2, 4)
    sources = draws.some_of(range(1, states + 1), draws.between(1, states))
    transitions = [(source, source % states + 1, rate) for source in sources]
    names = draw_names(draws, full=True)
    rewards = [(state, reward) for state in range(1, states + 1)]
    return Draft(states, transitions, names, draw_marks(draws, states, names), draws.shuffled(rewards))


def laid_out(draws, lines):
    """The lines as a text: in the plain layout or in any other that stands for the same."""
    if draws.chance(1, 2):
        return b"".join(b" ".join(words) + b"\n" for words in lines)
    endings = draws.one_of([[b"\n"], [b"\r\n"], [b"\n", b"\r\n"]])
    text = b"".join(blank_lines(draws, endings) + spread(draws, words) + draws.one_of(endings) for words in lines)
    text += blank_lines(draws, endings)
    return text.rstrip(b"\r\n") if draws.chance(1, 4) else text


def blank_lines(draws, endings):
    return b"".join(draws.one_of([b"", b" ", b"\t \t"]) + draws.one_of(endings) for _ in range(draws.mostly(0, 1, 2)))


def spread(draws, words):
    """The words with blanks between them, and at times before and after them."""
    gaps = [draws.one_of([b" ", b" ", b"\t", b"  ", b" \t "]) for _ in words[1:]]
    line = b"".join(gap + word for gap, word in zip([b"", *gaps], words))
    return draws.mostly(b"", b" ", b"\t") + line + draws.mostly(b"", b" ", b"\t\t")
