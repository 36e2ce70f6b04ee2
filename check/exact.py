"""The exact level: probabilities of chains as fractions, with no rounding."""
import collections
import math
from fractions import Fraction


def exit_rate(row):
    """The rate at which the row's state is left, a loop of its own among it."""
    return sum(rate for _, rate in row)


def greatest_exit_rate(chain):
    return max(map(exit_rate, chain.rows))


def rate_into(row, goal):
    """The rate at which the row's state moves to a state of the goal."""
    return sum(rate for target, rate in row if target in goal)


def next_probability(row, goal):
    """The probability that the next state is in the goal: 0 where no state is next."""
    return Fraction(rate_into(row, goal), max(1, exit_rate(row)))


def dual(chain, rewards, upper):
    """The chain whose clock is what is earned, and the number of jumps that are expected in it up to this bound: 0 where all
    rates are 0.

    It moves from s to t at the rate r(s,t) / reward(s), by the duality of Baier, Haverkort, Hermanns, Katoen: On the logical
    characterisation of performability properties (ICALP 2000). The rates are whole numbers here, of one common unit.
    """
    common = math.lcm(*rewards.amounts)
    rows = [[(target, rate * (common // amount)) for target, rate in row] for row, amount in zip(chain.rows, rewards.amounts)]
    moved = chain._replace(rows=rows)
    unit = Fraction(10 ** rewards.scale, 10 ** chain.scale * common)
    return moved, greatest_exit_rate(moved) * unit * upper.fraction()


def uniformised(chain):
    """Each state's weights, and their common sum: a jump leads from s to t with the probability weight / sum."""
    total = max(1, greatest_exit_rate(chain))
    weights = []
    for state, row in enumerate(chain.rows):
        weight = dict(row)
        weight[state] = weight.get(state, 0) + total - exit_rate(row)
        weights.append([(target, share) for target, share in weight.items() if share > 0])
    return weights, total


def jump_values(weights, total, live, goal, start):
    """For 0, 1, 2, .. jumps: each state's probability of reaching the goal within them by live states, or else of being in a
    state of the start after them without having left the live ones; in units of total^-jumps. Where the start is the goal it
    is the probability of reaching it."""
    values = [int(state in start) for state in range(len(weights))]
    power = 1
    while True:
        yield values
        earlier, power = values, power * total
        values = [power * (state in goal) for state in range(len(weights))]
        for state in live - goal:
            values[state] = sum(share * earlier[target] for target, share in weights[state])


def reached_within(chain, live, goal, start, counts):
    """For each of the ascending counts: each state's jump value from this start, as a fraction."""
    weights, total = uniformised(chain)
    found = {}
    for jumps, values in zip(range(counts[-1] + 1), jump_values(weights, total, live, goal, start)):
        if jumps in counts:
            found[jumps] = [Fraction(value, total ** jumps) for value in values]
    return found


def reaching(chain, live, goal):
    """The states of the goal, and those from which transitions lead to it by live states alone."""
    sources = collections.defaultdict(list)
    for state in live - goal:
        for target, _ in chain.rows[state]:
            sources[target].append(state)
    reached, waiting = set(goal), list(goal)
    while waiting:
        for state in sources[waiting.pop()]:
            if state not in reached:
                reached.add(state)
                waiting.append(state)
    return reached


def reached_at_all(chain, live, goal):
    """Each state's probability of reaching the goal by live states, at whatever time: the solution of the equations that say
    that it is the mean of the next states' ones."""
    moving = sorted(reaching(chain, live, goal) - goal)
    equations = [equation_of(chain.rows[state], state, moving, goal) for state in moving]
    for place in range(len(moving)):
        # This is never 0, since from each moving state a way leads to the goal.
        pivot = equations[place][place]
        equations[place] = [number / pivot for number in equations[place]]
        for other in range(len(moving)):
            if other != place:
                factor = equations[other][place]
                equations[other] = [number - factor * part for number, part in zip(equations[other], equations[place])]
    solved = {state: equation[-1] for state, equation in zip(moving, equations)}
    return [solved.get(state, Fraction(state in goal)) for state in range(chain.states)]


def equation_of(row, state, moving, goal):
    """The factors of the moving states' probabilities, and at the end the sum that they come to."""
    rates = dict(row)
    factors = [Fraction((other == state) * exit_rate(row) - rates.get(other, 0)) for other in moving]
    return factors + [Fraction(rate_into(row, goal))]


def until_averages(chain, live, goal, load, counts):
    """For each of the ascending counts n: each state's Poisson average over 0 to n jumps, and how little is missing.

    The average and the average plus what is missing enclose the probability of reaching the goal by live states.
    """
    weights, total = uniformised(chain)
    # With w_k = load^k / k! scaled by den^n n!, the weighted sum and the sum of weights are whole numbers at each n.
    weight, weight_sum, sums = 1, 1, [0] * chain.states
    found, last = {}, counts[-1]
    for jumps, values in zip(range(last + 1), jump_values(weights, total, live, goal, goal)):
        if jumps > 0:
            growth = load.denominator * jumps
            weight *= load.numerator
            weight_sum = weight_sum * growth + weight
            sums = [number * growth * total for number in sums]
        sums = [number + weight * value for number, value in zip(sums, values)]
        if jumps in counts:
            divisor = weight_sum * total ** jumps
            missing = Fraction(weight, weight_sum) * later_weights(load, jumps)
            found[jumps] = [Fraction(number, divisor) for number in sums], missing
    return found


def later_weights(load, jumps):
    """At least the weights of all later numbers of jumps, over that of this one; it must be beyond the load."""
    # The first one later is load / (jumps + 1) times this one, and each that follows is less than load / (jumps + 2) times
    # the one before it: a geometric series.
    return load / (jumps + 1) / (1 - load / (jumps + 2))
