"""The three files of a model: what their bytes stand for, or their first fault and its line."""
import re
from typing import NamedTuple

from decimals import Decimal, NumberFault, read_decimal

FILE_LIMIT = 64 * 2 ** 20
MOST_STATES = 65_536
MOST_TRANSITIONS = 1_000_000
MOST_LABELS = 64
SUM_LIMIT = 2 ** 63

WORD = re.compile(rb"[^ \t]+")
NAME = re.compile(rb"[A-Za-z_][A-Za-z0-9_]*")
RESERVED = {b"tt", b"ff", b"P", b"S", b"X", b"U", b"quit"}

# All limits have far fewer digits, so the first ones of a longer number show that it is past them.
WHOLE_NUMBER_DIGITS = 30


class FileFault(Exception):
    """The first check that fails: its line, and what is wrong as it is told."""

    def __init__(self, line, what):
        super().__init__(line, what)
        self.line, self.what = line, what


class Chain(NamedTuple):
    """States from 0; row s lists the targets and rates out of s, in units of 10^-scale, without rates of 0."""
    states: int
    scale: int
    rows: tuple


class Rewards(NamedTuple):
    """What is earned in each state, from 0, for one of time, in units of 10^-scale."""
    scale: int
    amounts: tuple


class Labels(NamedTuple):
    """The declared names in their order, and for each name the states that have it."""
    names: tuple
    marked: dict


class Transition(NamedTuple):
    line: int
    source: int
    target: int
    rate: Decimal


class Rows:
    """The lines of a text that aren't blank, taken one after another, each by its words."""

    def __init__(self, text):
        lines = lines_of(text)
        self.end = len(lines) + 1
        numbered = ((number, words_of(line)) for number, line in enumerate(lines, 1))
        self._filled = iter([(number, words) for number, words in numbered if words])

    def take(self):
        """The next line's number and words; at the end of the text the end line, and no words."""
        return next(self._filled, (self.end, None))

    def rest(self):
        return list(self._filled)


def lines_of(text):
    *ended, last = text.split(b"\n")
    # A CR belongs to the end of a line only where LF follows it, so the last line keeps its own.
    lines = [line[:-1] if line.endswith(b"\r") else line for line in ended]
    return lines + [last] if last else lines


def words_of(line):
    # A file may end in millions of blanks, which are stripped far faster than they are searched.
    return WORD.findall(line.strip(b" \t"))


def whole_number(word):
    """The number that the word writes in digits, or None."""
    return int(word.lstrip(b"0")[:WHOLE_NUMBER_DIGITS] or b"0") if word.isdigit() else None


def is_name(word):
    return NAME.fullmatch(word) is not None and word not in RESERVED


def check_size(text):
    if len(text) > FILE_LIMIT:
        raise FileFault(0, "TooBig")


def read_number(line, word):
    try:
        return read_decimal(word)
    except NumberFault as fault:
        raise FileFault(line, f"Number {fault}") from None


def greatest_scale(numbers):
    return max((number.x for number in numbers), default=0)


def at_scale(number, scale):
    return number.c * 10 ** (scale - number.x)


def read_tra(text):
    check_size(text)
    rows = Rows(text)
    states = read_count(rows, b"STATES", range(1, MOST_STATES + 1), "StatesRange")
    count = read_count(rows, b"TRANSITIONS", range(MOST_TRANSITIONS + 1), "TransitionsRange")
    transitions, pairs = [], set()
    for _ in range(count):
        transition = read_transition(*rows.take(), states)
        pair = transition.source, transition.target
        if pair in pairs:
            raise FileFault(transition.line, "Repeated")
        pairs.add(pair)
        transitions.append(transition)
    further, words = rows.take()
    if words is not None:
        raise FileFault(further, "Count")
    return chain_of(states, transitions)


def read_count(rows, keyword, allowed, out_of_range):
    line, words = rows.take()
    if words is None or len(words) != 2 or words[0] != keyword or whole_number(words[1]) is None:
        raise FileFault(line, "Header")
    count = whole_number(words[1])
    if count not in allowed:
        raise FileFault(line, out_of_range)
    return count


def read_transition(line, words, states):
    if words is None:
        raise FileFault(line, "Count")
    if len(words) != 3 or None in (whole_number(words[0]), whole_number(words[1])):
        raise FileFault(line, "Word")
    source, target = whole_number(words[0]), whole_number(words[1])
    if not (1 <= source <= states and 1 <= target <= states):
        raise FileFault(line, "StateRange")
    return Transition(line, source - 1, target - 1, read_number(line, words[2]))


def chain_of(states, transitions):
    """The chain at the scale of all rates, which is known only now that all lines are right."""
    scale = greatest_scale(transition.rate for transition in transitions)
    rows, sums = [[] for _ in range(states)], [0] * states
    for line, source, target, number in transitions:
        rate = at_scale(number, scale)
        sums[source] += rate
        if sums[source] >= SUM_LIMIT:
            raise FileFault(line, "RateRange")
        if rate > 0:
            rows[source].append((target, rate))
    return Chain(states, scale, tuple(map(tuple, rows)))


def read_lab(text, states):
    check_size(text)
    rows = Rows(text)
    line, words = rows.take()
    if words != [b"#DECLARATION"]:
        raise FileFault(line, "Header")
    names = read_declarations(rows)
    marked = {name: set() for name in names}
    for line, words in rows.rest():
        state, labels = read_label_line(line, words, states, marked)
        for label in labels:
            marked[label].add(state)
    return Labels(tuple(names), marked)


def read_declarations(rows):
    names = []
    while True:
        line, words = rows.take()
        if words is None:
            raise FileFault(line, "Header")
        if words == [b"#END"]:
            return names
        for word in words:
            check_declared(line, word, names)
            names.append(word)


def check_declared(line, word, names):
    if not is_name(word):
        raise FileFault(line, "Name")
    if word in names:
        raise FileFault(line, "RepeatedName")
    if len(names) == MOST_LABELS:
        raise FileFault(line, "LabelsRange")


def read_label_line(line, words, states, declared):
    state = whole_number(words[0])
    if state is None:
        raise FileFault(line, "Word")
    if not 1 <= state <= states:
        raise FileFault(line, "StateRange")
    if any(label not in declared for label in words[1:]):
        raise FileFault(line, "Undeclared")
    return state - 1, words[1:]


def read_rew(text, states):
    """The rewards in units of the greatest number of decimals; a state without a line has reward 0."""
    check_size(text)
    rewards = {}
    for line, words in Rows(text).rest():
        state, reward = read_reward_line(line, words, states)
        if state in rewards:
            raise FileFault(line, "Repeated")
        rewards[state] = line, reward
    scale = greatest_scale(reward for _, reward in rewards.values())
    for line, reward in rewards.values():
        if at_scale(reward, scale) >= SUM_LIMIT:
            raise FileFault(line, "RewardScale")
    return Rewards(scale, tuple(at_scale(rewards[state][1], scale) if state in rewards else 0 for state in range(states)))


def read_reward_line(line, words, states):
    if len(words) != 2 or whole_number(words[0]) is None:
        raise FileFault(line, "Word")
    state = whole_number(words[0])
    if not 1 <= state <= states:
        raise FileFault(line, "StateRange")
    return state - 1, read_number(line, words[1])
