"""Damaged files: for each check of a file the ways to fail it.

A damage takes draws, the draft and the lines of words of one of its files, and answers other lines. What is wrong then, and
at which line, isn't said here: expected.py reads the file. Each kind of damage is a list of ways, which take turns.
"""
from decimals import Decimal
from draw_models import limit_rates, reward_line, transition_line
from draw_numbers import NO_NUMBERS, no_number, too_big, too_fine, too_fine_and_big, whole_word

NO_WHOLE_NUMBERS = [b"-1", b"+1", b"1.0", b"1e0", b"x", b"1x", b"0x1", b"1_0", b"--", b"\xd9\xa3", b"1\x00", b"1\r1"]
NO_NAMES = [
    b"tt", b"ff", b"P", b"S", b"X", b"U", b"quit", b"1", b"9a", b"a-b", b"a.b", b"a,b", b"-", b"!", b"#", b"#END,", b"#DECLARATION",
    b"\xc3\xa9", b"a\xc3\xa9", b"a\x00", b"a\rb", b"(a)",
]


# What the files have in common.

def no_lines(draws, draft, lines):
    """No line, or blank ones alone."""
    return [[]] * draws.mostly(0, 1, 3)


def first_lines(count):
    return lambda draws, draft, lines: lines[:count]


def line_before(line, other):
    """The line and one more before it."""
    return lambda draws, draft, lines: [*lines[:line], other, *lines[line:]]


def another_word(line, word, make):
    """In place of the word stands one that `make` draws. The line is a number, or a function that finds one."""
    def damage(draws, draft, lines):
        changed = list(lines)
        place = line if isinstance(line, int) else line(draws, lines)
        changed[place] = [*lines[place][:word], make(draws, draft), *lines[place][word + 1:]]
        return changed
    return damage


def each_word(line, word, words):
    return [another_word(line, word, lambda draws, draft, other=other: other) for other in words]


def some_word(words):
    return lambda draws, draft: draws.one_of(words)


def drawn_word(draw):
    return lambda draws, draft: draw(draws)


def both(first, second):
    return lambda draws, draft, lines: second(draws, draft, first(draws, draft, lines))


def no_state(draws, draft):
    """0, one more than the number of states, or a number with many digits."""
    return whole_word(draws, draws.one_of([0, draft.states + 1, draft.states + 1, 65_537, 10 ** 40]))


def body_line(first):
    """A line from the first one on."""
    return lambda draws, lines: draws.between(first, len(lines) - 1)


def word_left_out(line):
    def damage(draws, draft, lines):
        place = line(draws, lines)
        return [*lines[:place], draws.one_of([lines[place][:-1], lines[place][1:]]), *lines[place + 1:]]
    return damage


def word_more(line):
    def damage(draws, draft, lines):
        place = line(draws, lines)
        return [*lines[:place], [*lines[place], draws.one_of([b"1", b"0.5", b"#", b"a"])], *lines[place + 1:]]
    return damage


def with_line(draws, lines, line, first):
    """The line stands somewhere from the first place on."""
    place = draws.between(first, len(lines))
    return [*lines[:place], line, *lines[place:]]


# The file of the chain: two lines of a head, then the transitions.

def other_heads(line, keyword):
    """The head's line with a word missing, wrong or too many."""
    forms = [lambda count: [keyword], lambda count: [count], lambda count: [keyword, count, b"1"], lambda count: [count, keyword],
             lambda count: [keyword.lower(), count], lambda count: [keyword[:-1], count], lambda count: [keyword + b":", count],
             lambda count: [keyword + count]]
    return [lambda draws, draft, lines, form=form: [*lines[:line], form(lines[line][1]), *lines[line + 1:]] for form in forms]


def transition_left_out(draws, draft, lines):
    place = draws.between(2, len(lines) - 1)
    return lines[:place] + lines[place + 1:]


def transition_more(draws, draft, lines):
    """A line past those that the head counts, whatever it holds."""
    return lines + [draws.one_of([[b"1", b"1", b"1"], [b"x"], [b"0", b"0", b"-"], lines[-1]])]


def pair_again(first_rate, again_rate):
    """One pair of states stands twice, at these rates."""
    def damage(draws, draft, lines):
        place = draws.below(len(draft.transitions))
        source, target, rate = draft.transitions[place]
        first, again = (transition_line(draws, source, target, draws.one_of([rate, Decimal(7, 0)]) if other is None else other)
                        for other in (first_rate, again_rate))
        head = [lines[0], [lines[1][0], b"%d" % (len(lines) - 1)]]
        return with_line(draws, [*head, *lines[2:2 + place], first, *lines[3 + place:]], again, 3 + place)
    return damage


def rates_too_great(draws, draft, lines):
    """The rates out of a state add up to 2^63 or a little more; which line is the one too many depends on their order."""
    total = draws.mostly(2 ** 63, 2 ** 63 + 1, 2 ** 63 + 10 ** 17 + 3)
    source = draws.between(1, draft.states)
    # Few enough, and without decimals, which would change what a unit is.
    others = [transition_line(draws, *pair, Decimal(draws.below(2), 0)) for *pair, _ in draft.transitions[:9] if pair[0] != source]
    targets = draws.some_of(range(1, draft.states + 1), 2)
    great = [transition_line(draws, source, target, rate) for target, rate in zip(targets, limit_rates(draws, total))]
    body = draws.shuffled(great + others)
    return [lines[0], [lines[1][0], b"%d" % len(body)], *body]


TRANSITION = body_line(2)
TRA_DAMAGES = {
    "no lines": [no_lines],
    "STATES line": other_heads(0, b"STATES") + each_word(0, 1, NO_WHOLE_NUMBERS),
    "number of states": each_word(0, 1, [b"0", b"000", b"65537", b"065537", b"9" * 40]),
    "no TRANSITIONS line": [first_lines(1)],
    "TRANSITIONS line": other_heads(1, b"TRANSITIONS") + [another_word(1, 1, some_word(NO_WHOLE_NUMBERS))],
    "number of transitions": each_word(1, 1, [b"1000001", b"01000001", b"9" * 40]),
    "no transitions": [first_lines(2)],
    "a million transitions missing": each_word(1, 1, [b"1000000"]),
    "a transition left out": [transition_left_out],
    "a transition more": [transition_more] * 2,
    "a word left out": [word_left_out(TRANSITION)],
    "a word more": [word_more(TRANSITION)],
    "source no number": each_word(TRANSITION, 0, NO_WHOLE_NUMBERS),
    "target no number": [another_word(TRANSITION, 1, some_word(NO_WHOLE_NUMBERS))],
    "source no state": [another_word(TRANSITION, 0, no_state)],
    "target no state": [another_word(TRANSITION, 1, no_state)],
    "rate no number": each_word(TRANSITION, 2, NO_NUMBERS),
    "rate too fine": [another_word(TRANSITION, 2, drawn_word(draw)) for draw in (too_fine, too_fine, too_fine_and_big)],
    "rate too big": [another_word(TRANSITION, 2, drawn_word(too_big))] * 3,
    "a pair again": [pair_again(None, None), pair_again(Decimal(0, 0), None), pair_again(None, Decimal(0, 0))],
    "rates too great": [rates_too_great] * 3,
    "rates too great, and another fault": [both(rates_too_great, other) for other in (transition_more, *each_word(-1, 2, [b"-1"]))],
}


# The file of the labels: declarations between two lines, then lines of a state and its labels.

OPENING, CLOSING = [b"#DECLARATION"], [b"#END"]


def closing_place(lines):
    return lines.index(CLOSING)


def mark(draws, lines):
    return draws.between(closing_place(lines) + 1, len(lines) - 1)


def other_line(find, others):
    """In place of the line that `find` finds stand these lines."""
    def damage(draws, draft, lines):
        place = find(lines)
        return [*lines[:place], *others, *lines[place + 1:]]
    return damage


def cut_at_closing(draws, draft, lines):
    return lines[:closing_place(lines)]


def declared(draws, lines, word):
    """The word is declared too: on a line of its own, or before or after the names of a line."""
    place = draws.between(1, closing_place(lines))
    if place == closing_place(lines) or draws.chance(1, 2):
        return [*lines[:place], [word], *lines[place:]]
    words = lines[place]
    return [*lines[:place], draws.one_of([[word, *words], [*words, word]]), *lines[place + 1:]]


def also_declared(word):
    return lambda draws, draft, lines: declared(draws, lines, word)


def name_again(draws, draft, lines):
    return declared(draws, lines, draws.one_of(draft.names))


def names_up_to(count):
    """More names are declared, on one line or on many, until there are so many."""
    def damage(draws, draft, lines):
        more = [b"more%d" % number for number in range(count - len(draft.names))]
        place = closing_place(lines)
        return [*lines[:place], *draws.one_of([[more], [[name] for name in more]]), *lines[place:]]
    return damage


def last_name_again(draws, draft, lines):
    """A 65th name that was declared before: that is told first."""
    lines = names_up_to(64)(draws, draft, lines)
    place = closing_place(lines)
    return [*lines[:place], [draws.one_of(draft.names)], *lines[place:]]


def undeclared(word):
    """Another word, in any place among a state's labels."""
    def damage(draws, draft, lines):
        line = mark(draws, lines)
        place = draws.between(1, len(lines[line]))
        return [*lines[:line], [*lines[line][:place], word, *lines[line][place:]], *lines[line + 1:]]
    return damage


def closing_again(draws, draft, lines):
    return with_line(draws, lines, CLOSING, closing_place(lines) + 1)


OTHER_OPENINGS = [[b"DECLARATION"], [b"#declaration"], [b"#DECLARATIONS"], [b"#", b"DECLARATION"], [b"#DECLARATION", b"a"], [b"#END"]]
OTHER_CLOSINGS = [[b"#END", b"#END"], [b"#END", b"a"], [b"#end"], [b"END"], [b"#", b"END"]]
LAB_DAMAGES = {
    "no lines": [no_lines],
    "opening line": [other_line(lambda lines: 0, [line]) for line in OTHER_OPENINGS] + [other_line(lambda lines: 0, [])],
    "opening line again": [line_before(1, OPENING)],
    "closing line": [other_line(closing_place, [line]) for line in OTHER_CLOSINGS] + [other_line(closing_place, [])],
    "cut before the closing line": [first_lines(1), cut_at_closing, cut_at_closing],
    "no name": [also_declared(word) for word in NO_NAMES],
    "a name again": [name_again] * 2,
    "65 names": [names_up_to(65)],
    "70 names": [names_up_to(70)],
    "a 65th name again": [last_name_again],
    "state no number": [another_word(mark, 0, some_word(NO_WHOLE_NUMBERS + [b"a"]))] * 2,
    "closing line again": [closing_again],
    "no state": [another_word(mark, 0, no_state)] * 2,
    "label not declared": [undeclared(word) for word in (b"undeclared", b"tt", b"1", b"-")],
}


# The file of the rewards: lines of a state and its reward.

def state_again(draws, draft, lines):
    return with_line(draws, lines, reward_line(draws, draws.one_of(draft.rewards)[0], Decimal(draws.below(3), 0)), 0)


def reward_too_great(reward):
    """A reward that is too great only by the decimals of another one."""
    def damage(draws, draft, lines):
        great, fine = draws.some_of(range(1, draft.states + 1), 2)
        others = [line for line, (state, _) in zip(lines, draft.rewards) if state not in (great, fine)]
        decimals = draws.mostly(1, draws.between(2, 18))
        return draws.shuffled([reward_line(draws, great, reward), reward_line(draws, fine, Decimal(1, decimals)), *others])
    return damage


REWARD = body_line(0)
# The least whole number that reaches 2^63 where there is one decimal.
LEAST_GREAT = Decimal(2 ** 63 // 10 + 1, 0)
REW_DAMAGES = {
    "a word left out": [word_left_out(REWARD)],
    "a word more": [word_more(REWARD)],
    "state no number": [another_word(REWARD, 0, some_word(NO_WHOLE_NUMBERS))] * 2,
    "no state": [another_word(REWARD, 0, no_state)] * 2,
    "reward no number": [another_word(REWARD, 1, drawn_word(no_number))] * 2,
    "reward too fine": [another_word(REWARD, 1, drawn_word(draw)) for draw in (too_fine, too_fine_and_big)],
    "reward too big": [another_word(REWARD, 1, drawn_word(too_big))] * 2,
    "a state again": [state_again] * 2,
    "reward too great": [reward_too_great(LEAST_GREAT), reward_too_great(Decimal(10 ** 18 - 1, 0))],
    "reward too great, and another fault": [both(reward_too_great(LEAST_GREAT), other) for other in each_word(-1, 1, [b"-1"])],
}

DAMAGES = {"tra": TRA_DAMAGES, "lab": LAB_DAMAGES, "rew": REW_DAMAGES}


def two_damages(file):
    """Any two kinds of damage, one after the other."""
    def damage(draws, draft, lines):
        first, second = (draws.one_of(draws.one_of(list(DAMAGES[file].values()))) for _ in range(2))
        damaged = first(draws, draft, lines)
        try:
            return second(draws, draft, damaged)
        except (IndexError, ValueError):
            # The line that the second one changes is gone.
            return damaged
    return damage
