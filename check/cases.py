"""The cases: a function for each kind of drawing, and the order in which the kinds take turns."""
from fractions import Fraction
from typing import NamedTuple, Optional

from changed_text import changed_bytes, odd_end_of_line, odd_end_of_text
from command import RANGES, Options, options_of
from damage import DAMAGES, two_damages
from decimals import Decimal, decimal_of_units
from draw_formulas import (EVERYWHERE, draw_live, draw_unbounded, draw_within, has_barred_way, has_choice, has_way, over_of,
                           spelled_formula, unsettled_states, until_of)
from draw_inputs import (OTHER_INPUTS, deepest_line, earning_line, many_lines, nested_operators_line, next_line, one_line, plain_line,
                         reward_line, unbounded_line, until_line)
from draw_lines import COMPARISONS
from draw_models import (LINES_OF, Draft, divisor_model, draw_draft, draw_marks, draw_names, fast_model, fine_model, laid_out,
                         limit_model, zero_model)
from draw_nested import draw_joined, draw_limited, draw_nested
from draw_words import (FILE_NAMES, NO_COMMANDS, NO_FILE_NAMES, NO_OPTIONS, OPTION_WRONGS, WORDS, draw_jumps, draw_options,
                        draw_workers, ends_of_range, words_of_command)
from draws import Draws
from language import Formula
from model_files import FILE_LIMIT, MOST_STATES, Chain, FileFault, Labels, Rewards, read_lab, read_rew, read_tra
from plans import DIVISOR_LIMIT, LOAD_LIMITS, MOST_JUMPS, MOST_WORDS, has_plan, jump_rate

TWO_FILES, THREE_FILES = ("tra", "lab"), ("tra", "lab", "rew")
ODD_NAMES = [b"-", b"M", b"two words", b"mod\xc3\xa8le", b"a-b", b"./N.tra", b"\xe2\x9c\x93", b"$M", b"~", b"*", b"ctmc", b"a\nb", b"a=b"]
# Names that only stand behind a `--`.
DASHED_NAMES = [b"--", b"-M.tra", b"--bits", b"--bits=9", b"--help", b"-h", b"---"]


class Case(NamedTuple):
    """A run of the program: the words after its name, the files that stand in its folder, and its input.

    Where there is None in place of a file's bytes, or of the input's, a folder stands there, from which nothing can be read.
    """
    words: list
    files: dict
    formula_input: Optional[bytes]
    output_fails: bool = False


class Model(NamedTuple):
    """A sound model: its files' texts, and what they stand for."""
    texts: dict
    chain: Chain
    labels: Labels
    rewards: Rewards


def spell_model(draws, draft):
    texts = {file: laid_out(draws, lines(draws, draft)) for file, lines in LINES_OF.items()}
    chain = read_tra(texts["tra"])
    return Model(texts, chain, read_lab(texts["lab"], chain.states), read_rew(texts["rew"], chain.states))


def draw_model(draws, states, make_draft=draw_draft):
    """A model of so many states; one in which rates that are right alone add up to too much, or a reward is too great beside the
    decimals of others, is drawn anew."""
    while True:
        try:
            return spell_model(draws, make_draft(draws, states))
        except FileFault:
            continue


def plain_case(draws, texts, formula_input, files=None, odd_names=tuple(ODD_NAMES)):
    """The command over these files, or mostly over three of them, else over two, under names of any kind, without options."""
    files = files or draws.mostly(THREE_FILES, TWO_FILES)
    names = [b"M." + file.encode() for file in files] if draws.chance(7, 8) else draws.some_of(odd_names, len(files))
    words = [b"ctmc" if files == TWO_FILES else b"cmrm", *names]
    return Case(words, {name: texts[file] for name, file in zip(names, files)}, formula_input)


def with_options(draws, case, given):
    return case._replace(words=words_of_command(draws, case.words, given))


def case_of(draws, model, draw_input, files=None, given=None):
    """The command with any options over the model, or with these, and an input that is drawn for it."""
    given = draw_options(draws, model.chain.states) if given is None else given
    case = plain_case(draws, model.texts, draw_input(draws, model, options_of(given)), files, ODD_NAMES + DASHED_NAMES)
    return with_options(draws, case, given)


# Answers.

def draw_model_with(draws, states, is_wanted):
    """Mostly a model that is as wanted; such are rare, and the others are seldom worth a question."""
    model = draw_model(draws, states)
    while states > 1 and draws.chance(15, 16) and not is_wanted(model):
        model = draw_model(draws, states)
    return model


def plain_formulas(draws):
    return case_of(draws, draw_model(draws, draws.between(1, 8)), many_lines([plain_line], 6))


def next_case(draws):
    model = draw_model_with(draws, draws.mostly(draws.between(2, 6), 1, 20), has_choice)
    return case_of(draws, model, one_line(next_line))


def until_case(draws, states, draw_formula, given=None, earns=False):
    """The watched state is mostly one whose bracket is narrowed by jumps; that of the others is known before. Where the formula
    `earns`, mostly the rewards are such that they may be bounded."""
    leads = draws.mostly(has_barred_way, has_way)
    model = draw_model_with(draws, states, lambda model: leads(model) and (not earns or may_bound_reward(model)))
    given = draw_options(draws, states) if given is None else given
    formula = draw_formula(draws, model, options_of(given))
    unsettled = unsettled_states(model, formula, options_of(given))
    if b"--state" in given and unsettled:
        given = {**given, b"--state": draws.mostly(draws.one_of(unsettled), given[b"--state"])}
    files = THREE_FILES if earns else None
    return case_of(draws, model, one_line(lambda draws, model, options: spelled_formula(draws, formula)), files, given)


def may_bound_reward(model):
    return has_plan(("reward", Decimal(0, 0)), over_of(model, Options()))


def small_until(kind):
    def case(draws):
        states = draws.mostly(draws.between(3, 8), 1, 2)
        return until_case(draws, states, draw_within(draws.mostly(4, 1, 30), kind), earns=kind == "reward")
    return case


def wide_until(kind):
    return lambda draws: until_case(draws, draws.between(7, 40), draw_within(20, kind), earns=kind == "reward")


def long_until(kind):
    def case(draws):
        return until_case(draws, draws.between(1, 3), draw_within(draws.between(100, 1000), kind), earns=kind == "reward")
    return case


def unbounded_case(draws, states):
    """With the number of jumps given in half of the draws and more."""
    given = draw_options(draws, states)
    return until_case(draws, states, draw_unbounded, draws.one_of([given, {**given, b"--jumps": draw_jumps(draws, states)}]))


def small_unbounded_until(draws):
    return unbounded_case(draws, draws.mostly(draws.between(3, 8), 1, 2))


def wide_unbounded_until(draws):
    return unbounded_case(draws, draws.between(7, 40))


def most_jumps(draws):
    """An until without a bound that is looked at up to the greatest number of jumps."""
    states = draws.between(1, 4)
    return until_case(draws, states, draw_unbounded, {**draw_options(draws, states), b"--jumps": MOST_JUMPS})


def raced_until(draw_states, *draw_formulas):
    """An until over several blocks of 64 states, so that more than one worker has something to do; often with many watch lines."""
    def case(draws):
        states = draw_states(draws)
        given = {**draw_options(draws, states), b"--workers": draw_workers(draws), b"--watch": draws.one_of([0, 3, 100, 1000])}
        draw_formula = draws.one_of(draw_formulas or [draw_within(40), draw_within(40, "reward"), draw_unbounded])
        return until_case(draws, states, draw_formula, {**given, b"--state": draws.between(1, states)}, earns=True)
    return case


def few_blocks(draws):
    return draws.one_of([64, 65, 128, 129, draws.between(130, 260)])


def many_blocks(draws):
    return draws.between(1000, 2000)


# Operators in one another.

def nested_case(draw_formula, draw_states):
    """Often with watch lines, which an operator inside another one has none of."""
    def case(draws):
        states = draw_states(draws)
        given = draw_options(draws, states)
        watched = {b"--watch": draws.between(1, 4), b"--state": draws.between(1, states)}
        return until_case(draws, states, draw_formula, draws.one_of([given, {**given, **watched}]))
    return case


def few_states(draws):
    return draws.mostly(draws.between(3, 6), 1, 2, 8)


def more_states(draws):
    return draws.between(7, 40)


def nested_over_blocks(draws):
    """Over several blocks, by workers and with watch lines."""
    return raced_until(few_blocks, draw_nested(2))(draws)


def refused_operator(draws):
    """Some of the untils in a formula are too long or too large: the first of them is told."""
    states = draws.one_of([2, 600, 3000])

    def line(draws, model, options):
        return spelled_formula(draws, draw_limited(draws, model.labels.names, 4))
    return large_case(draws, states, line, MOST_JUMPS)


def deepest_case(draws):
    """A formula as deep as one can be, mostly with a name of one letter."""
    model = draw_model_with(draws, draws.between(2, 4), has_short_name)
    return case_of(draws, model, one_line(deepest_line), given={})


def has_short_name(model):
    return any(len(name) == 1 for name in model.labels.names)


def some_line(draws, model, options):
    return draws.one_of([next_line, until_line, reward_line, unbounded_line, nested_operators_line])(draws, model, options)


def greatest_sums(draws):
    """The rates out of a state add up to one unit less than 2^63."""
    return case_of(draws, spell_model(draws, limit_model(draws, 2 ** 63 - 1)), one_line(some_line))


# Rewards that are 0, or missing.

def reward_is_missing(draws):
    return case_of(draws, draw_model(draws, draws.between(1, 6)), one_line(earning_line), TWO_FILES)


def reward_is_zero(draws):
    """The first state with a reward of 0 is told, whatever stands behind it."""
    model = draw_model(draws, draws.between(1, 8), zero_model)
    return case_of(draws, model, one_line(draws.mostly(earning_line, reward_line)), THREE_FILES)


# The limits of rewards and of bounds on them, reached exactly and passed by the least bit.

def divisor_at_limit(total):
    """The greatest reward times the rate of the deciding state is so much, or, where it matters which of two that are left equally
    fast is the first, mostly twice or half as much."""
    def case(draws):
        return case_of(draws, spell_model(draws, divisor_model(draws, total)), one_line(reward_line), THREE_FILES)
    return case


def greatest_load(beyond):
    """The number of jumps that are expected is the greatest that can be told from others, which is too long, or is beyond it."""
    def case(draws):
        model = spell_model(draws, fast_model(draws))
        rate = jump_rate(model.chain, model.rewards)
        return bound_case(draws, model, Decimal(int((LOAD_LIMITS[0] - 1) // rate) + beyond, 0))
    return case


def finest_load(beyond):
    """The number of jumps that are expected has nearly the finest divisor, or one that is beyond it."""
    def case(draws):
        while True:
            model = spell_model(draws, fine_model(draws))
            upper = Decimal(draws.between(10 ** 16, 10 ** 17 - 1) * 10 + draws.one_of([1, 3, 7, 9]), 18)
            load = jump_rate(model.chain, model.rewards) * upper.fraction()
            if (load.denominator >= LOAD_LIMITS[1]) == beyond:
                return bound_case(draws, model, upper)
    return case


def bound_case(draws, model, upper):
    def draw_line(draws, model, options):
        return line_at_limit(draws, model, ("reward", upper))
    return case_of(draws, model, one_line(draw_line), THREE_FILES)


# The limits of an until, reached exactly and passed by the least bit of the bound.

def chain_at_rate(draws, states, rate, reward=None):
    """One or two transitions, each of which is the only way out of its state and has this rate. Where there is a reward it is
    that of all states but such as are left less fast for it."""
    first, second, third = draws.some_of(range(1, states + 1), 3) if states > 2 else (1, states, 1)
    transitions = [(first, second, rate)] + ([(second, third, rate)] if first != second else [])
    names = draw_names(draws, full=True)
    marks = draw_marks(draws, min(states, 8), names) + [(third, names[:1])]
    rewards = {} if reward is None else {state: reward for state in range(1, states + 1)}
    if rewards and draws.chance(1, 2):
        rewards[second] = Decimal(7, 0)
    return spell_model(draws, Draft(states, transitions, names, marks, draws.shuffled(rewards.items())))


# A half of a whole number, divided by one of these rates, has at most three decimals.
RATES = [Decimal(1, 0), Decimal(2, 0), Decimal(5, 0), Decimal(5, 1), Decimal(1, 1), Decimal(1, 3)]
# And that times one of these rewards at most five.
REWARDS = [Decimal(1, 0), Decimal(3, 0), Decimal(5, 1), Decimal(25, 2)]


def until_at_horizon(draws, states, last, beyond):
    """An until within a time or a reward whose horizon is `last`, or one more."""
    rate, reward, kind = draws.one_of(RATES), draws.one_of(REWARDS), draws.one_of(["time", "reward"])

    def draw_line(draws, model, options):
        decimals = draws.between(5, 10)
        amount = reward.fraction() if kind == "reward" else 1
        units = int(Fraction(last - options.bits, 2) / rate.fraction() * amount * 10 ** decimals) + (1 if beyond else 0)
        return line_at_limit(draws, model, (kind, decimal_of_units(units, decimals)))
    given = {**draw_options(draws, states), **draws.one_of([{}, {b"--bits": draws.one_of(RANGES[b"--bits"])}])}
    model = chain_at_rate(draws, states, rate, reward if kind == "reward" else None)
    return case_of(draws, model, one_line(draw_line), THREE_FILES if kind == "reward" else None, given)


def line_at_limit(draws, model, bound):
    names = model.labels.names
    live, goal = draws.mostly(EVERYWHERE, draw_live(draws, names)), Formula("label", (draws.one_of(names),))
    return spelled_formula(draws, until_of(draws.one_of(COMPARISONS), Decimal(draws.below(2), 0), live, bound, goal))


def longest_until(draws):
    return until_at_horizon(draws, draws.between(1, 3), MOST_JUMPS, beyond=False)


def too_long_until(draws):
    """Too many jumps are told before too many words."""
    return until_at_horizon(draws, draws.one_of([1, 2, 3, 512, 2000]), MOST_JUMPS, beyond=True)


def until_of_most_words(most_states=False, beyond=False):
    """Words to their limit, with so many states that the number of jumps isn't at its own before."""
    def case(draws):
        states = MOST_STATES if most_states else draws.mostly(draws.between(512, 3000), 512)
        return until_at_horizon(draws, states, MOST_WORDS // states - 1, beyond)
    return case


def large_case(draws, states, line, jumps):
    """Over so many states, with so many jumps, or with this option not given where it is None."""
    given = {name: value for name, value in draw_options(draws, states).items() if name != b"--jumps"}
    given.update({} if jumps is None else {b"--jumps": jumps})
    return case_of(draws, chain_at_rate(draws, states, draws.one_of(RATES)), one_line(line), given=given)


def unbounded_line_at_limit(draws, model, options):
    return line_at_limit(draws, model, None)


def unbounded_until_of_most_words(most_states=False, beyond=False):
    """The same for an until without a bound, where the number of jumps is the option's."""
    def case(draws):
        states = MOST_STATES if most_states else draws.one_of([MOST_WORDS // MOST_JUMPS, draws.between(513, 3000)])
        return large_case(draws, states, unbounded_line_at_limit, MOST_WORDS // states - 1 + beyond)
    return case


def default_jumps_at_most_words(beyond=False):
    """The same where the option isn't given: the number of states is at its limit, or past it by one."""
    def case(draws):
        return large_case(draws, MOST_WORDS // (Options().jumps + 1) + beyond, unbounded_line_at_limit, None)
    return case


def rewards_and_too_large(draws):
    """What is wrong with the rewards is told before the number of words is looked at, of each operator in its turn."""
    return large_case(draws, draws.one_of([2000, MOST_STATES]), earning_line, MOST_JUMPS)


# Other formula inputs.

def other_input(draw_input):
    def case(draws):
        return case_of(draws, draw_model(draws, draws.between(1, 4)), draw_input)
    return case


# Files that are wrong.

def damaged(file, damage):
    """One file is damaged; a later one may be wrong too, or missing, which isn't told."""
    def case(draws):
        draft = draw_draft(draws, draws.between(2, 6), full=True)
        lines = {other: make(draws, draft) for other, make in LINES_OF.items()}
        lines[file] = damage(draws, draft, lines[file])
        texts = {other: laid_out(draws, lines[other]) for other in THREE_FILES}
        line = draws.one_of([b"P{>0}[X %s]\n", b"P{>0}[tt U[0,~][0,1] %s]\n"]) % draft.names[0]
        drawn = plain_case(draws, texts, line, THREE_FILES if file == "rew" else None)
        last = drawn.words[-1]
        if drawn.files.get(last) != texts[file]:
            drawn = draws.mostly(drawn, with_file(drawn, last, b"0 0\n"), without_file(drawn, last))
        return with_options(draws, drawn, draw_options(draws, draft.states + draws.mostly(0, 2)))
    return case


def with_file(case, name, text):
    return case._replace(files={**case.files, name: text})


def without_file(case, name):
    return case._replace(files={other: text for other, text in case.files.items() if other != name})


def changed_text(file, change):
    """One file is changed in a way that knows nothing of its format."""
    def case(draws):
        model = draw_model(draws, draws.between(1, 4))
        texts = {**model.texts, file: change(draws, model.texts[file])}
        return case_of(draws, model._replace(texts=texts), one_line(some_line), THREE_FILES if file == "rew" else None)
    return case


def file_of_size(file, size):
    """The sound file with blanks after it, up to this size."""
    def case(draws):
        model = draw_model(draws, 2)
        texts = {**model.texts, file: model.texts[file].rstrip(b"\r\n") + b"\n"}
        texts[file] += draws.one_of([b" ", b"\t"]) * (size - len(texts[file]))
        return case_of(draws, model._replace(texts=texts), one_line(some_line), THREE_FILES)
    return case


def sound_case(draws, files=None):
    """A plain case over a small sound model."""
    model = draw_model(draws, 2)
    return plain_case(draws, model.texts, one_line(some_line)(draws, model, Options()), files)


def files_swapped(draws):
    """One file is named where another belongs."""
    drawn = sound_case(draws)
    names = drawn.words[1:]
    return drawn._replace(words=[drawn.words[0], *draws.one_of([names[::-1], names[:1] * len(names), names[1:] + names[:1]])])


def watched_state_past(draws):
    """The chain has no state of the option's number: told once its file is right, before another file is asked for."""
    drawn = sound_case(draws)
    wrong = draws.one_of([None, *drawn.words[1:]])
    if wrong is not None:
        drawn = draws.one_of([with_file(drawn, wrong, b"0 0\n"), without_file(drawn, wrong)])
    given = {**draw_options(draws, 2), b"--state": draws.one_of([3, 3, 4, MOST_STATES])}
    return with_options(draws, drawn, given)


# What can't be read or written.

def missing_file(place):
    """The file isn't there, or is a folder; later ones may be wrong or missing too, which isn't told."""
    def case(draws):
        drawn = sound_case(draws, THREE_FILES if place == 2 else None)
        missing, later = drawn.words[1 + place], drawn.words[2 + place:]
        files = {**drawn.files, **{name: draws.mostly(text, b"x", None) for name, text in drawn.files.items() if name in later}}
        drawn = drawn._replace(files=files)
        if draws.chance(1, 4):
            drawn = with_file(drawn, missing, None)
        elif draws.chance(1, 4):
            drawn = drawn._replace(words=[b"" if word == missing else word for word in drawn.words])
        else:
            drawn = without_file(drawn, missing)
        return with_options(draws, drawn, draw_options(draws, 2))
    return case


def any_answer(draws):
    lines = other_input(many_lines([some_line, plain_line], 5))
    return draws.one_of([small_until("time"), next_case, plain_formulas, wrong_words, lines])(draws)


def input_fails(draws):
    return any_answer(draws)._replace(formula_input=None)


def output_fails(draws):
    return any_answer(draws)._replace(output_fails=True)


# Words: options at the ends of their ranges, and words that are no command, with a few that are.

def end_of_range(name, value):
    def case(draws):
        states = value if name == b"--state" else 2
        model = draw_model(draws, 2) if states < MOST_STATES else chain_at_rate(draws, states, Decimal(1, 0))
        line = unbounded_line if name == b"--jumps" else some_line
        given = {**draw_options(draws, 2), name: value}
        drawn = plain_case(draws, model.texts, one_line(line)(draws, model, options_of(given)))
        return with_options(draws, drawn, given)
    return case


def spoiled(spoil):
    """A command whose words are spoiled."""
    def case(draws):
        drawn = sound_case(draws)
        return drawn._replace(words=spoil(draws, drawn.words))
    return case


def any_words(draws):
    """Words in any number and order, beside the files of a sound model."""
    return sound_case(draws)._replace(words=[draws.one_of(WORDS) for _ in range(draws.below(8))])


def wrong_words(draws):
    """A command with one word changed: left out, put in, or in place of another."""
    drawn = sound_case(draws)
    words = words_of_command(draws, drawn.words, draw_options(draws, 2))
    place, other = draws.below(len(words) + 1), draws.one_of(WORDS + NO_FILE_NAMES)
    after = draws.one_of([words[place:], words[place + 1:]])
    return drawn._replace(words=[*words[:place], other, *after] if draws.chance(3, 4) else [*words[:place], *after])


def with_word(draw_place, word):
    """A command with this word in place of the one at a place that is drawn."""
    def spoil(draws, words):
        place = draw_place(draws, len(words))
        return [*words[:place], word, *words[place + 1:]]
    return spoiled(spoil)


def number_of_files(kind, count):
    """The first word with this many names of files."""
    def case(draws):
        drawn = sound_case(draws, THREE_FILES)
        return drawn._replace(words=[kind, *(drawn.words[1:] * 2)[:count]])
    return case


def first_place(draws, count):
    return 0


def place_of_file(draws, count):
    return draws.between(1, count - 1)


def answer_kinds():
    yield "formulas without operator", [plain_formulas] * 8
    yield "next", [next_case] * 20
    yield "small until", [small_until("time")] * 60
    yield "wide until", [wide_until("time")] * 5
    yield "long until", [long_until("time")] * 3
    yield "small until within a reward", [small_until("reward")] * 60
    yield "wide until within a reward", [wide_until("reward")] * 5
    yield "long until within a reward", [long_until("reward")] * 3
    yield "greatest sums of rates", [greatest_sums] * 3
    yield "reward missing", [reward_is_missing] * 8
    yield "reward is 0", [reward_is_zero] * 8
    yield "divisors at their limit", [divisor_at_limit(DIVISOR_LIMIT - 1)] * 6
    yield "divisors past their limit", [divisor_at_limit(DIVISOR_LIMIT)] * 6
    yield "greatest load", [greatest_load(beyond=False)] * 2
    yield "load past the greatest", [greatest_load(beyond=True)] * 2
    yield "finest load", [finest_load(beyond=False)] * 4
    yield "load past the finest", [finest_load(beyond=True)] * 4
    yield "longest until", [longest_until] * 4
    yield "until a jump too long", [too_long_until] * 4
    yield "largest until", [until_of_most_words(most_states=True), until_of_most_words()]
    yield "until a jump too large", [until_of_most_words(most_states=True, beyond=True), until_of_most_words(beyond=True)]
    yield "small unbounded until", [small_unbounded_until] * 60
    yield "wide unbounded until", [wide_unbounded_until] * 5
    yield "unbounded until of most jumps", [most_jumps] * 3
    yield "raced until", [raced_until(few_blocks)] * 12
    yield "raced until over many states", [raced_until(many_blocks)] * 3
    yield "largest unbounded until", [unbounded_until_of_most_words(most_states=True), unbounded_until_of_most_words(),
                                      default_jumps_at_most_words()]
    yield "unbounded until a jump too large", [unbounded_until_of_most_words(most_states=True, beyond=True),
                                               *[unbounded_until_of_most_words(beyond=True)] * 2, default_jumps_at_most_words(beyond=True)]
    yield "rewards, and too large", [rewards_and_too_large] * 2
    yield "two levels of operators", [nested_case(draw_nested(2), few_states)] * 40
    yield "three levels of operators", [nested_case(draw_nested(3), few_states)] * 20
    yield "operators joined", [nested_case(draw_joined(levels), few_states) for levels in (1, 1, 1, 2)] * 6
    yield "operators over more states", [nested_case(draw, more_states) for draw in (draw_nested(2), draw_joined(2))] * 3
    yield "operators over several blocks", [nested_over_blocks] * 4
    yield "operator that is refused", [refused_operator] * 20
    yield "deepest formula", [deepest_case] * 8


def input_kinds():
    for name, ways in OTHER_INPUTS.items():
        yield f"input: {name}", [other_input(draw_input) for draw_input in ways]


def file_kinds():
    for file, damages in DAMAGES.items():
        for name, ways in damages.items():
            yield f"{file}: {name}", [damaged(file, damage) for damage in ways]
        yield f"{file}: any two of these", [damaged(file, two_damages(file))] * 6
        yield f"{file}: odd end of a line", [changed_text(file, odd_end_of_line)] * 2
        yield f"{file}: odd end", [changed_text(file, odd_end_of_text)] * 2
        yield f"{file}: changed bytes", [changed_text(file, changed_bytes)] * 6
        yield f"{file}: greatest size", [file_of_size(file, FILE_LIMIT)]
        yield f"{file}: too big", [file_of_size(file, FILE_LIMIT + 1)]
    yield "files swapped", [files_swapped] * 3
    yield "watched state past the chain", [watched_state_past] * 8


def outside_kinds():
    for place, file in enumerate(THREE_FILES):
        yield f"{file}: missing", [missing_file(place)] * 2
    yield "input that fails", [input_fails] * 2
    yield "output that fails", [output_fails] * 4


def word_kinds():
    yield "option at the end of its range", [end_of_range(name, value) for name in RANGES for value in ends_of_range(name)[0]]
    for name, ways in OPTION_WRONGS.items():
        yield f"words: {name}", [spoiled(spoil) for spoil in ways]
    yield "any words", [any_words] * 6
    yield "wrong words", [wrong_words] * 8
    yield "number of files", [number_of_files(kind, count) for kind in (b"ctmc", b"cmrm") for count in range(6)]
    yield "first word is no command", [with_word(first_place, word) for word in NO_COMMANDS]
    yield "word is a file's name", [with_word(place_of_file, word) for word in FILE_NAMES]
    yield "word is no file name", [with_word(place_of_file, word) for word in NO_FILE_NAMES + NO_OPTIONS]


# Each kind of drawing: its name, and the functions that take turns in it, each once in a round.
KINDS_OF_CASES = [*answer_kinds(), *input_kinds(), *file_kinds(), *outside_kinds(), *word_kinds()]


def round_of_turns():
    """One turn of each kind, then a second one of those that have more, and so on."""
    most = max(len(ways) for _, ways in KINDS_OF_CASES)
    return [(name, ways[turn]) for turn in range(most) for name, ways in KINDS_OF_CASES if turn < len(ways)]


TURNS = round_of_turns()


def draw_case(seed, index):
    """The case of this index, and of which kind it is. Each case has draws of its own, so that it can be drawn alone."""
    name, draw = TURNS[index % len(TURNS)]
    return name, draw(Draws(f"{seed}/{index}"))
