"""Words of the command line: options in every spelling and order among the names of files, and words that are no command."""
from command import FLAG, RANGES
from draw_numbers import whole_word

WORDS = [b"ctmc", b"cmrm", b"M.tra", b"M.lab", b"M.rew", b"", b"-", b"--", b"--bits", b"12", b"--watch=2"]
# Names of files that aren't there.
FILE_NAMES = [b"-", b"", b"=", b"bits", b"bits=9", b" --bits", b"\xe2\x80\x93bits=12", b"M.tra ", b"ctmc"]
NO_FILE_NAMES = [b"--help", b"--version", b"-h", b"-V", b"-M.tra", b"-1", b"---", b"-=", b"--=1", b"\xff", b"M\xff.tra", b"\xc3",
                 b"\xed\xa0\x80", b"\xc0\xaf", b"\xf5\x80\x80\x80"]
NO_OPTIONS = [b"--worker", b"--w", b"--bit=12", b"--wat=1", b"--Bits=12", b"--BITS=12", b"-bits=12", b"-b12", b"-w4", b"--bits12",
              b"--bits:12", b"--bits=12 ", b"--bits =12", b"--until-decided=1", b"--until-decided=", b"--until-decide",
              b"--until_decided", b"--until-decided ", b"--jump", b"--states=1",
              b"--no-watch", b"--=12", b"--bits==12", b"--bits=12=12", b"--st\xff"]
NO_COMMANDS = [b"CTMC", b"ctmc ", b"ctmc\n", b"ctm", b"ctmcc", b"cmr", b"dtmc", b"generate", b"", b"-", b"--help", b"\xff"]
NO_VALUES = [b"", b" ", b"+9", b"9.0", b"9e0", b"9 ", b" 9", b"0x9", b"1_0", b"9,", b"x", b"\xd9\xa9", b"9\n", b"9\x80", b"9" * 40, b"=9"]
# What may stand right after an option that has its value in the next word.
NO_NEXT_VALUES = [b"-9", b"-", b"--", b"--bits=9", b"--workers", b"-h", FLAG]


def draw_options(draws, states):
    """Some of the options, by their names, with values in their ranges, which is True for the one without a value; the watched
    state is one of the chain's."""
    given = {}
    for name, values in RANGES.items():
        if draws.chance(1, 5):
            given[name] = draws.one_of([values[0], values[-1], draws.one_of(values), draws.one_of(values)])
    if draws.chance(1, 2):
        given[b"--workers"] = draw_workers(draws)
    if b"--jumps" in given:
        given[b"--jumps"] = draw_jumps(draws, states)
    if b"--watch" in given:
        given[b"--watch"] = draws.mostly(draws.below(6), given[b"--watch"])
    if b"--state" in given or b"--watch" in given:
        given[b"--state"] = draws.between(1, states)
    if draws.chance(1, 4):
        given[FLAG] = True
    return given


def draw_workers(draws):
    return draws.one_of([1, 2, 3, 4, 64, draws.one_of(RANGES[b"--workers"])])


def draw_jumps(draws, states):
    """Few jumps, or any number where the states are few, since what must come is computed here too."""
    most = RANGES[b"--jumps"][-1] if states <= 4 else 1000
    return draws.mostly(draws.between(2, 40), 1, most, draws.between(1, most))


def option_words(draws, name, value):
    """The option and its value in one word or in two."""
    return [name + b"=" + value] if draws.chance(1, 2) else [name, value]


def given_words(draws, name, value):
    """The words of an option that is given."""
    return [name] if name == FLAG else option_words(draws, name, whole_word(draws, value))


def words_of_command(draws, plain, given):
    """The plain words in their order, with the options anywhere among them."""
    return among(draws, plain, [given_words(draws, name, value) for name, value in draws.shuffled(given.items())])


def among(draws, plain, groups):
    """The plain words, with each group of words somewhere among them. Behind the last group there is at times a `--`, which a
    plain word that begins with a dash needs before it."""
    needed = next((place for place, word in enumerate(plain) if word.startswith(b"-") and word != b"-"), len(plain))
    places = sorted(draws.mostly(draws.below(needed + 1), needed) for _ in groups)
    has_parting = needed < len(plain) or draws.chance(1, 6)
    parting = draws.between(max(places, default=0), needed) if has_parting else None
    words = []
    for place in range(len(plain) + 1):
        words += [word for at, group in zip(places, groups) if at == place for word in group]
        words += [b"--"] * (place == parting)
        words += plain[place:place + 1]
    return words


def ends_of_range(name):
    """The least and the greatest value of the option, and those beside them."""
    values = RANGES[name]
    return [values[0], values[-1]], [value for value in (values[0] - 1, values[-1] + 1) if value >= 0]


# Ways to spoil a command. Each takes draws and the command's plain words, and answers words.

def with_group(make_group):
    """The command with a group of words more, somewhere."""
    return lambda draws, plain: among(draws, plain, [make_group(draws)])


def with_groups(make_groups):
    return lambda draws, plain: among(draws, plain, draws.shuffled(make_groups(draws)))


def any_option(draws):
    return draws.one_of(list(RANGES))


def right_value(draws, name):
    return whole_word(draws, draws.one_of(RANGES[name]))


def option_twice(draws):
    """With the same value or another one, in the same spelling or the other one."""
    name = any_option(draws)
    first = right_value(draws, name)
    return [option_words(draws, name, value) for value in (first, draws.one_of([first, right_value(draws, name)]))]


def flag_twice(draws):
    return [[FLAG]] * 2


def wrong_value(name, value):
    return lambda draws: option_words(draws, name, value)


def next_value_is_none(word):
    """An option without `=` before a word that begins with a dash."""
    return lambda draws: [any_option(draws), word]


def option_at_end(draws, plain):
    """An option whose value is missing."""
    return [*plain, any_option(draws)]


def option_for_file(draws, plain):
    """An option takes the name of a file for its value."""
    place = draws.between(1, len(plain) - 1)
    return [*plain[:place], any_option(draws), *plain[place:]]


def option_behind_parting(draws, plain):
    """Behind `--` an option's words are plain words: too many, or the names of files that aren't there."""
    place = draws.below(len(plain) + 1)
    parting, name = draws.below(place + 1), any_option(draws)
    group = draws.one_of([[name + b"=9"], [name, b"9"], [FLAG]])
    return [*plain[:parting], b"--", *plain[parting:place], *group, *draws.one_of([plain[place:], plain[place + len(group):]])]


def parting_twice(draws, plain):
    """The second `--` is a plain word."""
    first, second = sorted(draws.below(len(plain) + 1) for _ in range(2))
    return [*plain[:first], b"--", *plain[first:second], b"--", *plain[second:]]


def option_wrongs():
    yield "option twice", [*[with_groups(option_twice)] * 4, with_groups(flag_twice)]
    yield "value behind the option that has none", [with_group(lambda draws: [FLAG, right_value(draws, any_option(draws))])] * 2
    yield "option has no value", [option_at_end, option_at_end, option_for_file]
    yield "value is no whole number", [with_group(wrong_value(name, value)) for name, value in zip(list(RANGES) * 4, NO_VALUES)]
    yield "value past its range", [with_group(wrong_value(name, b"%d" % value)) for name in RANGES for value in ends_of_range(name)[1]]
    yield "value begins with a dash", [with_group(next_value_is_none(word)) for word in NO_NEXT_VALUES]
    yield "word is no option", [with_group(lambda draws, word=word: [word]) for word in NO_OPTIONS + NO_FILE_NAMES]
    yield "option behind the parting", [option_behind_parting] * 4
    yield "parting twice", [parting_twice] * 2


OPTION_WRONGS = dict(option_wrongs())
