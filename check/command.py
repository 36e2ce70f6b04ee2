"""The words of the command line: the command that they are, with its files and options, or that they are none."""
from typing import NamedTuple

from model_files import whole_number

FILES_OF = {b"ctmc": ("tra", "lab"), b"cmrm": ("tra", "lab", "rew")}
RANGES = {
    b"--workers": range(1, 65), b"--bits": range(8, 49), b"--jumps": range(1, 16_385), b"--watch": range(1_001),
    b"--state": range(1, 65_537),
}
# The option without a value.
FLAG = b"--until-decided"


class Options(NamedTuple):
    """The options' values; those of an option that isn't given stand here. A state is numbered from 1."""
    workers: int = 4
    bits: int = 30
    jumps: int = 512
    watch: int = 0
    state: int = 1
    until_decided: bool = False


class Command(NamedTuple):
    """The names of the files by their endings, in the order of reading, and the options."""
    names: dict
    options: Options


class NoCommand(Exception):
    """The words are no command."""


def read_command(words):
    """The command that the words after the program's name are; where they are none, `NoCommand` is raised."""
    if not all(map(is_utf8, words)):
        raise NoCommand
    plain, given = part_words(words)
    kind, *names = plain or [None]
    files = FILES_OF.get(kind, ())
    if not names or len(names) != len(files):
        raise NoCommand
    return Command(dict(zip(files, names)), read_options(given))


def is_utf8(word):
    try:
        word.decode("utf-8")
    except UnicodeDecodeError:
        return False
    return True


def part_words(words):
    """The plain words, and each option that is given with the word of its value, which is None for the one that has none."""
    plain, given, rest = [], [], iter(words)
    for word in rest:
        name, equals, value = word.partition(b"=")
        if word == b"--":
            plain += rest
        elif name in RANGES:
            given.append((name, value if equals else next_value(rest)))
        elif word == FLAG:
            given.append((word, None))
        elif word.startswith(b"-") and len(word) > 1:
            raise NoCommand
        else:
            plain.append(word)
    return plain, given


def next_value(rest):
    value = next(rest, None)
    if value is None or value.startswith(b"-"):
        raise NoCommand
    return value


def read_options(given):
    values = {}
    for name, word in given:
        value = True if name == FLAG else whole_number(word)
        if name in values or (name != FLAG and value not in RANGES[name]):
            raise NoCommand
        values[name] = value
    return options_of(values)


def options_of(values):
    """The options from the values of those that are given, by their names as words."""
    return Options(**{name[2:].replace(b"-", b"_").decode(): value for name, value in values.items()})
