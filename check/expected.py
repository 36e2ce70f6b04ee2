"""What the program must print and end with, from the words, the files and the formula input alone."""
from typing import NamedTuple, Optional

from answers import Over, answer_of
from command import NoCommand, read_command
from decimals import twelve_decimals
from language import Formula, LineFault, canonical_line, read_line
from meaning import OPERATORS, has_operator, is_nested
from model_files import FileFault, lines_of, read_lab, read_rew, read_tra, words_of
from plans import NoPlan, bound_of
from rounded import divide_up

INPUT_LIMIT = 2 ** 20
UNITS = 10 ** 12

USAGE = (b"usage: mrmc_any (ctmc M.tra M.lab | cmrm M.tra M.lab M.rew) [--workers 1..64] [--bits 8..48] [--jumps 1..16384]"
         b" [--watch 0..1000] [--state 1..65536] [--until-decided]\n")

NUMBER_FAULTS = ("Number NotNumber", "Number TooFine", "Number TooBig")
FILE_FAULTS = {
    "tra": ("Header", "StatesRange", "TransitionsRange", "Count", "Word", "StateRange", *NUMBER_FAULTS, "Repeated", "RateRange",
            "TooBig", "WatchState"),
    "lab": ("Header", "Name", "RepeatedName", "LabelsRange", "Word", "StateRange", "Undeclared", "TooBig"),
    "rew": ("Word", "StateRange", *NUMBER_FAULTS, "Repeated", "RewardScale", "TooBig"),
}

# Every kind of outcome, and of reply to a line, as they are counted.
KINDS = [
    "nothing asked", "all answered", "some refused", "refused FormulasLong", "usage",
    *(f"refused {file} {what}" for file, faults in FILE_FAULTS.items() for what in faults),
    *(f"missing {file}" for file in FILE_FAULTS), "input failed", "output failed",
]
OPERATOR_ANSWERS = ["next", "until within a time", "until within a reward", "until without a bound"]
NESTED = ", over operators"
ANSWERS = ["without operator", *OPERATOR_ANSWERS, *(kind + NESTED for kind in OPERATOR_ANSWERS), "operators joined"]
NO_PLANS = ["NoRewards", "ZeroReward", "RewardRange", "BoundRange", "TooLong", "TooLarge"]
REFUSALS = [*NO_PLANS, "Length", "Token", "Number", "Expected", "UnknownLabel", "Threshold", "Depth"]


class Asked(NamedTuple):
    """A formula with a probability operator that is answered, and over what."""
    formula: Formula
    over: Over

    def is_until(self):
        return self.formula.kind == "until"


class Reply(NamedTuple):
    """What is printed to one line of the input: of which kind it is, for counting, and what was asked where it has an operator."""
    kind: str
    text: bytes
    asked: Optional[Asked] = None
    # Whether the run of its until may have ended before all was computed.
    may_end_early: bool = False


class Outcome(NamedTuple):
    """The kind, for counting; the exit status; the bytes on standard output; whether the input is read; and the replies."""
    kind: str
    status: int
    text: bytes
    reads_input: bool = False
    replies: tuple = ()


class FileMissing(Exception):
    """The file isn't there, or can't be read."""


class FileRefused(Exception):
    """The file has this fault."""


def outcome_of(words, files, formula_input):
    """The outcome. `files` maps names to bytes, or to None where no bytes can be read; so is the formula input."""
    try:
        command = read_command(words)
        model = read_model(command, files)
    except NoCommand:
        return Outcome("usage", 2, USAGE)
    except FileMissing as missing:
        return Outcome(f"missing {missing}", 4, b"")
    except FileRefused as refused:
        file, fault = refused.args
        return Outcome(f"refused {file} {fault.what}", 3, b"refused %s line %d %s\n" % (file.encode(), fault.line, fault.what.encode()))
    if formula_input is None:
        return Outcome("input failed", 4, b"")
    if len(formula_input) > INPUT_LIMIT:
        return Outcome("refused FormulasLong", 1, b"refused FormulasLong\n", True)
    return outcome_of_replies(tuple(replies_to(formula_input, model)))


def read_model(command, files):
    """What the files and the options give for formulas to be answered over."""
    readers = {"tra": read_tra, "lab": read_lab, "rew": read_rew}
    found = {}
    for file, name in command.names.items():
        text = files.get(name)
        if text is None:
            raise FileMissing(file)
        states = (found["tra"].states,) if found else ()
        try:
            found[file] = readers[file](text, *states)
        except FileFault as fault:
            raise FileRefused(file, fault) from None
        if command.options.state > found["tra"].states:
            raise FileRefused(file, FileFault(0, "WatchState"))
    return Over(found["tra"], found["lab"], command.options, found.get("rew"))


def outcome_of_replies(replies):
    text = b"".join(reply.text for reply in replies)
    if all(reply.kind in ANSWERS for reply in replies):
        return Outcome("all answered" if replies else "nothing asked", 0, text, True, replies)
    return Outcome("some refused", 1, text, True, replies)


def replies_to(formula_input, over):
    """A reply to each line that isn't blank, up to one whose only word is `quit`."""
    for number, line in enumerate(lines_of(formula_input), 1):
        words = words_of(line)
        if words == [b"quit"]:
            return
        if words:
            yield reply_to(number, line, over)


def reply_to(number, line, over):
    try:
        formula = read_line(line, over.labels.names)
        answer = answer_of(formula, over)
    except LineFault as fault:
        return refusal(number, fault.what, b"column %d " % fault.column)
    except NoPlan as refused:
        return refusal(number, refused.what, after=b"" if refused.state is None else b" state %d" % (refused.state + 1))
    text = b"formula %s\n" % canonical_line(formula) + b"".join(answer_lines(answer, over))
    return Reply(kind_of(formula), text, Asked(formula, over) if has_operator(formula) else None, may_end_early(answer, over))


def may_end_early(answer, over):
    """Of an until, which has a horizon, where that is asked for and no state is undecided."""
    return over.options.until_decided and answer.horizon is not None and answer.known.is_decided()


def refusal(number, what, before=b"", after=b""):
    return Reply(what, b"refused line %d %s%s%s\n" % (number, before, what.encode(), after))


def kind_of(formula):
    """The kind of a formula that is answered, one of `ANSWERS`."""
    if formula.kind not in OPERATORS:
        return "operators joined" if has_operator(formula) else "without operator"
    kind = formula.kind
    if kind == "until":
        bound = bound_of(formula)
        kind += " without a bound" if bound is None else f" within a {bound[0]}"
    return kind + NESTED if is_nested(formula) else kind


def answer_lines(answer, over):
    """The lines of an answer behind that of the formula."""
    verdicts = [verdict(answer.known, state) for state in range(over.chain.states)]
    if answer.brackets is None:
        return [b"%d %s\n" % numbered for numbered in enumerate(verdicts, 1)]
    brackets = [rounded_out(*bracket) for bracket in answer.brackets]
    lines = [b"%d %s %s %s\n" % (number, said, *bracket) for number, (said, bracket) in enumerate(zip(verdicts, brackets), 1)]
    if answer.horizon is None:
        return lines
    # These are right, but only the last of them must be so; see watch_lines.py.
    watched = [b"watch %d %s %s\n" % (place, *brackets[over.options.state - 1]) for place in range(1, over.options.watch + 1)]
    return [b"horizon %d\n" % answer.horizon, *watched, *lines]


def verdict(known, state):
    if state in known.must:
        return b"satisfied"
    return b"undecided" if state in known.may else b"refuted"


def rounded_out(lower, upper, whole):
    """The two numbers, parts of a whole, as they are printed: rounded down and up to twelve decimals."""
    return twelve_decimals(lower * UNITS // whole), twelve_decimals(divide_up(upper * UNITS, whole))
