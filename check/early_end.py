"""Untils whose run may have ended early: what their brackets are is then a matter of time.

A text that is wanted has the brackets of the whole run. Of those that come in their place it is wanted that they lie round
these and show the verdict; the last watch line then has the bracket that came of the watched state.
"""
from against_exact import STATE_LINE
from meaning import COMPARISONS
from watch_lines import lies_in, parts_of

UNITS = 10 ** 12


def wanted_beside(outcome, come):
    """The text that is wanted, where it is left open with those brackets of the text that came that are right there."""
    if not any(reply.may_end_early for reply in outcome.replies):
        return outcome.text
    lines, texts = come.split(b"\n"), []
    for reply in outcome.replies:
        wanted = reply.text.split(b"\n")[:-1]
        beside = lines[len(texts):len(texts) + len(wanted)]
        texts += early_lines(reply.asked, wanted, beside) if reply.may_end_early and len(beside) == len(wanted) else wanted
    return b"".join(line + b"\n" for line in texts)


def early_lines(asked, wanted, come):
    found = [line if is_right(asked, expected, line) else expected for expected, line in zip(wanted, come)]
    watched = STATE_LINE.fullmatch(found[2 + asked.over.options.watch + asked.over.options.state - 1])
    return [with_bracket(line, watched) if parts_of(line) is not None else line for line in found]


def with_bracket(line, state_line):
    """The watch line with the bracket of a state's line."""
    return b"%s %s" % (b" ".join(line.split(b" ")[:2]), b" ".join(state_line.groups()[2:]))


def is_right(asked, expected, line):
    """Whether the line of a state may stand in the place of the one of the whole run."""
    whole, parts = STATE_LINE.fullmatch(expected), STATE_LINE.fullmatch(line)
    if whole is None or parts is None or whole.groups()[:2] != parts.groups()[:2]:
        return False
    return lies_in(bracket_of_line(whole), bracket_of_line(parts)) and shows(asked, parts[2] == b"satisfied", *bracket_of_line(parts))


def bracket_of_line(parts):
    """The bracket of a state's line, in units of the last decimal."""
    return tuple(int(end.replace(b".", b"")) for end in parts.groups()[2:])


def shows(asked, satisfied, low, high):
    """Whether a bracket that is printed so, in units of the last decimal, shows the verdict: the one that was rounded out lies
    less than a unit from it at each end."""
    comparison, threshold = asked.formula.parts[:2]
    limit = threshold.fraction() * UNITS
    # Whether it is shown by the lower end, which is past the threshold, or by the upper one, which isn't.
    is_lower = satisfied == (comparison in (b">", b">="))
    return limit < low + 1 if is_lower else limit > high - 1


def count_early(outcome, come):
    """How many answers may be of a run that ended early, and how many are."""
    lines, may, ended, first = come.split(b"\n"), 0, 0, 0
    for reply in outcome.replies:
        wanted = reply.text.split(b"\n")[:-1]
        states = slice(-reply.asked.over.chain.states, None) if reply.may_end_early else slice(0)
        may += reply.may_end_early
        ended += wanted[states] != lines[first:first + len(wanted)][states]
        first += len(wanted)
    return may, ended
