"""Watch lines: brackets that are taken while an until is computed, so that what they are is a matter of time.

A text that is wanted has the bracket of the watched state's own line in each of its watch lines. Of those that come it is
wanted that they stand in the same places with the same numbers, that each bracket lies in the one before and round the wanted
one, and that the last one is the wanted one. All other bytes are a function of the words, the files and the formulas.
"""
import re
from itertools import zip_longest

WATCH_LINE = re.compile(rb"watch ([1-9][0-9]*) ([01])[.]([0-9]{12}) ([01])[.]([0-9]{12})")
WIDEST = 0, 10 ** 12


def parts_of(line):
    """The number of a watch line, and its bracket in units of the last decimal; of another line, or of none, None."""
    parts = WATCH_LINE.fullmatch(line or b"")
    return None if parts is None else (int(parts[1]), (int(parts[2] + parts[3]), int(parts[4] + parts[5])))


def lies_in(inner, outer):
    return outer[0] <= inner[0] <= inner[1] <= outer[1]


def first_difference(wanted, come):
    """What is the first line of the output that is wrong, or None."""
    lines = list(zip_longest(wanted.split(b"\n"), come.split(b"\n")))
    outer = WIDEST
    for number, (expected, found) in enumerate(lines, 1):
        watched = parts_of(found)
        if parts_of(expected) is None:
            fault = None if found == expected else f"wanted {shown(expected)}"
        else:
            # A watch line is never the last of a text.
            is_last = parts_of(lines[number][0]) is None
            fault = watch_fault(*parts_of(expected), watched, outer, is_last)
        if fault is not None:
            return f"line {number} of the output is {shown(found)}, {fault}"
        outer = WIDEST if watched is None else watched[1]
    return None


def watch_fault(number, bracket, found, outer, is_last):
    """What is wrong with a watch line, by its parts and those of the wanted one, below a line with the bracket `outer`."""
    if found is None or found[0] != number:
        return f"wanted watch line {number}"
    if not lies_in(found[1], outer):
        return "which is no bracket within the one before"
    if not lies_in(bracket, found[1]):
        return f"which doesn't lie round the state's own bracket, {bracket}"
    if is_last and found[1] != bracket:
        return f"wanted the state's own bracket, {bracket}"
    return None


def shown(line):
    return "missing" if line is None else repr(line[:160])


def count_wider(wanted, come):
    """How many watch lines there are, and how many of them came before the bracket was the last one."""
    pairs = [(parts_of(expected), parts_of(found)) for expected, found in zip(wanted.split(b"\n"), come.split(b"\n"))]
    watched = [(expected, found) for expected, found in pairs if expected is not None]
    return len(watched), sum(expected != found for expected, found in watched)
