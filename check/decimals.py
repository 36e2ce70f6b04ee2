"""Decimal numbers: what a word spells, and how a number is printed."""
import re
from fractions import Fraction
from typing import NamedTuple

MOST_DECIMALS = 18
MOST_DIGITS = 18

SPELLING = re.compile(rb"(?:([0-9]+)(?:\.([0-9]*))?|\.([0-9]+))(?:[eE]([+-]?)([0-9]+))?")

# An exponent with more digits than this is beyond what any mantissa that fits a file could make up for.
EXPONENT_DIGITS = 30


class NumberFault(Exception):
    """Why a word is no decimal: `NotNumber`, `TooFine` or `TooBig`."""


class Decimal(NamedTuple):
    """The number c / 10^x in normal form: x is 0, or 10 doesn't divide c."""
    c: int
    x: int

    def fraction(self):
        return Fraction(self.c, 10 ** self.x)


def read_decimal(word):
    """The number that the word spells. Mantissas and exponents have any length, so they stay texts here."""
    spelled = SPELLING.fullmatch(word)
    if spelled is None:
        raise NumberFault("NotNumber")
    whole, after_point, only_after_point, sign, exponent = (part or b"" for part in spelled.groups())
    decimals = after_point + only_after_point
    return normal_form(whole + decimals, exponent_value(sign, exponent) - len(decimals))


def exponent_value(sign, digits):
    size = int(digits.lstrip(b"0")[:EXPONENT_DIGITS] or b"0")
    return -size if sign == b"-" else size


def normal_form(digits, tens):
    """The number that the digits write, times 10^tens."""
    without_tail = digits.rstrip(b"0")
    significant = without_tail.lstrip(b"0")
    if not significant:
        return Decimal(0, 0)
    tens += len(digits) - len(without_tail)
    if -tens > MOST_DECIMALS:
        raise NumberFault("TooFine")
    if len(significant) + max(tens, 0) > MOST_DIGITS:
        raise NumberFault("TooBig")
    return Decimal(int(significant) * 10 ** max(tens, 0), max(-tens, 0))


def decimal_of_units(units, decimals):
    """The number units / 10^decimals in normal form."""
    while decimals > 0 and units % 10 == 0:
        units, decimals = units // 10, decimals - 1
    return Decimal(units, decimals)


def canonical_text(number):
    return b"%d" % number.c if number.x == 0 else point_text(number.c, number.x)


def twelve_decimals(units):
    """A number of units of 10^-12 as it is printed."""
    return point_text(units, 12)


def point_text(units, decimals):
    whole, rest = divmod(units, 10 ** decimals)
    return b"%d.%0*d" % (whole, decimals, rest)
