"""Words that spell numbers, in one of the many ways that each number has, and words that don't."""
from decimals import Decimal, canonical_text

NO_NUMBERS = [
    b"-1", b"+1", b"1e", b".", b"1.2.3", b"nan", b"inf", b"1e+", b"e5", b".e5", b"1,5", b"1_000", b"0x10", b"1e5.0", b"1e--5",
    b"1e1e1", b"1/2", b"--", b"2f", b"1\x00", b"\r1", b"1\rE5", b"\xd9\xa3", b"\xef\xbb\xbf1", b"#1",
]


def whole_word(draws, number):
    """A whole number, at times with leading zeros."""
    return b"0" * draws.mostly(0, 1, 2, 30) + b"%d" % number


def spelled(draws, number):
    """The decimal in canonical text, or in any other spelling."""
    if draws.chance(1, 2):
        return canonical_text(number)
    zeros = draws.mostly(0, 1, 2, 5000) if draws.chance(1, 4) else draws.below(3)
    digits = b"%d" % number.c + b"0" * zeros
    after_point = draws.below(len(digits) + 4) + (5000 if draws.chance(1, 32) else 0)
    # The digits count as c * 10^zeros / 10^after_point, and the number is c / 10^x.
    tens = after_point - zeros - number.x if number.c > 0 else draws.one_of([0, 7, -7, 10 ** 40, -10 ** 40])
    return mantissa_word(draws, digits, after_point) + exponent_word(draws, tens)


def mantissa_word(draws, digits, after_point):
    digits = b"0" * draws.mostly(0, 1, 2) + digits.rjust(after_point, b"0")
    whole, decimals = digits[:len(digits) - after_point], digits[len(digits) - after_point:]
    if not decimals:
        return whole + draws.mostly(b"", b".")
    return whole + b"." + decimals


def exponent_word(draws, tens):
    if tens == 0 and draws.chance(3, 4):
        return b""
    sign = b"-" if tens < 0 else draws.one_of([b"", b"+"])
    if tens == 0:
        sign = draws.one_of([b"", b"+", b"-"])
    return draws.one_of([b"e", b"E"]) + sign + whole_word(draws, abs(tens))


def no_number(draws):
    return draws.one_of(NO_NUMBERS)


def too_fine(draws):
    """A number that needs more than 18 decimals."""
    if draws.chance(1, 8):
        return b"1e-" + b"9" * 60
    return spelled(draws, Decimal(number_of_digits(draws, draws.between(1, 18)), draws.mostly(19, 20, 40)))


def too_fine_and_big(draws):
    """A number that needs too many decimals, which is told, and has too many digits."""
    return spelled(draws, Decimal(number_of_digits(draws, draws.between(19, 40)), draws.mostly(19, 20, 40)))


def too_big(draws):
    """A number of at most 18 decimals that has more than 18 digits."""
    if draws.chance(1, 8):
        return b"1e" + b"9" * 60
    if draws.chance(1, 4):
        return spelled(draws, Decimal(10 ** 18, 0))
    return spelled(draws, Decimal(number_of_digits(draws, draws.between(19, 22)), draws.mostly(0, 1, 17, 18)))


def number_of_digits(draws, digits):
    """A number with so many digits, the last of which isn't 0."""
    front = draws.between(10 ** (digits - 2), 10 ** (digits - 1) - 1) if digits > 1 else 0
    return front * 10 + draws.between(1, 9)
