"""The floating-point door of Cumulus tables, worked on 64-bit patterns of binary64 numbers.

A pattern is turned into an exact fraction and a result is rounded back by
whole-number arithmetic, so no floating-point arithmetic takes part in any answer.
The piece is that of the alpha reading as given, and is read at the rounded one.
"""

from fractions import Fraction

import tables
from model import ALPHA, CUMULUS, FINE_CUT, READING_OUTSIDE
from roundings import half_away, half_even
from shapes import HIGH_GROUP, LOW_GROUP, THOUSANDTHS
from tables import DONE, LIMITS_NOT_GOOD, TOO_HEAVY, WRONG_TABLE_LENGTH

NOT_FINITE = (21, 22, 23, 24, 25)   # by variable number
DOOR_ORDER = (WRONG_TABLE_LENGTH, LIMITS_NOT_GOOD, TOO_HEAVY) + NOT_FINITE + READING_OUTSIDE
ANSWER_UNIT = 10**17
POSITIVE_ZERO = 0
SIGN_BIT = 1 << 63
INFINITY_BITS = 0x7FF << 52
FRACTION_MASK = (1 << 52) - 1


def is_finite(bits):
    return (bits >> 52) & 0x7FF != 0x7FF


def exact_value(bits):
    """The fraction that a finite pattern stands for; both zeros give 0."""
    exponent = (bits >> 52) & 0x7FF
    significand = bits & FRACTION_MASK
    if exponent == 0:
        exponent = 1                # subnormals share the smallest exponent
    else:
        significand |= 1 << 52
    power = exponent - 1075
    if power >= 0:
        magnitude = Fraction(significand << power)
    else:
        magnitude = Fraction(significand, 1 << -power)
    return -magnitude if bits & SIGN_BIT else magnitude


def floor_log2(value):
    """The whole number e with 2^e <= value < 2^(e+1), for a positive fraction."""
    guess = value.numerator.bit_length() - value.denominator.bit_length()
    return guess if value >= Fraction(2) ** guess else guess - 1


def nearest_bits(value):
    """Pattern of the binary64 nearest to a fraction, ties to even; 0 gives +0."""
    if value == 0:
        return POSITIVE_ZERO
    sign = SIGN_BIT if value < 0 else 0
    magnitude = abs(value)
    exponent = max(floor_log2(magnitude), -1022)
    significand = half_even(magnitude / Fraction(2) ** (exponent - 52))
    # Adding instead of joining lets a significand rounded up to the next power
    # of two carry into the exponent, and leaves subnormals with exponent 0.
    bits = ((exponent + 1022) << 52) + significand
    return sign | min(bits, INFINITY_BITS)


def nearest_float_whole(number):
    """The whole number, representable in binary64, nearest to a whole number."""
    magnitude = abs(number)
    excess = magnitude.bit_length() - 53
    if excess > 0:
        magnitude = half_even(Fraction(magnitude, 1 << excess)) << excess
    return -magnitude if number < 0 else magnitude


def answer_bits(number):
    """One coefficient as a float: rounded to a float whole, then divided once."""
    return nearest_bits(Fraction(nearest_float_whole(number), ANSWER_UNIT))


def whole_reading(bits):
    return half_away(exact_value(bits))


def refused(number, handed_back):
    return number, [POSITIVE_ZERO] * 6, handed_back


def piece_as_given(table, alpha_bits):
    """The low piece exactly where alpha as given is at most the fine cut, as exact numbers."""
    return LOW_GROUP if exact_value(alpha_bits) <= Fraction(table[FINE_CUT], THOUSANDTHS) else HIGH_GROUP


def six_answers(table, reading_bits):
    readings = [whole_reading(bits) for bits in reading_bits]
    return [answer_bits(number) for number in tables.sums(CUMULUS, table, piece_as_given(table, reading_bits[ALPHA]), readings)]


def handed_back_with(number, reading_bits):
    """The reading as given where it is outside, else positive zero."""
    return reading_bits[READING_OUTSIDE.index(number)] if number in READING_OUTSIDE else POSITIVE_ZERO


def float_is_outside(table, variable, bits):
    return tables.is_outside(CUMULUS, table, variable, whole_reading(bits))


def read_floats(table, reading_bits):
    """Give (number, six patterns, pattern of the reading handed back)."""
    tests = tables.table_tests(CUMULUS, table)
    for v in range(5):
        tests[NOT_FINITE[v]] = lambda v=v: not is_finite(reading_bits[v])
        tests[READING_OUTSIDE[v]] = lambda v=v: float_is_outside(table, v, reading_bits[v])
    number = tables.first_that_holds(DOOR_ORDER, tests)
    if number != DONE:
        return refused(number, handed_back_with(number, reading_bits))
    return DONE, six_answers(table, reading_bits), POSITIVE_ZERO
