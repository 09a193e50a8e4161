"""The read in microradians: the published table a second way, in fixed point, in whole units of 10^-9.

The printed numbers are whole in these units. Each multiplication by a reading gives an exact fraction, which is rounded at once to the
nearest whole number, a half away from zero; nothing else is rounded. A group is summed from the highest power of its second variable
down, and the row before each of these powers from the highest power of its first variable down.
"""

from fractions import Fraction

from model import (
    ALPHA, BLOCK_COUNT, CUMULUS, EQUATIONS_OF_BLOCK, GROUPS, HIGHEST, HIGH_GROUP, LOWEST, LOW_GROUP, PRINTED, PUBLISHED_FINE_CUT,
    PUBLISHED_LIMITS, READING_OUTSIDE, READ_LENGTH, XI_GROUP, ZETA_GROUP,
)
from roundings import half_away
from shapes import printed_terms
from tables import DONE, WRONG_OUTPUT_LENGTH, first_that_holds

UNIT = 10**9
RADIAN = 10**6                      # in microradians
MILLIRADIAN = 1000
LAST_OF_LOW = PUBLISHED_FINE_CUT    # a thousandth of a milliradian is a microradian
ORDER = (WRONG_OUTPUT_LENGTH,) + READING_OUTSIDE


# --------------------------------------------------------------------- numbers

def in_units(value):
    units = value * UNIT
    if units.denominator != 1:
        raise ValueError("a printed value is finer than 10^-9")
    return int(units)


def rows_of(equations, group):
    """A group's numbers in rows, one for each power of its second variable, each by the powers of its first; all powers rise."""
    degree = max(q for _, q in group.powers)
    rows = [[0] * (degree - q + 1) for q in range(degree + 1)]
    for powers, value in printed_terms(PRINTED, CUMULUS.letters, equations):
        rows[powers[group.second]][powers[group.first]] = in_units(value)
    return rows


# by block, then by group
ROWS = [[rows_of(*pair) for pair in zip(equations_by_group, GROUPS)] for equations_by_group in EQUATIONS_OF_BLOCK]


# ------------------------------------------------------------------------ sums

def times(number, reading):
    """One multiplication and its rounding."""
    return half_away(Fraction(number * reading, RADIAN)) if number and reading else 0


def downward(numbers, reading):
    """Numbers by the rising powers of a reading, summed from the highest down."""
    total = 0
    for number in reversed(numbers):
        total = times(total, reading) + number
    return total


def group_sum(rows, first, second):
    return downward([downward(row, first) for row in rows], second)


def piece_at(alpha):
    return LOW_GROUP if alpha <= LAST_OF_LOW else HIGH_GROUP


def coefficient(block, readings):
    groups = (piece_at(readings[ALPHA]), XI_GROUP, ZETA_GROUP)
    return sum(group_sum(ROWS[block][group], readings[GROUPS[group].first], readings[GROUPS[group].second]) for group in groups)


def six_answers(readings):
    return [coefficient(block, readings) for block in range(BLOCK_COUNT)]


# --------------------------------------------------------------------- reading

def lowest(variable):
    return MILLIRADIAN * PUBLISHED_LIMITS[LOWEST[variable]]


def highest(variable):
    return MILLIRADIAN * PUBLISHED_LIMITS[HIGHEST[variable]]


def is_outside(variable, reading):
    return not lowest(variable) <= reading <= highest(variable)


def read(readings, output):
    tests = {WRONG_OUTPUT_LENGTH: lambda: len(output) != READ_LENGTH}
    for v, number in enumerate(READING_OUTSIDE):
        tests[number] = lambda v=v: is_outside(v, readings[v])
    number = first_that_holds(ORDER, tests)
    if number == DONE:
        output[:] = six_answers(readings)
    return number
