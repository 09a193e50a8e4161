"""The two roundings of a fraction to the nearest whole number. They differ at halves alone."""


def half_away(value):
    """A half goes away from zero: readings with floats, and products in microradians."""
    size = (2 * abs(value.numerator) + value.denominator) // (2 * value.denominator)
    return -size if value.numerator < 0 else size


def half_even(value):
    """A half goes to the even neighbour: answers as floats."""
    below, rest = divmod(value.numerator, value.denominator)
    twice = 2 * rest
    if twice > value.denominator or (twice == value.denominator and below % 2 == 1):
        return below + 1
    return below
