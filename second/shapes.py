"""What the tables of a model look like, and how its published table is filled from printed text.

A shape says how many variables, blocks and groups there are, where everything stands in a table, how far each piece reaches in alpha,
and by which numbers readings are refused. Nothing in this file is rounded.

Spelling of a polynomial: terms joined by '+' or '-', every part separated by blanks. A term is a decimal number followed by its factors;
a factor is one of the model's letters with an optional power digit.
"""

from fractions import Fraction

ALPHA = 0                           # the first variable of every shape, the one whose cut parts the two pieces
ALPHA_CUT = 1                       # the place of the cut
THOUSANDTHS = 1000                  # of a milliradian: the unit of the fine cut
LOW_GROUP, HIGH_GROUP = PIECES = (0, 1)


class Group:
    """One polynomial group: where it sits in a block and what it is made of."""

    def __init__(self, start, first, second, degree):
        self.start = start
        self.first = first
        self.second = second
        self.powers = [
            (total - of_second, of_second)
            for total in range(degree + 1)
            for of_second in range(total + 1)
        ]


class Shape:
    """The tables of one model: alpha lowest, cut, highest; lowest and highest of the other variables; then the blocks.

    Where readings between two whole ones choose their piece themselves, the cut in thousandths, the fine cut, stands behind alpha's
    highest. Such a reading may be rounded past the cut, so there the pieces overlap in their reaches; else they part at the cut.
    """

    def __init__(self, letters, groups, block_count, reading_outside, has_fine_cut=False):
        self.letters = letters                          # of the variables, in the order in which they are numbered
        self.variable_count = len(letters)
        self.reading_outside = reading_outside          # the refusals of readings, by variable number
        self.groups = groups                            # of a block: low piece, high piece, then those that both pieces have
        self.side_groups = tuple(range(len(PIECES), len(groups)))
        self.block_count = block_count
        self.block_length = sum(len(group.powers) for group in groups)
        self.fine_cut = 3 if has_fine_cut else None     # its place
        others = 4 if has_fine_cut else 3               # the place of the second variable's lowest limit
        self.first_block = others + 2 * (self.variable_count - 1)
        self.table_length = self.first_block + block_count * self.block_length
        self.read_length = block_count
        # places of the lowest and highest limit, by variable number
        self.lowest = (0,) + tuple(range(others, self.first_block, 2))
        self.highest = (2,) + tuple(range(others + 1, self.first_block, 2))
        # where the low piece's reach ends and the high one's starts, counted from the cut
        self.low_end, self.high_start = (1, 0) if has_fine_cut else (0, 1)
        # places that go along when a variable's datum moves; the fine cut goes along in its own unit
        self.limit_places = ((0, ALPHA_CUT, 2),) + tuple(zip(self.lowest[1:], self.highest[1:]))
        # by block, then by group
        self.parts = [[self.part_of(block, group) for group in groups] for block in range(block_count)]
        self.published = None

    def limits(self, alpha, others=(), thousandths=0):
        """Limits as they stand in a table: alpha's, the fine cut so far above the cut where there is one, the others', and zeros."""
        fine = () if self.fine_cut is None else (THOUSANDTHS * alpha[ALPHA_CUT] + thousandths,)
        given = tuple(alpha) + fine + tuple(others)
        return given + (0,) * (self.first_block - len(given))

    def part_of(self, block, group):
        """Where a group of a block stands in a table."""
        start = self.first_block + self.block_length * block + group.start
        return slice(start, start + len(group.powers))

    def place_of(self, block, group_number, powers):
        """Place in the table of one term; powers are (of first, of second)."""
        return self.parts[block][group_number].start + self.groups[group_number].powers.index(powers)


# ---------------------------------------------------------------- printed text

def parse_polynomial(text, letters):
    """Give {powers of the variables: exact value} for a printed text."""
    terms = {}
    sign, value, powers = 1, None, [0] * len(letters)

    def close_term():
        if value is not None:
            key = tuple(powers)
            if key in terms:
                raise ValueError("a power is printed twice: " + text)
            terms[key] = sign * value

    for part in text.split():
        if part in "+-":
            close_term()
            sign, value, powers = (1 if part == "+" else -1), None, [0] * len(letters)
        elif part[0] in letters:
            powers[letters.index(part[0])] += int(part[1:] or "1")
        else:
            value = Fraction(part)
    close_term()
    return terms


def stored_number(value, degree):
    """Scale a printed value so that milliradians give units of 10^-17."""
    units = value * 10**5
    if units.denominator != 1:
        raise ValueError("a printed value is finer than 10^-5")
    return int(units) * 1000 ** (4 - degree)


def printed_terms(printed, letters, equations):
    """Every term of some equations, one after the other."""
    return [term for equation in equations for term in parse_polynomial(printed[equation], letters).items()]


def published_table(shape, limits, printed, equations_of_block):
    """Fill a table from the printed text; where two equations of a group have the same powers, their numbers add."""
    table = list(limits) + [0] * (shape.block_count * shape.block_length)
    for block, equations_by_group in enumerate(equations_of_block):
        for number, (group, equations) in enumerate(zip(shape.groups, equations_by_group)):
            for powers, value in printed_terms(printed, shape.letters, equations):
                pair = (powers[group.first], powers[group.second])
                if sum(pair) != sum(powers):
                    raise ValueError("a foreign variable in equations %s" % (equations,))
                table[shape.place_of(block, number, pair)] += stored_number(value, sum(pair))
    return tuple(table)
