"""Sections in which nothing is drawn: the checked values, every limit, wrong lengths, every mixture of defects, single numbers, fine
cuts that belong to a cut and that do not.

Those of mixed defects and of edges are for the shape of the script that they are given.
"""

from itertools import product

from draws import I64_MAX, I64_MIN, MASK
from makers import (
    INFINITY, NARROW_ALPHA, PROMISED_SIZES, QUIET_NAN, X_CONSTANT, X_LOW_AAA, ZEROS, bits_of_ratio, bits_of_whole, corners, cut_at,
    full_number, last_accepted, places_of_block, with_reading,
)
from model import BLOCK_LENGTH, CUMULUS, FINE_CUT, FIRST_BLOCK, HIGHEST, LOWEST, PUBLISHED_TABLE, TABLE_LENGTH
from shapes import ALPHA_CUT, HIGH_GROUP, LOW_GROUP
from tables import WEIGHT_CAP

ODD_VARIABLES = (5, 6, 1 << 32, (1 << 32) + 1, 1 << 63, MASK)
# the length of a table, and others about it and about those of its parts
TABLE_LENGTHS = (312, 0, 1, 6, 11, 12, 62, 311, 313, 320)
# those of a read and of a table, and others about them
ROOMS = (6, 5, 7) + TABLE_LENGTHS
NO_TABLE_ROOMS = (0, 5, 6, 7, 311, 313, 320)
ENDS = (I64_MIN, I64_MIN + 1, -(1 << 32), -(1 << 31), (1 << 31) - 1, 1 << 32, I64_MAX - 1, I64_MAX)


def room_of_numbers(script, space, length):
    """A room that holds other numbers, which stay where nothing is written."""
    script.zeros(space, length)
    if length:
        script.fill(space, 0, 1, MASK, 1)


def changed_copy(script, *changes):
    """Space 1 made what space 0 is, but for some places with other numbers."""
    script.copy(0, 1)
    for place, number in changes:
        script.set(1, place, number)


def publishing(script, _):
    """Into rooms of every length, and every number of the table."""
    for length in ROOMS:
        room_of_numbers(script, 0, length)
        script.publish(0)
        script.sum(0)
    script.published(0)
    script.show(0, 0, FIRST_BLOCK)
    for start in range(FIRST_BLOCK, TABLE_LENGTH, BLOCK_LENGTH):
        script.show(0, start, BLOCK_LENGTH)


def checked_values(script, _):
    script.published(0)
    script.length(1, TABLE_LENGTH)
    checked_reads(script)
    script.comment("8 and 9")
    for shift in (100, -1000, -1001):
        script.move(0, 0, shift, 1)
        script.show(1, 0, 22)
    checked_weights(script)


def checked_reads(script):
    """Of the published table in space 0."""
    script.comment("1 to 6")
    for state in (ZEROS, with_reading(0, 100), with_reading(0, 313), with_reading(0, 314), [100, 0, 0, 100, 0], with_reading(2, 100)):
        script.read(0, state)
    script.comment("7")
    for alpha in (1000, 1001, -150, -151):
        script.read(0, with_reading(0, alpha))
    script.read(0, [1001, 501, 0, 0, 0])


def checked_weights(script):
    """Of tables in space 0, moved into space 1."""
    script.comment("10")
    script.limits(0, PUBLISHED_TABLE[:FIRST_BLOCK])
    for value in (WEIGHT_CAP, WEIGHT_CAP + 1):
        script.set(0, X_CONSTANT, value)
        script.read(0, ZEROS)
        script.move(0, 0, 0, 1)
    script.comment("11, with the first and the last fine cut of its cut, and one between")
    for thousandths in (0, 600, 999):
        script.limits(0, CUMULUS.limits(NARROW_ALPHA, thousandths=thousandths))
        script.set(0, X_LOW_AAA, 9000000000000)
        for alpha, shift in ((0, 0), (-25, 100), (-50, -100), (-75, 1), (-100, -1)):
            script.read(0, with_reading(0, alpha))
            script.move(0, 0, shift, 1)


def readings_at_the_limits(script, _):
    script.published(0)
    t = PUBLISHED_TABLE
    for v in range(5):
        lo, hi = t[LOWEST[v]], t[HIGHEST[v]]
        for value in (lo - 1, lo, lo + 1, -1, 0, 1, hi - 1, hi, hi + 1):
            script.read(0, with_reading(v, value))
    for alpha in range(310, 318):
        script.read(0, [alpha, 7, -5, 3, -2])
    script.comment("every corner, in both pieces")
    for state in corners(CUMULUS, t):
        script.read(0, state)


def readings_at_the_ends(script, _):
    """Readings at the ends of 64 and of 32 bits, and two and more of them."""
    script.published(0)
    script.length(1, TABLE_LENGTH)
    script.move(0, 0, 300, 1)
    for v in range(5):
        for value in ENDS + (1 << 32 | 5, -(1 << 32) - 5):
            script.read(0, with_reading(v, value))
            script.read(1, with_reading(v, value))
    for v in range(5):
        for w in range(5):
            state = with_reading(w, I64_MAX)
            state[v] = I64_MIN
            script.read(0, state)
    for value in ENDS:
        script.read(0, [value] * 5)
        for v in range(5):
            state = [value] * 5
            state[v] = 0
            script.read(1, state)


def shifts_at_the_ends(script, _):
    """Shifts at the ends of 64 and of 32 bits, of tables at both ends of the limits too."""
    script.published(0)
    script.limits(1, PUBLISHED_TABLE[:FIRST_BLOCK])
    script.limits(2, CUMULUS.limits((-2000, 0, 2000), (-2000, 2000) * 4))
    script.limits(3, CUMULUS.limits((-2000, -2000, -1999), (-2000, -2000) * 4, 1))
    script.limits(4, CUMULUS.limits((1999, 1999, 2000), (2000, 2000) * 4, 999))
    script.length(5, TABLE_LENGTH)
    for v in range(5):
        for shift in ENDS + ((1 << 32) + 1, I64_MIN + 2000, I64_MIN + 2001, I64_MAX - 2000, I64_MAX - 1999):
            for space in range(5):
                script.move(space, v, shift, 5)
    for v in range(5):
        for space, shifts in ((2, (-1, 0, 1)), (3, (-4001, -4000, -3999, -1, 0, 1)), (4, (4001, 4000, 3999, 1, 0, -1))):
            for shift in shifts:
                script.move(space, v, shift, 5)


def moves_of_the_published_table(script, _):
    script.published(0)
    script.limits(1, PUBLISHED_TABLE[:FIRST_BLOCK])
    script.length(2, TABLE_LENGTH)
    t = PUBLISHED_TABLE
    for v in range(5):
        lo, hi = t[LOWEST[v]], t[HIGHEST[v]]
        promised = PROMISED_SIZES[CUMULUS][v]
        for shift in (0, 1, -1, promised, -promised, promised + 1, -promised - 1,
                      lo, hi, lo + 2000, lo + 2001, hi - 2000, hi - 2001, 4000, -4000):
            script.move(0, v, shift, 2)
            script.move(1, v, shift, 2)
    script.comment("the last that is accepted and the first that is refused")
    for v in range(5):
        for sign in (1, -1):
            size = last_accepted(CUMULUS, t, v, sign)
            script.move(0, v, sign * size, 2)
            script.move(0, v, sign * (size + 1), 2)
    script.comment("variables that are none")
    for v in ODD_VARIABLES:
        for shift in (0, 1, -1001, I64_MIN, I64_MAX):
            script.move(0, v, shift, 2)


def published_of_length(script, space, length):
    """The published table, cut short or with zeros behind it."""
    script.published(space)
    script.length(space, length)


def wrong_lengths_of_reads(script, _):
    for length in TABLE_LENGTHS:
        published_of_length(script, 0, length)
        for room in ROOMS:
            script.read(0, ZEROS, room)
        for pattern in (bits_of_ratio(1, 4), INFINITY):
            script.floats(0, with_reading(1, pattern))


def wrong_lengths_of_moves(script, _):
    """Tables and rooms of every length, with the last variable and with none."""
    for length in TABLE_LENGTHS:
        published_of_length(script, 0, length)
        for room in ROOMS:
            script.length(1, room)
            script.move(0, 4, 5, 1)
            script.move(0, 5, 5, 1)
    script.comment("into the same space")
    for length in ROOMS:
        published_of_length(script, 0, length)
        script.move(0, 4, 5, 0)
        script.move(0, 5, 5, 0)


# ------------------------------------------------------------- mixed defects

def lay_out_defects(script, heavy_to_move):
    """Spaces 0 to 7 for every mixture of a wrong length (1), limits that are not good (2) and a number that is too heavy (4)."""
    shape = script.shape
    for mask in range(8):
        script.limits(mask, shape.limits(NARROW_ALPHA))
        if heavy_to_move:
            script.set(mask, shape.place_of(0, LOW_GROUP, (3, 0)), 9000000000000)
        if mask & 2:
            script.set(mask, shape.lowest[1], 1)        # above its highest 0
        if mask & 4:
            script.set(mask, shape.table_length - shape.block_length - 1, I64_MIN)
        if mask & 1:
            script.length(mask, shape.table_length - 1)


def mixed_defects_of_reads(script, _):
    lay_out_defects(script, False)
    variables = range(script.shape.variable_count)
    for mask in range(8):
        for outside in range(1 << len(variables)):
            state = [2 if outside >> v & 1 else 0 for v in variables]
            script.read(mask, state)
            script.read(mask, state, script.shape.read_length - 1)


def mixed_defects_of_moves(script, _):
    script.length(9, script.shape.table_length - 1)
    for heavy_to_move in (False, True):
        lay_out_defects(script, heavy_to_move)
        script.zeros(8)
        for mask in range(8):
            for variable in (0, script.shape.variable_count):
                for shift in (100, 3000):
                    script.move(mask, variable, shift, 8)
                    script.move(mask, variable, shift, 9)


def wrong_rooms_and_defects(script, _, rooms=NO_TABLE_ROOMS):
    """Wrong rooms for publishing, moves and reads, with every mixture of a table's defects: which refusal comes first."""
    lay_out_defects(script, True)
    none, inside = script.shape.variable_count, [0] * script.shape.variable_count
    for room in rooms:
        room_of_numbers(script, 9, room)
        script.publish(9)
        for mask in range(8):
            for variable, shift in ((0, 0), (0, 100), (0, 3000), (none, 0), (none, 3000)):
                script.move(mask, variable, shift, 9)
            script.read(mask, inside, room)
            script.read(mask, [2] + inside[1:-1] + [2], room)
        script.sum(9)


def mixed_defects_of_floats(script, _):
    """Every mixture of readings that are inside, outside and not finite, and every mixture of tables' defects with some."""
    script.published(9)
    lay_out_defects(script, False)
    choices = (bits_of_ratio(1, 4), bits_of_ratio(-10001, 2), INFINITY)
    for patterns in product(choices, repeat=5):
        script.floats(9, patterns)
    for mask in range(8):
        for first, last in product(choices, repeat=2):
            script.floats(mask, [first, 0, 0, 0, last])


def one_or_none(changes):
    return [(change,) for change in changes] + [()]


def kinds_of_defects(script, _):
    """Two and three defects of each kind together, for each operation."""
    limit_defects = ((0, 2001), (11, -2001), (0, 1), (5, -1), (8, 1), (FINE_CUT, 1000))
    heavy_defects = ((12, WEIGHT_CAP + 1), (31, I64_MIN), (161, I64_MAX), (311, -WEIGHT_CAP - 1))
    no_high_piece = tuple(cut_at(CUMULUS, 1))
    script.limits(0, CUMULUS.limits(NARROW_ALPHA))
    script.zeros(2)
    script.length(3, 313)
    for defects in product([no_high_piece] + one_or_none(limit_defects), one_or_none(heavy_defects)):
        changed_copy(script, *sum(defects, ()))
        script.read(1, [2, 0, 0, 0, 0])
        script.read(1, [0, 0, 0, 1, -1], 7)
        script.floats(1, [0, QUIET_NAN, 0, bits_of_whole(2), 0])
        script.floats(1, [0, 0, bits_of_whole(2), 0, bits_of_whole(-2)])
        script.move(1, 0, 2000, 2)
        script.move(1, 4, -2001, 2)
        script.move(1, 7, 1, 2)
        script.move(1, 7, 3000, 3)


# ------------------------------------------------------------- single numbers

def smallest_number(script, _):
    """The smallest 64-bit number is too heavy wherever it is stored, and no limit."""
    script.limits(0, CUMULUS.limits(NARROW_ALPHA))
    script.zeros(2)
    for place in range(TABLE_LENGTH):
        changed_copy(script, (place, I64_MIN))
        script.read(1, ZEROS)
        if place % 10 == 0:
            script.move(1, place // 10 % 5, 0, 2)
            script.floats(1, ZEROS)
            script.set(1, place, I64_MIN + 1)
            script.read(1, ZEROS)


def single_numbers(script, _):
    """One stored number at a time, read in either piece and moved."""
    script.limits(0, CUMULUS.limits((-9, 2, 11), (-8, 12, -7, 10, -6, 13, -5, 9), 700))
    script.zeros(2)
    for k in range(300):
        changed_copy(script, (FIRST_BLOCK + k, 1000003))
        script.read(1, [2, 3, -5, 7, -4])
        script.read(1, [3, -3, 5, -6, 8])
        script.move(1, k % 5, 3, 2)
        script.move(1, (k + 1) % 5, -4, 2)


def edges_of_the_limits(script, _):
    """Limits just good and just not."""
    shape = script.shape
    state = [0] * shape.variable_count
    script.limits(0, shape.limits((-5, 0, 5), (-5, 5) * (shape.variable_count - 1)))
    script.zeros(2)
    for place in range(shape.first_block):
        for limit in (-2001, -2000, 2000, 2001, 1999, -1999):
            changed_copy(script, (place, limit))
            script.read(1, state)
            script.move(1, place % shape.variable_count, 0, 2)
    script.comment("lowest, cut and highest beside each other")
    for limits in product((-1, 0, 1), repeat=3):
        changed_copy(script, *enumerate(shape.limits(limits)[:shape.lowest[1]]))
        script.read(1, state)
    for lowest_place, highest_place in shape.limit_places[1:]:
        for lowest, highest in ((0, 0), (1, 0), (0, -1), (-2000, 2000), (2000, 2000), (2000, -2000)):
            changed_copy(script, (lowest_place, lowest), (highest_place, highest))
            script.read(1, state)


def edges_of_the_reach(script, _):
    """The weights that go with a reach of 1 and with each piece's reach."""
    shape = script.shape
    script.comment("all limits 0 but alpha's highest: each reach is 1, and a number weighs its magnitude in any place")
    script.limits(0, shape.limits((0, 0, 1)))
    for place in places_of_block(shape):
        for number in (WEIGHT_CAP, -WEIGHT_CAP - 1):
            changed_copy(script, (place, number))
            script.read(1, with_reading(0, 0, shape))
    script.comment("where the low piece's reach ends, and where the high piece's starts")
    for alpha in ((-4, -3, -2), (2, 3, 9), (-9, -5, -4), (4, 5, 6)):
        limits = shape.limits(alpha)
        script.limits(0, limits)
        for piece, power in product((LOW_GROUP, HIGH_GROUP), (1, 3)):
            place = shape.place_of(0, piece, (power, 0))
            for more in (0, 1):
                changed_copy(script, (place, full_number(shape, limits, place) + more))
                script.read(1, with_reading(0, alpha[ALPHA_CUT], shape))
                script.read(1, with_reading(0, alpha[ALPHA_CUT] + 1, shape))


def fine_cuts(script, _):
    """For each cut the fine cuts about its first and its last, those about zero, and far ones: which belong to it."""
    script.limits(0, CUMULUS.limits((-2000, 0, 2000)))
    script.zeros(2)
    for cut in (-2000, -1999, -2, -1, 0, 1, 2, 313, 1998, 1999):
        script.set(0, ALPHA_CUT, cut)
        first, last = 1000 * cut, 1000 * cut + 999
        for fine in (first - 1, first, first + 500, last, last + 1, -first, cut, -1001, -1000, -1, 0, 999, 1000, I64_MIN, I64_MAX):
            script.set(0, FINE_CUT, fine)
            script.read(0, ZEROS)
            script.move(0, 1, 0, 2)
    script.comment("a number that is the right fine cut once a multiple of 2^32 is taken off")
    changed_copy(script, (ALPHA_CUT, 0), (FINE_CUT, 1 << 32))
    script.read(1, ZEROS)
    script.comment("the narrow table of the checked values")
    script.limits(0, CUMULUS.limits(NARROW_ALPHA))
    for fine in (-1001, -1000, -1, 0, 999, 1000):
        script.set(0, FINE_CUT, fine)
        script.read(0, ZEROS)
        script.floats(0, ZEROS)
        script.move(0, 0, 1, 2)


def moved_fine_cuts(script, _):
    """Moves of alpha take the fine cut along in its own unit, and those of the others leave it; there and back it is the same."""
    script.zeros(1)
    script.zeros(2)
    for alpha, thousandths in (((-150, 313, 1000), 269), ((-3, -1, 5), 999), ((-3, -1, 5), 1), ((-7, 0, 7), 500), ((-2000, -1, 2000), 0)):
        script.limits(0, CUMULUS.limits(alpha, (-5, 5) * 4, thousandths))
        for variable, shift in ((0, 1), (0, -1), (0, 100), (0, -1000), (0, 1000), (0, -1001), (1, 3), (2, -3), (3, 3), (4, -3), (4, 1995)):
            if script.move(0, variable, shift, 1):
                script.show(1, 0, FIRST_BLOCK)
                script.move(1, variable, -shift, 2)
                script.show(2, 0, FINE_CUT + 1)


SECTIONS = (
    ("Publishing", publishing),
    ("Checked values 1 to 11", checked_values),
    ("Readings at the limits", readings_at_the_limits),
    ("Readings at the ends of 64 bits", readings_at_the_ends),
    ("Shifts at the ends of 64 bits", shifts_at_the_ends),
    ("Moves of the published table", moves_of_the_published_table),
    ("Wrong lengths of reads", wrong_lengths_of_reads),
    ("Wrong lengths of moves", wrong_lengths_of_moves),
    ("Mixed defects of reads", mixed_defects_of_reads),
    ("Mixed defects of moves", mixed_defects_of_moves),
    ("Mixed defects of reads with floats", mixed_defects_of_floats),
    ("Wrong rooms and defects of tables", wrong_rooms_and_defects),
    ("Two and three defects of each kind", kinds_of_defects),
    ("The smallest number at each place", smallest_number),
    ("Single numbers", single_numbers),
    ("Edges of the limits", edges_of_the_limits),
    ("Edges of the reach", edges_of_the_reach),
    ("Fine cuts that belong to a cut", fine_cuts),
    ("Moved fine cuts", moved_fine_cuts),
)
