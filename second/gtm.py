"""Sections of GTM tables, listed and drawn: worked values, both sides of the cut, every limit and refusal, the largest moves, tables of
the other shape, single numbers, and drawn tables. Each is given a script whose operations are the GTM's."""

from itertools import product

import drawn
import listed
from draws import I64_MAX, I64_MIN, MASK
from gtm_model import ETA, GTM
from listed import ENDS, changed_copy, one_or_none, published_of_length, room_of_numbers
from makers import NARROW_ALPHA, PROMISED_SIZES, ZEROS, corners, last_accepted, shifted, with_reading
from model import CUMULUS
from shapes import ALPHA, ALPHA_CUT
from tables import WEIGHT_CAP

T = GTM.published
INSIDE = (0, 0)
ORDINARY = (57, -33)
IN_HIGH_PIECE = (654, 321)
EXAMPLES = (
    (INSIDE, "0 1700000000000000 3700000000000000 13100000000000000"),
    ((100, 0), "0 52982100000000000 5273500000000000 4810700000000000"),
    ((290, -400), "0 83456863900000000 26011407500000000 16018263300000000"),
    ((291, -400), "0 83453263718900000 26200386203100000 15702470095600000"),
    ((-150, 400), "0 -39990012500000000 8012537500000000 -25396887500000000"),
    (ORDINARY, "0 29984814223400000 3448539239200000 13845650308100000"),
    ((1001, 401), "11 untouched"),
    ((0, 401), "14 untouched"),
)
# the length of a table, and others about it and about those of its parts
TABLE_LENGTHS = (65, 0, 3, 5, 64, 66, 312, 320)
# those of a read and of a table, and others about them
ROOMS = (3, 2, 4, 65, 64, 66, 312)
NO_TABLE_ROOMS = (2, 64, 312)
ODD_VARIABLES = (2, 3, 4, 5, 1 << 32, (1 << 32) + 1, 1 << 63, MASK)
VARIABLES = (ALPHA, ETA)


# ---------------------------------------------------------- the published table

def publishing(script, _):
    """Into rooms of every length, and every number of the table."""
    for length in TABLE_LENGTHS:
        room_of_numbers(script, 0, length)
        script.publish(0)
        script.sum(0)
    script.published(0)
    script.show(0, 0, GTM.first_block)
    for parts in GTM.parts:
        for part in parts:
            script.show(0, part.start, part.stop - part.start)


def worked_values(script, _):
    script.published(0)
    script.zeros(1)
    for state, _ in EXAMPLES:
        script.read(0, state)
    script.read(0, (1001, 401), 2)
    for variable, shift in ((0, 35), (0, -1000), (0, -1001), (2, 0)):
        script.move(0, variable, shift, 1)
        script.show(1, 0, 15)


def readings_at_the_limits(script, _):
    """Every limit with its neighbours, every corner, and both sides of the cut."""
    script.published(0)
    for v in VARIABLES:
        lowest, highest = T[GTM.lowest[v]], T[GTM.highest[v]]
        for value in (lowest - 1, lowest, lowest + 1, -1, 0, 1, highest - 1, highest, highest + 1):
            for state in (INSIDE, ORDINARY, IN_HIGH_PIECE, (-150, -400), (1000, 400)):
                script.read(0, [value if w == v else reading for w, reading in enumerate(state)])
    for state in corners(GTM, T):
        script.read(0, state)
    script.comment("both sides of the cut")
    for alpha in range(T[ALPHA_CUT] - 4, T[ALPHA_CUT] + 6):
        for eta in (-400, -33, 0, 77, 400):
            script.read(0, (alpha, eta))


def grid(script, _):
    """Alpha and eta in steps through the whole envelope."""
    script.published(0)
    for alpha in list(range(-150, 1001, 50)) + [290, 291]:
        for eta in range(-400, 401, 200):
            script.read(0, (alpha, eta))


def readings_at_the_ends(script, _):
    """Readings at the ends of 64 and of 32 bits, one and both, of the published table and of a moved one."""
    script.published(0)
    script.zeros(1)
    script.move(0, ALPHA, 300, 1)
    for value in ENDS + (1 << 32 | 5, -(1 << 32) - 5):
        for v in VARIABLES:
            script.read(0, with_reading(v, value, GTM))
            script.read(1, with_reading(v, value, GTM))
        script.read(0, (value, value))
        script.read(0, (value, -1 - value))


# ----------------------------------------------------------------------- moves

def shifts_at_the_ends(script, _):
    """Shifts at the ends of 64 and of 32 bits, of tables at both ends of the limits too."""
    script.published(0)
    script.limits(1, [-2000, 0, 2000, -2000, 2000])
    script.limits(2, [-2000, -2000, -1999, -2000, -2000])
    script.limits(3, [1999, 1999, 2000, 2000, 2000])
    script.zeros(4)
    for v in VARIABLES:
        for shift in ENDS + ((1 << 32) + 1, I64_MIN + 2000, I64_MIN + 2001, I64_MAX - 2000, I64_MAX - 1999):
            for space in range(4):
                script.move(space, v, shift, 4)
        for space, shifts in ((1, (-1, 0, 1)), (2, (-4001, -4000, -3999, -1, 0, 1)), (3, (4001, 4000, 3999, 1, 0, -1))):
            for shift in shifts:
                script.move(space, v, shift, 4)


def moves_of_the_published_table(script, _):
    """And of a table of zeros with its limits, which takes every shift that its limits take."""
    script.published(0)
    script.limits(1, T[:GTM.first_block])
    script.zeros(2)
    for v in VARIABLES:
        lowest, highest, promised = T[GTM.lowest[v]], T[GTM.highest[v]], PROMISED_SIZES[GTM][v]
        for shift in (0, 1, -1, promised, -promised, promised + 1, -promised - 1, lowest, highest,
                      lowest + 2000, lowest + 2001, highest - 2000, highest - 2001, 4000, -4000):
            script.move(0, v, shift, 2)
            script.move(1, v, shift, 2)
    script.comment("the last that are accepted and the first that are refused")
    for v in VARIABLES:
        for sign in (1, -1):
            last = last_accepted(GTM, T, v, sign)
            for size in range(last - 2, last + 3):
                script.move(0, v, sign * size, 2)
    script.comment("variables that are none")
    for v in ODD_VARIABLES:
        for shift in (0, -1001, I64_MIN):
            script.move(0, v, shift, 2)


def read_both(script, state, variable, shift):
    """The same state in space 0, and in space 1 from the moved datum."""
    script.read(0, state)
    script.read(1, shifted(state, variable, shift))


def moved_and_read(script, _):
    """The published table moved, and both read where they have to answer the same: inside, on every limit, at the cut and outside."""
    script.published(0)
    script.zeros(1)
    cut = T[ALPHA_CUT]
    for variable, shift in ((0, 35), (0, -35), (0, 577), (0, -507), (1, 20), (1, 1533), (1, -1533)):
        script.move(0, variable, shift, 1)
        script.show(1, 0, GTM.first_block)
        for state in corners(GTM, T) + [(cut, 17), (cut + 1, 17), ORDINARY, (-151, 0), (1001, 0), (0, -401), (0, 401)]:
            read_both(script, state, variable, shift)


# ------------------------------------------------------------ lengths and rooms

def wrong_lengths_of_reads(script, _):
    for length in TABLE_LENGTHS:
        published_of_length(script, 0, length)
        for room in ROOMS:
            script.read(0, INSIDE, room)


def wrong_lengths_of_moves(script, _):
    """Tables and rooms of every length, with the last variable and with none."""
    for length in TABLE_LENGTHS:
        published_of_length(script, 0, length)
        for room in ROOMS:
            script.length(1, room)
            script.move(0, 1, 5, 1)
            script.move(0, 2, 5, 1)
    script.comment("into the same space")
    for length in ROOMS:
        published_of_length(script, 0, length)
        script.move(0, 1, 5, 0)
        script.move(0, 2, 5, 0)


def other_shape(script, _):
    """A Cumulus table given to the GTM's operations, a GTM table to those of Cumulus, and the rooms of one to the other."""
    cumulus = script.of(CUMULUS)
    cumulus.published(0)
    script.published(1)
    cumulus.zeros(2)
    script.zeros(3)
    moves = [(0, 0), (0, 35), (1, 20), (2, 0), (5, 0), (0, 5000)]
    script.comment("a table of 312 numbers")
    for state in (INSIDE, ORDINARY, (1001, 401)):
        for room in (3, 6, 2):
            script.read(0, state, room)
    for variable, shift in moves:
        script.move(0, variable, shift, 2)
        script.move(0, variable, shift, 3)
    script.comment("a table of 65 numbers")
    for state in (ZEROS, with_reading(0, 1001), [57, 0, 0, -33, 0]):
        for room in (6, 3, 5):
            cumulus.read(1, state, room)
    cumulus.floats(1, ZEROS)
    for variable, shift in moves:
        cumulus.move(1, variable, shift, 2)
        cumulus.move(1, variable, shift, 3)
    script.comment("rooms of the other shape")
    cumulus.publish(3)
    script.publish(2)
    cumulus.move(0, 0, 35, 3)
    script.move(1, 0, 35, 2)
    script.comment("tables of one shape with the length of the other")
    script.length(0, GTM.table_length)
    script.read(0, ORDINARY)
    script.move(0, 0, 35, 3)
    cumulus.length(1, CUMULUS.table_length)
    cumulus.read(1, ZEROS)
    cumulus.move(1, 0, 35, 2)


# ----------------------------------------------------------------- defects

def kinds_of_defects(script, _):
    """Two and three defects of each kind together, for each operation."""
    limit_defects = ((4, -2001), (1, 1), (3, 1))
    heavy_defects = ((5, WEIGHT_CAP + 1), (64, I64_MIN))
    script.limits(0, GTM.limits(NARROW_ALPHA))
    script.zeros(2)
    script.length(3, 66)
    for defects in product(one_or_none(limit_defects), one_or_none(heavy_defects)):
        changed_copy(script, *sum(defects, ()))
        script.read(1, (2, 0))
        script.read(1, (2, -1), 4)
        script.read(1, (0, -1))
        script.move(1, 0, 2000, 2)
        script.move(1, 1, -2001, 2)
        script.move(1, 2, 1, 2)
        script.move(1, 2, 3000, 3)


def order_of_refusals(script, _):
    """Every mixture of readings that are inside, below and above, with a fine room and with a wrong one."""
    script.published(0)
    for alpha, eta in product((0, -151, 1001, I64_MIN, I64_MAX), (0, -401, 401, I64_MIN, I64_MAX)):
        script.read(0, (alpha, eta))
        script.read(0, (alpha, eta), 2)


# ------------------------------------------------------------- single numbers

def smallest_number(script, _):
    """The smallest 64-bit number is too heavy wherever it is stored, and no limit."""
    script.limits(0, GTM.limits(NARROW_ALPHA))
    script.zeros(2)
    for place in range(GTM.table_length):
        changed_copy(script, (place, I64_MIN))
        script.read(1, INSIDE)
        if place % 3 == 0:
            script.move(1, place % 2, 0, 2)


def single_numbers(script, _):
    """One stored number at a time, read in either piece and moved."""
    script.limits(0, [-9, 2, 11, -6, 13])
    script.zeros(2)
    for place in range(GTM.first_block, GTM.table_length):
        changed_copy(script, (place, 1000003))
        script.read(1, (2, 7))
        script.read(1, (3, -6))
        script.move(1, 0, 3, 2)
        script.move(1, 1, -4, 2)


def cap_at_each_place(script, _):
    """The cap and one more at each place of a table whose reaches are 1, where a number weighs its magnitude in any place."""
    script.limits(0, [0, 0, 1])
    for place in range(GTM.first_block, GTM.table_length):
        changed_copy(script, (place, WEIGHT_CAP))
        script.read(1, INSIDE)
        script.read(1, (1, 0))
        script.set(1, place, -WEIGHT_CAP - 1)
        script.read(1, INSIDE)


# -------------------------------------------------------------------- sections

def of_gtm(section, *more):
    """A section told in the GTM's operations, with what else it is given: rooms, or the number of its turns."""
    return lambda script, gen: section(script.of(GTM), gen, *more)


SECTIONS = tuple((title, of_gtm(*section)) for title, *section in (
    ("Publishing the GTM table", publishing),
    ("Worked values of the GTM table", worked_values),
    ("GTM readings at the limits", readings_at_the_limits),
    ("GTM readings in a grid", grid),
    ("GTM readings at the ends of 64 bits", readings_at_the_ends),
    ("Shifts of GTM tables at the ends of 64 bits", shifts_at_the_ends),
    ("Moves of the published GTM table", moves_of_the_published_table),
    ("The GTM table moved and read", moved_and_read),
    ("Wrong lengths of GTM reads", wrong_lengths_of_reads),
    ("Wrong lengths of GTM moves", wrong_lengths_of_moves),
    ("Tables of the other shape", other_shape),
    ("Order of refusals of GTM readings", order_of_refusals),
    ("Mixed defects of GTM reads", listed.mixed_defects_of_reads),
    ("Mixed defects of GTM moves", listed.mixed_defects_of_moves),
    ("Wrong rooms and defects of GTM tables", listed.wrong_rooms_and_defects, NO_TABLE_ROOMS),
    ("Two and three defects of GTM tables", kinds_of_defects),
    ("The smallest number at each place of a GTM table", smallest_number),
    ("Single numbers of GTM tables", single_numbers),
    ("The cap at each place of a GTM table", cap_at_each_place),
    ("Edges of the limits of GTM tables", listed.edges_of_the_limits),
    ("Edges of the reach of GTM tables", listed.edges_of_the_reach),
    ("Drawn readings of the published GTM table", drawn.published_reads, 100),
    ("Drawn moves of the published GTM table", drawn.published_and_moved, 36),
    ("Composed moves of GTM tables", drawn.composed_moves, 5),
    ("Chains of GTM moves with refusals", drawn.chains_with_refusals, 8),
    ("GTM tables with bad limits", drawn.bad_limits, 30),
    ("Damaged GTM tables", drawn.damaged_tables, 32),
    ("Random GTM tables", drawn.random_tables, 32),
    ("Dense random GTM tables", drawn.dense_random_tables),
    ("Borders of moved GTM tables", drawn.borders_of_moved_tables, 10),
    ("Weights of GTM tables at the cap", drawn.weights_at_the_cap),
    ("Moves of GTM tables at the cap", drawn.moves_at_the_cap),
    ("A number in each block of a GTM table", drawn.each_block, 27),
))
