"""States, tables and floats for cases: plain ones, drawn ones, ones at a border.

What makes a table tells a script how, and leaves it in a space of the script's desk.
"""

from fractions import Fraction

import door
import tables
from draws import I64_MAX, I64_MIN, signed
from gtm_model import GTM
from model import CUMULUS, FINE_CUT, FIRST_BLOCK, HIGHEST, LOWEST
from shapes import ALPHA, ALPHA_CUT, HIGH_GROUP, LOW_GROUP, THOUSANDTHS
from tables import WEIGHT_CAP

ZEROS = [0, 0, 0, 0, 0]
NARROW_ALPHA = (-100, 0, 1)         # alpha's limits; with them go others of 0
X_CONSTANT = FIRST_BLOCK
X_LOW_AAA = CUMULUS.place_of(0, LOW_GROUP, (3, 0))      # place 18
# how far fine cuts lie above the whole one: at the ends, and on both sides of a half, from which on alpha is rounded past the cut
THOUSANDTHS_ABOVE = (0, 499, 500, 501, 999)
# sizes up to which each single move of a published table is accepted, by variable number
PROMISED_SIZES = {CUMULUS: (300, 200, 100, 200, 200), GTM: (500, 1500)}


# ---------------------------------------------------------------------- states

def with_reading(variable, value, shape=CUMULUS):
    readings = [0] * shape.variable_count
    readings[variable] = value
    return readings


def corners(shape, table):
    """Every state in which each reading is at its lowest or its highest limit."""
    return [[table[(shape.highest if corner >> v & 1 else shape.lowest)[v]] for v in range(shape.variable_count)]
            for corner in range(1 << shape.variable_count)]


def inside_state(gen, shape, table):
    """Readings within the limits, often on them or at the cut."""
    readings = []
    for v in range(shape.variable_count):
        lo, hi = table[shape.lowest[v]], table[shape.highest[v]]
        way = gen.take(0, 7)
        reading = gen.take(lo, hi)
        if way == 0:
            reading = lo
        elif way == 1:
            reading = hi
        elif way == 2 and v == ALPHA:
            reading = table[ALPHA_CUT]
        elif way == 3 and v == ALPHA:
            reading = signed(table[ALPHA_CUT] + 1)
        readings.append(reading)
    return readings


def any_variable(gen, shape):
    return gen.take(0, shape.variable_count - 1)


def spoil_state(gen, shape, table, readings):
    """Replace one reading by a value just past a limit or far away."""
    v = any_variable(gen, shape)
    way = gen.take(0, 4)
    anything = gen.take(I64_MIN, I64_MAX)
    spoilt = list(readings)
    spoilt[v] = (signed(table[shape.lowest[v]] - 1), signed(table[shape.highest[v]] + 1),
                 I64_MIN, I64_MAX, anything)[way]
    return spoilt


def shifted(readings, variable, shift):
    """The same state told from the moved datum."""
    moved = list(readings)
    moved[variable] = signed(moved[variable] - shift)
    return moved


# -------------------------------------------------------------- changed tables

def nudge(script, gen, space, into):
    """A small move, which the published table always takes."""
    script.length(into, script.shape.table_length)
    script.move(space, any_variable(gen, script.shape), gen.take(-100, 100), into)


def spoil_limits(script, gen, space):
    """Limits that are not good, or, the last way of each kind, just still good."""
    t, shape = script.table(space), script.shape
    v, last = gen.take(1, shape.variable_count - 1), shape.first_block - 1
    lowest, highest = shape.lowest[v], shape.highest[v]
    far = gen.pick((I64_MIN, I64_MAX, gen.take(I64_MIN, I64_MAX)))
    ways = [
        [(gen.take(0, last), 2001)], [(gen.take(0, last), -2001)], [(gen.take(0, last), far)],
        cut_at(shape, t[2]),                # no room for the high piece
        [(0, t[1] + 1)],                    # no room for the low piece
        [(lowest, t[highest] + 1)],
        [(lowest, t[highest])],             # still good: one single reading
    ]
    if shape.fine_cut is not None:
        ways += [[(shape.fine_cut, fine)] for fine in other_fine_cuts(gen, t[ALPHA_CUT])]
    for place, value in gen.pick(ways):
        script.set(space, place, value)


def cut_at(shape, cut):
    """What to set for another cut: the fine one goes along."""
    return [(ALPHA_CUT, cut)] + ([] if shape.fine_cut is None else [(shape.fine_cut, THOUSANDTHS * cut)])


def other_fine_cuts(gen, cut):
    """Those next to a cut's own on both sides, farther ones, the cut itself in milliradians; and two that belong to it."""
    first, last = THOUSANDTHS * cut, THOUSANDTHS * cut + THOUSANDTHS - 1
    return first - 1, last + 1, -first, gen.take(I64_MIN, I64_MAX), gen.take(-2000000, 2000999), cut, first, last


def damage(script, gen, space):
    """One number changed."""
    place = gen.take(0, script.shape.table_length - 1)
    old = script.table(space)[place]
    anything = gen.take(I64_MIN, I64_MAX)
    script.set(space, place, gen.pick((I64_MIN, I64_MAX, signed(old + 1), signed(old - 1), signed(-old), 0, anything)))


# --------------------------------------------------------------- random tables

def drawn_thousandths(gen):
    """How far a fine cut lies above the whole one."""
    return gen.pick(THOUSANDTHS_ABOVE + (gen.take(0, 999),))


def good_limits(gen, shape):
    """Good limits, drawn in the order of their places."""
    m = gen.pick((2000, 500, 50, 3))
    limits = [0] * shape.first_block
    limits[0] = gen.take(-m, m - 1)
    limits[1] = gen.take(limits[0], m - 1)
    limits[2] = gen.take(limits[1] + 1, m)
    if shape.fine_cut is not None:
        limits[shape.fine_cut] = THOUSANDTHS * limits[1] + drawn_thousandths(gen)
    for lowest, highest in shape.limit_places[1:]:
        if gen.take(0, 5) != 0:             # else both stay 0: the reach of 1
            limits[lowest] = gen.take(-m, m)
            limits[highest] = gen.take(limits[lowest], m)
    return limits


def block_of(shape, place):
    return (place - shape.first_block) // shape.block_length


def group_and_offset(shape, place):
    """The number of a place's group, and its place inside that."""
    offset = (place - shape.first_block) % shape.block_length
    number = max(g for g, group in enumerate(shape.groups) if group.start <= offset)
    return number, offset - shape.groups[number].start


def piece_of(shape, place):
    """The piece of which a place is weighed; that of a side group is weighed in both, with the same factor."""
    return LOW_GROUP if group_and_offset(shape, place)[0] == LOW_GROUP else HIGH_GROUP


def variables_and_powers(shape, place):
    """Both variables of a place's group, each with its power in the term of the place."""
    number, inside = group_and_offset(shape, place)
    group = shape.groups[number]
    return list(zip((group.first, group.second), group.powers[inside]))


def product_at(shape, radii, place):
    (first, of_first), (second, of_second) = variables_and_powers(shape, place)
    return radii[first] ** of_first * radii[second] ** of_second


def variables_at(shape, place):
    """The variables that the term of a place has."""
    return [variable for variable, power in variables_and_powers(shape, place) if power]


def factor_at(shape, limits, place):
    """The product of reaches by which the number at a place is weighed."""
    return product_at(shape, tables.reaches(shape, limits, piece_of(shape, place)), place)


def move_factor_at(shape, limits, place, variable, shift):
    """The same for the weight by which a move is accepted or refused."""
    piece = piece_of(shape, place)
    radii = tables.reaches(shape, limits, piece)
    moved = tables.moved_limits(shape, limits, variable, shift)
    radii[variable] = tables.reaches(shape, moved, piece)[variable] + abs(shift)
    return product_at(shape, radii, place)


# What one of 40 terms may weigh. The first make tables near the cap, on either side of it; the last make light tables that can be moved
# far.
BUDGETS = (2 * 10**18, 10**18, 5 * 10**17, 10**15, 10**12, 10**9)
# Of how many blocks' length the steps are.
STEPS = (1, 1, 1, 1, 2, 3, 0)


def for_each_term(shape, budget):
    """What one term of a shape may weigh: more where fewer than 40 are weighed together."""
    together = sum(len(shape.groups[number].powers) for number in (LOW_GROUP,) + shape.side_groups)
    return budget * 40 // together


def places_of_block(shape):
    """Those of the first block."""
    return range(shape.first_block, shape.first_block + shape.block_length)


def draw_seed(gen):
    """Long enough that the first drawn number has 64 bits too."""
    return gen.take(1, 10**12)


def random_table(script, gen, space):
    """Good limits, and drawn numbers at some places of several blocks, each weighing no more than a drawn budget."""
    shape = script.shape
    limits = good_limits(gen, shape)
    script.limits(space, limits)
    budget = for_each_term(shape, gen.pick(BUDGETS))
    if gen.take(0, 1) == 1:                 # no place is left 0
        heaviest = max(factor_at(shape, limits, place) for place in places_of_block(shape))
        script.fill(space, shape.first_block, 1, budget // heaviest + 2, draw_seed(gen))
    for _ in range(gen.take(4, 14)):
        place = gen.take(shape.first_block, shape.first_block + 2 * shape.block_length - 1)
        step = gen.pick(STEPS) * shape.block_length
        script.fill(space, place, step, budget // factor_at(shape, limits, place) + 1, draw_seed(gen))


# The same where most places hold a number.
DENSE_BUDGETS = (5 * 10**17, 4 * 10**17, 2 * 10**17, 10**15, 10**12, 10**9)


def dense_table(script, gen, space, budget, quarters):
    """Good limits, and at so many quarters of the places drawn numbers, each weighing up to the budget in its own place."""
    shape = script.shape
    limits = good_limits(gen, shape)
    script.limits(space, limits)
    most = for_each_term(shape, budget)
    for place in places_of_block(shape):
        if gen.take(1, 4) <= quarters:
            script.fill(space, place, shape.block_length, most // factor_at(shape, limits, place) + 1, draw_seed(gen))


# --------------------------------------------------------------------- borders

def last_accepted(shape, table, variable, sign):
    """Largest size of an accepted move, by halving.

    A move by 4001 always pushes a good limit out, and acceptance never comes
    back as the size grows, so halving finds the border.
    """
    accepted, beyond = 0, 4001
    while beyond - accepted > 1:
        middle = (accepted + beyond) // 2
        if tables.move_number(shape, table, variable, sign * middle, shape.table_length) == 0:
            accepted = middle
        else:
            beyond = middle
    return accepted


def of_sign(gen, size):
    return -size if gen.take(0, 1) == 1 else size


def full_number(shape, limits, place):
    """The largest number that a place takes alone."""
    return WEIGHT_CAP // factor_at(shape, limits, place)


def rest_of_cap(shape, limits, place):
    """What the largest number leaves of the cap."""
    return WEIGHT_CAP % factor_at(shape, limits, place)


def filling_place(shape, place):
    """A place of the same block for what the largest number of a place leaves of the cap, never the place itself.

    It is the constant of a side group or, where there is none, of the place's own group: its number weighs its own magnitude,
    wherever the place is weighed. Beside this constant nothing is left, and it is the next place.
    """
    own = group_and_offset(shape, place)[0]
    constants = [shape.place_of(block_of(shape, place), number, (0, 0)) for number in shape.side_groups or (own,)]
    return [filling for filling in constants + [place + 1] if filling != place][0]


def size_near(gen, full, way):
    part = gen.take(0, 7)
    less = gen.next() % (full // 2 + 1)
    return (full // (part + 1), full - less, full)[way]


def one_in_each_block(script, gen, space, limits, way):
    """One number in each block, within the cap.

    Way 0: at places of their own, each a part of the largest number; ways 1
    and 2: all at the same place of their blocks, near the largest number and
    the largest number itself.
    """
    shape = script.shape
    script.limits(space, limits)
    same = gen.take(0, shape.block_length - 1)
    for start in range(shape.first_block, shape.table_length, shape.block_length):
        own = gen.take(0, shape.block_length - 1)
        place = start + (own if way == 0 else same)
        script.set(space, place, of_sign(gen, size_near(gen, full_number(shape, limits, place), way)))


# ---------------------------------------------------------------------- floats

INFINITY = door.INFINITY_BITS
QUIET = 1 << 51                             # the bit that tells a quiet NaN from a signalling one
QUIET_NAN = INFINITY | QUIET


def bits_of_ratio(numerator, denominator):
    """Pattern of numerator / denominator; used only where that is exact."""
    return door.nearest_bits(Fraction(numerator, denominator))


def bits_of_whole(number):
    return bits_of_ratio(number, 1)


def beside(bits, step):
    """The float itself (0) or a next one (-1 and 1); that before positive zero is the smallest negative one."""
    return bits + step if bits + step >= 0 else door.SIGN_BIT | 1


def bits_of_thousandths(thousandths):
    """The float nearest to so many thousandths."""
    return door.nearest_bits(Fraction(thousandths, THOUSANDTHS))


SPECIAL_BITS = (
    0x0000000000000000, 0x8000000000000000,     # both zeros
    0x0000000000000001, 0x8000000000000001,     # smallest subnormals
    0x000FFFFFFFFFFFFF, 0x800FFFFFFFFFFFFF,     # largest subnormals
    0x0010000000000000, 0x8010000000000000,     # smallest normals
    0x3FDFFFFFFFFFFFFF, 0xBFDFFFFFFFFFFFFF,     # just inside one half
    0x3FE0000000000000, 0xBFE0000000000000,     # one half
    0x3FE0000000000001, 0xBFE0000000000001,     # just past one half
    0x3FF0000000000000, 0xBFF0000000000000,     # one
    0x3FF8000000000000, 0xBFF8000000000000,     # 1.5
    0x4004000000000000, 0xC004000000000000,     # 2.5
    0x432FFFFFFFFFFFFF, 0xC32FFFFFFFFFFFFF,     # the largest with a half
    0x4330000000000000, 0xC330000000000000,     # 2^52
    0x4330000000000001, 0xC330000000000001,
    0x4340000000000000, 0xC340000000000000,     # 2^53
    0x43DFFFFFFFFFFFFF, 0xC3DFFFFFFFFFFFFF,     # largest below 2^63
    0x43E0000000000000, 0xC3E0000000000000,     # 2^63
    0x43E0000000000001, 0xC3E0000000000001,
    0x43F0000000000000, 0xC3F0000000000000,     # 2^64
    0x7FEFFFFFFFFFFFFF, 0xFFEFFFFFFFFFFFFF,     # largest finite
    0x7FF0000000000000, 0xFFF0000000000000,     # infinities
    0x7FF8000000000000, 0xFFF8000000000000,     # quiet NaN
    0x7FF0000000000001, 0xFFF0000000000001,     # signalling NaN
    0x7FFFFFFFFFFFFFFF, 0xFFFFFFFFFFFFFFFF,     # NaN, all bits set
)


def small(limit):
    """Keeps float makers inside exact range when a table's limits are wild."""
    return limit if -2000 <= limit <= 2000 else 0


def inside_float(gen, lo, hi):
    """A float whose whole lies within good limits, most of the time."""
    way = gen.take(0, 3)
    if way == 0 or lo >= hi:
        return bits_of_whole(gen.take(lo, hi))
    if way == 1:
        return bits_of_ratio(gen.take(8 * lo, 8 * hi), 8)
    half = bits_of_ratio(2 * gen.take(lo, hi - 1) + 1, 2)
    if way == 2:
        return half
    return half + gen.take(-1, 1)           # a neighbour, or the half itself


def float_at_the_cut(gen, table):
    """A float at the fine cut or in the milliradian about it, where the piece is the reading's own; or next to one."""
    fine, cut = table[FINE_CUT], small(table[ALPHA_CUT])
    thousandths = gen.pick((fine, fine, fine - 1, fine + 1, THOUSANDTHS * cut + 500, THOUSANDTHS * cut + gen.take(-500, 1500)))
    return beside(bits_of_thousandths(thousandths), gen.take(-1, 1))


def inside_float_state(gen, table):
    """Five floats, mostly inside; in one of three states alpha is about the cut."""
    state = []
    for v in range(5):
        lo, hi = small(table[LOWEST[v]]), small(table[HIGHEST[v]])
        if lo > hi:
            lo = hi
        state.append(inside_float(gen, lo, hi))
    if gen.take(0, 2) == 0:
        state[ALPHA] = float_at_the_cut(gen, table)
    return state
