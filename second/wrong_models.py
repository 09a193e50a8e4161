"""Wrong models, wrong desks and wrong signs: what each gets wrong, and where the script has to notice it.

A change puts another function, order or number in the place of the right one. Those that the requirement lists as errors that
look right come first.
"""

from fractions import Fraction
from functools import lru_cache
from math import ceil, floor

import desk
import door
import fixed_point
import tables
from door import POSITIVE_ZERO, SIGN_BIT
from draws import I64_MIN, MASK, signed
from makers import cut_at, places_of_block
from model import (
    ALPHA, BETA, CUMULUS, ETA, FINE_CUT, PUBLISHED_FINE_CUT, READING_OUTSIDE, READ_LENGTH, TABLE_LENGTH, XI_GROUP, ZETA_GROUP,
)
from roundings import half_away, half_even
from shapes import ALPHA_CUT, HIGH_GROUP, LOW_GROUP, PIECES, THOUSANDTHS

# The right functions, for wrong ones that differ from them in one respect.
right_is_finite = door.is_finite
right_limits_are_good = tables.limits_are_good
right_move = tables.move
right_moved_groups = tables.moved_groups
right_moved_limits = tables.moved_limits
right_moved_table = tables.moved_table
right_power_moved = tables.power_moved
right_products = tables.products
right_answer_bits = door.answer_bits
right_reaches = tables.reaches
right_publish = tables.publish
right_read = tables.read
right_sums = tables.sums
right_table_tests = tables.table_tests
right_term_moved = tables.term_moved
right_weights = tables.weights
right_pattern = desk.pattern
right_whole = desk.whole
right_fine_is_outside = fixed_point.is_outside
right_fine_read = fixed_point.read
right_group_sum = fixed_point.group_sum
right_six_answers = fixed_point.six_answers


class Wrong:
    """A name in plain words, the section and the command whose answers have to differ, and what is put in whose place."""

    def __init__(self, name, section, command, *changes):
        self.name = name
        self.section = section
        self.command = command
        self.changes = changes


def in_tables(name, replacement):
    return tables, name, replacement


def in_shape(shape, name, replacement):
    return shape, name, replacement


def in_door(name, replacement):
    return door, name, replacement


def in_fixed_point(name, replacement):
    return fixed_point, name, replacement


# ---------------------------------------------------------- the published table

def published_with(shape, *changes):
    """The published table with other numbers at some places."""
    table = list(shape.published)
    for place, number in changes:
        table[place] = number
    return in_shape(shape, "published", tuple(table))


def low_and_high_exchanged(shape):
    """The published table with each block's two groups of alpha and eta in the other order."""
    table = list(shape.published)
    for parts in shape.parts:
        table[parts[LOW_GROUP]], table[parts[HIGH_GROUP]] = table[parts[HIGH_GROUP]], table[parts[LOW_GROUP]]
    return in_shape(shape, "published", tuple(table))


def wrong_signs():
    """Each printed coefficient with the other sign, in the published table."""
    return tuple(Wrong("the other sign at place %d of the published table" % place, "Readings at the limits", "read",
                       published_with(CUMULUS, (place, -number)))
                 for place, number in enumerate(CUMULUS.published) if number and place >= CUMULUS.first_block)


def rows_with_sign(block, group, q, p):
    """The numbers of the read in microradians, one of them with the other sign."""
    rows = [[[list(row) for row in of_group] for of_group in of_block] for of_block in fixed_point.ROWS]
    rows[block][group][q][p] *= -1
    return in_fixed_point("ROWS", rows)


def wrong_signs_of_rows():
    """The same in the read in microradians."""
    return tuple(Wrong("the other sign in block %d, group %d, powers %d and %d of microradians" % (block, group, p, q),
                       "Microradians at the limits", "microradians", rows_with_sign(block, group, q, p))
                 for block, groups in enumerate(fixed_point.ROWS) for group, rows in enumerate(groups)
                 for q, row in enumerate(rows) for p, number in enumerate(row) if number)


# ---------------------------------------------------------------------- moves

def cut_moved_by(times):
    """A move of alpha takes its lowest and highest along, and the cut, whole and fine, so many times the shift."""
    def moved_limits(shape, limits, variable, shift):
        moved = right_moved_limits(shape, limits, variable, shift)
        if variable == ALPHA:
            by_other = right_moved_limits(shape, limits, variable, times * shift)
            for place in (ALPHA_CUT,) if shape.fine_cut is None else (ALPHA_CUT, shape.fine_cut):
                moved[place] = by_other[place]
        return moved
    return moved_limits


def limits_moved_the_other_way(shape, limits, variable, shift):
    return right_moved_limits(shape, limits, variable, -shift)


def pure_places_dropped(p, q, moves_first, shift):
    """What a move of the second variable throws into the places without it is lost."""
    return [term for term in right_term_moved(p, q, moves_first, shift) if moves_first or q == 0 or term[1] > 0]


def only_moved_table_weighed(shape, table, variable, shift):
    return max(right_weights(shape, right_moved_table(shape, table, variable, shift))) > tables.WEIGHT_CAP


def limits_moved_once(shape, limits, variable, shift):
    """The envelope goes along with the first move only."""
    is_first = tuple(limits) == shape.published[:shape.first_block]
    return right_moved_limits(shape, limits, variable, shift) if is_first else list(limits)


def row_of_four_wrong(power, shift):
    return [(kept, factor * 4 // 6 if (power, kept) == (4, 2) else factor) for kept, factor in right_power_moved(power, shift)]


def weighed_at_old_reach(shape, table, variable, shift):
    limits, stored = tables.limits_of(shape, table), tables.magnitudes(table)
    found = []
    for piece in PIECES:
        radii = right_reaches(shape, limits, piece)
        radii[variable] += abs(shift)
        found += right_sums(shape, stored, piece, radii)
    return found


def fine_cut_moved_with_each(shape, limits, variable, shift):
    moved = right_moved_limits(shape, limits, variable, shift)
    moved[FINE_CUT] = right_moved_limits(shape, limits, ALPHA, shift)[FINE_CUT]
    return moved


def fine_cut_looked_at(shape, table, variable, shift):
    """No moved limit, the fine cut among them, may leave -2000..2000."""
    return not all(map(tables.in_range, right_moved_limits(shape, tables.limits_of(shape, table), variable, shift)))


def refused_move_writes_limits(shape, table, variable, shift, output):
    number = right_move(shape, table, variable, shift, output)
    if number == tables.MOVE_TOO_HEAVY:
        output[:shape.first_block] = right_moved_limits(shape, table[:shape.first_block], variable, shift)
    return number


def not_moved(left_out, variables):
    """A group left as it is by the moves of some variables."""
    return in_tables("moved_groups", lambda shape, variable: [
        group for group in right_moved_groups(shape, variable) if group != left_out or variable not in variables])


def variable_cut(shape, table, variable, shift, output):
    return right_move(shape, table, variable & 0xFFFFFFFF, shift, output)


def shift_cut(shape, table, variable, shift, output):
    return right_move(shape, table, variable, low_half(shift), output)


# -------------------------------------------------------------------- weights

def smallest_is_its_own_magnitude(table):
    return [number if number == I64_MIN else abs(number) for number in table]


def wrapped_weights(shape, table):
    return [signed(weight) for weight in right_weights(shape, table)]


def sides_forgotten_in(piece):
    """The weights of one piece without the side groups."""
    def weights(shape, table):
        bare = list(table)
        for parts in shape.parts:
            for group in shape.side_groups:
                bare[parts[group]] = [0] * len(shape.groups[group].powers)
        pairs = zip(right_weights(shape, table), right_weights(shape, bare))
        return [own if at // shape.block_count == piece else whole for at, (whole, own) in enumerate(pairs)]
    return weights


def weighed_by(products):
    """The weights with other products of the reaches."""
    def weight(numbers, group, radii):
        return sum(abs(number) * factor for number, factor in zip(numbers, products(group, radii[group.first], radii[group.second])))

    def weights(shape, table):
        radii = [tables.reaches(shape, tables.limits_of(shape, table), piece) for piece in PIECES]
        return [sum(weight(table[parts[number]], shape.groups[number], radii[piece]) for number in (piece,) + shape.side_groups)
                for piece in PIECES for parts in shape.parts]
    return weights


def rows_and_columns_exchanged(group, first, second):
    return right_products(group, second, first)


def first_row_left_out(group, first, second):
    """Nothing for the numbers that stand beside no power of the second variable."""
    return [product if q else 0 for product, (_, q) in zip(right_products(group, first, second), group.powers)]


def last_row_left_out(group, first, second):
    """Nothing for the number that stands beside the highest power of the second variable."""
    return right_products(group, first, second)[:-1] + [0]


def last_block_not_weighed(shape, table):
    return right_weights(shape, table[:shape.table_length - shape.block_length])


def blocks_weighed_together(shape, table):
    """The largest magnitude of each place, over all blocks, taken for every block's."""
    largest = [max(abs(number) for number in table[place::shape.block_length]) for place in places_of_block(shape)]
    return right_weights(shape, list(table[:shape.first_block]) + largest * shape.block_count)


# --------------------------------------------------------------------- limits

def lowest_below_cut(limits):
    return limits[0] < limits[ALPHA_CUT] < limits[2]


def cut_at_highest(limits):
    return limits[0] <= limits[ALPHA_CUT] <= limits[2]


def others_not_single(shape, limits):
    return all(limits[lowest] < limits[highest] for lowest, highest in shape.limit_places[1:])


def fine_cut_in_range(_, limits):
    """The fine cut held to -2000..2000 with the others."""
    return all(map(tables.in_range, limits))


def cut_off(fine):
    """The whole cut of a fine one, towards zero."""
    return -(-fine // THOUSANDTHS) if fine < 0 else fine // THOUSANDTHS


def rounded_up(fine):
    return -(-fine // THOUSANDTHS)


def ends_excluded(shape, table, variable, reading):
    return not table[shape.lowest[variable]] < reading < table[shape.highest[variable]]


# -------------------------------------------------------------------- lengths

def with_test(number, holds):
    """A table's tests with one of them made otherwise."""
    return in_tables("table_tests", lambda shape, table: {**right_table_tests(shape, table), number: lambda: holds(table)})


def longer_taken(operation, length):
    """An operation that writes at the start of a room that is too long; the room is its last argument."""
    def with_longer(*arguments):
        *others, output = arguments
        room = output[:length]
        number = operation(*others, room)
        output[:length] = room
        return number
    return with_longer


def shorter_taken(shape, table, variable, shift, output):
    """A move that writes as much as there is room for where that is less than a table."""
    room = desk.lent(max(shape.table_length, len(output)))
    number = right_move(shape, table, variable, shift, room)
    if number == tables.DONE:
        output[:] = room[:len(output)]
    return number


def readings_cut(shape, table, readings, output):
    return right_read(shape, table, [low_half(reading) for reading in readings], output)


def low_half(number):
    """The low 32 bits, read as a signed number."""
    number &= 0xFFFFFFFF
    return number - (1 << 32) if number >> 31 else number


# --------------------------------------------------------------------- floats

def reading_rounded(rounding):
    return in_door("whole_reading", lambda bits: rounding(door.exact_value(bits)))


def half_up(exact):
    return floor(exact + Fraction(1, 2))


def half_towards_zero(exact):
    whole = ceil(abs(exact) - Fraction(1, 2))
    return -whole if exact < 0 else whole


def sum_cut_down(bits):
    """Half is put on in binary64, which rounds the sum, and the sum is cut down."""
    return floor(door.exact_value(door.nearest_bits(door.exact_value(bits) + Fraction(1, 2))))


def magnitude_sum_cut(bits):
    """The same with the magnitude, and the sign put back."""
    whole = sum_cut_down(bits & ~SIGN_BIT)
    return -whole if bits & SIGN_BIT else whole


def low_where(holds):
    """The piece of a float alpha chosen otherwise: low where something holds of the table and the pattern."""
    return in_door("piece_as_given", lambda table, bits: LOW_GROUP if holds(table, bits) else HIGH_GROUP)


def rounded_at_most_cut(table, bits):
    return door.whole_reading(bits) <= table[ALPHA_CUT]


def at_most_cut(table, bits):
    return door.exact_value(bits) <= table[ALPHA_CUT]


def below_fine_cut(table, bits):
    return door.exact_value(bits) < Fraction(table[FINE_CUT], THOUSANDTHS)


def at_most_quotient(table, bits):
    """The fine cut is divided in binary64, which rounds the quotient."""
    return door.exact_value(bits) <= door.exact_value(door.nearest_bits(Fraction(table[FINE_CUT], THOUSANDTHS)))


def product_at_most(table, bits):
    """Alpha is multiplied in binary64, which rounds the product."""
    return door.exact_value(door.nearest_bits(door.exact_value(bits) * THOUSANDTHS)) <= table[FINE_CUT]


def whole_thousandths_at_most(rounding):
    """Alpha is first rounded to whole thousandths."""
    return lambda table, bits: rounding(door.exact_value(bits) * THOUSANDTHS) <= table[FINE_CUT]


def read_within_piece(table, reading_bits):
    """The low piece is read at the cut at most, and the high one above the cut."""
    readings, piece = [door.whole_reading(bits) for bits in reading_bits], door.piece_as_given(table, reading_bits[ALPHA])
    inside = min(readings[ALPHA], table[ALPHA_CUT]) if piece == LOW_GROUP else max(readings[ALPHA], table[ALPHA_CUT] + 1)
    return [door.answer_bits(number) for number in right_sums(CUMULUS, table, piece, [inside] + readings[1:])]


def outside_before_rounding(table, variable, bits):
    return tables.is_outside(CUMULUS, table, variable, door.exact_value(bits))


def rounded_handed_back(number, reading_bits):
    if number not in READING_OUTSIDE:
        return POSITIVE_ZERO
    return door.nearest_bits(Fraction(door.whole_reading(reading_bits[READING_OUTSIDE.index(number)])))


def one_rounding_only(number):
    return door.nearest_bits(Fraction(number, door.ANSWER_UNIT))


def zero_is_negative(number):
    return right_answer_bits(number) if number else SIGN_BIT


def answer_cut_off(number):
    """The answer's whole number is cut to 53 bits, not rounded."""
    excess = max(0, abs(number).bit_length() - 53)
    whole = abs(number) >> excess << excess
    return door.nearest_bits(Fraction(-whole if number < 0 else whole, door.ANSWER_UNIT))


def nan_let_through(bits):
    return right_is_finite(bits) or bits & door.FRACTION_MASK != 0


def quiet_nan_alone_noticed(bits):
    return right_is_finite(bits) or bits & door.FRACTION_MASK != 0 and not bits >> 51 & 1


def interleaved(first, second):
    return tuple(number for pair in zip(first, second) for number in pair)


# --------------------------------------------------------------- microradians

def exact_product(number, reading):
    return Fraction(number * reading, fixed_point.RADIAN)


def rounded_at_the_end(readings):
    return [half_away(answer) for answer in right_six_answers(readings)]


def rounded_by_group(rows, first, second):
    return half_away(right_group_sum(rows, first, second))


def rounded_once_added(numbers, reading):
    """A product is rounded together with the number that is added to it."""
    total = 0
    for number in reversed(numbers):
        total = half_away(exact_product(total, reading) + number)
    return total


def first_variable_outside(rows, first, second):
    columns = [[row[p] for row in rows if p < len(row)] for p in range(len(rows))]
    return fixed_point.downward([fixed_point.downward(column, second) for column in columns], first)


def upward(numbers, reading):
    """From the lowest power up, each number multiplied as often as its power says."""
    total = 0
    for power, number in enumerate(numbers):
        for _ in range(power):
            number = fixed_point.times(number, reading)
        total += number
    return total


def pieces_exchanged(alpha):
    return HIGH_GROUP if alpha <= fixed_point.LAST_OF_LOW else LOW_GROUP


def in_larger_units(readings):
    return [half_away(Fraction(answer, 10)) for answer in right_six_answers(readings)]


def rounded_to_milliradians(readings):
    return right_six_answers([1000 * half_away(Fraction(reading, 1000)) for reading in readings])


def fine_ends_excluded(variable, reading):
    return not fixed_point.lowest(variable) < reading < fixed_point.highest(variable)


def outside_modulo(variable, reading):
    """A reading is multiplied by 1000 modulo 2^64 before it is held against its limits."""
    return right_fine_is_outside(variable, signed(reading * 1000) // 1000)


def refused_fine_read_writes(readings, output):
    number = right_fine_read(readings, output)
    if number in READING_OUTSIDE:
        output[:] = [0] * len(output)
    return number


# ----------------------------------------------------------------------- desk

def tabs_part_words(line):
    return [word for word in line.replace(b"\t", b" ").split(b" ") if word]


def plus_taken(word):
    return right_whole(word.removeprefix(b"+"))


def capitals_taken(word):
    return right_pattern(word.lower())


def not_stepped_first(numbers, place, step, size, seed):
    """The seed itself is the first drawn number."""
    changed, s = list(numbers), seed
    for at in range(place, len(numbers), step) if step else [place]:
        changed[at] = desk.drawn_number(s, size)
        s = desk.stepped(s)
    return tuple(changed)


def place_and_count_wrapped(self, space, place, count):
    if place + count & MASK > len(self.spaces[space]):
        return desk.NO_PLACE
    return desk.spaced(self.spaces[space][place:place + (count & 511)])


def new_numbers_are_one(self, space, count):
    if count > desk.MOST_NUMBERS:
        return desk.NO_ROOM
    kept = self.spaces[space][:count]
    self.spaces[space] = kept + (1,) * (count - len(kept))
    return "ok"


def with_kind(right, wrong):
    """Every command's words of one kind read by another function."""
    return [(command, "kinds", [wrong if kind is right else kind for kind in command.kinds]) for command in desk.COMMANDS.values()]


def changed_after_refusal(self, into, operation, *others):
    room = desk.lent(len(self.spaces[into]))
    number = operation(room)
    self.spaces[into] = tuple(room)
    return desk.refusal(number, room, *others) if number else "0 wrote %d sum %d" % (len(room), desk.checksum(tuple(room)))


MODELS = (
    # errors that look right
    Wrong("the published cut at 314", "Readings at the limits", "read", published_with(CUMULUS, *cut_at(CUMULUS, 314))),
    Wrong("alpha below the cut asked for the low piece", "Readings at the limits", "read",
          in_tables("piece_at", lambda table, alpha: 0 if alpha < table[1] else 1)),
    Wrong("the cut left behind by a move", "The published table moved", "read", in_tables("moved_limits", cut_moved_by(0))),
    Wrong("the cut moved the other way", "The published table moved", "read", in_tables("moved_limits", cut_moved_by(-1))),
    Wrong("what a move throws into the pure places dropped", "The published table moved", "read",
          in_tables("term_moved", pure_places_dropped)),
    Wrong("only the moved table weighed", "Borders of moved tables", "move", in_tables("move_is_too_heavy", only_moved_table_weighed)),
    Wrong("a reach of 0", "Edges of the reach", "read", in_tables("reach_between", lambda low, high: max(abs(low), abs(high)))),
    # the published table
    Wrong("the low and the high group exchanged", "Readings at the limits", "read", low_and_high_exchanged(CUMULUS)),
    # moves
    Wrong("the polynomials moved the other way", "The published table moved", "read",
          in_tables("power_moved", lambda power, shift: right_power_moved(power, -shift))),
    Wrong("the limits left behind by a second move", "Composed moves", "read", in_tables("moved_limits", limits_moved_once)),
    Wrong("a wrong number in the row of the fourth power", "Single numbers", "move", in_tables("power_moved", row_of_four_wrong)),
    Wrong("the rudder group not moved with beta", "The published table moved", "read",
          not_moved(ZETA_GROUP, (BETA,))),
    Wrong("the high group not moved", "The published table moved", "read", not_moved(HIGH_GROUP, (ALPHA, ETA))),
    Wrong("the limits moved the other way", "The published table moved", "read",
          in_tables("moved_limits", limits_moved_the_other_way)),
    Wrong("a variable cut to 32 bits", "Moves of the published table", "move", in_tables("move", variable_cut)),
    Wrong("a shift cut to 32 bits", "Shifts at the ends of 64 bits", "move", in_tables("move", shift_cut)),
    Wrong("a refused move that writes limits", "Checked values 1 to 11", "move", in_tables("move", refused_move_writes_limits)),
    Wrong("a move weighed at the old reach", "Moves at the cap", "move", in_tables("move_weights", weighed_at_old_reach)),
    Wrong("a move weighed by its shift and not its size", "Moves at the cap", "move",
          in_tables("move_reach", lambda reach, shift: reach + shift)),
    Wrong("the cap of a move one higher", "Moves at the cap", "move", in_tables("MOVE_WEIGHT_CAP", tables.WEIGHT_CAP + 1)),
    Wrong("the cap of a move one lower", "Moves at the cap", "move", in_tables("MOVE_WEIGHT_CAP", tables.WEIGHT_CAP - 1)),
    # the fine cut of moved tables
    Wrong("the fine cut left behind by a move", "Moved fine cuts", "show", in_tables("moved_fine_cut", lambda fine, shift: fine)),
    Wrong("the fine cut moved by as many thousandths", "Moved fine cuts", "show",
          in_tables("moved_fine_cut", lambda fine, shift: fine - shift)),
    Wrong("the fine cut moved the other way", "Moved fine cuts", "show",
          in_tables("moved_fine_cut", lambda fine, shift: fine + THOUSANDTHS * shift)),
    Wrong("the fine cut made anew from the moved cut", "Moved fine cuts", "show",
          in_tables("moved_fine_cut", lambda fine, shift: THOUSANDTHS * (fine // THOUSANDTHS - shift))),
    Wrong("the fine cut moved with every variable", "Moved fine cuts", "show", in_tables("moved_limits", fine_cut_moved_with_each)),
    Wrong("the fine cut left behind by a move that is then read", "Floats beside moved fine cuts", "floats",
          in_tables("moved_fine_cut", lambda fine, shift: fine)),
    Wrong("a moved fine cut held to the range of the limits", "Moved fine cuts", "move",
          in_tables("moved_limit_outside", fine_cut_looked_at)),
    # weights
    Wrong("the cap one higher", "Weights at the cap", "read", in_tables("WEIGHT_CAP", tables.WEIGHT_CAP + 1)),
    Wrong("the cap one lower", "Weights at the cap", "read", in_tables("WEIGHT_CAP", tables.WEIGHT_CAP - 1)),
    Wrong("the low piece's reach to the cut", "Edges of the reach", "read", in_shape(CUMULUS, "low_end", 0)),
    Wrong("the high piece's reach from cut + 1", "Edges of the reach", "read", in_shape(CUMULUS, "high_start", 1)),
    Wrong("a move weighed with the low piece's reach to the cut", "Worked fine cuts", "move", in_shape(CUMULUS, "low_end", 0)),
    Wrong("a move weighed with the high piece's reach from cut + 1", "Moves at the cap", "move", in_shape(CUMULUS, "high_start", 1)),
    Wrong("the reaches of the two pieces as the GTM's are", "Weights at the cap", "read",
          in_shape(CUMULUS, "low_end", 0), in_shape(CUMULUS, "high_start", 1)),
    Wrong("the side groups forgotten in the low piece", "Weights at the cap", "read",
          in_tables("weights", sides_forgotten_in(LOW_GROUP))),
    Wrong("the side groups forgotten in the high piece", "Weights at the cap", "read",
          in_tables("weights", sides_forgotten_in(HIGH_GROUP))),
    Wrong("the two reaches of a group exchanged", "Weights at the cap", "read",
          in_tables("weights", weighed_by(rows_and_columns_exchanged))),
    Wrong("the first row of a group not weighed", "Weights at the cap", "read", in_tables("weights", weighed_by(first_row_left_out))),
    Wrong("the last row of a group not weighed", "Weights at the cap", "read", in_tables("weights", weighed_by(last_row_left_out))),
    Wrong("the last block not weighed", "The smallest number at each place", "read", in_tables("weights", last_block_not_weighed)),
    Wrong("all blocks weighed as one", "A number in each block", "read", in_tables("weights", blocks_weighed_together)),
    Wrong("weights modulo 2^64", "Random tables", "read", in_tables("weights", wrapped_weights)),
    Wrong("the smallest number without a magnitude", "The smallest number at each place", "read",
          in_tables("magnitudes", smallest_is_its_own_magnitude)),
    # limits and readings
    Wrong("limits up to 2001", "Edges of the limits", "read", in_tables("LIMIT_CAP", 2001)),
    Wrong("limits up to 1999", "Edges of the limits", "read", in_tables("LIMIT_CAP", 1999)),
    Wrong("the lowest has to be below the cut", "Edges of the limits", "read", in_tables("alpha_in_order", lowest_below_cut)),
    Wrong("the cut may be the highest", "Edges of the limits", "read", in_tables("alpha_in_order", cut_at_highest)),
    Wrong("a single reading is no range", "Edges of the limits", "read", in_tables("others_in_order", others_not_single)),
    Wrong("the fine cut held to the range of the limits", "Fine cuts that belong to a cut", "read",
          in_tables("all_in_range", fine_cut_in_range)),
    Wrong("any fine cut taken", "Fine cuts that belong to a cut", "read", in_tables("cuts_agree", lambda shape, limits: True)),
    Wrong("the cut towards zero of the fine one", "Fine cuts that belong to a cut", "read", in_tables("whole_of", cut_off)),
    Wrong("the cut next above the fine one", "Fine cuts that belong to a cut", "read", in_tables("whole_of", rounded_up)),
    Wrong("the cut nearest to the fine one", "Fine cuts that belong to a cut", "read",
          in_tables("whole_of", lambda fine: half_away(Fraction(fine, THOUSANDTHS)))),
    Wrong("a fine cut cut to 32 bits", "Fine cuts that belong to a cut", "read",
          in_tables("whole_of", lambda fine: low_half(fine) // THOUSANDTHS)),
    Wrong("the ends of the limits excluded", "Readings at the limits", "read", in_tables("is_outside", ends_excluded)),
    Wrong("a reading cut to 32 bits", "Readings at the ends of 64 bits", "read",
          in_tables("read", readings_cut)),
    Wrong("the rudder group not read", "Single numbers", "read", in_shape(CUMULUS, "side_groups", (XI_GROUP,))),
    Wrong("the two readings of a group exchanged", "Single numbers", "read",
          in_tables("products", lru_cache(rows_and_columns_exchanged))),
    Wrong("the first row of a group not read", "Single numbers", "read", in_tables("products", lru_cache(first_row_left_out))),
    Wrong("the last row of a group not read", "Single numbers", "read", in_tables("products", lru_cache(last_row_left_out))),
    # lengths
    Wrong("a longer table taken", "Wrong lengths of reads", "read", with_test(tables.WRONG_TABLE_LENGTH, lambda table: len(table) < 312)),
    Wrong("a table without its last number taken", "Wrong lengths of reads", "read",
          with_test(tables.WRONG_TABLE_LENGTH, lambda table: len(table) not in (311, 312))),
    Wrong("a longer room taken by a read", "Wrong lengths of reads", "read",
          in_tables("read", longer_taken(right_read, READ_LENGTH))),
    Wrong("a longer room taken by publishing", "Publishing", "publish", in_tables("publish", longer_taken(right_publish, TABLE_LENGTH))),
    Wrong("a longer room taken by a move", "Wrong lengths of moves", "move", in_tables("move", longer_taken(right_move, TABLE_LENGTH))),
    Wrong("a shorter room taken by a move", "Wrong lengths of moves", "move", in_tables("move", shorter_taken)),
    # the order of refusals
    Wrong("a read's room before its table's length", "Mixed defects of reads", "read",
          in_tables("READ_ORDER", (2, 1, 3, 4))),
    Wrong("a read's weight before its limits", "Mixed defects of reads", "read", in_tables("READ_ORDER", (1, 2, 4, 3))),
    Wrong("the last reading outside given", "Mixed defects of reads", "read",
          in_tables("readings_order", lambda shape: shape.reading_outside[::-1])),
    Wrong("a move's variable behind its table", "Mixed defects of moves", "move", in_tables("MOVE_ORDER", (1, 2, 3, 4, 5, 6, 7))),
    Wrong("a move's weight before its limits", "Mixed defects of moves", "move", in_tables("MOVE_ORDER", (1, 2, 5, 3, 4, 7, 6))),
    Wrong("a move's room before its table's length", "Wrong rooms and defects of tables", "move",
          in_tables("MOVE_ORDER", (2, 1, 5, 3, 4, 6, 7))),
    Wrong("a move's room behind its variable", "Wrong rooms and defects of tables", "move",
          in_tables("MOVE_ORDER", (1, 5, 2, 3, 4, 6, 7))),
    Wrong("a move's room behind its table", "Wrong rooms and defects of tables", "move",
          in_tables("MOVE_ORDER", (1, 3, 4, 2, 5, 6, 7))),
    Wrong("a read's room behind its table", "Wrong rooms and defects of tables", "read",
          in_tables("READ_ORDER", (1, 3, 4, 2))),
    Wrong("outside asked before not finite", "Mixed defects of reads with floats", "floats",
          in_door("DOOR_ORDER", (1, 3, 4) + READING_OUTSIDE + door.NOT_FINITE)),
    Wrong("not finite asked reading by reading", "Mixed defects of reads with floats", "floats",
          in_door("DOOR_ORDER", (1, 3, 4) + interleaved(door.NOT_FINITE, READING_OUTSIDE))),
    # floats
    Wrong("halves of readings to even", "Checked values 12 and 13", "floats", reading_rounded(half_even)),
    Wrong("halves of readings up", "Checked values 12 and 13", "floats", reading_rounded(half_up)),
    Wrong("halves of readings towards zero", "Checked values 12 and 13", "floats", reading_rounded(half_towards_zero)),
    Wrong("half put on as a float and cut down", "Special patterns", "floats", in_door("whole_reading", sum_cut_down)),
    Wrong("half put on the magnitude as a float and cut off", "Special patterns", "floats", in_door("whole_reading", magnitude_sum_cut)),
    Wrong("halves of answers away from zero", "Halves of answers", "floats", in_door("half_even", half_away)),
    Wrong("readings cut off and not rounded", "Floats at the limits and their halves", "floats", reading_rounded(int)),
    Wrong("the piece chosen after rounding", "Checked values 12 and 13", "floats", low_where(rounded_at_most_cut)),
    Wrong("alpha as given held against the whole cut", "Worked fine cuts", "floats", low_where(at_most_cut)),
    Wrong("alpha below the fine cut asked for the low piece", "Both sides of fine cuts", "floats", low_where(below_fine_cut)),
    Wrong("the fine cut divided as a float", "Worked fine cuts", "floats", low_where(at_most_quotient)),
    Wrong("alpha multiplied as a float", "Worked fine cuts", "floats", low_where(product_at_most)),
    Wrong("alpha cut down to thousandths", "Worked fine cuts", "floats", low_where(whole_thousandths_at_most(floor))),
    Wrong("alpha rounded to thousandths", "Worked fine cuts", "floats", low_where(whole_thousandths_at_most(half_away))),
    Wrong("no piece read across the cut", "Worked fine cuts", "floats", in_door("six_answers", read_within_piece)),
    Wrong("the published fine cut one lower", "Worked fine cuts", "floats",
          published_with(CUMULUS, (FINE_CUT, PUBLISHED_FINE_CUT - 1))),
    Wrong("the published fine cut one higher", "Worked fine cuts", "floats",
          published_with(CUMULUS, (FINE_CUT, PUBLISHED_FINE_CUT + 1))),
    Wrong("outside asked before rounding", "Floats at the limits and their halves", "floats",
          in_door("float_is_outside", outside_before_rounding)),
    Wrong("the rounded reading handed back", "Floats at the limits and their halves", "floats",
          in_door("handed_back_with", rounded_handed_back)),
    Wrong("a NaN let through", "Every kind of NaN", "floats", in_door("is_finite", nan_let_through)),
    Wrong("only a quiet NaN noticed", "Every kind of NaN", "floats", in_door("is_finite", quiet_nan_alone_noticed)),
    Wrong("answers divided without rounding them first", "Drawn floats of tables near the cap", "floats",
          in_door("answer_bits", one_rounding_only)),
    Wrong("answers cut off and not rounded", "Drawn floats of the published table", "floats", in_door("answer_bits", answer_cut_off)),
    Wrong("a zero answered as negative zero", "Mixed defects of reads with floats", "floats", in_door("answer_bits", zero_is_negative)),
    # microradians: products
    Wrong("products exact and only the answer rounded", "Drawn microradians", "microradians",
          in_fixed_point("times", exact_product), in_fixed_point("six_answers", rounded_at_the_end)),
    Wrong("products exact and each group rounded", "Drawn microradians", "microradians",
          in_fixed_point("times", exact_product), in_fixed_point("group_sum", rounded_by_group)),
    Wrong("products rounded once the next number is added", "Microradians with products at a half", "microradians",
          in_fixed_point("downward", rounded_once_added)),
    Wrong("products with halves to even", "Microradians with products at a half", "microradians",
          in_fixed_point("half_away", half_even)),
    Wrong("products with halves up", "Microradians with products at a half", "microradians", in_fixed_point("half_away", half_up)),
    Wrong("products rounded down", "Drawn microradians", "microradians", in_fixed_point("half_away", floor)),
    Wrong("products cut off", "Drawn microradians", "microradians", in_fixed_point("half_away", int)),
    Wrong("the first variable outside", "Drawn microradians", "microradians", in_fixed_point("group_sum", first_variable_outside)),
    Wrong("summed from the lowest power up", "Drawn microradians", "microradians", in_fixed_point("downward", upward)),
    Wrong("answers in units of 10^-8", "Worked examples in microradians", "microradians", in_fixed_point("six_answers", in_larger_units)),
    # microradians: readings and pieces
    Wrong("microradians rounded to milliradians", "Drawn microradians", "microradians",
          in_fixed_point("six_answers", rounded_to_milliradians)),
    Wrong("the low piece up to 313268 microradians", "Microradians in either piece", "microradians", in_fixed_point("LAST_OF_LOW", 313268)),
    Wrong("the low piece up to 313270 microradians", "Microradians in either piece", "microradians", in_fixed_point("LAST_OF_LOW", 313270)),
    Wrong("the low piece up to 313 milliradians", "Microradians in either piece", "microradians", in_fixed_point("LAST_OF_LOW", 313000)),
    Wrong("the low and the high piece exchanged", "Whole milliradians in microradians", "microradians",
          in_fixed_point("piece_at", pieces_exchanged)),
    Wrong("the envelope times 100", "Microradians at the limits", "microradians", in_fixed_point("MILLIRADIAN", 100)),
    Wrong("the ends of the envelope excluded", "Microradians at the limits", "microradians",
          in_fixed_point("is_outside", fine_ends_excluded)),
    Wrong("microradians times 1000 modulo 2^64", "Microradians at the ends of 64 bits", "microradians",
          in_fixed_point("is_outside", outside_modulo)),
    Wrong("microradians cut to 32 bits", "Microradians at the ends of 64 bits", "microradians",
          in_fixed_point("read", lambda readings, output: right_fine_read([low_half(reading) for reading in readings], output))),
    # microradians: refusals
    Wrong("the room of microradians behind the readings", "Order of refusals of microradians", "microradians",
          in_fixed_point("ORDER", READING_OUTSIDE + (tables.WRONG_OUTPUT_LENGTH,))),
    Wrong("the last of the microradians outside given", "Order of refusals of microradians", "microradians",
          in_fixed_point("ORDER", (tables.WRONG_OUTPUT_LENGTH,) + READING_OUTSIDE[::-1])),
    Wrong("a longer room taken for microradians", "Rooms of microradians", "microradians",
          in_fixed_point("read", longer_taken(right_fine_read, READ_LENGTH))),
    Wrong("a refused read of microradians that writes", "Order of refusals of microradians", "microradians",
          in_fixed_point("read", refused_fine_read_writes)),
)

# A desk around the right model that does not do what it is told.
DESKS = (
    Wrong("a space changed by a refusal", "Rooms that are wrong", "sum",
          (desk.Desk, "write", changed_after_refusal)),
    Wrong("a line of 256 bytes called too long", "Long lines", "sum", (desk, "LONGEST_LINE", 255)),
    Wrong("a line of 257 bytes taken", "Long lines", "sum", (desk, "LONGEST_LINE", 257)),
    Wrong("words parted by tabs too", "Every byte", "sum", (desk, "words_of", tabs_part_words)),
    Wrong("a plus taken as a sign", "Every byte", "set", *with_kind(right_whole, plus_taken)),
    Wrong("capital hexadecimal digits taken", "Every byte", "floats", *with_kind(right_pattern, capitals_taken)),
    Wrong("drawn numbers that start with the seed", "Drawn numbers", "sum", (desk, "filled", not_stepped_first)),
    Wrong("place and count added modulo 2^64", "Copies and shows", "show", (desk.Desk, "show", place_and_count_wrapped)),
    Wrong("a room of 321 numbers lent for microradians", "Rooms of microradians", "microradians", (desk, "MOST_NUMBERS", 321)),
    Wrong("new numbers of a space that are not 0", "Lengths of spaces", "sum", (desk.Desk, "length", new_numbers_are_one)),
)
