"""Whole-number answers: soundness, publish, read, read of many states and move of a table, for every shape.

Everything is done on plain Python whole numbers, so nothing here can overflow;
the arguments are meant to be 64-bit numbers, and a table is a tuple of them.  An
operation gives back its number and writes into the lists lent to it only when that
number is 0.

What is remembered (lru_cache) is worked out from the arguments alone, so it only
saves time; whoever replaces a function here or changes a shape has to call forget().
"""

from functools import lru_cache
from math import comb
from operator import mul

from shapes import ALPHA, ALPHA_CUT, HIGH_GROUP, LOW_GROUP, PIECES, THOUSANDTHS

DONE = 0
WRONG_TABLE_LENGTH = 1
WRONG_OUTPUT_LENGTH = 2
LIMITS_NOT_GOOD = 3
TOO_HEAVY = 4
NO_SUCH_VARIABLE = 5
MOVED_LIMIT_OUTSIDE = 6
MOVE_TOO_HEAVY = 7

# what a read looks at before its readings
READ_ORDER = (WRONG_TABLE_LENGTH, WRONG_OUTPUT_LENGTH, LIMITS_NOT_GOOD, TOO_HEAVY)
MANY_ORDER = READ_ORDER
MOVE_ORDER = (WRONG_TABLE_LENGTH, WRONG_OUTPUT_LENGTH, NO_SUCH_VARIABLE, LIMITS_NOT_GOOD, TOO_HEAVY,
              MOVED_LIMIT_OUTSIDE, MOVE_TOO_HEAVY)

WEIGHT_CAP = 9 * 10**18
MOVE_WEIGHT_CAP = WEIGHT_CAP
LIMIT_CAP = 2000


def first_that_holds(order, tests):
    """The first number in the order whose test holds, or 0."""
    for number in order:
        if tests[number]():
            return number
    return DONE


# ---------------------------------------------------------------------- limits

def limits_of(shape, table):
    return list(table[:shape.first_block])


def in_range(limit):
    return -LIMIT_CAP <= limit <= LIMIT_CAP


def all_in_range(shape, limits):
    """Every limit but the fine cut, which the whole one bounds."""
    return all(in_range(limit) for place, limit in enumerate(limits) if place != shape.fine_cut)


def alpha_in_order(limits):
    return limits[0] <= limits[ALPHA_CUT] < limits[2]


def others_in_order(shape, limits):
    return all(limits[shape.lowest[v]] <= limits[shape.highest[v]] for v in range(1, shape.variable_count))


def whole_of(fine):
    """The whole cut that belongs to a fine one: rounded down, below zero too."""
    return fine // THOUSANDTHS


def cuts_agree(shape, limits):
    return shape.fine_cut is None or limits[ALPHA_CUT] == whole_of(limits[shape.fine_cut])


def limits_are_good(shape, limits):
    return all_in_range(shape, limits) and alpha_in_order(limits) and others_in_order(shape, limits) and cuts_agree(shape, limits)


def moved_fine_cut(fine, shift):
    return fine - THOUSANDTHS * shift


def moved_limits(shape, limits, variable, shift):
    moved = list(limits)
    for place in shape.limit_places[variable]:
        moved[place] -= shift
    if variable == ALPHA and shape.fine_cut is not None:
        moved[shape.fine_cut] = moved_fine_cut(limits[shape.fine_cut], shift)
    return moved


def reach_between(lowest, highest):
    """Never 0, so that no stored number can escape its weight."""
    return max(1, abs(lowest), abs(highest))


def reaches(shape, limits, piece):
    """The reach of each variable; alpha's depends on the piece."""
    if piece == LOW_GROUP:
        alpha = reach_between(limits[0], limits[ALPHA_CUT] + shape.low_end)
    else:
        alpha = reach_between(limits[ALPHA_CUT] + shape.high_start, limits[2])
    others = [reach_between(limits[shape.lowest[v]], limits[shape.highest[v]])
              for v in range(1, shape.variable_count)]
    return [alpha] + others


# ------------------------------------------------------------------------ sums

@lru_cache(maxsize=4096)
def products(group, first, second):
    """First to its power times second to its power, for each place of a group."""
    of_first = [first**power for power in range(5)]
    of_second = [second**power for power in range(5)]
    return [of_first[p] * of_second[q] for p, q in group.powers]


def sums(shape, numbers, piece, values):
    """For each block: the numbers of the piece's group and of the side groups, each times the powers of its two of the values."""
    factors = [(number, products(shape.groups[number], values[shape.groups[number].first], values[shape.groups[number].second]))
               for number in (piece,) + shape.side_groups]
    return [sum(sum(map(mul, numbers[parts[number]], of_group)) for number, of_group in factors) for parts in shape.parts]


def magnitudes(table):
    return [abs(number) for number in table]


def weights(shape, table):
    """The weight of each block in each piece, those of the low piece before those of the high one."""
    limits, stored = limits_of(shape, table), magnitudes(table)
    return [weight for piece in PIECES for weight in sums(shape, stored, piece, reaches(shape, limits, piece))]


@lru_cache(maxsize=256)
def is_light(shape, table):
    return all(weight <= WEIGHT_CAP for weight in weights(shape, table))


# --------------------------------------------------------------------- reading

def piece_at(table, alpha):
    return LOW_GROUP if alpha <= table[ALPHA_CUT] else HIGH_GROUP


def all_coefficients(shape, table, readings):
    return sums(shape, table, piece_at(table, readings[ALPHA]), readings)


def is_outside(shape, table, variable, reading):
    return not table[shape.lowest[variable]] <= reading <= table[shape.highest[variable]]


def table_tests(shape, table):
    return {
        WRONG_TABLE_LENGTH: lambda: len(table) != shape.table_length,
        LIMITS_NOT_GOOD: lambda: not limits_are_good(shape, limits_of(shape, table)),
        TOO_HEAVY: lambda: not is_light(shape, table),
    }


def readings_order(shape):
    """The refusals of readings, in their order."""
    return shape.reading_outside


def read(shape, table, readings, output):
    tests = table_tests(shape, table)
    tests[WRONG_OUTPUT_LENGTH] = lambda: len(output) != shape.read_length
    for v, number in enumerate(shape.reading_outside):
        tests[number] = lambda v=v: is_outside(shape, table, v, readings[v])
    number = first_that_holds(READ_ORDER + readings_order(shape), tests)
    if number == DONE:
        output[:] = all_coefficients(shape, table, readings)
    return number


# ----------------------------------------------------------------- many states

def lengths_fit(shape, states, numbers, output):
    """Whether there is one state, and room for one answer, for each number."""
    return len(states) == shape.variable_count * len(numbers) and len(output) == shape.read_length * len(numbers)


def state_at(shape, states, k):
    return states[shape.variable_count * k:shape.variable_count * (k + 1)]


def answer_at(shape, k):
    """Where the coefficients of a state stand."""
    return slice(shape.read_length * k, shape.read_length * (k + 1))


def read_or_zeros(shape, table, readings):
    """What a read gives back and writes, zeros after a refusal."""
    room = [0] * shape.read_length
    return read(shape, table, readings, room), room


def answer_states(shape, table, states, numbers, output):
    for k in range(len(numbers)):
        numbers[k], output[answer_at(shape, k)] = read_or_zeros(shape, table, state_at(shape, states, k))


def read_many(shape, table, states, numbers, output):
    """A number for the call; with a 0 each state has its own among the numbers."""
    tests = table_tests(shape, table)
    tests[WRONG_OUTPUT_LENGTH] = lambda: not lengths_fit(shape, states, numbers, output)
    number = first_that_holds(MANY_ORDER, tests)
    if number == DONE:
        answer_states(shape, table, states, numbers, output)
    return number


# ------------------------------------------------------------------- publishing

def publish(shape, output):
    if len(output) != shape.table_length:
        return WRONG_OUTPUT_LENGTH
    output[:] = shape.published
    return DONE


# ---------------------------------------------------------------------- moving

def move_reach(new_reach, shift):
    return new_reach + abs(shift)


def move_weights(shape, table, variable, shift):
    """The sums, one for each weight, that decide whether a move may be multiplied out.

    The old magnitudes are weighed where the moved variable reaches as far as
    its new reach and the shift together.
    """
    old, stored = limits_of(shape, table), magnitudes(table)
    new = moved_limits(shape, old, variable, shift)
    found = []
    for piece in PIECES:
        radii = reaches(shape, old, piece)
        radii[variable] = move_reach(reaches(shape, new, piece)[variable], shift)
        found += sums(shape, stored, piece, radii)
    return found


def power_moved(power, shift):
    """(v + shift)^power as pairs of a kept power of v and its factor."""
    return [(kept, comb(power, kept) * shift ** (power - kept)) for kept in range(power + 1)]


def term_moved(p, q, moves_first, shift):
    """Where a term goes: triples of both powers and a factor."""
    if moves_first:
        return [(kept, q, factor) for kept, factor in power_moved(p, shift)]
    return [(p, kept, factor) for kept, factor in power_moved(q, shift)]


def group_moved(group, variable, shift):
    """For each place of a group that has the variable: the places that its number goes to, with factors."""
    return [[(group.powers.index((p, q)), factor) for p, q, factor in term_moved(*powers, group.first == variable, shift)]
            for powers in group.powers]


def multiplied_out(numbers, goes_to):
    new = [0] * len(numbers)
    for number, places in zip(numbers, goes_to):
        if number:
            for place, factor in places:
                new[place] += number * factor
    return new


def moved_groups(shape, variable):
    """The numbers of the groups that have the variable."""
    return [number for number, group in enumerate(shape.groups) if variable in (group.first, group.second)]


def moved_table(shape, table, variable, shift):
    """The table after a move, with no refusals looked at."""
    result = moved_limits(shape, limits_of(shape, table), variable, shift) + list(table[shape.first_block:])
    for number in moved_groups(shape, variable):
        goes_to = group_moved(shape.groups[number], variable, shift)
        for parts in shape.parts:
            result[parts[number]] = multiplied_out(table[parts[number]], goes_to)
    return result


def is_no_variable(shape, variable):
    return variable >= shape.variable_count


def moved_limit_outside(shape, table, variable, shift):
    """Of the whole limits; the fine cut is not looked at."""
    new = moved_limits(shape, limits_of(shape, table), variable, shift)
    return not all(in_range(new[place]) for place in shape.limit_places[variable])


def move_is_too_heavy(shape, table, variable, shift):
    return any(weight > MOVE_WEIGHT_CAP for weight in move_weights(shape, table, variable, shift))


def move_number(shape, table, variable, shift, output_length):
    """The number a move gives back, without working it out."""
    tests = table_tests(shape, table)
    tests[WRONG_OUTPUT_LENGTH] = lambda: output_length != shape.table_length
    tests[NO_SUCH_VARIABLE] = lambda: is_no_variable(shape, variable)
    tests[MOVED_LIMIT_OUTSIDE] = lambda: moved_limit_outside(shape, table, variable, shift)
    tests[MOVE_TOO_HEAVY] = lambda: move_is_too_heavy(shape, table, variable, shift)
    return first_that_holds(MOVE_ORDER, tests)


def move(shape, table, variable, shift, output):
    number = move_number(shape, table, variable, shift, len(output))
    if number == DONE:
        output[:] = moved_table(shape, table, variable, shift)
    return number


def forget():
    """Forget what was worked out, for when a function above or a shape has been changed."""
    products.cache_clear()
    is_light.cache_clear()
