"""Checks of this program against the agreed values and against itself.

Run it alone; it ends with one line when every assertion holds.
"""

import struct
from fractions import Fraction
from itertools import product

import desk
import door
import fixed_point
import floats
import gtm
import gtm_model
import microradians
import tables
import trimcard
from desk import lent
from draws import I64_MAX, Generator
from gtm_model import GTM
from makers import (
    NARROW_ALPHA, PROMISED_SIZES, SPECIAL_BITS, any_variable, filling_place, full_number, good_limits, inside_float_state,
    inside_state, last_accepted, move_factor_at, one_in_each_block, random_table, rest_of_cap, shifted, spoil_state, with_reading,
)
from model import BLOCK_COUNT, CUMULUS, EQUATIONS_OF_BLOCK, FINE_CUT, FIRST_BLOCK, GROUPS, PRINTED, PUBLISHED_TABLE
from roundings import half_away, half_even
from script import Script
from shapes import parse_polynomial
from wrong import replaced

SHAPES = (CUMULUS, GTM)
X, Z, L, M = 0, 2, 3, 4
T = PUBLISHED_TABLE
TERMS = {equation: parse_polynomial(text, CUMULUS.letters) for equation, text in PRINTED.items()}
GTM_TERMS = {equation: parse_polynomial(text, GTM.letters) for equation, text in gtm_model.PRINTED.items()}
LIFT, DRAG, PITCH = range(3)


def zero_table(limits, shape=CUMULUS):
    return tuple(limits) + (0,) * (shape.table_length - shape.first_block)


def with_place(table, place, value):
    return table[:place] + (value,) + table[place + 1:]


def soundness(table, shape=CUMULUS):
    """0, 3 or 4 for a table of the right length."""
    return tables.first_that_holds(tables.READ_ORDER[2:4], tables.table_tests(shape, table))


def made(maker, shape, *arguments):
    """The table of a shape that a maker leaves in a space."""
    script = Script().of(shape)
    maker(script, *arguments)
    return script.table(0)


def read(table, readings, shape=CUMULUS):
    output = lent(shape.read_length)
    number = tables.read(shape, table, readings, output)
    assert number == 0 or output == lent(shape.read_length)
    return number, output


def value(table, coefficient, readings):
    number, output = read(table, readings)
    assert number == 0
    return output[coefficient]


def move(table, variable, shift, shape=CUMULUS):
    output = lent(shape.table_length)
    number = tables.move(shape, table, variable, shift, output)
    assert number == 0 or output == lent(shape.table_length)
    return number, tuple(output)


def move_number(table, variable, shift, shape=CUMULUS):
    return tables.move_number(shape, table, variable, shift, shape.table_length)


def bits_of_float(number):
    return struct.unpack(">Q", struct.pack(">d", number))[0]


def float_read(*readings, table=T):
    """Float door on the published table or another; missing readings are zero."""
    bits = [bits_of_float(reading) for reading in readings]
    return door.read_floats(table, bits + [0] * (5 - len(bits)))


def check_printed_text():
    assert sum(map(len, TERMS.values())) == 181
    assert sum(1 for number in T[FIRST_BLOCK:] if number) == 181
    place = FIRST_BLOCK
    for _ in range(BLOCK_COUNT):
        for group in GROUPS:
            assert place == CUMULUS.place_of((place - 12) // 50, GROUPS.index(group), (0, 0))
            for p, q in group.powers:
                assert T[place] % 1000 ** (4 - p - q) == 0
                place += 1
    assert place == len(T) == 312
    assert T[:FIRST_BLOCK] == (-150, 313, 1000, 313269, -500, 500, -200, 200, -400, 400, -500, 500)
    assert [parts[0].start for parts in CUMULUS.parts] == [12, 62, 112, 162, 212, 262]
    # 17.949 degrees lies between 313 and 314 mrad, with pi held between two
    # fractions
    turn = Fraction("17.949") / 180 * 1000
    assert 313 < turn * Fraction("3.14159") < turn * Fraction("3.1416") < 314
    # and between 313269 and 313270 microradians
    assert 313269 < turn * 1000 * Fraction("3.14159265") < turn * 1000 * Fraction("3.14159266") < 313270
    # the powers of a group come by rising degree, then rising second power
    assert GROUPS[0].powers == [(0, 0), (1, 0), (0, 1), (2, 0), (1, 1), (0, 2),
                                (3, 0), (2, 1), (1, 2), (0, 3)]
    assert [len(group.powers) for group in GROUPS] == [10, 10, 15, 15]


def printed_value(equations, radians, terms=TERMS):
    """The sum of printed equations at readings in radians."""
    total = Fraction(0)
    for equation in equations:
        for powers, value in terms[equation].items():
            for reading, power in zip(radians, powers):
                value *= reading ** power
            total += value
    return total


def printed_values(is_low, radians):
    """The six coefficients by the printed equations."""
    return [printed_value((low if is_low else high) + aileron + rudder, radians) for low, high, aileron, rudder in EQUATIONS_OF_BLOCK]


def printed_bits(is_low, wholes):
    """The six as floats, by the printed equations of a piece, at whole milliradians."""
    return [door.answer_bits(int(answer * 10**17)) for answer in printed_values(is_low, [Fraction(reading, 1000) for reading in wholes])]


def check_published_reads():
    """Reads of the published table against the printed equations themselves, term by term in radians."""
    gen = Generator(105)
    for _ in range(60):
        state = inside_state(gen, CUMULUS, T)
        exact = printed_values(state[0] <= 313, [Fraction(reading, 1000) for reading in state])
        assert read(T, state) == (0, [answer * 10**17 for answer in exact])


def check_values_1_to_7():
    number, output = read(T, [0] * 5)
    assert number == 0
    assert output == [-2566 * 10**12, 5402 * 10**12, -34750 * 10**12,
                      4875 * 10**12, 6214 * 10**12, 4748 * 10**12]
    at_100 = with_reading(0, 100)
    assert value(T, X, at_100) == 3504 * 10**12
    assert value(T, Z, at_100) == -84904 * 10**12
    assert value(T, M, at_100) == -13507 * 10**12
    assert value(T, X, with_reading(0, 313)) == -5202590556000000
    assert value(T, X, with_reading(0, 314)) == -5254620385440000
    assert value(T, M, [100, 0, 0, 100, 0]) == -21651180000000000
    assert value(T, L, with_reading(2, 100)) == -3240430000000000
    for alpha, number in ((1000, 0), (1001, 11), (-150, 0), (-151, 11)):
        assert read(T, with_reading(0, alpha))[0] == number
    assert read(T, [1001, 501, 0, 0, 0])[0] == 11


def check_values_8_and_9():
    number, moved = move(T, 0, 100)
    assert number == 0
    assert moved[:4] == (-250, 213, 900, 213269) and moved[4:12] == T[4:12]
    for powers, stored in (((0, 0), 3504 * 10**12), ((1, 0), 52700 * 10**9),
                           ((2, 0), -194800 * 10**6), ((3, 0), -1148000 * 10**3)):
        assert moved[CUMULUS.place_of(X, 0, powers)] == stored
    assert move(T, 0, -1000)[0] == 7
    assert move(T, 0, -1001)[0] == 6


def check_values_10_and_11():
    for limits in (T[:12], CUMULUS.limits(NARROW_ALPHA)):
        lone = with_place(zero_table(limits), 12, 9 * 10**18)
        assert soundness(lone) == 0
        assert soundness(with_place(lone, 12, 9 * 10**18 + 1)) == 4
    for thousandths in range(1000):
        narrow = with_place(zero_table(CUMULUS.limits(NARROW_ALPHA, thousandths=thousandths)), CUMULUS.place_of(X, 0, (3, 0)), 9 * 10**12)
        assert soundness(narrow) == 0 and move_number(narrow, 0, 0) == 0
        assert move_number(narrow, 0, 100) == move_number(narrow, 0, -100) == 7
    # by -100 the low piece reaches 101, not 100
    assert tables.reaches(CUMULUS, tables.moved_limits(CUMULUS, narrow[:12], 0, -100), 0)[0] == 101


def check_values_12_and_13():
    for reading, whole in ((0.5, 1), (-0.5, -1), (1.5, 2), (2.5, 3), (0.49999999999999994, 0)):
        number, answers, back = float_read(reading)
        exact = read(T, with_reading(0, whole))[1]
        assert number == 0 and back == 0
        assert answers == [door.answer_bits(a) for a in exact]
    for reading in (1000.5, 1000.6, -150.5):
        assert float_read(reading) == (11, [0] * 6, bits_of_float(reading))
    # past the fine cut and rounded down: the high piece at 313
    assert float_read(313.4)[1] == printed_bits(False, with_reading(0, 313))
    assert float_read(2000.0, 0.0, 0.0, 0.0, float("nan")) == (25, [0] * 6, 0)
    assert float_read(0.0, 0.0, 0.0, -400.5, float("nan")) == (25, [0] * 6, 0)
    assert float_read()[1][X] == bits_of_float(-0.02566)


def check_worked_halves():
    """The bits that were worked out for the request to round halves away from zero."""
    for reading, x in ((0.5, 0xBF99B03A224144AD), (-0.5, 0xBF9ADC37FA196D84), (0.49999999999999994, 0xBF9A469D7342EDBB)):
        assert float_read(reading)[1][X] == x
    assert float_read(2.5, -2.5, 0.5, -0.5, 1.5)[1] == [
        0xBF988C805397BCAA, 0x3FABACEC5B99348F, 0xBFD745B91E99C578, 0x3FA87D64852D9E37, 0x3FAD8FB5AECA2C15, 0x3FA7F08144DB2792]


def check_worked_fine_cuts():
    """The bits that were worked out for the request to choose the piece by the reading as given."""
    low_at_313, high_at_313, high_at_314 = 0xBFAAA323B5D99794, 0xBFAAD8AF3F744168, 0xBFAAE756062ACD3F
    for reading, x in ((313.0, low_at_313), (313.26899999999995, low_at_313), (313.269, high_at_313), (313.4, high_at_313),
                       (313.5, high_at_314)):
        assert float_read(reading)[0] == 0 and float_read(reading)[1][X] == x
    assert low_at_313 == bits_of_float(-0.05202590556) and high_at_313 == bits_of_float(-0.0524344220122)
    assert value(T, X, with_reading(0, 313)) == -5202590556000000       # the whole reading is read in the low piece
    slopes = zero_table(CUMULUS.limits((-2, 3, 9), thousandths=700))
    for group, powers, number in ((0, (0, 0), 5), (0, (1, 0), 1), (1, (1, 0), 1000)):
        slopes = with_place(slopes, CUMULUS.place_of(X, group, powers), number)
    assert slopes == made(floats.slopes, CUMULUS, 0, floats.SLOPES_LIMITS)
    for reading, x in ((3.4, 8), (3.6, 9), (3.7, 4000), (3.71, 4000)):
        assert float_read(reading, table=slopes)[1][X] == bits_of_float(x / 1e17)
    assert value(slopes, X, with_reading(0, 4)) == 4000


def check_fine_cuts():
    """The cut is the fine one divided by 1000 and rounded down, below zero too."""
    for cut, fine, number in ((0, -1, 3), (0, 0, 0), (0, 999, 0), (0, 1000, 3), (-1, -1, 0), (-1, -1000, 0), (-1, -1001, 3), (-1, 0, 3)):
        assert soundness(zero_table((-100, cut, 1, fine) + (0,) * 8)) == number
    # the ends: no fine cut of a sound table passes them
    for alpha, thousandths in (((-2000, -2000, -1999), 0), ((1999, 1999, 2000), 999)):
        limits = CUMULUS.limits(alpha, thousandths=thousandths)
        assert soundness(zero_table(limits)) == 0 and -2000000 <= limits[FINE_CUT] <= 2000999
    for shift in range(-60, 61, 7):
        for variable in range(5):
            assert move(T, variable, shift)[1][FINE_CUT] == (313269 - 1000 * shift if variable == 0 else 313269)


def check_weights():
    """The weights of the published table: those of the high pieces, from the cut on, are what they were from cut + 1 on."""
    high = [112553887000000000, 95993474500000000, 452817587000000000, 92497075500000000, 256172429500000000, 65426586000000000]
    assert tables.weights(CUMULUS, T) == [
        98447768792000000, 150094184133600000, 381563507968000000, 125970575418400000, 253967856924000000, 115456288434400000] + high
    with replaced([(CUMULUS, "high_start", 1)]):
        assert tables.weights(CUMULUS, T)[6:] == high


def check_nearest(bits, exact):
    """The pattern is the nearest to the exact value, a tie at an even pattern."""
    error = abs(door.exact_value(bits) - exact)
    for neighbour in (bits - 1, bits + 1):
        other = abs(door.exact_value(neighbour) - exact)
        assert error < other or (error == other and bits % 2 == 0)


def check_exact_values():
    for bits in filter(door.is_finite, SPECIAL_BITS):
        as_float = struct.unpack(">d", struct.pack(">Q", bits))[0]
        assert Fraction(as_float) == door.exact_value(bits)
        if as_float:                    # both zeros have the value 0, whose pattern is that of the positive one
            assert door.nearest_bits(door.exact_value(bits)) == bits
    assert door.exact_value(bits_of_float(1e17)) == 10**17


def check_rounding():
    smallest = Fraction(1, 1 << 1074)
    assert door.nearest_bits(smallest / 2) == 0
    assert door.nearest_bits(smallest * 3 / 2) == 2
    assert door.nearest_bits(Fraction(2) ** 1024) == 0x7FF0000000000000
    for number, whole in ((2**53 + 1, 2**53), (2**53 + 3, 2**53 + 4),
                          (-(2**53) - 1, -(2**53)), (2**54 - 1, 2**54),
                          (2**62 + 512, 2**62), (2**62 + 513, 2**62 + 1024)):
        assert door.nearest_float_whole(number) == whole


def check_drawn_rounding():
    gen = Generator(101)
    for _ in range(2000):
        number = gen.take(-9 * 10**18, 9 * 10**18) >> gen.take(0, 60)
        whole = door.nearest_float_whole(number)
        if number:
            check_nearest(door.nearest_bits(Fraction(number)), Fraction(number))
            assert door.exact_value(door.nearest_bits(Fraction(number))) == whole
            check_nearest(door.answer_bits(number), Fraction(whole, 10**17))


def check_promised_moves():
    """Every promised size, and the tables at both extremes."""
    for variable, size in enumerate((300, 200, 100, 200, 200)):
        assert all(move_number(T, variable, shift) == 0 for shift in range(-size, size + 1))
        for shift in (-size, size):
            number, moved = move(T, variable, shift)
            assert number == 0 and soundness(moved) == 0


def check_largest_moves():
    """The largest single moves of the published table, and by which number the next one is refused."""
    for variable, up, down, past in ((0, 635, 553, 7), (1, 1500, 1500, 6), (2, 334, 334, 7), (3, 1600, 1600, 6), (4, 1500, 1500, 6)):
        for sign, size in ((1, up), (-1, down)):
            assert last_accepted(CUMULUS, T, variable, sign) == size
            assert all(move_number(T, variable, sign * shift) == 0 for shift in range(size + 1))
            assert move_number(T, variable, sign * (size + 1)) == past


def check_one_move(gen, shape, table, variable, shift):
    """Whatever an accepted move promises, on a few states and second moves."""
    number, moved = move(table, variable, shift, shape)
    if number != 0:
        return False
    assert soundness(moved, shape) == 0
    assert all(-(1 << 63) <= x < 1 << 63 for x in moved)
    for _ in range(3):
        state = inside_state(gen, shape, table)
        assert read(table, state, shape) == read(moved, shifted(state, variable, shift), shape)
        outside = [0] * shape.variable_count
        outside[variable] = table[shape.highest[variable]] + 1
        assert (read(table, outside, shape)[0]
                == read(moved, shifted(outside, variable, shift), shape)[0])
    check_second_moves(gen, shape, table, variable, shift, moved)
    return True


def check_second_moves(gen, shape, table, variable, shift, moved):
    """Back, on in the same variable, and in another one before or after."""
    back, restored = move(moved, variable, -shift, shape)
    assert back in (0, 7) and (back == 7 or restored == table)
    again = gen.take(-50, 50)
    check_same(move(moved, variable, again, shape), move(table, variable, shift + again, shape))
    other = (variable + gen.take(1, shape.variable_count - 1)) % shape.variable_count
    by = gen.take(-50, 50)
    first_other, aside = move(table, other, by, shape)
    if first_other == 0:
        check_same(move(moved, other, by, shape), move(aside, variable, shift, shape))


def check_same(one, other):
    """Two moves to the same place, where both are accepted."""
    if one[0] == other[0] == 0:
        assert one == other


def check_moves_of(shape):
    gen = Generator(102)
    accepted = 0
    for _ in range(120):
        variable = any_variable(gen, shape)
        accepted += check_one_move(gen, shape, shape.published, variable, gen.take(-300, 300))
    for _ in range(120):
        table = made(random_table, shape, gen, 0)
        variable = any_variable(gen, shape)
        accepted += check_one_move(gen, shape, table, variable, gen.take(-200, 200))
    assert accepted > 120
    for _ in range(60):
        table = made(random_table, shape, gen, 0)
        sound = soundness(table, shape)
        assert sound in (0, 4)
        for variable in range(shape.variable_count):
            number, same = move(table, variable, 0, shape)
            assert number == sound and (number or same == table)


def check_moves():
    for shape in SHAPES:
        check_moves_of(shape)


def check_refusal_order():
    for shape in SHAPES:
        check_order_of(shape)


def check_order_of(shape):
    """The refusals of each operation in their order, and the smallest number at each place."""
    table, state, length = shape.published, [1001] * shape.variable_count, shape.table_length
    bad = with_place(table, shape.lowest[1], table[shape.highest[1]] + 1)
    heavy = with_place(table, length - 1, -(1 << 63))
    assert tables.read(shape, table[:-1], state, []) == 1
    assert tables.read(shape, bad, state, []) == 2
    assert tables.read(shape, bad, state, lent(shape.read_length)) == 3
    assert tables.read(shape, heavy, state, lent(shape.read_length)) == 4
    assert tables.publish(shape, lent(length - 1)) == 2
    assert tables.move(shape, table[:-1], 9, 0, []) == 1
    assert tables.move(shape, bad, 9, 0, []) == 2
    assert tables.move(shape, bad, 9, 0, lent(length)) == 5
    assert tables.move(shape, bad, 0, 5000, lent(length)) == 3
    assert tables.move(shape, heavy, 0, 5000, lent(length)) == 4
    narrow = zero_table(shape.limits(NARROW_ALPHA), shape)
    for place in range(shape.first_block, length):
        assert soundness(with_place(narrow, place, -(1 << 63)), shape) == 4


def check_tables_at_cap_of(shape):
    """A full place and what fills the rest weigh the cap, and one more is refused."""
    gen = Generator(104)
    for place in range(shape.first_block, shape.table_length):
        limits = good_limits(gen, shape)
        size, rest = full_number(shape, limits, place), rest_of_cap(shape, limits, place)
        filling = filling_place(shape, place)
        lone = with_place(zero_table(limits, shape), place, -size)
        full = with_place(lone, filling, rest)
        assert max(tables.weights(shape, full)) == 9 * 10**18
        assert soundness(full, shape) == soundness(lone, shape) == 0
        assert soundness(with_place(full, filling, -rest - 1), shape) == 4
        assert soundness(with_place(lone, place, size + 1), shape) == 4
        assert soundness(made(one_in_each_block, shape, gen, 0, limits, place % 3), shape) == 0


def check_tables_at_cap():
    for shape in SHAPES:
        check_tables_at_cap_of(shape)


def check_moves_at_cap_of(shape):
    """A number whose move weighs the cap is moved, and one more is refused."""
    gen = Generator(106)
    for place in range(shape.first_block, shape.table_length, 7):
        limits = good_limits(gen, shape)
        variable, shift = any_variable(gen, shape), gen.take(-30, 30)
        factor = move_factor_at(shape, limits, place, variable, shift)
        lone = with_place(zero_table(limits, shape), place, 9 * 10**18 // factor)
        full = with_place(lone, filling_place(shape, place), 9 * 10**18 % factor)
        assert max(tables.move_weights(shape, full, variable, shift)) == 9 * 10**18
        assert move(full, variable, shift, shape)[0] in (0, 6)


def check_moves_at_cap():
    for shape in SHAPES:
        check_moves_at_cap_of(shape)


def check_float_reads():
    """Against the printed equations: those of the piece of alpha as given, at the rounded readings. Floats that are whole agree with the
    whole-number read too."""
    gen = Generator(103)
    across = 0
    for _ in range(300):
        state = inside_float_state(gen, T)
        wholes = [half_away(door.exact_value(bits)) for bits in state]
        number, answers, back = door.read_floats(T, state)
        assert number == read(T, wholes)[0] and back == (state[number - 11] if number else 0)
        if number == 0:
            is_low = door.exact_value(state[0]) <= Fraction("313.269")
            assert answers == printed_bits(is_low, wholes)
            across += is_low != (wholes[0] <= 313)
            if state == [bits_of_float(reading) for reading in wholes]:
                assert answers == [door.answer_bits(answer) for answer in read(T, wholes)[1]]
    assert across > 10


def check_examples_in_microradians():
    for state, answer in microradians.EXAMPLES:
        assert desk.run(b"microradians 6 " + desk.spaced(state).encode()) == answer.encode() + b"\n"
    assert desk.run(b"microradians 5 1000001 0 0 0 0") == b"2 untouched\n"
    assert desk.run(b"microradians 321 1000001 0 0 0 0") == b"? there is room for 320 numbers\n"
    assert printed_values(True, [Fraction(313269, 10**6), 0, 0, 0, 0])[X] == Fraction(-5252835842356237132, 10**20)


def fine_read(state):
    output = lent(6)
    assert fixed_point.read(state, output) == 0
    return output


def check_errors_in_microradians():
    """An answer is at most 6.91 units of 10^-9 off the printed equations: less than half a unit for each of its 37 products."""
    gen = Generator(107)
    states = list(microradians.corners()) + [microradians.drawn_state(gen) for _ in range(120)]
    for state in states:
        exact = printed_values(state[0] <= 313269, [Fraction(reading, 10**6) for reading in state])
        error = max(abs(Fraction(answer, 10**9) - due) for answer, due in zip(fine_read(state), exact))
        assert error <= Fraction('6.91') / 10**9


def check_whole_milliradians():
    """At whole milliradians the read in microradians answers what the read in milliradians does, but for its roundings."""
    gen = Generator(108)
    for _ in range(300):
        state = inside_state(gen, CUMULUS, T)
        for fine, answer in zip(fine_read([1000 * reading for reading in state]), read(T, state)[1]):
            assert abs(fine * 10**8 - answer) <= 691 * 10**6


def check_two_roundings():
    for thirds, whole in ((-5, -2), (-4, -1), (-2, -1), (-1, 0), (0, 0), (1, 0), (2, 1), (4, 1), (5, 2)):
        assert half_away(Fraction(thirds, 3)) == half_even(Fraction(thirds, 3)) == whole
    for half, away, even in ((-5, -3, -2), (-3, -2, -2), (-1, -1, 0), (1, 1, 0), (3, 2, 2), (5, 3, 2)):
        assert half_away(Fraction(half, 2)) == away
        assert half_even(Fraction(half, 2)) == even


def products_on_the_way(block, state):
    """The exact products of one coefficient's read in microradians, before each is rounded."""
    products = []

    def kept_and_rounded(exact):
        products.append(exact)
        return half_away(exact)

    with replaced([(fixed_point, "half_away", kept_and_rounded)]):
        fixed_point.coefficient(block, state)
    return products


def check_halves_in_microradians():
    """Of every coefficient the script has products exactly at a half, of both signs."""
    for block in range(BLOCK_COUNT):
        products = [exact for state in microradians.halves_of_block(block) for exact in products_on_the_way(block, state)]
        halves = [exact for exact in products if exact.denominator == 2]
        assert min(halves) < 0 < max(halves)


# ----------------------------------------------------------------- many states

ENVELOPE = ((-150, 1000), (-500, 500), (-200, 200), (-400, 400), (-500, 500))


def read_many(table, states, count, answers):
    """The number, and the rooms, which a refusal leaves as they were."""
    numbers, output = lent(count), lent(answers)
    number = tables.read_many(CUMULUS, table, states, numbers, output)
    assert number == 0 or (numbers, output) == (lent(count), lent(answers))
    return number, numbers, output


def check_many_states():
    """Each state against the printed equations, whatever those beside it are: a refused one has its number and zeros."""
    gen = Generator(110)
    for count in (0, 1, 2, 7, 53, 150):
        states = [inside_state(gen, CUMULUS, T) for _ in range(count)]
        states = [state if gen.take(0, 2) else spoil_state(gen, CUMULUS, T, state) for state in states]
        number, numbers, output = read_many(T, sum(states, []), count, 6 * count)
        assert number == 0
        for k, state in enumerate(states):
            outside = [11 + v for v, (low, high) in enumerate(ENVELOPE) if not low <= state[v] <= high]
            exact = printed_values(state[0] <= 313, [Fraction(reading, 1000) for reading in state])
            assert numbers[k] == (outside[0] if outside else 0)
            assert output[6 * k:6 * k + 6] == ([0] * 6 if outside else [answer * 10**17 for answer in exact])


def check_lengths_of_many_states():
    """All lengths about those of up to two states, with tables of every kind: which refusal comes first."""
    bad = with_place(T, 4, 501)
    for table, soundness in ((T, 0), (T[:311], 1), (bad, 3), (with_place(T, 12, 1 << 62), 0), (with_place(T, 12, I64_MAX), 4),
                             (with_place(bad, 12, I64_MAX), 3), (with_place(bad, 12, I64_MAX)[:311], 1)):
        for states, count, answers in product(range(12), range(3), range(14)):
            fits = (states, answers) == (5 * count, 6 * count)
            due = soundness if fits or soundness == 1 else 2
            assert read_many(table, [0] * states, count, answers)[0] == due


# ------------------------------------------------------------------------- GTM

def gtm_values(is_low, radians, terms=GTM_TERMS):
    """Lift, drag and pitching moment by the printed equations."""
    return [printed_value(low if is_low else high, radians, terms) for low, high in gtm_model.EQUATIONS_OF_BLOCK]


def check_printed_text_of_the_gtm():
    assert [len(GTM_TERMS[equation]) for equation in ("96 low", "96 high", "97")] == [4, 4, 10]
    printed = [value for terms in GTM_TERMS.values() for value in terms.values()]
    assert len(printed) == 54 and printed.count(0) == 1
    assert all((1000 * value).denominator == 1 for value in printed)
    assert GTM.published[:5] == (-150, 290, 1000, -400, 400) and len(GTM.published) == 65
    place = 5
    for block in range(3):
        for number, group in enumerate(GTM.groups):
            for powers in group.powers:
                assert place == GTM.place_of(block, number, powers)
                assert GTM.published[place] % (100 * 1000 ** (4 - sum(powers))) == 0
                place += 1
    # the eta expression goes into both pieces: -30.060 + 0.051 and 0.708 + 0.051
    assert GTM.published[GTM.place_of(LIFT, 0, (3, 0))] == -3000900000 and GTM.published[GTM.place_of(LIFT, 1, (3, 0))] == 75900000
    for power in ((0, 1), (1, 1), (0, 2), (2, 1), (1, 2), (0, 3)):
        for block in range(3):
            assert GTM.published[GTM.place_of(block, 0, power)] == GTM.published[GTM.place_of(block, 1, power)] != 0


def gap(block, radians, terms=GTM_TERMS):
    """By how much the low piece is above the high one."""
    return gtm_values(True, radians, terms)[block] - gtm_values(False, radians, terms)[block]


def check_boundary_of_the_gtm():
    """16.634 degrees lies between 290 and 291 milliradians, and there the two pieces all but meet."""
    turn = Fraction("16.634") / 180
    assert 290 < turn * 1000 * Fraction("3.14159") < turn * 1000 * Fraction("3.1416") < 291
    boundary = [turn * Fraction("3.14159265"), 0]
    for block, due, unit in ((LIFT, 8, 10**4), (DRAG, -7, 10**5), (PITCH, 3, 10**4)):
        assert half_even(gap(block, boundary) * unit) == due
    # with the numbers of the damaged line they would not
    for powers, wrong, due in (((0, 0), "-0.029", 58), ((2, 0), "2.304", 5)):
        damaged = {**GTM_TERMS, "98 low": {**GTM_TERMS["98 low"], powers: Fraction(wrong)}}
        assert half_even(abs(gap(DRAG, boundary, damaged)) * 1000) == due


def check_published_reads_of_the_gtm():
    """Reads of the published table against the printed equations themselves, term by term in radians."""
    gen = Generator(109)
    for _ in range(60):
        state = inside_state(gen, GTM, GTM.published)
        exact = gtm_values(state[0] <= 290, [Fraction(reading, 1000) for reading in state])
        assert read(GTM.published, state, GTM) == (0, [answer * 10**17 for answer in exact])


def check_worked_values_of_the_gtm():
    for state, answer in gtm.EXAMPLES:
        assert desk.run(b"length 0 65\ngtm_publish 0\ngtm_read 0 3 %d %d" % state).split(b"\n")[2] == answer.encode()
    assert tables.weights(GTM, GTM.published) == [
        274496196100000000, 49150607500000000, 313041308700000000, 808117600000000000, 307263200000000000, 680266400000000000]
    number, moved = move(GTM.published, 0, 35, GTM)
    assert number == 0 and moved[:5] == (-185, 255, 965, -400, 400)
    assert moved[5:15] == (20135178912500000, 526062692500000, 50648777500000, -123794500000, -41327000000, 7874500000, -3000900000,
                           3900000, -29300000, -47900000)
    for variable, shift, number in ((0, -1000, 7), (0, -1001, 6), (2, 0, 5)):
        assert move(GTM.published, variable, shift, GTM)[0] == number


def check_sizes_of_the_gtm():
    """The largest single moves of the published table, and every size that is always accepted."""
    for variable, sign, size in ((0, 1, 577), (0, -1, 507), (1, 1, 1533), (1, -1, 1533)):
        assert last_accepted(GTM, GTM.published, variable, sign) == size
        assert move(GTM.published, variable, sign * (size + 1), GTM)[0] == 7
        for shift in range(PROMISED_SIZES[GTM][variable] + 1):
            assert move_number(GTM.published, variable, sign * shift, GTM) == 0


def check_other_shape():
    """A table of the other shape is refused by its length, and so is a room."""
    assert read(T, [0, 0], GTM)[0] == read(GTM.published, [0] * 5)[0] == 1
    assert move(T, 0, 0, GTM)[0] == move(GTM.published, 0, 0)[0] == 1
    assert tables.publish(GTM, lent(312)) == tables.publish(CUMULUS, lent(65)) == 2
    assert tables.read(GTM, GTM.published, [0, 0], lent(6)) == tables.read(CUMULUS, T, [0] * 5, lent(3)) == 2


def check_line_program():
    origin = (b"0 -2566000000000000 5402000000000000 -34750000000000000"
              b" 4875000000000000 6214000000000000 4748000000000000\n")
    refused = b"31 0 0 0 0 0 0\n"
    for given, answer in (
        (b"", b""), (b"\n", refused), (b"\n\n", refused * 2),
        (b"0 0 0 0 0\n", origin), (b"0 0 0 0 0", origin),
        (b"0 0 0 0 0\n\n", origin + refused), (b"\n0 0 0 0 0", refused + origin),
        (b"-0 00 000 0000 -0000\n", origin), (b"0 0 0 0 0 \n", refused),
        (b"0 0 0 0 0\r\n", refused), (b"0 0 0 0\n", refused),
        (b"00000 0 0 0 0\n", refused), (b"0  0 0 0 0\n", refused),
        (b"1001 501 0 0 0\n", b"11 0 0 0 0 0 0\n"),
        (b"0 0 0 0 -501", b"15 0 0 0 0 0 0\n"),
    ):
        assert trimcard.run(given) == answer


def check_draws():
    """The first steps of this xorshift from 1, as they are known, and what fill makes of them."""
    known = [1082269761, 1152992998833853505, 11177516664432764457, 17678023832001937445]
    s, steps = 1, []
    for _ in known:
        s = desk.stepped(s)
        steps.append(s)
    assert steps == known
    signs = [1, 1, -1, -1]              # the last two are at least 2^63
    assert desk.filled((0,) * 4, 0, 1, 1000, 1) == tuple(sign * (s % 2**63 % 1000) for sign, s in zip(signs, known))
    assert desk.filled((5,) * 4, 1, 2, 1000, 1) == (5, 761, 5, 505) and desk.filled((5,) * 4, 1, 0, 1000, 1) == (5, 761, 5, 5)
    assert desk.checksum(()) == 1 and desk.checksum((0,)) == known[0] and desk.checksum((5, 0)) == desk.stepped(known[0] + 5)


VANE = b"""publish 0
move 0 0 -35 1
read 1 6 135 0 0 0 0
read 1 6 1036 0 0 0 0
floats 1 4060eccccccccccd 0 0 0 0
"""


def check_desk():
    """The vane on the wing as a script, and lines that are not understood."""
    answers = desk.run(VANE).split(b"\n")
    assert answers[0].startswith(b"0 wrote 312 sum ") and answers[1].startswith(b"0 wrote 312 sum ")
    assert answers[2].split()[5] == b"-13507000000000000" and answers[3] == b"11 untouched"
    assert answers[4].split()[6] == b"%x" % bits_of_float(-0.13507) and answers[5:] == [b""]
    use = b"? use: sum SPACE\n"
    for given, answer in (
        (b"", b""), (b"\n", b"\n"), (b" \n\n", b"\n\n"), (b"# x", b"# x\n"), (b"  #x  \n", b"  #x  \n"),
        (b"sum", use), (b"sum 0 0", use), (b"sum -0", use), (b"sum 18446744073709551616", use),
        (b"sum 10", b"? the spaces are 0 to 9\n"), (b"sum 18446744073709551615", b"? the spaces are 0 to 9\n"),
        (b"Sum 0", b"? no such command\n"), (b"sum\t0", b"? no such command\n"),
        (b"length 0 320\nlength 0 321", b"ok\n? there is room for 320 numbers\n"),
        (b"read 0 321 0 0 0 0 0", b"? there is room for 320 numbers\n"),
        (b"set 0 312 1\nset 0 311 -0\nset 0 311 -9223372036854775809", b"? no such place\nok\n? use: set SPACE PLACE NUMBER\n"),
        (b"show 0 312 0\nshow 0 312 1\nshow 0 0 3", b"\n? no such place\n0 0 0\n"),
        (b"length 0 2\nset 0 1 7\ncopy 0 3\nlength 3 4\nshow 3 0 4", b"ok\nok\nok\nok\n0 7 0 0\n"),
        (b"floats 0 g 0 0 0 0", b"? use: floats SPACE ALPHA BETA XI ETA ZETA\n"),
        (b"many 0 0 0", b"? use: many SPACE STATES COUNT INTO\n"), (b"many 0 0 321 0", b"? there is room for 320 numbers\n"),
        (b"many 0 10 321 0", b"? the spaces are 0 to 9\n"), (b"publish 0\nmany 0 1 1 2", desk.run(b"publish 7") + b"2 untouched\n"),
        (b"gtm_publish", b"? use: gtm_publish INTO\n"), (b"gtm_move 0 0 0", b"? use: gtm_move SPACE VARIABLE SHIFT INTO\n"),
        (b"gtm_read 0 3 0", b"? use: gtm_read SPACE ROOM ALPHA ETA\n"), (b"gtm_read 0 321 0 0", b"? there is room for 320 numbers\n"),
        (b"gtm_publish 0\ngtm_read 0 3 0 0\ngtm_move 0 0 0 0", b"2 untouched\n1 untouched\n1 untouched\n"),
        (b"sum 0" + b" " * 251, desk.run(b"sum 0")), (b"sum 0" + b" " * 252, b"? a line has at most 256 bytes\n"),
        (b"publish 0\nread 0 5 0 0 0 0 0\nmove 0 5 0 0", desk.run(b"publish 7") + b"2 untouched\n5 untouched\n"),
    ):
        assert desk.run(given) == answer


MANY = b"""publish 0
length 1 15
set 1 0 100
set 1 5 1001
set 1 12 100
length 2 18
many 0 1 3 2
show 2 4 9
show 2 15 1
length 1 0
length 2 0
many 0 1 0 2
many 1 1 0 2
"""


def check_many_at_the_desk():
    """Three states, of which the second is outside, and none."""
    *_, answer, shown, last, _, _, none, refused, end = desk.run(MANY).split(b"\n")
    assert answer.startswith(b"0 wrote 18 sum ") and answer.endswith(b" gave 0 11 0")
    assert shown == b"-13507000000000000 1352100000000000 0 0 0 0 0 0 %d" % value(T, X, with_reading(2, 100))
    assert last == b"%d" % value(T, L, with_reading(2, 100)) and none == b"0 wrote 0 sum 1 gave" and refused == b"1 untouched" and end == b""


CHECKS = (
    check_printed_text, check_published_reads, check_values_1_to_7, check_values_8_and_9, check_values_10_and_11,
    check_values_12_and_13, check_worked_halves, check_worked_fine_cuts, check_fine_cuts, check_weights, check_exact_values, check_rounding,
    check_drawn_rounding, check_promised_moves, check_largest_moves, check_moves, check_refusal_order, check_tables_at_cap,
    check_moves_at_cap, check_float_reads, check_examples_in_microradians,
    check_errors_in_microradians, check_whole_milliradians, check_two_roundings, check_halves_in_microradians,
    check_many_states, check_lengths_of_many_states, check_many_at_the_desk,
    check_printed_text_of_the_gtm, check_boundary_of_the_gtm, check_published_reads_of_the_gtm, check_worked_values_of_the_gtm,
    check_sizes_of_the_gtm, check_other_shape, check_line_program, check_draws, check_desk,
)

if __name__ == "__main__":
    for check in CHECKS:
        check()
    print("all %d checks hold" % len(CHECKS))
