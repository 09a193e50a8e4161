"""Sections of many states of one table: none, one and as many as there is room for, both pieces, states refused among others, wrong
lengths, the order of refusals, spaces that are the same, and drawn states of published, moved, random, damaged and unsound tables.

The table is in space 0, the states in space 1, and the answers go into space 2, where nothing else is said.
"""

from itertools import product

from draws import I64_MAX, I64_MIN, MASK
from listed import ENDS, TABLE_LENGTHS, lay_out_defects, one_or_none, published_of_length, room_of_numbers
from makers import (
    NARROW_ALPHA, ZEROS, any_variable, corners, cut_at, damage, draw_seed, good_limits, inside_state, nudge, of_sign, one_in_each_block,
    random_table, shifted, spoil_limits, spoil_state, with_reading,
)
from model import CUMULUS, FINE_CUT, FIRST_BLOCK, HIGHEST, LOWEST, PUBLISHED_TABLE, READ_LENGTH
from tables import WEIGHT_CAP

TABLE, STATES, ANSWERS = range(3)
VARIABLES = CUMULUS.variable_count
MOST_STATES = 53                    # 320 // 6
CHECKED = (ZEROS, with_reading(0, 100), with_reading(0, 313), with_reading(0, 314), [100, 0, 0, 100, 0], with_reading(2, 100))
# low and high by turns
FIVE = ([57, -33, 21, -48, 15], [654, 321, -98, 7, -245], [313, 0, 0, 0, 0], [314, -500, 200, 400, 500], [-150, 499, -199, 1, -1])


def states_in(script, space, states):
    """A space of so many states, one behind the other."""
    script.zeros(space, VARIABLES * len(states))
    for place, reading in enumerate(sum(states, [])):
        if reading:
            script.set(space, place, reading)


def ask(script, count, table=TABLE):
    """The states in their space, with room for so many answers."""
    script.length(ANSWERS, READ_LENGTH * count)
    script.many(table, STATES, count, ANSWERS)


def ask_for(script, states, table=TABLE):
    states_in(script, STATES, states)
    ask(script, len(states), table)


def show_six(script, k):
    """What was answered to a state."""
    script.show(ANSWERS, READ_LENGTH * k, READ_LENGTH)


# -------------------------------------------------------------- states answered

def none_to_as_many_as_fit(script, _):
    script.published(TABLE)
    script.comment("no state")
    ask_for(script, [])
    script.sum(ANSWERS)
    script.comment("the checked states alone, and each with a read")
    for state in CHECKED:
        ask_for(script, [state])
        show_six(script, 0)
        script.read(TABLE, state)
    script.comment("all of them")
    ask_for(script, list(CHECKED))
    for k in range(len(CHECKED)):
        show_six(script, k)
    script.comment("as many as there is room for: every corner, and both sides of the cut")
    ask_for(script, corners(CUMULUS, PUBLISHED_TABLE) + [[alpha, 7, -5, 3, -2] for alpha in range(303, 324)])
    for k in (0, 31, 32, MOST_STATES - 1):
        show_six(script, k)
    script.comment("the same state again and again")
    for count in (2, 3, 17, MOST_STATES):
        ask_for(script, [FIVE[1]] * count)


def either_piece(script, _):
    """Each state in its own piece, whatever those before it are in."""
    script.published(TABLE)
    for alphas in ((313, 314), (314, 313), (313, 314, 313, 314), (314, 314, 313), (313, 313, 314), (1000, -150, 314, 0, 313),
                   (-150, 1000), (312, 313, 314, 315)):
        ask_for(script, [[alpha, 7, -5, 3, -2] for alpha in alphas])
        for k in range(len(alphas)):
            show_six(script, k)
    script.comment("a table whose low piece is 5 and whose high piece is 7 in every coefficient")
    script.limits(TABLE, CUMULUS.limits((-9, 2, 11), thousandths=700))
    for block in range(READ_LENGTH):
        for group, number in enumerate((5, 7)):
            script.set(TABLE, CUMULUS.place_of(block, group, (0, 0)), number)
    for turn in range(16):
        ask_for(script, [with_reading(0, 3 if turn >> k & 1 else 2) for k in range(4)])


def moved_tables(script, _):
    """The same states, told from the moved zero, are answered by the moved table as they were."""
    script.published(TABLE)
    states = list(FIVE) + [[1001, 0, 0, 0, 0], [0, 0, 0, 0, -501]]
    ask_for(script, states)
    script.zeros(3)
    for v, shift in ((0, 100), (0, -35), (1, -50), (2, 30), (3, 77), (4, -99)):
        script.move(TABLE, v, shift, 3)
        ask_for(script, [shifted(state, v, shift) for state in states], 3)
        ask_for(script, states, 3)


# --------------------------------------------------------------- states refused

def past_limits(variable):
    return PUBLISHED_TABLE[LOWEST[variable]] - 1, PUBLISHED_TABLE[HIGHEST[variable]] + 1


def five_with(script, *changes):
    """Asks for the five states of space 3, some of their readings replaced."""
    script.copy(3, STATES)
    for k, variable, reading in changes:
        script.set(STATES, VARIABLES * k + variable, reading)
    ask(script, len(FIVE))


def refused_among_others(script, _):
    """A refused state has its number and six zeros, and those beside it are answered."""
    script.published(TABLE)
    states_in(script, 3, list(FIVE))
    for v in range(VARIABLES):
        for reading in past_limits(v):
            for k in range(len(FIVE)):
                five_with(script, (k, v, reading))
            show_six(script, 3)
            show_six(script, 4)
    script.comment("two readings of a state outside: the first gives the number")
    for v, w in product(range(VARIABLES), repeat=2):
        if v < w:
            five_with(script, (2, v, past_limits(v)[1]), (2, w, past_limits(w)[0]))
    script.comment("several states refused, each by its own number")
    for first, last in product(range(len(FIVE)), repeat=2):
        if first < last:
            five_with(script, *((k, (k + last) % VARIABLES, past_limits((k + last) % VARIABLES)[k % 2]) for k in range(first, last + 1)))
    five_with(script, *((k, k, past_limits(k)[0]) for k in range(5)))
    five_with(script, *((k, 4 - k, past_limits(4 - k)[1]) for k in range(5)))
    for k in range(5):
        show_six(script, k)
    script.comment("one state, refused")
    for v in range(VARIABLES):
        ask_for(script, [with_reading(v, past_limits(v)[0])])
        show_six(script, 0)


def refused_of_most(script, _):
    """As many states as there is room for, one of them refused, at the ends and between; and every second one."""
    script.published(TABLE)
    states_in(script, 3, [list(FIVE[k % 5]) for k in range(MOST_STATES)])
    for k in (0, 1, 26, 51, 52):
        script.copy(3, STATES)
        script.set(STATES, VARIABLES * k + 3, 401)
        ask(script, MOST_STATES)
    script.fill(STATES, 1, 2 * VARIABLES, 1, 1)
    script.fill(STATES, VARIABLES + 1, 2 * VARIABLES, MASK, 1)
    ask(script, MOST_STATES)


def readings_at_the_ends(script, _):
    """Readings at the ends of 64 and of 32 bits."""
    script.published(TABLE)
    states_in(script, 3, list(FIVE))
    for turn, (v, reading) in enumerate(product(range(VARIABLES), ENDS + (1 << 32 | 5, -(1 << 32) - 5))):
        five_with(script, (turn % 5, v, reading))
    for reading in ENDS:
        ask_for(script, [[reading] * 5, list(FIVE[1]), [reading] * 4 + [0], [0] + [reading] * 4])


# --------------------------------------------------------------------- lengths

def with_lengths(script, states, count, answers, table=TABLE):
    """States and answers of other lengths than belong to the count."""
    script.length(STATES, states)
    script.length(ANSWERS, answers)
    script.many(table, STATES, count, ANSWERS)


def wrong_lengths(script, _):
    """Each length one off, and one state off, alone and with others; all that fit are among them."""
    script.published(TABLE)
    script.zeros(STATES, 320)
    for k in range(64):
        script.set(STATES, VARIABLES * k + k % 5, k)
    script.copy(STATES, 3)
    room_of_numbers(script, ANSWERS, 320)
    for n in (0, 1, 2, 7, 52, 53):
        for states, count, answers in ((0, 0, 0), (1, 0, 0), (-1, 0, 0), (0, 1, 0), (0, -1, 0), (0, 0, 1), (0, 0, -1), (5, 0, 0), (-5, 0, 0),
                                       (0, 0, 6), (0, 0, -6), (5, 1, 0), (0, 1, 6), (5, 0, 6), (5, 1, 6), (4, 0, 0), (0, 0, 5), (1, 0, -1)):
            if 5 * n + states >= 0 and n + count >= 0 and 0 <= 6 * n + answers <= 320:
                script.copy(3, STATES)
                with_lengths(script, 5 * n + states, n + count, 6 * n + answers)
    script.sum(ANSWERS)
    script.comment("states and answers of every number of states about three")
    for states, count, answers in product((2, 3, 4), repeat=3):
        script.copy(3, STATES)
        with_lengths(script, 5 * states, count, 6 * answers)
    script.comment("the two lengths exchanged, lengths in bytes, and none of one kind")
    for states, count, answers in ((6, 1, 5), (30, 5, 30), (30, 6, 30), (30, 5, 36), (25, 5, 30), (30, 6, 36), (40, 1, 48), (40, 8, 48),
                                   (5, 1, 48), (40, 1, 6), (0, 1, 6), (5, 0, 6), (5, 1, 0), (0, 0, 6), (5, 0, 0), (0, 1, 0), (0, 0, 0)):
        script.copy(3, STATES)
        with_lengths(script, states, count, answers)


def counts(script, _):
    """More answers than there is room for, and more than the desk lends."""
    script.published(TABLE)
    script.zeros(3)
    states_in(script, STATES, list(FIVE))
    script.length(ANSWERS, 30)
    for count in (0, 1, 4, 5, 6, 25, 30, 52, 53, 54, 64, 319, 320, 321, 322, 1 << 32, (1 << 32) + 5, 1 << 63, MASK):
        script.many(TABLE, STATES, count, ANSWERS)
        script.many(3, STATES, count, ANSWERS)
    script.comment("as many states as a space has at most")
    with_lengths(script, 320, 64, 320)
    with_lengths(script, 320, 53, 318)
    with_lengths(script, 265, 53, 318)
    with_lengths(script, 0, 320, 320)


# -------------------------------------------------------------- order of refusals

# the last six do not fit two states
LENGTHS = ((10, 2, 12), (0, 0, 0), (9, 2, 12), (11, 2, 12), (10, 1, 12), (10, 3, 12), (10, 2, 11), (10, 2, 13))


def mixed_defects(script, _):
    """Every mixture of a table's defects with lengths that fit and that do not, and with states inside and outside."""
    lay_out_defects(script, False)
    room_of_numbers(script, 9, 12)
    for reading in (0, 2):
        states_in(script, 8, [with_reading(0, 1), with_reading(4, reading)])
        for states, count, answers in LENGTHS:
            script.length(8, states)
            script.length(9, answers)
            for mask in range(8):
                script.many(mask, 8, count, 9)
        script.sum(9)


def lengths_of_tables(script, _):
    """Tables of every length, with lengths that fit, one that does not, and no state."""
    for length in TABLE_LENGTHS + (65, 310, 318):
        published_of_length(script, TABLE, length)
        states_in(script, STATES, [list(FIVE[0])])
        with_lengths(script, 5, 1, 6)
        with_lengths(script, 5, 1, 5)
        with_lengths(script, 0, 0, 0)
        with_lengths(script, 1, 0, 0)


def unsound_tables(script, _):
    """Two and three defects of each kind, with two states, of which one is outside, and with none: the table is looked at all the same."""
    limit_defects = ((0, 2001), (11, -2001), (0, 1), (5, -1), (8, 1), (FINE_CUT, 1000))
    heavy_defects = ((12, WEIGHT_CAP + 1), (31, I64_MIN), (161, I64_MAX), (311, -WEIGHT_CAP - 1))
    script.limits(4, CUMULUS.limits(NARROW_ALPHA))
    states_in(script, STATES, [ZEROS, with_reading(0, 2)])
    script.copy(STATES, 3)
    for defects in product([tuple(cut_at(CUMULUS, 1))] + one_or_none(limit_defects), one_or_none(heavy_defects)):
        script.copy(4, TABLE)
        for place, number in sum(defects, ()):
            script.set(TABLE, place, number)
        with_lengths(script, 0, 0, 0)
        script.copy(3, STATES)
        ask(script, 2)
    script.comment("a number in each block at the cap, and past it")
    for block in range(READ_LENGTH):
        for number in (WEIGHT_CAP, -WEIGHT_CAP - 1):
            script.copy(4, TABLE)
            script.set(TABLE, FIRST_BLOCK + CUMULUS.block_length * block, number)
            ask(script, 2)


# ------------------------------------------------------------------ same spaces

def same_spaces(script, _):
    """The answers into the space of the table, into that of the states, and both of these from one space."""
    script.comment("52 answers are as long as a table, and take its place")
    script.published(TABLE)
    script.zeros(STATES, 260)
    for v, size in enumerate((150, 500, 200, 400, 500)):
        script.fill(STATES, v, VARIABLES, size + 1, 1000003 + v)
    script.many(TABLE, STATES, 52, ANSWERS)
    for count in (51, 53, 0, 52):
        script.many(TABLE, STATES, count, TABLE)
        script.sum(TABLE)
    script.show(TABLE, 0, READ_LENGTH)
    script.sum(STATES)
    script.many(TABLE, STATES, 52, TABLE)
    script.sum(TABLE)
    script.comment("into the states: only where there are none")
    script.published(TABLE)
    for length in (30, 25, 5, 6, 0):
        room_of_numbers(script, STATES, length)
        for count in (5, 6, 1, 0):
            script.many(TABLE, STATES, count, STATES)
        script.sum(STATES)
    script.comment("the states in the table's space")
    for length in (312, 310, 0):
        script.length(TABLE, length)
        for count in (62, 63, 52, 0):
            script.many(TABLE, TABLE, count, ANSWERS)
            script.many(TABLE, TABLE, count, TABLE)
        script.sum(TABLE)
    script.comment("the last spaces")
    script.published(9)
    script.copy(9, 8)
    states_in(script, 7, [list(FIVE[1])])
    script.zeros(6, READ_LENGTH)
    for space, states, into in ((9, 7, 6), (8, 7, 6), (9, 8, 6), (7, 9, 6), (9, 6, 7), (6, 7, 9), (9, 7, 9)):
        script.many(space, states, 1, into)
        script.sum(into)


# ----------------------------------------------------------------------- drawn

def fill_states(script, gen, count):
    """So many states by drawn numbers, of which few or many pass a limit, and some in the high piece."""
    script.zeros(STATES, VARIABLES * count)
    for v, size in enumerate((150, 500, 200, 400, 500)):
        script.fill(STATES, v, VARIABLES, gen.pick((size + 1, size + 1, size + 20)), draw_seed(gen))
    for _ in range(gen.take(0, 6)):
        script.set(STATES, VARIABLES * gen.take(0, count - 1), gen.take(300, 1001))


def filled(script, gen):
    script.published(TABLE)
    for _ in range(40):
        count = gen.take(1, MOST_STATES)
        fill_states(script, gen, count)
        ask(script, count)


def drawn_states(gen, table, count):
    """Inside a table's limits, but for some that are spoilt."""
    states = [inside_state(gen, CUMULUS, table) for _ in range(count)]
    return [spoil_state(gen, CUMULUS, table, state) if gen.take(0, 3) == 0 else state for state in states]


def use_table(script, gen, space=TABLE):
    ask_for(script, drawn_states(gen, script.table(space), gen.take(1, 6)), space)


def of_moved_tables(script, gen):
    script.published(TABLE)
    script.zeros(3)
    for _ in range(16):
        states = drawn_states(gen, script.table(TABLE), gen.take(1, 5))
        v, shift = any_variable(gen, CUMULUS), gen.take(-100, 100)
        script.move(TABLE, v, shift, 3)
        ask_for(script, states)
        ask_for(script, [shifted(state, v, shift) for state in states], 3)
    script.comment("moves on top of moves")
    script.copy(TABLE, 3)
    for _ in range(12):
        nudge(script, gen, 3, 3)
        use_table(script, gen, 3)


def of_random_tables(script, gen):
    for _ in range(24):
        random_table(script, gen, TABLE)
        use_table(script, gen)


def published_with(change, turns):
    """A section of the published table, each time with another change."""
    def section(script, gen):
        script.published(3)
        for _ in range(turns):
            script.copy(3, TABLE)
            change(script, gen, TABLE)
            use_table(script, gen)
    return section


def near_the_cap(script, gen):
    """Tables near the cap in every block, and then one block past it."""
    for turn in range(18):
        limits = good_limits(gen, CUMULUS)
        one_in_each_block(script, gen, TABLE, limits, turn % 3)
        use_table(script, gen)
        script.set(TABLE, gen.take(FIRST_BLOCK, CUMULUS.table_length - 1), of_sign(gen, WEIGHT_CAP + 1))
        ask(script, len(script.table(STATES)) // VARIABLES)


SECTIONS = (
    ("Many states, none to as many as fit", none_to_as_many_as_fit),
    ("Many states in either piece", either_piece),
    ("Many states of moved tables", moved_tables),
    ("States refused among others", refused_among_others),
    ("States refused among as many as fit", refused_of_most),
    ("Many states at the ends of 64 bits", readings_at_the_ends),
    ("Wrong lengths of many states", wrong_lengths),
    ("Counts of many states", counts),
    ("Mixed defects of many states", mixed_defects),
    ("Lengths of tables of many states", lengths_of_tables),
    ("Unsound tables of many states", unsound_tables),
    ("Many states in the same spaces", same_spaces),
    ("Drawn numbers as states", filled),
    ("Drawn states of moved tables", of_moved_tables),
    ("Drawn states of random tables", of_random_tables),
    ("Drawn states of damaged tables", published_with(damage, 20)),
    ("Drawn states of tables with bad limits", published_with(spoil_limits, 20)),
    ("Drawn states of tables near the cap", near_the_cap),
)
