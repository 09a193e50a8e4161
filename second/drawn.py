"""Sections of drawn reads and moves: published, moved, random, unsound and damaged tables, and tables whose weight is just the cap.

Each is drawn for the shape of the script that it is given, in so many turns.
"""

from draws import I64_MAX, I64_MIN
from makers import (
    DENSE_BUDGETS, PROMISED_SIZES, any_variable, damage, dense_table, filling_place, full_number, good_limits, inside_float_state,
    inside_state, last_accepted, move_factor_at, nudge, of_sign, one_in_each_block, random_table, rest_of_cap, shifted, spoil_limits,
    spoil_state, variables_at,
)
from model import CUMULUS
from tables import WEIGHT_CAP


def use_table(script, gen, space):
    """Two reads of any table of full length."""
    state = inside_state(gen, script.shape, script.table(space))
    script.read(space, state)
    script.read(space, spoil_state(gen, script.shape, script.table(space), state))


def move_and_use(script, gen, space, variable, shift, into):
    """A move; if accepted, the same state on both sides and uses of the new table."""
    state = inside_state(gen, script.shape, script.table(space))
    if not script.move(space, variable, shift, into):
        return False
    script.read(space, state)
    script.read(into, shifted(state, variable, shift))
    use_table(script, gen, into)
    return True


def float_read(script, gen, space):
    """A read with floats, which Cumulus tables alone have."""
    if script.shape is CUMULUS:
        script.floats(space, inside_float_state(gen, script.table(space)))


def published_reads(script, gen, turns=600):
    script.published(0)
    for _ in range(turns):
        use_table(script, gen, 0)


def published_and_moved(script, gen, turns=80):
    script.published(0)
    script.zeros(1)
    for _ in range(turns):
        v = any_variable(gen, script.shape)
        bound = PROMISED_SIZES[script.shape][v] * gen.take(1, 3)
        move_and_use(script, gen, 0, v, gen.take(-bound, bound), 1)


def two_moves(script, v, shift, w, other):
    """Two moves of space 0 after each other; the second in the first's variable too, and back."""
    if script.move(0, v, shift, 1):
        script.move(1, v, -shift, 2)
        script.move(1, v, other, 2)
        script.move(1, w, other, 2)


def composed_moves(script, gen, turns=12):
    """Moves on top of moves, there and back, in two steps and in one, in either order."""
    script.zeros(1)
    script.zeros(2)
    for _ in range(turns):
        script.published(0)
        for _ in range(5):
            if move_and_use(script, gen, 0, any_variable(gen, script.shape), gen.take(-120, 120), 1):
                script.copy(1, 0)
        v, w = any_variable(gen, script.shape), any_variable(gen, script.shape)
        shift, other = gen.take(-60, 60), gen.take(-60, 60)
        two_moves(script, v, shift, w, other)
        script.move(0, v, shift + other, 2)
        two_moves(script, w, other, v, shift)


def any_shift(gen):
    """Mostly accepted at first; some pass a limit, some the cap, some are far away."""
    return gen.pick((gen.take(-60, 60), gen.take(-300, 300), gen.take(-1500, 1500), gen.take(-4000, 4000), gen.pick((I64_MIN, I64_MAX))))


def published_or_random(script, gen, turn):
    """By turns, in space 0."""
    if turn % 2:
        script.published(0)
    else:
        random_table(script, gen, 0)


def chains_with_refusals(script, gen, turns=40):
    """Moves of a space into itself, of which some are refused and leave the space as it was."""
    for turn in range(turns):
        published_or_random(script, gen, turn)
        for _ in range(10):
            script.move(0, gen.take(0, script.shape.variable_count), any_shift(gen), 0)
            script.read(0, inside_state(gen, script.shape, script.table(0)))
        script.show(0, 0, script.shape.first_block + 1)


def bad_limits(script, gen, turns=75):
    script.published(0)
    script.zeros(2)
    for _ in range(turns):
        script.copy(0, 1)
        spoil_limits(script, gen, 1)
        use_table(script, gen, 1)
        script.move(1, gen.take(0, script.shape.variable_count + 1), gen.take(-10, 10), 2)


def damaged_tables(script, gen, turns=150):
    """One number of the published table, or of a moved one, changed."""
    script.published(0)
    script.zeros(2)
    for turn in range(turns):
        script.copy(0, 1)
        if turn % 2 == 1:
            nudge(script, gen, 0, 1)
        damage(script, gen, 1)
        use_table(script, gen, 1)
        move_and_use(script, gen, 1, any_variable(gen, script.shape), gen.take(-100, 100), 2)


def border(script, gen, space, variable, into):
    """The last accepted and the first refused move of a variable, one way."""
    sign = of_sign(gen, 1)
    size = last_accepted(script.shape, script.table(space), variable, sign)
    script.move(space, variable, sign * size, into)
    script.move(space, variable, sign * (size + 1), into)


def use_and_move_to_border(script, gen):
    """The table in space 0 read, moved into space 1, and moved there to its border."""
    use_table(script, gen, 0)
    v = any_variable(gen, script.shape)
    move_and_use(script, gen, 0, v, gen.take(-200, 200), 1)
    border(script, gen, 0, v, 1)


def random_tables(script, gen, turns=120):
    """Sound or too heavy, with numbers at some places."""
    script.zeros(1)
    for _ in range(turns):
        random_table(script, gen, 0)
        use_and_move_to_border(script, gen)


def dense_random_tables(script, gen):
    """Sound or too heavy, with numbers at a quarter of the places up to all of them."""
    script.zeros(1)
    for budget in DENSE_BUDGETS:
        for quarters in (1, 2, 3, 4):
            dense_table(script, gen, 0, budget, quarters)
            use_and_move_to_border(script, gen)
            float_read(script, gen, 0)


def borders_of_moved_tables(script, gen, turns=16):
    """Moved to the border in one variable, and from there in every one."""
    script.zeros(1)
    script.zeros(2)
    for turn in range(turns):
        published_or_random(script, gen, turn)
        v = any_variable(gen, script.shape)
        sign = of_sign(gen, 1)
        if script.move(0, v, sign * last_accepted(script.shape, script.table(0), v, sign), 1):
            for w in range(script.shape.variable_count):
                border(script, gen, 1, w, 2)


def read_with(script, gen, place, size):
    """Read the table in space 1 with a number of the given size at a place."""
    script.set(1, place, of_sign(gen, size))
    script.read(1, inside_state(gen, script.shape, script.table(1)))


def weights_at_the_cap(script, gen):
    """The largest number that a place takes, and the rest of the cap beside it."""
    script.zeros(2)
    shape = script.shape
    for place in range(shape.first_block, shape.table_length):
        limits = good_limits(gen, shape)
        script.limits(1, limits)
        size, rest = full_number(shape, limits, place), rest_of_cap(shape, limits, place)
        filling = filling_place(shape, place)
        read_with(script, gen, place, size + 1)
        read_with(script, gen, place, size)
        read_with(script, gen, filling, rest + 1)
        float_read(script, gen, 1)
        read_with(script, gen, filling, rest)
        float_read(script, gen, 1)
        v = any_variable(gen, shape)
        script.move(1, v, 0, 2)
        script.move(1, v, gen.take(-3, 3), 2)


def moves_at_the_cap(script, gen):
    """The largest number at a place with which a move is accepted, and the rest of the cap beside it: just accepted, just refused."""
    script.zeros(2)
    shape = script.shape
    for third in range(shape.first_block, shape.table_length, 3):
        limits = good_limits(gen, shape)
        place = third + gen.take(0, 2)
        variable, shift = gen.pick(variables_at(shape, place) or range(shape.variable_count)), gen.take(-50, 50)
        factor = move_factor_at(shape, limits, place, variable, shift)
        script.limits(1, limits)
        script.set(1, place, of_sign(gen, WEIGHT_CAP // factor))
        for more in (0, 1):
            script.set(1, filling_place(shape, place), of_sign(gen, WEIGHT_CAP % factor + more))
            script.move(1, variable, shift, 2)


def each_block(script, gen, turns=90):
    """A number in each block, sound, and then one block too heavy by itself.

    Taken together by place, the blocks' magnitudes are mostly too heavy.
    """
    shape = script.shape
    script.zeros(2)
    for k in range(turns):
        limits = good_limits(gen, shape)
        one_in_each_block(script, gen, 1, limits, k % 3)
        use_table(script, gen, 1)
        script.move(1, any_variable(gen, shape), gen.take(-3, 3), 2)
        place = gen.take(shape.first_block, shape.table_length - 1)
        read_with(script, gen, place, full_number(shape, limits, place) + 1)


SECTIONS = (
    ("Drawn readings of the published table", published_reads),
    ("The published table moved", published_and_moved),
    ("Composed moves", composed_moves),
    ("Chains of moves with refusals", chains_with_refusals),
    ("Tables with bad limits", bad_limits),
    ("Damaged tables", damaged_tables),
    ("Random tables", random_tables),
    ("Dense random tables", dense_random_tables),
    ("Borders of moved tables", borders_of_moved_tables),
    ("Weights at the cap", weights_at_the_cap),
    ("Moves at the cap", moves_at_the_cap),
    ("A number in each block", each_block),
)
