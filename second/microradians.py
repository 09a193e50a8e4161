"""Sections of reads in microradians: worked examples, every limit and the last reading of the low piece, rooms and the order of
refusals, readings at the ends of 64 bits, products at a half, whole milliradians, and drawn readings."""

from draws import I64_MAX, I64_MIN, MASK
from fixed_point import LAST_OF_LOW, MILLIRADIAN, RADIAN, ROWS, downward, highest, lowest
from listed import ENDS
from makers import ZEROS, inside_state, with_reading
from model import ALPHA, CUMULUS, GROUPS, HIGH_GROUP, LOW_GROUP, PUBLISHED_TABLE

ORDINARY = (123456, -234567, 98765, -345678, 456789)
IN_HIGH_PIECE = (654321,) + ORDINARY[1:]
EXAMPLES = (
    (ZEROS, "0 -25660000 54020000 -347500000 48750000 62140000 47480000"),
    (with_reading(0, 100000), "0 35040000 17614000 -849040000 13956000 -135070000 13521000"),
    (with_reading(0, 313269), "0 -52528358 1049476 -1059595465 3169128 -437826762 4403466"),
    (with_reading(0, 313270), "0 -52464656 -1843189 -1059569731 3222793 -438115341 4673898"),
    ([986250, 275000, 0, 0, 0], "0 -38909358 -113694579 -1809706485 -15331352 -899157001 14490818"),
    (ORDINARY, "0 18215201 -58922062 -909067621 -116455093 19791441 -88522496"),
    ([777250, -452250, 0, 0, 0], "0 -46220247 141777663 -1617199901 15657130 -766848339 -22038410"),
    ([1000000, 500000, 200000, 400000, 500000], "0 -120453380 -299970255 -1728037880 -153779245 -837660105 -25375140"),
    ([1000001, 500001, 0, 0, 0], "11 untouched"),
    (with_reading(4, -500001), "15 untouched"),
)


def worked_examples(script, _):
    for state, _ in EXAMPLES:
        script.microradians(state)
    script.microradians(with_reading(0, 1000001), 5)


# ------------------------------------------------------------ limits and pieces

def beside(state, variable, value):
    """A state with one reading replaced."""
    return [value if v == variable else reading for v, reading in enumerate(state)]


def corners():
    """Every state in which each reading is at its lowest or its highest limit, and those at both sides of the last of the low piece."""
    ends = [(lowest(v), highest(v)) for v in range(5)]
    for corner in range(32):
        state = [ends[v][corner >> v & 1] for v in range(5)]
        yield state
        yield beside(state, ALPHA, LAST_OF_LOW + (corner & 1))


def at_the_limits(script, _):
    script.comment("every corner, in both pieces")
    for state in corners():
        script.microradians(state)
    script.comment("every limit with its neighbours")
    for v in range(5):
        for value in (-1, 0, 1) + tuple(limit + step for limit in (lowest(v), highest(v)) for step in (-1000, -2, -1, 0, 1, 2, 1000)):
            for state in (ZEROS, ORDINARY, IN_HIGH_PIECE):
                script.microradians(beside(state, v, value))


def pieces(script, _):
    """Both sides of the last reading of the low piece, of 313 and 314 milliradians, and between these."""
    for alpha in (312999, 313000, 313001, 313267, 313268, 313269, 313270, 313271, 313499, 313500, 313999, 314000, 314001):
        for state in (ZEROS, ORDINARY, [0, 0, 0, 400000, 0], [0, 0, 0, -400000, 0], [0, 500000, -200000, 1, -1]):
            script.microradians(beside(state, ALPHA, alpha))


# -------------------------------------------------------------------- refusals

def rooms(script, _):
    for room in (0, 1, 5, 6, 7, 8, 12, 312, 319, 320, 321, 322, 1 << 32, (1 << 32) + 6, 1 << 63, MASK):
        for state in (ZEROS, ORDINARY, with_reading(0, 1000001), [0, 0, 0, 0, -500001]):
            script.microradians(state, room)


def order_of_refusals(script, _):
    """Every mixture of readings that are inside and outside, below and above, with a fine room and with a wrong one."""
    for outside in range(32):
        for limit, step in ((highest, 1), (lowest, -1)):
            state = [limit(v) + step if outside >> v & 1 else ORDINARY[v] for v in range(5)]
            script.microradians(state)
            script.microradians(state, 5)


def wrapping_readings():
    """Readings that are inside, or 0, once they are multiplied by 1000 modulo 2^64 or modulo 2^63, and those beside them."""
    ways = [turns * ((1 << bits) // MILLIRADIAN + more) for bits in (63, 64) for turns in (1, 2, 7) for more in (0, 1)]
    return [sign * way for way in ways for sign in (1, -1)]


def at_the_ends(script, _):
    """Readings at the ends of 64 and of 32 bits, those that pass 64 bits when multiplied, and two and more of them."""
    for v in range(5):
        for value in ENDS + (1 << 32 | 5, -(1 << 32) - 5):
            script.microradians(with_reading(v, value))
        for value in wrapping_readings():
            script.microradians(beside(ORDINARY, v, value))
    for v in range(5):
        for w in range(5):
            script.microradians(beside(with_reading(w, I64_MAX), v, I64_MIN))
    for value in ENDS:
        script.microradians([value] * 5)
        script.microradians([value] * 5, 5)


# ---------------------------------------------------------------------- halves

# readings that share large factors with a radian make halves likely
STEP = 1250
DRAWN_STEPS = (250, 1250, 12500, 25000)
# where eta alone is tried in the high piece
HIGH_BASE = 500000


def is_half(number, reading):
    return number * reading % RADIAN == RADIAN // 2


def half_among(numbers, readings, sign):
    """The first reading at which the last product of the numbers' sum is exactly at a half of the sign, or None."""
    for reading in readings:
        factor = downward(numbers[1:], reading)
        if factor * reading * sign > 0 and is_half(factor, reading):
            return reading
    return None


def in_piece(group, reading):
    return group not in (LOW_GROUP, HIGH_GROUP) or (reading <= LAST_OF_LOW) == (group == LOW_GROUP)


def candidates(group, variable):
    """Readings in the envelope; of alpha those of the group's piece."""
    return [reading for reading in range(lowest(variable), highest(variable) + 1, STEP) if variable != ALPHA or in_piece(group, reading)]


def halves_of_group(block, number):
    """States at which the last product of a group's first row, or of its rows, is exactly at a half; of each sign where there is one."""
    group, rows = GROUPS[number], ROWS[block][number]
    base = HIGH_BASE if number == HIGH_GROUP else 0
    for sign in (1, -1):
        first = half_among(rows[0], candidates(number, group.first), sign)
        if first is not None:
            yield with_reading(group.first, first)
        second = half_among([downward(row, base) for row in rows], candidates(number, group.second), sign)
        if second is not None:
            yield beside(with_reading(group.first, base), group.second, second)


def halves_of_block(block):
    return [state for number in range(len(GROUPS)) for state in halves_of_group(block, number)]


def halves(script, gen):
    """Products exactly at a half, for each coefficient."""
    for block, name in enumerate("XYZlmn"):
        script.comment(name)
        for state in halves_of_block(block):
            script.microradians(state)
    script.comment("drawn readings at which halves are likely")
    for turn in range(160):
        step = DRAWN_STEPS[turn % len(DRAWN_STEPS)]
        script.microradians([step * gen.take(lowest(v) // step, highest(v) // step) for v in range(5)])


# ----------------------------------------------------------------------- drawn

def whole_milliradians(script, gen):
    """The same state read in milliradians and in microradians."""
    script.published(0)
    for _ in range(120):
        state = inside_state(gen, CUMULUS, PUBLISHED_TABLE)
        script.read(0, state)
        script.microradians([MILLIRADIAN * reading for reading in state])


def drawn_reading(gen, v):
    """Mostly any one inside; some at a limit, 0 or small."""
    anywhere, small = gen.take(lowest(v), highest(v)), gen.take(-1000, 1000)
    return gen.pick((anywhere,) * 5 + (lowest(v), highest(v), 0, small))


def drawn_state(gen):
    """Five readings inside, with alpha in either piece, and at times where they meet."""
    state = [drawn_reading(gen, v) for v in range(5)]
    low, border = gen.take(lowest(ALPHA), LAST_OF_LOW), gen.take(LAST_OF_LOW - 2, LAST_OF_LOW + 2)
    return beside(state, ALPHA, gen.pick((state[ALPHA],) * 3 + (low, border)))


def spoilt(gen, state):
    """One reading just past a limit, near or far away."""
    v = gen.take(0, 4)
    near, far = gen.take(-2 * RADIAN, 2 * RADIAN), gen.take(I64_MIN, I64_MAX)
    return beside(state, v, gen.pick((lowest(v) - 1, highest(v) + 1, near, far)))


def drawn(script, gen):
    for turn in range(1500):
        state = drawn_state(gen)
        script.microradians(state if turn % 10 else spoilt(gen, state))


SECTIONS = (
    ("Worked examples in microradians", worked_examples),
    ("Microradians at the limits", at_the_limits),
    ("Microradians in either piece", pieces),
    ("Rooms of microradians", rooms),
    ("Order of refusals of microradians", order_of_refusals),
    ("Microradians at the ends of 64 bits", at_the_ends),
    ("Microradians with products at a half", halves),
    ("Whole milliradians in microradians", whole_milliradians),
    ("Drawn microradians", drawn),
)
