"""Sections of reads with floats: the checked values 12 and 13, halves of readings and of answers, special patterns, every kind of NaN,
every limit and its halves, both sides of fine cuts, and drawn readings of published, moved, random, damaged and unsound tables."""

from fractions import Fraction

from door import SIGN_BIT, nearest_bits
from makers import (
    INFINITY, NARROW_ALPHA, QUIET, QUIET_NAN, SPECIAL_BITS, THOUSANDTHS_ABOVE, ZEROS, beside, bits_of_ratio, bits_of_thousandths,
    bits_of_whole, damage, drawn_thousandths, good_limits, inside_float_state, nudge, one_in_each_block, random_table, spoil_limits,
    with_reading,
)
from model import CUMULUS, FINE_CUT, FIRST_BLOCK, HIGHEST, LOWEST, PUBLISHED_LIMITS, PUBLISHED_TABLE
from shapes import ALPHA_CUT, HIGH_GROUP, LOW_GROUP

SIGNS = (0, SIGN_BIT)
LARGEST_PAYLOAD = QUIET - 1


def bits_of(decimal):
    return nearest_bits(Fraction(decimal))


def checked_values(script, _):
    script.published(0)
    script.comment("12")
    for alpha in ("0.5", "-0.5", "1.5", "2.5", "313.4", "1000.5", "1000.6"):
        script.floats(0, with_reading(0, bits_of(alpha)))
    script.floats(0, [bits_of("2000"), 0, 0, 0, QUIET_NAN])
    script.comment("13")
    script.floats(0, ZEROS)


def worked_halves(script, _):
    """Halves on either side of zero and of the limits, and the floats next to a half."""
    script.published(0)
    for alpha in ("-1.5", "-2.5", "0.49999999999999994", "-0.49999999999999994", "0.5000000000000001", "-0.5000000000000001",
                  "999.5", "-149.5", "-150.5"):
        script.floats(0, with_reading(0, bits_of(alpha)))
    script.floats(0, [bits_of(reading) for reading in ("2.5", "-2.5", "0.5", "-0.5", "1.5")])
    script.floats(0, [0, 0, 0, bits_of("-400.5"), QUIET_NAN])
    script.comment("a half carried across zero by a move: the reading less the shift is read on its own side")
    script.copy(0, 1)
    script.move(0, 0, 1, 1)
    for alpha in ("0.5", "1.5"):
        script.floats(0, with_reading(0, bits_of(alpha)))
        script.floats(1, with_reading(0, nearest_bits(Fraction(alpha) - 1)))


# A table whose fine cut is past a half, and what it answers: the low piece is 5 and the reading, the high one 1000 times the reading.
SLOPES_LIMITS = CUMULUS.limits((-2, 3, 9), (0, 0) * 4, 700)
SLOPES = ((LOW_GROUP, (0, 0), 5), (LOW_GROUP, (1, 0), 1), (HIGH_GROUP, (1, 0), 1000))


def slopes(script, space, limits):
    """The numbers of that table with any limits, so that an answer tells the piece and the whole reading."""
    script.limits(space, limits)
    for group, powers, number in SLOPES:
        script.set(space, CUMULUS.place_of(0, group, powers), number)


def worked_fine_cuts(script, _):
    """The piece is that of the reading as given, and is read at the rounded one."""
    script.published(0)
    for alpha in ("313", "313.26899999999995", "313.269", "313.2690000000001", "313.4", "313.49999999999994", "313.5", "314"):
        script.floats(0, with_reading(0, bits_of(alpha)))
    for alpha in (313, 314):
        script.read(0, with_reading(0, alpha))
    script.zeros(1)
    for shift in (-553, -554, 635, 636, 100):
        script.move(0, 0, shift, 1)
    for alpha in ("213", "213.26899999999998", "213.269", "213.4", "213.5"):
        script.floats(1, with_reading(0, bits_of(alpha)))
    slopes(script, 2, SLOPES_LIMITS)
    for alpha in ("3.4", "3.5", "3.6", "3.6999999999999997", "3.7", "3.71", "4", "4.4"):
        script.floats(2, with_reading(0, bits_of(alpha)))
    for alpha in (3, 4):
        script.read(2, with_reading(0, alpha))
    script.limits(3, CUMULUS.limits(NARROW_ALPHA, thousandths=-1))
    script.floats(3, ZEROS)


def both_sides_of_fine_cuts(script, _):
    """Cuts of both signs and at both ends, with each fine cut: floats at it, at the halves and wholes about it, and next to these."""
    for alpha in ((-2, 3, 9), (-2, 3, 4), (-9, -4, 9), (-4, -4, -3), (-3, -1, 2), (0, 0, 1), (1999, 1999, 2000), (-2000, -2000, -1999)):
        slopes(script, 0, CUMULUS.limits(alpha))
        first = 1000 * alpha[ALPHA_CUT]
        for thousandths in THOUSANDTHS_ABOVE + (1, 125, 269):
            script.set(0, FINE_CUT, first + thousandths)
            for at, steps in ((first + thousandths, (-1, 0, 1)), (first + 500, (-1, 0)), (first + 1000, (-1, 0))):
                for step in steps:
                    script.floats(0, with_reading(0, beside(bits_of_thousandths(at), step)))


def beside_moved_fine_cuts(script, gen):
    """The published table, and tables with the slopes, moved in alpha: floats at the moved fine cut and next to it."""
    script.zeros(1)
    for turn in range(40):
        if turn % 2:
            slopes(script, 0, CUMULUS.limits((-300, gen.take(-20, 20), 300), (), drawn_thousandths(gen)))
        else:
            script.published(0)
        script.move(0, 0, gen.take(-300, 300), 1)
        fine = bits_of_thousandths(script.table(1)[FINE_CUT])
        for step in (-1, 0, 1):
            script.floats(1, with_reading(0, beside(fine, step)))


def halves_of_answers(script, _):
    """Whole answers that lie half-way between two floats, and beside one; of both signs."""
    script.limits(0, PUBLISHED_LIMITS)
    for answer in (2**53 - 1, 2**53 + 1, 2**53 + 2, 2**53 + 3, 2**62 + 512, 2**62 + 513, 2**62 + 1536):
        for sign in (1, -1):
            script.set(0, FIRST_BLOCK, sign * answer)
            script.floats(0, ZEROS)


def special_patterns(script, _):
    script.published(0)
    for v in range(5):
        for pattern in SPECIAL_BITS:
            script.floats(0, with_reading(v, pattern))


def every_kind_of_nan(script, _):
    """Quiet and signalling, both signs, the ends of the payload and each bit of it, alone and beside readings that are outside."""
    script.published(0)
    for v in range(5):
        for sign in SIGNS:
            for quiet, payloads in ((QUIET, (0, 1, QUIET >> 1, LARGEST_PAYLOAD)), (0, (1, QUIET >> 1, LARGEST_PAYLOAD))):
                for payload in payloads:
                    script.floats(0, with_reading(v, sign | INFINITY | quiet | payload))
    for bit in range(52):
        for sign in SIGNS:
            state = [bits_of_whole(3000)] * 5
            state[bit % 5] = sign | INFINITY | 1 << bit
            script.floats(0, state)
    script.comment("their neighbours: the largest finite ones and the infinities")
    for v in range(5):
        for sign in SIGNS:
            for pattern in (INFINITY - 1, INFINITY, INFINITY + 1):
                script.floats(0, with_reading(v, sign | pattern))


def limits_and_halves(script, _):
    """Every limit with up to two halves less or more, and its neighbours."""
    script.published(0)
    t = PUBLISHED_TABLE
    limits = [(v, t[places[v]]) for v in range(5) for places in (LOWEST, HIGHEST)]
    limits += [(0, t[ALPHA_CUT]), (0, t[ALPHA_CUT] + 1)]
    for v, limit in limits:
        for halves in range(-2, 3):
            exact = bits_of_ratio(2 * limit + halves, 2)
            for step in (-1, 0, 1):
                script.floats(0, with_reading(v, exact + step))


def use_table(script, gen, space):
    """A read inside, and one with a pattern replaced by a special one or any."""
    state = inside_float_state(gen, script.table(space))
    script.floats(space, state)
    v = gen.take(0, 4)
    special, anything = gen.pick(SPECIAL_BITS), gen.next()
    state[v] = gen.pick((special, anything))
    script.floats(space, state)


def published(script, gen):
    script.published(0)
    for _ in range(250):
        use_table(script, gen, 0)


def moved(script, gen):
    script.published(0)
    for _ in range(100):
        nudge(script, gen, 0, 1)
        use_table(script, gen, 1)


def random_ones(script, gen):
    for _ in range(100):
        random_table(script, gen, 0)
        use_table(script, gen, 0)


def published_with(change, times):
    """A section of the published table, each time with another change."""
    def section(script, gen):
        script.published(0)
        for _ in range(times):
            script.copy(0, 1)
            change(script, gen, 1)
            use_table(script, gen, 1)
    return section


def near_the_cap(script, gen):
    """Tables near the cap in every block."""
    for k in range(60):
        one_in_each_block(script, gen, 1, good_limits(gen, CUMULUS), k % 3)
        use_table(script, gen, 1)


SECTIONS = (
    ("Checked values 12 and 13", checked_values),
    ("Worked halves", worked_halves),
    ("Worked fine cuts", worked_fine_cuts),
    ("Both sides of fine cuts", both_sides_of_fine_cuts),
    ("Floats beside moved fine cuts", beside_moved_fine_cuts),
    ("Halves of answers", halves_of_answers),
    ("Special patterns", special_patterns),
    ("Every kind of NaN", every_kind_of_nan),
    ("Floats at the limits and their halves", limits_and_halves),
    ("Drawn floats of the published table", published),
    ("Drawn floats of moved tables", moved),
    ("Drawn floats of random tables", random_ones),
    ("Drawn floats of damaged tables", published_with(damage, 75)),
    ("Drawn floats of tables with bad limits", published_with(spoil_limits, 40)),
    ("Drawn floats of tables near the cap", near_the_cap),
)
