"""Wrong models and wrong signs of the GTM: what each gets wrong, and where the script has to notice it.

Those that differ from the right model as a wrong model of Cumulus does share its function.
"""

from fractions import Fraction
from functools import lru_cache

import tables
from gtm_model import EQUATIONS_OF_BLOCK, ETA, GTM, PRINTED, PUBLISHED_LIMITS, published_from
from model import CUMULUS
from shapes import ALPHA, HIGH_GROUP, LOW_GROUP
from wrong_models import (
    Wrong, blocks_weighed_together, cut_at_highest, cut_moved_by, ends_excluded, first_row_left_out, in_shape, in_tables,
    last_block_not_weighed, last_row_left_out, limits_moved_once, limits_moved_the_other_way, longer_taken, low_and_high_exchanged,
    lowest_below_cut, not_moved, only_moved_table_weighed, others_not_single, published_with, pure_places_dropped, readings_cut,
    refused_move_writes_limits, right_limits_are_good, right_move, right_power_moved, right_publish, right_read, right_term_moved,
    rows_and_columns_exchanged, shift_cut, shorter_taken, smallest_is_its_own_magnitude, variable_cut, weighed_at_old_reach, weighed_by,
    with_test, wrapped_weights,
)


def in_gtm(name, replacement):
    return in_shape(GTM, name, replacement)


# ---------------------------------------------------------- the published table

def printed_with(equation, old, new):
    """The published table with other text in an equation."""
    if PRINTED[equation].count(old) != 1:
        raise ValueError("%s is not once in equation %s" % (old, equation))
    return in_gtm("published", published_from({**PRINTED, equation: PRINTED[equation].replace(old, new)}))


def eta_expressions_in(pieces):
    """The published table with the equations of alpha and eta in some pieces only."""
    equations = [[of_piece if piece in pieces else of_piece[:1] for piece, of_piece in enumerate(of_block)]
                 for of_block in EQUATIONS_OF_BLOCK]
    return in_gtm("published", published_from(PRINTED, equations))


def eta_expressions_instead():
    """The published table in which a number of the equations of alpha and eta takes the place of alpha's, where both have one."""
    both, alone = [published_from(PRINTED, [[of_piece[start:] for of_piece in of_block] for of_block in EQUATIONS_OF_BLOCK])
                   for start in (0, 1)]
    blocks = [number or whole for whole, number in zip(both, alone)]
    return in_gtm("published", PUBLISHED_LIMITS + tuple(blocks[GTM.first_block:]))


def blocks_in_order(*order):
    """The published table with its blocks in another order."""
    return in_gtm("published", published_from(PRINTED, [EQUATIONS_OF_BLOCK[block] for block in order]))


def in_larger_units():
    """The published table in units of 10^-12."""
    return in_gtm("published", PUBLISHED_LIMITS + tuple(number // 10**5 for number in GTM.published[GTM.first_block:]))


def numbers_in(text):
    return [part for part in text.split() if "." in part]


def other_sign(text, at):
    """A printed text with the sign of one of its terms turned."""
    parts = text.split() if text[0] in "+-" else ["+"] + text.split()
    place = [place for place, part in enumerate(parts) if part in "+-"][at]
    return " ".join(parts[:place] + ["-" if parts[place] == "+" else "+"] + parts[place + 1:])


def wrong_signs():
    """Each printed number of equations 96 to 101 with the other sign, the zero excepted."""
    return tuple(Wrong("the other sign of %s in equation %s" % (number, equation), "GTM readings at the limits", "gtm_read",
                       in_gtm("published", published_from({**PRINTED, equation: other_sign(text, at)})))
                 for equation, text in PRINTED.items() for at, number in enumerate(numbers_in(text)) if Fraction(number))


# ----------------------------------------------------------------------- others

def eta_moved_the_other_way(p, q, moves_first, shift):
    return right_term_moved(p, q, moves_first, shift if moves_first else -shift)


def row_of_three_wrong(power, shift):
    return [(kept, factor * 2 // 3 if (power, kept) == (3, 1) else factor) for kept, factor in right_power_moved(power, shift)]


def number_of_cumulus_taken(shape, table, variable, shift, output):
    """Eta is variable 3, as in Cumulus tables."""
    return right_move(shape, table, {3: ETA, ETA: 3}.get(variable, variable), shift, output)


def eta_limits_not_looked_at(shape, limits):
    return right_limits_are_good(shape, limits[:3] + [0, 0])


def either_length(table):
    """No table is of another length than one of the two shapes has."""
    return len(table) not in (CUMULUS.table_length, GTM.table_length)


MODELS = (
    # what was asked for
    Wrong("drag's low constant of the damaged line, -0.029", "GTM readings at the limits", "gtm_read",
          printed_with("98 low", "0.029", "- 0.029")),
    Wrong("drag's low number of the damaged line, 2.304", "GTM readings at the limits", "gtm_read",
          printed_with("98 low", "2.364", "2.304")),
    Wrong("the eta expressions in the low piece only", "GTM readings at the limits", "gtm_read", eta_expressions_in((LOW_GROUP,))),
    Wrong("the eta expressions in the high piece only", "GTM readings at the limits", "gtm_read", eta_expressions_in((HIGH_GROUP,))),
    Wrong("the eta expressions in place of alpha's", "GTM readings at the limits", "gtm_read", eta_expressions_instead()),
    Wrong("12 for eta's refusal", "Order of refusals of GTM readings", "gtm_read", in_gtm("reading_outside", (11, 12))),
    Wrong("the GTM's cut at 291", "GTM readings at the limits", "gtm_read", published_with(GTM, (1, 291))),
    Wrong("the GTM's cut at 289", "GTM readings at the limits", "gtm_read", published_with(GTM, (1, 289))),
    Wrong("the GTM's cut at 16.111 degrees", "GTM readings at the limits", "gtm_read", published_with(GTM, (1, 281))),
    Wrong("drag before lift", "Worked values of the GTM table", "gtm_read", blocks_in_order(1, 0, 2)),
    Wrong("the pitching moment before drag", "Worked values of the GTM table", "gtm_read", blocks_in_order(0, 2, 1)),
    Wrong("the low and the high group of the GTM exchanged", "GTM readings in a grid", "gtm_read", low_and_high_exchanged(GTM)),
    Wrong("the GTM's numbers in units of 10^-12", "GTM readings in a grid", "gtm_read", in_larger_units()),
    # moves
    Wrong("the GTM's cut left behind by a move", "The GTM table moved and read", "gtm_read", in_tables("moved_limits", cut_moved_by(0))),
    Wrong("the GTM's cut moved the other way", "The GTM table moved and read", "gtm_read", in_tables("moved_limits", cut_moved_by(-1))),
    Wrong("eta's limits left behind by a move", "The GTM table moved and read", "gtm_read", in_gtm("limit_places", ((0, 1, 2), ()))),
    Wrong("the GTM's limits moved the other way", "The GTM table moved and read", "gtm_read",
          in_tables("moved_limits", limits_moved_the_other_way)),
    Wrong("the GTM's limits left behind by a second move", "Composed moves of GTM tables", "gtm_read",
          in_tables("moved_limits", limits_moved_once)),
    Wrong("the GTM's polynomials moved the other way in eta", "The GTM table moved and read", "gtm_read",
          in_tables("term_moved", eta_moved_the_other_way)),
    Wrong("the GTM's polynomials moved the other way", "Drawn moves of the published GTM table", "gtm_read",
          in_tables("power_moved", lambda power, shift: right_power_moved(power, -shift))),
    Wrong("what a GTM move throws into the pure places dropped", "The GTM table moved and read", "gtm_read",
          in_tables("term_moved", pure_places_dropped)),
    Wrong("the high group of the GTM not moved", "Drawn moves of the published GTM table", "gtm_read", not_moved(HIGH_GROUP, (ALPHA, ETA))),
    Wrong("a wrong number in the row of the third power", "Single numbers of GTM tables", "gtm_move",
          in_tables("power_moved", row_of_three_wrong)),
    Wrong("only the moved GTM table weighed", "Moves of the published GTM table", "gtm_move",
          in_tables("move_is_too_heavy", only_moved_table_weighed)),
    Wrong("a GTM move weighed at the old reach", "Moves of GTM tables at the cap", "gtm_move",
          in_tables("move_weights", weighed_at_old_reach)),
    Wrong("a GTM move weighed by its shift and not its size", "Moves of GTM tables at the cap", "gtm_move",
          in_tables("move_reach", lambda reach, shift: reach + shift)),
    Wrong("the cap of a GTM move one higher", "Moves of GTM tables at the cap", "gtm_move",
          in_tables("MOVE_WEIGHT_CAP", tables.WEIGHT_CAP + 1)),
    Wrong("the cap of a GTM move one lower", "Moves of GTM tables at the cap", "gtm_move",
          in_tables("MOVE_WEIGHT_CAP", tables.WEIGHT_CAP - 1)),
    Wrong("5 for the GTM's variable 1", "Moves of the published GTM table", "gtm_move",
          in_tables("is_no_variable", lambda shape, variable: variable >= 1)),
    Wrong("Cumulus's number of eta taken", "Moves of the published GTM table", "gtm_move", in_tables("move", number_of_cumulus_taken)),
    Wrong("a GTM variable cut to 32 bits", "Moves of the published GTM table", "gtm_move", in_tables("move", variable_cut)),
    Wrong("a GTM shift cut to 32 bits", "Shifts of GTM tables at the ends of 64 bits", "gtm_move", in_tables("move", shift_cut)),
    Wrong("a refused GTM move that writes limits", "Worked values of the GTM table", "gtm_move",
          in_tables("move", refused_move_writes_limits)),
    # weights
    Wrong("a reach of 0 in a GTM table", "Edges of the reach of GTM tables", "gtm_read",
          in_tables("reach_between", lambda low, high: max(abs(low), abs(high)))),
    Wrong("the cap of GTM tables one higher", "The cap at each place of a GTM table", "gtm_read",
          in_tables("WEIGHT_CAP", tables.WEIGHT_CAP + 1)),
    Wrong("the cap of GTM tables one lower", "The cap at each place of a GTM table", "gtm_read",
          in_tables("WEIGHT_CAP", tables.WEIGHT_CAP - 1)),
    Wrong("the GTM's high piece's reach from the cut", "Edges of the reach of GTM tables", "gtm_read", in_gtm("high_start", 0)),
    Wrong("the GTM's low piece's reach past the cut", "Edges of the reach of GTM tables", "gtm_read", in_gtm("low_end", 1)),
    Wrong("the reaches of the GTM's pieces as those of Cumulus tables are", "Weights of GTM tables at the cap", "gtm_read",
          in_gtm("low_end", 1), in_gtm("high_start", 0)),
    Wrong("the two reaches of a GTM group exchanged", "Weights of GTM tables at the cap", "gtm_read",
          in_tables("weights", weighed_by(rows_and_columns_exchanged))),
    Wrong("the first row of a GTM group not weighed", "Weights of GTM tables at the cap", "gtm_read",
          in_tables("weights", weighed_by(first_row_left_out))),
    Wrong("the last row of a GTM group not weighed", "Weights of GTM tables at the cap", "gtm_read",
          in_tables("weights", weighed_by(last_row_left_out))),
    Wrong("the GTM's last block not weighed", "The smallest number at each place of a GTM table", "gtm_read",
          in_tables("weights", last_block_not_weighed)),
    Wrong("all blocks of the GTM weighed as one", "A number in each block of a GTM table", "gtm_read",
          in_tables("weights", blocks_weighed_together)),
    Wrong("weights of GTM tables modulo 2^64", "Random GTM tables", "gtm_read", in_tables("weights", wrapped_weights)),
    Wrong("the smallest number without a magnitude in a GTM table", "The smallest number at each place of a GTM table", "gtm_read",
          in_tables("magnitudes", smallest_is_its_own_magnitude)),
    # limits and readings
    Wrong("the GTM's alpha below the cut asked for the low piece", "GTM readings at the limits", "gtm_read",
          in_tables("piece_at", lambda table, alpha: LOW_GROUP if alpha < table[1] else HIGH_GROUP)),
    Wrong("GTM limits up to 2001", "Edges of the limits of GTM tables", "gtm_read", in_tables("LIMIT_CAP", 2001)),
    Wrong("GTM limits up to 1999", "Edges of the limits of GTM tables", "gtm_read", in_tables("LIMIT_CAP", 1999)),
    Wrong("the GTM's lowest has to be below the cut", "Edges of the limits of GTM tables", "gtm_read",
          in_tables("alpha_in_order", lowest_below_cut)),
    Wrong("the GTM's cut may be the highest", "Edges of the limits of GTM tables", "gtm_read",
          in_tables("alpha_in_order", cut_at_highest)),
    Wrong("a single eta is no range", "Edges of the limits of GTM tables", "gtm_read", in_tables("others_in_order", others_not_single)),
    Wrong("the limits of eta not looked at", "Edges of the limits of GTM tables", "gtm_read",
          in_tables("limits_are_good", eta_limits_not_looked_at)),
    Wrong("the ends of the GTM's limits excluded", "GTM readings at the limits", "gtm_read", in_tables("is_outside", ends_excluded)),
    Wrong("a GTM reading cut to 32 bits", "GTM readings at the ends of 64 bits", "gtm_read", in_tables("read", readings_cut)),
    Wrong("alpha and eta exchanged", "Single numbers of GTM tables", "gtm_read",
          in_tables("products", lru_cache(rows_and_columns_exchanged))),
    # lengths
    Wrong("a table of 312 numbers taken by the GTM's read", "Tables of the other shape", "gtm_read",
          with_test(tables.WRONG_TABLE_LENGTH, either_length)),
    Wrong("a table of 312 numbers taken by the GTM's move", "Tables of the other shape", "gtm_move",
          with_test(tables.WRONG_TABLE_LENGTH, either_length)),
    Wrong("a table of 65 numbers taken by the read of Cumulus tables", "Tables of the other shape", "read",
          with_test(tables.WRONG_TABLE_LENGTH, either_length)),
    Wrong("a table of 65 numbers taken by the move of Cumulus tables", "Tables of the other shape", "move",
          with_test(tables.WRONG_TABLE_LENGTH, either_length)),
    Wrong("a longer GTM table taken", "Wrong lengths of GTM reads", "gtm_read",
          with_test(tables.WRONG_TABLE_LENGTH, lambda table: len(table) < 65)),
    Wrong("a GTM table without its last number taken", "Wrong lengths of GTM reads", "gtm_read",
          with_test(tables.WRONG_TABLE_LENGTH, lambda table: len(table) not in (64, 65))),
    Wrong("six numbers for a GTM read", "Worked values of the GTM table", "gtm_read", in_gtm("read_length", 6)),
    Wrong("a longer room taken by a GTM read", "Wrong lengths of GTM reads", "gtm_read",
          in_tables("read", longer_taken(right_read, GTM.read_length))),
    Wrong("a longer room taken by publishing the GTM table", "Publishing the GTM table", "gtm_publish",
          in_tables("publish", longer_taken(right_publish, GTM.table_length))),
    Wrong("a longer room taken by a GTM move", "Wrong lengths of GTM moves", "gtm_move",
          in_tables("move", longer_taken(right_move, GTM.table_length))),
    Wrong("a shorter room taken by a GTM move", "Wrong lengths of GTM moves", "gtm_move", in_tables("move", shorter_taken)),
    # the order of refusals
    Wrong("eta's refusal before alpha's", "Order of refusals of GTM readings", "gtm_read",
          in_tables("readings_order", lambda shape: shape.reading_outside[::-1])),
    Wrong("a GTM read's room before its table's length", "Mixed defects of GTM reads", "gtm_read", in_tables("READ_ORDER", (2, 1, 3, 4))),
    Wrong("a GTM read's weight before its limits", "Mixed defects of GTM reads", "gtm_read", in_tables("READ_ORDER", (1, 2, 4, 3))),
    Wrong("a GTM read's room behind its table", "Wrong rooms and defects of GTM tables", "gtm_read", in_tables("READ_ORDER", (1, 3, 4, 2))),
    Wrong("a GTM move's variable behind its table", "Mixed defects of GTM moves", "gtm_move",
          in_tables("MOVE_ORDER", (1, 2, 3, 4, 5, 6, 7))),
    Wrong("a GTM move's weight before its limits", "Mixed defects of GTM moves", "gtm_move",
          in_tables("MOVE_ORDER", (1, 2, 5, 3, 4, 7, 6))),
    Wrong("a GTM move's room before its table's length", "Wrong rooms and defects of GTM tables", "gtm_move",
          in_tables("MOVE_ORDER", (2, 1, 5, 3, 4, 6, 7))),
    Wrong("a GTM move's room behind its variable", "Wrong rooms and defects of GTM tables", "gtm_move",
          in_tables("MOVE_ORDER", (1, 5, 2, 3, 4, 6, 7))),
    Wrong("a GTM move's room behind its table", "Wrong rooms and defects of GTM tables", "gtm_move",
          in_tables("MOVE_ORDER", (1, 3, 4, 2, 5, 6, 7))),
)
