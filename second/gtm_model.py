"""The printed longitudinal polynomials of the Generic Transport Model, the shape of its tables, and the published one.

The decimals stand here as text, as source report 003 prints them, spelt as shapes.py says:
    a alpha   e eta (elevator)
Equations 96, 98 and 100 have two pieces, low up to 16.634 degrees and high above. Equations 97, 99 and 101 belong to both, so what
they have in common with a piece adds. Every number has three decimals, and a printed 0.000 is zero whatever its sign.
"""

from shapes import ALPHA, Group, Shape, published_table

ETA = 1

# alpha lowest, cut, highest; eta lowest, highest
PUBLISHED_LIMITS = (-150, 290, 1000, -400, 400)

PRINTED = {
    # lift
    "96 low": "0.017 + 5.234 a + 1.985 a2 - 30.060 a3",
    "96 high": "0.279 + 3.251 a - 3.235 a2 + 0.708 a3",
    "97": "- 0.000 + 0.003 a + 0.521 e - 0.072 a2 - 0.416 a e + 0.089 e2 + 0.051 a3 + 0.039 a2 e - 0.293 a e2 - 0.479 e3",
    # drag
    "98 low": "0.029 - 0.110 a + 2.364 a2 + 3.948 a3",
    "98 high": "- 0.170 + 1.427 a + 0.719 a2 - 0.486 a3",
    "99": "+ 0.008 - 0.012 a + 0.112 e + 0.040 a2 + 0.183 a e - 0.069 e2 - 0.053 a3 - 0.043 a2 e - 0.070 a e2 - 0.628 e3",
    # pitching moment
    "100 low": "0.117 - 1.475 a + 8.475 a2 - 32.729 a3",
    "100 high": "0.144 - 2.456 a + 2.304 a2 - 0.950 a3",
    "101": "+ 0.014 + 0.165 a - 1.968 e - 0.410 a2 + 1.365 a e - 0.415 e2 + 0.186 a3 - 0.144 a2 e + 0.948 a e2 + 1.356 e3",
}

# For lift, drag and pitching moment: equations of the low group and of the high group.
EQUATIONS_OF_BLOCK = (
    (("96 low", "97"), ("96 high", "97")),
    (("98 low", "99"), ("98 high", "99")),
    (("100 low", "101"), ("100 high", "101")),
)

GROUPS = (
    Group(0, ALPHA, ETA, 3),        # low piece
    Group(10, ALPHA, ETA, 3),       # high piece
)
READING_OUTSIDE = (11, 14)          # by variable number

GTM = Shape("ae", GROUPS, 3, READING_OUTSIDE)


def published_from(printed, equations_of_block=EQUATIONS_OF_BLOCK):
    return published_table(GTM, PUBLISHED_LIMITS, printed, equations_of_block)


GTM.published = published_from(PRINTED)
