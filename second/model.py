"""The printed Cumulus One polynomials, the shape of its tables, and the published one.

The decimals stand here as text, one entry per equation number, spelt as shapes.py says:
    a alpha   b beta   x xi (aileron)   e eta (elevator)   z zeta (rudder)
"""

from shapes import Group, Shape, published_table

ALPHA, BETA, XI, ETA, ZETA = range(5)

# 17.949 degrees in whole thousandths of a milliradian, rounded down
PUBLISHED_FINE_CUT = 313269
# alpha lowest, cut, highest, fine cut; then lowest and highest of beta, xi, eta, zeta
PUBLISHED_LIMITS = (-150, 313, 1000, PUBLISHED_FINE_CUT, -500, 500, -200, 200, -400, 400, -500, 500)

PRINTED = {
    # low piece, alpha alone
    5: "- 2.566e-2 + 5.722e-1 a + 1.496 a2 - 1.148e1 a3",
    6: "5.402e-2 - 2.345e-1 a - 2.001 a2 + 7.054 a3",
    7: "- 3.475e-1 - 5.467 a + 1.853 a2 + 2.663e1 a3",
    8: "4.875e-2 - 2.190e-1 a - 2.004 a2 + 7.146 a3",
    9: "6.214e-2 - 1.755 a - 3.427 a2 + 1.256e1 a3",
    10: "4.748e-2 - 2.097e-1 a - 2.016 a2 + 7.171 a3",
    # low piece, alpha with elevator
    11: "4.327e-2 e - 4.458e-1 a e + 3.370e-1 a2 e - 4.567e-1 a e2 + 7.331e-2 e3",
    12: "1.832e-2 e + 7.484e-2 a e - 4.384e-1 a2 e",
    13: "- 2.567e-1 e + 3.085e-1 a e - 5.105e-2 e2 - 7.394e-1 a2 e"
        " + 6.936e-1 a e2 + 1.337e-1 e3",
    14: "1.699e-2 e + 8.936e-2 a e - 4.564e-1 a2 e + 1.571e-2 a e2",
    15: "- 9.028e-1 e + 7.437e-1 a e - 4.924e-2 e2 - 8.415e-1 a2 e"
        " + 2.210 a e2 + 5.251e-1 e3",
    16: "1.532e-2 e + 8.758e-2 a e - 4.513e-1 a2 e + 1.487e-2 a e2",
    # high piece, alpha alone
    17: "1.266e-2 - 3.159e-1 a + 3.832e-1 a2 - 1.226e-1 a3",
    18: "- 2.297e-2 a2 + 1.337e-2 a3",
    19: "- 4.179e-1 - 2.345 a + 9.586e-1 a2 - 3.665e-2 a3",
    20: "2.006e-2 - 8.200e-2 a + 1.012e-1 a2 - 3.515e-2 a3",
    21: "- 2.552e-1 - 5.131e-1 a - 2.677e-1 a2 + 1.332e-1 a3",
    22: "1.159e-2 - 3.062e-2 a + 2.727e-2 a2",
    # high piece, alpha with elevator
    23: "- 1.342e-2 e - 1.663e-1 a e - 1.796e-1 e2 + 2.254e-2 a2 e"
        " + 9.274e-2 a e2 + 7.331e-2 e3",
    24: "- 2.922e-1 e + 1.829e-1 a e + 1.277e-1 e2 + 2.284e-2 a2 e"
        " + 1.229e-1 a e2 + 1.337e-1 e3",
    25: "- 9.498e-1 e + 6.099e-1 a e + 5.093e-1 e2 + 6.456e-2 a2 e"
        " + 4.264e-1 a e2 + 5.251e-1 e3",
    26: "",                         # Y, l and n have no elevator terms up there
    # sideslip with aileron
    27: "6.557e-2 b2 + 4.214e-2 b x - 1.493 x2 + 4.264e-2 x3 - 1.647e-2 b4"
        " - 2.321e-2 b3 x + 9.649e-2 b2 x2 + 2.859e-2 b x3 + 3.084e1 x4",
    28: "- 3.697e-1 b - 1.570e-1 x - 3.231e-2 b2 - 6.137 x2 + 7.416e-2 b3"
        " + 1.611e-2 b x2 + 2.214 x3 + 6.487e-1 b2 x2 + 5.323e-2 b x3"
        " + 1.456e2 x4",
    29: "3.411e-1 b2 + 4.141e-1 b x - 3.717 x2 + 4.234e-2 x3 - 9.915e-2 b4"
        " - 1.922e-1 b3 x + 1.945e-1 b2 x2 + 9.909e-1 b x3 + 9.856e1 x4",
    30: "- 5.798e-2 b - 3.929e-1 x - 2.906e-2 b2 - 5.551 x2 + 1.763e-2 b3"
        " + 1.722e-1 b2 x + 4.557e-1 x3 + 5.835e-1 b2 x2 + 5.332e-2 b x3"
        " + 1.319e2 x4",
    31: "- 3.978e-2 b2 + 5.554e-1 b x - 4.689 x2 + 4.229e-2 x3 + 2.585e-2 b4"
        " - 2.309e-1 b3 x + 4.077e-1 b2 x2 - 5.068e-1 b x3 + 1.160e2 x4",
    32: "3.686e-2 b + 1.392e-2 x - 2.828e-2 b2 - 5.410 x2 - 1.160e-1 x3"
        " + 5.678e-1 b2 x2 + 5.334e-2 b x3 + 1.286e2 x4",
    # sideslip with rudder
    33: "- 1.031e-2 b z - 7.986e-2 z2 + 1.086e-2 b z3 + 9.739e-2 z4",
    34: "- 8.526e-2 z - 2.128e-2 b2 - 3.569e-1 z2 + 1.049e-2 b2 z"
        " + 1.924e-2 b z2 + 7.679e-2 z3 + 5.663e-2 b2 z2 + 5.247e-1 z4",
    35: "- 2.036e-2 b2 - 1.332e-2 b z - 1.743e-1 z2 + 1.834e-2 b2 z2"
        " + 3.683e-2 b z3 + 2.631e-1 z4",
    36: "- 1.930e-2 b2 - 3.221e-1 z2 + 5.111e-2 b2 z2 + 4.735e-1 z4",
    37: "- 3.231e-2 b2 - 1.436e-2 b z - 2.672e-1 z2 + 1.241e-2 b3 z"
        " + 1.472e-2 b2 z2 + 1.051e-2 b z3 + 4.193e-1 z4",
    38: "2.158e-2 z - 1.882e-2 b2 - 3.137e-1 z2 - 1.338e-2 z3"
        " + 4.978e-2 b2 z2 + 4.611e-1 z4",
}

# For each coefficient: equations of the low group, the high group, the
# aileron group and the rudder group, in the order X, Y, Z, l, m, n.
EQUATIONS_OF_BLOCK = (
    ((5, 11), (17, 23), (27,), (33,)),
    ((6, 12), (18, 26), (28,), (34,)),
    ((7, 13), (19, 24), (29,), (35,)),
    ((8, 14), (20, 26), (30,), (36,)),
    ((9, 15), (21, 25), (31,), (37,)),
    ((10, 16), (22, 26), (32,), (38,)),
)


GROUPS = (
    Group(0, ALPHA, ETA, 3),        # low piece
    Group(10, ALPHA, ETA, 3),       # high piece
    Group(20, BETA, XI, 4),
    Group(35, BETA, ZETA, 4),
)
LOW_GROUP, HIGH_GROUP, XI_GROUP, ZETA_GROUP = range(4)
READING_OUTSIDE = (11, 12, 13, 14, 15)      # by variable number

CUMULUS = Shape("abxez", GROUPS, 6, READING_OUTSIDE, has_fine_cut=True)
CUMULUS.published = published_table(CUMULUS, PUBLISHED_LIMITS, PRINTED, EQUATIONS_OF_BLOCK)

# what this shape comes to, by name
FIRST_BLOCK, BLOCK_LENGTH, BLOCK_COUNT = CUMULUS.first_block, CUMULUS.block_length, CUMULUS.block_count
TABLE_LENGTH, READ_LENGTH = CUMULUS.table_length, CUMULUS.read_length
LOWEST, HIGHEST, FINE_CUT = CUMULUS.lowest, CUMULUS.highest, CUMULUS.fine_cut
PUBLISHED_TABLE = CUMULUS.published
