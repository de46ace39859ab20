# The sheets that are run, and plans made by hand.
from unfolded import Sheet, with_figures

PORT, ADDER, MULTIPLIER = 0, 1, 2
SUM, DIFFERENCE, SCALE = 1, 2, 3
HALF = 16384

# document 001's biquad before retiming, its nodes 1 to 8, and a port as node 9
BIQUAD = Sheet(
    4,
    [(ADDER, 1), (MULTIPLIER, 2), (PORT, 1)],
    [(0, 3, SUM, 0), (0, 1, SUM, 0), (0, 2, SUM, 0), (0, 0, SUM, 0)]
    + [(1, 0, SCALE, HALF), (1, 2, SCALE, 8192), (1, 3, SCALE, -HALF), (1, 1, SCALE, -8192), (2, 2, 0, 0)],
    [(0, 1, 0, 0), (0, 4, 0, 1), (0, 5, 0, 1), (0, 6, 0, 2), (0, 7, 0, 2), (2, 0, 0, 0)]
    + [(3, 1, 1, 0), (4, 2, 0, 0), (5, 3, 0, 0), (6, 2, 1, 0), (7, 3, 1, 0), (8, 0, 1, 0)],
)

# the mean of two angles: from the first, half the difference on
MEAN = Sheet(
    4,
    [(PORT, 1), (ADDER, 1), (MULTIPLIER, 2)],
    [(0, 0, 0, 5), (0, 1, 0, 2), (1, 2, DIFFERENCE, 0), (2, 3, SCALE, HALF), (1, 0, SUM, 0)],
    [(1, 2, 0, 0), (0, 2, 1, 0), (2, 3, 0, 0), (0, 4, 0, 0), (3, 4, 1, 0)],
)

# case 9
LOOP = Sheet(4, [(MULTIPLIER, 1), (MULTIPLIER, 1)], [(0, 0, SCALE, HALF), (1, 1, SCALE, -32768)], [(0, 1, 0, 1), (1, 0, 0, 0)])

# a port smoothed by itself: each value the sample and three quarters of the former value, on deep units
SMOOTHED = Sheet(
    7,
    [(PORT, 4), (ADDER, 5), (MULTIPLIER, 16)],
    [(0, 6, 0, 15), (1, 1, SUM, 0), (2, 2, SCALE, 24576)],
    [(0, 1, 0, 0), (1, 2, 0, 1), (2, 1, 1, 3)],
)


# ---- plans made by hand

# taps, starts and figures that no sheet has: a unit without nodes is read, a unit reads itself, and switches stand in no order
ODD = with_figures(
    3,
    65535,
    47,
    [(PORT, 2), (ADDER, 3), (MULTIPLIER, 16), (ADDER, 1)],
    [(0, 1, 0, 15, 0), (1, 0, SUM, 0, 7), (1, 2, DIFFERENCE, 0, 0), (2, 1, SCALE, -32768, 2), (2, 0, SCALE, 32767, 65535)],
    [(1, 1, 2, 2, 31), (1, 0, 0, 0, 5), (2, 0, 0, 1, 0), (1, 0, 2, 3, 2), (2, 0, 1, 1, 300), (1, 1, 0, 1, 4)],
)

# one slot, all units at work in every cycle
EVERY = with_figures(
    1,
    0,
    0,
    [(PORT, 1), (MULTIPLIER, 2), (ADDER, 16)],
    [(0, 0, 0, 0, 3), (1, 0, SCALE, 12345, 0), (2, 0, DIFFERENCE, 0, 1)],
    [(1, 0, 0, 2, 0), (2, 0, 0, 0, 1), (2, 1, 0, 1, 2)],
)
