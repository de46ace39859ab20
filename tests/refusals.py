# Plans and slices that the calls refuse, with 01's numbers.
from filters import ADDER, LOOP, PORT, SUM
from unfolded import FULL, plan_bytes, plan_of, with_figures

LAST = FULL - 1
CASE_9 = plan_bytes(plan_of(LOOP))
UNIT, NODE, SWITCH = 9, 23, 41  # where case 9's first unit, node and switch stand
TWO_PORTS = [(0, 0, 0, 3, 0), (0, 1, 0, 4, 0), (1, 0, SUM, 0, 0)]
ADDING = plan_bytes(with_figures(2, 0, 0, [(PORT, 1), (ADDER, 1)], TWO_PORTS, [(1, 0, 0, 0, 0), (1, 1, 0, 0, 1)]))
ADD_NODE, ADD_SWITCH = 23, 50  # where its first node and switch stand


def changed(plan, *changes):
    b = list(plan)
    for at, byte in changes:
        b[at] = byte
    return b


# the number, what is wrong, and the plan; where two things are wrong, the one that 01 looks at first
REFUSED = [
    (1, "no bytes", []),
    (1, "8 bytes", CASE_9[:8]),
    (1, "a byte too few", CASE_9[:-1]),
    (1, "a byte too many", CASE_9 + [0]),
    (1, "8 bytes, wrong mark", changed(CASE_9, (0, 70))[:8]),
    (2, "header mark", changed(CASE_9, (1, 85))),
    (2, "header mark, N out of range", changed(CASE_9, (0, 70), (2, 0))),
    (2, "unit mark", changed(CASE_9, (UNIT + 1, 72))),
    (2, "unit mark, its depth out of range", changed(CASE_9, (UNIT, 70), (UNIT + 3, 0))),
    (2, "node mark", changed(CASE_9, (NODE + 1, 85))),
    (2, "switch mark", changed(CASE_9, (SWITCH + 8, 0))),
    (2, "first switch's mark, second switch's input", changed(CASE_9, (SWITCH, 0), (SWITCH + 11, 1))),
    (3, "N 0", changed(CASE_9, (2, 0))),
    (3, "N 33", changed(CASE_9, (2, 33))),
    (3, "9 units", changed(CASE_9, (3, 9))),
    (3, "no node", changed(CASE_9, (4, 0))),
    (3, "49 nodes", changed(CASE_9, (4, 49))),
    (3, "97 wires, length wrong", changed(CASE_9, (5, 97))),
    (3, "chain 48", changed(CASE_9, (8, 48))),
    (3, "chain 48, length wrong", changed(CASE_9, (8, 48))[:-1]),
    (3, "kind 3", changed(CASE_9, (UNIT + 2, 3))),
    (3, "depth 0", changed(CASE_9, (UNIT + 3, 0))),
    (3, "depth 17", changed(CASE_9, (UNIT + 3, 17))),
    (3, "depth 17, node mark", changed(CASE_9, (UNIT + 3, 17), (NODE, 0))),
    (3, "a node on unit 2", changed(CASE_9, (NODE + 2, 2))),
    (3, "a node in slot 4", changed(CASE_9, (NODE + 3, 4))),
    (3, "op 4", changed(CASE_9, (NODE + 4, 4))),
    (3, "a sum on a multiplier", changed(CASE_9, (NODE + 4, 1), (NODE + 5, 0), (NODE + 6, 0))),
    (3, "a sum with K 1", changed(ADDING, (ADD_NODE + 18 + 5, 1))),
    (3, "channel 16", changed(ADDING, (ADD_NODE + 5, 16))),
    (3, "K -1 of a port", changed(ADDING, (ADD_NODE + 5, 255), (ADD_NODE + 6, 255))),
    (3, "a switch to unit 2", changed(CASE_9, (SWITCH + 2, 2))),
    (3, "input 1 of a multiplier", changed(CASE_9, (SWITCH + 3, 1))),
    (3, "a switch in slot 4", changed(CASE_9, (SWITCH + 4, 4))),
    (3, "a switch into an empty slot", changed(CASE_9, (SWITCH + 4, 2))),
    (3, "a switch from unit 2", changed(CASE_9, (SWITCH + 5, 2))),
    (3, "a switch from unit 2, two ports of one channel", changed(ADDING, (ADD_NODE + 9 + 5, 3), (ADD_SWITCH + 5, 2))),
    (4, "two nodes in one slot, an input fed twice", changed(CASE_9, (NODE + 9 + 2, 0), (NODE + 9 + 3, 0), (SWITCH + 2, 0), (SWITCH + 4, 0))),
    (4, "two ports of one channel", changed(ADDING, (ADD_NODE + 9 + 5, 3))),
    (4, "two ports of one channel, idle count", changed(ADDING, (ADD_NODE + 9 + 5, 3), (UNIT + 6, 7))),
    (5, "an input fed twice, another not", changed(ADDING, (ADD_SWITCH + 3, 1))),
    (5, "an input not fed, line length", changed(CASE_9, (5, 1), (UNIT + 4, 9))[:-8]),
    (9, "line length", changed(CASE_9, (UNIT + 7 + 4, 3))),
    (9, "line length, high byte", changed(CASE_9, (UNIT + 7 + 5, 1))),
    (9, "idle count", changed(CASE_9, (UNIT + 6, 4))),
    (9, "idle count 255", changed(CASE_9, (UNIT + 6, 255))),
]

# on case 9's plan: the words lent and t; what clear and step answer, None where not called
SLICES = [
    ("memory one word short", (4, 16, 2), 3, 7, 7),
    ("memory one word short, t 4294967295", (4, 16, 2), LAST, 7, 7),
    ("no memory", (0, 16, 2), LAST, 7, 7),
    ("15 channels", (5, 15, 2), 3, None, 7),
    ("15 channels, t 4294967295", (5, 15, 2), LAST, None, 7),
    ("output one word short", (5, 16, 1), 3, None, 7),
    ("output one word short, t 4294967295", (5, 16, 1), LAST, None, 7),
    ("t 4294967295", (5, 16, 2), LAST, None, 8),
    ("t 4294967295 cleared", (6, 20, 3), LAST, 0, None),
]
