#!/usr/bin/env python3
# Writes the input of the program cases (crates/cases/stdin) and the print that it must make (crates/cases/stdout); with --check it
# compares them instead. Plans come from unfolded.py, numbers and loops from 01's text: nothing is taken from the crates.
import sys
from pathlib import Path

from filters import ADDER, BIQUAD, HALF, LOOP, MULTIPLIER, PORT, SCALE, SUM
from unfolded import Sheet, plan_bytes, plan_of, two

ROOM = 2048
SIZES = {ord("H"): 9, ord("U"): 7, ord("N"): 9, ord("S"): 8, ord("W"): 3}


def sheet_bytes(s):
    b = [*b"FH", s.fold, len(s.units), len(s.nodes), len(s.wires)]
    for kind, depth in s.units:
        b += [*b"FU", kind, depth]
    for unit, slot, op, k in s.nodes:
        b += [*b"FN", unit, slot, op, *two(k)]
    for wire in s.wires:
        b += [*b"FE", *wire]
    return b


class Job:
    def __init__(self):
        self.said, self.printed = [], []

    def say(self, name, op, *fields):
        self.said.append(name + " " + "%02x" % op + "".join(" " + "".join("%02x" % b for b in f) for f in fields))

    def title(self, text):
        self.say("TITLE", 1, [len(text)], text.encode())
        self.printed.append(text)

    def answer(self, number, length, written):
        self.printed.append("plan %d %d, the rest kept" % (number, length))
        while written:
            n = SIZES[written[1]]
            record, written = written[:n], written[n:]
            self.printed.append("  " + bytes(record[:2]).decode() + "".join(" %d" % b for b in record[2:]))

    def plan(self, sheet, room, number, length=0, written=()):
        self.say("SHEET", 2, two(room), two(len(sheet)), sheet)
        self.answer(number, length, list(written))

    def live(self, counts):
        self.say("LIVE", 3, [len(counts)])
        self.printed.append("live" + "".join(" %d" % c for c in counts))

    def live_at(self, node, slot, cycles):
        self.say("NODE", 4, [node, slot])
        self.printed.append("live in the slot at" + "".join(" %d" % c for c in cycles))

    def folds(self, title, s, room=ROOM):
        plan = plan_bytes(plan_of(s))
        self.title(title)
        self.plan(sheet_bytes(s), room, 0, len(plan), plan)

    def unfoldable(self, title, s, loop):
        self.title(title)
        self.plan(sheet_bytes(s), ROOM, 6, 3 * len(loop), [b for e in loop for b in (*b"PW", e)])

    def refused(self, title, sheet, number, room=ROOM, length=0):
        self.title(title)
        self.plan(sheet, room, number, length)


def one_node(delays):
    return Sheet(1, [(MULTIPLIER, 1)], [(0, 0, SCALE, HALF)], [(0, 0, 0, delays)])


# bounds −1, −1, 0, 0 from A1 to A2, A2 to A3, A3 to A4, A1 to A4
EXAMPLE_10 = Sheet(
    4,
    [(PORT, 1), (MULTIPLIER, 1), (ADDER, 1)],
    [(0, 1, 0, 0), (1, 1, SCALE, HALF), (1, 0, SCALE, HALF), (2, 2, SUM, 0)],
    [(0, 1, 0, 0), (1, 2, 0, 0), (2, 3, 0, 0), (0, 3, 1, 0)],
)
SLOT_0 = LOOP._replace(nodes=[LOOP.nodes[0], (1, 0, SCALE, -32768)])
WIDE = Sheet(32, [(ADDER, 1)] * 2, [(x // 32, x % 32, SUM, 0) for x in range(48)], [(x, x, i, 63) for x in range(48) for i in range(2)])


def deep(depth):
    return LOOP._replace(units=[(MULTIPLIER, depth), (MULTIPLIER, 1)], wires=[(0, 1, 0, 63), (1, 0, 0, 0)])


def delayed(delays):
    return LOOP._replace(wires=[(0, 1, 0, delays), (1, 0, 0, 0)])


def with_byte(sheet, at, byte):
    return sheet[:at] + [byte] + sheet[at + 1 :]


def worked(job):
    job.folds("case 9", LOOP)
    job.unfoldable("case 10", SLOT_0, [0, 1])
    job.unfoldable("case 11, no delay", one_node(0), [0])
    job.folds("case 11, one delay", one_node(1))
    p = plan_of(EXAMPLE_10)
    assert ([n[4] for n in p.nodes], p.chain) == ([0, 1, 2, 2], 2)
    job.folds("case 12: a sheet of these bounds", EXAMPLE_10)
    p = plan_of(BIQUAD)
    assert ([n[4] for n in p.nodes], p.registers, p.chain) == ([1, 2, 1, 2, 1, 1, 0, 1, 1], 2, 3)
    job.folds("biquad", BIQUAD)
    job.live([2, 2, 2, 1])
    job.title("biquad, node 1, slot 1")
    job.live_at(0, 1, [5, 9])


def limits(job):
    job.folds("96 wires", WIDE)
    job.refused("97 wires, and a wire too few for them", with_byte(sheet_bytes(WIDE), 5, 97), 3)
    job.folds("depth 16", deep(16))
    job.refused("depth 17", sheet_bytes(deep(17)), 3)
    job.folds("63 delays", delayed(63))
    job.refused("64 delays", sheet_bytes(delayed(64)), 3)


# places in case 9's sheet: header 0, units 6 and 10, nodes 14 and 21, wires 28 and 34
def refusals(job):
    b = sheet_bytes(LOOP)
    whole = len(plan_bytes(plan_of(LOOP)))
    job.refused("empty", [], 1)
    job.refused("5 bytes of another mark: 1 before 2", [*b"XH", 4, 2, 2], 1)
    job.refused("another header mark, N 0: 2 before 3", with_byte(with_byte(b, 1, 65), 2, 0), 2)
    job.refused("N 33, a byte too many: 3 before 1", with_byte(b, 2, 33) + [0], 3)
    job.refused("a byte too many, a unit of another mark: 1 before 2", with_byte(b, 6, 65) + [0], 1)
    job.refused("a byte too few", b[:-1], 1)
    job.refused("a unit of another mark, and kind 3: 2 before 3", with_byte(with_byte(b, 7, 65), 8, 3), 2)
    job.refused("a unit of kind 3, then a node of another mark: file order", with_byte(with_byte(b, 8, 3), 15, 65), 3)
    job.refused("a node of another mark, then a unit that is not there: file order", with_byte(with_byte(b, 15, 65), 23, 2), 2)
    job.refused("an op against its unit's kind", with_byte(b, 18, 1), 3)
    job.refused("a wire into an input that its node has not got, then one of another mark", with_byte(with_byte(b, 32, 1), 35, 65), 3)
    clash = LOOP._replace(nodes=[(0, 0, SCALE, HALF), (0, 0, SCALE, 0)], wires=[(0, 1, 0, 1), (1, 1, 0, 0)])
    job.refused("two nodes in one slot, an input fed twice: 4 before 5", sheet_bytes(clash), 4)
    unfed = LOOP._replace(wires=[(0, 1, 0, 1), (1, 1, 0, 0)])
    job.refused("an input fed twice and one by no wire, no room: 5 before 7", sheet_bytes(unfed), 5, 0)
    job.refused("no room", b, 7, 0, whole)
    job.refused("a byte of room too few", b, 7, whole - 1, whole)
    job.folds("room for the plan and no more", LOOP, whole)
    job.refused("unfoldable, a byte of room too few: 7 before 6", sheet_bytes(SLOT_0), 7, whole - 1, whole)


def main():
    job = Job()
    worked(job)
    limits(job)
    refusals(job)
    program = Path(__file__).resolve().parent.parent / "crates" / "cases"
    made = {"stdin": job.said, "stdout": job.printed}
    for name, lines in made.items():
        text = "\n".join(lines) + "\n"
        if "--check" not in sys.argv:
            (program / name).write_text(text)
        elif (program / name).read_text() != text:
            sys.exit("crates/cases/%s is not what tests/cases.py writes" % name)


main()
