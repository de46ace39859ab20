#!/usr/bin/env python3
"""Writes the samples of this folder from their descriptions below.

Each description is written by hand in the words of document 01 and is packed into bytes as it stands: nothing is tested
here, so that a sample may be one that is refused. `make.py DIR` writes into another folder.
"""
import pathlib
import struct
import sys

PORT, ADDER, MULTIPLIER = 0, 1, 2
port, plus, minus, scale = 0, 1, 2, 3


def sheet(fold, units, nodes, wires):
    """units: (kind, depth); nodes: (unit, slot, op, K); wires: (from, to, input, delays)."""
    out = b"FH" + bytes([fold, len(units), len(nodes), len(wires)])
    for kind, depth in units:
        out += b"FU" + bytes([kind, depth])
    for unit, slot, op, k in nodes:
        out += b"FN" + struct.pack("<BBBh", unit, slot, op, k)
    for wire in wires:
        out += b"FE" + bytes(wire)
    return out


def plan(fold, registers, chain, units, nodes, switches):
    """units: (kind, depth, line, idle); nodes: (unit, slot, op, K, start); switches: (unit, input, slot, source, tap)."""
    out = b"PH" + struct.pack("<BBBBHB", fold, len(units), len(nodes), len(switches), registers, chain)
    for unit in units:
        out += b"PU" + struct.pack("<BBHB", *unit)
    for node in nodes:
        out += b"PN" + struct.pack("<BBBhH", *node)
    for switch in switches:
        out += b"PS" + struct.pack("<BBBBH", *switch)
    return out


def biquad():
    """Document 001's biquad before retiming, its nodes 1 to 8, and node 9, a port on a unit of its own.

    Folding sets S1 = {4, 2, 3, 1} on the adder, S2 = {5, 8, 6, 7} on the multiplier; here node n has number n - 1.
    """
    adders, multipliers = [4, 2, 3, 1], [5, 8, 6, 7]
    gains = {5: 16384, 6: 24576, 7: -8192, 8: 8192}
    nodes = []
    for n in range(1, 9):
        if n in adders:
            nodes.append((0, adders.index(n), plus, 0))
        else:
            nodes.append((1, multipliers.index(n), scale, gains[n]))
    nodes.append((2, 2, port, 0))
    edges = [(1, 2, 0, 0), (1, 5, 0, 1), (1, 6, 0, 1), (1, 7, 0, 2), (1, 8, 0, 2), (3, 1, 0, 0), (4, 2, 1, 0),
             (5, 3, 0, 0), (6, 4, 0, 0), (7, 3, 1, 0), (8, 4, 1, 0), (9, 1, 1, 0)]
    return sheet(4, [(ADDER, 1), (MULTIPLIER, 2), (PORT, 1)], nodes,
                 [(u - 1, v - 1, at, delays) for u, v, at, delays in edges])


def two(slot_of_b):
    """Cases 9 and 10: A and B on a multiplier each, A to B with one delay, B to A with none."""
    return sheet(4, [(MULTIPLIER, 1), (MULTIPLIER, 1)], [(0, 0, scale, 16384), (1, slot_of_b, scale, -32768)],
                 [(0, 1, 0, 1), (1, 0, 0, 0)])


def itself(delays):
    """Case 11: one scale node wired to itself."""
    return sheet(1, [(MULTIPLIER, 1)], [(0, 0, scale, 16384)], [(0, 0, 0, delays)])


def example_10():
    """Case 12: a sheet with the bounds of document 000, example 10: A1 to A2 -1, A2 to A3 -1, A3 to A4 0, A1 to A4 0."""
    return sheet(4, [(PORT, 1), (MULTIPLIER, 2), (ADDER, 1)],
                 [(0, 2, port, 0), (1, 1, scale, 16384), (1, 2, scale, 16384), (2, 3, plus, 0)],
                 [(0, 1, 0, 0), (1, 2, 0, 0), (2, 3, 0, 1), (0, 3, 1, 0)])


def mean():
    """The mean of channels 0 and 1 over the seam: channel 0 plus half of (channel 1 less channel 0)."""
    return sheet(4, [(PORT, 1), (ADDER, 1), (MULTIPLIER, 2)],
                 [(0, 0, port, 0), (0, 1, port, 1), (1, 2, minus, 0), (2, 3, scale, 16384), (1, 1, plus, 0)],
                 [(1, 2, 0, 0), (0, 2, 1, 0), (2, 3, 0, 0), (0, 4, 0, 0), (3, 4, 1, 0)])


def full():
    """Every count at its limit: 48 sums and differences on 8 adders, 96 wires, N = 32.

    96 wires feed 96 inputs, so that every node has two and none is a port.
    """
    nodes = [(i % 8, (11 * (i // 8) + 5 * (i % 8)) % 32, plus if i % 3 else minus, 0) for i in range(48)]
    wires = []
    for i in range(48):
        near, far = (i - 1) % 48, (7 * i + 3) % 48
        wires.append((near, i, 0, 0 if near < i else 63))
        wires.append((far, i, 1, i % 4 if far < i else 63 - i % 8))
    return sheet(32, [(ADDER, 1 + 2 * u) for u in range(8)], nodes, wires)


def mixed():
    """48 nodes of all kinds on 8 units, N = 12: eight ports, sixteen gains, 24 sums and differences, 64 wires.

    Three nodes stand in a row eight times over: a gain, a sum, a difference; each row takes a port and the row before.
    """
    units = [(PORT, 1)] + 3 * [(MULTIPLIER, 3)] + 4 * [(ADDER, 1)]
    nodes = [(0, c, port, c) for c in range(8)]
    nodes += [(1 + i % 3, 2 * (i // 3) + i % 3, scale, 1000 * i - 8000) for i in range(16)]
    nodes += [(4 + i % 4, (2 * (i // 4) + i % 4) % 12, plus if i % 2 else minus, 0) for i in range(24)]
    wires = []
    for i in range(8):
        first, gain, other = 24 + 3 * i, 8 + 2 * i, 9 + 2 * i
        before = 24 + 3 * ((i - 1) % 8) + 2
        wires += [(i, gain, 0, 0), (gain, first, 0, 0), (before, first, 1, 1 if i else 9)]
        wires += [(first, other, 0, 1), (other, first + 1, 0, 0), (first + 1, first + 1, 1, 3)]
        wires += [(first, first + 2, 0, 2), (first + 1, first + 2, 1, 0)]
    return sheet(12, units, nodes, wires)


def long_lines():
    """Waits as long as a sheet can make them: a row of 48 nodes on units of depth 16, N = 32.

    Each slot is 15 after the one before, so that each wait without retiming is -1 modulo 32 and the row falls by as many
    iterations as it can. Its last seven nodes also take the first ones' words with 63 delays.
    """
    kinds = [PORT, MULTIPLIER, MULTIPLIER, MULTIPLIER, ADDER, ADDER, ADDER, ADDER]
    slots = [(31 + 15 * i) % 32 for i in range(48)]
    nodes, wires = [(0, slots[0], port, 0)], []
    for i in range(1, 48):
        late = i - 41
        if late < 0:
            nodes.append((1 + i % 3, slots[i], scale, 32767 - i))
        else:
            nodes.append((4 + i % 4, slots[i], plus, 0))
            wires.append((6 - late, i, 1, 63))
        wires.append((i - 1, i, 0, 0))
    return sheet(32, [(kind, 16) for kind in kinds], nodes, wires)


def line_5000():
    """A plan by hand: a port, and a difference of its word now and 5,000 cycles before; chain, start and registers at will."""
    return plan(2, 7, 47, [(PORT, 1, 5000, 1), (ADDER, 2, 0, 1)], [(0, 0, port, 3, 0), (1, 1, minus, 0, 2501)],
                [(1, 0, 1, 0, 0), (1, 1, 1, 0, 5000)])


def clash():
    """Two nodes in one slot, and an input that nothing feeds: the clash comes first."""
    return sheet(2, [(MULTIPLIER, 1)], [(0, 1, scale, 1), (0, 1, scale, 2)], [(0, 1, 0, 1)])


def unfed():
    """A sum whose second input nothing feeds."""
    return sheet(1, [(PORT, 1), (ADDER, 1)], [(0, 0, port, 0), (1, 0, plus, 0)], [(0, 1, 0, 0)])


SAMPLES = {
    "biquad.sheet": biquad,
    "loop-of-two.sheet": lambda: two(1),
    "unfoldable.sheet": lambda: two(0),
    "self-loop.sheet": lambda: itself(1),
    "self-loop-unfoldable.sheet": lambda: itself(0),
    "example-10.sheet": example_10,
    "mean.sheet": mean,
    "full.sheet": full,
    "mixed.sheet": mixed,
    "long-lines.sheet": long_lines,
    "line-5000.plan": line_5000,
    "clash.sheet": clash,
    "unfed.sheet": unfed,
    "too-long.sheet": lambda: full() + b"\0",
    "wrong-mark.sheet": lambda: biquad().replace(b"FU", b"FN", 1),
}


def main():
    folder = pathlib.Path(sys.argv[1] if len(sys.argv) > 1 else pathlib.Path(__file__).parent)
    folder.mkdir(parents=True, exist_ok=True)
    for name, make in SAMPLES.items():
        (folder / name).write_bytes(make())


if __name__ == "__main__":
    main()
