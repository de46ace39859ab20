# Plans and the words of their units, worked out from document 01 alone: a sheet's plan by the folding rules, the words that its units
# begin from the unfolded graph, and those of any plan by the rule of one cycle. Sheets and plans are taken to be well formed.
from collections import namedtuple
from functools import lru_cache

FULL = 1 << 32

Sheet = namedtuple("Sheet", "fold units nodes wires")  # kind depth; unit slot op k; from to input delays
Plan = namedtuple("Plan", "fold registers chain units nodes switches")  # kind depth line idle; unit slot op k start; unit input slot source tap


def worked(op, k, sample, a, b):
    near = a - FULL if a >= FULL // 2 else a
    return (sample, a + b, a - b, near * k // 32768)[op] % FULL


def two(n):
    return [n % 256, n // 256 % 256]


# ---- plans


def with_figures(fold, registers, chain, units, nodes, switches):
    line = lambda q: max([s[4] for s in switches if s[3] == q], default=0)
    idle = lambda q: fold - len({n[1] for n in nodes if n[0] == q})
    figured = [(kind, depth, line(q), idle(q)) for q, (kind, depth) in enumerate(units)]
    return Plan(fold, registers, chain, figured, nodes, switches)


def plan_of(s):
    depth = lambda x: s.units[s.nodes[x][0]][1]
    slot = lambda x: s.nodes[x][1]
    raw = [s.fold * w - depth(u) + slot(v) - slot(u) for u, v, _, w in s.wires]
    row, chain = [0] * len(s.nodes), 0
    while True:
        ahead = [min([0] + [raw[e] // s.fold + row[v] for e, (a, v, _, _) in enumerate(s.wires) if a == u]) for u in range(len(row))]
        if ahead == row:
            break
        row, chain = ahead, chain + 1
        assert chain < len(row), "unfoldable"
    start = [h - min(row) for h in row]
    waits = [d + s.fold * (start[v] - start[u]) for d, (u, v, _, _) in zip(raw, s.wires)]
    live = [0] * s.fold
    for u in range(len(row)):
        wait = max([d for d, w in zip(waits, s.wires) if w[0] == u], default=0)
        for cycle in range(slot(u) + depth(u) + 1, slot(u) + depth(u) + wait + 1):
            live[cycle % s.fold] += 1
    nodes = [n + (r,) for n, r in zip(s.nodes, start)]
    switches = [(s.nodes[v][0], i, slot(v), s.nodes[u][0], d) for d, (u, v, i, _) in zip(waits, s.wires)]
    return with_figures(s.fold, max(live), chain, s.units, nodes, switches)


def plan_bytes(p):
    b = [*b"PH", p.fold, len(p.units), len(p.nodes), len(p.switches), *two(p.registers), p.chain]
    for kind, depth, line, idle in p.units:
        b += [*b"PU", kind, depth, *two(line), idle]
    for unit, slot, op, k, start in p.nodes:
        b += [*b"PN", unit, slot, op, *two(k), *two(start)]
    for unit, into, slot, source, tap in p.switches:
        b += [*b"PS", unit, into, slot, source, *two(tap)]
    return b


def size(p):
    return 1 + sum(u[1] + u[2] for u in p.units)


# ---- words begun: what unit q begins at cycle c


# from the unfolded graph, whose values before iteration 0 are 0
def begun_by_graph(s, p, samples):
    @lru_cache(None)
    def value(x, l):
        if l < 0:
            return 0
        a = [0, 0]
        for u, v, i, w in s.wires:
            if v == x:
                a[i] = value(u, l - w)
        _, _, op, k = s.nodes[x]
        return worked(op, k, samples(k, l) if op == 0 else 0, *a)

    def begun(q, c):
        for x, (unit, slot, _, _, start) in enumerate(p.nodes):
            if c >= 0 and unit == q and slot == c % s.fold:
                return value(x, c // s.fold - start)
        return 0

    return begun


# by the rule of one cycle, from a memory that stood before cycle t0: the words before t0 stand in it
def begun_by_rule(p, memory, t0, channel):
    base = [1 + sum(u[1] + u[2] for u in p.units[:q]) for q in range(len(p.units))]

    @lru_cache(None)
    def begun(q, c):
        if c < t0:
            return memory[base[q] + t0 - 1 - c]
        for unit, slot, op, k, start in p.nodes:
            if unit == q and slot == c % p.fold and c // p.fold >= start:
                a = [0, 0]
                for to, into, at, source, tap in p.switches:
                    if to == q and at == slot:
                        a[into] = begun(source, c - p.units[source][1] - tap)
                return worked(op, k, channel(c, k) if op == 0 else 0, *a)
        return 0

    return begun
