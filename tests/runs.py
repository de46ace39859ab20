#!/usr/bin/env python3
# Writes the input of the program runs (crates/runs/stdin) and the print that it must make (crates/runs/stdout); with --check it
# compares them instead. The words come from unfolded.py, each refusal's number from 01's table: nothing is taken from the crates.
import sys
from pathlib import Path

from filters import BIQUAD, EVERY, LOOP, MEAN, ODD, SMOOTHED
from refusals import CASE_9, LAST, REFUSED, SLICES
from unfolded import FULL, begun_by_graph, begun_by_rule, plan_bytes, plan_of, size, two

APART = 0x9E3779B9  # how far the words of neighbouring channels stand apart
MEMORY, OUTPUT = 512, 12  # the words that the program has

# ---- the program's commands, and what it prints


class Job:
    def __init__(self):
        self.said, self.printed = [], []
        self.memory, self.out = [0] * MEMORY, [0] * OUTPUT

    def say(self, name, op, *fields):
        self.said.append(name + " " + "%02x" % op + "".join(" " + "".join("%02x" % b for b in f) for f in fields))

    def print(self, text, words=()):
        self.printed.append(text + "".join(" %08x" % w for w in words))

    def title(self, text):
        self.say("TITLE", 1, [len(text)], text.encode())
        self.print(text)

    def lent(self, plan, memory, channels=16, out=8):
        self.lengths = memory, channels, out
        self.say("PLAN", 2, two(len(plan)), plan)
        self.say("LEND", 3, two(memory), [channels, out])

    def strew(self, x):
        self.say("STREW", 4, x.to_bytes(4, "little"))
        self.memory = [(i + 1) * x % FULL for i in range(MEMORY)]
        self.out = [(i + 1) * x % FULL for i in range(OUTPUT)]

    def put(self, i, x):
        self.say("PUT", 5, two(i), x.to_bytes(4, "little"))
        self.memory[i] = x

    def clear(self, number, words=0):
        self.say("CLEAR", 6)
        self.print("clear %d" % number)
        self.memory[:words] = [0] * words

    def words(self, number, words=0):
        self.say("WORDS", 7)
        self.print("words %d %d" % (number, words))

    def steps(self, handed, answers):
        self.say("STEPS", 8, [len(handed)], *[x.to_bytes(4, "little") for x in handed])
        self.printed.append("".join(" refused %d" % a if isinstance(a, int) else "".join(" %08x" % w for w in a) + "," for a in answers))

    def show(self, words):
        self.say("SHOW", 9, two(words))
        self.print("memory", self.memory[:words])
        self.say("OUTPUT", 10)
        self.print("output", self.out[: self.lengths[2]])

    # cycles t0, t0+1, .., a line for each iteration; `hand` are the words on channel 0, `begun` what each unit begins
    def run(self, p, t0, cycles, hand, begun):
        leaving = lambda t: [begun(q, t - u[1]) for q, u in enumerate(p.units)]
        for t in range(t0, t0 + cycles, p.fold):
            line = range(t, min(t + p.fold, t0 + cycles))
            self.steps([hand(c) for c in line], [leaving(c) for c in line])
        after = t0 + cycles
        places = [begun(q, after - 1 - i) for q, u in enumerate(p.units) for i in range(u[1] + u[2])]
        self.memory[: size(p)] = [after] + places
        self.out[: len(p.units)] = leaving(after - 1)
        self.show(size(p) + 2)


def junk(c):
    return (c * 0x6C078965 + 0x2545F491) % FULL


# a sheet's plan from cleared memory on; in its own cycle a port is handed its sample, at all other cycles every channel has junk
def run_sheet(job, name, s, samples, cycles):
    p = plan_of(s)

    def hand(c):
        for _, slot, op, k, start in p.nodes:
            if op == 0 and slot == c % s.fold and c // s.fold >= start:
                return (samples(k, c // s.fold - start) - k * APART) % FULL
        return junk(c)

    job.title(name)
    job.lent(plan_bytes(p), size(p) + 1, 17, len(p.units) + 2)
    job.strew(0x89ABCDEF)
    job.words(0, size(p))
    job.clear(0, size(p))
    job.run(p, 0, cycles, hand, begun_by_graph(s, p, samples))


# a plan on a memory that was never cleared
def run_strewn(job, name, p, t0, cycles):
    job.title(name)
    job.lent(plan_bytes(p), size(p) + 2, 16, len(p.units) + 1)
    job.strew(0x01234567)
    job.put(0, t0)
    job.run(p, t0, cycles, junk, begun_by_rule(p, tuple(job.memory), t0, lambda c, k: (junk(c) + k * APART) % FULL))


def run_sheets(job):
    assert [n[4] for n in plan_of(BIQUAD).nodes] == [1, 2, 1, 2, 1, 1, 0, 1, 1]
    assert (plan_of(BIQUAD).registers, plan_of(BIQUAD).chain) == (2, 3)
    run_sheet(job, "biquad, an impulse", BIQUAD, lambda k, l: 0x40000000 if l == 0 else 0, 220)
    run_sheet(job, "biquad, a ramp through the full turn", BIQUAD, lambda k, l: (0xF0000000 + l * 0x01234567) % FULL, 220)
    angle = {5: lambda l: (0xE0000000 + l * 0x0A000000) % FULL, 2: lambda l: (0x20000000 + l * 0x0B000001) % FULL}
    run_sheet(job, "mean of two angles over the seam", MEAN, lambda k, l: angle[k](l), 208)
    run_sheet(job, "loop of two", LOOP, None, 200)
    run_sheet(job, "smoothed port", SMOOTHED, lambda k, l: (l * 0x11111111) % FULL, 210)


def run_plans(job):
    loop = plan_of(LOOP)
    run_strewn(job, "loop of two, memory that clear never reached", loop, 0, 40)
    run_strewn(job, "odd taps, starts and figures", ODD, 0, 60)
    run_strewn(job, "odd, start 65535 reached", ODD, 3 * 65535 - 2, 9)
    run_strewn(job, "every unit in every cycle", EVERY, 0, 48)
    run_strewn(job, "t 4294967294", EVERY, LAST - 1, 1)
    job.steps([1], [8])
    job.show(size(EVERY) + 2)


# each call on a plan that is refused leaves memory and output as they were, whatever t is and however short the slices are
def refuse_plans(job):
    for i, (number, name, plan) in enumerate(REFUSED):
        job.title(name)
        job.lent(plan, (6, 0)[i % 2], (16, 15)[i % 2], (3, 1)[i % 2])
        job.strew((LAST, 0x0F1E2D3C)[i % 2])
        job.words(number)
        job.clear(number)
        job.steps([7], [number])
        job.show(6)


# the slices, then t
def refuse_slices(job):
    for name, lengths, t, cleared, stepped in SLICES:
        job.title(name)
        job.lent(CASE_9, *lengths)
        job.strew(0x0F1E2D3C)
        job.put(0, t)
        if cleared is not None:
            job.clear(cleared, 0 if cleared else 5)
        if stepped is not None:
            job.steps([7], [stepped])
        job.show(6)


def main():
    job = Job()
    for part in (run_sheets, run_plans, refuse_plans, refuse_slices):
        part(job)
    crate = Path(__file__).resolve().parent.parent / "crates" / "runs"
    texts = {crate / "stdin": "\n".join(job.said) + "\n", crate / "stdout": "\n".join(job.printed) + "\n"}
    assert max(len(t) for t in texts.values()) < 65536 and len(job.said) < 32768
    for path, text in texts.items():
        if "--check" not in sys.argv:
            path.write_text(text)
        elif path.read_text() != text:
            sys.exit("%s is not what tests/runs.py writes" % path)


if __name__ == "__main__":
    main()
