#!/usr/bin/env python3
"""Writes a long sheet to standard output: a house of four rooms and 256 batches, with questions, calls that are taken,
calls that are refused, and damaged lines among them.

    tools/make_sheet.py [LINES] [SEED] [WIRE]

The same numbers give the same sheet. The house fills up over the first half of the sheet: until then the next post, number,
hear and settle are spread evenly among the other lines. In the second half every batch is posted, and what is left to run, to
release and to install is done among questions and refused calls.
"""
import random
import sys

LINES = int(sys.argv[1]) if len(sys.argv) > 1 else 1_000_000
SEED = int(sys.argv[2]) if len(sys.argv) > 2 else 1
WIRE = int(sys.argv[3]) if len(sys.argv) > 3 else 3
ROOMS = 4
BATCHES = 256

rng = random.Random(SEED)
plan = []
for _ in range(32):
    while True:
        size = rng.choice([1, 1, 1, 2, 2, 3, 4, 8])
        bases = rng.sample(range(32), size)
        mask = sum(1 << b for b in bases)
        if mask not in [m for m, _, _ in plan]:
            break
    plan.append((mask, rng.randrange(ROOMS), sorted(bases)))


def step(bases):
    amount = rng.randrange(1, 1_000_001)
    if len(bases) > 1 and rng.random() < 0.3:
        x, y = rng.sample(bases, 2)
        return f"03{x:02X}{y:02X}{amount:08X}"
    return f"0{rng.choice([1, 2])}{rng.choice(bases):02X}00{amount:08X}"


def post():
    mask, _, bases = rng.choice(plan)
    steps = "".join(step(bases) for _ in range(rng.randrange(1, 7)))
    return f"10{rng.randrange(ROOMS):02X}{mask:08X}{steps}"


def damaged():
    line = list(other())
    what = rng.randrange(4)
    if what == 0:
        line[rng.randrange(len(line))] = rng.choice("GZ xyz#-")
    elif what == 1:
        line = line[:rng.randrange(len(line))]
    elif what == 2:
        line.append(rng.choice("0123456789ABCDEF"))
    else:
        line = list("F0") + line
    return "".join(line)


def other():
    """A question, or a call that a house may take or refuse."""
    room = rng.randrange(ROOMS)
    dice = rng.random()
    if dice < 0.40:
        return f"20{room:02X}{rng.randrange(32):02X}"
    if dice < 0.60:
        return f"14{room:02X}{rng.randrange(BATCHES):04X}"
    if dice < 0.75:
        return f"15{room:02X}{rng.randrange(BATCHES):04X}"
    if dice < 0.90:
        return f"16{room:02X}{rng.randrange(ROOMS):02X}"
    if dice < 0.94:
        return f"13{room:02X}"
    if dice < 0.96:
        return f"17{rng.randrange(BATCHES + 8):04X}"
    if dice < 0.98:
        return "02" + f"{room:02X}" + f"{rng.randrange(1 << 32):08X}"
    return post()


def main():
    out = [f"01{ROOMS:02X}{WIRE:02X}"]
    out += [f"02{room:02X}{mask:08X}" for mask, room, _ in plan]
    out += [f"03{b:02X}{rng.randrange(0, 2_000_000):08X}" for b in range(32)]
    out.append("04")
    half = (LINES - len(out)) // 2
    turns = []
    for n in range(BATCHES):
        at = n * half // BATCHES
        turns.append((at, post()))
        turns.append((at + 1 + rng.randrange(half // 8), "11"))
        for room in range(ROOMS):
            turns.append((at + 1 + rng.randrange(half // 8), f"12{room:02X}"))
            turns.append((at + 1 + rng.randrange(half // 4), f"13{room:02X}"))
    turns.sort(key=lambda t: t[0])
    due = 0
    for at in range(LINES - len(out)):
        if due < len(turns) and turns[due][0] <= at:
            out.append(turns[due][1])
            due += 1
        elif rng.random() < 0.05:
            out.append(damaged())
        else:
            out.append(other())
    sys.stdout.write("\n".join(out) + "\n")


main()
