#!/usr/bin/env python3
"""Compares two programs that read a sheet from standard input: same answers, time and memory.

    tools/measure.py SHEET PROGRAM [PROGRAM]

Both run alternately, seven times each, in one run of this script; the best time of each counts. With one program, only its own
time and memory are told.
"""
import os
import subprocess
import sys
import time


def run(program, sheet, out):
    with open(sheet, "rb") as stdin, open(out, "wb") as stdout:
        began = time.monotonic()
        child = subprocess.Popen([program], stdin=stdin, stdout=stdout)
        _, status, usage = os.wait4(child.pid, 0)
        seconds = time.monotonic() - began
    if status != 0:
        sys.exit(f"{program} ended with status {status}")
    return seconds, usage.ru_maxrss / 1024


def main():
    sheet, programs = sys.argv[1], sys.argv[2:]
    best = {p: (float("inf"), 0.0) for p in programs}
    outs = {p: f"/tmp/measure-{os.getpid()}-{i}" for i, p in enumerate(programs)}
    for _ in range(7):
        for p in programs:
            seconds, memory = run(p, sheet, outs[p])
            best[p] = (min(best[p][0], seconds), max(best[p][1], memory))
    for p in programs:
        print(f"{p}: {best[p][0]:.3f} s, {best[p][1]:.1f} MB")
    if len(programs) == 2:
        a, b = (open(outs[p], "rb").read() for p in programs)
        print("same answers" if a == b else "ANSWERS DIFFER")
        print(f"{best[programs[0]][0] / best[programs[1]][0]:.2f} times the time of the second")
    for out in outs.values():
        os.remove(out)


main()
