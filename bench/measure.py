#!/usr/bin/env python3
"""Runs two programs on one input in turn: `measure.py INPUT ROUNDS OURS THEIRS WORDS..`. Prints, with a tab between
each two: processor seconds of the first and of the second, the lowest of all rounds, and whether they wrote the same.
There are as many rounds as are asked for, and more of a program that has not yet run for two seconds in all.
Processor seconds are those of the program and of the system for it: unlike the time that passes they change little
where other work runs beside it. The input is a file. What is timed writes to /dev/null, since the time that a file
system takes belongs to neither program; a run of each before that, which is not timed, writes to a file."""
import filecmp
import os
import subprocess
import sys
import tempfile

source, rounds, ours, theirs, *words = sys.argv[1:]


def run(program, target):
    with open(source, "rb") as taken, open(target, "wb") as given:
        child = subprocess.Popen([program, *words], stdin=taken, stdout=given, stderr=subprocess.DEVNULL)
        _, _, used = os.wait4(child.pid, 0)
    return used.ru_utime + used.ru_stime


with tempfile.TemporaryDirectory() as folder:
    targets = [os.path.join(folder, name) for name in ("ours", "theirs")]
    for program, target in zip((ours, theirs), targets):
        run(program, target)
    same = "same" if filecmp.cmp(*targets, shallow=False) else "differs"
best = [float("inf")] * 2
spent = [0.0, 0.0]
rounds = int(rounds)
while rounds > 0 or min(spent) < 2:
    for side, program in enumerate((ours, theirs)):
        if rounds > 0 or spent[side] < 2:
            seconds = run(program, os.devnull)
            best[side] = min(best[side], seconds)
            spent[side] += seconds
    rounds -= 1
print(*best, same, sep="\t")
