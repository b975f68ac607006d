#!/usr/bin/env python3
"""Holds the monitor of the archive to the rows of `osdp monitor`, whose texts are worked by hand: `c_monitor.py PROGRAM LISTEN`, where PROGRAM is made of
tests/c/monitor.c, and LISTEN of examples/c/listen.c.

- Each row of tests/rows/monitor.txt whose input is good lines of digits is handed over whole and byte by byte, and its text is taken in large rooms and in small
  ones: the text and the status are those of the row.
- The example prints the same of the first row, whose runs come over a pseudo terminal one after the other: once a table counts a run as over, the next one comes."""
import os
import select
import sys
import time
from pathlib import Path

TOP = Path(__file__).resolve().parent.parent
sys.path.insert(0, str(TOP / "tests"))
import subprocess  # noqa: E402

from rows import rows_of  # noqa: E402
from terminals import Terminal  # noqa: E402

OPTIONS = {"--hex", "--packets", "--talk", "--standard"}
PRINTS = {"--talk": 1, "--packets": 2}


def heard():
    """The rows that a monitor in C can be handed: the number of what is printed, whether by the standard alone, the input, the output and the status."""
    for row in rows_of(TOP / "tests/rows/monitor.txt"):
        for words in row.words:
            if words[0] == "monitor" and set(words[1:]) <= OPTIONS and row.status < 2 and not row.errors:
                prints = [PRINTS[word] for word in words if word in PRINTS]
                yield row.place, prints[-1] if prints else 0, int("--standard" in words), row.input, row.output, row.status


def over_a_terminal(program, runs):
    """What the example prints of runs, but for its tables; and the last table."""
    line, told, table = Terminal(), "", ""
    with subprocess.Popen([program, line.path, "9600"], stdin=subprocess.PIPE, stdout=subprocess.PIPE) as listens:
        for number, run in enumerate(runs, 1):
            os.write(line.end, run)
            until, held = time.monotonic() + 60, b""
            while f"\nruns {number} ".encode() not in held and time.monotonic() < until:
                listens.stdin.write(b"table\n")
                listens.stdin.flush()
                while select.select([listens.stdout], [], [], 0.1)[0]:
                    held += os.read(listens.stdout.fileno(), 65536)
            front, _, _ = held.decode().partition("device  asked")
            told, table = told + front, held.decode()[held.decode().rfind("device  asked"):]
        listens.kill()
    line.close()
    return told + table


def judge_example(program):
    _, _, _, given, wanted, _ = next(heard())
    told = over_a_terminal(program, [bytes.fromhex(run) for run in given.decode().splitlines()])
    return [] if told == wanted.decode() else [f"listen: {told}, and not {wanted.decode()}"]


def main():
    faults, count = judge_example(sys.argv[2]), 0
    for place, prints, standard, given, wanted, status in heard():
        for piece, room in ((4096, 8192), (1, 8192), (7, 1)):
            done = subprocess.run([sys.argv[1], *map(str, (prints, standard, piece, room))], input=given, capture_output=True)
            count += 1
            if (done.stdout, done.stderr, done.returncode) != (wanted, b"", status):
                faults.append(f"{place}, by {piece} bytes: {done.stdout.decode()!r} {done.stderr.decode()!r} {done.returncode}, and not {wanted.decode()!r} {status}")
    print(f"c_monitor: {count} runs, {len(faults)} faults", *faults[:5], sep="\n")
    return 1 if faults or count < 60 else 0


if __name__ == "__main__":
    sys.exit(main())
