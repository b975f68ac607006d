#!/usr/bin/env python3
"""Runs a program on rows of text, each with the words, the input, and what must come of them.

    rows.py PROGRAM FILE..

A row begins with a line `osdp WORD..`, quoted as a shell takes it; several such lines in turn share what comes next. A blank line ends a
row. Then, in any order:

    < TEXT      a line of input        > TEXT   a line of standard output
    <- TEXT     without a line's end   ! TEXT   a line of standard error
    <x FF 53    bytes of input         !1 TEXT  its first line, where others may follow
    <. 1500     milliseconds that      = 1      the status, where it is not 0
                pass before the rest
                of the input

Files are named from the top of the repository. {1432*FF} stands for FF 1,432 times; in input \\t, \\r and \\x00 are the bytes. Lines that begin with # are comments."""
import re
import shlex
import subprocess
import sys
import time
from pathlib import Path

TOP = Path(__file__).resolve().parent.parent


class Row:
    def __init__(self, place):
        self.place, self.words = place, []
        self.input = self.output = self.errors = b""
        self.pauses = []  # how much of the input has come, and how long nothing more does
        self.status = 0
        self.is_first = False  # whether of standard error the first line alone is wanted
        self.is_begun = False


def repeated(text):
    return re.sub(r"\{(\d+)\*([^}]*)\}", lambda it: it[2] * int(it[1]), text)


def typed(text):
    """Returns the bytes of a text of input."""
    bytes_of = {"t": b"\t", "r": b"\r", "\\": b"\\"}
    found = b""
    for plain, escape in re.findall(r"([^\\]+)|\\(x[0-9A-Fa-f]{2}|.)", repeated(text)):
        found += plain.encode() if plain else bytes_of.get(escape) or bytes.fromhex(escape[1:])
    return found


def rows_of(path):
    rows = []
    with open(path, encoding="utf-8") as lines:
        for number, line in enumerate(lines, 1):
            sign, _, text = line.rstrip("\n").partition(" ")
            if not sign and rows:
                rows[-1].is_begun = True
            if not sign or sign.startswith("#"):
                continue
            if sign == "osdp" and (not rows or rows[-1].is_begun):
                rows.append(Row(f"{path}:{number}"))
            row = rows[-1]
            row.is_begun = sign != "osdp"
            if sign == "osdp":
                row.words.append(shlex.split(repeated(text)))
            elif sign == "<":
                row.input += typed(text) + b"\n"
            elif sign == "<-":
                row.input += typed(text)
            elif sign == "<x":
                row.input += bytes.fromhex(repeated(text))
            elif sign == "<.":
                row.pauses.append((len(row.input), int(text) / 1000))
            elif sign == ">":
                row.output += repeated(text).encode() + b"\n"
            elif sign in ("!", "!1"):
                row.errors += text.encode() + b"\n"
                row.is_first = sign == "!1"
            elif sign == "=":
                row.status = int(text)
            else:
                sys.exit(f"{path}:{number}: a line that begins with {sign}")
    return rows


def output_of(program, row, words):
    """Runs the program on the input, whose parts come after their pauses."""
    with subprocess.Popen([program, *words], stdin=subprocess.PIPE, stdout=subprocess.PIPE, stderr=subprocess.PIPE, cwd=TOP) as process:
        given = 0
        for size, pause in row.pauses:
            process.stdin.write(row.input[given:size])
            process.stdin.flush()
            given = size
            time.sleep(pause)
        output, errors = process.communicate(row.input[given:])
    return output, errors, process.returncode


def is_right(program, row, words):
    output, errors, status = output_of(program, row, words)
    got = (output, errors[:len(row.errors)] if row.is_first else errors, status)
    wanted = (row.output, row.errors, row.status)
    if got == wanted:
        return True
    print(f"{row.place}: osdp {shlex.join(words)[:200]}")
    for name, ours, theirs in zip(("output", "errors", "status"), wanted, got):
        if ours != theirs:
            print(f"  {name}: wanted {str(ours)[:400]}\n  {' ' * len(name)}     got {str(theirs)[:400]}")
    return False


def main(program, paths):
    passed = failed = 0
    for row in [it for path in paths for it in rows_of(path)]:
        for words in row.words:
            if is_right(program, row, words):
                passed += 1
            else:
                failed += 1
    print(f"rows: {passed} passed, {failed} failed")
    return 1 if failed or not passed else 0


if __name__ == "__main__":
    sys.exit(main(Path(sys.argv[1]).resolve(), sys.argv[2:]))
