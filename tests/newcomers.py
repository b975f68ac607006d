#!/usr/bin/env python3
"""The two programs that a maker writes first, in C and in Rust: `newcomers.py PROGRAMS_IN_C PROGRAMS_IN_RUST`, two folders.

Their lines without blank ones and comments are counted. Then each panel for three doors runs with three readers, over terminals: each reader gets its LED and its
buzzer, a card unlocks the doors that the list has for it and no other, the relay goes off after five seconds, a door that is held open sounds the buzzer, and a
reader that was away gets its LED again and unlocks nothing."""
import os
import re
import select
import sys
import time
from pathlib import Path

from terminals import Script, Terminal

TOP = Path(__file__).resolve().parent.parent
MOST = {"c": 225, "rs": 225}
FILES = {"c": "examples/c", "rs": "rust/examples"}
RED = "LED 0:0:0:0:0:0:0:0:1:1:0:1:1"
GREEN = "LED 0:0:2:1:0:2:2:50:0:0:0:0:0"
SILENT, SOUNDS = "BUZ 0 1 5 5 0", "BUZ 0 2 5 5 0"
ALL, FIRST = "RAW 0 0 26 12345640", "RAW 0 0 26 65432180"


def lines_of(path):
    """How many lines a file has without blank ones and comments."""
    text = re.sub(r"/\*.*?\*/", "", path.read_text(), flags=re.S) if path.suffix == ".c" else path.read_text()
    return sum(1 for line in text.splitlines() if line.strip() and not line.strip().startswith("//"))


class Line:
    """A panel and its readers, which all hear what another one says."""

    def __init__(self, panel, readers):
        self.ends = [Terminal() for _ in range(1 + len(readers))]
        self.panel = Script(panel, self.ends[0].path, 9600)
        self.words = readers
        self.readers = [self.started(i) for i in range(len(readers))]

    def started(self, i):
        words = self.words[i]
        return Script(words[0], self.ends[i + 1].path, 9600, *words[1:])

    def carry(self):
        """What each has sent comes to all others."""
        ready = select.select([end.end for end in self.ends], [], [], 0.01)[0]
        for end in self.ends:
            if end.end in ready:
                sent = os.read(end.end, 4096)
                for other in self.ends:
                    if other is not end and (end is self.ends[0] or other is self.ends[0]):
                        os.write(other.end, sent)
        for script in [self.panel, *self.readers]:
            script.read()

    def wait(self, seconds, holds=lambda: False):
        """Carries until this holds, or so long. Whether it holds."""
        end = time.monotonic() + seconds
        while time.monotonic() < end and not holds():
            self.carry()
        return holds()

    def told(self, i, text):
        return self.readers[i].lines.count(text)

    def is_off(self, i):
        """Whether a relay was on, and is off again."""
        told = self.readers[i].lines
        return "relay on" in told and "relay off" in told[told.index("relay on"):]

    def end(self):
        for script in [self.panel, *self.readers]:
            script.process.kill()
            script.process.wait()
        for end in self.ends:
            end.close()


def faults_of(line):
    """What is wrong with a line, if anything is."""
    count = len(line.readers)
    if not line.wait(15, lambda: all(line.told(i, RED) == 1 and line.told(i, SILENT) >= 1 for i in range(count))):
        yield f"LED and buzzer: {[reader.lines for reader in line.readers]}"
    for i in range(count):
        line.readers[i].say("KEYPAD 0 31323334")
        line.readers[i].say(ALL)
    if not line.wait(5, lambda: all(line.told(i, "relay on") == 1 and line.told(i, GREEN) == 1 for i in range(count))):
        yield f"a card of all doors: {[reader.lines for reader in line.readers]}"
    if not line.wait(8, lambda: all(line.is_off(i) for i in range(count))):
        yield "a relay doesn't go off"
    for i in range(count):
        line.readers[i].say(FIRST)
    line.wait(2)
    if [line.told(i, "relay on") for i in range(count)] != [2, 1, 1][:count]:
        yield f"a card of the first door: {[reader.lines for reader in line.readers]}"
    line.readers[0].say("ISTATR 01")
    if line.wait(8, lambda: line.told(0, SOUNDS) > 0):
        yield "the buzzer sounds before the door is held open"
    last = count - 1
    line.readers[last].process.kill()
    line.readers[last].process.wait()
    changes = len(line.panel.lines)
    if not line.wait(5, lambda: len(line.panel.lines) > changes):
        yield "a reader that is gone isn't told"
    line.readers[last] = line.started(last)
    if not line.wait(10, lambda: line.told(last, RED) == 1):
        yield f"a reader that comes back: {line.readers[last].lines}"
    line.wait(1)
    if line.told(last, "relay on") or line.told(last, GREEN):
        yield "an order was repeated"
    if last > 0 and not line.wait(8, lambda: line.told(0, SOUNDS) == 1):
        yield f"a door that is held open: {line.readers[0].lines}"
    line.readers[0].say("ISTATR 00")
    silent = line.told(0, SILENT)
    if not line.wait(5, lambda: line.told(0, SILENT) > silent):
        yield "the buzzer of a door that is closed sounds"


def main():
    c, rust = (Path(word) for word in sys.argv[1:])
    faults = []
    for kind, most in MOST.items():
        counts = [lines_of(TOP / FILES[kind] / f"{name}.{kind}") for name in ("three_doors", "keypad_reader")]
        print(f"newcomers: {counts[0]} and {counts[1]} lines of .{kind}, {most} at most")
        if sum(counts) > most:
            faults.append(f"{sum(counts)} lines of .{kind}")
    three = [(c / "keypad_reader", i) for i in (1, 2, 3)]
    for name, panel, readers in (("C", c, three), ("Rust", rust, [(rust / "keypad_reader",), *three[1:]])):
        line = Line(panel / "three_doors", readers)
        faults += [f"{name}: {fault}" for fault in faults_of(line)]
        line.end()
    for fault in faults:
        print(fault)
    print(f"newcomers: {len(faults)} faults")
    sys.exit(bool(faults))


if __name__ == "__main__":
    main()
