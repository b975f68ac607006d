#!/usr/bin/env python3
"""A small panel on a serial port, to copy. `osdp-port` has more: COMSET, places that are kept, ports that come back, traces.
    panel.py [--until MS] PORT RATE ADDRESS,ADDRESS.. [PROGRAM] [SETTING VALUE]..

PROGRAM is the path of osdp, with a `/` in it, where it isn't found by its name. Its settings are in its manual. Each line of standard input is an order:
a reader's number and a command, as `1 OUT 0:5:30`. The number is the place of its ADDRESS in the list, from 1. Each line of standard output is what was
ordered, or what is reported: `opened`, `settled`, `event`, `lost` and others. Before what is told of an order stands its own number, as `order 7`.

An order goes out within MS milliseconds after it was typed, 5000 if not said, or never: then it is told as `expired`. With `--until never` it is never too late. A reader
whose session isn't open takes no order, and what waits is taken back as a session is lost. One of which the example's end leaves nothing known is `in doubt`.
Status: 2 bad words or settings, 3 the port or standard output fails, 4 out of memory, 127 there is no such program, 130 at Ctrl-C."""
import math

from lines import Lines, number, take_words, tell
from moments import Turns, moment
from port import Port
from program import Program
from readers import Readers, without_number

OPTIONS = {"--until": "5000"}
Turns.late = math.inf  # `osdp` itself keeps orders from going out late
PAUSE = 1000  # from a lost session to the next one, in milliseconds


class Panel:
    """`lasts` is for how many milliseconds an order may go out, none where it may for ever."""

    def __init__(self, port, addresses, program, lasts):
        self.port, self.program, self.lines, self.lasts = port, program, Lines(), lasts
        self.due = None  # the moment of the next tick
        self.readers = Readers(addresses)
        for address in addresses:
            self.call(f"add {address} 1")  # the number of its first order

    def call(self, line):
        """Hands the program a line, and does what its answer says. The lines that were told."""
        *answer, last = self.program.call(line)
        self.due = None if last == "due none" else int(last.split()[1])
        for line in answer:
            if line.startswith("send "):
                self.port.write(bytes.fromhex(line.split()[1]))
            elif line != "burst" and not line.startswith("refused B"):
                tell(line)
                self.heed(*without_number(line))
        return answer

    def heed(self, number, name, which="", *words):
        """Does what a report asks for. The number is that of its order, if it is about one."""
        if reader := self.readers.get(which):
            reader.hears(number, name)
        if name == "opened":
            reader.is_open = True
        elif name == "lost":
            reader.is_open, reader.begins = False, moment() + PAUSE
            while self.call(f"withdraw {which}"):
                pass  # another reader may stand there as it opens again

    def order(self, line, since):
        """Takes an order that was typed at a moment, or refuses it."""
        which, _, text = line.strip().partition(" ")
        tell(f"ordered {line}")
        reader = self.readers.get(which)
        if reader is None:
            tell(f"refused no reader {which}: they are 1 to {len(self.readers)}")
        elif not reader.is_open:
            tell("refused session not open")
        elif text.lstrip().startswith("COMSET"):
            tell("refused COMSET: osdp-port does it")
        else:
            reader.given, until = text, "never" if self.lasts is None else since + self.lasts
            if not any(told.startswith("refused ") for told in self.call(f"submit {which} {until} {text}")):
                return
        tell(f"not taken {line}")

    def turn(self):
        """Waits for bytes, for orders or for what is due, and hands it to the program. Where a packet is to go out its moment is taken anew: so none goes out late."""
        moments, since = self.readers.due() + ([] if self.due is None else [self.due]), self.lines.since()
        read, lines = self.port.wait(self.lines, max(0, min(moments) - moment()) / 1000 if moments else None)
        self.call(f"at {self.port.turns.now}")
        for piece in read:
            self.call(f"bytes {piece.hex()}")
        for line in lines:
            self.order(line, since)
        for which, reader in self.readers.items():
            if reader.begins is not None and reader.begins <= self.port.turns.now:
                self.call(f"begin {which}")
                reader.begins = None
        if "burst" in self.call("tick"):
            self.call(f"at {moment()}")
            self.call("write")


if __name__ == "__main__":
    path, rate, addresses, *settings = take_words(__doc__, 3, OPTIONS, has_late=False)
    numbers = [number(address, "address") for address in addresses.split(",")]
    lasts = None if OPTIONS["--until"] == "never" else number(OPTIONS["--until"], "--until")
    panel = Panel(Port(path, number(rate, "rate")), numbers, Program("panel", settings), lasts)
    while True:
        panel.turn()
