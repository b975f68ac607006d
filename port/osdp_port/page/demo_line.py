"""Two readers at one line, whose other end is a pseudo terminal: `demo_line OSDP`. It prints the terminal's path, and then what the readers do, an object of JSON a line.

What a person does at the line comes on standard input: a card, keys, the power of a reader, an input, and how many of a hundred packets are lost. A packet takes as
long as its bytes take at the rate. At another rate than the panel's a reader hears nothing."""
import json
import os
import pty
import random
import select
import sys
import termios
import time
import tty
from collections import deque

from ..console import Typed
from ..program import Lines
from ..reader import Reader
from ..serial_port import RATES

CAPS = ("1:1:2", "2:1:2", "3:1:1", "4:4:2", "5:1:1", "6:1:1", "8:1:0", "9:0:0", "10:160:5", "13:0:1")
READERS = ((5, "17001"), (6, "17002"))
ASKED = (["CAP"], ["LSTAT"], ["ISTAT"], ["OSTAT"], ["RSTAT"])  # what the page asks again and again isn't told
SPEEDS = {getattr(termios, f"B{rate}"): rate for rate in RATES}


def moment():
    return int(time.monotonic() * 1000)


class Wire:
    """A reader's end of the line, as its machine knows a port."""

    def __init__(self, line, rate=9600):
        self.line, self.rate = line, rate

    def write(self, burst):
        self.line.says(burst, self.rate)

    def set_rate(self, rate):
        self.rate = rate
        return True

    @staticmethod
    def can_have(rate):
        return rate in RATES


class Placed:
    """A reader, its end of the line, its power and its inputs."""

    def __init__(self, line, number, osdp, address, serial):
        self.number, self.wire, self.is_on, self.inputs, self.tamper = number, Wire(line), True, [0, 0], 0
        settings = ["vendor", "53494D", "model", "1", "version", "2", "serial", serial, "firmware", "1:4:0", *(word for cap in CAPS for word in ("cap", cap)), "expire", "10000"]
        self.starts = lambda at: Lines(osdp, ["reader", *settings, "address", str(at)])
        self.said = lambda text: None if text.split()[1:2] in ASKED else line.tells(number, text)
        self.begins(address)

    def begins(self, address):
        self.machine = Reader(self.wire, self.starts, address, moment, self.said)
        self.does(f"inputs {''.join(f'{each:02X}' for each in self.inputs)}", f"local {self.tamper} 0", "readers 00")

    def does(self, *lines):
        self.machine.turn(b"", [Typed(line, moment()) for line in lines])

    def power(self, is_on):
        if is_on and not self.is_on:
            self.machine.program.close()
            self.begins(self.machine.address)
        self.is_on = is_on


class Line:
    """The line: what the panel writes each reader hears, and what a reader writes the panel hears, but for what is lost."""

    def __init__(self, osdp):
        self.end, self.other = pty.openpty()
        tty.setraw(self.other)
        tty.setraw(self.end)
        self.loss, self.late = 0, deque()
        print(os.ttyname(self.other), flush=True)
        self.readers = [Placed(self, number, osdp, address, serial) for number, (address, serial) in enumerate(READERS)]

    def tells(self, number, text):
        print(json.dumps({"device": number, "text": text}), flush=True)

    def rate(self):
        return SPEEDS.get(termios.tcgetattr(self.other)[5])

    def is_lost(self):
        return random.random() * 100 < self.loss

    def says(self, burst, rate):
        """A reader says something: it is heard after as long as its bytes take."""
        if rate == self.rate() and not self.is_lost():
            begins = max([time.monotonic(), *(due for due, _ in self.late)])
            self.late.append((begins + len(burst) * 10 / rate, burst))

    def hears(self, burst):
        rate, is_lost = self.rate(), self.is_lost()
        for reader in self.readers:
            if reader.is_on and reader.wire.rate == rate and not is_lost:
                reader.machine.turn(burst, [])

    def takes(self, command):
        """What a person does."""
        what = command.get("what")
        if what == "loss":
            self.loss = command["percent"]
            return
        reader = self.readers[command["device"]]
        if what == "power":
            reader.power(command["on"])
        elif reader.is_on and what == "card":
            reader.does(f"card {command['facility']} {command['number']}")
        elif reader.is_on and what == "keys":
            reader.does(f"keys {command['keys']}")
        elif reader.is_on and what == "input":
            reader.inputs[0] = int(command["on"])
            states = "".join(f"{each:02X}" for each in reader.inputs)
            reader.does(f"inputs {states}", f"event ISTATR {states}")
        elif reader.is_on and what == "tamper":
            reader.tamper = int(command["on"])
            reader.does(f"local {reader.tamper} 0", f"event LSTATR {reader.tamper} 0")

    def goes(self):
        held = b""
        while True:
            due = self.late[0][0] - time.monotonic() if self.late else 0.05
            ready = select.select([self.end, 0], [], [], max(0.0, min(0.05, due)))[0]
            if self.end in ready:
                self.hears(os.read(self.end, 4096))
            if 0 in ready:
                piece = os.read(0, 65536)
                if not piece:
                    return
                *lines, held = (held + piece).split(b"\n")
                for line in lines:
                    self.takes(json.loads(line))
            while self.late and self.late[0][0] <= time.monotonic():
                os.write(self.end, self.late.popleft()[1])
            for reader in self.readers:
                if reader.is_on and not ready:
                    reader.machine.turn(b"", [])


def main():
    Line(sys.argv[1]).goes()


if __name__ == "__main__":
    try:
        main()
    except (KeyboardInterrupt, BrokenPipeError):
        pass
