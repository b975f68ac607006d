"""A line of three devices of ours on a pseudo terminal, as a program of its own: `broker_line.py OSDP LINK LOG LATE FIRST`. LINK is a link to the terminal, LOG gets a line for
each thing that a device does, and FIRST is the address of the first device.

Standard input has lines: `card DEVICE DIGITS` holds a card to a device, `restart DEVICE` takes its power for a moment, and `pull` takes the terminal away and brings another one.

A line of LOG: `acted ADDRESS MOMENT TEXT` before the device answers, `shown ADDRESS RUN DIGITS` once the device has the card in its queue, and `begun ADDRESS RUN` as it gets power. A
moment is that of CLOCK_BOOTTIME, in milliseconds. What was written stays though the program is killed."""
import os
import pty
import select
import sys
import time
import tty
from pathlib import Path

TOP = Path(__file__).resolve().parent.parent
sys.path.insert(0, str(TOP / "port"))
sys.dont_write_bytecode = True

from osdp_port.program import Lines  # noqa: E402
from osdp_port.reader import Reader  # noqa: E402
from osdp_port.turns import Turns  # noqa: E402

RATE, TURN = 9600, 0.005
SETTINGS = ("cap", "1:1:0", "cap", "2:1:8", "room", "64", "expire", "0", "presence", "on")


def moment():
    return int(time.clock_gettime(time.CLOCK_BOOTTIME) * 1000)


class Wire:
    """The terminal, which the devices share."""

    rate, is_there = RATE, True

    def __init__(self, link):
        self.link, self.end, self.other = link, None, None
        self.opens()

    def opens(self):
        """A new terminal takes the place of the one before."""
        for end in (self.end, self.other):
            if end is not None:
                os.close(end)
        self.end, self.other = pty.openpty()
        for end in (self.end, self.other):
            tty.setraw(end)
        os.set_blocking(self.end, False)
        new = f"{self.link}.new"
        Path(new).unlink(missing_ok=True)
        os.symlink(os.ttyname(self.other), new)
        os.rename(new, self.link)

    def write(self, burst):
        try:
            os.write(self.end, burst)
        except OSError:
            pass  # nobody reads there

    def read(self):
        try:
            return os.read(self.end, 65536)
        except OSError:
            return b""

    @staticmethod
    def can_have(rate):
        return rate == RATE

    @staticmethod
    def set_rate(rate):
        return rate == RATE


class Device:
    """A device of the line, which is powered anew by `begins`."""

    def __init__(self, osdp, wire, address, log):
        self.osdp, self.wire, self.address, self.log = osdp, wire, address, log
        self.machine = None

    def begins(self):
        if self.machine:
            self.machine.program.process.kill()
            self.machine.program.close()
        self.run = f"{os.getpid()}.{moment()}"
        self.log("begun", self.address, self.run)
        self.machine = Reader(self.wire, lambda address: Lines(self.osdp, ["reader", *SETTINGS, "address", str(address)]), self.address, moment, self.says)

    def says(self, line):
        """What the reader tells: an order that it does now."""
        if line.startswith("taken OUT"):
            self.log("acted", self.address, moment(), line.removeprefix("taken "))
        if line.startswith(("not done", "stood still", "refused event")):
            self.log("told", self.address, line)

    def card(self, digits):
        before = len(self.machine.events)
        self.machine.line(f"event RAW 0 0 32 {digits}")
        if len(self.machine.events) > before:
            self.log("shown", self.address, self.run, digits)


def main():
    osdp, link, path, late, first = sys.argv[1:6]
    file = os.open(path, os.O_WRONLY | os.O_CREAT | os.O_APPEND, 0o600)

    def log(*words):
        os.write(file, (" ".join(map(str, words)) + "\n").encode())
    wire = Wire(link)
    devices = [Device(osdp, wire, int(first) + at, log) for at in range(3)]
    for device in devices:
        device.begins()
        device.machine.late = int(late)
    turns, rest = Turns(moment, int(late)), b""
    while True:
        began = moment()
        ready = select.select([0, wire.end], [], [], TURN)[0]
        turns.begins(began, TURN)
        if 0 in ready:
            piece = os.read(0, 65536)
            if not piece:
                return
            *lines, rest = (rest + piece).split(b"\n")
            for line in lines:
                does(line.decode().split(), wire, devices)
        read = wire.read()
        turns.has_read()
        if read or ready == []:
            for device in devices:
                device.machine.late = int(late)
                device.machine.turn(read, [], turns.now, turns.stood_still)


def does(words, wire, devices):
    """Does what a line of standard input says."""
    if words[0] == "pull":
        wire.opens()
    elif words[0] == "restart":
        devices[int(words[1])].begins()
    elif words[0] == "card":
        devices[int(words[1])].card(words[2])


if __name__ == "__main__":
    main()
