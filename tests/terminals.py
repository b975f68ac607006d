"""Pseudo terminals, and examples that run on them, for the tests that need both."""
import os
import pty
import re
import select
import subprocess
import sys
import termios
import time
import tty


class Terminal:
    """A pseudo terminal: the relay's end, and the path of the other one, which stays open here too."""

    def __init__(self):
        self.end, self.other = pty.openpty()
        tty.setraw(self.other)
        tty.setraw(self.end)
        self.path = os.ttyname(self.other)
        self.held = b""
        self.rate = None

    def bursts(self):
        """The whole bursts that have come: each is as long as its length field says."""
        self.held += os.read(self.end, 65536)
        while len(self.held) >= 4:
            length = int.from_bytes(self.held[2:4], "little")
            if len(self.held) < length:
                return
            burst, self.held = self.held[:length], self.held[length:]
            yield burst

    def next_burst(self):
        """The next whole burst; none where none has come within a minute."""
        end = time.monotonic() + 60
        while time.monotonic() < end:
            if select.select([self.end], [], [], 0.1)[0]:
                for burst in self.bursts():
                    return burst
        return b""

    def note_rate(self):
        """Notes the rate that the other end is set to. A burst that was written before it was set keeps the rate that was noted before."""
        rate = termios.tcgetattr(self.other)[5]
        if not select.select([self.end], [], [], 0)[0]:
            self.rate = rate

    def close(self):
        os.close(self.end)
        os.close(self.other)


class Script:
    """One of the examples, as it runs: what it has written, line by line."""

    def __init__(self, *words, **streams):
        pipes = {"stdin": subprocess.PIPE, "stdout": subprocess.PIPE, **streams}
        self.process = subprocess.Popen([str(word) for word in words], **pipes)
        if self.process.stdout:
            os.set_blocking(self.process.stdout.fileno(), False)
        self.lines = []
        self.rest = b""
        self.is_over = False  # whether all that it writes has been read

    def say(self, line):
        """Hands it a line. Where it has ended that is seen by what it doesn't write."""
        try:
            self.process.stdin.write(line.encode() + b"\n")
            self.process.stdin.flush()
        except BrokenPipeError:
            pass

    def read(self):
        piece = self.process.stdout.read()
        self.is_over, piece = piece == b"", piece or b""
        *whole, self.rest = (self.rest + piece).split(b"\n")
        self.lines += [line.decode() for line in whole]


def without_order(line):
    """A line of a panel without the number of its order, as most tests look for it."""
    return re.sub(r"^order \d+ ", "", line)


class Numbered(Script):
    """A panel that tells its orders by their numbers. `lines` are without these, and `numbered` with them."""

    numbered = ()

    def read(self):
        before = len(self.lines)
        super().read()
        self.numbered = [*self.numbered, *self.lines[before:]]
        self.lines[before:] = map(without_order, self.lines[before:])


def packet(address, number, code, data=b""):
    """A packet with a checksum."""
    whole = bytes([0x53, address, 7 + len(data), 0, number, code]) + data
    return whole + bytes([-sum(whole) % 256])


def crc_packet(address, number, code, data=b""):
    """A packet with a CRC."""
    whole = bytes([0x53, address, 8 + len(data), 0, number | 4, code]) + data
    crc = 0x1D0F
    for byte in whole:
        crc ^= byte << 8
        for _ in range(8):
            crc = (crc << 1 ^ (0x1021 if crc & 0x8000 else 0)) & 0xFFFF
    return whole + crc.to_bytes(2, "little")


def commands(top, osdp, built):
    """Of the panel and of a reader, what stands before the port and what before the settings: an example in Python with its program, or one in C."""
    for name in ("panel", "reader"):
        if built is None:
            yield [sys.executable, "-B", top / f"examples/{name}.py"], [str(osdp)]
        else:
            yield [f"{built}/{name}"], []
