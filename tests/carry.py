"""Carries a port to a panel that is called by lines, such as `osdp_example_panel`: `carry.py PROGRAM --keep FILE PORT RATE`. What isn't for the port, or for the file,
is printed. The file has the panel's door by the address 5, as those of the panels in C and Rust have it."""
import os
import select
import subprocess
import sys
import termios
import time
import tty


class Carrier:
    def __init__(self, program, kept, path, rate):
        self.kept, self.started = kept, time.monotonic()
        self.process = subprocess.Popen([program], stdin=subprocess.PIPE, stdout=subprocess.PIPE, text=True)
        self.port = os.open(path, os.O_RDWR | os.O_NOCTTY | os.O_NONBLOCK)
        tty.setraw(self.port)
        self.set_rate(rate)
        if os.path.exists(kept):
            self.call("kept " + open(kept).read().strip().removeprefix("5 at "))

    def set_rate(self, rate):
        attributes = termios.tcgetattr(self.port)
        attributes[4] = attributes[5] = getattr(termios, f"B{rate}")
        termios.tcsetattr(self.port, termios.TCSADRAIN, attributes)

    def keep(self, stand):
        with open(f"{self.kept}.new", "w") as file:
            file.write(f"5 at {stand}\n")
            file.flush()
            os.fsync(file.fileno())
        os.rename(f"{self.kept}.new", self.kept)

    def call(self, line):
        """Hands the panel a line, and does what it answers, one line after the other: so what is to be kept is kept before anything more is sent."""
        self.process.stdin.write(f"{line}\n")
        self.process.stdin.flush()
        for answer in self.process.stdout:
            name, _, rest = answer.strip().partition(" ")
            if name == "due":
                return
            if name == "send":
                os.write(self.port, bytes.fromhex(rest))
            elif name == "keep":
                self.keep(rest)
            elif name == "rate":
                self.set_rate(rest)
            else:
                print(answer.strip(), flush=True)

    def turn(self):
        ready = select.select([self.port, 0], [], [], 0.01)[0]
        read = os.read(self.port, 4096) if self.port in ready else b""
        self.call(f"{int((time.monotonic() - self.started) * 1000)} {read.hex().upper() or 'none'}")
        if 0 in ready:
            for line in os.read(0, 4096).decode().splitlines():
                self.call(line)


carrier = Carrier(sys.argv[1], *sys.argv[3:])
while True:
    carrier.turn()
