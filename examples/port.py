"""A serial port: opened for one program alone, and set raw."""
import fcntl
import os
import select
import termios

from lines import stop, tell
from moments import Turns

for end in range(3):  # a stream that is closed is over or fails from now on: else the port would take its number, and what is told would go out on the line
    try:
        os.fstat(end)
    except OSError:
        os.open(os.devnull, os.O_RDONLY)
if fcntl.fcntl(0, fcntl.F_GETFL) & os.O_ACCMODE == os.O_WRONLY:  # so `nohup` leaves standard input: nothing comes from it
    os.dup2(os.open(os.devnull, os.O_RDONLY), 0)
PIECE = 2048  # how many bytes a read takes at most: a line to the programs has 8,192 characters at most, and a byte two of them


def has_rate(rate):
    """Whether a port may have this rate, in bits for a second."""
    return rate > 0 and hasattr(termios, f"B{rate}")


class Port:
    """A serial port. Where it fails the example ends."""

    def __init__(self, path, rate):
        self.turns, self.rate = Turns(), rate
        try:  # without blocking: a read that waits for bytes which another program has taken would wait for ever
            self.end = os.open(path, os.O_RDWR | os.O_NOCTTY | os.O_NONBLOCK)
        except OSError as error:
            stop(f"the port can't be opened: {error.strerror}")
        if not os.isatty(self.end):
            stop("the port is no serial port")
        try:  # the lock refuses a second program of ours, and the other call any program, but for one of root
            fcntl.flock(self.end, fcntl.LOCK_EX | fcntl.LOCK_NB)
            fcntl.ioctl(self.end, termios.TIOCEXCL)
        except OSError:
            stop(f"the port is in use by another program: fuser {path} tells which")
        if not self.set_rate(rate):
            stop("the port has no such rate")

    def set_rate(self, rate):
        """Sets the port raw: 8 bits, no parity, 1 stop bit, and each byte as it is. What was written goes out before, at the old rate.
        Whether the port has taken the rate; else it stays as it is."""
        if not has_rate(rate):
            return False
        speed = getattr(termios, f"B{rate}")
        try:
            before = termios.tcgetattr(self.end)
            characters = list(before[6])
            characters[termios.VMIN], characters[termios.VTIME] = 1, 0
            flags = termios.CS8 | termios.CREAD | termios.CLOCAL
            termios.tcsetattr(self.end, termios.TCSADRAIN, [0, 0, flags, 0, speed, speed, characters])
            if termios.tcgetattr(self.end)[5] == speed:
                return True
            termios.tcsetattr(self.end, termios.TCSADRAIN, before)  # an adapter may take another rate without a fault
        except termios.error:
            pass
        return False

    def can_have(self, rate):
        """Whether the port takes this rate: it is set to it, and back."""
        before = termios.tcgetattr(self.end)
        return self.set_rate(rate) and termios.tcsetattr(self.end, termios.TCSADRAIN, before) is None

    def write(self, burst):
        """Writes a packet of this turn. One that would be late isn't written: then it is as if the line had lost it."""
        try:
            while burst and not self.turns.is_late():
                select.select([], [self.end], [], 1)
                burst = burst[os.write(self.end, burst):]
        except OSError:
            stop("the port can't be written")

    def wait(self, lines, seconds):
        """Waits so many seconds, or until something comes, and begins a turn with all that is there: the bytes of the port, in pieces, and the lines that are given.
        After the program stood still no line is given, since nobody knows when it was typed."""
        ready = self.turns.wait([self.end] + ([] if lines.is_over else [0]), seconds)
        read = self.read() if self.end in ready or self.turns.stood_still else []
        self.turns.stood_still = self.turns.stood_still or self.turns.is_late()
        if self.turns.stood_still:
            tell("stood still")
            lines.refuse()
        return read, lines.read() if 0 in ready and not self.turns.stood_still else ()

    def read(self):
        """The pieces that have come; none where another program has taken them. A port that is gone gives an end, or a fault."""
        read = []
        try:
            while piece := os.read(self.end, PIECE):
                read.append(piece)
        except BlockingIOError:
            return read
        except OSError:
            pass
        return read or stop("the port can't be read")
