"""The lines of standard input, and the lines that are printed, each with its moment where that is asked."""
import errno
import os
import select
import signal
import sys
import threading
import time
from typing import NamedTuple

from .faults import FAILED, Stop, shown
from .turns import moment

LONGEST = 8192  # how many characters a line has at most
# Ctrl-C, what a service manager sends, and that the terminal is closed
STOPS = (signal.SIGINT, signal.SIGTERM, signal.SIGHUP)
STUCK = 0.3  # how many seconds after Ctrl-C what is printed may wait for whoever reads it


class Typed(NamedTuple):
    """A line of standard input, none where it is no text; and a moment before which it wasn't typed."""

    text: str | None
    since: int


def write_all(end, data):
    """Writes all, also where another program has set the end not to block."""
    while data:
        try:
            data = data[os.write(end, data):]
        except BlockingIOError:
            select.select([], [end], [])


def stamp(seconds=None):
    """A moment as it is printed: hours, minutes, seconds and milliseconds of the day here."""
    seconds = time.time() if seconds is None else seconds
    return f"{time.strftime('%H:%M:%S', time.localtime(seconds))}.{int(seconds * 1000) % 1000:03}"


class Console:
    """Standard input and output. Where nobody reads the output any more the program ends without a word."""

    def __init__(self, has_times=True):
        self.has_times = has_times
        self.rest, self.is_over = b"", sys.stdin is None
        self.empty_at = moment()  # when standard input was last seen empty: what is read was typed since
        self.stops, self.stopped_at = 0, 0.0  # how often Ctrl-C was typed, and when first
        self.printing = {}  # since when each thread waits until what it prints is read
        # whether the main thread waits until a program beside takes what it is handed
        self.is_handing = False
        self.wakes, self.woken = os.pipe()
        for number in STOPS:
            if number != signal.SIGHUP or signal.getsignal(number) != signal.SIG_IGN:  # as under `nohup`
                signal.signal(number, self.stopped)
        signal.signal(signal.SIGALRM, self.looks)
        # in the background of a terminal it would stand still once a key is pressed there
        signal.signal(signal.SIGTTIN, signal.SIG_IGN)

    def stopped(self, number, _):
        """Ctrl-C: the first one ends the program as soon as all is told, and the second one at once. After
        that no more is told by a further one. That the terminal is closed a shell tells once more."""
        if number == signal.SIGHUP and self.stops:
            return
        self.stops += 1
        self.stopped_at = self.stopped_at or time.monotonic()
        signal.setitimer(signal.ITIMER_REAL, STUCK / 3, STUCK / 3)
        os.write(self.woken, b"x")
        if self.stops > 2:
            os._exit(128 + number)
        if self.stops > 1:
            raise Stop("", 128 + number)

    def is_stuck(self):
        """Whether Ctrl-C was typed, and nobody reads what is printed."""
        return self.stops > 0 and any(
            time.monotonic() - max(since, self.stopped_at) > STUCK for since in list(self.printing.values())
        )

    def looks(self, *_):
        """After Ctrl-C this is called again and again. Where nobody reads what is printed, the main thread
        waits for it no more."""
        if self.is_stuck() and (self.is_handing or threading.get_ident() in self.printing):
            self.gives_up()

    @staticmethod
    def gives_up():
        """Nobody reads what is printed: the program ends, and what is left isn't told."""
        raise Stop("nobody reads standard output: what was left isn't told")

    def puts(self, end, data):
        """Writes to standard output or standard error."""
        self.printing[threading.get_ident()] = time.monotonic()
        try:
            write_all(end, data)
        finally:
            del self.printing[threading.get_ident()]

    def hands(self, end, data):
        """Hands data to a program beside, whose lines another thread prints."""
        self.is_handing = True
        try:
            write_all(end, data)
        finally:
            self.is_handing = False

    def wake(self):
        """Ends the program as Ctrl-C does, from another thread."""
        self.stops = max(self.stops, 1)
        os.write(self.woken, b"x")

    def quits(self):
        """Ends the program as the first Ctrl-C does: a line asked for it."""
        self.stopped_at = self.stopped_at or time.monotonic()
        signal.setitimer(signal.ITIMER_REAL, STUCK / 3, STUCK / 3)
        self.wake()

    @staticmethod
    def ends():
        """All was told: nothing is left that Ctrl-C could end."""
        signal.setitimer(signal.ITIMER_REAL, 0)
        for number in STOPS:
            signal.signal(number, signal.SIG_IGN)

    def say(self, line):
        """Prints a line at once, with this moment."""
        line = shown(line)
        self.raw(f"{stamp()} {line}" if self.has_times else line)

    def raw(self, line):
        try:
            self.puts(1, f"{line}\n".encode(errors="backslashreplace"))
        except BrokenPipeError:
            raise Stop("", FAILED) from None
        except OSError:
            raise Stop("standard output can't be written") from None

    def note(self, line):
        """Prints a line that isn't of what was asked, on standard error."""
        try:
            self.puts(2, f"osdp-port: {shown(line)}\n".encode(errors="backslashreplace"))
        except OSError:
            pass  # nobody reads it
        except Stop as stop:
            if stop.status != FAILED:  # else nobody reads it either
                raise

    def lines(self):
        """The lines that have come. The last one needs no line feed. One that is no text comes as None."""
        looks_at = moment()  # before the look: a program that is stopped in between takes no line for younger
        if self.is_over or not select.select([0], [], [], 0)[0]:
            self.empty_at = looks_at
            return []
        try:
            piece = os.read(0, 4096)
        except OSError as error:
            piece = b""
            if error.errno == errno.EIO:
                self.note(
                    "standard input is that of another program, as in the background: no more lines are taken"
                )
        *whole, rest = (self.rest + piece).split(b"\n")
        self.is_over, self.rest = not piece, rest[:LONGEST + 1]
        whole += [rest] if self.is_over and rest else []
        return [Typed(self.text(line), self.empty_at) for line in whole]

    def all_lines(self):
        """All lines that are there."""
        found = []
        while not self.is_over and select.select([0], [], [], 0)[0]:
            found += self.lines()
        return found

    @staticmethod
    def text(line):
        line = line.removesuffix(b"\r")
        is_text = len(line) <= LONGEST and all(0x20 <= byte < 0x7F for byte in line)
        return line.decode() if is_text else None


def wait_for(port, console, seconds, lines=True):
    """Waits so many seconds at most, or until the port or, where lines are wanted, standard input has
    something. A port without a descriptor is looked at again every 5 milliseconds."""
    ends = [console.wakes] + ([0] if lines and not console.is_over else [])
    number = port.number()
    if number is None and port.is_there:
        seconds = min(0.005, 1 if seconds is None else seconds)
    try:
        ready = select.select(ends + ([number] if number is not None else []), [], [], seconds)[0]
        if console.wakes in ready:
            os.read(console.wakes, 16)
    except OSError:
        time.sleep(0.01)  # the port has gone: the read will say so
