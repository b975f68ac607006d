"""The monitor as a picture on a terminal: its table, redrawn in place, what came of the last seconds, and
what was told last under it."""
import atexit
import contextlib
import re
import select
import shutil
import sys
import threading
import time
from collections import deque

from .console import stamp, write_all
from .pace import Came, turns, words
from .program import Stream

HEADS = ("device  ", "runs ", "window  ", "+runs ")  # of a table, and of what came since the last one
OF_DEVICE = re.compile(
    r"^(?:\d+:\d+ )?\+?(?:(?:device|panel to|reader|cmd|reply|diagnosis:) )?(\d+)\b(?!:\d)"
)
COUNTS = re.compile(r"(\w+) (\d+)")
NAMES = "asked polls repeats answered busy nak events opened moved judged forgot accused".split()
DUE = 0.25  # seconds between two pictures
# columns that a narrow terminal doesn't show, the first one first
DROPPED = ("forgot", "moved", "polls", "judged", "opened", "events", "busy", "nak", "repeats")
WINDOW = 10.0  # seconds that the second table goes back
CLEAR, HOME, LINE_END, REST, HIDE, SHOW = "\x1b[2J", "\x1b[H", "\x1b[K", "\x1b[J", "\x1b[?25l", "\x1b[?25h"


def is_terminal():
    return sys.stdout.isatty()


def shows_cursor():
    with contextlib.suppress(OSError):
        if select.select([], [1], [], 0)[1]:  # a terminal that takes nothing isn't waited for
            write_all(1, SHOW.encode())


def is_other(line, address):
    """Whether a line is of another device than the one that is wanted."""
    found = OF_DEVICE.match(line)
    return bool(address is not None and found and int(found[1]) != address and not line.startswith(HEADS))


def share(count, all_of):
    return 100 * count / all_of if all_of else 0.0


class Table:
    """A table as the program told it, with what came since the one before, the moment, and how many bytes had
    come."""

    def __init__(self, moment, size, window, lines):
        self.moment, self.size, self.lines = moment, size, lines
        self.addresses = sorted(int(line.split()[0]) for line in lines if line[:1].isdigit())
        self.came, self.line = {}, {}
        for line in window:
            if line.startswith("+runs "):
                self.line = {name: int(count) for name, count in COUNTS.findall(line)}
            else:
                address, *counts = (int(word) for word in line[1:].split())
                self.came[address] = dict(zip(NAMES, counts))


def narrowed(lines, width):
    """The lines of a table, with as many of its columns as the terminal has room for."""
    rows = [line.split() for line in lines if line.startswith(HEADS[0]) or line[:1].isdigit()]
    if max(map(len, lines), default=0) <= width or not rows or len(set(map(len, rows))) > 1:
        return lines
    for name in DROPPED:
        wide = [max(map(len, column)) for column in zip(*rows)]
        if sum(wide) + len(wide) - 1 <= width:
            break
        at = rows[0].index(name)
        rows = [row[:at] + row[at + 1:] for row in rows]
    wide = [max(map(len, column)) for column in zip(*rows)]
    shown = iter(
        " ".join([row[0].ljust(wide[0]), *(word.rjust(room) for word, room in zip(row[1:], wide[1:]))])
        for row in rows
    )
    return [next(shown) if line.startswith(HEADS[0]) or line[:1].isdigit() else line for line in lines]


def since(tables, rate):
    """The lines on what came after the first of these tables, as the program counts it from each to the next:
    of the whole line, and of each device."""
    old, new, windows = tables[0], tables[-1], list(tables)[1:]
    seconds = max(new.moment - old.moment, 0.001)
    packets, damaged = (sum(table.line.get(name, 0) for table in windows) for name in ("packets", "refused"))
    rows, devices = [], []
    for address in new.addresses:
        asked, repeats, *replies = (
            sum(table.came.get(address, {}).get(name, 0) for table in windows)
            for name in ("asked", "repeats", "answered", "busy", "nak")
        )
        lost = max(0, asked - sum(replies))  # the answer to a packet of the first table may come after it
        devices.append(asked - repeats)
        state = "online" if sum(replies) else "no answer" if asked else "not asked"
        rows.append(
            f"{address:<6} {asked:>6} {share(repeats, asked):>8.1f}% {share(lost, asked):>8.1f}%  {state}"
        )
    came = Came(seconds, new.size - old.size, packets, damaged, turns(devices))
    return [f"last {seconds:.0f} s: {words(came, rate)}", "device  asked   repeats      lost", *rows]


class Live(Stream):
    """`osdp monitor` beside the program, drawn on the terminal."""

    def __init__(self, words, console, osdp, title):
        self.rate, self.title, self.address = words.rate, title, words.get("--address")
        self.tables, self.told = deque(), deque(maxlen=200)
        self.window, self.part, self.in_table = [], [], False
        self.size, self.came, self.drawn, self.leaves_out = 0, None, 0.0, False
        self.lock = threading.Lock()
        super().__init__(
            osdp,
            [
                "monitor",
                "--raw",
                "--every",
                str(words.get("--every", 1)),
                *(["--packets"] if words.get("--all") else []),
            ],
            console,
        )
        atexit.register(shows_cursor)  # however it ends
        console.puts(1, (HIDE + CLEAR).encode())

    def write(self, data):
        if data:
            self.size, self.came = self.size + len(data), time.monotonic()
            super().write(data)
        if time.monotonic() >= self.drawn + DUE:
            self.draw()

    def prints(self, line):
        """Takes a line: of the table, or one that is told."""
        if not line.startswith(" "):  # one that begins so goes with the line before it
            self.leaves_out = is_other(line, self.address)
        if self.leaves_out:
            return
        with self.lock:
            if line.startswith(("window  ", "+")):
                self.window = [*self.window, line] if line.startswith("+") else []
                return
            if line.startswith(HEADS[0]):
                self.in_table, self.part = True, []
            if self.in_table and (
                line.startswith((*HEADS, "diagnosis: ", "nothing was judged")) or re.match(r"\d+ ", line)
            ):
                self.part.append(line)
                if line.startswith("runs "):
                    self.keep(Table(time.monotonic(), self.size, self.window, self.part))
                    self.window = []
            else:
                self.in_table = False
                self.told.append(
                    line
                    if line.startswith(" ")
                    else f"{stamp()} {line.partition(' ')[2] if re.match(r'[0-9]+:', line) else line}"
                )

    def tells(self, line):
        """Takes what happens to the port."""
        with self.lock:
            self.told.append(f"{stamp()} {line}")

    def keep(self, table):
        """Keeps the last table and, for what came lately, those of the last seconds."""
        self.tables.append(table)
        while len(self.tables) > 2 and self.tables[1].moment <= table.moment - WINDOW:
            self.tables.popleft()

    def lines(self):
        """The picture, as many lines as the terminal has."""
        width, height = shutil.get_terminal_size()
        with self.lock:
            silent = (
                "nothing has come"
                if self.came is None
                else f"last byte {time.monotonic() - self.came:.0f} s ago"
            )
            lines = [f"{self.title}: {stamp()[:8]}, {silent}; Ctrl-C ends it", ""]
            if self.tables:
                lines += narrowed(self.tables[-1].lines, width)
                if len(self.tables) > 1:
                    lines += ["", *since(self.tables, self.rate)]
            room = height - len(lines) - 2
            lines += ["", *list(self.told)[-room:]] if room > 0 else []
        return [line[:width] for line in lines[:height - 1]]

    def draw(self):
        self.drawn = time.monotonic()
        self.console.puts(1, (HOME + "".join(f"{line}{LINE_END}\n" for line in self.lines()) + REST).encode())

    def ends(self):
        """The input has ended: the last table stays, and what was told last."""
        try:
            return super().ends()
        finally:
            with self.lock:
                table = self.tables[-1].lines if self.tables else []
            self.console.puts(
                1,
                (
                    HOME + REST + SHOW + "".join(f"{line}\n" for line in [*list(self.told)[-20:], *table])
                ).encode(),
            )
