"""A line of pseudo terminals for `osdp-port`: terminals of a panel and of readers, joined by a relay, and devices that a test plays."""
import os
import select
import signal
import time
from pathlib import Path

from terminals import Numbered, Terminal, packet

TOP = Path(__file__).resolve().parent.parent
PORT = TOP / "port/osdp-port"
# waits and gaps that a busy machine doesn't reach; and after how many seconds that which is waited for has failed to come
PANEL = "poll-interval 20 reply-wait 1000 sends 2 quiet-wait 60 gap 300 check sum".split()
READER = "vendor 53494D model 1 gap 300".split()
LIMIT = 60.0
ID, POLL, OUT, COMSET = 0x61, 0x60, 0x68, 0x6E
ACK, NAK, PDID, COM = 0x40, 0x41, 0x45, 0x54
IDENTITY = bytes.fromhex("53494D010101000000010000")
osdp = ""  # the path of the program, which a test sets
faults = []


def asks(holds, what):
    if not holds:
        faults.append(what)


class Line:
    """A line: terminals of a panel and of readers, the bursts that went over it, and the programs that run on it."""

    def __init__(self, readers=1):
        self.panel_end, self.reader_ends = Terminal(), [Terminal() for _ in range(readers)]
        self.scripts, self.bursts = [], []  # bursts with their ways: `out` from the panel, `in` to it
        self.loses = lambda way, burst: False
        self.delay = 0.0  # seconds after which an answer is handed on
        self.late = []

    def __enter__(self):
        return self

    def __exit__(self, *_):
        for script in self.scripts:
            if script.process.poll() is None:
                script.process.kill()
            script.process.wait()
        for terminal in (self.panel_end, *self.reader_ends):
            try:
                terminal.close()
            except OSError:
                pass  # it was pulled

    def start(self, terminal, rate, *words, options=(), **streams):
        script = Numbered(PORT, "--plain", "--osdp", osdp, *options, terminal.path, rate, *words, **streams)
        self.scripts.append(script)
        return script

    def panel(self, addresses, *settings, options=(), rate=9600, **streams):
        return self.start(self.panel_end, rate, "panel", addresses, *(settings or PANEL), options=options, **streams)

    def reader(self, at, address, *settings, options=(), rate=9600, **streams):
        return self.start(self.reader_ends[at], rate, "reader", address, *READER, *settings, options=options, **streams)

    def hand_on(self, way, source, others):
        for burst in source.bursts():
            self.bursts.append((way, burst))
            for other in others:
                if other.rate == source.rate and not self.loses(way, burst):
                    self.late.append((time.monotonic() + (self.delay if way == "in" else 0), other, burst))

    def run(self, until, seconds=LIMIT):
        """Carries bursts until something holds. Whether it has come to hold."""
        end = time.monotonic() + seconds
        while not until() and time.monotonic() < end:
            outputs = {script.process.stdout.fileno(): script for script in self.scripts if script.process.stdout and not script.is_over}
            terminals = {self.panel_end.end: ("out", self.panel_end, self.reader_ends)} if self.panel_end.end is not None else {}
            terminals.update({reader.end: ("in", reader, [self.panel_end]) for reader in self.reader_ends})
            for _, terminal, _ in terminals.values():
                terminal.note_rate()
            ready = select.select([*outputs, *terminals], [], [], 0.005)[0]
            for each in ready:
                if each in outputs:
                    outputs[each].read()
                else:
                    self.hand_on(*terminals[each])
            due = [each for each in self.late if each[0] <= time.monotonic()]
            self.late = [each for each in self.late if each not in due]
            for _, other, burst in due:
                os.write(other.end, burst)
        return until()

    def rests(self, seconds):
        self.run(lambda: False, seconds)

    def stops(self, script, number=signal.SIGINT):
        """Ends a program by Ctrl-C. Its status, once all that it told has been read."""
        script.process.send_signal(number)
        self.run(lambda: script.process.poll() is not None, 30)
        self.run(lambda: script.is_over, 5)
        return script.process.poll()


class Device:
    """A device that the test plays, on the panel's terminal: it answers by a reply for each code."""

    def __init__(self, terminal, replies=None, is_silent=lambda burst: False):
        self.terminal, self.asked, self.is_silent = terminal, [], is_silent
        self.replies = {ID: (PDID, IDENTITY), **(replies or {})}

    def answer(self):
        for burst in self.terminal.bursts() if select.select([self.terminal.end], [], [], 0.01)[0] else ():
            self.asked.append(burst)
            if not self.is_silent(burst):
                self.write(packet(burst[1] | 0x80, burst[4] & 3, *self.replies.get(burst[5], (ACK, b""))))

    def write(self, whole):
        os.write(self.terminal.end, whole)

    def until(self, scripts, holds, seconds=LIMIT):
        end = time.monotonic() + seconds
        while not holds() and time.monotonic() < end:
            self.answer()
            for script in scripts:
                script.read()
        return holds()


def has(script, *lines):
    return lambda: all(line in script.lines for line in lines)


def tells(script, text, times=1):
    return lambda: sum(text in line for line in script.lines) >= times


def opened(script, address, times=1):
    """Whether a session has opened so often, as `osdp-port` tells it, or an example."""
    return lambda: sum(line.startswith((f"online {address} ", f"opened {address} ")) for line in script.lines) >= times


def taken(script):
    return [line for line in script.lines if line.startswith(("taken", "again OUT"))]


def com(address, rate):
    return bytes([address]) + rate.to_bytes(4, "little")
