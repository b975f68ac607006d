#!/usr/bin/env python3
"""Holds the picture of a restart in docs/PROTOCOL.md to a run of both machines. Takes the path of the program.

`osdp panel` and `osdp reader` run by lines, and their session opens. Then each line of the picture is done, or compared with what the program says: a packet by
the line that `osdp show` prints of it, a report by its line. Where the reader restarts its process is killed, and another one is started. In the end no
packet and no report is left that the picture doesn't show."""
import re
import subprocess
import sys
from pathlib import Path

TOP = Path(__file__).resolve().parent.parent
PROGRAM = sys.argv[1]


def fail(why):
    sys.exit(f"restart: {why}")


class End:
    """One end, by lines: the packets that it has sent and the other lines that it has told, which nobody has looked at yet."""

    def __init__(self, *words):
        self.process = subprocess.Popen([PROGRAM, *words], stdin=subprocess.PIPE, stdout=subprocess.PIPE, text=True)
        self.sent, self.told = [], []

    def call(self, line):
        self.process.stdin.write(f"{line}\n")
        self.process.stdin.flush()
        for answer in self.process.stdout:
            name, _, rest = answer.rstrip("\n").partition(" ")
            if name in ("due", "waiting"):
                return
            (self.sent if name == "send" else self.told).append(rest if name == "send" else f"{name} {rest}")
        fail("a program has ended")

    def at(self, moment, line):
        self.call(f"at {moment}")
        self.call(line)

    def stop(self):
        self.process.kill()
        self.process.communicate()


def new_reader():
    """A reader with one output, whose power has just come."""
    reader = End("reader", "address", "5")
    reader.call("outputs 00")
    return reader


class Line:
    """Both ends, and the moment."""

    def __init__(self):
        self.now = 0
        self.panel, self.reader = End("panel"), new_reader()

    def packet(self, end, way, text, number):
        """Takes the one packet that this end has sent, which must be this message."""
        if len(end.sent) != 1:
            fail(f"{text}: {len(end.sent)} packets have been sent")
        digits = end.sent.pop()
        shown = subprocess.run([PROGRAM, "show"], input=digits, capture_output=True, text=True, check=True).stdout
        if shown != f"1:0 {way} 5 seq {number} crc {text}\n":
            fail(f"{text}, number {number}: {shown.strip()}")
        return digits

    def asks(self, text, number):
        self.panel.at(self.now, "tick")
        if not self.panel.told.count("burst "):
            self.panel.call("tick")  # the turn whose bytes brought a report sends nothing
        self.panel.told.remove("burst ")
        self.panel.call("write")
        self.reader.at(self.now, f"bytes {self.packet(self.panel, 'cmd', text, number)}")

    def answers(self, text, number, comes=True):
        digits = self.packet(self.reader, "reply", text, number)
        if comes:
            self.panel.at(self.now, f"bytes {digits}")

    def tells(self, end, report):
        """Takes the line that this end has told: a report, without the device's number, that of the order and the moment since which an event was offered; and, of an opening,
        without what the device is."""
        said = re.sub(r"^(?:order \d+ )?([\w-]+) 1(?: since \d+)?", r"\1", end.told.pop(0)) if end.told else "nothing"
        if said != report and not (report == "opened" and said.startswith("opened ")):
            fail(f"{report}: told is {said}")

    def notes(self, who, what):
        """Does what stands over an end, or compares it."""
        if pause := re.fullmatch(r"(\d+) ms", what):
            self.now += int(pause[1])
        elif who == "reader" and what == "restarts":
            self.reader.stop()
            self.reader = new_reader()
        elif call := re.fullmatch(r"(submit|begin)(.*)", what):
            self.panel.at(self.now, f"{call[1]} 1{' never' if call[1] == 'submit' else ''}{call[2]}")
            if call[1] == "submit":
                self.tells(self.panel, "waits")
        else:
            self.tells(self.panel if who == "panel" else self.reader, what)

    def goes_on(self, line):
        """One line of the picture."""
        if note := re.fullmatch(r"Note over (panel|reader): (.*)", line):
            self.notes(*note.groups())
        elif ask := re.fullmatch(r"panel->>reader: (.*), number (\d)", line):
            self.asks(*ask.groups())
        elif answer := re.fullmatch(r"reader-->>panel: (.*), number (\d)", line):
            self.answers(*answer.groups())
        elif lost := re.fullmatch(r"reader--xpanel: (.*), number (\d), is lost", line):
            self.answers(*lost.groups(), comes=False)
        else:
            fail(f"the picture's line cannot be read: {line}")


def drawn():
    """The lines of the picture."""
    picture = re.search(r"^From `tests/restart\.py`, which runs it:\n\n```mermaid\nsequenceDiagram\n(.*?)```$", (TOP / "docs/PROTOCOL.md").read_text(), re.M | re.S)
    if not picture:
        fail("docs/PROTOCOL.md has no picture of a restart")
    return [line.strip() for line in picture[1].splitlines()]


def main():
    line = Line()
    for call in ("add 5 1", "begin 1"):
        line.panel.call(call)
    line.now = 400
    line.asks("ID 0", 0)
    line.answers("PDID 000000 0 0 0 0 0 0", 0)
    line.tells(line.panel, "opened")
    line.reader.told.clear()
    for each in drawn():
        line.goes_on(each)
    left = [each for each in line.panel.sent + line.reader.sent + line.panel.told + line.reader.told if not each.startswith("again ID")]
    if left:
        fail(f"the picture doesn't show {left}")
    line.panel.stop()
    line.reader.stop()


main()
