#!/usr/bin/env python3
"""Panels that are stopped at random moments, by what their devices do: no order is acted on after its last moment, and no card opens a door that was read long ago.

    stopped_panels.py OSDP SHIM [--c FOLDER] [--rust FOLDER] [--python LIBRARY] [--orders N] [--seed N]

SHIM is `stops.c`, compiled: it stops a panel before a call of its own: of its clock, its wait, a read, a write to a pipe, or the write to its port. A panel is also stopped from outside, and
so is the `osdp panel` beside it, for 3 to 20 seconds where N orders are asked for, and else for some. Each panel has a line of its own, a pseudo terminal that loses one packet in
seven, with `osdp reader` at its end. Orders are typed just before it is stopped and while it is, and cards are read.

An order may go out for LASTS milliseconds after it was typed, and that of a card for as long after its reader was asked. The device's record has when each was acted on. That may be
later by w: the time from the write of a packet to the answer. What this test read late counts as come as early as it may have. Where the panel was stopped between the last moment
that it took and its write, no program can help it: such orders are counted apart, by what `stops.c` writes down of each write, and so are those of a busy computer. A stop before the
clock or in the wait is never such a one. Each order that was taken has one end; one that expired was never acted on, and one that was settled was, once. One panel has orders that
never grow too old: it does act late, so the run can fail."""
import argparse
import mmap
import os
import random
import re
import select
import signal
import struct
import subprocess
import sys
import tempfile
import time
from collections import Counter
from dataclasses import dataclass
from pathlib import Path

from terminals import Numbered, Terminal

TOP = Path(__file__).resolve().parent.parent
LASTS = 1500  # for how many milliseconds an order may go out
W = 60  # milliseconds from the write of a packet to the answer, on a terminal
BUSY = 1000  # for so many milliseconds a busy computer may hold a program up between its moment and its write
LOSS = 1 / 7
SETTINGS = "poll-interval 20 reply-wait 150 sends 3 quiet-wait 100 gap 20".split()
CALLS = {"wait": 1, "clock": 2, "read": 3, "pipe": 4, "port": 5}  # as `stops.c` has them
CARDS = ("12345640", "65432180")  # they open the door
OUT, RAW = 0x68, 0x50
STRIKE = "OUT 0:5:30"
ENDS = ("settled", "lost", "unread", "withdrawn", "expired")
AGE = re.compile(r"\(up to ([\d.]+) s old\)")
faults = []


def asks(holds, what):
    if not holds:
        faults.append(what)


def moment():
    """Milliseconds, as the panels and `stops.c` have them."""
    return time.clock_gettime(time.CLOCK_BOOTTIME) * 1000


@dataclass
class Kind:
    """A panel's program: what stands before its port and after the rate, and before an order that is typed, if it takes some; whether it has `osdp panel` beside it, and whether its
    orders grow too old."""

    name: str
    before: list
    after: list
    prefix: str | None
    has_child: bool = False
    is_endless: bool = False


def kinds(osdp, given):
    """The programs that are there."""
    port = [TOP / "port/osdp-port", "--plain", "--osdp", osdp, "--until"]
    yield Kind("osdp-port", [*port, LASTS], ["panel", "5", *SETTINGS], "5 ", True)
    yield Kind("panel.py", [sys.executable, "-B", TOP / "examples/panel.py", "--until", LASTS], ["5", osdp, *SETTINGS], "1 ", True)
    yield Kind("osdp-port, never too old", [*port, "never"], ["panel", "5", *SETTINGS], "5 ", True, True)
    if given.c:
        yield Kind("panel in C", [f"{given.c}/panel", "--late", LASTS], ["5", *SETTINGS], "1 ")
        yield Kind("door_panel in C", [f"{given.c}/door_panel", "--late", LASTS], [], None)
    if given.rust:
        yield Kind("door_panel in Rust", [f"{given.rust}/door_panel", "--late", LASTS], [], None)
    if given.python:
        yield Kind("door_panel.py", [sys.executable, "-B", TOP / "python/examples/door_panel.py", "--late", LASTS], [], None)


class Device:
    """`osdp reader` at the end of a line, and its record: what it acted on and when, and when it first offered each card to a POLL."""

    def __init__(self, osdp):
        self.process = subprocess.Popen([osdp, "reader", "address", "5"], stdin=subprocess.PIPE, stdout=subprocess.PIPE, text=True, bufsize=1)
        self.acted, self.offered, self.last = [], [], b""
        self.call("outputs 00")

    def call(self, line):
        self.process.stdin.write(line + "\n")
        self.process.stdin.flush()
        answer = []
        while not answer or not answer[-1].startswith("waiting "):
            answer.append(self.process.stdout.readline().rstrip("\n"))
        return answer[:-1]

    def hears(self, burst, now, lag):
        """The answers to a packet that was read at a moment, and had come so many milliseconds before at the most."""
        self.call(f"at {now:.0f}")
        sent = []
        for told in self.call(f"bytes {burst.hex()}"):
            name, _, text = told.partition(" ")
            if name == "send":
                sent.append(bytes.fromhex(text))
            elif name == "taken" and text.startswith("OUT"):
                self.acted.append((text, now, lag))
        if burst != self.last:
            self.offered += [now for each in sent if each[5] == RAW]
        self.last = burst
        return sent


class Control:
    """What `stops.c` is told, and tells."""

    def __init__(self, path):
        path.write_bytes(bytes(12))
        with open(path, "r+b") as file:
            self.memory = mmap.mmap(file.fileno(), 12)

    def arms(self, call, before):
        struct.pack_into("<II", self.memory, 0, CALLS[call], before)

    def disarms(self):
        struct.pack_into("<I", self.memory, 0, 0)

    @property
    def count(self):
        return struct.unpack_from("<I", self.memory, 8)[0]


class Line:
    """A panel on its line, which is stopped again and again."""

    def __init__(self, kind, at, osdp, shim, folder, chance, longest):
        self.kind, self.chance, self.longest = kind, chance, longest
        self.name = f"{kind.name} {at}"
        self.terminal, self.device = Terminal(), Device(osdp)
        self.log, self.control = Path(folder) / f"log{at}", Control(Path(folder) / f"control{at}")
        self.log.touch()
        more = {"LD_PRELOAD": str(shim), "STOPS_CONTROL": str(Path(folder) / f"control{at}"), "STOPS_LOG": str(self.log)}
        self.script = Numbered(*kind.before, self.terminal.path, 9600, *kind.after, env={**os.environ, **more}, stderr=subprocess.DEVNULL)
        self.typed, self.cards, self.events = {}, 0, []  # when each order was typed; cards that were read; and when each was told, with its line
        self.stops, self.seen = [], 0  # of each stop: where it was, since when, until when
        self.stopped, self.armed, self.lag, self.looked = None, None, 0.0, moment()
        self.plans(moment() + 2000)

    # what is to come

    def plans(self, since):
        """Plans the next stop, and what is typed and read around it."""
        self.stop_at, self.lasts = since + self.chance.uniform(0, 800), self.chance.uniform(3000, self.longest)
        self.where = self.chance.choice(["outside", *CALLS, *(["osdp"] if self.kind.has_child and self.child() else [])])
        around = [self.stop_at + self.chance.uniform(-250, 30) for _ in range(self.chance.randrange(1, 4))]
        during = [self.stop_at + self.chance.uniform(0, self.lasts) for _ in range(self.chance.randrange(2))]
        self.orders = sorted(around + during)
        self.card_at = self.stop_at + self.chance.uniform(-250, self.lasts)

    def child(self):
        """The process of `osdp panel`; none where there is none."""
        pid = self.script.process.pid
        children = Path(f"/proc/{pid}/task/{pid}/children").read_text().split()
        return int(children[0]) if children else None

    def types(self, now):
        """Types the orders that are due, and reads a card."""
        while self.orders and self.orders[0] <= now:
            self.orders.pop(0)
            if self.kind.prefix:
                number = len(self.typed) + 1
                self.script.say(f"{self.kind.prefix}OUT 0:5:{number}")
                self.typed[f"OUT 0:5:{number}"] = moment()
        if self.card_at and self.card_at <= now:
            self.device.call(f"event RAW 0 0 26 {CARDS[self.cards % 2]}")
            self.card_at, self.cards = None, self.cards + 1

    # stops

    def begins(self, now):
        """The panel is stopped now, or before its next call of a kind."""
        self.stop_at = None
        if self.where in CALLS:
            self.armed = self.control.count, now + 1000
            self.control.arms(self.where, self.chance.randrange(6))
            return
        self.stopped = self.child() if self.where == "osdp" else self.script.process.pid
        os.kill(self.stopped, signal.SIGSTOP)
        self.stops.append([self.where, now, now + self.lasts])

    def looks(self, now):
        """Begins and ends stops as they are due."""
        if self.stop_at and self.stop_at <= now:
            self.begins(now)
        if self.armed and self.control.count != self.armed[0]:
            self.armed, self.stopped = None, self.script.process.pid
            self.stops.append([self.where, now, now + self.lasts])
        elif self.armed and self.armed[1] <= now:
            self.control.disarms()
            self.armed, self.stopped = None, None
            self.plans(now + 500)
        if self.stopped and self.stops[-1][2] <= now:
            os.kill(self.stopped, signal.SIGCONT)
            self.stopped, self.stops[-1][2] = None, moment()
            self.plans(now + self.chance.uniform(1500, 3000))

    def turn(self, is_busy):
        """What has come since the last look is answered, and what is due is done."""
        before, self.looked = self.looked, moment()
        self.lag = max(self.lag, self.looked - before)
        if select.select([self.terminal.end], [], [], 0)[0]:
            for burst in self.terminal.bursts():
                if self.chance.random() < LOSS:
                    continue
                now = moment()
                for answer in self.device.hears(burst, now, now - before):
                    if self.chance.random() >= LOSS:
                        os.write(self.terminal.end, answer)
        self.script.read()
        now = moment()
        for line in self.script.lines[self.seen:]:
            if line.startswith(("event", "maybe-again")):
                self.events.append((now, now - before, line))
        self.seen = len(self.script.lines)
        if is_busy or self.stopped or self.armed:
            self.looks(now)
        if is_busy:
            self.types(now)

    def ends(self):
        """The line ends. One that is stopped would stay so."""
        if self.script.process.poll() is None and self.kind.has_child and (child := self.child()):
            os.kill(child, signal.SIGKILL)
        for process in (self.script.process, self.device.process):
            process.kill()
            process.wait()
        self.terminal.close()

    # the verdict

    def writes(self):
        """Of each packet of an order: its text, the last moment before its write, and that of the write. That a program which speaks lines took the first one anew is asked of each packet."""
        for line in self.log.read_text().splitlines():
            taken, wrote, is_new, digits = line.split()
            asks(is_new == "1" or not self.kind.has_child, f"{self.name}: a packet goes out by the moment of before the tick")
            burst = bytes.fromhex(digits).lstrip(b"\xFF")
            if len(burst) > 9 and burst[5] == OUT:
                yield f"OUT {burst[6]}:{burst[7]}:{int.from_bytes(burst[8:10], 'little')}", int(taken), int(wrote)

    def last_moment(self, text, at):
        """The last moment of an order that went out at a moment, by when it was typed; and that of the strike, by the card that was offered last before. None where no order was given."""
        if self.kind.prefix:
            return self.typed[text] + LASTS if text in self.typed else None
        before = [offered for offered in self.device.offered if offered < at + 1]  # the panel's moments are whole milliseconds
        return before[-1] + LASTS if before and text == STRIKE else None

    def judge(self):
        """What of this line the count has."""
        count, writes = Counter(), list(self.writes())
        for text, taken, _ in writes:
            last = self.last_moment(text, taken)
            asks(last is not None, f"{self.name}: {text} goes out, which nobody has ordered")
            asks(self.kind.is_endless or last is None or not self.kind.has_child or taken <= last + 2, f"{self.name}: {text} goes out by a moment {taken - (last or 0):.0f} ms after its last one")
        for text, at, lag in self.device.acted:
            self.judge_act(text, at - lag, [each for each in writes if each[0] == text and each[2] <= at + 1], count)
        if self.kind.prefix and self.kind.name != "panel in C":
            self.judge_ends(count)
        self.judge_ages(count)
        count.update({"orders": len(self.typed), "acted on": len(self.device.acted), "cards": len(self.device.offered), "stops": len(self.stops)})
        count.update(f"stopped at {where}" for where, _, _ in self.stops)
        return count

    def judge_act(self, text, at, writes, count):
        """An order was acted on in time; or its panel was stopped between the last moment that it took and its write."""
        taken, wrote = writes[-1][1:] if writes else (at, at)
        last = self.last_moment(text, taken)
        late = at - (last if last is not None else at)
        if late <= W:
            count["latest"] = max(count["latest"], int(late))
            return
        if self.kind.is_endless:
            count["too late, as asked for"] += 1
            return
        where = {where for where, since, until in self.stops if since <= wrote + 1 and until >= taken - 1}
        if not where and W < wrote - taken < BUSY:
            count["apart, a busy computer"] += 1
            return
        # a program with a library may look at its clock once more before the write
        asks(where and not where & ({"clock", "wait"} if self.kind.has_child else {"wait"}), f"{self.name}: {text} is acted on {late:.0f} ms after its last moment, {wrote - taken} ms after the moment of its write; stopped at {where or 'no call'}")
        count["apart, stopped before the write"] += 1

    def judge_ends(self, count):
        """Each order that was taken has one end, as the device knows it."""
        ended, taken = {}, set()
        for line in self.script.lines:
            name, text = line.split(" ")[0], re.search(r"OUT 0:5:\d+", line)
            if text and name in ENDS:
                asks(text[0] not in ended, f"{self.name}: {text[0]} has two ends")
                ended[text[0]] = "withheld" if " withheld " in line else name
        for number, line in ((line.split()[1], line) for line in self.script.numbered if re.match(r"order \d+ waits", line)):
            asks(number not in taken, f"{self.name}: the number {number} is told of two orders")
            taken.add(number)
        asks(len(taken) == len(ended), f"{self.name}: {len(taken)} orders were taken, and {len(ended)} have an end")
        acts = Counter(text for text, _, _ in self.device.acted)
        for text, end in ended.items():
            could = {"settled": (1,), "expired": (0,), "withdrawn": (0,)}.get(end, (0, 1))
            asks(acts[text] in could, f"{self.name}: {text} {end} was acted on {acts[text]} times")
        count.update(ended.values())

    def judge_ages(self, count):
        """A card that `osdp-port` tells later than two seconds after it was offered is told to be old."""
        for at, lag, line in self.events if self.kind.name == "osdp-port" else ():
            offered = max((each for each in self.device.offered if each <= at), default=at) + lag
            age = AGE.search(line)
            if any(where == "pipe" and since <= at and until >= offered for where, since, until in self.stops):
                continue  # it may have been stopped as it printed that
            is_told = float(age[1]) * 1000 >= at - offered - 2 * W if age else at - offered < 2000 + 2 * W
            asks(is_told, f"{self.name}: a card of {at - offered:.0f} ms ago is told as {line}")
            count["old cards"] += bool(age)


def runs(lines, is_enough):
    """All lines go on until it is enough, and then until each order has its end."""
    end = None
    while end is None or moment() < end:
        select.select([line.terminal.end for line in lines], [], [], 0.002)
        for line in lines:
            line.turn(end is None)
        if (end is None and is_enough()) or (end and any(line.stopped for line in lines)):
            end = moment() + 6000


def main():
    parser = argparse.ArgumentParser()
    for name in ("osdp", "shim"):
        parser.add_argument(name)
    for name in ("--c", "--rust", "--python"):
        parser.add_argument(name)
    parser.add_argument("--orders", type=int)
    parser.add_argument("--seed", type=int, default=1)
    given = parser.parse_args()
    signal.signal(signal.SIGTERM, lambda *_: sys.exit("stopped panels: it was ended"))
    begun, chance, found = time.monotonic(), random.Random(given.seed), list(kinds(given.osdp, given))
    if given.python:
        os.environ["OSDP_LIBRARY"] = given.python
    with tempfile.TemporaryDirectory() as folder:
        each = 12 if given.orders else 6
        lines = [Line(kind, at * 100 + one, given.osdp, given.shim, folder, random.Random(chance.random()), 20000 if given.orders else 5000)
                 for at, kind in enumerate(found) for one in range(2 if kind.is_endless else each)]
        try:
            runs(lines, lambda: sum(len(line.typed) for line in lines) >= given.orders if given.orders else time.monotonic() > begun + 38)
        finally:
            for line in lines:
                line.ends()
        counts = {kind.name: Counter() for kind in found}
        for line in lines:
            told, of_kind = line.judge(), counts[line.kind.name]
            latest = max(told.pop("latest", 0), of_kind.pop("latest", 0))
            of_kind.update(told)
            of_kind["latest"] = latest  # the greatest, and no sum
        tells(found, counts, max(line.lag for line in lines), given.seed)
    print(f"stopped panels: {len(faults)} faults in {time.monotonic() - begun:.1f} s", *faults[:40], sep="\n")
    return 1 if faults else 0


def tells(found, counts, lag, seed):
    """What was tried, and that it was enough."""
    for kind in found:
        count = counts[kind.name]
        latest = count.pop("latest")
        print(f"{kind.name}, seed {seed}: {', '.join(f'{count[what]} {what}' for what in sorted(count))}; at the latest {latest} ms after its last moment")
        asks(count["acted on"] and count["stops"], f"{kind.name}: too little has happened: {dict(count)}")
        if kind.prefix and not kind.is_endless and kind.name != "panel in C":
            asks(count["expired"] and count["settled"], f"{kind.name}: too little has happened: {dict(count)}")
    endless = counts["osdp-port, never too old"]
    asks(endless["too late, as asked for"], f"orders that never grow too old aren't acted on late: {dict(endless)}")
    print(f"this test was late by {lag:.0f} ms at worst")


if __name__ == "__main__":
    sys.exit(main())
