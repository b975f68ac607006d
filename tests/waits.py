#!/usr/bin/env python3
"""`osdp-port panel` on a pseudo terminal with slow readers, which this test plays: how long orders and cards wait at worst, beside what `osdp plan` says.

    waits.py PROGRAM

Three readers answer 40 ms after each packet. Each has four orders that have no end yet, all the time, and a card that waits. An order's wait is from the line that orders
it to its packet, and a card's from the moment from which the reader has it to the panel's line. Each is judged by the figure for so many orders before it, of a card with
one at the most.

Something is due all the time, so from an answer to the next packet the panel is late: its worst of the run is the `late` of the figures, and this test's own lateness
is part of `answer`. SLACK is left for the pipes at both ends. A machine that does other things makes both late by MOST_LATE at the most: of five runs one has to be
so, and to stay below the figures. An order with others before it waits longer than the figure for one alone: so orders before it count. From the moment at which a reader
has a card to the POLL that it tells it by, one order comes to it in some case, and never two, though four wait."""
import math
import os
import select
import subprocess
import sys
import time

import port_line
from port_line import PORT
from terminals import Numbered, Terminal, packet

READERS, ANSWER, WAITING, SECONDS, SLACK, MOST_LATE = 3, 40, 4, 8.0, 50, 60
RATE, INTERVAL = 230400, 20
ID, POLL, OUT, ACK, KEYPAD, PDID = 0x61, 0x60, 0x68, 0x40, 0x53, 0x45
IDENTITY = bytes.fromhex("53494D010101000000010000")
program = sys.argv[1]


def planned(what, orders, run):
    """The milliseconds that `osdp plan` says for all readers that answer, and for a panel and readers that are as late as in this run."""
    words = (f"readers {READERS} rate {RATE} check sum longest 20 answer {ANSWER + math.ceil(1000 * run.answers_late)} late {math.ceil(1000 * run.late)} "
             f"reply-wait 400 poll-interval {INTERVAL} orders {orders}")
    told = subprocess.run([program, "plan", *words.split()], capture_output=True, text=True, check=True, timeout=60).stdout
    return next(int(line.split()[len(what.split())]) for line in told.splitlines() if line.startswith(what))


class Reader:
    """A reader at an address: it answers late, and tells a card at a POLL until the next command comes."""

    def __init__(self, address):
        self.address, self.number, self.last, self.cards, self.is_told = address, None, b"", [], False

    def answer(self, burst):
        number, code = burst[4] & 3, burst[5]
        if number != self.number or number == 0:
            self.number = number
            if self.is_told:
                self.is_told = self.cards.pop(0) is None
            reply, data = {ID: (PDID, IDENTITY)}.get(code, (ACK, b""))
            if code == POLL and self.cards:
                reply, data, self.is_told = KEYPAD, b"\0\1" + self.cards[0], True
            self.last = packet(self.address | 0x80, number, reply, data)
        return self.last


class Run:
    """A panel and its readers for so many seconds. The worst waits, by how many orders stood before."""

    def __init__(self):
        self.terminal = Terminal()
        words = f"check sum reply-wait 400 quiet-wait 60 capacity 16 poll-interval {INTERVAL}".split()
        addresses = ",".join(str(at) for at in range(READERS))
        self.panel = Numbered(PORT, "--plain", "--osdp", program, self.terminal.path, RATE, "panel", addresses, *words, stderr=subprocess.DEVNULL)
        self.readers = [Reader(at) for at in range(READERS)]
        self.answers = []                               # with their moments
        self.given = [[] for _ in self.readers]         # orders that haven't gone out: their number, their moment and how many were before them
        self.unsettled = [0] * READERS
        self.has_card = [None] * READERS                # since when, and how many orders were given before it
        self.passed, self.most_passed = [0] * READERS, 0  # how many orders came to the reader before the card was told
        self.orders, self.cards = {}, {}
        self.count, self.told, self.seen, self.is_open = 0, 0, 0, set()
        self.answers_late = self.late = 0.0             # how late this test was with an answer, and the panel with its next packet
        self.answered = None                            # when the last answer was written

    def hears(self):
        for burst in self.terminal.bursts():
            at, now = burst[1] & 0x7F, time.monotonic()
            if self.answered and self.is_busy():
                self.late = max(self.late, now - self.answered)
            self.answered = None
            reader = self.readers[at]
            if burst[5] == OUT and self.has_card[at] and not (reader.is_told and len(reader.cards) == 1):
                self.passed[at] += 1
                self.most_passed = max(self.most_passed, self.passed[at])
            if burst[5] == OUT and self.given[at] and int.from_bytes(burst[8:10], "little") == self.given[at][0][0]:
                _, moment, before = self.given[at].pop(0)
                self.orders[before] = max(self.orders.get(before, 0), now - moment)
            self.answers.append((now + ANSWER / 1000, self.readers[at].answer(burst)))

    def reads(self):
        self.panel.read()
        for line in self.panel.lines[self.seen:]:
            name, which, *_ = [*line.split(), "", ""]
            if name == "online":
                self.is_open.add(int(which))
            elif name == "settled":
                self.unsettled[int(which)] -= 1
            elif name in ("event", "maybe-again") and self.has_card[int(which)]:
                since, before = self.has_card[int(which)]
                before = min(before, 1)
                self.cards[before] = max(self.cards.get(before, 0), time.monotonic() - since)
                self.told += 1
                self.has_card[int(which)] = None
            elif name in ("lost", "not"):
                sys.exit(f"waits: {line}")
        self.seen = len(self.panel.lines)

    def is_busy(self):
        """Whether all sessions have been open for so long that something is always due."""
        return self.count > READERS * WAITING

    def orders_for(self, at):
        """Orders until four have no end."""
        while self.unsettled[at] < WAITING:
            self.count += 1
            self.given[at].append((self.count, time.monotonic(), len(self.given[at])))
            self.unsettled[at] += 1
            self.panel.say(f"{at} OUT 0:5:{self.count}")
            if self.has_card[at]:
                self.has_card[at][1] += 1

    def goes_on(self):
        """Orders, and a card where none waits, once all sessions are open."""
        for at in self.is_open if len(self.is_open) == READERS else ():
            self.orders_for(at)
            if self.has_card[at] is None:
                self.readers[at].cards.append(b"%d" % (self.count % 10))
                self.has_card[at], self.passed[at] = [time.monotonic(), len(self.given[at])], 0

    def go(self):
        end = time.monotonic() + SECONDS
        while time.monotonic() < end:
            wait = min([0.01, *(max(0.0, moment - time.monotonic()) for moment, _ in self.answers)])
            ready = select.select([self.terminal.end, self.panel.process.stdout.fileno()], [], [], wait)[0]
            if self.terminal.end in ready:
                self.hears()
            if len(ready) > 1 or self.terminal.end not in ready:
                self.reads()
            for moment, whole in [each for each in self.answers if each[0] <= time.monotonic()]:
                self.answers.remove((moment, whole))
                self.answered = time.monotonic()
                self.answers_late = max(self.answers_late, self.answered - moment)
                os.write(self.terminal.end, whole)
            self.goes_on()
        self.panel.process.kill()
        self.panel.process.wait()
        self.terminal.close()
        return self


def judged(run):
    """What was measured beside what is planned, and what lies above it and the slack."""
    rows = [(f"an order after {before} others", 1000 * took, planned("order", before, run)) for before, took in sorted(run.orders.items())]
    rows += [(f"a card with {before} orders before it", 1000 * took, planned("card", before, run)) for before, took in sorted(run.cards.items())]
    return rows, [what for what, took, bound in rows if took > bound + SLACK]


def tries():
    """Up to five runs. Whether one of them stays below."""
    for attempt in range(5):
        run = Run().go()
        lateness = max(run.late, run.answers_late)
        if run.count < 30 or run.told < 10 or lateness > MOST_LATE / 1000:
            print(f"waits: run {attempt + 1} had {run.count} orders and {run.told} cards, and something was late by {1000 * lateness:.0f} ms: the machine is too busy")
            continue
        if run.most_passed != 1:
            sys.exit(f"waits: {run.most_passed} orders came before a card, and not one at the most")
        rows, above = judged(run)
        print(f"waits: run {attempt + 1}: {run.count} orders, {run.told} cards; the panel was late by {1000 * run.late:.1f} ms at worst, and an answer by {1000 * run.answers_late:.1f} ms")
        for what, took, bound in rows:
            print(f"waits: {what}: {took:.0f} ms at worst, {bound} planned")
        alone = planned("order", 0, run)
        if 1000 * max(run.orders.values()) <= alone:
            above.append(f"no order waited longer than {alone} ms, so those before it were none")
        if not above:
            return True
        print(f"waits: more than {SLACK} ms above: {', '.join(above)}")
    return False


port_line.osdp = program
sys.exit(not tries())
