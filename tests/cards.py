#!/usr/bin/env python3
"""Orders as fast as they go, and the cards of the same readers: `osdp panel` and `osdp reader`, joined by lines, over a clock of the test's own.

    cards.py PROGRAM

Each reader has as many orders as its panel takes, all the time, and a card now and then. Each card is reported within its bound, which is worked out here from the manual
of `osdp plan`. With an order less some card takes longer: so the run can fail. Orders are settled in the order in which they were given, each once."""
import re
import subprocess
import sys

READ_IN = 7  # from a packet that is handed out to its answer, in milliseconds
POLL, LATE = 50, 0
RUNS = ((1, 60), (3, 30), (16, 6))  # how many readers, and for how many seconds of that clock
TOLD = re.compile(r"(?:order (?P<number>\d+) )?(?P<name>[a-z-]+)(?: (?P<which>\S+))?(?: since (?P<since>\d+))?(?: (?P<text>.*))?")
faults = []


class Lines:
    """A program that answers lines by lines."""

    def __init__(self, *words):
        self.process = subprocess.Popen([sys.argv[1], *words], stdin=subprocess.PIPE, stdout=subprocess.PIPE, text=True, bufsize=1)

    def call(self, line):
        self.process.stdin.write(line + "\n")
        self.process.stdin.flush()
        answer = []
        while not answer or not answer[-1].startswith(("due ", "waiting ")):
            text = self.process.stdout.readline()
            if not text:
                sys.exit(f"cards: the program has ended after {line}")
            answer.append(text.rstrip("\n"))
        return answer

    def end(self):
        self.process.stdin.close()
        self.process.stdout.read()
        self.process.wait()


class Run:
    """A line of so many readers. Moments are the test's own."""

    def __init__(self, readers, seconds):
        self.seconds = seconds
        self.panel = Lines("panel", "capacity", "4")
        self.readers = [Lines("reader", "address", str(at), "vendor", "53494D", "model", "1") for at in range(readers)]
        for reader in self.readers:
            reader.call("outputs 00")
        self.now, self.due, self.answers = 0, 0, []
        self.given = [[] for _ in range(readers)]       # orders that have no end yet
        self.cards = [[] for _ in range(readers)]       # of each card that isn't reported: its text, its moment, and how many were before it
        self.settled, self.reported, self.worst = 0, 0, {}
        self.is_open = [False] * readers
        self.count = 0
        for at in range(readers):
            self.does(f"add {at} 1")
        for at in range(readers):
            self.does(f"begin {at + 1}")

    def bound(self, before, less=0):
        """A card with so many before it, and an order before each of their POLLs and before its own at the most."""
        every = POLL + LATE + len(self.readers) * (READ_IN + LATE)
        return (2 * before + 2 - less) * every + READ_IN

    def does(self, line):
        *answer, last = self.panel.call(line)
        self.due = None if last == "due none" else int(last.split()[1])
        for told in answer:
            found = TOLD.fullmatch(told)
            self.heed(*(found[each] for each in ("number", "name", "which", "since", "text")))
        return answer

    def heed(self, number, name, which, since, text):
        if name == "send":
            self.sends(which)
        elif name == "opened":
            self.is_open[int(which) - 1] = True
        elif name == "settled":
            at = int(which) - 1
            first = self.given[at].pop(0)
            if (number, text) != (first[0], f"{first[1]} = ACK"):
                faults.append(f"{number} {text} is settled where {first} comes first")
            self.settled += 1
        elif name == "event":
            at = int(which) - 1
            card, moment, before = self.cards[at].pop(0)
            if text != card or not moment <= int(since) <= self.now:
                faults.append(f"{text} since {since} is reported at {self.now} where {card} of {moment} comes first")
            took = self.now - moment
            self.reported += 1
            self.worst[before] = max(self.worst.get(before, 0), took)
            if took > self.bound(before):
                faults.append(f"a card with {before} before it took {took} ms of {self.bound(before)}")
        elif name in ("lost", "refused") and which != "C3":
            faults.append(f"{name} {which} {text}")

    def sends(self, digits):
        """A packet goes to all readers, and the answer of one comes back."""
        for reader in self.readers:
            reader.call(f"at {self.now}")
            for told in reader.call(f"bytes {digits}"):
                if told.startswith("send "):
                    self.answers.append((self.now + READ_IN, told.split()[1]))

    def orders(self):
        """As many orders as the panel takes."""
        for at in range(len(self.readers)):
            while self.is_open[at]:
                self.count += 1
                order = f"OUT 0:5:{self.count % 60000 + 1}"
                told = self.does(f"submit {at + 1} never {order}")
                if "refused C3" in told:
                    break
                self.given[at].append((told[0].split()[1], order))

    def card(self, at):
        self.count += 1
        card = f"KEYPAD 0 {self.count % 256:02X}"
        self.readers[at].call(f"event {card}")
        self.cards[at].append((card, self.now, len(self.cards[at])))

    def go(self):
        """From moment to moment, for so many seconds."""
        cards_at = 1000
        while self.now < self.seconds * 1000:
            moments = [cards_at, *(moment for moment, _ in self.answers), *([self.due] if self.due is not None else [])]
            self.now = max(self.now, min(moments))
            self.does(f"at {self.now}")
            for moment, digits in [one for one in self.answers if one[0] <= self.now]:
                self.answers.remove((moment, digits))
                self.does(f"bytes {digits}")
            if cards_at <= self.now:
                # one card, or three at once, at each of the readers in turn
                for _ in range(3 if cards_at % 5 == 0 else 1):
                    self.card(cards_at // 7 % len(self.readers))
                cards_at += 997
            self.orders()
            if self.due is not None and self.due <= self.now and "burst" in self.does("tick"):
                self.does("write")
        for program in (self.panel, *self.readers):
            program.end()
        return self


for count, seconds in RUNS:
    run = Run(count, seconds).go()
    # cards that came too late to be told before the end
    left = sum(since + run.bound(before) > seconds * 1000 for cards in run.cards for _, since, before in cards)
    if not run.reported or not run.settled or sum(map(len, run.cards)) > left:
        faults.append(f"{count} readers: {run.reported} cards reported, {sum(map(len, run.cards))} not")
    at_worst = ", ".join(f"{took} of {run.bound(before)} ms with {before} before it" for before, took in sorted(run.worst.items()))
    print(f"cards: {count} readers, {run.settled} orders, {run.reported} cards, at worst {at_worst}")
    if all(took <= run.bound(before, 1) for before, took in run.worst.items()):
        faults.append(f"{count} readers: each card is reported within a bound with an order less, so nothing was tried")
for fault in faults[:20]:
    print(f"cards: {fault}")
sys.exit(bool(faults))
