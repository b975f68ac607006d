"""The steps that a panel's and two devices' programs see, on random lines, held against the ledger of one entry.

    ledger.py PROGRAM

The machines are `osdp panel` and `osdp reader`, by lines, in simulated time. This script is the line: in each direction bursts are lost, damaged, come twice and
are held back, and keep their order; in each third run it is cut for nine seconds, first for answers alone, so that old events leave their devices, taken back or in doubt. It orders,
withdraws, queues events, makes readers busy, and takes the power of either end, at random. The ledger below is written from the table of its steps alone: each step that is read off the lines must be allowed where it happens. Then the same runs are made with one premise
left out, and a step that isn't allowed must come: so the premises say something, and the check can fail."""
import heapq
import random
import subprocess
import sys
from collections import Counter, deque
from pathlib import Path

PROGRAM = str(Path(sys.argv[1]).resolve())
RUNS, RUNS_TO_BREAK, SPAN = 120, 60, 9_000  # runs with all premises; at most with one left out; milliseconds of each
CUT, EXPIRE = (3_000, 12_500), 300  # from when to when the line is cut, so that devices are offline; how old their events become then
DEAF = 700  # for how long of that devices still hear
QUIET, HELD = 400, 150  # how long a panel waits before an opening; how long the line holds a burst back: twice that is less
ID, POLL, NAK, BUSY, EVENTS = 0x61, 0x60, 0x41, 0x79, (0x50, 0x51, 0x53)
ORDERS = ("OUT 0:2:0", "OUT 0:5:30", "OUT 9:2:0", "BUZ 0 2 1 1 1", "LSTAT", "OSTAT")
CARDS = ("KEYPAD 0 31", "KEYPAD 0 32", "RAW 0 0 26 12345640")
ADDRESSES = (5, 6)


class Broken(Exception):
    """A step that isn't allowed where it happened."""


class Ledger:
    """What the programs of one entry and its device have seen: places tell two equal orders or cards apart."""

    def __init__(self):
        self.submitted = self.queued = 0
        self.ahead, self.cards = [], []  # (place, text), the oldest first
        self.is_open, self.acted, self.in_doubt = False, None, None
        self.offered, self.is_reported = None, False
        self.shown = 0  # the place before which all cards stand that were ever offered

    def ask(self, holds, step):
        if not holds:
            raise Broken(f"{step}, where {vars(self)}")

    def submit(self, text):
        self.ahead.append((self.submitted, text))
        self.submitted += 1

    def withdraw(self, text):
        self.ask(self.acted is None and self.ahead and self.ahead[0][1] == text, f"withdraw {text}")
        self.ahead.pop(0)

    def open(self):
        self.ask(not self.is_open, "open")
        self.is_open, self.acted, self.in_doubt, self.offered = True, None, None, None

    def act(self, text, answer):
        if self.is_open:
            free = self.acted is None and (self.offered is None or self.is_reported)
            self.ask(free and self.ahead and self.ahead[0][1] == text, f"act {text}")
            self.acted = answer
        else:
            self.ask(self.in_doubt is not None and self.in_doubt[1] == text, f"act {text}")
            self.in_doubt = None

    def settle(self, text, answer):
        self.ask(self.is_open and self.ahead and self.ahead[0][1] == text and self.acted == answer, f"settle {text} = {answer}")
        self.ahead.pop(0)
        self.acted = None

    def doubt(self, text):
        self.ask(self.is_open and self.ahead and self.ahead[0][1] == text, f"doubt {text}")
        order = self.ahead.pop(0)
        self.in_doubt = order if self.acted is None else None
        self.is_open, self.acted = False, None

    def close(self):
        self.ask(self.is_open and self.acted is None, "close")
        self.is_open = False

    def queue(self, text):
        self.cards.append((self.queued, text))
        self.queued += 1

    def offer(self, text):
        free = self.acted is None and (self.offered is None or self.is_reported)
        self.ask(free and self.cards and self.cards[0][1] == text and self.offered != self.cards[0], f"offer {text}")
        self.offered, self.is_reported = self.cards[0], False
        self.shown = self.offered[0] + 1

    def report(self, text):
        holds = self.is_open and self.offered is not None and not self.is_reported and self.offered[1] == text
        self.ask(holds, f"report {text}")
        self.is_reported = True

    def leave(self):
        self.ask(self.cards and self.offered == self.cards[0] and self.is_reported, "leave")
        self.cards.pop(0)

    def withdraw_event(self, text):
        never = [card for card in self.cards if card[0] >= self.shown]
        self.ask(never and never[0][1] == text, f"withdraw event {text}")
        self.cards.remove(never[0])

    def lapse(self, text):
        self.ask(self.cards and self.cards[0][1] == text and self.cards[0][0] < self.shown, f"lapse {text}")
        self.cards.pop(0)

    def restart_device(self):
        self.cards = []

    def restart_panel(self, on_wire):
        self.ask((self.is_open and self.ahead) if on_wire else self.acted is None, f"restart of the panel, with an order on the wire: {on_wire}")
        if self.is_open:
            self.in_doubt = self.ahead[0] if on_wire and self.acted is None else None
        self.ahead, self.is_open, self.acted = [], False, None


class Machine:
    """One of the programs, by lines."""

    def __init__(self, *words):
        self.process = subprocess.Popen([PROGRAM, *words], stdin=subprocess.PIPE, stdout=subprocess.PIPE, text=True)

    def call(self, now, line):
        """The lines of its answer to this line at a moment, and what stands in the last one."""
        self.process.stdin.write(f"at {now}\n{line}\n")
        self.process.stdin.flush()
        found = []
        for ends in (False, True):
            for told in self.process.stdout:
                word, _, rest = told.rstrip("\n").partition(" ")
                if word in ("due", "waiting"):
                    break
                found.append((word, rest))
        return found, rest

    def end(self):
        self.process.stdin.close()
        self.process.wait()
        self.process.stdout.close()


CODES = {"ACK": 0x40, "NAK": 0x41, "LSTATR": 0x48, "OSTATR": 0x4A}


def reply_of(text):
    """The code and data of an answer, by its text. Of one that no order of these has, as COM, its text: no device acted with that."""
    name, *fields = text.split(" ")
    if name not in CODES:
        return text.encode()
    data = bytes(map(int, fields)) if name != "OSTATR" else bytes.fromhex(fields[0])
    return bytes([CODES[name]]) + data


class Line:
    """A panel, two devices, and the line between them, for one run."""

    def __init__(self, seed, held=HELD, keeps_order=True, addresses=ADDRESSES):
        self.cut, self.span = (CUT, SPAN + CUT[1] - CUT[0]) if seed % 3 == 0 else ((SPAN, SPAN), SPAN)
        self.chance, self.held, self.keeps_order, self.addresses = random.Random(seed), held, keeps_order, addresses
        self.now, self.count, self.coming, self.arrived, self.due = 0, 0, [], Counter(), None
        self.ledgers, self.steps = [Ledger() for _ in ADDRESSES], Counter()
        self.last, self.waiting, self.begins = [None, None], [0, 0], {}
        self.on_wire, self.opens = [False, False], [False, False]
        self.next, self.numbers = [seed % 7, 0], [deque(), deque()]  # of each entry: the number of the next order, and those of the orders that have no end yet
        self.devices = [self.device(i) for i in range(2)]
        self.panel = None
        self.new_panel()

    def device(self, i):
        made = Machine("reader", "address", str(self.addresses[i]), "expire", str(EXPIRE))
        made.call(self.now, "outputs 00")
        return made

    def new_panel(self):
        self.panel = Machine("panel", "check", "sum", "quiet-wait", str(QUIET), "sends", "2")
        self.numbers = [deque(), deque()]
        for i, address in enumerate(ADDRESSES):
            self.asks(f"add {address} {self.next[i]}")
        self.begins = {i: self.now for i in range(2)}

    def step(self, i, name, *what):
        self.steps[name] += 1
        getattr(self.ledgers[i], name)(*what)

    def send(self, way, burst):
        """What becomes of a burst: it is lost, its check is damaged, it comes twice, or once; each time after a while, and in its order."""
        fate = self.chance.random()
        is_cut = self.cut[0] + (DEAF if way == "out" else 0) <= self.now < self.cut[1]
        if fate < 0.08 or is_cut:
            return
        burst = burst[:-1] + bytes([burst[-1] ^ 0x55]) if fate < 0.14 else burst
        for _ in range(2 if fate > 0.94 else 1):
            wait = self.chance.randrange(1, self.held) if self.chance.random() < 0.2 else self.chance.randrange(1, 8)
            at = self.now + wait
            if self.keeps_order:
                at = self.arrived[way] = max(at, self.arrived[way] + 1)
            self.count += 1
            heapq.heappush(self.coming, (at, self.count, way, burst))

    def asks(self, line):
        """The panel is called, and what it says is noted."""
        told, due = self.panel.call(self.now, line)
        self.due = None if due == "none" else int(due)
        for word, rest in told:
            number = None
            if word == "order":
                number, word, rest = rest.split(" ", 2)
            entry, _, text = rest.partition(" ")
            if word == "send":
                self.sent(bytes.fromhex(rest))
            elif word == "waits":
                self.accepted(int(entry) - 1, int(number))
            elif word not in ("refused", "passed", "burst"):
                if number is not None:
                    self.ended(int(entry) - 1, int(number))
                self.reported(word, int(entry) - 1, text)
        if ("burst", "") in told:
            self.asks("write")
        return all(word != "refused" for word, _ in told)

    def accepted(self, i, number):
        """The numbers of an entry's orders count up, over restarts too."""
        if number != self.next[i]:
            raise Broken(f"an order has number {number}, and not {self.next[i]}")
        self.next[i] += 1
        self.numbers[i].append(number)

    def ended(self, i, number):
        """An order's end is told with its number, and the orders of an entry end in their turn."""
        if not self.numbers[i] or self.numbers[i].popleft() != number:
            raise Broken(f"an order ends with number {number}, which isn't that of the one in front")

    def sent(self, burst):
        i = ADDRESSES.index(burst[1])
        if burst[5] == ID and not self.opens[i]:
            self.opens[i] = True
            self.step(i, "open")
        elif burst[5] not in (ID, POLL):
            self.on_wire[i] = True
        self.send("out", burst)

    def reported(self, word, i, text):
        if word == "settled":
            order, _, answer = text.partition(" = ")
            self.on_wire[i] = False
            self.step(i, "settle", order, reply_of(answer))
        elif word in ("event", "maybe-again"):
            _, since, event = text.split(" ", 2)
            if int(since) > self.now:
                raise Broken(f"an event was offered since {since}, at {self.now}")
            self.step(i, "report", event)
        elif word in ("withdrawn", "expired"):
            self.step(i, "withdraw", text)
        elif word == "lost":
            order = text.partition(" ")[2].removeprefix("withheld").strip()
            self.on_wire[i] = self.opens[i] = False
            self.step(i, "doubt", order) if order else self.step(i, "close")
            self.begins[i] = self.now + self.chance.randrange(1, 1500)
        elif word not in ("opened", "answered"):
            raise Broken(f"the panel says {word} {text}")

    def tells(self, i, line):
        """A device is called, and the events that were too old are noted: what else it says, and how many events wait."""
        told, waiting = self.devices[i].call(self.now, line)
        for word, rest in told:
            if word == "withdrawn":
                self.step(i, "withdraw_event", rest)
            elif word == "in":
                self.step(i, "lapse", rest.partition(" ")[2])
        others = [it for it in told if it[0] not in ("withdrawn", "in")]
        self.waiting[i] -= len(told) - len(others)
        return others, int(waiting)

    def hears(self, i, burst):
        """A device is given a burst, and what it says is noted."""
        told, waiting = self.tells(i, f"bytes {burst.hex().upper()}")
        asked, answer = burst[5] if burst[1] == self.addresses[i] else None, None
        if waiting < self.waiting[i]:
            self.step(i, "leave")
        self.waiting[i] = waiting
        for word, rest in told:
            if word == "send":
                answer = bytes.fromhex(rest)
            elif word == "taken":
                self.step(i, "act", rest, answer[5:-1])
        if answer is None:
            return
        if asked == POLL and answer[5] in EVENTS and answer[4] != self.last[i]:
            self.step(i, "offer", self.ledgers[i].cards[0][1] if self.ledgers[i].cards else "nothing")
        if answer[5] != BUSY:
            self.last[i] = answer[4]
        self.send("in", answer)

    def does(self):
        """One thing that the programs do, or that befalls them."""
        i, what = self.chance.randrange(2), self.chance.random()
        if what < 0.45:
            text = self.chance.choice(ORDERS)
            until = "never" if self.chance.random() < 0.7 else self.now + self.chance.randrange(2000)
            if self.asks(f"submit {i + 1} {until} {text}"):
                self.step(i, "submit", text)
        elif what < 0.82:
            text = self.chance.choice(CARDS)
            told, waiting = self.tells(i, f"event {text}")
            if not told:
                self.waiting[i] = waiting
                self.step(i, "queue", text)
        elif what < 0.90:
            self.asks(f"withdraw {i + 1}")
        elif what < 0.96:
            self.tells(i, f"busy {self.chance.choice(('on', 'off', 'off'))}")
        elif what < 0.98:
            self.devices[i].end()
            self.devices[i], self.last[i], self.waiting[i] = self.device(i), None, 0
            self.step(i, "restart_device")
        else:
            self.panel.end()
            for j in range(2):
                self.step(j, "restart_panel", self.on_wire[j])
            self.on_wire, self.opens = [False, False], [False, False]
            self.new_panel()

    def run(self):
        """Runs for a while. At each moment bursts come first, then what the programs do, then what is due."""
        does = 0
        while self.now < self.span:
            moments = [does, *self.begins.values(), *([] if self.due is None else [self.due]), *(it[0] for it in self.coming[:1])]
            self.now = max(self.now, min(moments))
            while self.coming and self.coming[0][0] <= self.now:
                _, _, way, burst = heapq.heappop(self.coming)
                if way == "in":
                    self.asks(f"bytes {burst.hex().upper()}")
                else:
                    for i in range(2):
                        self.hears(i, burst)
            for i in [i for i, at in self.begins.items() if at <= self.now]:
                del self.begins[i]
                self.asks(f"begin {i + 1}")
            if does <= self.now:
                self.does()
                does = self.now + self.chance.randrange(1, 1200 if self.cut[0] <= self.now < self.cut[1] else 120)
            while self.due is not None and self.due <= self.now:
                self.asks("tick")

    def end(self):
        for machine in (self.panel, *self.devices):
            machine.end()


def first_broken(runs, **premises):
    """The first run with a step that isn't allowed, and why; and the steps of all."""
    steps = Counter()
    for seed in range(runs):
        line = Line(seed, **premises)
        try:
            line.run()
        except Broken as why:
            return (seed, str(why)), steps
        finally:
            line.end()
            steps += line.steps
    return None, steps


def main():
    broken, steps = first_broken(RUNS)
    print(f"ledger: {RUNS} runs, {sum(steps.values())} steps: " + ", ".join(f"{name} {count}" for name, count in sorted(steps.items())))
    failed = 0
    if broken:
        failed += 1
        print(f"ledger: run {broken[0]}: {broken[1]}")
    wanted = [it for it in vars(Ledger) if not it.startswith("_") and it != "ask"]
    if missing := [it for it in wanted if not steps[it]]:
        failed += 1
        print(f"ledger: no step {', '.join(missing)} was seen")
    for name, premise in (("the line isn't quiet", {"held": 3 * QUIET}), ("bursts overtake each other", {"keeps_order": False}), ("two devices share an address", {"addresses": (5, 5)})):
        found, _ = first_broken(RUNS_TO_BREAK, **premise)
        print(f"ledger: {name}: " + (f"broken in run {found[0]}: {found[1].partition(', where')[0]}" if found else f"not broken in {RUNS_TO_BREAK} runs"))
        failed += not found
    return 1 if failed else 0


sys.exit(main())
