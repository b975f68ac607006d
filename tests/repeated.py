"""A maker's panel over a line that loses, damages and repeats bursts: no card makes a second order, and none is missing.

    repeated.py PANEL DEVICE CARDS SEED

PANEL and DEVICE are the small programs in Rattle, which are called by lines, in simulated time. In each direction 5% of all bursts are lost, the last byte of
5% is changed, and 5% come twice. After each fortieth card that was told the line is cut for a while, so that the device tells that card again. Two cards that
open the door are read in turn, the next one once the last was told. An order is an OUT that the panel sends and that isn't a repeat; it is of the event that was
told last. An event is marked where it is the first of its session and equals the one before it. A marked one makes no order, and each other one makes one before
the next event. A card that is told once more is what a panel that doesn't look at `maybe_again` makes a second order of: such cards must come, so that the run
can fail."""
import heapq
import random
import subprocess
import sys
import time
from collections import Counter

CARDS = ("12345640", "65432180")
OUT, ID = 0x68, 0x61
DELAY, BETWEEN = 10, 120  # milliseconds on the line; from a card that was told to the next one
CARDS_TO_CUT, CUT = 40, 700  # after how many cards the line is cut, and for how many milliseconds


class ByLines:
    """A program that is called by lines: its answer ends with a line of its own."""

    def __init__(self, program):
        self.process = subprocess.Popen([program], stdin=subprocess.PIPE, stdout=subprocess.PIPE, text=True)

    def call(self, line):
        """Hands it a line. The lines of its answer, and the last one, which ends it."""
        self.process.stdin.write(f"{line}\n")
        self.process.stdin.flush()
        answer = []
        for told in self.process.stdout:
            if told.startswith(("due", "done")):
                return answer, told.strip()
            answer.append(told.strip())
        raise SystemExit("repeated: a program has ended")

    def end(self):
        self.process.stdin.close()
        return self.process.wait()


class Line:
    """The line between a panel and a device, and what is counted there."""

    def __init__(self, panel, device, seed):
        self.panel, self.device = ByLines(panel), ByLines(device)
        self.chances = {way: random.Random(f"{seed} {way}") for way in ("out", "in")}
        self.coming, self.count, self.due, self.now = [], 0, 0, 0
        self.last, self.told, self.read, self.counts = b"", [], 0, Counter()
        self.events = []  # whether each event is marked, and how many orders it has made
        self.is_first = True  # whether no event of this session was told
        self.cut_until = 0

    def carry(self, way, burst):
        """What becomes of a burst: it comes once, twice, damaged or not at all."""
        chance = self.chances[way].random()
        what = "lost" if chance < 0.05 or self.now < self.cut_until else "damaged" if chance < 0.10 else "twice" if chance < 0.15 else "once"
        self.counts[what] += 1
        if what == "damaged":
            burst = burst[:-1] + bytes([burst[-1] ^ 0x5A])
        for at in range({"lost": 0, "twice": 2}.get(what, 1)):
            self.count += 1
            heapq.heappush(self.coming, (self.now + DELAY + at, self.count, way, burst))

    def reads_card(self):
        self.device.call(f"card {CARDS[self.read % 2]}")
        self.read += 1
        self.device.call(f"{self.now} none")

    def tells(self, line):
        """The panel has told something: a card, or that a session is opened or lost."""
        if line.startswith("report Event(Raw"):
            is_again = len(self.told) == self.read or self.told[-1:] == [line]
            self.events.append([self.is_first and self.told[-1:] == [line], 0])
            self.is_first = False
            self.counts["cards told again"] += is_again
            if not is_again:
                self.told.append(line)
                self.cut_until = self.now + CUT if len(self.told) % CARDS_TO_CUT == 0 else self.cut_until
        self.counts["sessions lost"] += line.startswith("report Lost")
        self.is_first = self.is_first or line.startswith("report Opened")

    def sends(self, burst):
        """A burst goes out: an OUT that isn't the last burst once more is an order for the event that was told last."""
        if burst[5] == OUT and burst != self.last:
            self.events[-1][1] += 1
        self.last = burst
        self.carry("out", burst)

    def panel_turn(self, data):
        answer, last = self.panel.call(f"{self.now} {data.hex().upper() or 'none'}")
        for line in sorted(answer, key=lambda each: each.startswith("send ")):  # what it decides on a report goes out later
            self.sends(bytes.fromhex(line[5:])) if line.startswith("send ") else self.tells(line)
        self.due = None if last == "due none" else int(last.split()[1])

    def device_turn(self, data):
        for line in self.device.call(f"{self.now} {data.hex().upper()}")[0]:
            if line.startswith("send "):
                self.carry("in", bytes.fromhex(line[5:]))
            else:
                self.counts[line.split()[0]] += 1

    def goes_on(self, cards):
        """Whether cards are still to be told, or the last event may still make an order."""
        return self.now < cards * 5000 and (len(self.told) < cards or (not self.events[-1][1] and not self.events[-1][0]))

    def run(self, cards):
        next_card = 500
        while self.goes_on(cards):
            moments = [each for each in (self.due, self.coming[0][0] if self.coming else None, next_card) if each is not None]
            self.now = max(self.now, min(moments))
            if next_card is not None and next_card <= self.now:
                self.reads_card()
                next_card = None
            way, data = None, b""
            if self.coming and self.coming[0][0] <= self.now:
                *_, way, data = heapq.heappop(self.coming)
            if way == "out":
                self.device_turn(data)
            else:
                self.panel_turn(data)
            if next_card is None and len(self.told) == self.read < cards:
                next_card = self.now + BETWEEN
        return self.panel.end() or self.device.end()


def main(panel, device, cards, seed):
    begun, line = time.monotonic(), Line(panel, device, seed)
    status, faults = line.run(int(cards)), []
    orders = sum(count for _, count in line.events)
    second, missing = (sum(count > (not is_marked) for is_marked, count in line.events), sum(not is_marked and not count for is_marked, count in line.events))
    for holds, what in ((status == 0, f"a program has ended with status {status}"), (len(line.told) == int(cards), f"{line.read - len(line.told)} cards are missing"),
                        (all(one != other for one, other in zip(line.told, line.told[1:])), "cards are told in another order"),
                        (not line.counts["withdrawn"] + line.counts["in"], "the device has let cards lapse"),
                        (not second, f"{second} cards have made a second order, or are marked and have made one"),
                        (not missing, f"{missing} cards aren't marked and have made no order"),
                        (line.counts["cards told again"] > 1, "no card was told again, so nothing was tried")):
        faults += [] if holds else [what]
    print(f"repeated: seed {seed}, {len(line.told)} cards told, {line.counts['cards told again']} of them again, {orders} orders, {line.counts['on']} unlocks, "
          f"{line.counts['sessions lost']} sessions lost; {len(faults)} faults in {time.monotonic() - begun:.1f} s", *faults, sep="\n")
    return 1 if faults else 0


if __name__ == "__main__":
    sys.exit(main(*sys.argv[1:]))
