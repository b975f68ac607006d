"""A panel and three readers on one line that loses, damages and repeats bursts.

Takes the path of the program, a seed, if not 1, and the folder of the examples in C, where those are to run. The relay opens every
terminal itself and keeps it open. It cuts
bursts by their length field and keeps their order; each of the panel's goes to all readers. In each direction 5 % of all bursts are
lost, the last byte of 5 % is changed, and 5 % come twice: a seeded generator decides, burst by burst. From the 50th order on each
reader is silent once for two seconds: its orders are taken back, and new ones refused. Moments make runs differ, and what is asked of them holds for all.

Before that each example is tried alone, on a line without losses: what the reader's outputs are after each control of OUT, and that a port which hangs
up, or has no such rate, ends a program with a message and status 3.
"""
import os
import random
import re
import select
import subprocess
import sys
import time
from collections import Counter, deque
from pathlib import Path

from terminals import Numbered, Script, Terminal, commands, packet

TOP = Path(__file__).resolve().parent.parent
ADDRESSES = (5, 6, 7)
ORDERS = EVENTS = 200
SILENCE = 2.0
WITHIN = 250.0  # seconds after which it hangs: a busy machine loses sessions
TIMES = "check crc reply-wait 100 poll-interval 10 busy-wait 20 quiet-wait 150 gap 15 capacity 256"

# OUTs, each record as output, control and time, and which outputs are on after each, by the table of controls in docs/PROTOCOL.md. The times are a minute,
# which isn't over here, or none; that of the last OUT is 100 ms, and is waited for.
CONTROLS = (
    ([(0, 6, 600), (1, 5, 600), (2, 4, 0), (3, 2, 0), (3, 6, 600)], (0, 1, 1, 0)),
    ([(0, 4, 0), (1, 3, 0), (2, 6, 600), (3, 6, 0)], (0, 1, 0, 1)),
    ([(0, 2, 0), (1, 0, 0), (2, 0, 0), (3, 1, 0)], (1, 1, 0, 0)),
    ([(0, 3, 0), (1, 5, 1), (2, 1, 0), (3, 4, 0)], (0, 0, 0, 1)),
)

faults = []
counts = Counter()


class Relay:
    """Hands bursts on, or not."""

    def __init__(self, seed):
        self.panel = Terminal()
        self.readers = [Terminal() for _ in ADDRESSES]
        self.decides = {way: random.Random(f"{seed} {way}") for way in ("out", "back")}
        self.silent = {}  # until when a reader is silent

    def sources(self):
        return [self.panel.end] + [reader.end for reader in self.readers]

    def is_silent(self, reader):
        return self.silent.get(reader, 0) > time.monotonic()

    def on_the_way(self, way, burst):
        """What becomes of a burst: none, one or two."""
        chance = self.decides[way].random()
        counts[f"{way}"] += 1
        if chance < 0.05:
            counts[f"{way} lost"] += 1
            return []
        if chance < 0.10:
            counts[f"{way} changed"] += 1
            return [burst[:-1] + bytes([burst[-1] ^ 0x5A])]
        if chance < 0.15:
            counts[f"{way} twice"] += 1
            return [burst, burst]
        return [burst]

    def pass_on(self, ready):
        if self.panel.end in ready:
            for burst in self.panel.bursts():
                for each in self.on_the_way("out", burst):
                    for number, reader in enumerate(self.readers):
                        if not self.is_silent(number):
                            os.write(reader.end, each)
        for number, reader in enumerate(self.readers):
            if reader.end in ready:
                for burst in reader.bursts():
                    for each in self.on_the_way("back", burst):
                        if not self.is_silent(number):
                            os.write(self.panel.end, each)


class Account:
    """What became of one reader's orders and events, read from what both ends have written."""

    def __init__(self, number, panel, reader):
        self.issued, self.settled, self.unsettled, self.withdrawn, self.sessions, self.lost, self.closed = [], [], [], [], [[]], 0, 0
        for line in panel:
            name, which, *words = line.removeprefix("not ").split()
            if which != str(number) or name == "waits":
                continue
            text = " ".join(words)
            if name == "ordered":
                self.issued.append(text)
            elif name == "taken":
                self.issued.remove(text)
                self.closed += 1
            elif name in ("withdrawn", "expired"):  # neither goes out
                self.withdrawn.append(text)
            elif name == "opened":
                self.sessions.append([])
            elif name == "settled":
                self.settled.append(text.split(" = ")[0])
            elif name in ("event", "maybe-again"):
                self.sessions[-1].append(re.sub(r"^since \d+ ", "", text))
            elif name == "lost":
                self.lost += 1
                unsettled = words[2:] if words[1:2] == ["withheld"] else words[1:]
                self.unsettled += [" ".join(unsettled)] if unsettled else []
            else:
                faults.append(f"reader {number}: the panel says {line}")
        self.taken = [line[6:] for line in reader if line.startswith("taken OUT")]
        self.queued = [line[6:] for line in reader if line.startswith("event ")]

    def reported(self):
        """The events, without the first of a session where it is the last one reported before."""
        told = []
        for events in self.sessions:
            told += events[1:] if events and told and events[0] == told[-1] else events
        return told

    def is_over(self):
        return len(self.settled) + len(self.unsettled) + len(self.withdrawn) >= len(self.issued) and len(self.reported()) >= len(self.queued)

    def judge(self, number):
        def asks(holds, what):
            if not holds:
                faults.append(f"reader {number}: {what}")

        taken = Counter(self.taken)
        asks(self.reported() == self.queued, "the events reported are not those queued, in order, each once")
        asks(all(count == 1 for count in taken.values()), "an order was taken twice")
        asks(self.taken == [order for order in self.issued if order in taken], "orders were not taken in the order issued")
        told = Counter(self.settled) + Counter(self.unsettled) + Counter(self.withdrawn)
        asks(all(told[order] == 1 for order in self.issued), "an order was not told settled, unsettled or withdrawn, once")
        asks(len(told) == len(self.issued), "an order was told that was not issued")
        asks(all(taken[order] == 1 for order in self.settled), "an order was settled and not taken once")
        asks(all(taken[order] <= 1 for order in self.unsettled), "an unsettled order was taken twice")
        asks(all(taken[order] == 0 for order in self.withdrawn), "a withdrawn order was taken")


def started(*words):
    """An example that is tried alone."""
    pipes = {"stdin": subprocess.PIPE, "stdout": subprocess.DEVNULL, "stderr": subprocess.PIPE}
    return subprocess.Popen([str(word) for word in words], **pipes)


def judge_end(name, process, wanted):
    """The program ends by itself, with this message and status 3."""
    try:
        status = process.wait(timeout=60)
    except subprocess.TimeoutExpired:
        process.kill()
        status = None
    said = process.stderr.read().decode()
    if status != 3 or said != f"{wanted}\n":
        faults.append(f"{name}: status {status}, and it says {said!r}, not {wanted!r}")


def controls():
    """Codes and data of commands, and of the replies to them: an OUT, and after it what OSTAT tells."""
    for records, states in CONTROLS:
        data = b"".join(bytes([output, control]) + timer.to_bytes(2, "little") for output, control, timer in records)
        yield (0x68, data), (0x40, b"")
        yield (0x66, b""), (0x4A, bytes(states) + bytes(4))


def judge_outputs(terminal):
    """The reader's outputs are as the controls of OUT have them."""
    os.write(terminal.end, packet(5, 0, 0x61, b"\0"))
    terminal.next_burst()
    for order, (command, reply) in enumerate(controls()):
        if order == 2 * len(CONTROLS) - 1:
            time.sleep(0.3)
        os.write(terminal.end, packet(5, order % 3 + 1, *command))
        burst = terminal.next_burst()
        if burst != packet(0x85, order % 3 + 1, *reply):
            faults.append(f"outputs: command {order + 1} is answered {burst.hex()}")


def judge_port(name, words, rest, speak):
    """An example alone, on a port that has no such rate, and on one that hangs up after something was said."""
    terminal = Terminal()
    judge_end(f"{name}: no such rate", started(*words, terminal.path, 12345, *rest), "the port has no such rate")
    process = started(*words, terminal.path, 9600, *rest)
    speak(terminal)
    os.close(terminal.end)
    judge_end(f"{name}: the port hangs up", process, "the port can't be read")


def judge_alone(osdp, built):
    (panel, panel_program), (reader, reader_program) = commands(TOP, osdp, built)
    judge_port("panel", panel, ["5", *panel_program, "quiet-wait", 50], Terminal.next_burst)
    judge_port("reader", reader, [*reader_program, "address", 5], judge_outputs)


def plan():
    """Orders and events, reader by reader in turn: each has a number of its own."""
    for number in range(1, ORDERS + 1):
        reader = number % len(ADDRESSES)
        yield "order", reader, f"{reader + 1} OUT 0:2:{number}"
        yield "event", (reader + 1) % len(ADDRESSES), f"event KEYPAD 0 {f'{number:03}'.encode().hex().upper()}"


def accounts(panel, readers):
    return [Account(number, panel.lines, reader.lines) for number, reader in enumerate(readers, 1)]


def run(relay, panel, readers, begun):
    """Hands out the plan once each session has opened, a step every 50 ms, and goes on until everything is told."""
    steps, orders, silences, due = deque(plan()), 0, deque(range(len(ADDRESSES))), None
    while True:
        scripts = {script.process.stdout.fileno(): script for script in [panel] + readers}
        ready = select.select(relay.sources() + list(scripts), [], [], 0.01)[0]
        relay.pass_on(ready)
        for source in set(ready) & scripts.keys():
            scripts[source].read()
        now = time.monotonic()
        if any(script.process.poll() is not None for script in [panel] + readers):
            faults.append("a program has ended")
            return
        if due is None and len({line.split()[1] for line in panel.lines if line.startswith("opened ")}) == len(ADDRESSES):
            due = now
        while steps and due is not None and due <= now:
            for kind, reader, line in (steps.popleft(), steps.popleft()):
                orders += kind == "order"
                (panel if kind == "order" else readers[reader]).say(line)
            due += 0.05
        if silences and orders >= 50 and not any(relay.is_silent(reader) for reader in range(len(ADDRESSES))):
            relay.silent[silences.popleft()] = now + SILENCE
        over = not steps and not silences and all(account.is_over() for account in accounts(panel, readers))
        if over or now > begun + WITHIN:
            return


def main(osdp, seed="1", built=None):
    judge_alone(osdp, built)
    begun = time.monotonic()
    relay = Relay(seed)
    (panel_example, panel_program), (reader_example, reader_program) = commands(TOP, osdp, built)
    readers = [
        Script(*reader_example, terminal.path, 9600, *reader_program, "address", address,
               "vendor", "53494D", "serial", address, "room", 256, "gap", 15)
        for terminal, address in zip(relay.readers, ADDRESSES)
    ]
    panel = Numbered(*panel_example, relay.panel.path, 9600, ",".join(map(str, ADDRESSES)), *panel_program, *TIMES.split())
    try:
        run(relay, panel, readers, begun)
    finally:
        for script in [panel] + readers:
            script.process.kill()
    told = accounts(panel, readers)
    for number, account in enumerate(told, 1):
        account.judge(number)
        print(f"reader {number}: refused {account.closed} issued {len(account.issued)} taken {len(account.taken)} settled {len(account.settled)} "
              f"unsettled {len(account.unsettled)} withdrawn {len(account.withdrawn)} queued {len(account.queued)} reported {len(account.reported())} lost {account.lost}")
    for what, wanted, count in (
        ("orders", ORDERS, sum(len(account.issued) + account.closed for account in told)),
        ("events", EVENTS, sum(len(account.queued) for account in told)),
    ):
        if count != wanted:
            faults.append(f"{count} {what}, wanted {wanted}")
    if sum(len(account.issued) for account in told) < ORDERS / 2:
        faults.append("most orders were refused")
    if not any(account.withdrawn for account in told):
        faults.append("no order was taken back")
    if sum(account.lost for account in told) < 3:
        faults.append("fewer than three sessions were lost")
    print(f"seed {seed}, bursts: " + ", ".join(f"{name} {count}" for name, count in sorted(counts.items())))
    print(f"line: {len(faults)} faults in {time.monotonic() - begun:.1f} s")
    for fault in faults:
        print(fault)
    return 1 if faults else 0


if __name__ == "__main__":
    sys.exit(main(*sys.argv[1:]))
