#!/usr/bin/env python3
"""Ends a panel that stores its orders and reports at random moments by SIGKILL, starts it again each time, and reads its store at last. Takes a seed, the program
`stored_panel` in C or in Rust, and which of both it is; without these it is `python/examples/stored_panel.py`. OSDP_LIBRARY names the library. `store.py` ends it at each write.

The device is the package's own, over a pseudo terminal. It does each order at once, and writes down which. One packet in ten is lost, there and back. Cards are shown
to it meanwhile. At last the panel isn't ended any more, until each order has an end and each card is told. Then:

- The device has acted on no order twice, on each that is settled and on none that was taken back or refused, and in the order in which they were given.
- Each order has one end, and those that are in doubt were acted on once or never.
- Each card was told, in the order in which they were shown, and the door was ordered once for each that may enter.
- The numbers of the orders go up, from each start to the next too. The question after the state takes one that no order has.

A POLL that is answered by a code which nobody can read ends no order and no session; an order that is answered so is in doubt, and the device is asked for its state
at once. What is in doubt is told again at each start, until the device's state was told. A file that is no store isn't read, and a second program may not have the same one.

Of the program in C: a line of spaces is refused; and where the disk is slow (`slow.c`) a card opens no door late: its order expires. Where the panel was stopped no order of
before goes out."""
import os
import random
import select
import signal
import subprocess
import sys
import tempfile
import time
import tty
from pathlib import Path

TOP = Path(__file__).resolve().parent.parent
sys.path.insert(0, str(TOP / "python"))
sys.dont_write_bytecode = True

import osdp  # noqa: E402
import stores  # noqa: E402
from terminals import Script, Terminal  # noqa: E402

ENDS, MOST, LIMIT = 12, 60, 60.0  # the panel is ended so often at least, and at most; seconds after which what is waited for has failed to come
SETTLED, DOUBTED = 40, 6  # so many orders are wanted at least
OUT, POLL, UNKNOWN = 0x68, 0x60, 0x99  # a command, another, and a code that no reply has
MAY_ENTER = ("12345640", "65432180")
program = [sys.executable, "-B", TOP / "python/examples/stored_panel.py"]
language = "Python"
faults = []


def asks(holds, what):
    if not holds:
        faults.append(what)


def words_for(store, port, *options):
    """The words of the program. A store that isn't there is made."""
    return [*program, *options, *([] if store.exists() else ["--new"]), store, port, "9600"]


class World:
    """The line, the device at its end, and the panel's program, which is ended and started again."""

    def __init__(self, chance, store):
        self.chance, self.store = chance, store
        self.end, self.other = os.openpty()  # the other end stays open, so that the line does
        tty.setraw(self.other)
        self.device, self.acted, self.shown = osdp.Device(5, serial=1), [], []
        self.device.set_outputs(bytes(2))
        self.process, self.given, self.is_heard, self.ended = None, 0, False, 0

    def start(self):
        self.is_heard = False
        self.process = subprocess.Popen(words_for(self.store, os.ttyname(self.other)), stdin=subprocess.PIPE, stdout=subprocess.DEVNULL)

    def kill(self):
        self.process.kill()
        self.process.wait()

    def order(self):
        """Each order has a time of its own, by which it is told from the others."""
        self.given += 1
        self.process.stdin.write(f"OUT 1:5:{self.given}\n".encode())
        self.process.stdin.flush()

    def show(self):
        """A card of its own, or one that may enter, but not twice in turn: nobody could tell that from a repeat."""
        card = self.chance.choice([each for each in MAY_ENTER if self.shown[-1:] != [each]]) if self.chance.random() < 0.3 else f"{len(self.shown) + 1:06X}00"
        self.device.event(f"RAW 0 0 26 {card}")
        self.shown.append(card)

    def answer(self, answers):
        for each in answers:
            if each.order is osdp.Order.ONCE and each.command.code == OUT:
                self.acted.append(str(each.command))
            if each.data and self.chance.random() >= 0.1:
                os.write(self.end, each.data)

    def turn(self):
        """The device's turn."""
        data = os.read(self.end, 4096) if select.select([self.end], [], [], 0.003)[0] else b""
        now = int(time.monotonic() * 1000)
        self.is_heard = self.is_heard or bool(data)
        if data and self.chance.random() >= 0.1:
            self.answer(self.device.hear(data, now))
        self.answer(self.device.tick(now))

    def runs(self, seconds, busy=True):
        """The line goes on for some seconds, with orders and cards."""
        end, next_order, next_card = time.monotonic() + seconds, 0.0, 0.0
        while time.monotonic() < end:
            self.turn()
            now = time.monotonic()
            if busy and now >= next_order:
                self.order()
                next_order = now + self.chance.uniform(0.02, 0.3)
            if busy and now >= next_card:
                self.show()
                next_card = now + self.chance.uniform(0.05, 0.6)


def rows(store, statement):
    return stores.rows(store, statement) if store.exists() else []


def judge(world):
    """What the store says, beside what the device did and was shown."""
    orders = dict(rows(world.store, "SELECT number, text FROM orders ORDER BY number"))
    ends = [(number, f"{state} {answer or ''}".strip()) for number, state, answer in rows(world.store, "SELECT number, state, answer FROM orders WHERE state <> 'open'")]
    given = [int(text.split(":")[2]) for text in orders.values() if text.startswith("OUT 1:")]
    asks(given == sorted(set(given)) and min(orders) == 1, "the numbers of the orders don't go up as they were given")
    asks(sorted(which for which, _ in ends) == list(orders), "an order has no end")
    by_time = [text for text in world.acted if text.startswith("OUT 1:")]
    asks(len(by_time) == len(set(by_time)) and by_time == sorted(by_time, key=lambda text: int(text.split(":")[2])), "an order was acted on twice, or out of turn")
    asks(set(world.acted) <= set(orders.values()), "an order was acted on that wasn't stored")
    for which, how in ends:
        times = world.acted.count(orders[which])
        if orders[which].startswith("OUT 1:"):
            wanted = {"settled ACK": (1,), "doubt": (0, 1), "back": (0,)}.get(how, (0,))
            asks(times in wanted and (how in ("settled ACK", "doubt", "back") or how.startswith("refused ")), f"{orders[which]} {how} was acted on {times} times")
    strikes = [which for which, text in orders.items() if text == "OUT 0:5:30"]
    may = sum(card in MAY_ENTER for card in world.shown)
    asks(len(strikes) == may, f"{len(strikes)} orders for {may} cards that may enter")
    asks(world.acted.count("OUT 0:5:30") <= len(strikes), "the door was opened more often than it was ordered")
    told = [text.split(" ")[-1] for text, in rows(world.store, "SELECT text FROM events ORDER BY number")]
    once = [card for at, card in enumerate(told) if told[at - 1:at] != [card]]
    asks(once == world.shown, f"the cards told are others than those shown: {len(once)} for {len(world.shown)}")
    return orders, ends, told


def ends_of(store, how):
    return rows(store, f"SELECT count(*) FROM orders WHERE state = '{how}'")[0][0] if store.exists() else 0


def is_enough(store):
    """Whether enough has happened."""
    return ends_of(store, "settled") >= SETTLED and ends_of(store, "doubt") >= DOUBTED


def many_ends(chance, folder):
    world = World(chance, Path(folder) / "store")
    while world.ended < MOST and (world.ended < ENDS or not is_enough(world.store)):
        world.start()
        limit = time.monotonic() + LIMIT
        while not world.is_heard and time.monotonic() < limit:  # until the panel is there
            world.turn()
        world.runs(chance.uniform(0.0, 2.5))
        world.kill()
        world.ended += 1
    world.start()
    limit = time.monotonic() + LIMIT
    while time.monotonic() < limit:
        world.runs(0.5, busy=False)
        if not ends_of(world.store, "open") and not world.device.waiting():
            break
    world.kill()
    asks(not world.device.waiting(), "cards still wait")
    orders, all_ends, told = judge(world)
    kinds = {kind: ends_of(world.store, kind) for kind in sorted({how.split(" ")[0] for _, how in all_ends})}
    asks(is_enough(world.store), f"too little has happened: {kinds}")
    print(f"stored, {language}: {len(orders)} orders {kinds}, {len(world.acted)} acted on, {len(world.shown)} cards, {len(told)} told, ended {world.ended} times")


def with_code(burst, code):
    """A packet of CRC with another code."""
    whole, crc = burst[:5] + bytes([code]) + burst[6:-2], 0x1D0F
    for byte in whole:
        crc ^= byte << 8
        for _ in range(8):
            crc = (crc << 1 ^ (0x1021 if crc & 0x8000 else 0)) & 0xFFFF
    return whole + crc.to_bytes(2, "little")


class Spoiled:
    """A line without losses. The answer to the next command of one kind gets a code that nobody can read."""

    def __init__(self, store, *options, answers=True, **streams):
        self.terminal, self.device, self.acted, self.polls, self.answers = Terminal(), osdp.Device(5, serial=1), [], 0, answers
        self.device.set_outputs(bytes(2))
        self.spoils = None
        self.panel = Script(*words_for(store, self.terminal.path, *options), **streams)

    def turn(self):
        for burst in self.terminal.bursts() if self.answers and select.select([self.terminal.end], [], [], 0.01)[0] else ():
            for each in self.device.hear(burst, int(time.monotonic() * 1000)):
                if each.order is osdp.Order.ONCE and each.command.code == OUT:
                    self.acted.append(str(each.command))
                is_spoiled = each.data and burst[5] == self.spoils
                if each.data:
                    os.write(self.terminal.end, with_code(each.data, UNKNOWN) if is_spoiled else each.data)
                    self.spoils = None if is_spoiled else self.spoils
                    self.polls += burst[5] == POLL
        self.panel.read()

    def until(self, holds):
        limit = time.monotonic() + LIMIT
        while not holds() and time.monotonic() < limit:
            self.turn()
        return holds()

    def has(self, *lines):
        return lambda: all(line in self.panel.lines for line in lines)

    def end(self):
        self.panel.process.kill()
        self.panel.process.wait()
        self.terminal.close()


def unread(folder):
    """A POLL, and then an order, are answered by a code that nobody can read."""
    store = Path(folder) / "unread"
    line = Spoiled(store)
    asks(line.until(lambda: line.polls > 2), "unread: the device isn't polled")
    line.spoils = POLL
    asks(line.until(line.has(f"unread code {UNKNOWN:02X}")), f"unread: that of a POLL isn't told: {line.panel.lines}")
    asks(not rows(store, "SELECT text FROM orders UNION SELECT text FROM events"), "unread: by that of a POLL the store has an order, or an event")
    line.panel.say("OUT 1:5:7")
    asks(line.until(line.has("settled ACK 1 OUT 1:5:7")), f"unread: after it no order is settled: {line.panel.lines}")
    line.device.event(f"RAW 0 0 26 {MAY_ENTER[0]}")
    asks(line.until(line.has("settled ACK 2 OUT 0:5:30")), f"unread: after it no card opens the door: {line.panel.lines}")
    line.spoils = OUT
    line.panel.say("OUT 1:5:8")
    asks(line.until(line.has("doubt 3 OUT 1:5:8")), f"unread: that of an order isn't in doubt: {line.panel.lines}")
    asks(line.until(line.has("state OSTATR 0000")), f"unread: after it the device isn't asked for its state: {line.panel.lines}")
    asks(sum(each.startswith("opened") for each in line.panel.lines) == 1, f"unread: the session has ended: {line.panel.lines}")
    asks(line.acted == ["OUT 1:5:7", "OUT 0:5:30", "OUT 1:5:8"], f"unread: the device has acted on {line.acted}")
    line.end()


def with_order(store):
    """A store with an order that has no end."""
    stores.write(store, "5 at 5 9600 is 000000 0 1")
    base = stores.store.sqlite3.connect(store)
    base.execute("INSERT INTO orders (device, number, text, until) VALUES (5, 1, 'OUT 1:5:1', 0)")
    base.commit()
    base.close()


def refused_stores(folder):
    """Which stores aren't read."""
    path, port = Path(folder) / "refused", os.ttyname(os.openpty()[1])
    with_order(path)
    process = subprocess.Popen(words_for(path, port), stdin=subprocess.PIPE, stdout=subprocess.PIPE, text=True)
    asks(process.stdout.readline() == "doubt 1 OUT 1:5:1\n", "what is in doubt isn't told")
    for named, is_new, why in ((path, False, "another program has the store"), (path, True, "there is a store already: "), (Path(folder) / "none", False, "there is no store at "),
                               (Path("/etc/passwd"), False, "is no store of osdp. Bring back")):
        words = [*program, *(["--new"] if is_new else []), named, os.ttyname(os.openpty()[1]), "9600"]
        done = subprocess.run(words, stdin=subprocess.DEVNULL, capture_output=True, text=True, check=False)
        asks(done.returncode == (1 if language == "Rust" else 3) and why in done.stderr and str(named) in done.stderr, f"a store: {words} ends with {done}")
    process.kill()
    process.wait()


def odd_lines(folder):
    """A line of spaces is no order, and neither is an OSTAT after spaces, or a COMSET without a place: none is written."""
    store = Path(folder) / "odd"
    line = Spoiled(store)
    asks(line.until(lambda: line.polls > 2), "odd: the device isn't polled")
    for text in (" ", "  COMSET 7", " OSTAT", "", "OSTAT ", "COMSET 7 9600 1"):
        line.panel.say(text)
    asks(line.until(lambda: line.panel.lines.count("refused line") == 6), f"odd: not all lines are refused: {line.panel.lines}")
    line.panel.say("  OUT 1:5:7")
    asks(line.until(line.has("settled ACK 1 OUT 1:5:7")), f"odd: an order after spaces isn't taken: {line.panel.lines}")
    asks(rows(store, "SELECT number, text, state, answer FROM orders") == [(1, "OUT 1:5:7", "settled", "ACK")], "odd: the store has another order")
    asks(store.stat().st_mode & 0o777 == 0o600, "odd: others may read the store")
    line.end()


def told_again(folder):
    """What is in doubt is told at each start, until the device's state was told: a loss of power in between hides nothing."""
    store, states = Path(folder) / "again", "SELECT state FROM orders"
    with_order(store)
    for _ in range(2):
        line = Spoiled(store, answers=False)
        asks(line.until(line.has("doubt 1 OUT 1:5:1")), f"again: it isn't told: {line.panel.lines}")
        asks(rows(store, states) == [("open",)], f"again: before the device was asked the store has {rows(store, states)}")
        line.end()
    line = Spoiled(store)
    asks(line.until(line.has("doubt 1 OUT 1:5:1", "state OSTATR 0000")), f"again: it isn't asked: {line.panel.lines}")
    asks(line.until(lambda: rows(store, states) == [("doubt",)]), f"again: after the state the store has {rows(store, states)}")
    line.end()


def slow_disk(folder):
    """Where the disk takes long a card opens no door late: its order expires, and is told as taken back. Later, and where the disk is fast enough, it opens."""
    slow = Path(folder) / "slow.so"
    subprocess.run([os.environ.get("CC", "cc"), "-O1", "-shared", "-fPIC", "-o", slow, TOP / "tests/slow.c"], check=True)
    flag = Path(folder) / "is_slow"
    line = Spoiled(Path(folder) / "slow", "--late", "800", env={**os.environ, "LD_PRELOAD": str(slow), "SLOW_SYNC": "1200", "SLOW_WHERE": str(flag)})
    asks(line.until(lambda: line.polls > 2), "slow: the device isn't polled")
    line.device.event(f"RAW 0 0 26 {MAY_ENTER[0]}")
    asks(line.until(line.has("settled ACK 1 OUT 0:5:30")), f"slow: a fast disk opens no door: {line.panel.lines}")
    flag.write_text("")
    line.device.event(f"RAW 0 0 26 {MAY_ENTER[1]}")
    asks(line.until(line.has("order 2 OUT 0:5:30")), f"slow: the card makes no order: {line.panel.lines}")
    flag.unlink()
    asks(line.until(line.has("back 2 OUT 0:5:30")), f"slow: the order doesn't expire: {line.panel.lines}")
    asks(line.acted == ["OUT 0:5:30"], f"slow: the device has acted on {line.acted}")
    line.device.event(f"RAW 0 0 26 {MAY_ENTER[0]}")
    asks(line.until(line.has("settled ACK 3 OUT 0:5:30")), f"slow: after it no card opens the door: {line.panel.lines}")
    line.end()


def stopped(folder):
    """An order that was under way as the panel was stopped isn't sent again, and one that was given meanwhile is refused, and not written."""
    store = Path(folder) / "stopped"
    line = Spoiled(store, "--late", "800")
    asks(line.until(lambda: line.polls > 2), "stopped: the device isn't polled")
    line.answers = False
    line.panel.say("OUT 1:5:7")
    asks(line.until(line.has("order 1 OUT 1:5:7")), f"stopped: the order isn't taken: {line.panel.lines}")
    line.panel.process.send_signal(signal.SIGSTOP)
    line.panel.say("OUT 1:5:8")
    time.sleep(1.8)
    if select.select([line.terminal.end], [], [], 0)[0]:
        list(line.terminal.bursts())  # the device hasn't heard these
    line.panel.process.send_signal(signal.SIGCONT)
    line.answers = True
    asks(line.until(line.has("too old OUT 1:5:8", "doubt 1 OUT 1:5:7", "state OSTATR 0000")), f"stopped: told is {line.panel.lines}")
    asks(line.acted == [] and rows(store, "SELECT text FROM orders") == [("OUT 1:5:7",)], f"stopped: the device has acted on {line.acted}")
    line.end()


def main(seed=1, path=None, which="Python"):
    global program, language
    program, language = [path] if path else program, which
    with tempfile.TemporaryDirectory() as folder:
        many_ends(random.Random(int(seed)), folder)
        unread(folder)
        refused_stores(folder)
        told_again(folder)
        for case in (odd_lines, slow_disk, stopped) if language == "C" else ():
            case(folder)
    for fault in faults:
        print(f"stored, {language}: {fault}")
    sys.exit(bool(faults))


main(*sys.argv[1:])
