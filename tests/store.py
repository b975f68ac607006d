#!/usr/bin/env python3
"""A day of a panel and its door, with the panel killed at each write to its store: `store.py PROGRAMS_IN_C PROGRAMS_IN_RUST OSDP [--all] [--some N] [--seed N]`. OSDP_LIBRARY names the
library of the package for Python.

The panels are `stored_panel` in C, in Python and in Rust. Its door is a device of the package, on a pseudo terminal. On its day it gets orders and shows cards, a COMSET gives it
another address and rate, another device comes to its first address after that, and the panel is ended by SIGKILL in between. `kills.c` counts what the panel does to the files
of its store (writes, cuts, makings, links, removals, syncs) and kills it before one of these calls, the making of the store too. Then the panel starts again, every other time that of
the next language, and goes on with the day. It is killed so at each call where `--all` stands, and else at some, on N days.

Killed, a program leaves what it has written. After a loss of power there is only what stood on the disk at the last sync of each file, and of the folder: so each call is tried
in both ways; and with a write-ahead log, and with a journal that is removed.

At the end of each day: the device has acted on no order twice, on each that is settled, and on none that was taken back or refused; each order has an end, and was told to have
it; each card was told, in turn, and each that may enter has made one order; the device at the first address has acted on nothing; and the store has the door's place.

Beside that: a disk that is full, one that may only be read, and one that is slow; each device's program, killed at each call while it gets a COMSET; and a store of each program
that all others read in turn."""
import contextlib
import json
import os
import random
import select
import shutil
import signal
import subprocess
import sys
import tempfile
import time
import tty
from collections import Counter
from concurrent.futures import ProcessPoolExecutor
from pathlib import Path

TOP = Path(__file__).resolve().parent.parent
sys.path[:0] = [str(TOP / "python"), str(TOP / "tests")]
sys.dont_write_bytecode = True

import osdp  # noqa: E402
import stores  # noqa: E402
from terminals import packet  # noqa: E402

WORKERS, LIMIT = 12, 60.0  # days at once; after so many seconds that which is waited for has failed to come
SOME = 72  # so many days are tried where not all are
OUT, POLL = 0x68, 0x60
STRIKE = "OUT 0:5:30"
MAY_ENTER = ("12345640", "65432180")
OTHER = ("00000A00", "00000B00")
NAMES = ("C", "Python", "Rust")


def programs(c, rust):
    return {"C": [f"{c}/stored_panel"], "Python": [sys.executable, "-B", str(TOP / "python/examples/stored_panel.py")], "Rust": [f"{rust}/stored_panel"]}


def leaves(folder, durable):
    """What a loss of power leaves of a folder: of each name that it had at its last sync, the bytes that the file had at its own."""
    names = [line.split(" ", 1) for line in (durable / "names").read_text().splitlines()]
    bytes_of = {name: (durable / number).read_bytes() if (durable / number).exists() else b"" for number, name in names if name not in (".", "..") and not name.endswith("-shm")}
    for each in folder.iterdir():
        each.unlink()
    for name, data in bytes_of.items():
        (folder / name).write_bytes(data)
        (folder / name).chmod(0o600)


def stands_now(folder, durable):
    """All that is in a folder stands on the disk."""
    shutil.rmtree(durable, ignore_errors=True)
    durable.mkdir()
    for each in folder.iterdir():
        shutil.copyfile(each, durable / str(each.stat().st_ino))
    (durable / "names").write_text("".join(f"{each.stat().st_ino} {each.name}\n" for each in folder.iterdir()))


class Line:
    """A line with the door, the panel's program at its other end, and the files of its store."""

    def __init__(self, job, folder):
        self.job, self.work = job, Path(folder)
        self.folder, self.durable = self.work / "store", self.work / "durable"
        self.folder.mkdir()
        self.path = self.folder / "store"
        self.end, self.other = os.openpty()
        tty.setraw(self.other)
        tty.setraw(self.end)
        self.door, self.stranger, self.acted, self.wrong = osdp.Device(5, serial=1), None, [], []
        self.door.set_outputs(bytes(2))
        self.heard, self.lines, self.rest, self.faults, self.kills = 0, [], b"", [], 0
        self.at = NAMES.index(job["program"])
        self.process = None

    def asks(self, holds, what):
        if not holds:
            self.faults.append(what)

    def starts(self, kill=0, **more):
        """Starts the panel, which makes its store where there is none."""
        stands_now(self.folder, self.durable)
        environment = {**os.environ, "LD_PRELOAD": self.job["shim"], "STORE_FOLDER": str(self.folder), "STORE_DURABLE": str(self.durable), "STORE_KILL": str(kill),
                       "STORE_COUNT": str(self.work / "count"), **{f"STORE_{name}": str(self.work / name) for name in ("FULL", "READ_ONLY", "SLOW")}, "STORE_WAIT": "700", **more}
        words = [*self.job["programs"][NAMES[self.at]], *([] if self.path.exists() else ["--new"]), "--late", self.job.get("late", "5000"), self.path, os.ttyname(self.other), "9600"]
        self.heard, self.rest = 0, b""
        self.process = subprocess.Popen([str(word) for word in words], stdin=subprocess.PIPE, stdout=subprocess.PIPE, stderr=subprocess.PIPE, env=environment)
        os.set_blocking(self.process.stdout.fileno(), False)

    def ended(self):
        """The panel has been killed: what is left of its store is that which its kind of end leaves."""
        self.reads()
        with contextlib.suppress(BrokenPipeError):
            self.process.stdin.close()  # a line may be left that it was killed before it read
        said = self.process.stderr.read().decode()
        self.process.stderr.close()
        self.process.stdout.close()
        self.asks(self.process.returncode == -signal.SIGKILL, f"it ends with {self.process.returncode}: {said}")
        self.kills += 1
        if self.job["power"]:
            leaves(self.folder, self.durable)
        if self.job["rotates"]:
            self.at = (self.at + 1) % len(NAMES)

    def kill(self):
        self.process.kill()
        self.process.wait()
        self.ended()

    def reads(self):
        piece = self.process.stdout.read() or b""
        *whole, self.rest = (self.rest + piece).split(b"\n")
        self.lines += [line.decode() for line in whole]

    def answers(self, answers, acted):
        for each in answers:
            if each.order is osdp.Order.ONCE and each.command.code == OUT:
                acted.append((str(each.command), time.monotonic()))
            if each.moved:
                self.stranger = self.stranger or osdp.Device(5, serial=99)
            if each.data:
                os.write(self.end, each.data)

    def turn(self):
        """What comes is answered, what is told is read, and a panel that was killed starts again."""
        ready = select.select([self.end, self.process.stdout], [], [], 0.01)[0]
        now = int(time.monotonic() * 1000)
        if self.end in ready:
            data = os.read(self.end, 4096)
            self.heard += 1
            stranger = self.stranger
            self.answers(self.door.hear(data, now), self.acted)
            if stranger:
                self.answers(stranger.hear(data, now), self.wrong)
        self.answers(self.door.tick(now), self.acted)
        if self.stranger:
            self.answers(self.stranger.tick(now), self.wrong)
        self.reads()
        if self.process.poll() is not None:
            self.ended()
            self.starts()

    def until(self, holds, seconds=LIMIT):
        limit = time.monotonic() + seconds
        while not holds() and time.monotonic() < limit and not self.faults:
            self.turn()
        return holds()

    def is_polled(self):
        return self.heard > 3

    def told(self, *ends):
        return any(line.endswith(ends) for line in self.lines)

    def says(self, text):
        try:
            self.process.stdin.write(f"{text}\n".encode())
            self.process.stdin.flush()
        except BrokenPipeError:
            pass  # it is killed: nobody has taken the order

    def rows(self, statement):
        return stores.rows(self.path, statement)

    def closes(self):
        if self.process.poll() is None:
            self.process.kill()
        self.process.wait()
        for end in filter(None, (self.process.stdin, self.process.stdout, self.process.stderr)):
            end.close()
        os.close(self.end)
        os.close(self.other)


def gives(line, text):
    """Gives an order, and waits for its end, or for the panel's."""
    killed, before = line.kills, len(line.lines)
    line.until(line.is_polled)
    line.says(text)
    line.until(lambda: line.kills > killed or any(each.endswith(f" {text}") and not each.startswith(("order ", "doubt ")) for each in line.lines[before:]))


def shows(line, card):
    line.door.event(f"RAW 0 0 26 {card}")
    line.until(lambda: line.told(f" RAW 0 0 26 {card}"))


def settles(line):
    """Each order has its end, and each card is told."""
    return not line.door.waiting() and line.path.exists() and not line.rows("SELECT 1 FROM orders WHERE state = 'open'")


def lives(line):
    """The day. The cards that were shown."""
    cards = []

    def card(each):
        cards.append(each)
        shows(line, each)

    gives(line, "OUT 1:5:1")
    card(MAY_ENTER[0])
    gives(line, "OUT 1:5:2")
    card(OTHER[0])
    for _ in range(9):  # a panel that was killed before it had the order has none
        if line.stranger or line.faults:
            break
        gives(line, "COMSET 7 19200")
    line.until(lambda: line.stranger)
    gives(line, "OUT 1:5:3")
    card(MAY_ENTER[1])
    line.until(lambda: line.told(STRIKE), 5)
    line.kill()  # the first restart, and the second
    line.starts()
    line.until(line.is_polled)
    card(MAY_ENTER[0])
    gives(line, "OUT 1:5:4")
    card(OTHER[1])
    line.says("OUT 1:5:5")
    line.until(lambda: line.told(" OUT 1:5:5"), 2)
    line.kill()
    line.starts()
    gives(line, "OUT 1:5:6")
    line.asks(line.until(lambda: settles(line)), f"not all has its end: {line.lines[-8:]}")
    return cards


def judge(line, cards):
    """What the store says, beside what the device did, what was shown to it, and what was told."""
    orders = line.rows("SELECT number, text, state, told FROM orders ORDER BY number")
    given = [int(each.split(" ")[1]) for each in line.lines if each.startswith("order ")]
    line.asks(given == sorted(set(given)) and orders[0][0] == 1, f"the numbers don't go up: {given}, {orders}")  # the question after the state takes one that no order has
    acted = [text for text, _ in line.acted]
    for number, text, state, _ in orders:
        times, least = acted.count(text), sum(other == text and how == "settled" for _, other, how, _ in orders)
        most = sum(other == text and how in ("settled", "doubt") for _, other, how, _ in orders)
        line.asks(text.startswith("COMSET") or least <= times <= most, f"{text} {state}: acted on {times} times")
        line.asks(state != "open" and any(each.endswith(f" {number} {text}") and not each.startswith("order ") for each in line.lines), f"nobody has heard of the end of {number} {text}, {state}")
    stored = {f"order {number} {text}" for number, text, _, _ in orders}
    line.asks({each for each in line.lines if each.startswith("order ")} <= stored, "an order that was told isn't stored")
    line.asks(set(acted) <= {text for _, text, _, _ in orders}, "an order was acted on that isn't stored")
    strikes = sum(text == STRIKE for _, text, _, _ in orders)
    line.asks(strikes == sum(card in MAY_ENTER for card in cards), f"{strikes} orders for the cards {cards}: {line.lines}")
    events = [text.split(" ")[-1] for text, in line.rows("SELECT text FROM events ORDER BY number")]
    line.asks([card for at, card in enumerate(events) if events[at - 1:at] != [card]] == cards, f"the events {events} are those of the cards {cards}")
    line.asks(all(line.told(f" RAW 0 0 26 {card}") for card in cards), "a card wasn't told")
    line.asks(not line.wrong, f"the wrong door was opened: {line.wrong}")
    line.asks(stores.text(line.path) == "5 at 7 19200 is 000000 0 1\n", f"the place is {stores.text(line.path)!r}")
    return Counter(state for _, _, state, _ in orders)


def day(job):
    """One day. What was wrong, how often the panel was killed, how many calls it made, and what became of the orders."""
    with tempfile.TemporaryDirectory() as folder:
        line = Line(job, folder)
        if not job["log"]:
            stores.write(line.path)
            stores.store.sqlite3.connect(line.path).execute("PRAGMA journal_mode = DELETE")
        line.starts(job["kill"])
        cards = lives(line)
        states = judge(line, cards) if not line.faults else Counter()
        log = "wal" if job["log"] else "delete"
        line.asks(line.rows("PRAGMA journal_mode") == [(log,)], f"the journal isn't {log}")
        line.closes()
        count = (line.work / "count").stat().st_size
        named = f"{job['program']}, {'power lost' if job['power'] else 'killed'} at {job['kill']}, {log}"
        return [f"{named}: {fault}" for fault in line.faults], line.kills, count, dict(states)


def first_calls(job):
    """How many calls the first program of a day makes, as it isn't killed at one, up to its first end."""
    with tempfile.TemporaryDirectory() as folder:
        line = Line({**job, "kill": 0}, folder)
        if not job["log"]:
            stores.write(line.path)
            stores.store.sqlite3.connect(line.path).execute("PRAGMA journal_mode = DELETE")
        line.starts()
        line.kill = lambda: (_ for _ in ()).throw(EOFError)
        try:
            lives(line)
        except EOFError:
            pass
        line.closes()
        return (line.work / "count").stat().st_size, line.faults


def all_jobs(base):
    """A job for each program, each kind of end, and each kind of journal."""
    return [{**base, "program": name, "power": power, "log": log, "rotates": False} for name in NAMES for power in (False, True) for log in (True, False)]


def disk(job):
    """A disk that is full, may be read alone, or is slow, after some orders; and at the start. The panel ends, or lets its session end, with the cause; once the disk is good it goes on,
    and nothing is done twice, or late."""
    with tempfile.TemporaryDirectory() as folder:
        line = Line(job, folder)
        line.starts()
        gives(line, "OUT 1:5:1")
        if job["disk"] == "SLOW":
            line.until(line.is_polled)
            (line.work / "SLOW").touch()
            line.says("OUT 1:5:2")
            line.until(lambda: line.told(" OUT 1:5:2"), 20)
            (line.work / "SLOW").unlink()
            ends = ("doubt 2 OUT 1:5:2", "back 2 OUT 1:5:2")  # it was the next one to go out, or a POLL came before it
            line.asks(line.until(lambda: set(ends) & set(line.lines)), f"a late order isn't in doubt, nor taken back: {line.lines[-4:]}")
            line.until(line.is_polled)
        else:
            (line.work / job["disk"]).touch()
            line.says("OUT 1:5:2")
            status = line.process.wait(timeout=30)
            said = line.process.stderr.read().decode()
            cause = f"the store {line.path} can't be written: "
            line.asks(status == job["status"][job["program"]] and cause in said, f"it ends with {status}: {said}")
            line.starts()
            line.says("OUT 1:5:9")  # where it could start on a full disk, by the log that is there, it ends as it has to write
            status, said = line.process.wait(timeout=30), line.process.stderr.read().decode()
            causes = ("Read-only file system",) if job["disk"] == "READ_ONLY" else ("See that its disk has room", cause)
            line.asks(status == job["status"][job["program"]] and any(each in said for each in causes) and str(line.path) in said, f"at the start it ends with {status}: {said}")
            (line.work / job["disk"]).unlink()
            line.starts()
        given = 2
        while given < 12 and len(line.acted) < 2 and not line.faults:  # one that is given while no session is open may wait for too long, and is taken back
            given += 1
            gives(line, f"OUT 1:5:{given}")
        line.asks(line.until(lambda: settles(line)), f"not all has its end: {line.lines[-8:]}")
        acted = [text for text, _ in line.acted]
        line.asks(acted == ["OUT 1:5:1", f"OUT 1:5:{given}"], f"the device has acted on {acted}")
        line.closes()
        return [f"{job['program']}, disk {job['disk']}: {fault}" for fault in line.faults]


def devices(c, rust, osdp_program):
    """Each device's program, with the words that stand before the port's and after its rate."""
    return {"C": ([f"{c}/door_device"], []), "C, reader": ([f"{c}/reader"], ["address", "5"]), "Rust": ([f"{rust}/door_device"], []),
            "Python": ([sys.executable, "-B", str(TOP / "python/examples/door_device.py")], []),
            "reader.py": ([sys.executable, "-B", str(TOP / "examples/reader.py")], [osdp_program, "address", "5"]),
            "osdp-port": ([str(TOP / "port/osdp-port"), "--plain", "--osdp", osdp_program], ["reader", "5"])}


PDID, COM = 0x45, 0x54


def asked(end, wanted, address, *words, seconds=20.0):
    """Whether a packet to an address is answered from there by this reply in time."""
    os.write(end, packet(address, *words))
    data, limit = b"", time.monotonic() + seconds
    while time.monotonic() < limit:
        data += os.read(end, 4096) if select.select([end], [], [], 0.05)[0] else b""
        if bytes([0x53, address | 0x80]) in data and any(data[at:at + 2] == bytes([0x53, address | 0x80]) and data[at + 5:at + 6] == bytes([wanted]) for at in range(len(data))):
            return True
    return False


def is_at(process, end, address, seconds=40.0):
    """Whether a program that has been started answers at an address, before it ends."""
    limit = time.monotonic() + seconds
    while process.poll() is None and time.monotonic() < limit:
        if asked(end, PDID, address, 0, 0x61, b"\0", seconds=1.0):
            return True
    return False


def moved_device(job):
    """A device's program gets a COMSET, and is killed at a call, or at 0 once it has answered: where it has answered, it starts at the new address, and else at one of both. How many
    calls it makes."""
    with tempfile.TemporaryDirectory() as folder:
        line, faults = Line({**job, "program": "C"}, folder), []
        before, after = job["words"]

        def starts(kill):
            stands_now(line.folder, line.durable)
            environment = {**os.environ, "LD_PRELOAD": job["shim"], "STORE_FOLDER": str(line.folder), "STORE_DURABLE": str(line.durable), "STORE_KILL": str(kill), "STORE_COUNT": str(line.work / "count")}
            words = [*before, "--keep", line.path, *([] if line.path.exists() else ["--new"]), os.ttyname(line.other), "9600", *after]
            return subprocess.Popen([str(word) for word in words], stdin=subprocess.PIPE, stdout=subprocess.DEVNULL, stderr=subprocess.PIPE, env=environment)

        process, answered = starts(job["kill"]), False
        if is_at(process, line.end, 5):
            answered = asked(line.end, COM, 5, 1, 0x6E, bytes([7]) + (19200).to_bytes(4, "little"), seconds=3.0 if job["kill"] else 20.0)
        process.kill()
        process.wait()
        # `osdp` beside an osdp-port that is killed may be just about to answer it
        said = process.stderr.read().decode().replace("osdp: write failed\n", "")
        if said:
            faults.append(f"it says {said}")
        count = (line.work / "count").stat().st_size
        if job["power"]:
            leaves(line.folder, line.durable)
        process, at = starts(0), []
        limit = time.monotonic() + 40
        while not at and process.poll() is None and time.monotonic() < limit:
            while select.select([line.end], [], [], 0)[0]:
                os.read(line.end, 4096)
            at = [address for address in (7, 5) if asked(line.end, PDID, address, 0, 0x61, b"\0", seconds=1.0)][:1]
        process.kill()
        process.wait()
        if at not in ([[7]] if answered else [[7], [5]]):
            faults.append(f"it has {'answered' if answered else 'not answered'}, and starts at {at}: {process.stderr.read().decode()}")
        line.process = process
        line.closes()
        return [f"{job['program']}, device, {'power lost' if job['power'] else 'killed'} at {job['kill']}: {fault}" for fault in faults], count, answered


def shared_device(job):
    """The store of a device's program, which has moved, is read by the next program: it is at the new address."""
    faults = []
    with tempfile.TemporaryDirectory() as folder:
        line = Line({**job, "program": "C"}, folder)
        address = 5
        for at, (name, (before, after)) in enumerate(job["all"].items()):
            words = [*before, "--keep", line.path, *([] if at else ["--new"]), os.ttyname(line.other), "9600", *after]
            process = subprocess.Popen([str(word) for word in words], stdin=subprocess.PIPE, stdout=subprocess.DEVNULL, stderr=subprocess.PIPE)
            moved = bytes([address + 1]) + (9600).to_bytes(4, "little")
            if not is_at(process, line.end, address) or not asked(line.end, COM, address, 1, 0x6E, moved):
                faults.append(f"{name} isn't at {address}, where the one before has left the store, or doesn't move")
            address += 1
            process.kill()
            process.wait()
            line.process = process
            if stores.text(line.path).partition(" at ")[2] != f"{address} 9600\n":
                faults.append(f"{name} leaves {stores.text(line.path)!r}")
        line.closes()
    return faults


def shared_panel(job):
    """The store of a panel is read by the next one, of each kind: it finds the door where the one before has moved it, and moves it on."""
    faults = []
    with tempfile.TemporaryDirectory() as folder:
        line = Line({**job, "program": "C"}, folder)
        address = 5
        for at, (name, before, after, says) in enumerate(job["panels"]):
            words = [*before, line.path, *([] if at else ["--new"]), os.ttyname(line.other), "9600", *after]
            if "stored_panel" in str(before[-1]):
                words = [*before, *([] if at else ["--new"]), line.path, os.ttyname(line.other), "9600", *after]
            line.heard, line.lines, line.rest = 0, [], b""
            line.process = subprocess.Popen([str(word) for word in words], stdin=subprocess.PIPE, stdout=subprocess.PIPE, stderr=subprocess.PIPE)
            os.set_blocking(line.process.stdout.fileno(), False)
            line.until(lambda: line.is_polled() and line.process.poll() is None)
            line.says(says.format(old=address, new=address + 1))
            wanted = f"5 at {address + 1} 9600 is 000000 0 1\n"
            if not line.until(lambda: stores.text(line.path) == wanted, 20):
                faults.append(f"{name} leaves {stores.text(line.path)!r}: {line.lines[-5:]}")
            address += 1
            line.process.kill()
            line.process.wait()
        line.closes()
    return faults + line.faults


def calls_at(count, is_all, chance, some):
    """At which of so many calls a program is killed."""
    return list(range(1, count + 1)) if is_all or count <= some else sorted(chance.sample(range(1, count + 1), some))


def sharing(base, c, rust, osdp_program):
    """The stores that all programs read in turn: of panels, and of devices, in one order and in the other."""
    python, port = [sys.executable, "-B"], [str(TOP / "port/osdp-port"), "--plain", "--osdp", osdp_program, "--keep"]
    panels = [("stored_panel in C", [f"{c}/stored_panel"], [], "COMSET {new} 9600"), ("door_panel in C", [f"{c}/door_panel", "--keep"], [], "move {new} 9600"),
              ("panel in C", [f"{c}/panel", "--keep"], ["5"], "1 COMSET {new} 9600"), ("door_panel in Rust", [f"{rust}/door_panel", "--keep"], [], "move {new} 9600"),
              ("stored_panel in Python", [*python, str(TOP / "python/examples/stored_panel.py")], [], "COMSET {new} 9600"), ("osdp-port", port, ["panel", "5"], "{old} move {new}"),
              ("stored_panel in Rust", [f"{rust}/stored_panel"], [], "COMSET {new} 9600")]
    both = devices(c, rust, osdp_program)
    return [(shared_panel, {**base, "panels": order}) for order in (panels, panels[::-1])] + [
        (shared_device, {**base, "all": dict(order)}) for order in (list(both.items()), list(both.items())[::-1])]


class Told:
    """The faults, which are told as they are found."""

    def __init__(self):
        self.faults, self.begun = 0, time.monotonic()

    def takes(self, faults):
        for fault in faults:
            self.faults += 1
            print(f"store: {fault}"[:2000], flush=True)

    def says(self, what):
        print(f"store: {what}, after {time.monotonic() - self.begun:.0f} s", flush=True)


def days(pool, base, is_all, chance, some, told):
    """The days of each program, with each kind of end and of journal."""
    kinds = all_jobs(base)
    counts = [each.result() for each in [pool.submit(first_calls, job) for job in kinds]]
    runs = []
    for job, (count, wrong) in zip(kinds, counts):
        told.takes(wrong)
        for kill in calls_at(count, is_all, chance, some // len(kinds)):
            runs.append((job, pool.submit(day, {**job, "kill": kill, "rotates": kill % 2 == 1})))
    totals = {name: Counter() for name in NAMES}
    for job, each in runs:
        wrong, kills, count, states = each.result()
        told.takes(wrong)
        totals[job["program"]].update({"days": 1, "ends": kills, "calls": count, **states})
    for name, total in totals.items():
        told.says(f"stored_panel in {name}: {json.dumps(total)}; calls until its first end {[count for job, (count, _) in zip(kinds, counts) if job['program'] == name]}")


def moves(pool, base, each_device, is_all, chance, told):
    """Each device's program gets a COMSET, and is killed at a call."""
    of_devices, runs = {name: pool.submit(moved_device, {**base, "program": name, "words": words}) for name, words in each_device.items()}, []
    for name, each in of_devices.items():
        wrong, count, answered = each.result()
        told.takes(wrong + ([] if answered else [f"{name}, device: it doesn't answer a COMSET"]))
        runs += [pool.submit(moved_device, {**base, "program": name, "words": each_device[name], "kill": kill, "power": power})
                 for kill in [0, *calls_at(count, is_all, chance, 4)] for power in (False, True)]
    answered = 0
    for each in runs:
        wrong, _, has = each.result()
        told.takes(wrong)
        answered += has
    told.says(f"{len(runs)} devices killed while they move, of which {answered} had answered")


def main(c, rust, osdp_program, *words):
    is_all, chance = "--all" in words, random.Random(int(words[words.index("--seed") + 1]) if "--seed" in words else 1)
    some, told = int(words[words.index("--some") + 1]) if "--some" in words else SOME, Told()
    with tempfile.TemporaryDirectory() as folder, ProcessPoolExecutor(WORKERS) as pool:
        shim = Path(folder) / "kills.so"
        subprocess.run([os.environ.get("CC", "cc"), "-O1", "-shared", "-fPIC", "-o", shim, TOP / "tests/kills.c"], check=True)
        base = {"shim": str(shim), "programs": programs(c, rust), "kill": 0, "power": False, "rotates": False, "log": True, "status": {"C": 3, "Python": 3, "Rust": 1}}
        days(pool, base, is_all, chance, some, told)
        moves(pool, base, devices(c, rust, osdp_program), is_all, chance, told)
        others = [pool.submit(does, job) for does, job in sharing(base, c, rust, osdp_program)]
        others += [pool.submit(disk, {**base, "program": name, "disk": kind, "late": "500" if kind == "SLOW" else "5000"}) for name in NAMES for kind in ("FULL", "READ_ONLY", "SLOW")]
        for each in others:
            told.takes(each.result())
        told.says(f"{len(others)} disks and shared stores")
    told.says(f"{told.faults} faults")
    return 1 if told.faults else 0


if __name__ == "__main__":
    sys.exit(main(*sys.argv[1:]))
