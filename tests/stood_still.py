"""Panels and readers that stand still for longer than they may be late: `osdp-port` and the short examples in Python. Takes the path of `osdp`, and the parts to run; all of
them without. In place of the path stands `python` for the examples of the package for Python, whose library OSDP_LIBRARY names.

A program is stopped, or nobody reads what it prints, while an order is on the wire, while one waits, or as one is typed; and a reader while an order comes. After that no
panel sends an order of before, and each order has its end: it is withheld, or expires, also where it was typed meanwhile. No reader does what came meanwhile, nor answers it. A
card that came meanwhile opens no door, and where storing takes too long no order goes out."""
import contextlib
import fcntl
import os
import select
import signal
import subprocess
import sys
import tempfile
import time
from concurrent.futures import ThreadPoolExecutor
from functools import partial
from pathlib import Path

import port_line
from port_line import ACK, ID, OUT, PDID, POLL, PORT, TOP, Device, asks, faults, opened, tells
from terminals import Numbered, Script, Terminal, packet

LATE, STILL = 2000, 3.0  # how late the programs may be, in milliseconds; for how many seconds they stand still
SETTINGS = "poll-interval 20 reply-wait 300 sends 3 quiet-wait 60 gap 300 check sum".split()
osdp = ""
OLD = bytes([0, 5, 30, 0])  # the order that is on the wire
RAW = 0x50
CARD, OTHER = (bytes([0, 0, 26, 0]) + bytes.fromhex(card) for card in ("12345640", "65432180"))  # both open the door


def panels():
    """What stands before the port of each panel, what after its rate, and how it names its device."""
    yield "osdp-port panel", [PORT, "--plain", "--osdp", osdp, "--until", LATE], ["panel", "5", *SETTINGS], "5"
    yield "panel.py", [sys.executable, "-B", TOP / "examples/panel.py", "--until", LATE], ["5", osdp, *SETTINGS], "1"


def stored_panels(folder):
    """The panels of the package, which open a door for a card."""
    yield "door_panel.py", [sys.executable, "-B", TOP / "python/examples/door_panel.py", "--late", LATE], []
    yield "stored_panel.py", [sys.executable, "-B", TOP / "python/examples/stored_panel.py", "--late", LATE, "--new", Path(folder) / "store"], []


def devices():
    yield "door_device.py", [sys.executable, "-B", TOP / "python/examples/door_device.py", "--late", LATE], []


def readers():
    yield "osdp-port reader", [PORT, "--plain", "--osdp", osdp, "--late", LATE], ["reader", "5"]
    yield "reader.py", [sys.executable, "-B", TOP / "examples/reader.py", "--late", LATE], [osdp, "address", "5"]


@contextlib.contextmanager
def stopped(script):
    """The program is stopped, and goes on."""
    script.process.send_signal(signal.SIGSTOP)
    yield
    time.sleep(STILL)
    script.process.send_signal(signal.SIGCONT)


@contextlib.contextmanager
def unread(into):
    """Nobody reads what the program prints, into a pipe that is full: so it waits at the next line, until the test reads again."""
    filler = os.open(f"/proc/self/fd/{into}", os.O_WRONLY | os.O_NONBLOCK)  # opened anew: the program's own end blocks
    with contextlib.suppress(BlockingIOError):
        while True:
            os.write(filler, b"\n")
    os.close(filler)
    yield
    time.sleep(STILL)


class Panel:
    """A panel and a device that the test plays, in an open session. Its output is a pipe of ours, so that it can be full."""

    def __init__(self, name, before, after, **streams):
        self.name, self.terminal, self.held = name, Terminal(), []
        self.device = Device(self.terminal, is_silent=lambda burst: burst[5] in self.held)
        self.out, self.into = os.pipe()
        fcntl.fcntl(self.out, 1031, 4096)  # F_SETPIPE_SZ
        self.script = Numbered(*before, self.terminal.path, 9600, *after, stdout=self.into, **streams)
        self.script.process.stdout = os.fdopen(self.out, "rb", buffering=0)
        os.set_blocking(self.out, False)

    def __enter__(self):
        asks(self.until(lambda: self.opened() == 1), f"{self.name}: the session doesn't open: {self.script.lines}")
        return self

    def __exit__(self, *_):
        self.script.process.kill()
        self.script.process.wait()
        os.close(self.into)
        self.terminal.close()

    def until(self, holds, seconds=20):
        return self.device.until([self.script], holds, seconds)

    def opened(self):
        return sum(told.startswith(("online ", "opened ")) for told in self.script.lines)

    def outs(self):
        return [burst[6:10] for burst in self.device.asked if burst[5] == OUT]

    def goes_on(self):
        """What the panel sends from now on, until its session opens again."""
        while select.select([self.terminal.end], [], [], 0)[0]:
            list(self.terminal.bursts())
        self.device.asked.clear()
        self.held = []


def panel_stands_still(how, name, before, after, number):
    """One order is on the wire, and one waits. Then the panel stands still, and a line is typed. None of the three goes out any more, and each has an end."""
    with Panel(name, before, after) as line:
        line.held = [OUT]
        line.script.say(f"{number} OUT 0:5:30\n{number} OUT 0:5:31")
        asks(line.until(lambda: line.outs() == [OLD]), f"{name}, {how}: the order doesn't go out")
        with stopped(line.script) if how == "stopped" else unread(line.into):
            line.script.say(f"{number} OUT 0:5:32")
            time.sleep(0.2)
            line.goes_on()
        ends = [f"lost {number} no-reply withheld OUT 0:5:30", f"expired {number} OUT 0:5:31", f"expired {number} OUT 0:5:32"]
        asks(line.until(lambda: opened(line.script, number, 2)() and all(tells(line.script, end)() for end in ends)), f"{name}, {how}: not all is told: {line.script.lines}")
        asks(line.outs() == [], f"{name}, {how}: an order of before goes out: {line.outs()}")
        line.script.say(f"{number} OUT 0:5:33")
        asks(line.until(tells(line.script, f"settled {number} OUT 0:5:33 = ACK")), f"{name}, {how}: a new order isn't done: {line.script.lines[-4:]}")


def late_packet(name, before, after, number):
    """An order is typed while nobody reads what the panel prints: it prints first that it was ordered, so the order would go out late. It is withheld."""
    with Panel(name, before, after) as line:
        with unread(line.into):
            line.script.say(f"{number} OUT 0:5:30")
            time.sleep(0.2)
            line.goes_on()
        asks(line.until(tells(line.script, f"lost {number} no-reply withheld OUT 0:5:30")), f"{name}, late: it isn't told: {line.script.lines}")
        line.until(lambda: False, 1)
        asks(line.outs() == [], f"{name}, late: the order goes out: {line.outs()}")


def quiet_panel(name, before, after, number):
    """A panel without orders keeps its session, and takes the next order."""
    with Panel(name, before, after) as line:
        with stopped(line.script):
            pass
        line.until(lambda: False, 0.5)  # what is typed before the panel looks for lines again may be older
        line.script.say(f"{number} OUT 0:5:30")
        asks(line.until(tells(line.script, f"settled {number} OUT 0:5:30 = ACK")), f"{name}, quiet: no order is done: {line.script.lines}")
        asks(not tells(line.script, "lost")(), f"{name}, quiet: the session is lost: {line.script.lines}")


class Reader:
    """A reader in an open session, whose panel the test plays."""

    def __init__(self, name, before, after):
        self.name, self.terminal = name, Terminal()
        self.out, self.into = os.pipe()
        fcntl.fcntl(self.out, 1031, 4096)
        self.script = Script(*before, self.terminal.path, 9600, *after, stdout=self.into)
        self.script.process.stdout = os.fdopen(self.out, "rb", buffering=0)
        os.set_blocking(self.out, False)
        self.opens()

    def __enter__(self):
        return self

    __exit__ = Panel.__exit__

    def opens(self):
        asks(self.name != "osdp-port reader" or self.until(tells(self.script, "reader at")), f"{self.name}: it doesn't start")  # what came before is dropped as it opens its port
        asks(self.asked(0, ID, b"\0", 20, 1) == PDID, f"{self.name}: ID isn't answered")

    def asked(self, number, code, data=b"", seconds=6, times=2):
        """The code of the reply to a packet, which is sent again where none comes: a busy machine may be late; none where none comes at all."""
        for _ in range(times):
            os.write(self.terminal.end, packet(5, number, code, data))
            if (found := self.reply(seconds)) is not None:
                return found
        return None

    def reply(self, seconds):
        end = time.monotonic() + seconds
        while time.monotonic() < end:
            if select.select([self.terminal.end], [], [], 0.02)[0]:
                for burst in self.terminal.bursts():
                    self.data = burst[6:-1]
                    return burst[5]
        return None

    def until(self, holds, seconds=20):
        end = time.monotonic() + seconds
        while not holds() and time.monotonic() < end:
            time.sleep(0.02)
            self.script.read()
        return holds()


def reader_stands_still(name, before, after):
    """An order comes, and a line is typed, while the reader is stopped: neither is taken. Its session goes on."""
    typed = "card 12345640" if name == "door_device.py" else "event KEYPAD 0 31"
    with Reader(name, before, after) as line:
        with stopped(line.script):
            os.write(line.terminal.end, packet(5, 1, OUT, bytes([0, 5, 30, 0])))
            line.script.say(typed)
        asks(line.until(tells(line.script, f"{typed}: it came while the program stood still")), f"{name}: it isn't told that a line isn't taken: {line.script.lines}")
        asks(line.reply(0.5) is None and not any(told.startswith(("taken OUT", "on 0")) for told in line.script.lines), f"{name}: an order of before is done: {line.script.lines}")
        reply = line.asked(1, POLL)
        asks(reply == ACK, f"{name}: the reader doesn't go on, or tells what was typed while it stood still: {reply}, {line.script.lines}")


def late_deed(name, before, after):
    """Nobody reads what the reader prints, and it prints something before it does an order: the order isn't done late, nor answered. Its session ends, as by a loss of power."""
    with Reader(name, before, after) as line:
        with unread(line.into):
            os.write(line.terminal.end, packet(5, 0, ID, b"\0") + packet(5, 1, OUT, bytes([0, 2, 0, 0])))
        asks(line.until(tells(line.script, "not done OUT 0:2:0")), f"{name}, late: it isn't told: {line.script.lines}")
        line.reply(0.5)
        asks(not tells(line.script, "taken OUT 0:2:0")(), f"{name}, late: the order is done: {line.script.lines}")
        line.opens()
        reply = line.asked(1, 0x66)
        asks(reply == 0x4A and line.data[:1] == b"\0", f"{name}, late: the output is on: {reply}")


def old_card(name, before, after):
    """A card comes while the panel is stopped: it opens no door, since its order expires. The session goes on, and a card after that opens the door."""
    with Panel(name, before, after) as line:
        line.held = [POLL]
        line.device.asked.clear()
        asks(line.until(lambda: any(burst[5] == POLL for burst in line.device.asked)), f"{name}, card: no POLL")
        with stopped(line.script):
            line.device.write(packet(0x85, line.device.asked[-1][4] & 3, RAW, CARD))
            line.goes_on()
        expired = "expired OUT 0:5:30" if name == "door_panel.py" else "back 1 OUT 0:5:30"
        asks(line.until(tells(line.script, expired)), f"{name}, card: its order doesn't expire: {line.script.lines}")
        asks(line.outs() == [] and line.opened() == 1, f"{name}, card: it opens the door, or the session ends: {line.script.lines}")
        line.device.replies[POLL] = (RAW, OTHER)
        asks(line.until(lambda: OLD in line.outs()), f"{name}, card: a new one doesn't open the door: {line.script.lines}")


def old_order(name, before, after):
    """The order of a panel that stores it has gone out once as it is stopped: it is in doubt, and goes out no more. One that was typed meanwhile is taken back."""
    with Panel(name, before, after) as line:
        line.held = [OUT]
        line.script.say("OUT 0:5:30")
        asks(line.until(lambda: line.outs() == [OLD]), f"{name}, order: it doesn't go out")
        with stopped(line.script):
            line.script.say("OUT 0:5:32")
            line.goes_on()
        asks(line.until(lambda: line.opened() == 2 and tells(line.script, "doubt 1 OUT 0:5:30")()), f"{name}, order: it isn't in doubt: {line.script.lines}")
        asks(line.outs() == [] and tells(line.script, "back 2 OUT 0:5:32")(), f"{name}, order: one of before goes out: {line.outs()}, {line.script.lines}")


def slow_disk(name, before, after):
    """To store a card and its order takes longer than the panel may be late: the order expires, and is told as taken back. The session goes on."""
    with tempfile.TemporaryDirectory() as folder:
        library, slow = Path(folder) / "slow.so", Path(folder) / "slow"
        subprocess.run([os.environ.get("CC", "cc"), "-O1", "-shared", "-fPIC", "-o", library, Path(__file__).resolve().with_name("slow.c")], check=True)
        with Panel(name, before, after, env={**os.environ, "LD_PRELOAD": str(library), "SLOW_SYNC": "2500", "SLOW_WHERE": str(slow)}) as line:
            slow.touch()
            line.device.replies[POLL] = (RAW, CARD)
            asks(line.until(lambda: any(told.endswith("OUT 0:5:30") for told in line.script.lines)), f"{name}, disk: the card makes no order: {line.script.lines}")
            line.device.replies[POLL] = (ACK, b"")
            slow.unlink()
            asks(line.until(tells(line.script, "back 1 OUT 0:5:30")), f"{name}, disk: it isn't told: {line.script.lines}")
            line.script.say("OUT 0:5:33")
            asks(line.until(lambda: line.outs() == [bytes([0, 5, 33, 0])]), f"{name}, disk: sent are {line.outs()}: {line.script.lines}")
            asks(line.opened() == 1, f"{name}, disk: the session ends: {line.script.lines}")


PANELS = (("stopped", partial(panel_stands_still, "stopped")), ("unread", partial(panel_stands_still, "unread")), ("late", late_packet), ("quiet", quiet_panel))
READERS = (("reader", reader_stands_still), ("deed", late_deed))


def of_package(folder):
    """What is tried of the package's examples."""
    door, stored = stored_panels(folder)
    yield "card", old_card, door
    for at, (part, run) in enumerate((("card", old_card), ("order", old_order), ("disk", slow_disk))):
        yield part, run, (stored[0], [*stored[1][:-1], f"{stored[1][-1]}{at}"], stored[2])
    yield "reader", reader_stands_still, *devices()


def main(path, *names):
    global osdp
    osdp = port_line.osdp = path
    begun = time.monotonic()
    with tempfile.TemporaryDirectory() as folder, ThreadPoolExecutor(4) as pool:  # they wait most of the time
        runs = of_package(folder) if path == "python" else [(part, run, each) for ways, ends in ((PANELS, panels()), (READERS, readers())) for each in ends for part, run in ways]
        for run in [pool.submit(run, *each) for part, run, each in runs if not names or part in names]:
            run.result()
    print(f"stood still: {len(faults)} faults in {time.monotonic() - begun:.1f} s", *faults, sep="\n")
    return 1 if faults else 0


if __name__ == "__main__":
    sys.exit(main(*sys.argv[1:]))
