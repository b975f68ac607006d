#!/usr/bin/env python3
"""Each small panel with each small device, over a line of two terminals: `pairs.py PROGRAMS_IN_C PROGRAMS_IN_RUST CRATES PROGRAMS_IN_PYTHON`, four folders.

The programs are those of examples/, of crates/ and of python/: a panel that opens a door for two cards, and a device with two outputs, in C, in Rust, in Rattle and
in Python. Those in C, Rust and Python run on a terminal. Those in Rattle are called by lines, as a program on a port calls them. In each pair a card that is unknown opens nothing,
and each of the two that are known opens the door once. Before that each device in C, Rust and Python keeps
its place over a COMSET, before the panel is told, and starts there again; and stays in its place where its port hasn't the rate of a COMSET."""
import os
import select
import subprocess
import sys
import tempfile
import termios
import time
from pathlib import Path

import stores
from terminals import Script, Terminal, packet

UNKNOWN, FIRST, SECOND = "11111140", "12345640", "65432180"
SECONDS = 20  # how long a pair may take at most
WAIT = 0.01


class OnPort:
    """A program on a terminal: what it writes there is taken, and what comes to it is written there."""

    def __init__(self, program):
        self.terminal = Terminal()
        self.script = Script(program, self.terminal.path, 9600)

    def take(self):
        """The bytes that it has sent, and the lines that it has told."""
        self.script.read()
        sent = b""
        while select.select([self.terminal.end], [], [], 0)[0]:
            sent += os.read(self.terminal.end, 4096)
        return sent, self.script.lines

    def give(self, sent):
        if sent:
            os.write(self.terminal.end, sent)

    def say(self, line):
        self.script.say(line)

    def end(self):
        self.script.process.terminate()
        self.script.process.wait()
        self.terminal.close()


class ByLines:
    """A program that is called by lines: a line is a turn, and its answer ends with a line of its own."""

    def __init__(self, program):
        self.process = subprocess.Popen([program], stdin=subprocess.PIPE, stdout=subprocess.PIPE, text=True)
        self.started = time.monotonic()
        self.sent, self.lines = b"", []

    def say(self, line):
        self.process.stdin.write(f"{line}\n")
        self.process.stdin.flush()
        for answer in self.process.stdout:
            words = answer.split()
            if words[0] == "send":
                self.sent += bytes.fromhex(words[1])
            elif words[0] in ("due", "done"):
                return
            else:
                self.lines.append(answer.strip())

    def give(self, sent):
        moment = int((time.monotonic() - self.started) * 1000)
        self.say(f"{moment} {sent.hex().upper() or 'none'}")

    def take(self):
        sent, self.sent = self.sent, b""
        return sent, self.lines

    def end(self):
        self.process.stdin.close()
        self.process.wait()


def run(panel, device):
    """What is wrong with a pair, if anything is."""
    end = time.monotonic() + SECONDS
    cards = [UNKNOWN, FIRST, SECOND]
    said = 0
    polls = 0
    while time.monotonic() < end:
        out, _ = panel.take()
        back, told = device.take()
        device.give(out)
        panel.give(back)
        polls += bool(out)
        if "on 0" in told and said < 2:
            return "the unknown card has opened"
        opened = told.count("on 0")
        if said == 3 and opened == 2:
            return None
        if (said == 0 and polls > 10) or (said == 1 and polls > 25) or (said == 2 and opened == 1):
            device.say(f"card {cards[said]}")
            said += 1
        time.sleep(WAIT)
    return f"after {said} cards: {device.take()[1]}"


def asked(terminal, *words, seconds=2):
    """The code of the reply to a packet; none where none comes in time."""
    os.write(terminal.end, packet(*words))
    return terminal.next_burst()[5:6] if select.select([terminal.end], [], [], seconds)[0] else b""


def keeps_place(program):
    """What is wrong with the place that a device keeps, if anything is."""
    with tempfile.TemporaryDirectory() as folder:
        kept = Path(folder) / "place"
        terminal = Terminal()
        first = Script(program, "--keep", kept, "--new", terminal.path, 9600)
        answers = [asked(terminal, 5, 0, 0x61, b"\0", seconds=20), "19200" in stores.text(kept), asked(terminal, 5, 1, 0x6E, bytes([7]) + (19200).to_bytes(4, "little")),
                   stores.text(kept).partition(" at ")[2]]
        first.process.kill()
        first.process.wait()
        terminal.close()
        terminal = Terminal()
        again = Script(program, "--keep", kept, terminal.path, 9600)
        answers += [asked(terminal, 7, 0, 0x61, b"\0", seconds=20), asked(terminal, 5, 0, 0x61, b"\0")]
        terminal.note_rate()
        again.process.kill()
        again.process.wait()  # until then it has the port
        for end in ("", "-wal", "-shm"):
            Path(f"{kept}{end}").unlink(missing_ok=True)
        kept.write_text("7\n")
        ended = subprocess.run([program, "--keep", kept, terminal.path, "9600"], capture_output=True, text=True, timeout=30)
        terminal.close()
    if answers != [b"\x45", False, b"\x54", "7 19200\n", b"\x45", b""] or terminal.rate != termios.B19200:
        return f"it answers {answers}, at rate {terminal.rate}"
    return None if ended.returncode and f"{kept} is no store of osdp. Bring back a copy" in ended.stderr else f"of a file that keeps something else it says {ended.stderr!r}"


def stays_in_place(program, address, event, *rest):
    """What is wrong where a device gets a COMSET to a rate that its port hasn't, if anything is. It answers nothing and keeps nothing, and begins anew where it was. The
    event that waits is told as withdrawn."""
    with tempfile.TemporaryDirectory() as folder:
        kept, terminal = Path(folder) / "place", Terminal()
        device = Script(program, "--keep", kept, "--new", terminal.path, 9600, *rest)
        answers = [asked(terminal, address, 0, 0x61, b"\0", seconds=20)]
        device.say(event)
        time.sleep(0.5)  # until it has read that
        answers += [asked(terminal, address, 1, 0x6E, bytes([7]) + (12345).to_bytes(4, "little")), stores.text(kept) not in ("", f"{address} at {address} 9600\n"), asked(terminal, address, 2, 0x60),
                    asked(terminal, address, 0, 0x61, b"\0"), asked(terminal, 7, 0, 0x61, b"\0", seconds=1)]
        device.read()
        device.process.kill()
        device.process.wait()
        terminal.close()
    if answers != [b"\x45", b"", False, b"\x41", b"\x45", b""]:
        return f"it answers {answers}"
    return None if "no rate 12345" in device.lines and any(line.lower().startswith("withdrawn") for line in device.lines) else f"it tells {device.lines}"


def main():
    c, rust, crates, python = (Path(word) for word in sys.argv[1:])
    ends = {}
    for role in ("panel", "device"):
        ends[role] = {
            "C": lambda role=role: OnPort(c / f"door_{role}"),
            "Rust": lambda role=role: OnPort(rust / f"door_{role}"),
            "Python": lambda role=role: OnPort(python / f"door_{role}.py"),
        }
        program = crates / f"osdp_example_{role}/out/osdp_example_{role}"
        ends[role]["Rattle"] = lambda program=program: ByLines(program)
    faults = 0
    for name, program in (("C", c / "door_device"), ("Rust", rust / "door_device"), ("Python", python / "door_device.py")):
        why = keeps_place(program)
        if why:
            faults += 1
            print(f"the device in {name} doesn't keep its place: {why}")
    card, keys = "card 12345640", "KEYPAD 0 31"
    for name, *words in (("C", c / "door_device", 5, card), ("Rust", rust / "door_device", 5, card), ("Python", python / "door_device.py", 5, card),
                         ("C, with keys,", c / "keypad_reader", 3, keys, 3), ("Rust, with keys,", rust / "keypad_reader", 1, keys)):
        why = stays_in_place(*words)
        if why:
            faults += 1
            print(f"the device in {name} doesn't stay in its place: {why}")
    for one, new_panel in ends["panel"].items():
        for other, new_device in ends["device"].items():
            panel, device = new_panel(), new_device()
            why = run(panel, device)
            panel.end()
            device.end()
            if why:
                print(f"a panel in {one}, a device in {other}: {why}")
                faults += 1
    return 1 if faults else 0


if __name__ == "__main__":
    sys.exit(main())
