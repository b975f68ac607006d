"""The short examples in Python, by what a user sees: bytes that another program takes, a second program, a port that fails, bad words, and orders.
Takes the path of the program."""
import os
import resource
import signal
import subprocess
import sys
import tempfile
import termios
import time
from pathlib import Path

import port_line
import stores
from port_line import ACK, COM, COMSET, ID, NAK, OUT, PANEL, PDID, Device, asks, faults, has, opened, tells
from terminals import Numbered, Script, Terminal, commands, packet

TOP = Path(__file__).resolve().parent.parent


def started(words, terminal, *rest, **streams):
    example, program = words
    addresses, settings = rest[0], rest[1:]
    return Numbered(*example, terminal.path, 9600, *addresses, *program, *settings, **streams)


def ended(script, status, said, what):
    """A program ends by itself, with a status and what it says on standard error."""
    try:
        found = script.process.wait(timeout=60)
    except subprocess.TimeoutExpired:
        script.process.kill()
        found = script.process.wait()
    told = script.process.stderr.read().decode()
    asks(found == status and said in told and told.count("\n") <= 2 and "Traceback" not in told, f"{what}: status {found}, and it says {told!r}")


def stolen_bytes(panel_words):
    """Another program takes all that comes for two seconds: the session is lost and told, and then it opens again."""
    terminal = Terminal()
    device, panel = Device(terminal), started(panel_words, terminal, ["5"], *PANEL)
    asks(device.until([panel], opened(panel, 1)), "stolen: the session doesn't open")
    end = time.monotonic() + 3
    thief = subprocess.Popen(["timeout", "3", "cat"], stdin=terminal.other, stdout=subprocess.DEVNULL)
    while time.monotonic() < end:
        device.answer()
    thief.wait()
    device.until([panel], lambda: False, 1)
    is_open = lambda: sum(line.startswith("opened") for line in panel.lines) == 1 + sum(line.startswith("lost") for line in panel.lines)
    asks(device.until([panel], is_open), "stolen: the panel doesn't go on")
    panel.say("1 OUT 0:2:0")
    asks(device.until([panel], has(panel, "settled 1 OUT 0:2:0 = ACK")), f"stolen: no order is done: {panel.lines[-4:]}")
    panel.process.kill()
    terminal.close()


def second_program(words):
    """A second program on the port is refused."""
    panel_words, reader_words = words
    terminal = Terminal()
    device, panel = Device(terminal), started(panel_words, terminal, ["5"], *PANEL)
    device.until([panel], opened(panel, 1))
    for each, rest in ((panel_words, ["5"]), (reader_words, [])):
        ended(started(each, terminal, rest, stderr=subprocess.PIPE), 3, "the port is in use by another program", "a second program")
    panel.process.kill()
    terminal.close()


def ends_of_orders(panel_words):
    """A port that fails, Ctrl-C, and a terminal that is closed: each order that was taken has an end."""
    for what in ("the port hangs up", "Ctrl-C", "SIGHUP"):
        terminal = Terminal()
        device, panel = Device(terminal, is_silent=lambda burst: burst[5] == OUT), started(panel_words, terminal, ["5"], *PANEL, stderr=subprocess.PIPE)
        device.until([panel], opened(panel, 1))
        panel.say("1 OUT 0:2:1\n1 OUT 0:2:2")
        asks(device.until([panel], lambda: any(burst[5] == OUT for burst in device.asked)), f"{what}: the order doesn't go out")
        if what != "the port hangs up":
            panel.process.send_signal(signal.SIGINT if what == "Ctrl-C" else signal.SIGHUP)
        else:
            os.close(terminal.end)
        panel.process.wait(timeout=60)
        panel.read()
        asks(has(panel, "in doubt 1 OUT 0:2:1", "withdrawn 1 OUT 0:2:2")(), f"{what}: the orders have no end: {panel.lines[-4:]}")


def bad_lists(panel_words):
    """Two readers at one address, a 17th, and an order for a reader that isn't there, are told in sentences."""
    terminal = Terminal()
    for addresses, said in (("5,6,5", "bad address: 5 stands twice in the list"), (",".join(map(str, range(17))), "bad address: 16, a line has 16 readers at most"),
                            ("127", "bad address: 127, an address is 0 to 126")):
        ended(started(panel_words, terminal, [addresses], *PANEL, stderr=subprocess.PIPE), 2, said, f"the list {addresses}")
    device, panel = Device(terminal), started(panel_words, terminal, ["5"], *PANEL)
    device.until([panel], opened(panel, 1))
    for order, why in (("9 OUT 0:2:0", "refused no reader 9: they are 1 to 1"), ("1 COMSET 7 9600", "refused COMSET: osdp-port does it"),
                       ("1  COMSET 7 9600", "refused COMSET: osdp-port does it"), ("1 OUT", "refused line")):
        panel.say(order)
        asks(device.until([panel], has(panel, f"not taken {order}")) and why in panel.lines, f"{order}: {panel.lines[-3:]}")
    panel.process.kill()
    terminal.close()


def closed_streams(panel_words):
    """The port never takes the place of standard input, output or error that is closed: nothing but packets goes out. Nor is standard input read where it
    can't be, as under `nohup`."""
    for closed, status in ((0, 128 + signal.SIGTERM), (1, 3), (2, 128 + signal.SIGTERM), (None, 128 + signal.SIGTERM)):
        terminal = Terminal()
        device = Device(terminal)
        streams = {"stdin": os.open(os.devnull, os.O_WRONLY if closed is None else os.O_RDONLY), "stdout": subprocess.DEVNULL, "stderr": subprocess.PIPE}
        panel = started(panel_words, terminal, ["5"], *PANEL, **streams, preexec_fn=lambda: closed is None or os.close(closed))
        os.close(streams["stdin"])
        asks(device.until([], lambda: panel.process.poll() is not None or len(device.asked) > 5, 30), f"closed streams: with {closed} closed no session opens")
        device.until([], lambda: panel.process.poll() is not None, 2 if status == 3 else 0)
        panel.process.terminate()
        found, told = panel.process.wait(timeout=60), panel.process.stderr.read().decode()
        asks(found == status and "Traceback" not in told, f"closed streams: with {closed} closed its status is {found}, and it says {told!r}")
        asks(all(burst[0] == 0x53 for burst in device.asked) and b"opened" not in terminal.held, f"closed streams: {closed} closed, on the line {terminal.held!r}")
        terminal.close()


def acts_first(reader_words):
    """An OUT is done and told before its answer goes out: a reader whose output nobody reads, and which ends by that, has not answered."""
    terminal = Terminal()
    reader = started(reader_words, terminal, [], "address", "5", stderr=subprocess.DEVNULL)
    os.write(terminal.end, packet(5, 0, 0x61, b"\0"))
    terminal.next_burst()
    reader.process.stdout.close()
    os.write(terminal.end, packet(5, 1, OUT, bytes([0, 2, 0, 0])))
    reader.process.wait(timeout=60)
    terminal.held += os.read(terminal.end, 100) if port_line.select.select([terminal.end], [], [], 0.2)[0] else b""
    asks(packet(0x85, 1, ACK) not in terminal.held, "acts first: the ACK has gone out before the deed was told")
    terminal.close()


def no_room(reader_words):
    """An event for which there is no room is told in a sentence."""
    terminal = Terminal()
    reader = started(reader_words, terminal, [], "address", "5", "room", "1")
    reader.say("event KEYPAD 0 31\nevent KEYPAD 0 32")
    end = time.monotonic() + 30
    while not tells(reader, "refused no room for another event")() and time.monotonic() < end:
        time.sleep(0.05)
        reader.read()
    asks(reader.lines == ["event KEYPAD 0 31", "event KEYPAD 0 32", "refused no room for another event"], f"no room: {reader.lines}")
    reader.process.kill()
    terminal.close()


def until(script, holds, seconds=30):
    """Reads what a program tells, until something holds. Whether it has come to hold."""
    end = time.monotonic() + seconds
    while not holds() and time.monotonic() < end:
        time.sleep(0.02)
        script.read()
    return holds()


def asked(terminal, address, number, code, data=b"", seconds=30):
    """The code of the reply to a packet; none where none comes in time."""
    os.write(terminal.end, packet(address, number, code, data))
    return terminal.next_burst()[5:6] if port_line.select.select([terminal.end], [], [], seconds)[0] else b""


def kept_place(reader_words):
    """A reader keeps its place before the panel is told, and starts there again, whatever its words say. One that can't says so and goes on."""
    example, program = reader_words
    with tempfile.TemporaryDirectory() as folder:
        kept = Path(folder) / "place"
        moved = bytes([7]) + (19200).to_bytes(4, "little")
        for option, text in ((kept, "7 at 7 19200\n"), (Path(folder) / "full", "")):
            terminal = Terminal()
            reader = Script(*example, "--keep", option, "--new", terminal.path, 9600, *program, "address", 5,
                            preexec_fn=lambda: signal.signal(signal.SIGXFSZ, signal.SIG_IGN))
            asks(asked(terminal, 5, 0, ID, b"\0") == bytes([PDID]), "kept: ID isn't answered")
            asks(stores.text(option) == "", "kept: a place was written before the reader has moved")
            if not text:  # the disk is full from now on
                resource.prlimit(reader.process.pid, resource.RLIMIT_FSIZE, (0, 0))
            asks(asked(terminal, 5, 1, COMSET, moved) == bytes([COM]), "kept: the COMSET isn't answered")
            asks(stores.text(option) == text, "kept: another place is kept as the COM goes out")
            asks(until(reader, has(reader, "moved 7 19200")) and any(line.startswith(f"not kept 7 19200: the store {option} can't be written: ") for line in reader.lines) == (not text),
                 f"kept: the reader tells {reader.lines}")
            reader.process.kill()
            reader.process.wait()
            terminal.close()
        terminal = Terminal()
        again = Script(*example, "--keep", kept, terminal.path, 9600, *program, "address", 5)
        asks(asked(terminal, 7, 0, ID, b"\0") == bytes([PDID]), "kept: the reader that starts again isn't where it was")
        terminal.note_rate()
        asks(terminal.rate == termios.B19200, "kept: the reader that starts again has another rate")
        asks(not asked(terminal, 5, 0, ID, b"\0", seconds=2), "kept: the reader is at its first address too")
        again.process.kill()
        again.process.wait()
        for text, why in (("", "has 0 bytes, and is no store"), ("7 19200\n", "is no store of osdp"), (None, "there is no store at")):
            for end in ("", "-wal", "-shm"):
                Path(f"{kept}{end}").unlink(missing_ok=True)
            if text is not None:
                kept.write_text(text)
            script = Script(*example, "--keep", kept, terminal.path, 9600, *program, stderr=subprocess.PIPE)
            ended(script, 3, why, f"kept: a file with {text!r}")
        terminal.close()


PINNED = """import termios
sets = termios.tcsetattr
termios.tcsetattr = lambda end, when, found: sets(end, when, [*found[:4], termios.B9600, termios.B9600, found[6]])"""


def refused_rate(reader_words):
    """An adapter that stays at its rate without a fault: a reader that is to leave it answers nothing, says so, and begins anew where it was; at the start it ends."""
    example, program = reader_words
    with tempfile.TemporaryDirectory() as folder:
        Path(folder, "sitecustomize.py").write_text(PINNED)
        terminal, kept, streams = Terminal(), Path(folder) / "place", {"env": {**os.environ, "PYTHONPATH": folder}}
        reader = Script(*example, "--keep", kept, "--new", terminal.path, 9600, *program, "address", 5, **streams)
        asks(asked(terminal, 5, 0, ID, b"\0") == bytes([PDID]), "refused rate: ID isn't answered")
        asks(not asked(terminal, 5, 1, COMSET, bytes([7]) + (19200).to_bytes(4, "little"), seconds=2), "refused rate: the COMSET is answered")
        asks(until(reader, has(reader, "no rate 19200")) and stores.text(kept) == "", f"refused rate: {stores.text(kept)}, {reader.lines}")
        asks(asked(terminal, 5, 2, 0x60) == bytes([NAK]), "refused rate: the session hasn't ended")
        asks(asked(terminal, 5, 0, ID, b"\0") == bytes([PDID]), "refused rate: the reader isn't where it was")
        reader.process.kill()
        reader.process.wait()
        ended(Script(*example, terminal.path, 19200, *program, stderr=subprocess.PIPE, **streams), 3, "the port has no such rate", "refused rate: at the start")
        terminal.close()


def old_events(reader_words):
    """An event that no panel has asked for in time isn't told to the panel that comes then; without an age it is."""
    for age, told, reply in (("300", True, ACK), ("0", False, 0x53)):
        terminal = Terminal()
        reader = started(reader_words, terminal, [], "address", "5", "expire", age)
        reader.say("event KEYPAD 0 31")
        asks(until(reader, has(reader, "withdrawn KEYPAD 0 31"), 30 if told else 1) == told, f"old events: at an age of {age} the reader tells {reader.lines}")
        asks("online" not in reader.lines and "offline" not in reader.lines, "old events: it was told that a panel came or went")
        asks(asked(terminal, 5, 0, ID, b"\0") == bytes([PDID]), "old events: ID isn't answered")
        asks(asked(terminal, 5, 1, 0x60) == bytes([reply]), f"old events: at an age of {age} another reply to POLL")
        asks(until(reader, has(reader, "online")), "old events: it isn't told that a panel came")
        reader.process.kill()
        terminal.close()


def main(osdp):
    words = list(commands(TOP, osdp, None))
    begun = time.monotonic()
    stolen_bytes(words[0])
    second_program(words)
    ends_of_orders(words[0])
    bad_lists(words[0])
    closed_streams(words[0])
    acts_first(words[1])
    no_room(words[1])
    kept_place(words[1])
    refused_rate(words[1])
    old_events(words[1])
    for example in words:
        name = example[0][-1]
        shown = subprocess.run([*map(str, example[0]), "--help"], capture_output=True, text=True)
        asks(shown.returncode == 0 and "Status: 2 bad words" in shown.stdout and not shown.stderr, f"{name}: --help is another text")
    for name in ("panel", "reader", "port", "lines", "outputs", "place"):
        length = len((TOP / f"examples/{name}.py").read_text().splitlines())
        asks(length < 100, f"examples/{name}.py has {length} lines: it is to stay a short one")
    print(f"short examples: {len(faults)} faults in {time.monotonic() - begun:.1f} s", *faults, sep="\n")
    return 1 if faults else 0


if __name__ == "__main__":
    sys.exit(main(*sys.argv[1:]))
