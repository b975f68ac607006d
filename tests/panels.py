"""Panels and readers in C and in Rust, by what their users see where something goes wrong: a port that another program reads or has, an adapter that is pulled,
Ctrl-C, answers to a COMSET that are lost or can't be read, a panel that starts again, another device at a reader's place, power that is lost between a deed and its
answer, and programs that were stopped.

Takes the folder of the examples in C, that of those in Rust, and that of the crates, where `osdp_example_panel` was built. Each case has pseudo terminals of its own, and the cases run beside each other.
"""
import fcntl
import os
import re
import select
import signal
import subprocess
import sys
import tempfile
import termios
import time
from concurrent.futures import ProcessPoolExecutor
from pathlib import Path

import examples
import stores
from examples import ACK, COM, COMSET, ID, NAK, PDID, POLL, Device, Line, asks, has, opened, taken
from terminals import Script, Terminal, crc_packet, packet

TOP = Path(__file__).resolve().parent.parent
CRATES = sys.argv[3]
OUT, RAW = 0x68, 0x50
CARD, OTHER = (bytes([0, 0, 26, 0]) + bytes.fromhex(card) for card in ("12345640", "65432180"))  # both open doors
FAST = "check sum poll-interval 20 reply-wait 300 sends 2 quiet-wait 60".split()
SETTINGS = {"fast": FAST, "the defaults": ["check", "sum"], "reply-wait 400": ["check", "sum", "reply-wait", "400"]}
FOUND = 60.0  # after how many seconds readers that answer have not been found
ROUNDS = 4  # in so many rounds each reader is tried at each of its places


def all_words(c):
    return [([f"{c}/panel"], []), ([f"{c}/reader"], [])]


def keeps(path):
    """The words that name a program's store: one that isn't there is made."""
    return stores.options(path)


def whole(*lines):
    """The lines of a store, or of the file of the panel in Rattle."""
    return "".join(f"{line}\n" for line in lines)


def turned(line):
    """A line of a store with its places in the other order: the one in use stands last here, and has rank 0 there."""
    name, _, rest = line.partition(" at ")
    places, sign, identity = rest.partition(" is ")
    return f"{name} at {' or '.join(places.split(' or ')[::-1])}{sign}{identity}"


def kept_text(path):
    """The lines of a store, or of the file of the panel in Rattle."""
    head = Path(path).read_bytes()[:6] if Path(path).exists() else b""
    return whole(*map(turned, stores.text(path).splitlines())) if head == b"SQLite" else Path(path).read_text()


def keep_lines(path, *lines, is_rattle=False):
    """Writes a store, or the file of the panel in Rattle, in the place of the one before."""
    for end in ("", "-wal", "-shm"):
        Path(f"{path}{end}").unlink(missing_ok=True)
    if is_rattle:
        Path(path).write_text(whole(*lines))
    else:
        stores.write(path, *map(turned, lines))


def lost(panel, number):
    return any(line.startswith(f"lost {number} ") for line in panel.lines)


def answered(device, script, seconds):
    """Plays a device for some seconds."""
    device.until(script, lambda: False, seconds)


def stolen(c, _):
    """A second program reads the port for a while: it is refused, or the panel goes on when it has ended."""
    with Line(all_words(c)) as line:
        panel, device = line.panel("5", *FAST), Device(line.panel_end, {})
        asks(device.until(panel, opened(panel, 1)), "stolen: the session doesn't open")
        thieves = [subprocess.Popen(["cat", line.panel_end.path], stdout=subprocess.DEVNULL, stderr=subprocess.DEVNULL) for _ in range(2)]
        answered(device, panel, 3)
        for thief in thieves:
            thief.kill()
            thief.wait()
        device.asked.clear()
        asks(device.until(panel, lambda: len(device.asked) > 5, 20), "stolen: the panel polls no more")
        times = sum(each.startswith("opened 1 ") for each in panel.lines)
        asks(device.until(panel, lambda: not lost(panel, 1) or opened(panel, 1, max(times, 2))(), 20), "stolen: the session doesn't open again")
        panel.say("1 OUT 0:2:1")
        asks(device.until(panel, lambda: any("OUT 0:2:1" in each and not each.startswith("ordered") for each in panel.lines), 20), "stolen: an order has no end")


def stolen_from_rust(_, rust):
    """The same of the panel in Rust: it polls on."""
    with Line([([f"{rust}/door_panel"], []), ([], [])]) as line:
        panel = Script(f"{rust}/door_panel", line.panel_end.path, 9600)
        line.scripts.append(panel)
        device = Device(line.panel_end, {})
        is_open = lambda: any(each.startswith("Opened") for each in panel.lines)
        asks(device.until(panel, is_open), "stolen from Rust: the session doesn't open")
        thief = subprocess.Popen(["cat", line.panel_end.path], stdout=subprocess.DEVNULL, stderr=subprocess.DEVNULL)
        answered(device, panel, 2)
        thief.kill()
        thief.wait()
        device.asked.clear()
        asks(device.until(panel, lambda: len(device.asked) > 5, 20), "stolen from Rust: the panel polls no more")


def taken_port(c, rust):
    """A second program is told whose port it is, in both languages and from each to the other. The lock goes with the program that has it."""
    for first in ([f"{c}/panel", "{}", 9600, 5], [f"{rust}/door_panel", "{}", 9600]):
        terminal = Terminal()
        holder = Script(*[terminal.path if word == "{}" else word for word in first])
        select.select([terminal.end], [], [], 20)  # it has sent its first packet
        name = Path(first[0]).name
        for program, status in (([f"{c}/panel", terminal.path, 9600, 5], 3), ([f"{c}/door_device", terminal.path, 9600], 3), ([f"{rust}/door_device", terminal.path, 9600], 1)):
            done = subprocess.run([str(word) for word in program], stdin=subprocess.DEVNULL, capture_output=True, text=True, timeout=20)
            said = f"another program has the port {terminal.path}: {name}, process {holder.process.pid}\n"
            asks(done.returncode == status and done.stderr.endswith(said), f"taken: {program} ends with {done.returncode}, {done.stderr!r}")
        flags = fcntl.fcntl(terminal.other, fcntl.F_GETFL)
        asks(not flags & os.O_NONBLOCK, "taken: another program's port has become non-blocking")
        holder.process.terminate()
        holder.process.wait()
        terminal.close()


def ends_of_orders(c, _):
    """Where the program ends by Ctrl-C, or by its port, what is under way and what waits is told, and Ctrl-C says nothing else."""
    for how, status, said, cause in (("Ctrl-C", 130, "", "stopped"), ("the port is gone", 3, r"the port can't be (read|written)\n", "port-gone")):
        with Line(all_words(c)) as line:
            panel = line.panel("5", *FAST, stderr=subprocess.PIPE)
            device = Device(line.panel_end, {})
            asks(device.until(panel, opened(panel, 1)), f"{how}: the session doesn't open")
            panel.say("1 OUT 0:2:1\n1 OUT 0:2:2\n1 OUT 0:2:3")
            end = time.monotonic() + 20
            while time.monotonic() < end and not any(burst[5] == OUT for burst in line.panel_end.bursts()):
                select.select([line.panel_end.end], [], [], 1)  # the first order goes out, and isn't answered
            if how == "Ctrl-C":
                panel.process.send_signal(signal.SIGINT)
            else:
                os.close(line.panel_end.end)
                line.panel_end.end = os.open("/dev/null", os.O_RDONLY)
            found = panel.process.wait(timeout=20)
            panel.read()
            told = [f"lost 1 {cause} OUT 0:2:1", "withdrawn 1 OUT 0:2:2", "withdrawn 1 OUT 0:2:3"]
            asks(panel.lines[-3:] == told, f"{how}: the ends of orders are {panel.lines[-4:]}")
            stderr = panel.process.stderr.read().decode()
            asks(found == status and re.fullmatch(said, stderr), f"{how}: status {found}, {stderr!r}")


def many_stops(c, _):
    """Ctrl-C at many moments, also while another program takes bytes away."""
    for at in range(12):
        with Line(all_words(c)) as line:
            panel, device = line.panel("5", *FAST, stderr=subprocess.PIPE), Device(line.panel_end, {})
            device.until(panel, opened(panel, 1))
            thief = subprocess.Popen(["cat", line.panel_end.path], stdout=subprocess.DEVNULL, stderr=subprocess.DEVNULL)
            answered(device, panel, 0.1 + at * 0.013)
            panel.process.send_signal(signal.SIGINT)
            try:
                found = panel.process.wait(timeout=5)
            except subprocess.TimeoutExpired:
                found = None
                panel.process.kill()
            stderr = panel.process.stderr.read().decode()
            asks((found, stderr) == (130, ""), f"Ctrl-C: status {found}, {stderr!r}")
            thief.kill()
            thief.wait()


def sentences(c, _):
    """What the list, an order or an event is refused for is said in words, by addresses."""
    terminal = Terminal()
    many = ",".join(map(str, range(17)))
    for addresses, said in (("5,6,5", "device 5 is in the list twice\n"), (many, "device 16 is one too many: a panel has 16 at most\n"), ("5,127", "bad address: 127 is above 126\n")):
        done = subprocess.run([f"{c}/panel", terminal.path, "9600", addresses], stdin=subprocess.DEVNULL, capture_output=True, text=True, timeout=20)
        asks((done.returncode, done.stderr) == (2, said), f"sentences: {addresses} ends with {done.returncode}, {done.stderr!r}")
    terminal.close()
    with Line(all_words(c), 2) as line:
        panel = line.panel("5,6", *FAST, "capacity", 1)
        line.reader(0, 5), line.reader(1, 6)
        asks(line.run(lambda: opened(panel, 1)() and opened(panel, 2)()), "sentences: the sessions don't open")
        for order, why in (("3 OUT 0:2:0", "no device 3: the list has 1 at 5, 2 at 6"), ("1 COMSET 6 9600", "address 6 is that of device 2")):
            panel.say(order)
            asks(line.run(has(panel, f"ordered {order}", f"refused {why}", f"not taken {order}")), f"sentences: {order} is told {panel.lines[-3:]}")
        panel.say("1 OUT 0:2:1\n1 OUT 0:2:2\n1 OUT 0:2:3")
        asks(line.run(has(panel, "refused as many orders wait for device 1 at 5 as there is room for")), f"sentences: a full queue is told {panel.lines[-5:]}")
    with Line(all_words(c)) as line:
        reader = Script(f"{c}/reader", line.reader_ends[0].path, 9600, "address", 5, "room", 1)
        line.scripts.append(reader)
        reader.say("event KEYPAD 0 31\nevent KEYPAD 0 32")
        asks(line.run(has(reader, "refused as many events wait at this device as there is room for")), f"sentences: a full queue of events is told {reader.lines}")


def one_rate(line):
    return len({end.rate for end in (line.panel_end, *line.reader_ends)}) == 1


def lost_answers(c, _, count, losers, kind, name):
    """Of so many readers these lose answers to a COMSET of the rate: all are found again, at one rate, and each takes an order."""
    what = f"{count} readers, {kind} of {losers} lost, {name}"
    with Line(all_words(c), count) as line:
        panel = line.panel(",".join(str(5 + at) for at in range(count)), *SETTINGS[name])
        readers = [line.reader(at, 5 + at) for at in range(count)]
        numbers = range(1, count + 1)
        asks(line.run(lambda: all(opened(panel, number)() for number in numbers)), f"{what}: the sessions don't open")
        addresses = {4 + number for number in losers}
        loses = {
            "COM": lambda way, burst: burst[5] == COM and burst[1] & 0x7F in addresses,
            "COMSET": lambda way, burst: burst[5] == COMSET and burst[1] in addresses,
            "each answer": lambda way, burst: way == "in" and burst[1] & 0x7F in addresses,
        }
        line.loses = loses[kind]
        if kind == "each answer":
            line.run(lambda: False, 0.1)
        panel.say("1 COMSET 5 19200")
        asks(line.run(lambda: all(lost(panel, number) for number in losers)), f"{what}: not all are lost: {panel.lines[-12:]}")
        line.loses = lambda way, burst: False
        before = len(panel.lines)
        is_open = lambda: all(sum(each.startswith(f"opened {number} ") for each in panel.lines) >= 2 or not lost(panel, number) for number in numbers)
        asks(line.run(lambda: is_open() and one_rate(line), FOUND), f"{what}: not all are found: {panel.lines[-12:]}")
        told = panel.lines[before:]
        asks(sum(each.startswith("rate ") for each in told) <= ROUNDS, f"{what}: the rounds are {told}")
        asks(sum(each.startswith("looks for ") for each in told) <= count, f"{what}: the searches are {told}")
        line.rests(0.5)
        for number, reader in zip(numbers, readers):
            line.run(lambda: f"settled {number} OUT 0:2:{number} = ACK" in panel.lines or not panel.say(f"{number} OUT 0:2:{number}") and line.rests(1) and False, 30)
            asks(f"taken OUT 0:2:{number}" in reader.lines, f"{what}: reader {number} takes no order: {panel.lines[-12:]}")


def lost_burst(c, _, count, at):
    """Of so many readers a COMSET of the rate loses one answer, the one at this place: all are found again."""
    with Line(all_words(c), count) as line:
        panel = line.panel(",".join(str(5 + each) for each in range(count)), *FAST)
        for each in range(count):
            line.reader(each, 5 + each)
        numbers = range(1, count + 1)
        asks(line.run(lambda: all(opened(panel, number)() for number in numbers)), f"one answer: the sessions of {count} don't open")
        answers = []

        def loses(way, burst):
            answers.extend([burst] if way == "in" else [])
            return way == "in" and len(answers) == at + 1

        line.loses = loses
        panel.say("1 COMSET 5 19200")
        holds = lambda: line.panel_end.rate == termios.B19200 and one_rate(line) and all(opened(panel, number, 2)() for number in numbers)
        asks(line.run(holds, FOUND), f"one answer, {at} of {count}: {panel.lines[-12:]}")


def one_is_dead(c, _):
    """Of three readers, which have lost the answers to a COMSET of the rate, one has no power any more: the others are found, and their sessions stay while it is
    looked for. When it has power again it is found too, at the place that it has kept."""
    with tempfile.TemporaryDirectory() as folder, Line(all_words(c), 3) as line:
        panel = line.panel("5,6,7", *FAST)
        readers = [line.reader(at, 5 + at, options=keeps(f"{folder}/{at}")) for at in range(3)]
        asks(line.run(lambda: all(opened(panel, number)() for number in (1, 2, 3))), "dead: the sessions don't open")
        line.loses = lambda way, burst: burst[5] == COM or burst[1] == 7 and burst[5] == COMSET
        panel.say("1 COMSET 5 19200")
        asks(line.run(lambda: all(lost(panel, number) for number in (1, 2, 3))), "dead: not all are lost")
        line.loses = lambda way, burst: False
        readers[2].process.kill()
        readers[2].process.wait()
        line.scripts.remove(readers[2])
        fcntl.ioctl(line.reader_ends[2].other, termios.TIOCNXCL)
        asks(line.run(lambda: opened(panel, 1, 2)() and opened(panel, 2, 2)(), FOUND), f"dead: the others aren't found: {panel.lines[-12:]}")
        before = len(panel.lines)
        asks(line.run(has(panel, "looks for 3 at 7 9600", "out of reach 3 at 9600")), f"dead: it isn't looked for: {panel.lines[-12:]}")
        asks(line.run(lambda: panel.lines.count("looks for 3 at 7 9600") > 2), f"dead: it isn't looked for again: {panel.lines[-12:]}")
        panel.say("1 OUT 0:2:1")
        asks(line.run(has(panel, "settled 1 OUT 0:2:1 = ACK")), "dead: another reader takes no order")
        told = [each for each in panel.lines[before:] if each.startswith(("rate ", "lost 1", "lost 2"))]
        asks(told == [], f"dead: the search has cost {told}")
        line.reader(2, 7, options=["--keep", f"{folder}/2"])
        asks(line.run(lambda: opened(panel, 3, 3)() and one_rate(line), FOUND), f"dead: it isn't found again: {panel.lines[-12:]}")


class Stubborn:
    """A device that refuses each COMSET, at the reader's side of a terminal."""

    def __init__(self, terminal, address):
        self.end, self.address, self.held = terminal.other, address, b""
        attributes = termios.tcgetattr(self.end)
        attributes[4] = attributes[5] = termios.B9600
        termios.tcsetattr(self.end, termios.TCSANOW, attributes)

    def answer(self):
        if select.select([self.end], [], [], 0)[0]:
            self.held += os.read(self.end, 4096)
        while len(self.held) >= 4 and len(self.held) >= self.held[2]:
            burst, self.held = self.held[:self.held[2]], self.held[self.held[2]:]
            if burst[1] == self.address:
                code, data = {ID: (PDID, examples.IDENTITY), COMSET: (NAK, b"\x09")}.get(burst[5], (ACK, b""))
                os.write(self.end, packet(self.address | 0x80, burst[4] & 3, code, data))


def refused_rate(c, _):
    """Of two readers one refuses the rate to which the other has moved: the other is fetched back, and the session of the one that refuses stays."""
    with Line(all_words(c), 2) as line:
        panel = line.panel("5,6", *FAST)
        first = line.reader(0, 5)
        second = Stubborn(line.reader_ends[1], 6)
        both = lambda: second.answer() or (opened(panel, 1)() and opened(panel, 2)())
        asks(line.run(both), "refusing: the sessions don't open")
        panel.say("1 COMSET 9 19200")
        told = ["moved 1 COMSET 9 19200 = COM 9 19200", "settled 2 COMSET 6 19200 = NAK 9", "looks for 1 at 9 19200", "ordered 1 COMSET 9 9600", "moved 1 COMSET 9 9600 = COM 9 9600"]
        asks(line.run(lambda: second.answer() or (has(panel, *told)() and opened(panel, 1, 3)())), f"refusing: the panel tells {panel.lines[-12:]}")
        asks(not any(each.startswith(("rate ", "lost 2")) for each in panel.lines), f"refusing: the other session didn't stay: {panel.lines[-12:]}")
        panel.say("1 OUT 0:2:1")
        asks(line.run(lambda: second.answer() or "taken OUT 0:2:1" in first.lines), "refusing: the reader that was fetched takes no order")


def swapped(c, _):
    """One reader moves away, and another takes its address. The panel starts again with the same words: each order goes to its own reader."""
    with tempfile.TemporaryDirectory() as folder, Line(all_words(c), 2) as line:
        kept = f"{folder}/panel"
        panel = line.panel("5,6", *FAST, options=keeps(kept))
        readers = [Script(f"{c}/reader", *keeps(f"{folder}/{at}"), line.reader_ends[at].path, 9600, "address", 5 + at, "serial", 100 + at, "gap", 300) for at in range(2)]
        line.scripts += readers
        asks(line.run(lambda: opened(panel, 1)() and opened(panel, 2)()), "swapped: the sessions don't open")
        line.rests(0.1)
        asks(kept_text(kept) == whole("5 at 5 9600 is 000000 0 100", "6 at 6 9600 is 000000 0 101"), f"swapped: at first the file has {kept_text(kept)!r}")
        panel.say("1 COMSET 7 9600")
        asks(line.run(opened(panel, 1, 2)), "swapped: the first reader doesn't move")
        panel.say("2 COMSET 5 9600")
        asks(line.run(opened(panel, 2, 2)), "swapped: the second reader doesn't move")
        asks(kept_text(kept) == whole("5 at 7 9600 is 000000 0 100", "6 at 5 9600 is 000000 0 101"), f"swapped: the file has {kept_text(kept)!r}")
        panel.process.kill()
        panel.process.wait()
        fcntl.ioctl(line.panel_end.other, termios.TIOCNXCL)
        line.scripts.remove(panel)
        again = line.panel("5,6", *FAST, options=["--keep", kept])
        asks(line.run(lambda: opened(again, 1)() and opened(again, 2)()), "swapped: the sessions don't open again")
        again.say("1 OUT 0:5:30")
        asks(line.run(has(again, "settled 1 OUT 0:5:30 = ACK")), "swapped: the order isn't done")
        line.rests(0.2)
        asks(taken(readers[0])[-1:] == ["taken OUT 0:5:30"] and not any("OUT" in each for each in taken(readers[1])), "swapped: the wrong reader has taken the order")
        again.process.kill()
        again.process.wait()
        fcntl.ioctl(line.panel_end.other, termios.TIOCNXCL)
        refused = subprocess.run([f"{c}/panel", "--keep", kept, line.panel_end.path, "9600", "5,6,7"], capture_output=True, text=True, timeout=20, stdin=subprocess.DEVNULL)
        said = "no device can start at address 7: device 5, which is kept, may be there\n"
        asks((refused.returncode, refused.stderr) == (2, said), f"swapped: a third device ends with {refused.returncode}, {refused.stderr!r}")


def kept_before(c, _):
    """Before a COMSET goes out the file has both places, and a panel that is killed then finds the reader at either, also at another rate."""
    for loses, where in ((COM, "7 19200"), (COMSET, "5 9600")):
        with tempfile.TemporaryDirectory() as folder, Line(all_words(c)) as line:
            kept = Path(folder) / "panel"
            panel = line.panel("5", *FAST, options=keeps(kept))
            line.reader(0, 5)
            asks(line.run(opened(panel, 1)), "kept: the session doesn't open")
            line.loses = lambda way, burst: burst[5] == loses
            panel.say("1 COMSET 7 19200")
            asks(line.run(lambda: any(burst[5] == loses for _, burst in line.bursts)), "kept: the COMSET doesn't go out")
            asks(kept_text(kept) == whole("5 at 7 19200 or 5 9600 is 53494D 1 0"), f"kept: as the COMSET goes out the file has {kept_text(kept)!r}")
            panel.process.kill()
            panel.process.wait()
            fcntl.ioctl(line.panel_end.other, termios.TIOCNXCL)
            line.loses = lambda way, burst: False
            again = line.panel("5", *FAST, options=["--keep", kept])
            asks(line.run(opened(again, 1)), f"kept: the reader isn't found again: {again.lines[-12:]}")
            line.rests(0.1)
            asks(kept_text(kept) == whole(f"5 at {where} is 53494D 1 0"), f"kept: in the end the file has {kept_text(kept)!r}")


def another_device(c, _):
    """Another device at a reader's place gets no order until a line allows it; what it is, is kept then. None is sent to the address of one that is kept."""
    with tempfile.TemporaryDirectory() as folder, Line(all_words(c)) as line:
        kept = Path(folder) / "panel"
        keep_lines(kept, "5 at 5 9600 is 53494D 1 77", "9 at 9 9600")
        panel, reader = line.panel("5", *FAST, options=["--keep", kept]), line.reader(0, 5)
        asks(line.run(has(panel, "another device 1 at 5: it gets no order until `1 accept`")), "another: it isn't told")
        panel.say("1 OUT 0:2:1")
        asks(line.run(has(panel, "refused another device answers there", "not taken 1 OUT 0:2:1")), "another: its order isn't refused")
        asks(kept_text(kept).startswith("5 at 5 9600 is 53494D 1 77\n"), "another: it was kept before it was allowed")
        panel.say("1 accept\n1 OUT 0:2:2")
        asks(line.run(has(panel, "settled 1 OUT 0:2:2 = ACK")), "another: after the word it gets no order")
        panel.say("1 COMSET 9 9600")
        said = "refused a device that is kept, and isn't in the list, may have that address"
        asks(line.run(has(panel, said, "not taken 1 COMSET 9 9600")), f"another: it is sent where a device may be that is kept: {panel.lines[-12:]}")
        asks(kept_text(kept) == whole("5 at 5 9600 is 53494D 1 0", "9 at 9 9600"), f"another: the file has {kept_text(kept)!r}")
        asks(taken(reader) == ["taken OUT 0:2:2"], f"another: the reader has taken {taken(reader)}")


def other_elsewhere(c, _):
    """Another device that is found at another rate than the others' is told, allowed, and then brought to them."""
    with tempfile.TemporaryDirectory() as folder, Line(all_words(c), 2) as line:
        kept = Path(folder) / "panel"
        keep_lines(kept, "5 at 5 9600", "6 at 6 19200 is 53494D 1 77")
        panel = line.panel("5,6", *FAST, options=["--keep", kept])
        line.reader(0, 5)
        other = Script(f"{c}/reader", line.reader_ends[1].path, 19200, "address", 6, *examples.READER)
        line.scripts.append(other)
        asks(line.run(has(panel, "another device 2 at 6: it gets no order until `2 accept`")), f"elsewhere: it isn't told: {panel.lines[-12:]}")
        panel.say("2 OUT 0:2:1")
        asks(line.run(has(panel, "not taken 2 OUT 0:2:1")), "elsewhere: its order isn't refused")
        asks("19200 is 53494D 1 77" in kept_text(kept), "elsewhere: it was kept before it was allowed")
        panel.say("2 accept")
        asks(line.run(has(panel, "moved 2 COMSET 6 9600 = COM 6 9600")), f"elsewhere: it isn't brought to the others: {panel.lines[-12:]}")
        asks("not taken 2 accept" not in panel.lines, "elsewhere: the word isn't taken")
        asks(line.run(opened(panel, 2, 3)), "elsewhere: its session doesn't open")
        panel.say("2 OUT 0:2:2")
        asks(line.run(has(panel, "settled 2 OUT 0:2:2 = ACK")), "elsewhere: it gets no order")
        asks(taken(other) == ["taken COMSET 6 9600", "taken OUT 0:2:2"], f"elsewhere: it has taken {taken(other)}")
        asks(kept_text(kept).endswith("6 at 6 9600 is 53494D 1 0\n"), f"elsewhere: the file has {kept_text(kept)!r}")


class Odd(Device):
    """A device that answers its first COMSET otherwise than by a COM: by a code that nobody can read, and stays where it is, or by an ACK, and moves. It takes the others, and notes what it is ordered."""

    def __init__(self, terminal, address=5, odd=0x99):
        super().__init__(terminal, {})
        self.address, self.odd, self.orders, self.polls, self.card, self.is_silent = address, odd, [], 0, None, False
        self.holds, self.held = False, None  # whether a POLL is held back, and the one that is
        self.deaf = None  # a code of commands that aren't answered

    def answer(self):
        for burst in self.terminal.bursts() if select.select([self.terminal.end], [], [], 0.01)[0] else ():
            self.orders += [burst[5]] if burst[5] in (OUT, COMSET) else []
            if burst[1] != self.address or self.is_silent or burst[5] == self.deaf:
                continue
            if burst[5] == POLL and self.holds:
                self.held = burst
                continue
            self.polls += burst[5] == POLL
            code, data = {ID: (PDID, examples.IDENTITY), COMSET: (COM, burst[6:11])}.get(burst[5], (ACK, b""))
            if burst[5] == COMSET and self.orders.count(COMSET) == 1:
                code, data = self.odd, b""
            elif burst[5] == POLL and self.card:
                code, data, self.card = RAW, self.card, None
            self.reply(burst, code, data)
            self.address = burst[6] if burst[5] == COMSET and code != 0x99 else self.address

    def reply(self, burst, code, data):
        check = crc_packet if burst[4] & 4 else packet
        os.write(self.terminal.end, check(burst[1] | 0x80, burst[4] & 3, code, data))

    def is_polled(self, script):
        """Whether it is polled some times from now on."""
        self.polls = 0
        return self.until(script, lambda: self.polls > 3)


def started(c, line, name):
    """A panel for one reader, what its openings are told by, and how it is told to send the reader to 8."""
    if name == "panel":
        return line.panel("5", *FAST), "opened 1", "1 COMSET 8 9600"
    line.scripts.append(Script(f"{c}/door_panel", line.panel_end.path, 9600))
    return line.scripts[-1], "opened 1", "move 8 9600"


def odd_comset(c, _, name, odd):
    """After a COMSET whose answer is no COM that can be read the reader is looked for anew, and the next COMSET is taken. Until then nothing more is said to it."""
    with Line(all_words(c)) as line:
        panel, word, moves = started(c, line, name)
        device = Odd(line.panel_end, odd=odd)
        openings = lambda: sum(each.startswith(word) for each in panel.lines)
        asks(device.until(panel, lambda: openings() == 1) and device.is_polled(panel), f"unread, {name}: the session doesn't open")
        panel.say(moves)
        asks(device.until(panel, lambda: openings() == 2), f"unread, {name}: the reader isn't looked for anew: {panel.lines[-6:]}")
        told = "unread 1 code 99 COMSET 8 9600" if odd == 0x99 else "settled 1 COMSET 8 9600 = ACK"
        asks(told in panel.lines and device.is_polled(panel), f"unread, {name}: it isn't told: {panel.lines[-6:]}")
        panel.say(moves)
        asks(device.until(panel, lambda: openings() == 3), f"unread, {name}: the next COMSET isn't taken: {panel.lines[-6:]}")
        asks(device.address == 8 and device.orders == [COMSET, COMSET], f"unread, {name}: the reader is at {device.address}, and was ordered {device.orders}")


LATE = 2000  # a setting: how late a program may be, in milliseconds


def held_up(script, does=lambda: None, seconds=2 * LATE / 1000):
    """A program is stopped for longer than it may be late; something is done meanwhile."""
    script.process.send_signal(signal.SIGSTOP)
    time.sleep(0.2)
    does()
    time.sleep(seconds)
    script.process.send_signal(signal.SIGCONT)


def stopped_panel(c, rust, language, name):
    """A panel that was stopped opens no door for a card that was asked for before: its order expires. The next card opens the door."""
    what = f"stopped, {name} in {language}"
    with Line(all_words(c)) as line:
        panel = Script(f"{c if language == 'C' else rust}/{name}", "--late", LATE, line.panel_end.path, 9600)
        line.scripts.append(panel)
        device = Odd(line.panel_end, 1 if name == "three_doors" else 5)
        told = {"three_doors": "door 1 is online", "door_panel": "opened"}[name]
        openings = lambda: sum(each.lower().startswith(told) for each in panel.lines)
        asks(device.until(panel, lambda: openings() == 1) and device.is_polled(panel), f"{what}: the session doesn't open: {panel.lines}")
        device.orders.clear()
        device.holds = True
        asks(device.until(panel, lambda: device.held is not None), f"{what}: there is no POLL")
        held_up(panel, lambda: device.reply(device.held, RAW, CARD))
        device.holds = False
        asks(device.is_polled(panel), f"{what}: it isn't polled")
        asks(device.until(panel, lambda: any(each.lower().startswith("expired") for each in panel.lines)), f"{what}: the order doesn't expire: {panel.lines[-6:]}")
        asks(OUT not in device.orders, f"{what}: a card of before has opened the door")
        device.card = OTHER
        asks(device.until(panel, lambda: OUT in device.orders), f"{what}: a card opens nothing any more")


def stopped_in_order(c, rust, language, name):
    """An order for a card that was under way as a panel was stopped isn't sent again later, and neither is one that waited."""
    what = f"stopped order, {name} in {language}"
    with Line(all_words(c)) as line:
        panel = Script(f"{c if language == 'C' else rust}/{name}", "--late", LATE, line.panel_end.path, 9600)
        line.scripts.append(panel)
        device = Odd(line.panel_end, 1 if name == "three_doors" else 5)
        told = {"three_doors": "door 1 is online", "door_panel": "opened"}[name]
        openings = lambda: sum(each.lower().startswith(told) for each in panel.lines)
        asks(device.until(panel, lambda: openings() == 1) and device.is_polled(panel), f"{what}: the session doesn't open: {panel.lines}")
        device.orders.clear()
        device.deaf = OUT
        device.card = CARD
        asks(device.until(panel, lambda: OUT in device.orders), f"{what}: a card makes no order")
        held_up(panel)
        device.answer()  # copies that went out before it was stopped
        device.orders.clear()
        asks(device.until(panel, lambda: openings() == 2), f"{what}: its session doesn't end and open again: {panel.lines[-6:]}")
        device.deaf = None
        asks(device.is_polled(panel) and OUT not in device.orders, f"{what}: the order of before went out once more")
        asks(any(each.lower().startswith("lost") and ("OUT" in each or "code: 104" in each) for each in panel.lines), f"{what}: it isn't told lost: {panel.lines[-6:]}")
        told = ("withdrawn 1 LED ", "expired 1 LED ")
        asks(name != "three_doors" or any(each.startswith(told) for each in panel.lines), f"{what}: the one that waited isn't told: {panel.lines[-6:]}")


def stopped_order(c, _):
    """An order that was under way as the panel was stopped isn't sent again later, and one that was given meanwhile isn't taken. That of the defaults: five seconds."""
    with Line(all_words(c)) as line:
        panel, device = line.panel("5", *FAST), Odd(line.panel_end)
        asks(device.until(panel, opened(panel, 1)), "stopped order: the session doesn't open")
        device.is_silent = True
        panel.say("1 OUT 0:5:30")
        asks(device.until(panel, lambda: OUT in device.orders), "stopped order: it doesn't go out")
        held_up(panel, lambda: device.answer() or panel.say("1 OUT 0:5:31"), 6.3)
        device.is_silent = False
        device.orders.clear()
        asks(device.until(panel, opened(panel, 1, 2)), f"stopped order: the session doesn't open again: {panel.lines[-6:]}")
        asks(device.orders == [] and "lost 1 no-reply withheld OUT 0:5:30" in panel.lines, f"stopped order: ordered are {device.orders}, told is {panel.lines[-6:]}")
        asks("not taken 1 OUT 0:5:31" in panel.lines, f"stopped order: one that was given meanwhile is taken: {panel.lines[-6:]}")


def late_order(c, _):
    """No copy of an order goes out later after it was given than the panel may be late, though sends are left. Its session is lost, and those that wait are taken back."""
    with Line(all_words(c)) as line:
        slow = "check sum poll-interval 20 reply-wait 300 sends 20 quiet-wait 60".split()
        panel, device = line.panel("5", *slow, options=["--late", 1000]), Odd(line.panel_end)
        asks(device.until(panel, opened(panel, 1)), "late order: the session doesn't open")
        device.is_silent = True
        panel.say("1 OUT 0:5:30\n1 OUT 0:5:31")
        told = ["lost 1 no-reply withheld OUT 0:5:30", "withdrawn 1 OUT 0:5:31"]
        asks(device.until(panel, has(panel, *told)), f"late order: its end isn't told: {panel.lines[-6:]}")
        asks(2 <= device.orders.count(OUT) <= 4, f"late order: it went out {device.orders.count(OUT)} times within a second, 300 ms from each to the next")


SILENT = type("Silent", (), {"read": lambda self: None})()  # a program whose output nobody reads


class Blocked:
    """The pipe to which a program prints: it may be full."""

    def __init__(self):
        self.end, self.write = os.pipe()
        os.set_blocking(self.end, False)
        self.said = b""

    def read(self):
        try:
            self.said += os.read(self.end, 65536).replace(b"x", b"")
        except BlockingIOError:
            pass

    def fill(self):
        full = os.open(f"/proc/self/fd/{self.write}", os.O_WRONLY | os.O_NONBLOCK)
        try:
            while True:
                os.write(full, b"x")
        except BlockingIOError:
            os.close(full)

    def has(self, text):
        return lambda: self.read() or text in self.said

    def close(self):
        os.close(self.end)
        os.close(self.write)


def blocked_output(c, _):
    """An order expires where nobody has read what the panel prints, so that it stood still between the answer to the order before and that one."""
    with Line(all_words(c)) as line:
        pipe = Blocked()
        slow = "check sum poll-interval 20 reply-wait 300 sends 20 quiet-wait 60".split()
        panel, device = line.panel("5", *slow, options=["--late", 1000], stdout=pipe.write), Odd(line.panel_end)
        asks(device.until(pipe, pipe.has(b"opened 1")), f"blocked: the session doesn't open: {pipe.said}")
        device.deaf = OUT
        panel.say("1 OUT 0:2:1\n1 OUT 0:5:30")
        asks(device.until(pipe, lambda: device.orders and pipe.has(b"ordered 1 OUT 0:5:30\n")()), f"blocked: the orders aren't taken: {pipe.said}")
        pipe.fill()
        device.deaf = None
        answered(device, SILENT, 1.6)  # the first order is answered, and nobody reads that it is settled
        device.orders.clear()
        pipe.said = b""
        asks(device.until(pipe, pipe.has(b"epired 1 OUT 0:5:30\n")), f"blocked: the order doesn't expire: {pipe.said}")  # without the x that fills the pipe
        asks(OUT not in device.orders, "blocked: the order went out late")
        pipe.close()


def blocked_card(c, rust, language):
    """A card opens no door late where nobody has read that it was shown, so that the panel stood still before its order. The next one does."""
    with Line(all_words(c)) as line:
        pipe, device = Blocked(), Odd(line.panel_end)
        line.scripts.append(Script(f"{c if language == 'C' else rust}/door_panel", "--late", 1000, line.panel_end.path, 9600, stdout=pipe.write))
        asks(device.until(pipe, pipe.has(b"pened")) and device.is_polled(pipe), f"blocked card, {language}: the session doesn't open: {pipe.said}")
        pipe.fill()
        device.card = CARD
        answered(device, SILENT, 1.6)
        pipe.said = b""
        asks(device.until(pipe, pipe.has(b"pired")), f"blocked card, {language}: the order doesn't expire: {pipe.said}")
        asks(OUT not in device.orders, f"blocked card, {language}: the door opens late: {pipe.said}")
        device.card = OTHER
        asks(device.until(pipe, lambda: OUT in device.orders), f"blocked card, {language}: a card opens nothing any more: {pipe.said}")
        pipe.close()


def stopped_device(c, rust, language, name):
    """An order, and a card, that came while a device was stopped isn't done or told later; the next one is."""
    folder, what = c if language == "C" else rust, f"stopped, {name} in {language}"
    rest = {"reader": ["address", 5], "door_device": [], "keypad_reader": [5] if language == "C" else []}[name]
    done = {"reader": "taken OUT 0:5:30", "door_device": "on 0", "keypad_reader": "relay on"}[name]
    terminal, at = Terminal(), 1 if (language, name) == ("Rust", "keypad_reader") else 5
    device = Script(f"{folder}/{name}", "--late", LATE, terminal.path, 9600, *rest)

    def asked(*words):
        """The reply to a packet that is sent until it is answered, as a panel does."""
        end, found = time.monotonic() + 30, []
        while not found and time.monotonic() < end:
            os.write(terminal.end, packet(at, *words))
            found = list(terminal.bursts()) if select.select([terminal.end], [], [], 0.5)[0] else []
        time.sleep(0.2)  # repeats have their answers too
        if select.select([terminal.end], [], [], 0)[0]:
            list(terminal.bursts())
        device.read()
        return found[0][5] if found else None

    out = (OUT, bytes([0, 5, 30, 0]))
    asks(asked(0, ID, b"\0") == PDID, f"{what}: the opening isn't answered")
    card = {"reader": "event RAW 0 0 26 12345640", "door_device": "card 12345640", "keypad_reader": "RAW 0 0 26 12345640"}[name]
    held_up(device, lambda: os.write(terminal.end, packet(at, 1, *out)) and device.say(card))
    asks(asked(0, ID, b"\0") == PDID and done not in device.lines, f"{what}: an order of before was done: {device.lines}")
    asks(asked(1, *out) == ACK and device.lines.count(done) == 1, f"{what}: the next order is done otherwise: {device.lines}")
    asks(asked(2, POLL) == ACK and any(each.startswith("too old ") and "12345640" in each for each in device.lines), f"{what}: a card of before is told: {device.lines}")
    device.say(card)
    number, end = 2, time.monotonic() + 30
    while time.monotonic() < end:
        number = number % 3 + 1
        if asked(number, POLL) == RAW:
            break
    asks(time.monotonic() < end, f"{what}: a card isn't told any more")
    device.process.kill()
    device.process.wait()
    terminal.close()


def not_whole(c, rust):
    """A panel's store that is gone, or was emptied or cut, is no new one, and `--new` makes none anew: the program says what to do."""
    with tempfile.TemporaryDirectory() as folder:
        keep_lines(f"{folder}/whole", "5 at 5 9600", "6 at 7 9600")
        data = Path(f"{folder}/whole").read_bytes()
    for program, rest, status in (([f"{c}/panel"], ["5"], 3), ([f"{c}/door_panel"], [], 3), ([f"{rust}/door_panel"], [], 1)):
        for given, option, said in ((None, [], "there is no store at"), (b"", [], "has 0 bytes, and is no store"), (b"5 at 5 9600\n", [], "is no store of osdp"),
                                    (data[:4096], [], "Bring back a copy of it"), (data[:-8192], [], "Bring back a copy of it"), (data, ["--new"], "there is a store already")):
            with tempfile.TemporaryDirectory() as folder:
                terminal, kept = Terminal(), Path(folder) / "kept"
                kept.write_bytes(given) if given is not None else None
                words = [*program, "--keep", kept, *option, terminal.path, "9600", *rest]
                try:
                    done = subprocess.run([str(word) for word in words], stdin=subprocess.DEVNULL, capture_output=True, text=True, timeout=5)
                    asks(done.returncode == status and said in done.stderr and "--new" in done.stderr, f"not whole: {words} of {given and given[:16]!r} ends with {done.returncode}, {done.stderr!r}")
                except subprocess.TimeoutExpired:
                    asks(False, f"not whole: {words} takes {given and given[:16]!r}")
                asks((kept.read_bytes() if kept.exists() else None) == given, f"not whole: {words} has changed the file")
                terminal.close()


def kept_apart(c, rust, language):
    """A small panel sends its door to no address at which another device may be that its file keeps. What it writes is read by its owner alone, and follows no link."""
    with tempfile.TemporaryDirectory() as folder, Line(all_words(c)) as line:
        kept, link, elsewhere = Path(folder) / "kept", Path(folder) / "kept.new", Path(folder) / "elsewhere"
        keep_lines(kept, "5 at 5 9600", "6 at 7 9600 or 8 9600")
        link.symlink_to(elsewhere)
        panel = Script(f"{c if language == 'C' else rust}/door_panel", "--keep", kept, line.panel_end.path, 9600)
        line.scripts.append(panel)
        device = Odd(line.panel_end, odd=COM)
        asks(device.until(panel, lambda: any(each.lower().startswith("opened") for each in panel.lines)) and device.is_polled(panel), f"apart, {language}: the session doesn't open")
        panel.say("move 7 9600\nmove 8 9600\nmove 9 9600")
        asks(device.until(panel, lambda: device.orders), f"apart, {language}: no COMSET goes out: {panel.lines[-6:]}")
        asks(has(panel, "refused line move 7 9600", "refused line move 8 9600")(), f"apart, {language}: it is sent to where another one may be: {panel.lines[-6:]}")
        asks(device.until(panel, lambda: "5 at 9 9600" in kept_text(kept)), f"apart, {language}: the file has {kept_text(kept)!r}")
        asks(not elsewhere.exists() and kept.stat().st_mode & 0o777 == 0o600, f"apart, {language}: a link was followed, or others may read the file")


def relay_is_released(c, rust):
    """The relay is off as the reader with keys begins, and where it ends: at Ctrl-C and where its terminal is closed, in C, and where its port is gone."""
    in_c, in_rust = ("C", f"{c}/keypad_reader", 5, [5]), ("Rust", f"{rust}/keypad_reader", 1, [])
    for (language, program, address, rest), how, status in ((in_c, "Ctrl-C", 130), (in_c, "a closed terminal", 129), (in_c, "the port is gone", 3), (in_rust, "the port is gone", 1)):
        terminal = Terminal()
        device = Script(program, terminal.path, 9600, *rest, stderr=subprocess.DEVNULL)
        for number, code, data, reply in ((0, ID, b"\0", PDID), (1, OUT, bytes([0, 5, 100, 0]), ACK)):
            os.write(terminal.end, packet(address, number, code, data))
            asks(terminal.next_burst()[5:6] == bytes([reply]), f"relay, {language}, {how}: the reply to {code:02X} is another one")
        if how == "the port is gone":
            os.close(terminal.end)
            terminal.end = os.open("/dev/null", os.O_RDONLY)
        else:
            device.process.send_signal(signal.SIGINT if how == "Ctrl-C" else signal.SIGHUP)
        found = device.process.wait(timeout=30)
        device.read()
        asks(found == status and device.lines == ["relay off", "relay on", "relay off"], f"relay, {language}, {how}: status {found}, told is {device.lines}")
        terminal.close()


def small_panel(c, rust, language):
    """A small panel keeps where its door is: it is found there by a panel that starts again, and another device opens no door."""
    rattle = [sys.executable, "-B", TOP / "tests/carry.py", Path(CRATES) / "osdp_example_panel/out/osdp_example_panel"]
    program = {"C": [f"{c}/door_panel"], "Rust": [f"{rust}/door_panel"], "Rattle": rattle}[language]
    card, text = "event RAW 0 0 26 12345640", whole
    with tempfile.TemporaryDirectory() as folder, Line(all_words(c)) as line:
        kept = Path(folder) / "panel"

        def start():
            fcntl.ioctl(line.panel_end.other, termios.TIOCNXCL)
            script = Script(*program, *(["--keep", kept] if language == "Rattle" else keeps(kept)), line.panel_end.path, 9600)
            line.scripts.append(script)
            return script

        def reader(serial):
            words = [f"{c}/reader", *keeps(f"{folder}/reader"), line.reader_ends[0].path, 9600, "address", 5, "serial", serial, "gap", 300]
            line.scripts.append(Script(*words))
            return line.scripts[-1]

        def stop(script):
            script.process.kill()
            script.process.wait()
            line.scripts.remove(script)
            for terminal in (line.panel_end, line.reader_ends[0]):
                fcntl.ioctl(terminal.other, termios.TIOCNXCL)

        is_open = lambda script, times: lambda: sum(each.lower().removeprefix("report ").startswith("opened") for each in script.lines) >= times
        panel, device = start(), reader(1)
        asks(line.run(is_open(panel, 1)), f"{language}: the session doesn't open")
        line.rests(0.2)
        asks(kept_text(kept) == text("5 at 5 9600 is 000000 0 1"), f"{language}: at first the file has {kept_text(kept)!r}")
        line.loses = lambda way, burst: burst[5] == COM
        panel.say("move 7 19200")
        asks(line.run(lambda: any(burst[5] == COM for _, burst in line.bursts)), f"{language}: no COMSET goes out: {panel.lines[-12:]}")
        asks(kept_text(kept) == text("5 at 7 19200 or 5 9600 is 000000 0 1"), f"{language}: as the COMSET goes out the file has {kept_text(kept)!r}")
        stop(panel)
        line.loses = lambda way, burst: False
        panel = start()
        asks(line.run(is_open(panel, 1)), f"{language}: the door isn't found again")
        line.rests(0.2)
        asks(kept_text(kept) == text("5 at 7 19200 is 000000 0 1"), f"{language}: in the end the file has {kept_text(kept)!r}")
        device.say(card)
        asks(line.run(has(device, "taken OUT 0:5:30")), f"{language}: the card opens nothing")
        stop(device)
        device = reader(2)
        told = lambda: any(each.startswith("another device") for each in panel.lines)
        asks(line.run(told), f"{language}: another device isn't told: {panel.lines[-12:]}")
        device.say(card)
        line.rests(1.5)
        asks(taken(device) == [], f"{language}: another device has taken {taken(device)}")
        panel.say("accept")
        line.rests(0.3)
        device.say(card)
        asks(line.run(has(device, "taken OUT 0:5:30")), f"{language}: after the word the card opens nothing")
        asks(kept_text(kept) == text("5 at 7 19200 is 000000 0 2"), f"{language}: after the word the file has {kept_text(kept)!r}")
        stop(panel)
        if language == "Rattle":
            return  # there the program beside it looks at the other lines of its file
        keep_lines(kept, "6 at 5 9600")
        done = subprocess.run([*program, "--keep", kept, line.panel_end.path, "9600"], stdin=subprocess.DEVNULL, capture_output=True, text=True, timeout=20)
        asks(done.returncode in (1, 2) and "device 6, which is kept, may be" in done.stderr, f"{language}: at a place of another device it ends with {done.returncode}, {done.stderr!r}")


def other_at_one_place(c, rust, name):
    """A door may be at two places, since its COMSET wasn't answered, and another device stands at one of them: the door is found at the other place. Where it is at
    neither, the other device is told once, and is taken for the door where a line says so."""
    has_numbers, text = name == "panel in C", whole
    card, order = "event RAW 0 0 26 12345640", "taken OUT 0:5:30"

    def runs(line, kept, *places):
        keep_lines(kept, "5 at 7 9600 or 5 9600 is 53494D 1 1", is_rattle=name == "panel in Rattle")
        rattle = [sys.executable, "-B", TOP / "tests/carry.py", Path(CRATES) / "osdp_example_panel/out/osdp_example_panel"]
        programs = {"panel in C": [f"{c}/panel"], "door_panel in C": [f"{c}/door_panel"], "door_panel in Rust": [f"{rust}/door_panel"], "panel in Rattle": rattle}
        panel = Script(*programs[name], "--keep", kept, line.panel_end.path, 9600, *(["5", *FAST] if has_numbers else []))
        devices = [Script(f"{c}/reader", end.path, 9600, "address", address, "serial", serial, *examples.READER) for end, (address, serial) in zip(line.reader_ends, places)]
        line.scripts += [panel, *devices]
        return panel, devices

    def opens(line, panel, device):
        panel.say("1 OUT 0:5:30") if has_numbers else device.say(card)
        asks(line.run(has(device, order)), f"one place, {name}: the door gets no order: {panel.lines[-12:]}")

    told = lambda panel: [each for each in panel.lines if each.startswith("another device")]
    holds = lambda kept, line: lambda: kept_text(kept) == text(line)
    opened_often = lambda panel: lambda: sum(each.lower().removeprefix("report ").startswith("opened") for each in panel.lines) > 2
    with tempfile.TemporaryDirectory() as folder, Line(all_words(c), 2) as line:
        kept = Path(folder) / "panel"
        panel, (other, door) = runs(line, kept, (7, 2), (5, 1))
        asks(line.run(holds(kept, "5 at 5 9600 is 53494D 1 1")), f"one place, {name}: the door isn't found: {panel.lines[-12:]}, {kept_text(kept)!r}")
        asks(len(told(panel)) == 1 and " at 7" in told(panel)[0], f"one place, {name}: told is {told(panel)}")
        opens(line, panel, door)
        asks(taken(other) == [], f"one place, {name}: another device has taken {taken(other)}")
    with tempfile.TemporaryDirectory() as folder, Line(all_words(c)) as line:
        kept = Path(folder) / "panel"
        panel, (other,) = runs(line, kept, (7, 2))
        asks(line.run(opened_often(panel)), f"one place, {name}: the place is not tried again: {panel.lines[-12:]}")
        asks(len(told(panel)) == 1, f"one place, {name}: it is told {len(told(panel))} times")
        asks(" or " in kept_text(kept) and taken(other) == [], f"one place, {name}: it was taken for the door: {kept_text(kept)!r}, {taken(other)}")
        panel.say("1 accept" if has_numbers else "accept")
        asks(line.run(holds(kept, "5 at 7 9600 is 53494D 1 2")), f"one place, {name}: after the word the file has {kept_text(kept)!r}")
        line.rests(0.1)
        opens(line, panel, other)


def deed_first(c, rust, name):
    """An order is answered after its deed: while what a device does can't be done, here to print it, its answer doesn't go out."""
    program = {"reader in C": [f"{c}/reader", "{}", 9600, "address", 5], "door_device in C": [f"{c}/door_device", "{}", 9600], "door_device in Rust": [f"{rust}/door_device", "{}", 9600]}[name]
    terminal, (read, write) = Terminal(), os.pipe()
    process = subprocess.Popen([str(terminal.path if word == "{}" else word) for word in program], stdin=subprocess.PIPE, stdout=write)
    deadline = time.monotonic() + 20
    while termios.tcgetattr(terminal.other)[5] != termios.B9600 and time.monotonic() < deadline:
        time.sleep(0.01)
    time.sleep(0.2)
    os.write(terminal.end, packet(5, 0, ID, b"\0"))
    asks(terminal.next_burst()[5:6] == bytes([PDID]), f"deed: {name} doesn't answer the opening")
    full = os.open(f"/proc/self/fd/{write}", os.O_WRONLY | os.O_NONBLOCK)
    try:
        while True:
            os.write(full, b"x")
    except BlockingIOError:
        pass
    os.write(terminal.end, packet(5, 1, OUT, bytes([0, 5, 30, 0])))
    asks(not select.select([terminal.end], [], [], 0.5)[0], f"deed: {name} has answered before it has acted")
    text = b""
    while b"0" not in text and select.select([read], [], [], 5)[0]:
        text += os.read(read, 65536).replace(b"x", b"")
    asks(terminal.next_burst()[5:6] == bytes([ACK]), f"deed: {name} doesn't answer the order")
    process.kill()
    process.wait()
    for end in (read, write, full):
        os.close(end)
    terminal.close()


def closed_output(c, _):
    """What a program tells whose standard output is closed doesn't go out on the line: the port doesn't take its place."""
    terminal = Terminal()
    words = ["sh", "-c", 'exec "$@" >&-', "sh", f"{c}/keypad_reader", terminal.path, "9600", "5"]
    process = subprocess.Popen(words, stdin=subprocess.PIPE, stderr=subprocess.DEVNULL)
    try:
        process.stdin.write(b"this is refused\n")
        process.stdin.close()
    except BrokenPipeError:
        pass  # what it tells first, that its relay is off, has failed, so it has ended
    asks(not select.select([terminal.end], [], [], 1)[0], "closed output: what is told goes out on the line")
    process.kill()
    process.wait()
    terminal.close()


def unread_output(_, rust):
    """Where nobody reads what a program in Rust prints it ends without a word, and doesn't panic."""
    terminal, (read, write) = Terminal(), os.pipe()
    os.close(read)
    done = subprocess.run([f"{rust}/keypad_reader", terminal.path, "9600"], stdin=subprocess.PIPE, stdout=write, stderr=subprocess.PIPE, timeout=20)
    asks((done.returncode, done.stderr) == (1, b""), f"unread output: it ends with {done.returncode}, {done.stderr!r}")
    os.close(write)
    terminal.close()


def run(case, c, rust, more):
    """The faults of one case."""
    examples.faults.clear()
    examples.LIMIT = 60.0
    try:
        globals()[case](c, rust, *more)
    except Exception as error:
        examples.faults.append(f"{case} {more}: {error!r}")
    return list(examples.faults)


def cases():
    for name in ("stolen", "stolen_from_rust", "taken_port", "ends_of_orders", "many_stops", "sentences", "one_is_dead", "refused_rate", "swapped", "kept_before", "another_device", "closed_output", "unread_output",
                 "other_elsewhere", "stopped_order", "late_order", "blocked_output", "not_whole", "relay_is_released"):
        yield name, ()
    for name in ("panel", "door_panel"):
        for odd in (0x99, ACK):
            yield "odd_comset", (name, odd)
    for language in ("C", "Rust"):
        yield "kept_apart", (language,)
        yield "blocked_card", (language,)
        for name in ("door_panel", "three_doors"):
            yield "stopped_panel", (language, name)
            yield "stopped_in_order", (language, name)
        for name in ["reader"] * (language == "C") + ["door_device", "keypad_reader"]:
            yield "stopped_device", (language, name)
    for language in ("C", "Rust", "Rattle"):
        yield "small_panel", (language,)
    for name in ("panel in C", "door_panel in C", "door_panel in Rust", "panel in Rattle"):
        yield "other_at_one_place", (name,)
    for name in ("reader in C", "door_device in C", "door_device in Rust"):
        yield "deed_first", (name,)
    for settings in SETTINGS:
        for kind in ("COM", "COMSET", "each answer"):
            for count, losers in ((1, (1,)), (2, (1,)), (2, (2,)), (2, (1, 2)), (3, (1,)), (3, (2,)), (3, (3,)), (3, (1, 3)), (3, (1, 2, 3))):
                if settings == "fast" or (count, len(losers)) in ((2, 2), (3, 1), (3, 3)):
                    yield "lost_answers", (count, losers, kind, settings)
    for count in (1, 2, 3):
        for at in range(2 * count + 1):
            yield "lost_burst", (count, at)


def main(c, rust, _, *names):
    begun = time.monotonic()
    wanted = [(name, more) for name, more in cases() if not names or name in names]
    with ProcessPoolExecutor(max_workers=8) as pool:
        running = [pool.submit(run, name, c, rust, more) for name, more in wanted]
        faults = [fault for each in running for fault in each.result()]
    print(f"panels: {len(wanted)} cases, {len(faults)} faults in {time.monotonic() - begun:.1f} s", *faults, sep="\n")
    return 1 if faults else 0


if __name__ == "__main__":
    sys.exit(main(*sys.argv[1:]))
