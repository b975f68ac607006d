"""The examples, by what a user sees: orders that aren't done later, a COMSET that cuts no reader off, the trace, and how they end.

Takes the path of the program, and the folder of the examples in C, where those are to run. Each part runs a panel, readers, or both, on
pseudo terminals. A line hands a burst on only between terminals of the same rate.
"""
import fcntl
import os
import re
import resource
import select
import signal
import subprocess
import sys
import tempfile
import termios
import time
from pathlib import Path

import stores
from terminals import Script, Terminal, commands, packet

TOP = Path(__file__).resolve().parent.parent
# waits and gaps that a busy machine doesn't reach; and after how many seconds that which is waited for has failed to come
PANEL = "poll-interval 20 reply-wait 1000 sends 2 quiet-wait 60 gap 300 check sum".split()
READER = "vendor 53494D model 1 gap 300".split()
LIMIT = 60.0
ID, POLL, OUT, COMSET = 0x61, 0x60, 0x68, 0x6E
ACK, NAK, PDID, COM = 0x40, 0x41, 0x45, 0x54
IDENTITY = bytes.fromhex("53494D010101000000010000")
faults = []


def asks(holds, what):
    if not holds:
        faults.append(what)


class Line:
    """A line: terminals of a panel and of readers, the bursts that went over it, and the examples that run on it."""

    def __init__(self, words, readers=1):
        (self.panel_words, self.panel_program), (self.reader_words, self.reader_program) = words
        self.panel_end, self.reader_ends = Terminal(), [Terminal() for _ in range(readers)]
        self.scripts = []
        self.bursts = []  # with their ways: `out` from the panel, `in` to it
        self.loses = lambda way, burst: False
        self.cuts = False  # whether bursts come in two pieces

    def __enter__(self):
        return self

    def __exit__(self, *_):
        for script in self.scripts:
            script.process.terminate()
            script.process.wait()
        for terminal in (self.panel_end, *self.reader_ends):
            terminal.close()

    def panel(self, addresses, *settings, options=(), **streams):
        fcntl.ioctl(self.panel_end.other, termios.TIOCNXCL)  # a program that was killed leaves its terminal to itself
        script = Script(*self.panel_words, *options, self.panel_end.path, 9600, addresses, *self.panel_program, *(settings or PANEL), **streams)
        self.scripts.append(script)
        return script

    def reader(self, at, address, options=(), **streams):
        fcntl.ioctl(self.reader_ends[at].other, termios.TIOCNXCL)
        words = [*self.reader_words, *options, self.reader_ends[at].path, 9600, *self.reader_program, "address", address, *READER]
        script = Script(*words, **streams)
        self.scripts.append(script)
        return script

    def hand_on(self, way, source, others):
        for burst in source.bursts():
            self.bursts.append((way, burst))
            for other in others:
                if other.rate == source.rate and not self.loses(way, burst):
                    os.write(other.end, burst[:5] if self.cuts else burst)
            if self.cuts:
                time.sleep(0.002)
                for other in others:
                    os.write(other.end, burst[5:])

    def run(self, until, seconds=LIMIT):
        """Carries bursts until something holds. Whether it has come to hold."""
        end = time.monotonic() + seconds
        while not until() and time.monotonic() < end:
            outputs = {script.process.stdout.fileno(): script for script in self.scripts if script.process.poll() is None}
            terminals = {self.panel_end.end: ("out", self.panel_end, self.reader_ends)}
            terminals.update({reader.end: ("in", reader, [self.panel_end]) for reader in self.reader_ends})
            for _, terminal, _ in terminals.values():
                terminal.note_rate()
            ready = select.select([*outputs, *terminals], [], [], 0.005)[0]
            for each in ready:
                if each in outputs:
                    outputs[each].read()
                else:
                    self.hand_on(*terminals[each])
        return until()

    def rests(self, seconds):
        self.run(lambda: False, seconds)


def has(script, *lines):
    return lambda: all(line in script.lines for line in lines)


def opened(script, number, times=1):
    return lambda: sum(line.startswith(f"opened {number} ") for line in script.lines) >= times


def taken(script):
    return [line for line in script.lines if line.startswith(("taken", "again OUT"))]


def stale_orders(words):
    """An order for a reader that isn't there yet is refused. The orders that wait when a session is lost are taken back. Neither is done later."""
    with Line(words) as line:
        panel = line.panel("5")
        line.run(lambda: line.bursts)
        panel.say("1 OUT 0:5:30")
        asks(line.run(has(panel, "not taken 1 OUT 0:5:30")), "stale: an order for a session that opens isn't refused")
        asks("refused session not open" in panel.lines, "stale: no line says why the order was refused")
        line.rests(0.5)
        reader = line.reader(0, 5)
        asks(line.run(opened(panel, 1)), "stale: the session doesn't open")
        line.rests(0.5)
        asks(taken(reader) == [], f"stale: the reader has taken {taken(reader)}")
        panel.say("1 OUT 0:2:1")
        asks(line.run(has(panel, "settled 1 OUT 0:2:1 = ACK")), "stale: an order of an open session isn't done")
        has_begun = []  # from the first of these orders on all is lost; a POLL may go out before it

        def loses(way, burst):
            has_begun.extend([True] if way == "out" and burst[5] == OUT else [])
            return bool(has_begun)
        line.loses = loses
        for number in (2, 3, 4):
            panel.say(f"1 OUT 0:2:{number}")
        told = ["lost 1 no-reply OUT 0:2:2", "withdrawn 1 OUT 0:2:3", "withdrawn 1 OUT 0:2:4"]
        asks(line.run(has(panel, *told)), "stale: the orders that waited aren't taken back")
        asks(panel.lines[-3:] == told, f"stale: after the loss {panel.lines[-3:]}")
        panel.say("1 OUT 0:2:5")
        asks(line.run(has(panel, "not taken 1 OUT 0:2:5")), "stale: an order for a lost session isn't refused")
        line.loses = lambda way, burst: False
        asks(line.run(opened(panel, 1, 2)), "stale: the session doesn't open again")
        line.rests(0.5)
        asks(taken(reader) == ["taken OUT 0:2:1"], f"stale: in the end the reader has taken {taken(reader)}")


def several_stale_orders(words):
    """Of two readers one is lost: its orders alone are taken back."""
    with Line(words, 2) as line:
        panel, readers = line.panel("5,6"), [line.reader(0, 5), line.reader(1, 6)]
        asks(line.run(lambda: opened(panel, 1)() and opened(panel, 2)()), "several: the sessions don't open")
        line.loses = lambda way, burst: burst[1] & 0x7F == 6
        for number in (1, 2, 3):
            panel.say(f"2 OUT 0:2:{number}")
            panel.say(f"1 OUT 0:2:{number}")
        asks(line.run(lambda: any(each.startswith("lost 2") for each in panel.lines)), "several: the session isn't lost")
        asks(line.run(has(panel, *(f"settled 1 OUT 0:2:{number} = ACK" for number in (1, 2, 3)))), "several: the other reader's orders aren't done")
        line.loses = lambda way, burst: False
        asks(line.run(opened(panel, 2, 2)), "several: the session doesn't open again")
        line.rests(0.3)
        asks(taken(readers[1]) == [], f"several: the lost reader has taken {taken(readers[1])}")
        asks(len(taken(readers[0])) == 3, f"several: the other reader has taken {taken(readers[0])}")
        asks(not any(each.startswith(("lost 1", "withdrawn 1")) for each in panel.lines), "several: the other reader lost something")


def new_rate(words):
    """A COMSET with another rate goes to each reader, and the port gets the rate after the last has moved. Where one session is closed it is refused."""
    with Line(words, 2) as line:
        panel, first = line.panel("5,6"), line.reader(0, 5)
        asks(line.run(opened(panel, 1)), "rate: the first session doesn't open")
        panel.say("1 COMSET 5 19200")
        asks(line.run(has(panel, "refused another session not open", "not taken 1 COMSET 5 19200")), "rate: a COMSET that cuts a reader off is taken")
        panel.say("1 COMSET 5 12345")
        asks(line.run(has(panel, "refused no such rate", "not taken 1 COMSET 5 12345")), "rate: a COMSET with a rate that the port hasn't is taken")
        second = line.reader(1, 6)
        asks(line.run(opened(panel, 2)), "rate: the second session doesn't open")
        panel.say("1 COMSET 9 19200\n2 COMSET 8 9600")
        asks(line.run(has(panel, "refused another COMSET not answered", "not taken 2 COMSET 8 9600")), "rate: a second COMSET is taken")
        asks(line.run(lambda: opened(panel, 1, 2)() and opened(panel, 2, 2)()), "rate: the sessions don't open at the new rate")
        asks(line.panel_end.rate == line.reader_ends[0].rate == line.reader_ends[1].rate == termios.B19200, "rate: the ports aren't at 19200")
        places = [at for at, each in enumerate(panel.lines) if each.startswith(("moved ", "rate "))]
        told = [panel.lines[at] for at in places]
        moves = ["moved 1 COMSET 9 19200 = COM 9 19200", "moved 2 COMSET 6 19200 = COM 6 19200"]
        asks(sorted(told[:2]) == moves and told[2:] == ["rate 19200"], f"rate: the panel tells {told}")
        for number, reader in ((1, first), (2, second)):
            panel.say(f"{number} OUT 0:2:0")
            asks(line.run(has(reader, "taken OUT 0:2:0")), f"rate: reader {number} takes no order at the new rate")


def lost_comset(words, what, loses, settles):
    """The COM is lost, or the COMSET: the reader is found again, at its new place or at its old one, and the other reader's session stays."""
    with Line(words) as line:
        panel, reader = line.panel("5"), line.reader(0, 5)
        asks(line.run(opened(panel, 1)), f"{what}: the session doesn't open")
        line.loses = loses
        panel.say("1 COMSET 7 19200")
        asks(line.run(lambda: any(each == "lost 1 no-reply COMSET 7 19200" for each in panel.lines)), f"{what}: the COMSET isn't told lost")
        line.loses = lambda way, burst: False
        asks(line.run(opened(panel, 1, 2)), f"{what}: the reader isn't found again")
        tried = [burst[1] for way, burst in line.bursts if way == "out" and burst[5] == ID]
        asks(tried[-1] == settles[0] and 7 in tried, f"{what}: the addresses tried are {tried}")
        asks([each for each in panel.lines if each.startswith("rate ")] == settles[1], f"{what}: the rates told are others")
        panel.say("1 OUT 0:2:0")
        asks(line.run(has(reader, "taken OUT 0:2:0")), f"{what}: the reader takes no order")
        panel.say("1 COMSET 8 9600")
        asks(line.run(opened(panel, 1, 3)), f"{what}: another COMSET isn't done")


def lost_address(words):
    """Of two readers one gets another address, and its COM is lost: the other one's session stays."""
    with Line(words, 2) as line:
        panel, readers = line.panel("5,6"), [line.reader(0, 5), line.reader(1, 6)]
        asks(line.run(lambda: opened(panel, 1)() and opened(panel, 2)()), "address: the sessions don't open")
        line.loses = lambda way, burst: burst[1] == 0x87 or burst[5] == COM
        panel.say("1 COMSET 7 9600")
        asks(line.run(lambda: any(each == "lost 1 no-reply COMSET 7 9600" for each in panel.lines)), "address: the COMSET isn't told lost")
        line.run(lambda: any(burst[1] == 7 for _, burst in line.bursts))
        panel.say("2 COMSET 5 9600")
        refusal = ["ordered 2 COMSET 5 9600", "refused another session not open", "not taken 2 COMSET 5 9600"]
        asks(line.run(has(panel, *refusal)), "address: a COMSET to where the lost reader may be is taken")
        line.loses = lambda way, burst: False
        asks(line.run(opened(panel, 1, 2)), "address: the reader isn't found at its new address")
        asks(not any(each.startswith(("lost 2", "rate ", "ordered 2 COMSET 6")) for each in panel.lines), "address: the other reader was disturbed")
        panel.say("1 OUT 0:2:0")
        asks(line.run(has(readers[0], "taken OUT 0:2:0")), "address: the reader takes no order")


def kept_place(words):
    """A reader that keeps its place in a file is found again after it was cut off: at the address and the rate of a COMSET, whatever its words say."""
    with tempfile.TemporaryDirectory() as folder, Line(words) as line:
        kept = Path(folder) / "place"
        panel, reader = line.panel("5"), line.reader(0, 5, options=stores.options(kept))
        asks(line.run(opened(panel, 1)), "kept: the session doesn't open")
        asks(stores.text(kept) == "5 at 5 9600\n", f"kept: at first the store has {stores.text(kept)!r}")
        panel.say("1 COMSET 7 19200")
        asks(line.run(opened(panel, 1, 2)), "kept: the session doesn't open at the new place")
        asks(stores.text(kept) == "5 at 7 19200\n", f"kept: the store has {stores.text(kept)!r}")
        reader.process.kill()
        reader.process.wait()
        asks(line.run(lambda: any(each.startswith("lost 1") for each in panel.lines)), "kept: the reader isn't lost")
        again = line.reader(0, 5, options=["--keep", kept])
        asks(line.run(opened(panel, 1, 3)), "kept: the reader that starts again isn't found")
        panel.say("1 OUT 0:2:0")
        asks(line.run(has(again, "taken OUT 0:2:0")), "kept: the reader takes no order")
        line.loses = lambda way, burst: burst[5] == COM  # the COM is lost: the place was kept before it was sent
        panel.say("1 COMSET 8 9600")
        asks(line.run(lambda: any(burst[5] == COM and burst[1] == 0x87 for _, burst in line.bursts)), "kept: the second COMSET isn't answered")
        asks(stores.text(kept) == "5 at 8 9600\n", f"kept: as the COM goes out the store has {stores.text(kept)!r}")


def no_place_kept(words):
    """A reader whose place can't be kept says so and goes on. One whose file is no store doesn't start."""
    reader, program = words[1]
    with tempfile.TemporaryDirectory() as folder, Line(words) as line:
        full = line.reader(0, 5, options=stores.options(f"{folder}/full"), preexec_fn=lambda: signal.signal(signal.SIGXFSZ, signal.SIG_IGN))
        end = line.reader_ends[0]
        for number, code, data, reply in ((0, ID, b"\0", PDID), (1, COMSET, com(7, 9600), COM)):
            if number:
                resource.prlimit(full.process.pid, resource.RLIMIT_FSIZE, (0, 0))
            os.write(end.end, packet(5, number, code, data))
            asks(end.next_burst()[5:6] == bytes([reply]), f"not kept: the reply to {code:02X} is another one")
        asks(line.run(has(full, "moved 7 9600")) and any(each.startswith(f"not kept 7 9600: the store {folder}/full can't be written: ") for each in full.lines),
             f"not kept: the reader tells {full.lines}")
        rows = [(None, rf"there is no store at {folder}/0\. .*\n"), ("", rf"{folder}/1 has 0 bytes, and is no store\. .*\n"), ("7 9600\n", rf"{folder}/2 is no store of osdp\. .*\n")]
        for at, (text, _) in enumerate(rows):
            Path(f"{folder}/{at}").write_text(text) if text is not None else None
        ends([([*reader, "--keep", f"{folder}/{at}", end.path, 9600, *program], 3, said) for at, (_, said) in enumerate(rows)])


def com(address, rate):
    return bytes([address]) + rate.to_bytes(4, "little")


class Device:
    """A device that the test plays, on the panel's terminal."""

    def __init__(self, terminal, com):
        """`com` is what the reply to a COMSET tells, by the address that was asked; NAK 9 where there is none."""
        self.terminal, self.com, self.asked = terminal, com, []

    def answer(self):
        for burst in self.terminal.bursts() if select.select([self.terminal.end], [], [], 0.01)[0] else ():
            address, number, code = burst[1], burst[4] & 3, burst[5]
            self.asked.append(address)
            replies = {ID: (PDID, IDENTITY), COMSET: (COM, self.com[address]) if address in self.com else (NAK, b"\x09")}
            whole = packet(address | 0x80, number, *replies.get(code, (ACK, b"")))
            os.write(self.terminal.end, whole[:4])
            time.sleep(0.002)
            os.write(self.terminal.end, whole[4:])

    def until(self, script, holds, seconds=LIMIT):
        end = time.monotonic() + seconds
        while not holds() and time.monotonic() < end:
            self.answer()
            script.read()
        return holds()


def strange_rates(words):
    """A COM, and a COMSET, with a rate that the port hasn't: the panel says so, and goes on. The reader says so, answers nothing, and begins anew where it was."""
    with Line(words) as line:
        panel = line.panel("5")
        device = Device(line.panel_end, {5: com(5, 12345)})
        asks(device.until(panel, opened(panel, 1)), "strange: the session doesn't open")
        panel.say("1 COMSET 5 19200")
        asks(device.until(panel, has(panel, "no rate 12345")), "strange: a COM with a rate that the port hasn't isn't told")
        asks(device.until(panel, opened(panel, 1, 2)), "strange: the panel doesn't go on")
        asks("moved 1 COMSET 5 19200 = COM 5 12345" in panel.lines, "strange: the COM isn't told")
        asks(not any(each.startswith("rate ") for each in panel.lines), "strange: another rate is told")
        end, reader = line.reader_ends[0], line.reader(0, 5)
        os.write(end.end, packet(5, 0, ID, b"\0"))
        end.next_burst()
        os.write(end.end, packet(5, 1, COMSET, com(7, 12345)))
        asks(not select.select([end.end], [], [], 0.5)[0], "strange: a COMSET to a rate that the port hasn't is answered")
        os.write(end.end, packet(5, 2, POLL))
        asks(end.next_burst() == packet(0x85, 2, NAK, b"\4"), "strange: the reader doesn't begin anew")
        os.write(end.end, packet(5, 0, ID, b"\0"))
        asks(end.next_burst()[5:6] == bytes([PDID]), "strange: the reader isn't where it was")
        reader.read()
        asks("no rate 12345" in reader.lines, f"strange: the reader tells {reader.lines}")


def refused_rate(words):
    """Of two readers one refuses its COMSET: its session stays, and so does the rate of the port."""
    with Line(words) as line:
        panel, device = line.panel("5,6"), Device(line.panel_end, {5: com(9, 19200)})
        asks(device.until(panel, lambda: opened(panel, 1)() and opened(panel, 2)()), "refusing: the sessions don't open")
        panel.say("1 COMSET 9 19200")
        told = ["moved 1 COMSET 9 19200 = COM 9 19200", "settled 2 COMSET 6 19200 = NAK 9"]
        asks(device.until(panel, has(panel, *told)), "refusing: the COMSETs aren't told")
        device.asked.clear()
        out = has(panel, "out of reach 1 at 19200")
        asks(device.until(panel, lambda: out() and len(device.asked) > 10), "refusing: the moved reader isn't told out of reach, or the other isn't asked on")
        asks(set(device.asked) == {6}, f"refusing: asked are {set(device.asked)}")
        asks(not any(each.startswith(("rate ", "lost 2")) for each in panel.lines), "refusing: the other session or the rate didn't stay")


def refused_order(words):
    """A reader says of an order that it answered by a NAK that it was refused."""
    with Line(words) as line:
        end, reader = line.reader_ends[0], line.reader(0, 5)
        for number, code, data, reply in ((0, ID, b"\0", PDID), (1, 0x68, bytes([9, 2, 0, 0]), NAK), (2, 0x68, bytes([7, 2, 0, 0]), ACK)):
            os.write(end.end, packet(5, number, code, data))
            asks(end.next_burst()[5:6] == bytes([reply]), f"refused: the reply to {code:02X} is another one")
        line.run(has(reader, "taken OUT 7:2:0"))
        asks(reader.lines == ["again ID 0", "online", "refused OUT 9:2:0", "taken OUT 7:2:0"], f"refused: the reader tells {reader.lines}")


def own_calls(words):
    """A line that is a call which the reader's example makes itself is refused, and the others are not."""
    with Line(words) as line:
        reader = line.reader(0, 5)
        own, others = ["outputs 00", "at 99999999", "bytes 00", "silence", "tick"], ["inputs 0100", "readers 00", "local 0 1", "busy on", "busy off"]
        reader.say("\n".join(own + others))
        told = [each for call in own for each in (call, "refused line")] + others
        asks(line.run(lambda: reader.lines == told), f"calls: the reader tells {reader.lines}")


BAD_LINES = (b"\xff\xfe 1\n", b"1 OUT 0:2:0\0\n", b"x" * 8193 + b"1 OUT 0:2:9\n", "1 OÜT\n".encode())


def bad_lines(words):
    """Lines that aren't text are refused, and nothing ends by them. The last line needs no line feed."""
    with Line(words) as line:
        panel, reader = line.panel("5"), line.reader(0, 5)
        asks(line.run(opened(panel, 1)), "lines: the session doesn't open")
        for script, last in ((panel, b"1 OUT 0:2:7"), (reader, b"event KEYPAD 0 31")):
            for each in BAD_LINES:
                script.process.stdin.write(each)
            script.process.stdin.write(last)
            script.process.stdin.close()
            holds = line.run(lambda: script.lines.count("refused line") == len(BAD_LINES))
            asks(holds, f"lines: of {len(BAD_LINES)} {script.lines.count('refused line')} are refused")
        asks(line.run(has(reader, "taken OUT 0:2:7")), "lines: the last order isn't done")
        asks(taken(reader) == ["taken OUT 0:2:7"], f"lines: the reader has taken {taken(reader)}")
        asks(line.run(has(panel, "event 1 KEYPAD 0 31")), "lines: the last event isn't told")
        asks(all(script.process.poll() is None for script in (panel, reader)), "lines: an example has ended")


def judge_trace(path, osdp, wanted):
    """A trace has these bursts, each after a comment; where the example was stopped two may be missing. What `osdp show` prints of them."""
    text = Path(path).read_text()
    found = re.findall(r"^# \d{4}-\d\d-\d\dT\d\d:\d\d:\d\d\.\d{3}Z (in|out)\n([0-9A-F]+)\n", text, re.M)
    asks(text.startswith("# kept\n"), "trace: what stood in the file is gone")
    asks(len(text.splitlines()) == 1 + 2 * len(found), f"trace: other lines in {text}")
    asks(found == wanted[:len(found)] and len(wanted) - 2 <= len(found), f"trace: {found} in place of {wanted}")
    return subprocess.run([osdp, "show"], input=text, capture_output=True, text=True).stdout.splitlines()


def traces(words, osdp):
    """Each burst is a line of the trace, both ways, and `osdp show` reads it."""
    with tempfile.TemporaryDirectory() as folder, Line(words) as line:
        paths = [f"{folder}/panel", f"{folder}/reader"]
        for path in paths:
            Path(path).write_text("# kept\n")
        reader = line.reader(0, 5, options=["--trace", paths[1]])
        line.run(lambda: line.reader_ends[0].rate == termios.B9600)
        line.cuts = True
        panel = line.panel("5", options=["--trace", paths[0]])
        line.run(opened(panel, 1))
        panel.say("1 OUT 0:2:0")
        asks(line.run(has(panel, "settled 1 OUT 0:2:0 = ACK")), "trace: an order isn't done")
        for script in (panel, reader):
            script.process.send_signal(signal.SIGINT)
        line.run(lambda: panel.process.poll() is not None and reader.process.poll() is not None)
        went = [(way, burst.hex().upper()) for way, burst in line.bursts]
        for path, wanted in zip(paths, (went, [({"out": "in", "in": "out"}[way], burst) for way, burst in went])):
            shown = judge_trace(path, osdp, wanted)
            asks(shown[:2] == ["1:0 cmd 5 seq 0 sum ID 0", "2:0 reply 5 seq 0 sum PDID 53494D 1 0 0 0 0 0"], f"trace: shown are {shown}")
            orders = [at for at, each in enumerate(shown) if each.endswith(" sum OUT 0:2:0")]
            asks(len(orders) == 1 and shown[orders[0] + 1].endswith(" sum ACK"), f"trace: shown are {shown}")


def ends(rows):
    """Each example, run on its words, ends by itself with a status and one line on standard error. They run at the same time."""
    scripts = [Script(*words, stdin=subprocess.DEVNULL, stderr=subprocess.PIPE) for words, _, _ in rows]
    for script, (words, status, said) in zip(scripts, rows):
        try:
            found = script.process.wait(timeout=2 * LIMIT)
        except subprocess.TimeoutExpired:
            script.process.kill()
            found = script.process.wait()
        told = script.process.stderr.read().decode()
        asks(found == status and re.fullmatch(said, told), f"{words}: status {found}, and it says {told!r}")


BAD = r"bad words: --help tells the right ones\n"


def program_says(setting):
    """What the program says of words whose last two are no setting."""
    return rf"osdp: bad words\nosdp: no setting: {' '.join(setting.split()[-2:])}\n"


def with_program(given, count, program):
    """The words of an example, with the program before the settings."""
    count += 2 * (given[:1] == ["--trace"])
    return [*given[:count], *program, *given[count:]] if len(given) >= count else given


def wrong_words(words, is_python):
    """What is wrong with the words of an example is told in one line, with status 2, and 3 where the port or the trace is it. Of settings the program tells
    it in two lines, of which the second names them."""
    (panel, panel_program), (reader, reader_program) = words
    terminal = Terminal()
    port, nowhere = terminal.path, "/nowhere/file"
    a_setting = program_says if is_python else lambda setting: r"bad [\w-]+.*\n|a setting is out of its range\n"
    rows = [
        (panel, [], 2, BAD), (panel, [port], 2, BAD), (panel, [port, 9600], 2, BAD), (panel, ["--trace", nowhere], 2, BAD), (panel, ["--trace"], 2, BAD),
        (panel, ["--traces", port, 9600, 5], 2, BAD), (panel, [port, "fast", 5], 2, r"bad rate: fast\n"), (panel, [port, -9600, 5], 2, r"bad rate: -9600\n"),
        (panel, [port, 12345, 5], 3, r"the port has no such rate\n"), (panel, [port, 0, 5], 3, r"the port has no such rate\n"),
        (panel, [nowhere, 9600, 5], 3, r"the port can't be opened: No such file or directory\n"), (panel, ["/dev/null", 9600, 5], 3, r"the port is no serial port\n"),
        (panel, ["--trace", nowhere, port, 9600, 5], 3, r"the trace can't be opened: No such file or directory\n"),
        (reader, [], 2, BAD), (reader, [port], 2, BAD), (reader, ["--trace", nowhere], 2, BAD), (reader, ["--traces", port, 9600], 2, BAD),
        (reader, ["--keep"], 2, BAD), (reader, ["--keep", nowhere], 2, BAD), (panel, ["--keep", nowhere, port, 9600] + [5] * is_python, 2, BAD),
        (reader, [port, "fast"], 2, r"bad rate: fast\n"), (reader, [port, 12345], 3, r"the port has no such rate\n"),
        (reader, [nowhere, 9600], 3, r"the port can't be opened: No such file or directory\n"), (reader, ["/dev/null", 9600], 3, r"the port is no serial port\n"),
        (reader, ["--trace", nowhere, port, 9600], 3, r"the trace can't be opened: No such file or directory\n"),
    ]
    rows += [(panel, [port, 9600, word], 2, rf"bad address: {last}(, refused .*)?\n" if is_python else rf"{in_c}\n")
             for word, last, in_c in (("127", 127, "bad address: 127 is above 126"), ("5,128", 128, "bad address: 128 is above 126"), ("5,5", 5, "device 5 is in the list twice"),
                                      ("5,", "", "bad address: "), ("x", "x", "bad address: x"), ("5,-1", -1, "bad address: -1"),
                                      (",".join(map(str, range(17))), 16, "device 16 is one too many: a panel has 16 at most"))]
    rows += [(panel, [port, 9600, 5, *setting.split()], 2, a_setting(setting))
             for setting in ("gap 0", "check none", "sends 256", "capacity 1025", "reply-wait x", "room 1", "gap 20 gap 0")]
    rows += [(reader, [port, 9600, *setting.split()], 2, a_setting(setting))
             for setting in ("address 127", "address x", "gap 0", "room 0", "cap 1:2", "cap 1:2:256", "vendor 5349", "model 256", "firmware 1:2", "capacity 1")]
    ends([([*example, *with_program(given, *((3, panel_program) if example is panel else (2, reader_program)))], status, said)
          for example, given, status, said in rows])
    for example in (panel, reader):
        shown = subprocess.run([*map(str, example), "--help"], capture_output=True, text=True)
        asks(shown.returncode == 0 and "Status: 2 bad words" in shown.stdout and not shown.stderr, f"words {example[-1]}: --help is another text")
    terminal.close()


def no_program(words):
    """The examples in Python say that their program isn't there, or has ended."""
    (panel, _), (reader, _) = words
    terminal = Terminal()
    for example, given in ((panel, [terminal.path, 9600, 5]), (reader, [terminal.path, 9600])):
        ends([([*example, *given, "/nowhere/program"], 127, r"the program can't be started: /nowhere/program\n"),
              ([*example, *given, "/bin/false"], 3, r"the program has ended\n")])
    terminal.close()


def ends_without_a_word(words):
    """At Ctrl-C, and where nobody reads what it prints any more, an example ends without a word. Where standard output fails it says so."""
    for what in ("Ctrl-C", "a closed pipe", "a full disk"):
        with Line(words) as line, open("/dev/full", "w") as full:
            streams = {"stderr": subprocess.PIPE, **({"stdout": full} if what == "a full disk" else {})}
            scripts = [line.panel("5", **streams), line.reader(0, 5, **streams)]
            if what == "a closed pipe":
                for script in scripts:
                    script.process.stdout.close()
            line.scripts = scripts if what == "Ctrl-C" else []
            ended = lambda: all(script.process.poll() is not None for script in scripts)
            line.run(lambda: ended() or any(way == "in" for way, _ in line.bursts))
            for script in scripts:
                if what == "Ctrl-C":
                    script.process.send_signal(signal.SIGINT)
            line.run(ended)
            wanted = {"Ctrl-C": (130, ""), "a closed pipe": (3, ""), "a full disk": (3, "standard output can't be written\n")}[what]
            line.scripts = scripts
            for script in scripts:
                script.process.kill()
                found = (script.process.wait(), script.process.stderr.read().decode())
                asks(found == wanted, f"{what}: {script.process.args} ends with {found}")


def main(osdp, built=None):
    words = list(commands(TOP, osdp, built))
    begun = time.monotonic()
    stale_orders(words)
    several_stale_orders(words)
    new_rate(words)
    lost_comset(words, "a lost COM", lambda way, burst: burst[5] == COM, (7, ["rate 19200"]))
    lost_comset(words, "a lost COMSET", lambda way, burst: burst[5] == COMSET, (5, ["rate 19200", "rate 9600"]))
    lost_address(words)
    kept_place(words)
    no_place_kept(words)
    strange_rates(words)
    if built is None:  # the panel in C fetches the reader back: tests/panels.py
        refused_rate(words)
    refused_order(words)
    own_calls(words)
    bad_lines(words)
    before = len(faults)
    for _ in range(10):  # on a busy machine the pause between two pieces may be as long as the gap of a trace
        del faults[before:]
        traces(words, osdp)
        if len(faults) == before:
            break
    wrong_words(words, built is None)
    if built is None:
        no_program(words)
    ends_without_a_word(words)
    print(f"examples {'in C' if built else 'in Python'}: {len(faults)} faults in {time.monotonic() - begun:.1f} s", *faults, sep="\n")
    return 1 if faults else 0


if __name__ == "__main__":
    sys.exit(main(*sys.argv[1:]))
