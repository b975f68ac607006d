"""`osdp-port` where its port, its clock or its end fails: a rate that isn't taken, bursts of a network, a server that is deaf, a computer that sleeps, an output that
is full, signals. Its files are in port_files.py. Takes the path of `osdp`, and the parts to run; all of them without."""
import contextlib
import fcntl
import os
import random
import select
import signal
import socket
import struct
import subprocess
import sys
import tempfile
import termios
import threading
import time
from pathlib import Path

import port_line
import stores
from port_line import ACK, COMSET, ID, IDENTITY, OUT, PANEL, PDID, POLL, PORT, Device, Line, asks, faults, has, opened, tells
from simulated import Line as SimulatedLine
from simulated import Port as SimulatedPort
from terminals import Script, Terminal, packet

from osdp_port.console import write_all
from osdp_port.faults import Stop
from osdp_port.keep import ReaderPlace
from osdp_port.main import moment
from osdp_port.reader import Reader
from osdp_port.serial_port import PIECE, Port


def until(holds, seconds=30):
    """Waits until something holds. Whether it has come to hold."""
    end = time.monotonic() + seconds
    while not holds() and time.monotonic() < end:
        time.sleep(0.02)
    return holds()


# ---- rates


def refused_rate():
    """An adapter that stays at its rate without a fault: the port tells so, and goes on at that rate; opened at another one it is refused."""
    terminal, sets = Terminal(), termios.tcsetattr
    termios.tcsetattr = lambda end, when, found: sets(end, when, [*found[:4], termios.B9600, termios.B9600, found[6]])
    try:
        port = Port(terminal.path, 9600)
        asks(not port.set_rate(19200) and (port.rate, port.serial.baudrate) == (9600, 9600), f"refused rate: the port has {port.rate}")
        port.close()
        Port(terminal.path, 19200)
        asks(False, "refused rate: a port is opened at it")
    except Stop as stop:
        asks(stop.status == 3 and f"{terminal.path} can't be opened: its adapter can't be set to 19200" in stop.why, f"refused rate: {stop.why}")
    finally:
        termios.tcsetattr = sets
        terminal.close()


class Told:
    """A program that is told a COMSET of another rate, at its first tick."""

    def __init__(self):
        self.told = [f"send {packet(0x85, 1, 0x54, bytes.fromhex('07004B0000')).hex()}", "moved 7 19200"]

    def call(self, line):
        told, self.told = (self.told, []) if line == "tick" else ([], self.told)
        return [*told, "waiting 0"]

    def close(self):
        pass


def reader_stays():
    """A COMSET to a rate that the reader's port hasn't isn't answered, and nothing is kept of it: the program starts anew where the reader is."""
    for takes in (True, False):
        with tempfile.TemporaryDirectory() as folder:
            said, sent, at, kept, port = [], [], [], Path(folder) / "place", SimulatedPort(SimulatedLine(port_line.osdp), 9600)
            port.can_have, port.write = lambda rate, takes=takes: takes, sent.append
            place = ReaderPlace(str(kept), is_new=True)
            place.read()
            place.begins(5, 9600)
            Reader(port, lambda address: at.append(address) or Told(), 5, lambda: 0, said.append, place).turn(b"", [])
            found = (port.rate, stores.text(kept), len(sent), at)
            asks(found == ((19200, "5 at 7 19200\n", 1, [5]) if takes else (9600, "5 at 5 9600\n", 0, [5, 5])), f"reader stays: {found}")
            place.close()
            asks(("refused COMSET 7 19200: the port has no rate 19200; the reader stays at 5 9600, and its session ends" in said) != takes, f"reader stays: {said}")


def found_where_it_stays():
    """A panel whose device can't be set to a rate loses its session, and finds it where it was: what waited there is told once, and its states hold."""
    line = SimulatedLine(port_line.osdp)
    name = line.add_reader(5, serial=1)
    reader = line.readers[name]
    reader.port.can_have = lambda rate: rate == 9600
    line.add_panel([5])
    asks(line.run(line.all_open, 20), "found where it stays: the session doesn't open")
    reader.line("inputs 0100")
    for code in ("31", "32"):
        reader.line(f"event KEYPAD 0 {code}")
    line.order("5 rate 19200")
    asks(line.run(lambda: any(told.startswith("lost 5") and told.endswith("COMSET 5 19200") for told in line.told), 20), f"found where it stays: no COMSET is lost: {line.told}")
    asks(line.run(lambda: line.all_open() and len(line.panel.devices[0].places) == 1, 60), f"found where it stays: it isn't found: {line.told[-6:]}")
    line.order("5 inputs")
    asks(line.run(lambda: "settled 5 ISTAT = ISTATR 0100" in line.told, 20), f"found where it stays: its inputs are others: {line.told[-4:]}")
    line.run(lambda: False, 2)
    events = [told for told in line.told if told.startswith("event 5 KEYPAD")]
    asks(events == ["event 5 KEYPAD 0 31 keys 1", "event 5 KEYPAD 0 32 keys 2"], f"found where it stays: told are {events}: {line.told}")
    asks((reader.port.rate, line.panel.port.rate) == (9600, 9600), f"found where it stays: the ports are at {reader.port.rate} and {line.panel.port.rate}")
    line.close()


def panel_stays():
    """A panel whose port doesn't take a rate at which its device may be: the device is tried at the rate of the port, and found there."""
    with tempfile.TemporaryDirectory() as folder:
        keep, line, turns = Path(folder) / "places", SimulatedLine(port_line.osdp), 0
        stores.write(keep, "5 at 5 9600 or 5 19200")
        line.add_panel([5], rate=19200, keep=keep)
        line.panel.port.set_rate = lambda rate: rate == 9600 and SimulatedPort.set_rate(line.panel.port, rate)
        asks(line.panel.port.rate == 9600, f"panel stays: the first rate is {line.panel.port.rate}")
        while line.now < 20000 and turns < 2000:
            line.step(20000)
            turns += 1
        asks(turns < 2000, "panel stays: its turns never end")
        asks([told for told in line.told if told.startswith("no rate")] == ["no rate 19200: the port can't be set to it, and stays at 9600"], f"panel stays: {line.told[:9]}")
        asks(sum(told.startswith("lost 5") for told in line.told) > 3, f"panel stays: the device isn't tried again: {line.told}")
        line.add_reader(5)
        asks(line.run(line.all_open, 20), f"panel stays: the device isn't found: {line.told[-4:]}")
        line.close()


def others_come_back():
    """Of two devices one can't be set to the rate of a COMSET: it is found at the old rate again and again, the other comes back to it, and both take orders."""
    for stays, moves in ((5, 6), (6, 5)):
        line = SimulatedLine(port_line.osdp)
        readers = {address: line.readers[line.add_reader(address, serial=address)] for address in (5, 6)}
        readers[stays].port.can_have = lambda rate: rate == 9600
        line.add_panel([5, 6])
        asks(line.run(line.all_open, 20), "come back: the sessions don't open")
        line.order("5 rate 19200")
        asks(line.run(lambda: readers[moves].port.rate == 19200, 60), f"come back, {stays}: the other doesn't move: {line.told[-6:]}")
        together = lambda: line.all_open() and readers[moves].port.rate == 9600 and not any(device.orders for device in line.panel.devices)
        asks(line.run(together, 300), f"come back, {stays}: not together: {line.told[-12:]}")
        asks(f"back to 9600: device {stays} stays there" in line.told, f"come back, {stays}: it isn't told: {line.told[-12:]}")
        for address in (5, 6):
            line.order(f"{address} off")
            asks(line.run(lambda: f"settled {address} OUT 0:1:0 = ACK" in line.told, 20), f"come back, {stays}: {address} takes no order: {line.told[-4:]}")
        line.close()


PINNED = """import termios
sets = termios.tcsetattr
termios.tcsetattr = lambda end, when, found: sets(end, when, [*found[:4], termios.B9600, termios.B9600, found[6]])"""


def devices_stay():
    """A panel whose port can't be set to a rate sends no device there: nobody would reach it."""
    with tempfile.TemporaryDirectory() as folder, Line() as line:
        Path(folder, "sitecustomize.py").write_text(PINNED)
        line.reader(0, 5)
        panel = line.panel("5", *PANEL, env={**os.environ, "PYTHONPATH": folder})
        asks(line.run(opened(panel, 5)), f"devices stay: the session doesn't open: {panel.lines}")
        panel.say("5 rate 19200\n5 on")
        asks(line.run(has(panel, "not taken 5 rate 19200: the port has no rate 19200")), f"devices stay: {panel.lines[-3:]}")
        asks(line.run(tells(panel, "settled 5 OUT 0:2:0")) and not any(burst[5] == COMSET for _, burst in line.bursts), f"devices stay: {panel.lines[-3:]}")


def find_stays():
    """At a port that stays at its rate the device is found there, and no COMSET sends it to a rate at which nobody would find it."""
    with tempfile.TemporaryDirectory() as folder:
        Path(folder, "sitecustomize.py").write_text(PINNED)
        terminal = Terminal()
        device = Device(terminal)
        find = Script(PORT, "--plain", "--osdp", port_line.osdp, "--set-rate", 19200, terminal.path, 9600, "find", env={**os.environ, "PYTHONPATH": folder})
        asks(device.until([find], lambda: find.process.poll() is not None), "find stays: it doesn't end")
        find.read()
        told = [line for line in find.lines if line.startswith(("no rate", "device"))]
        asks(find.process.poll() == 1 and told == ["no rate 19200: the port can't be set to it", "device 0 isn't changed"], f"find stays: {find.process.poll()}, {find.lines}")
        asks(all(burst[5] == ID for burst in device.asked), "find stays: more than ID was sent")
        terminal.close()


# ---- a clock, and an output


def sleeps():
    """The moment goes on while the computer sleeps, so that a card of before its sleep is an old one."""
    tells_time, before = time.clock_gettime, moment()
    time.clock_gettime = lambda clock: tells_time(clock) + 3600 * (clock == time.CLOCK_BOOTTIME)
    try:
        asks(moment() >= before + 3600000, f"sleeps: after an hour {moment() - before} ms have gone by")
    finally:
        time.clock_gettime = tells_time


def full_output():
    """An output that another program has set not to block, and that is full, is waited for."""
    out, into = os.pipe()
    os.set_blocking(into, False)
    thread = threading.Thread(target=write_all, args=(into, bytes(1000000)), daemon=True)
    thread.start()
    came = 0
    while came < 1000000 and select.select([out], [], [], 30)[0]:
        came += len(os.read(out, 65536))
    thread.join(30)
    asks(not thread.is_alive() and came == 1000000, f"full output: {came} bytes come")


def is_full(out):
    """Waits until a pipe of 4096 bytes has no room for another line. Whether that is so."""
    counts = []

    def holds():
        counts.append(struct.unpack("i", fcntl.ioctl(out, termios.FIONREAD, bytes(4)))[0])
        return len(counts) > 25 and counts[-1] > 3000 and len(set(counts[-25:])) == 1

    return until(holds)


def unread_output():
    """Where nobody reads what is printed, the first SIGTERM ends a program within a second, or two on a busy machine: of its trace nothing is missing, and a line on standard error says so."""
    burst = packet(5, 0, ID, b"\0")
    for words, more in ((["panel", "5"], ["--trace"]), (["reader", "5"], ["--trace"]), (["monitor"], ["--all"]), (["show"], ["--all"])):
        with tempfile.TemporaryDirectory() as folder:
            terminal, (out, into), trace = Terminal(), os.pipe(), Path(folder) / "trace"
            options = [*more, *([str(trace)] if more == ["--trace"] else [])]
            script = subprocess.Popen([PORT, "--osdp", port_line.osdp, *options, terminal.path, "9600", *words], stdin=subprocess.PIPE, stdout=into, stderr=subprocess.PIPE)
            os.close(into)
            fcntl.fcntl(out, 1031, 4096)  # F_SETPIPE_SZ
            asks(select.select([out], [], [], 60)[0], f"unread: {words} prints nothing")
            time.sleep(0.3)
            if words[0] in ("panel", "reader"):
                os.set_blocking(script.stdin.fileno(), False)
                with contextlib.suppress(BlockingIOError):
                    os.write(script.stdin.fileno(), b"this is no order\n" * 3000)
            for _ in range(30 if words[0] in ("monitor", "show") else 1):
                os.write(terminal.end, 20 * burst)
                time.sleep(0.03)
            asks(is_full(out), f"unread: {words}: the pipe isn't full")
            begun = time.monotonic()
            script.send_signal(signal.SIGTERM)
            try:
                status = script.wait(20)
            except subprocess.TimeoutExpired:
                script.kill()
                status = script.wait()
            took, said = time.monotonic() - begun, script.stderr.read().decode()
            asks(status == 3 and took < 2.0, f"unread: {words} ends with {status} after {took:.1f} s")
            asks("nobody reads standard output" in said and "Traceback" not in said, f"unread: {words} says {said!r}")
            asks(more != ["--trace"] or trace.read_text().endswith("\n"), f"unread: {words}: the trace is cut: {trace.read_text()[-60:] if trace.exists() else None!r}")
            os.close(out)
            terminal.close()


def service_ends():
    """A service manager sends SIGTERM to each process of a service, also to the program beside: the panel tells the ends of its orders, and the monitor its table."""
    with Line(readers=2) as line:
        line.reader(0, 5)
        panel = line.panel("5", *PANEL)
        asks(line.run(opened(panel, 5)), f"service ends: the session doesn't open: {panel.lines}")
        line.loses = lambda way, burst: burst[5] == OUT
        panel.say("5 OUT 0:2:1\n5 OUT 0:2:2")
        line.run(lambda: any(burst[5] == OUT for _, burst in line.bursts))
        terminates_children(panel)
        status = line.stops(panel, signal.SIGTERM)
        asks(status == 1 and has(panel, "lost 5 no-reply OUT 0:2:1", "withdrawn 5 OUT 0:2:2")(), f"service ends: {status}, {panel.lines[-3:]}")
        monitor = line.start(line.reader_ends[1], 9600, "monitor")
        line.run(lambda: monitor.lines)
        os.write(line.reader_ends[1].end, packet(5, 0, ID, b"\0") + packet(0x85, 0, PDID, IDENTITY) + packet(5, 1, POLL) + packet(0x85, 1, ACK))
        line.rests(0.6)
        terminates_children(monitor)
        status = line.stops(monitor, signal.SIGTERM)
        asks(status == 0 and tells(monitor, "device  asked")(), f"service ends: the monitor: {status}, {monitor.lines}")


def hangs_up():
    """The terminal is closed, which SIGHUP tells, and a shell tells it once more: the panel tells the ends of its orders all the same, and the monitor its table. Under `nohup` both go on."""
    with Line(readers=2) as line:
        line.reader(0, 5)
        panel = line.panel("5", *PANEL)
        asks(line.run(opened(panel, 5)), f"hangs up: the session doesn't open: {panel.lines}")
        line.loses = lambda way, burst: burst[5] == OUT
        panel.say("5 OUT 0:2:1\n5 OUT 0:2:2")
        line.run(lambda: any(burst[5] == OUT for _, burst in line.bursts))
        panel.process.send_signal(signal.SIGHUP)
        line.rests(0.1)
        status = line.stops(panel, signal.SIGHUP)
        asks(status == 1 and has(panel, "lost 5 no-reply OUT 0:2:1", "withdrawn 5 OUT 0:2:2")(), f"hangs up: {status}, {panel.lines[-3:]}")
        for ignores in (False, True):
            monitor = line.start(line.reader_ends[1], 9600, "monitor", preexec_fn=lambda: signal.signal(signal.SIGHUP, signal.SIG_IGN) if ignores else None)
            line.run(lambda: monitor.lines)
            os.write(line.reader_ends[1].end, packet(5, 0, ID, b"\0") + packet(0x85, 0, PDID, IDENTITY) + packet(5, 1, POLL) + packet(0x85, 1, ACK))
            line.rests(0.6)
            monitor.process.send_signal(signal.SIGHUP)
            if ignores:
                line.rests(0.5)
            else:
                line.run(lambda: monitor.process.poll() is not None)
            asks((monitor.process.poll() is None) == ignores, f"hangs up: the monitor, {ignores}: {monitor.process.poll()}")
            status = line.stops(monitor) if ignores else line.stops(monitor, 0)
            asks(status == 0 and tells(monitor, "device  asked")(), f"hangs up: the monitor: {status}, {monitor.lines}")


def terminates_children(script):
    for child in Path(f"/proc/{script.process.pid}/task/{script.process.pid}/children").read_text().split():
        os.kill(int(child), signal.SIGTERM)


def many_stops():
    """Three Ctrl-C without a pause between them: the program ends without a traceback."""
    terminal = Terminal()
    for _ in range(5):
        reader = subprocess.Popen([PORT, "--osdp", port_line.osdp, terminal.path, "9600", "reader", "5"], stdin=subprocess.DEVNULL, stdout=subprocess.PIPE, stderr=subprocess.PIPE)
        reader.stdout.readline()
        for _ in range(3):
            reader.send_signal(signal.SIGINT)
        said = reader.communicate(timeout=60)[1]
        asks(reader.returncode in (0, 130) and b"Traceback" not in said, f"many stops: {reader.returncode}, {said}")
    terminal.close()


def unwritten_help():
    """Help and version that can't be written end with a sentence and status 3."""
    for program in (PORT, PORT.parent / "osdp-report"):
        for word in ("--help", "--version"):
            for end in (">/dev/full", ">&-"):
                done = subprocess.run(["sh", "-c", f'exec "$0" {word} {end}', program], stderr=subprocess.PIPE, text=True, timeout=60)
                asks(done.returncode == 3 and len(done.stderr.splitlines()) == 1 and "can't be written" in done.stderr, f"unwritten help: {program.name} {word} {end}: {done}")


def cursor():
    """A picture that two Ctrl-C end at once leaves the terminal its cursor."""
    terminal, port = Terminal(), Terminal()
    live = subprocess.Popen([PORT, "--osdp", port_line.osdp, "--live", port.path, "9600", "monitor"], stdin=subprocess.DEVNULL, stdout=terminal.other, stderr=subprocess.DEVNULL)
    os.close(terminal.other)
    shown, end = b"", time.monotonic() + 30
    while b"\x1b[?25l" not in shown and time.monotonic() < end:
        shown += os.read(terminal.end, 4096)
    live.send_signal(signal.SIGINT)
    live.send_signal(signal.SIGINT)
    try:
        while read := os.read(terminal.end, 4096):
            shown += read
    except OSError:
        pass  # it has ended
    live.wait(30)
    asks(shown.rfind(b"\x1b[?25h") > shown.rfind(b"\x1b[?25l"), f"cursor: it stays away: {shown[-60:]}")
    os.close(terminal.end)
    port.close()


# ---- a server on the network


class Server:
    """A server that has a port: it plays a device, or says nothing."""

    def __init__(self, is_silent=False):
        self.is_silent, self.asked = is_silent, []
        self.socket = socket.create_server(("127.0.0.1", 0))
        self.path = f"socket://127.0.0.1:{self.socket.getsockname()[1]}"
        threading.Thread(target=self.serves, daemon=True).start()

    def serves(self):
        client, held = self.socket.accept()[0], b""
        with contextlib.suppress(OSError):  # the panel is killed in the end
            while read := client.recv(4096):
                held += read
                while len(held) >= 4 and len(held) >= held[2]:
                    burst, held = held[:held[2]], held[held[2]:]
                    self.asked.append(burst)
                    if not self.is_silent:
                        client.sendall(packet(burst[1] | 0x80, burst[4] & 3, *((PDID, IDENTITY) if burst[5] == ID else (ACK, b""))))


def kept_at_a_server():
    """The file has two rates of a device, and the server has one of them: the device is found at the rate that the words say, and else is tried again and again."""
    with tempfile.TemporaryDirectory() as folder:
        for is_silent in (False, True):
            keep, server = Path(folder) / f"places{is_silent}", Server(is_silent)
            stores.write(keep, "5 at 5 9600 or 5 19200")
            panel = Script(PORT, "--plain", "--osdp", port_line.osdp, "--keep", keep, server.path, 9600, "panel", "5", *PANEL, "reply-wait", 100)
            if is_silent:
                asks(until(lambda: len(server.asked) > 6, 60), f"kept at a server: the device is tried {len(server.asked)} times")
            else:
                asks(until(lambda: panel.read() or opened(panel, 5)()), f"kept at a server: {panel.lines}")
                asks(until(lambda: "5 at 5 9600 is" in stores.text(keep)), f"kept at a server: the file has {stores.text(keep)!r}")
            panel.process.kill()
            panel.process.wait()


def whole_bursts():
    """What has come of a network is read at once, up to a bound."""
    with socket.create_server(("127.0.0.1", 0)) as server:
        port = Port(f"socket://127.0.0.1:{server.getsockname()[1]}", 9600)
        client = server.accept()[0]
        client.sendall(bytes(3 * PIECE))
        has_come = lambda: struct.unpack("i", fcntl.ioctl(port.number(), termios.FIONREAD, bytes(4)))[0] == 3 * PIECE
        asks(until(has_come), "bursts: they don't come")
        reads = [len(port.read()) for _ in range(4)]
        asks(reads == [PIECE, PIECE, PIECE, 0], f"bursts: {3 * PIECE} bytes are read as {reads}")
        port.close()


def noise_in_a_search():
    """A line on which bytes come all the time: `find` says so once, says nothing of several devices, and ends soon."""
    with socket.create_server(("127.0.0.1", 0)) as server:
        find = Script(PORT, "--plain", "--osdp", port_line.osdp, f"socket://127.0.0.1:{server.getsockname()[1]}", 9600, "find")
        client = server.accept()[0]
        chance, begun = random.Random(1), time.monotonic()
        while find.process.poll() is None and time.monotonic() < begun + 60:
            with contextlib.suppress(OSError):
                client.sendall(chance.randbytes(3))
            time.sleep(0.01)
        find.read()
        counts = [sum(told.startswith(start) for told in find.lines) for start in ("bytes come though nobody is asked", "several", "no device found: bytes come")]
        asks(find.process.poll() == 1 and counts == [1, 0, 1] and time.monotonic() < begun + 30, f"noise: {find.process.poll()} after {time.monotonic() - begun:.0f} s, {find.lines}")
        client.close()


def gone_in_a_search():
    """An adapter that is pulled while `find` or a test runs ends it with status 3: nobody is told that it is waited for."""
    for words in (["find"], ["test", "device", "5"]):
        terminal = Terminal()
        script = Script(PORT, "--plain", "--osdp", port_line.osdp, terminal.path, 9600, *words, stderr=subprocess.PIPE)
        asks(select.select([terminal.end], [], [], 60)[0], f"gone in a search: {words} sends nothing")
        terminal.close()
        os.set_blocking(script.process.stdout.fileno(), True)
        told = [line for line in script.process.stdout.read().decode().splitlines() if "pulled" in line]
        said = script.process.stderr.read().decode()
        asks(script.process.wait(60) == 3 and told == [f"pulled {terminal.path}"] and "is gone" in said, f"gone in a search: {words}: {told}, {said}")


def deaf_server():
    """A server that reads no more is hung up on, and not waited for for ever."""
    with socket.create_server(("127.0.0.1", 0)) as server:
        said = []
        port = Port(f"socket://127.0.0.1:{server.getsockname()[1]}", 9600, said.append)
        client = server.accept()[0]
        thread = threading.Thread(target=port.write, args=(bytes(50000000),), daemon=True)
        thread.start()
        thread.join(60)
        asks(not thread.is_alive() and said == [f"pulled {port.path}: it is opened again as soon as it is back"], f"deaf server: {said}")
        client.close()


def away():
    """A port that was pulled and can't be opened again says why, once, and comes back."""
    with tempfile.TemporaryDirectory() as folder:
        terminal, name, said = Terminal(), Path(folder) / "port", []
        name.symlink_to(terminal.path)
        port = Port(str(name), 9600, said.append)
        name.unlink()
        port.pulled()
        asks(until(lambda: time.monotonic() > port.tries_at) and not port.comes_back() and len(said) == 1, f"away: {said}")
        name.symlink_to("/etc/passwd")
        until(lambda: port.comes_back() or len(said) > 1)
        tries_at = port.tries_at
        until(lambda: port.comes_back() or port.tries_at > tries_at)
        asks(said[1:] == [f"not back: {name} is no serial port"], f"away: {said}")
        name.unlink()
        name.symlink_to(terminal.path)
        asks(until(lambda: port.comes_back() or port.is_there) and said[-1] == f"back {name}", f"away: {said}")
        for again in (1.0, 2.0):  # it is gone again and again: it is tried later each time
            port.pulled()
            asks(port.again == again, f"away: it is tried again after {port.again} s")
            port.tries_at = 0
            port.comes_back()
        port.close()
        terminal.close()


PARTS = (refused_rate, reader_stays, found_where_it_stays, others_come_back, panel_stays, devices_stay, find_stays, sleeps, full_output, unread_output, service_ends, hangs_up, many_stops, unwritten_help, cursor, kept_at_a_server, whole_bursts, noise_in_a_search, gone_in_a_search, deaf_server, away)


def main(path, *names):
    port_line.osdp = path
    begun = time.monotonic()
    for part in PARTS:
        if not names or part.__name__ in names:
            part()
    print(f"port faults: {len(faults)} faults in {time.monotonic() - begun:.1f} s", *faults[:40], sep="\n")
    return 1 if faults else 0


if __name__ == "__main__":
    sys.exit(main(*sys.argv[1:]))
