"""Parts of the walk of `port_walk.py` that are about words, ports and who may open them."""
import contextlib
import fcntl
import os
import random
import re
import select
import shutil
import signal
import socket
import subprocess
import sys
import tempfile
import termios
import threading
import time
from pathlib import Path

import serial
import serial.rfc2217

import port_line
from port_line import ID, IDENTITY, PANEL, PDID, PORT, Line, asks, has, opened, tells
from terminals import Script, Terminal, packet


def serves(kind, path, ready):
    """A server on the network that has a port: of bytes alone, or by RFC 2217."""
    listener = socket.create_server(("127.0.0.1", 0))
    ready.append(listener.getsockname()[1])
    client, _ = listener.accept()
    port = serial.Serial(path, 9600, timeout=0.01)
    manager = None
    if kind == "rfc2217":
        made = type(port)  # a pseudo terminal has no lines of a modem
        made.cts = made.dsr = made.ri = made.cd = property(lambda _: False)
        made._update_dtr_state = made._update_rts_state = lambda _: None
        manager = serial.rfc2217.PortManager(port, type("Answers", (), {"write": staticmethod(client.sendall)}))

    def hands_up():
        while True:
            try:
                read = port.read(max(1, port.in_waiting))
                client.sendall(b"".join(manager.escape(read)) if manager else read)
            except (OSError, TypeError):
                return  # the line, or the client, is gone

    threading.Thread(target=hands_up, daemon=True).start()
    while read := client.recv(1024):
        port.write(b"".join(manager.filter(read)) if manager else read)
    client.close()


def over_the_network():
    """A port that a server on the network has, by its bytes alone and by RFC 2217; only the second one has another rate."""
    for kind in ("socket", "rfc2217"):
        with Line() as line:
            ready = []
            threading.Thread(target=serves, args=(kind, line.panel_end.path, ready), daemon=True).start()
            while not ready:
                time.sleep(0.01)
            reader = line.reader(0, 5)
            line.scripts.append(panel := Script(PORT, "--plain", "--osdp", port_line.osdp, f"{kind}://127.0.0.1:{ready[0]}", 9600, "panel", "5", *PANEL))
            asks(line.run(opened(panel, 5)), f"{kind}: the session doesn't open: {panel.lines}")
            panel.say("5 rate 19200")
            if kind == "socket":
                asks(line.run(tells(panel, "not taken 5 rate 19200: the port has no rate 19200")), f"{kind}: {panel.lines[-3:]}")
            else:
                asks(line.run(opened(panel, 5, 2)), f"{kind}: not found at the new rate: {panel.lines[-5:]}")
            panel.say("5 on")
            asks(line.run(has(reader, "taken OUT 0:2:0")), f"{kind}: no order is done")


BAD_WORDS = (
    [], ["PORT"], ["PORT", "9600"], ["PORT", "fast", "show"], ["PORT", "0", "show"], ["PORT", "-9600", "show"], ["PORT", "9600", "shows"],
    ["PORT", "9600", "panel"], ["PORT", "9600", "panel", "127"], ["PORT", "9600", "panel", "5,5"], ["PORT", "9600", "panel", "5,"], ["PORT", "9600", "panel", "9-5"],
    ["PORT", "9600", "panel", "x"], ["PORT", "9600", "panel", "0-16"], ["PORT", "9600", "panel", "5", "gap", "0"], ["PORT", "9600", "panel", "5", "gap"],
    ["PORT", "9600", "reader"], ["PORT", "9600", "reader", "5,6"], ["PORT", "9600", "reader", "5", "model", "256"], ["PORT", "9600", "trace"],
    ["PORT", "9600", "show", "more"], ["PORT", "9600", "find", "more"], ["PORT", "9600", "trace", "/tmp/a", "more"], ["--keep"], ["--keep", "file", "PORT", "9600", "show"],
    ["--nonsense", "PORT", "9600", "show"], ["--address", "127", "PORT", "9600", "show"], ["--address", "x", "PORT", "9600", "show"], ["--every", "0", "PORT", "9600", "monitor"],
    ["--size", "0", "PORT", "9600", "trace", "/tmp/a"], ["--set-rate", "12345", "PORT", "9600", "find"], ["PORT", "12345", "show"], ["--all", "PORT", "9600", "find"], ["--live", "PORT", "9600", "show"],
    ["--size", "5", "PORT", "9600", "panel", "5"], ["--osdpcap", "PORT", "9600", "reader", "5"],
    ["--until", "99", "PORT", "9600", "panel", "5"], ["--until", "ever", "PORT", "9600", "panel", "5"], ["--until", "5000", "PORT", "9600", "reader", "5"], ["--late", "5000", "PORT", "9600", "panel", "5"],
    ["--late", "never", "PORT", "9600", "reader", "5"],
)
BAD_PORTS = (
    ["/nowhere/port", "9600", "show"], ["/dev/null", "9600", "panel", "5"], ["/etc/passwd", "9600", "monitor"], ["/", "9600", "show"], ["nonsense://x", "9600", "show"],
    ["socket://localhost:1", "9600", "show"], ["rfc2217://localhost:1", "9600", "panel", "5"], ["--trace", "/nowhere/file", "PORT", "9600", "panel", "5"], ["PORT", "9600", "trace", "/nowhere/file"],
    ["--keep", "/dev", "PORT", "9600", "panel", "5"], ["--keep", "/dev", "PORT", "9600", "reader", "5"],
)


def version():
    """The version that the header for C has."""
    return re.search(r'^#define OSDP_VERSION "(.*)"$', (PORT.parent.parent / "include/osdp.h").read_text(), re.M)[1]


def bad_words():
    """Bad words end with status 2, bad ports and files with 3, each with a sentence that names what is wrong, and no traceback."""
    terminal = Terminal()

    def ends(words, status):
        words = [terminal.path if word == "PORT" else word for word in words]
        done = subprocess.run([PORT, *(["--osdp", port_line.osdp] if words else []), *words], capture_output=True, text=True, timeout=60, stdin=subprocess.DEVNULL)
        said = done.stderr + (done.stdout if not words else "")
        is_told = not words or done.stderr.startswith(("osdp-port: ", "osdp: ")) and len(done.stderr.splitlines()) <= 3
        asks(done.returncode == status and "Traceback" not in said and is_told, f"bad words {words}: status {done.returncode}: {said[:300]}")
        named = [word for word in words if "/" in word and not word.startswith("/dev/pts") and word != "/tmp/a"]
        asks(status != 3 or not named or any(word in said for word in named), f"bad words {words}: {said} doesn't name it")

    for words in BAD_WORDS:
        ends(words, 2)
    with socket.create_server(("127.0.0.1", 0)) as server:  # it sets the rate: a device at another one would be lost
        ends(["--set-rate", "19200", f"socket://127.0.0.1:{server.getsockname()[1]}", "9600", "find"], 2)
    for words in BAD_PORTS:
        ends(words, 3)
    for words, status, wanted in ((["--help"], 0, "usage: osdp-port"), (["--version"], 0, f"osdp-port {version()}\n"), (["PORT", "9600", "show", "--help"], 0, "usage: osdp-port"),
                                  (["PORT", "9600", "panel", "5", "7"], 2, "several addresses are one word, as 5,7"), (["--osdp", "/nowhere/osdp", terminal.path, "9600", "show"], 127, "/nowhere/osdp"),
                                  (["--osdp", "/nowhere/osdp", terminal.path, "9600", "find"], 127, "/nowhere/osdp")):
        done = subprocess.run([PORT, *words], capture_output=True, text=True, timeout=60, stdin=subprocess.DEVNULL)
        asks(done.returncode == status and wanted in done.stdout + done.stderr, f"{words}: {done}")
    for words in (["show"], ["monitor", "--all"], ["--all", "panel", "5"], ["reader", "5"]):
        script = subprocess.Popen([PORT, "--osdp", port_line.osdp, terminal.path, "9600", *words], stdin=subprocess.DEVNULL, stdout=subprocess.PIPE, stderr=subprocess.PIPE)
        script.stdout.readline()
        script.stdout.close()
        for burst in (packet(5, 0, ID, b"\0"), packet(0x85, 0, PDID, IDENTITY)) * 3:
            os.write(terminal.end, burst)
            time.sleep(0.3)
        asks(script.wait(timeout=60) == 3 and b"Traceback" not in (said := script.stderr.read()), f"a closed pipe: {words}: {script.returncode}: {said}")
    with tempfile.TemporaryDirectory() as folder:
        Path(folder, "serial.py").write_text("raise ImportError\n")
        done = subprocess.run([PORT, "--osdp", port_line.osdp, terminal.path, "9600", "show"], env={**os.environ, "PYTHONPATH": folder}, capture_output=True, text=True, timeout=60)
        asks(done.returncode == 127 and "sudo apt-get install python3-serial" in done.stderr, f"no pyserial: {done}")
    terminal.close()


POOL = ("/nowhere/port", "/dev/null", "/", "", " ", "\n", "rfc2217://", "rfc2217://a:b:c", "socket://", "nonsense://x", "9600", "0", "-1", "127", "12345", "1e3", "0x10",
        "9" * 5000, "\u0663", "\udcff", "\0x"[1:], "%s", "5", "5,6", "5-", ",", "0-16", "check", "sum", "gap", "reply-wait", "vendor", "show", "monitor", "panel", "reader",
        "find", "trace", "--all", "--live", "--plain", "--osdpcap", "--address", "--every", "--keep", "--trace", "--size", "--set-address", "--set-rate", "--osdp", "--", "-", "-x", "--nonsense")
ORDERS = ("open", "on", "off", "led", "green", "blink", "beep", "text", "move", "rate", "id", "accept", "output", "card", "keys", "event", "3s", "9" * 400 + "s", "9" * 5000,
          "1.5s", "0", "-1", "256", "127", "OUT", "0:5:30", "COMSET", "LED", "%s", "0x10")  # a line has printable ASCII alone


def ends_well(main, words):
    """Calls the program's words in a process of its own. Its status, and what it has said."""
    said, saying = os.pipe()
    if not (child := os.fork()):
        status = 99
        with contextlib.suppress(BaseException):
            os.dup2(saying, 1)
            os.dup2(saying, 2)
            sys.stdin = open(os.devnull)
            os.dup2(sys.stdin.fileno(), 0)
            status = main(words)
        os._exit(status)
    os.close(saying)
    with open(said, "rb") as file:
        text = file.read().decode()
    return os.waitstatus_to_exitcode(os.waitpid(child, 0)[1]), text


def any_words():
    """Any words, on any port that isn't there, end with a status of the manual and a sentence, and any order or line is taken or refused with a sentence."""
    sys.path.insert(0, str(PORT.parent))
    from osdp_port import doors, reader
    from osdp_port.faults import Refused
    from osdp_port.main import main
    from osdp_port.rounds import Place
    chance = random.Random(1)
    for _ in range(1500):
        words = [chance.choice(POOL) for _ in range(chance.randrange(1, 9))]
        if chance.random() < 0.7:
            words[:0] = [chance.choice(POOL[:10]), chance.choice(POOL[10:15]), chance.choice(("show", "monitor", "panel", "reader", "find", "trace"))]
        status, said = ends_well(main, ["--osdp", port_line.osdp, *words])
        asks(status in (2, 3, 127) and said.startswith(("osdp-port: ", "osdp: ")), f"any words: {[word[:20] for word in words]}: status {status}: {said[:200]}")
    for _ in range(3000):
        words = [chance.choice(ORDERS) for _ in range(chance.randrange(0, 6))]
        for takes in (lambda: doors.command(words, Place(5, 9600)), lambda: reader.call_of(" ".join(words))):
            try:
                takes()
            except Refused:
                pass
            except Exception as error:  # any other one would end the program
                asks(False, f"any words: {[word[:20] for word in words]}: {error!r}")
    for words, text in (("open", "OUT 0:5:30"), ("open 500ms output 2", "OUT 2:5:5"), ("open 2m", "OUT 0:5:1200"), ("open 109m", "OUT 0:5:65400"), ("on output 1", "OUT 1:2:0"),
                        ("off", "OUT 0:1:0"), ("led amber", "LED 0:0:0:0:0:0:0:0:1:1:0:3:0"), ("led blue 5s", "LED 0:0:2:1:0:4:0:50:0:0:0:0:0"), ("beep 3", "BUZ 0 2 1 1 3"),
                        ("text AB", "TEXT 0 1 0 1 1 4142"), ("move 7", "COMSET 7 9600"), ("rate 19200", "COMSET 5 19200"), ("tamper", "LSTAT")):
        said = doors.command(words.split(), Place(5, 9600))
        asks(said == text, f"words of an order: {words}: {said}, and not {text}")
    for words in ("open 50ms", "open 0s", "open 110m", "move 127", "led pink"):
        try:
            asks(False, f"words of an order: {words} is {doors.command(words.split(), Place(5, 9600))}")
        except Refused:
            pass


def no_permission():
    """A user who may not open the port is told what to do; one who may, and comes second, is refused by the system."""
    if os.getuid() != 0:
        return  # only root can be another user
    terminal, nobody = Terminal(), {"user": 65534, "group": 65534}
    with tempfile.TemporaryDirectory() as folder:
        os.chmod(folder, 0o755)
        shutil.copytree(PORT.parent, f"{folder}/port", ignore=shutil.ignore_patterns("__pycache__"))
        shutil.copy(port_line.osdp, f"{folder}/osdp")
        for mode, wanted in ((0o600, "no permission: add yourself to dialout"), (0o666, "is in use by")):
            os.chmod(terminal.path, mode)
            holder = serial.Serial(terminal.path, 9600) if mode == 0o666 else None
            if holder:
                fcntl.ioctl(holder.fileno(), termios.TIOCEXCL)
            done = subprocess.run([f"{folder}/port/osdp-port", "--osdp", f"{folder}/osdp", terminal.path, "9600", "show"], capture_output=True, text=True, stdin=subprocess.DEVNULL,
                                  timeout=60, **nobody)
            asks(done.returncode == 3 and f"{terminal.path}" in done.stderr and wanted in done.stderr, f"no permission: {done}")
            if holder:
                holder.close()
    terminal.close()


def bad_lines():
    """Lines that aren't orders are told with the word that is wrong, and nothing ends by them."""
    with Line() as line:
        reader, panel = line.reader(0, 5), line.panel("5")
        asks(line.run(opened(panel, 5)), "lines: the session doesn't open")
        rows = (("9 open", "word 1, 9: the address of a device of this line: 5"), ("5 opne", "word 2, opne: one of open,"), ("5 led pink", "word 3, pink: a colour"),
                ("5 open 3", "word 3, 3: a time"), ("5 move 127", "word 3, 127: the new address"), ("5 OUT 0:5", "osdp doesn't read this command"),
                ("5 COMSET 7 12345", "the port has no rate 12345"), ("5", "word 2 is missing"), ("5 POLL", "word 2, POLL"), ("5 beep 0", "word 3, 0"), ("5 accept", "is the one that stood there"))
        for order, why in rows:
            panel.say(order)
            asks(line.run(lambda: any(each.startswith(f"not taken {order}: ") and why in each for each in panel.lines), 10), f"lines: {order}: {panel.lines[-2:]}")
        for each in (b"\xff\xfe 1\n", b"5 OUT 0:2:0\0\n", b"x" * 8193 + b"\n"):
            panel.process.stdin.write(each)
        panel.process.stdin.write(b"5 led green")  # without a line feed
        panel.process.stdin.close()
        asks(line.run(has(reader, "taken LED 0:0:0:0:0:0:0:0:1:1:0:2:0")), "lines: the last order isn't done")
        asks(sum("refused line" in each for each in panel.lines) == 3, f"lines: {panel.lines[-6:]}")
        for said, told in (("card 17 4386", "event RAW 0 1 26 88889100"), ("keys 12#", "event KEYPAD 0 313223"), ("nonsense", "refused osdp doesn't read this line"), ("keys " + "1" * 256, "at most 255 keys"), ("bytes 00", "refused bytes 00")):
            reader.say(said)
            asks(line.run(tells(reader, told), 10), f"lines: {said}: {reader.lines[-2:]}")
        asks(line.run(lambda: tells(panel, "facility 17 number 4386")() and tells(panel, "keys 12#")()), f"lines: the card is told as {panel.lines[-2:]}")
        for event in ("RAW 0 0 0 none", "KEYPAD 0 none"):  # a card without bits, and no keys
            reader.say(f"event {event}")
            asks(line.run(tells(panel, f"event 5 {event}"), 10), f"lines: {event} is told as {panel.lines[-2:]}")


def closed_ends():
    """Where standard input, output or errors are closed the port doesn't take their place: nothing but packets goes out. A trace that can't be written ends with a status."""
    for words, ends, status in (("panel 5", "<&- >&- 2>&-", 3), ("panel 5", "<&- >&-", 3), ("panel 5", "<&- 2>&-", 1), ("monitor", "<&- >&- 2>&-", 3), ("trace /dev/full", "2>&-", 3)):
        terminal, came, until = Terminal(), b"", time.monotonic() + 30
        done = subprocess.Popen(["sh", "-c", f'exec "$0" --osdp "$1" "$2" 9600 {words} {ends}', PORT, port_line.osdp, terminal.path], stdout=subprocess.DEVNULL)
        while done.poll() is None and came.count(b"S\x05") < 4 and time.monotonic() < until:  # the fourth opening ID comes after a lost session
            os.write(terminal.end, b"\xff")
            if select.select([terminal.end], [], [], 0.1)[0]:
                came += os.read(terminal.end, 65536)
        if done.poll() is None:
            done.send_signal(signal.SIGINT)
        asks(done.wait(20) == status and b"osdp" not in came and b"pts" not in came, f"closed ends {words} {ends}: status {done.returncode}, on the line {came[:200]!r}")
        terminal.close()


def falls_silent():
    """A reader loses its power within a session: nothing comes any more, and the advice says no other thing."""
    with Line() as line:
        reader, panel = line.reader(0, 5), line.panel("5")
        asks(line.run(opened(panel, 5)), "falls silent: the session doesn't open")
        line.rests(0.5)  # POLLs are answered
        reader.process.kill()
        asks(line.run(tells(panel, "advice: device 5 answered until now, and nothing comes any more: its power, or the two wires"), 20), f"falls silent: no advice: {panel.lines[-5:]}")
        asks(not any("bytes come" in each for each in panel.lines), f"falls silent: nothing comes, and the advice is {panel.lines[-5:]}")


def program_ends():
    """The program beside is killed: a listener, and a panel that shows each packet, end with a sentence and status 3."""
    for words in (["monitor"], ["show"], ["panel", "5", "--all"]):
        with Line() as line:
            script = line.start(line.panel_end, 9600, *words, stderr=subprocess.PIPE)
            line.run(lambda: script.lines)
            children = Path(f"/proc/{script.process.pid}/task/{script.process.pid}/children")
            asks(line.run(lambda: len(children.read_text().split()) == 1 + ("panel" in words)), f"program ends: {words}: it isn't started")
            os.kill(int(children.read_text().split()[0]), signal.SIGKILL)
            asks(line.run(lambda: script.process.poll() is not None, 20), f"program ends: {words}: it goes on without the program")
            said = script.process.stderr.read().decode() if script.process.poll() is not None else ""
            is_told = "osdp-port: the program osdp has ended" in said and "Traceback" not in said
            asks(script.process.poll() == 3 and is_told, f"program ends: {words}: {script.process.poll()}: {said}")


STARTS = """import fcntl, os, subprocess, sys, termios
fcntl.ioctl(0, termios.TIOCSCTTY, 0)
child = subprocess.Popen(sys.argv[1:], preexec_fn=os.setpgrp)
print(child.pid, flush=True)
child.wait()"""


def in_background():
    """A panel in the background of a terminal goes on where a key is pressed there, and says that it takes no more orders."""
    port, terminal = Terminal(), Terminal()
    words = [PORT, "--plain", "--osdp", port_line.osdp, port.path, "9600", "panel", "5"]
    shell = subprocess.Popen([sys.executable, "-c", STARTS, *words], stdin=terminal.other, stdout=subprocess.PIPE, stderr=subprocess.PIPE, start_new_session=True)
    panel = int(shell.stdout.readline())
    while b"panel at " not in shell.stdout.readline():
        pass
    os.write(terminal.end, b"x\n")
    said, until = b"", time.monotonic() + 20
    while b"no more lines are taken" not in said and time.monotonic() < until:
        said += os.read(shell.stderr.fileno(), 4096) if select.select([shell.stderr], [], [], 0.1)[0] else b""
    state = Path(f"/proc/{panel}/stat").read_text().rpartition(")")[2].split()[0]
    asks(b"no more lines are taken" in said and state != "T", f"in the background: its state is {state}: {said}")
    os.kill(panel, signal.SIGKILL)
    shell.wait(timeout=20)
    port.close()
    terminal.close()


PARTS = (over_the_network, bad_words, any_words, no_permission, bad_lines, closed_ends, falls_silent, program_ends, in_background)
