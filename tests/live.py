"""`osdp-port --live`: the monitor's table as a picture on a terminal, redrawn in place. Takes the path of the program.

The port is a pseudo terminal, and so is the output, of 100 columns and 30 lines, whose picture is kept as text: it is what a person sees. A panel asks three
devices: 5 answers, 6 loses every second answer, and 7 has a reply that answers no command. Pictures that are broken on purpose must be told. Then the output is a pipe,
which gets plain lines, or objects of JSON."""
import json
import os
import pty
import re
import select
import signal
import struct
import subprocess
import sys
import termios
import time
from fcntl import ioctl

import port_line
from terminals import Terminal, packet

WIDTH, HEIGHT = 100, 30
POLL, ACK, PDID = 0x60, 0x40, 0x45
ESCAPE = re.compile(r"\x1b\[(\??\d*)([A-Za-z])")
faults = []


def asks(holds, what):
    if not holds:
        faults.append(what)


class Picture:
    """What stands on a terminal: lines of text, by the few escapes that are used."""

    def __init__(self):
        self.lines = [""] * HEIGHT
        self.row = self.column = 0
        self.scrolled = 0

    def put(self, text):
        line = self.lines[self.row].ljust(self.column)
        self.lines[self.row] = line[:self.column] + text + line[self.column + len(text):]
        self.column += len(text)

    def feed(self, text):
        while text:
            found = ESCAPE.match(text)
            if found:
                text = text[found.end():]
                self.escape(found[2])
            elif text[0] == "\n":
                text = text[1:]
                self.row += 1
                if self.row == HEIGHT:
                    self.lines, self.row, self.scrolled = self.lines[1:] + [""], HEIGHT - 1, self.scrolled + 1
            elif text[0] == "\r":
                text, self.column = text[1:], 0
            else:
                plain = re.match(r"[^\x1b\r\n]+", text)[0]
                text = text[len(plain):]
                self.put(plain)

    def escape(self, letter):
        if letter == "H":
            self.row = self.column = 0
        elif letter == "K":
            self.lines[self.row] = self.lines[self.row][:self.column]
        elif letter == "J":
            if (self.row, self.column) == (0, 0):
                self.lines = [""] * HEIGHT
            else:
                self.lines[self.row] = self.lines[self.row][:self.column]
                self.lines[self.row + 1:] = [""] * (HEIGHT - self.row - 1)

    def text(self):
        return "\n".join(line.rstrip() for line in self.lines).rstrip()


def turn(number):
    """The bursts of a turn of the panel."""
    at = number % 3 + 1
    yield packet(5, at, POLL)
    yield packet(0x85, at, ACK)
    yield packet(6, at, POLL)
    if number % 2:
        yield packet(0x86, at, ACK)
    yield packet(7, at, POLL)
    yield packet(0x87, at, PDID, bytes(12))


def started(port, options, output):
    words = [str(port_line.PORT), "--plain", "--osdp", sys.argv[1], *options, port.path, "9600", "monitor"]
    return subprocess.Popen(words, stdin=subprocess.DEVNULL, stdout=output, start_new_session=True)


def seen(options, seconds):
    """What a terminal shows after so many seconds of a line, and when the program has ended, and whether each picture stood where the one before stood."""
    port, (end, other), picture = Terminal(), pty.openpty(), Picture()
    ioctl(other, termios.TIOCSWINSZ, struct.pack("HHHH", HEIGHT, WIDTH, 0, 0))
    script = started(port, options, other)
    os.close(other)
    until, number, rest = time.monotonic() + seconds, 0, b""

    def read(wait):
        nonlocal rest
        while select.select([end], [], [], wait)[0]:
            try:
                piece = os.read(end, 65536)
            except OSError:
                return
            if not piece:
                return
            rest += piece
            whole, feed, rest = rest.rpartition(b"\n")
            picture.feed((whole + feed).decode())
            wait = 0
    while time.monotonic() < until:
        for burst in turn(number):
            os.write(port.end, burst)
            time.sleep(0.01)
        number += 1
        read(0)
    rests = time.monotonic() + 1  # until whole pictures of a line that rests have come
    while time.monotonic() < rests:
        read(0.05)
    live, scrolled = picture.text(), picture.scrolled
    script.send_signal(signal.SIGINT)
    limit = time.monotonic() + 20
    while script.poll() is None and time.monotonic() < limit:
        read(0.1)
    read(0.3)
    picture.feed(rest.decode())
    status = script.wait(20)
    port.close()
    os.close(end)
    return live, picture.text(), scrolled, status


def picture_faults(live, scrolled):
    """What is wrong with the picture of this line."""
    if scrolled:
        yield f"the picture scrolled by {scrolled} lines"
    if live.count("device  asked  polls") != 1:
        yield "not one table"
    if not re.search(r"^monitor at \S+ 9600: \d\d:\d\d:\d\d, last byte [0-9] s ago; Ctrl-C ends it$", live, re.M):
        yield "no heading"
    if not re.search(r"^last \d+ s: \d+% of the time in use; a second \d+\.\d packets, 0\.0 damaged, \d+\.\d turns of the panel$", live, re.M):
        yield "no line of the window"
    rows = {int(row[1]): (int(row[2]), float(row[3])) for row in re.finditer(r"^(\d+) +(\d+) +0\.0% +(\d+\.\d)%  online$", live, re.M)}
    lost = {address: asked * share / 100 for address, (asked, share) in rows.items()}
    if set(lost) != {5, 6, 7}:
        yield f"the devices of the window are {rows}"
    elif lost[5] > 1.1 or abs(lost[6] - rows[6][0] / 2) > 2:  # an answer may be on its way when a table is due
        yield f"5 loses {lost[5]:.1f} answers, and 6 {lost[6]:.1f} of {rows[6][0]}"
    if live.rfind("reader 7: a reply that doesn't fit the command") < live.find("device  asked  polls"):
        yield "no accusation stands under the table"
    if not all(len(line) <= WIDTH for line in live.split("\n")):
        yield "a line is too long"


BROKEN = {  # how a picture is broken
    "a second table stands there": lambda live: f"{live}\ndevice  asked  polls",
    "the heading isn't there": lambda live: re.sub(r"^monitor at .*$", "", live, flags=re.M),
    "the line of the window isn't there": lambda live: re.sub(r"^last \d+ s: .*$", "", live, flags=re.M),
    "a device isn't there": lambda live: re.sub(r"^7 .*$", "", live, flags=re.M),
    "the losses of 6 are none": lambda live: re.sub(r"^(6 +\d+ +0\.0% +)\d+\.\d%", r"\g<1>0.0%", live, flags=re.M),
    "the accusations aren't there": lambda live: live.replace("reader 7: a reply that doesn't fit", "reader 7: a reply that does fit"),
    "the accusations stand above the table": lambda live: live[(told := live.find("reader 7:")):] + live[:told],
    "a line is too long": lambda live: live + "x" * (WIDTH + 1),
}


def is_drawn():
    live, last, scrolled, status = seen(["--live"], 6)
    print(live)
    faults.extend(picture_faults(live, scrolled))
    asks(any(picture_faults(live, 1)), "it isn't seen that the picture scrolled")
    for what, broken in BROKEN.items():
        asks(broken(live) != live and any(picture_faults(broken(live), 0)), f"it isn't seen that {what}")
    asks(re.search(r"^runs \d+ packets \d+ skipped 0 refused 0 judged \d+ accused \d+$", last, re.M), f"no table at the end: {last}")
    asks(status == 1, f"status {status}")


def is_plain():
    """Where the output is no terminal, lines are printed as without the option."""
    port = Terminal()
    script = started(port, ["--live"], subprocess.PIPE)
    time.sleep(3)  # a busy machine opens the port late
    for number in range(3):
        for burst in turn(number):
            os.write(port.end, burst)
            time.sleep(0.02)
    time.sleep(1)
    script.send_signal(signal.SIGINT)
    output = script.communicate(timeout=20)[0].decode()
    port.close()
    asks("\x1b" not in output and "device  asked" in output and "reader 7:" in output, f"no plain lines: {output}")


def is_objects():
    """With --json each line is an object, and what is told has the moment of the day."""
    port = Terminal()
    script = started(port, ["--json", "--address", "7"], subprocess.PIPE)
    time.sleep(3)  # a busy machine opens the port late
    for number in range(3):
        for burst in turn(number):
            os.write(port.end, burst)
            time.sleep(0.02)
    time.sleep(1)
    script.send_signal(signal.SIGINT)
    objects = [json.loads(line) for line in script.communicate(timeout=20)[0].decode().splitlines()]
    port.close()
    told = [each for each in objects if each["kind"] == "told"]
    asks(told and all(re.fullmatch(r"\d\d:\d\d:\d\d\.\d\d\d", each["stamp"]) for each in told), f"no moments: {told}")
    asks({each["address"] for each in objects if "address" in each} == {7}, f"another device: {objects}")
    asks(any(each["kind"] == "line" for each in objects), f"no line of counts: {objects}")


is_drawn()
is_plain()
is_objects()
for fault in faults:
    print(f"live: {fault}")
print(f"live: a picture, plain lines and objects, {len(faults)} faults")
sys.exit(1 if faults else 0)
