"""Listening: `monitor`, `show` and `trace`. Nothing is said on the line."""
import json
import re

from .console import stamp, wait_for
from .faults import FAILED
from .live import HEADS, Live, is_other, is_terminal
from .program import Stream
from .shown import Shown
from .trace import Bursts, Trace, digits, osdpcap

LOOK = 0.02  # seconds after which a burst is looked at again


def until_stopped(port, console, takes, goes_on=lambda: True):
    """Hands on what comes, until Ctrl-C, or until it can't be taken any more."""
    while not console.stops and goes_on():
        wait_for(port, console, LOOK if port.is_there else 0.1, lines=False)
        port.comes_back()
        takes(port.read())


def show(words, port, console, osdp):
    shown = Shown(osdp, console, words.get("--address"), words.get("--all", False))
    bursts = Bursts(shown.takes)
    until_stopped(port, console, bursts.came)
    bursts.flush()
    return shown.ends()


def trace(words, port, console, _):
    file = Trace(
        words.rest[0],
        words.get("--size", 10) * 1000000,
        console.note,
        osdpcap if words.get("--osdpcap") else digits,
        lambda: port.rate,
    )
    bursts = Bursts(file.takes, "trace" if words.get("--osdpcap") else "in")
    until_stopped(port, console, bursts.came, lambda: file.file is not None)
    bursts.flush()
    console.say(file.ended())
    return FAILED if file.file is None else 0


class Monitor(Stream):
    """`osdp monitor` beside the program: its lines with their moments, and its table at the end."""

    def __init__(self, words, console, osdp):
        self.address, self.leaves_out = words.get("--address"), False
        options = ["--every", str(words.get("--every"))] if words.get("--every") else []
        super().__init__(
            osdp, ["monitor", "--raw", *options, *(["--packets"] if words.get("--all") else [])], console
        )

    def prints(self, line):
        """Prints a line; one of another device is left out."""
        is_table = line.startswith(HEADS) or re.match(r"\+?\d+ ", line)
        if not line.startswith(" "):  # one that begins so goes with the line before it
            self.leaves_out = is_other(line, self.address)
        if self.leaves_out:
            return
        if is_table or line.startswith(" "):
            self.console.raw(line)
        else:
            self.console.say(re.sub(r"^\d+:\d+ ", "", line))


class Objects(Stream):
    """`osdp monitor` beside the program: an object of JSON a line, with its moment."""

    def __init__(self, words, console, osdp):
        self.address = words.get("--address")
        options = ["--every", str(words.get("--every"))] if words.get("--every") else []
        super().__init__(
            osdp,
            ["monitor", "--raw", "--json", *options, *(["--packets"] if words.get("--all") else [])],
            console,
        )

    def prints(self, line):
        """Prints an object; one of another device is left out."""
        told = json.loads(line)
        if is_other(str(told["address"]) if "address" in told else told.get("text", ""), self.address):
            return
        if "stamp" in told:
            told["stamp"] = stamp()
        self.console.raw(json.dumps(told))


def listener_of(words, port, console, osdp):
    """What tells of the line: objects, a picture, or lines where the output is no terminal."""
    if words.get("--json"):
        return Objects(words, console, osdp)
    if words.get("--live") and is_terminal():
        live = Live(words, console, osdp, f"monitor at {port.path} {port.rate}")
        port.tell = live.tells  # a line that is printed beside the picture would be gone at the next one
        return live
    return Monitor(words, console, osdp)


def monitor(words, port, console, osdp):
    listener = listener_of(words, port, console, osdp)
    until_stopped(port, console, listener.write)
    return listener.ends()
