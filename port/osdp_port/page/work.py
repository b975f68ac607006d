"""What is done on the line, one thing at a time: it is listened to, searched, set up, run by a panel, or tested. What a page asks for comes as a command.

Each is done by the same parts that `osdp-port monitor`, `find`, `panel` and `test` have."""
import re
import subprocess
import threading
import time
from pathlib import Path

from .. import find, panel_testing, testing
from ..advice import Advice
from ..console import wait_for
from ..devices import new_devices
from ..faults import FAILED, Stop
from ..panel import SETTINGS, Panel
from ..panel_tricks import TRICKS
from ..program import Lines
from ..scenarios import SCENARIOS
from ..serial_port import RATES, has_rate
from ..trace import Trace
from .desk import Desk

LISTENS = 1.0  # seconds that the line is listened to before anything is sent
LISTENS_ELSEWHERE = 0.3  # .. at each other rate, where bytes come that can't be read
TASKS = ("watch", "find", "set", "panel", "test")
WAYS = ("search for it by Find", "see what the monitor tells")  # what advice names in place of a command: the parts of the page


class Asking(find.Line):
    """The line, asked packet by packet: a page is told what is asked."""

    tells = None

    def ask(self, address, number, check, text):
        self.tells("asks", rate=self.port.rate, check=check, address=address)
        return super().ask(address, number, check, text)


class Searching(find.Search):
    """A search, of which a page is told each device and each place that several share."""

    def adds(self, found):
        before = len(self.found)
        super().adds(found)
        if len(self.found) > before:
            self.line.tells("found", device=before, **described(found))

    def shares(self, address):
        before = len(self.shared)
        super().shares(address)
        if len(self.shared) > before:
            self.line.tells("shared", address=address, rate=self.line.port.rate)


def described(found):
    vendor, model, version, serial, *firmware = found.identity.split()
    return {"address": found.address, "rate": found.rate, "check": found.check, "vendor": vendor, "model": model, "version": version, "serial": serial, "firmware": ".".join(firmware)}


class TestWords:
    """The words of `osdp-port test`, as a page has chosen them."""

    def __init__(self, of, address, may, check):
        self.rest, self.options = [of, str(address)], {"--may": ",".join(may) or None, "--sum": check == "sum"}

    def get(self, option, otherwise=None):
        return self.options.get(option) or otherwise


class Recorder:
    """The trace, which a page puts on and off: it is written by one thread, and ended by another."""

    def __init__(self, port, tells, folder):
        self.port, self.tells, self.folder, self.file, self.lock = port, tells, Path(folder), None, threading.Lock()

    def takes(self, since, way, burst):
        with self.lock:
            if self.file:
                self.file.takes(since, way, burst)

    def goes_on(self, path=None):
        path = path or str(self.folder / time.strftime("osdp-%Y%m%d-%H%M%S.trace"))
        with self.lock:
            if self.file:
                return
            try:
                self.file = Trace(path, 10000000, lambda line: self.tells("note", text=line), rate=lambda: self.port.rate)
            except Stop as stop:
                self.tells("note", text=stop.why)
                return
        self.tells("trace", path=path, on=True)

    def ends(self):
        with self.lock:
            file, self.file = self.file, None
        if file:
            self.tells("trace", path=file.path, on=False, text=file.ended())


class Work:
    """What is done, until the program ends. `console` is the one of the pages, `moment` tells the time, and `goes_on` runs a panel."""

    def __init__(self, port, osdp, console, channel, moment, goes_on):
        self.port, self.osdp, self.console, self.tells = port, osdp, console, channel.tells
        self.moment, self.goes_on = moment, goes_on
        self.wanted, self.found, self.told_port, self.ends_alone, self.is_watched = None, [], None, False, True
        self.recorder, self.demo, self.status, self.rules = None, None, 0, 0

    # commands, in the thread that reads them

    def takes(self, command):
        """A command of a page, which was checked where it came from."""
        name, desk = command.get("do"), self.console.desk
        if name in TASKS:
            self.wanted = command
            self.console.wake()
        elif name == "order":
            if desk:
                desk.gives(command["number"], command["address"], command["order"], self.moment(command["since"]))
            else:
                self.tells("order", number=command["number"], address=command["address"], text="", state="refused", why="no panel runs")
        elif name == "take back" and desk:
            desk.takes_back(command["number"])
        elif name == "trace":
            self.recorder.goes_on() if command["on"] else self.recorder.ends()
        elif name == "demo" and self.demo:
            self.demo.takes(command)
        elif name in ("somebody", "nobody"):
            self.is_alone(name == "nobody")
        elif name == "gone":
            self.console.console.wake()
        elif name == "listens":
            self.console.console.say(f"the page is at {command['address']}")
            if command["is_open"]:
                self.console.console.say("other computers reach it there: whoever reads this address may order, and what goes over the network can be read")
        elif name == "fails":
            self.console.console.note(command["why"])
            self.status = FAILED
            self.console.console.wake()
        self.console.looks_up()

    def is_alone(self, nobody):
        """No page has been there for a while, or one is there again."""
        self.is_watched = not nobody
        if self.console.desk:
            self.console.desk.is_watched = not nobody
            if nobody:
                self.console.desk.takes_back()
        if nobody and self.ends_alone:
            self.console.console.wake()

    # the loop

    def goes(self):
        """Does one thing after the other. The status of the program."""
        while not self.console.console.stops:
            command, self.wanted = self.wanted or {"do": "watch"}, None
            self.console.begins()
            self.tells("doing", what=command["do"], command=command)
            try:
                getattr(self, f"does_{command['do']}")(command)
            except Stop as stop:
                if stop.why:
                    self.tells("note", text=stop.why)
            self.console.desk = None
            self.tells("done", what=command["do"])
        return self.status

    def tells_port(self):
        if self.told_port != (self.port.rate, self.port.is_there):
            self.told_port = (self.port.rate, self.port.is_there)
            self.tells("port", rate=self.port.rate, is_there=self.port.is_there)

    def does_watch(self, _):
        """Listens: nothing is said on the line."""
        while not self.console.stops:
            self.tells_port()
            wait_for(self.port, self.console, 0.02 if self.port.is_there else 0.1, lines=False)
            self.port.comes_back()
            self.port.read()

    # finding and setting up

    def heard(self, seconds):
        """The bytes that come in a time in which nothing is said."""
        came, end = b"", time.monotonic() + seconds
        while not self.console.stops and time.monotonic() < end:
            wait_for(self.port, self.console, 0.02, lines=False)
            came += self.port.read()
        return came

    def has_panel(self, came):
        done = subprocess.run([self.osdp, "show"], input=came.hex() + "\n", capture_output=True, text=True, check=False, start_new_session=True)
        return any(line.split(" ")[1:2] == ["cmd"] for line in done.stdout.splitlines())

    def hears_a_panel(self):
        """Whether another panel speaks on the line. It is looked for before anything is sent; at other rates too, where bytes come that can't be read."""
        came, rate = self.heard(LISTENS), self.port.rate
        if not came:
            return False
        for each in [rate, *(other for other in RATES if other != rate and self.port.has_own_rate)]:
            if each != rate and self.port.set_rate(each):
                came = self.heard(LISTENS_ELSEWHERE)
            if self.has_panel(came):
                self.tells("other panel", rate=each)
                return True
        self.port.set_rate(rate)
        return False

    def line(self):
        line = Asking(self.port, self.console, self.osdp)
        line.tells = self.tells
        return line

    def does_find(self, command):
        self.found = []
        if has_rate(command["rate"]):
            self.port.set_rate(command["rate"])
        self.tells_port()
        if self.hears_a_panel():
            return
        search = Searching(self.line(), self.console.say)
        try:
            find.seeks(search, self.console)
        finally:
            self.found = search.found
            is_alone = len(search.found) == 1 and not search.several and not any(search.noise.values())
            self.tells("searched", found=len(search.found), is_alone=is_alone, was_ended=bool(self.console.stops))
            if search.found:
                self.port.set_rate(search.found[0].rate)
            self.tells_port()

    def does_set(self, command):
        """Gives the device that was found alone another place, and confirms it."""
        if command["device"] >= len(self.found) or self.hears_a_panel():
            return
        was, address, rate = self.found[command["device"]], command["address"], command["rate"]
        is_set = find.changes(self.line(), was, address, rate, self.console.say)
        now = find.Found(address, rate, was.check, was.identity)
        if is_set:
            self.found = [now]
        self.tells("set", device=command["device"], is_set=is_set, was=described(was), now=described(now))
        self.tells_port()

    # a panel

    def does_panel(self, command):
        self.port.set_rate(command["rate"])
        self.tells_port()
        if self.hears_a_panel():
            return
        program = Lines(self.osdp, ["panel", *SETTINGS, "check", command["check"], "reply-wait", str(command["wait"])])
        advice = Advice(self.console.say, self.port, WAYS)

        def says(line):
            self.console.say(line)
            advice.heard(line)
        machine = Panel(self.port, program, new_devices(command["addresses"], self.port.rate, None), self.moment, says)
        desk = Desk(machine, self.tells, self.tells_port)
        desk.is_watched, self.console.desk = self.is_watched, desk
        self.port.taps += [advice, desk]
        try:
            self.goes_on(machine, self.port, self.console)
        finally:
            desk.over()
            for tap in (advice, desk):
                self.port.taps.remove(tap)
            program.process.kill()
            program.close()

    # tests

    def does_test(self, command):
        of = command["of"]
        self.port.set_rate(command["rate"])
        self.tells_port()
        if of == "device" and self.hears_a_panel():
            return
        self.rules = max(SCENARIOS if of == "device" else TRICKS)
        self.console.progress = self.progress
        self.tells("progress", rule=0, of=self.rules, left_out="")
        tests = {"device": testing.test, "panel": panel_testing.test_panel}
        try:
            status = tests[of](TestWords(of, command["address"], command["may"], command["check"]), self.port, self.console, self.osdp)
            self.tells("tested", status=status, of=of, address=command["address"])
        finally:
            self.console.progress = None

    def progress(self, line):
        """How far a test is: which rule is tried, or left out. A line is one for `osdp test`, or one of its report."""
        words, verdict = line.split(), re.match(r"(\d+) (\w+)", line)
        if words[:1] == ["skips"]:
            self.tells("progress", rule=int(words[1]), of=self.rules, left_out=" ".join(words[2:]))
        elif words[:1] and words[0] in ("asks", "opens", "hears") and words[1].isdigit():
            self.tells("progress", rule=int(words[1]), of=self.rules, left_out="")
        elif verdict:
            left_out = line.rpartition(": ")[2] if verdict[2] == "skipped" else ""
            self.tells("progress", rule=int(verdict[1]), of=self.rules, left_out=left_out)
