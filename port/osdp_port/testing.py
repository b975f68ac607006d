"""`test device`: plays the scenarios against a device, and hands what was sent and heard to `osdp test`, which judges it."""
import time

from .console import wait_for
from .faults import BAD_WORDS, FAILED, MET, Stop, is_number
from .program import Stream
from .scenarios import NAMES, SCENARIOS, WHOLE
from .test_late import Lateness
from .test_people import People
from .test_packets import LARGEST, beyond, caps_in, crc, damaged, filled, large, neighbours, packet, replies_in, twice_told
from .test_report import Report
from .test_silence import Silence
from .trace import Record

__all__ = ["ALLOWS", "ANSWER", "LARGEST", "Judge", "Player", "allowed", "crc", "delay_at", "packet", "status_of", "test"]
TRIES = 3  # how often a packet is sent while nothing is heard, or nothing that can be read, or BUSY
PLAYS = 3  # .. and a scenario where an answer was lost
FIRST = 3  # rules after which a device that has said nothing isn't there: both checks were tried
ANSWER = 1.0  # seconds that an answer is waited for
ROW = 0.5  # .. where two answers may come, or none
GAP = 0.02  # seconds of silence after which an answer is over
BUSY = 200  # milliseconds after which a packet is tried again that BUSY was said to
TOLD = ("BEYOND-OUT", "BEYOND-LED", "BEYOND-TEXT", "FILLS", "OVER")  # messages that are made by what the device told by CAP
ALLOWS = ("silence", "out", "led", "buz", "text", "comset", "beyond", "relay")  # what --may may name; out:N and relay:N are output N


def delay_at(delays, place):
    """After how many milliseconds the byte at a place came: with the last read before which no more bytes came than stand before it."""
    return [delay for at, delay in delays if at <= place][-1]


class Said:
    """What was sent for a rule, and what was heard of it. `least` is the delay that is sure: this computer may have stood still while the answer came."""

    def __init__(self, verb, rule, moment, sent, heard, delay, least):
        self.verb, self.rule, self.moment, self.sent, self.heard, self.delay, self.least = verb, rule, moment, sent, heard, delay, least
        self.replies = replies_in(heard)

    def line(self, rule=None):
        return f"{self.verb}s {rule or self.rule} {self.moment} {self.sent.hex().upper()} {self.delay} {self.heard.hex().upper() or 'none'}"


class Player(Silence, People, Lateness):
    """Plays scenarios on a port. `write` gets each line for `osdp test`, and `tells` is called where a rule's lines are written. Where the device falls
    silent, the test ends, or goes on where `goes_on` says so."""

    def __init__(self, port, console, address, may, write, check="crc", goes_on=False, tells=lambda is_waiting=False: None):
        self.port, self.console, self.address, self.may, self.write, self.check = port, console, address, may, write, check
        self.goes_on, self.tells = goes_on, tells
        self.caps, self.cap_heard, self.is_silent = None, b"", True
        self.said, self.lines = [], []  # of the run before this scenario; of this scenario
        self.is_disturbed, self.is_dead, self.has_fallen, self.waits_back = False, False, False, False
        self.event_told, self.own, self.least = None, 0, None
        self.start = time.monotonic()

    def moment(self):
        return int((time.monotonic() - self.start) * 1000)

    def pauses(self, milliseconds):
        """Says nothing for so long, or until the test ends. What comes meanwhile answers nothing."""
        until = time.monotonic() + milliseconds / 1000
        while time.monotonic() < until and self.port.is_there and not self.console.stops:
            wait_for(self.port, self.console, min(0.1, max(0.0, until - time.monotonic())), lines=False)
            self.port.read()

    def hears(self, sent, wait, count=1):
        """Sends bytes. The bytes that came after them, without their echo, and after how many milliseconds. A silence ends them once so many replies came."""
        heard, delays = self.reads(sent, wait, is_whole=lambda came: len(replies_in(came)) >= count)
        return heard, delay_at(delays, 0)

    def reads(self, sent, wait, gap=GAP, is_whole=lambda came: True):
        """Sends bytes. The bytes that came after them, without their echo, and of each read how many of them came before it, and after how many milliseconds it came.
        A silence ends them where `is_whole` says so, or where the time to wait is over. `least` becomes the time until which nothing had come for certain."""
        self.port.read()
        self.port.write(sent)
        begun, came, reads = time.monotonic(), b"", []
        last = quiet = begun
        limit = wait + 12 * len(sent) / self.port.rate
        while self.port.is_there and not self.console.stops:
            now = time.monotonic()
            is_over = now > begun + limit
            if now > begun + limit + (1.0 if came else 0) or (came and now > last + gap and (is_over or is_whole(came))):
                break
            wait_for(self.port, self.console, 0.005, lines=False)
            read = self.port.read()
            last = time.monotonic() if read else last
            self.stood_still(now)
            if read:
                reads.append((len(came), last))
                came += read
                if came == sent:
                    came, reads = b"", []
            quiet = quiet if came else now
        echo = len(sent) if came.startswith(sent) else 0
        sent_at = begun + 12 * len(sent) / self.port.rate
        self.least = max(0, int((quiet - sent_at) * 1000))
        return came[echo:][:4000], [(at - echo, max(0, int((moment - sent_at) * 1000))) for at, moment in reads or [(0, time.monotonic())]]

    def exchange(self, rule, verb, sent, wait, count=1):
        """One exchange. What was said."""
        moment, self.least = self.moment(), None
        heard, delay = self.hears(sent, wait, count)
        said = Said(verb, rule, moment, sent, heard, delay, delay if self.least is None else min(delay, self.least))
        self.lines.append(said)
        self.is_silent = self.is_silent and not heard
        return said

    def sends(self, rule, verb, sent, wait=ANSWER, count=1):
        """One exchange, again while nothing is heard, or nothing that can be read, or the device is busy, or the packet came damaged."""
        tries = []
        for attempt in range(TRIES):
            tries.append(self.exchange(rule, verb, sent, wait if attempt == 0 else wait / 2, count))
            replies = tries[-1].replies
            if self.console.stops or not self.port.is_there or (replies and not replies[0].is_busy() and not replies[0].is_nak(1)):
                break
            if replies and replies[0].is_busy():
                self.pauses(BUSY)
        are_read = [bool(each.replies) for each in tries]
        self.is_disturbed = self.is_disturbed or (any(are_read) and not all(are_read))
        if not any(each.heard for each in tries):
            self.looks_for(rule)
        return tries[-1]

    def told(self, name, check):
        """The body of a message that is made by what the device told by CAP, or why there is none."""
        return beyond(name, self.caps) if name.startswith("BEYOND") else large(name, self.caps, check)

    def lacks(self, steps):
        """Why the device tells too little by CAP for a scenario, if it does."""
        for name in TOLD:
            if name in steps and self.caps is None:
                return f"CAP-was-not-read:{self.cap_heard.hex().upper() or 'nothing-was-heard'}"
            made = self.told(name, self.check) if name in steps else b""
            if isinstance(made, str):
                return made
        return ""

    def body(self, name, check):
        """The body of a message. None where the device tells too little for it."""
        if name[0] == "x":
            return bytes.fromhex(name[1:])
        if name in NAMES:
            return bytes.fromhex(NAMES[name].format(out=self.may.get("out", 0)))
        made = filled(LARGEST, check) if name == "LARGEST" else self.told(name, check) if self.caps is not None else ""
        return made or None

    def made(self, words, address=None):
        """The bytes of a packet that a step asks. None where the device tells too little for it."""
        _, number, *how = words
        check = "sum" if "sum" in how else "crc" if "crc" in how else self.check
        if number == "-":
            return damaged(how[0], self.address, check)
        body = self.body(how[0], check)
        if not isinstance(body, bytes):
            return None
        address = (self.address + 1) % 127 if "other" in how else self.address if address is None else address
        sent = packet(address, int(number), body, check, "reply" in how, b"\x02\x15" if "block" in how else b"")
        return b"\xFF\xFF" * ("filled" in how) + sent

    def step(self, rule, words):
        if len(words) == 1:
            {"times": self.times, "caps": self.tells_caps, "event": self.event, "anew": self.anew, "relay": self.relay, "alive": self.alive}[words[0]](rule)
            return
        if words[0] == "wait":
            self.pauses(int(words[1]))
            return
        if "near" in words:
            self.expects_silence(rule, words[0], *(self.made(words, address) for address in neighbours(self.address)))
            return
        packets = [self.made(part.split()) for part in " ".join(words).split(" + ")]
        if not all(isinstance(each, bytes) for each in packets):
            return
        sent = b"".join(packets)
        if words[1] == "-" or {"other", "reply", "OVER"} & set(words):
            self.expects_silence(rule, words[0], sent)
            return
        said = self.sends(rule, words[0], sent, *((ROW, 2) if len(packets) > 1 else (ANSWER, 1)))
        if words[2] == "CAP":
            self.caps, self.cap_heard = caps_in(said.heard) or self.caps if caps_in(said.heard) != {} else {}, said.heard

    def tells_caps(self, rule):
        """The rule that looks at what CAP told."""
        found = [reply for reply in replies_in(self.cap_heard) if reply.body[:1] == b"\x46"]
        why = twice_told(found[0].body) if found else ""
        if found:
            self.lines.append(f"breaks {rule} {why}" if why else f"keeps {rule}")

    def writes(self):
        """Hands on the lines of a scenario."""
        for each in self.lines:
            self.write(each if isinstance(each, str) else each.line())
        self.said += [each for each in self.lines if isinstance(each, Said)]
        self.lines = []

    def plays(self, rule):
        needs, steps = SCENARIOS[rule]
        why = f"--may={needs}{':N' if needs in ('out', 'relay') else ''}" if needs and needs not in self.may else self.lacks(steps)
        why = why or ("the-device-fell-silent" if self.is_dead and steps != "times" and not self.is_back(rule) else "")
        if why and steps == "alive":
            return
        if why:
            self.writes()
            self.write(f"skips {rule} {why}")
            return
        for _ in range(PLAYS):
            self.is_disturbed = False
            for step in steps.split("; "):
                if self.console.stops or not self.port.is_there or self.is_dead:
                    break
                self.step(rule, step.split())
            if not (self.is_disturbed or self.measures_again(rule)) or self.is_dead or len(steps.split("; ")[-1].split()) == 1:
                break
        self.writes()

    def goes(self):
        self.write(f"device {self.address}")
        for at, rule in enumerate(SCENARIOS):
            if (at == FIRST and self.is_silent) or self.console.stops or not self.port.is_there:
                return
            self.plays(rule)
            self.tells()
        for rule in WHOLE:
            self.write(f"# rule {rule}: all that was said in the run once more")
            for each in self.said:
                self.write(Said("ask" if self.counts(each) else "open", rule, each.moment, each.sent, each.heard, each.delay, 0).line())


def allowed(words):
    """What --may allows: names, and the number of an output."""
    may = {}
    for word in words.get("--may").split(",") if words.get("--may") else []:
        name, _, number = word.partition(":")
        if name not in ALLOWS or (name in ("out", "relay") and not is_number(number, 0, 255)) or (name not in ("out", "relay") and number):
            raise Stop(f"--may {word}: one of {', '.join(ALLOWS)}, with out:N and relay:N", BAD_WORDS)
        may[name] = int(number or 0)
    return may


def status_of(port, console, is_cut_off, status, record):
    """The status of a test. One that was ended before its end has shown nothing of what is left, so it isn't well, and says so. So does one whose trace failed."""
    fault = record.ended()
    if fault:
        console.note(fault)
        status = FAILED
    if is_cut_off and not port.is_there:
        raise Stop(f"{port.path} is gone: what is left of the test wasn't done")
    if is_cut_off:
        console.note("stopped: what is left of the test wasn't done")
    return status or (MET if is_cut_off else 0)


class Judge(Stream):
    """`osdp test`, whose report is handed on as it comes."""

    def prints(self, line):
        self.console.raw(line)


def test(words, port, console, osdp):
    """Tests the device at an address. The status: that of `osdp test`, and 1 where the monitor accuses the device."""
    may, address = allowed(words), int(words.rest[1])
    record = Record(words.get("--trace"))
    report = Report(osdp, bool(words.get("--tap")), address, console)

    def write(line):
        report.adds(line)
        record.write(line)
    console.note("show cards, press keys and switch inputs during the test" + ("" if Player.is_at_terminal() else ": it doesn't wait for them"))
    player = Player(port, console, address, may, write, "sum" if words.get("--sum") else "crc", bool(words.get("--go-on")), report.tells)
    player.goes()
    is_cut_off = bool(console.stops) or not port.is_there or player.is_silent
    if player.is_silent and port.is_there and not console.stops:
        console.note(f"device {address} doesn't answer: osdp-port {port.path} {port.rate} find")
    return status_of(port, console, is_cut_off, report.ends(), record)
