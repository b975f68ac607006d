"""What the parts of `osdp-port` answer that need no port: cards, figures of a line, outputs, orders in words, what is typed to a reader, advice, lines of
traces, what `find` asks, and what a capture comes to.

Each row was worked out by hand from the manual and from the standard. A card of 26 bits is also spelled by arithmetic, for facilities and numbers at their bounds
and a few drawn ones. Prints each fault. The status is 1 where there is one."""
import json
import os
import random
import sys
import time
from pathlib import Path
from types import SimpleNamespace

sys.dont_write_bytecode = True
sys.path.insert(0, str(Path(__file__).resolve().parent.parent / "port"))
from osdp_port import cards, doors, figures, find, live, pace, panel, reader, rounds, trace, turns  # noqa: E402
from osdp_port.advice import OFTEN, Advice  # noqa: E402
from osdp_port.console import Console  # noqa: E402
from osdp_port.faults import Refused, Stop  # noqa: E402
from osdp_port.outputs import Outputs  # noqa: E402
from osdp_port.words import Words  # noqa: E402

faults = []


def asks(said, wanted, what):
    if said != wanted:
        faults.append(f"{what}: {said!r}, and not {wanted!r}")


CARDS = (  # the words of an event, and what is told after them
    ("RAW 0 1 26 88889100", " bits 10001000100010001001000100 facility 17 number 4386"),
    ("RAW 0 1 26 08889100", " bits 00001000100010001001000100"),  # the first parity is another
    ("RAW 0 1 26 88889140", " bits 10001000100010001001000101"),  # the second one
    ("RAW 0 1 26 08889140", " bits 00001000100010001001000101"),  # both
    ("RAW 1 0 26 7FFFFFC0", " bits 01111111111111111111111111 facility 255 number 65535"),
    ("RAW 0 0 26 00000040", " bits 00000000000000000000000001 facility 0 number 0"),
    ("RAW 0 0 26 C0000080", " bits 11000000000000000000000010 facility 128 number 1"),
    ("RAW 0 0 26 00C00040", " bits 00000000110000000000000001 facility 1 number 32768"),
    ("RAW 0 1 27 88889100", " bits 100010001000100010010001000"),
    ("RAW 0 1 25 88889100", " bits 1000100010001000100100010"),
    ("RAW 0 0 37 0102030408", " bits 0000000100000010000000110000010000001"),
    ("RAW 0 0 1 80", " bits 1"),
    ("RAW 0 0 8 A5", " bits 10100101"),
    ("RAW 0 0 0 none", ""),
    ("KEYPAD 0 313223", " keys 12#"),
    ("KEYPAD 0 217E", " keys !~"),
    ("KEYPAD 0 2031", ""),
    ("KEYPAD 0 317F", ""),
    ("KEYPAD 0 31320D", ""),
    ("KEYPAD 0 none", ""),
    ("FMT 0 0 3132", ""),
    ("LSTATR 1 0", ""),
)


def looks_at_cards():
    for words, wanted in CARDS:
        asks(cards.shown(words.split()), wanted, words)
    chance = random.Random(1)
    for facility in (0, 1, 127, 128, 254, 255):
        for number in (0, 1, 2, 4095, 4096, 32767, 32768, 65535, chance.randrange(65536)):
            both = facility << 16 | number
            even, odd = bin(both >> 12).count("1") % 2, 1 - bin(both & 0xFFF).count("1") % 2
            text = f"RAW 0 1 26 {(even << 25 | both << 1 | odd) << 6:08X}"
            asks(cards.raw_of(facility, number), text, f"a card of {facility} {number}")
            asks(cards.shown(text.split()).partition(" facility ")[2], f"{facility} number {number}", f"what {text} shows")


FIGURES = ((0, "0.0"), (0.05, "0.1"), (0.06, "0.1"), (0.14, "0.1"), (0.4, "0.4"), (0.049, "0.05"), (0.033, "0.03"), (0.005, "0.005"), (0.0009, "0.0009"), (1, "1.0"), (12.34, "12.3"), (1234.5, "1234.5"))
SPANS = (  # seconds, bytes, packets, damaged and turns; a rate; the share of time, and the words
    ((10, 960, 41, 1, 11), 9600, 10.0, "10% of the time in use; a second 4.1 packets, 0.1 damaged, 1.1 turns of the panel"),  # 9600 of 96000 bits
    ((10, 960, 41, 0, 11), 115200, 100 / 120, "1% of the time in use; a second 4.1 packets, 0.0 damaged, 1.1 turns of the panel"),
    ((2, 5000, 10, 3, 4), 9600, 100.0, "100% of the time in use; a second 5.0 packets, 1.5 damaged, 2.0 turns of the panel"),  # 50000 of 19200 bits
    ((4, 0, 0, 0, 0), 9600, 0.0, "0% of the time in use; a second 0.0 packets, 0.0 damaged, 0.0 turns of the panel"),
)


STAMPS = (  # a stamp, and its moment in seconds
    ("12:34:56", 45296), (" [12:34:56.750] ", 45296.75), ("(12:34:56,25)", 45296.25), ("100:00:00", 360000), ("1772409595.5", 1772409595.5), ("7", 7), ("", None), ("noon", None), ("12:34", None),
    ("1:2:3", None), ("12.5.3", None), ("1234567890123456", None), (None, None),
)
DAYS = ("2026-02-28T23:59:59.5Z", "2026-03-01T00:00:00.5Z", "2026-03-02 00:00:00.5", "2026-99-99 00:00:00.5")
RANKS = (([1, 2, 3], 50, 2), ([1, 2, 3, 4], 50, 2), ([5], 50, 5), ([5], 95, 5), (list(range(1, 21)), 95, 19), (list(range(1, 20)), 95, 19), (list(range(1, 101)), 95, 95), (list(range(1, 101)), 100, 100), ([1, 2], 1, 1))


def looks_at_captures():
    """Moments of stamps; of times the least that as many of a hundred aren't above; and a device is offline once three packets in a row have no answer."""
    for stamp, wanted in STAMPS:
        asks(figures.seconds(stamp), wanted, f"the moment of {stamp!r}")
    first, *rest = map(figures.seconds, DAYS)
    asks(([each - first for each in rest[:2]], rest[2]), ([1, 86401], 0.5), "moments with a day")
    for times, hundredth, wanted in RANKS:
        asks(figures.rank(times, hundredth), wanted, f"{hundredth} of a hundred of {len(times)}")

    def packet(moment, kind, text, sequence=1):
        return figures.Packet(moment, str(moment), "out", moment, 1, kind, 5, sequence, "crc", text)

    device = figures.Device(5)
    asks(device.is_online(), False, "a device that never answered")
    device.asks(packet(1, "cmd", "POLL"))
    device.answers(packet(2, "reply", "RAW 0 0 1 80"))
    for moment, wanted in ((3, True), (4, True), (5, False)):
        device.asks(packet(moment, "cmd", "OUT 0:2:0", 2))
        asks(device.is_online(), wanted, f"a device without an answer to {moment - 2} packets")
    asks((device.asked, device.answered, device.repeats, device.orders, device.events, device.times), (4, 1, 2, 1, 1, [1]), "what is counted of a device")
    device.answers(packet(6, "reply", "ACK", 2))  # of three copies nobody knows which it answers
    asks((device.is_online(), device.times, device.events), (True, [1], 1), "an answer to three copies")
    for moment, text in ((7, "KEYPAD 0 31"), (8, "FMT 0 0 31"), (9, "ACK"), (10, "LSTATR 1 0")):
        device.answers(packet(moment, "reply", text, 3))
    asks(device.events, 3, "the cards and keys of a device")


def looks_at_figures():
    for number, wanted in FIGURES:
        asks(pace.figure(number), wanted, f"the figure of {number}")
    for devices, wanted in (((), 0), ((3,), 3), ((2, 5, 0), 5), ((0, 0), 0)):
        asks(pace.turns(devices), wanted, f"the turns of {devices}")
    for came, rate, share, wanted in SPANS:
        came = pace.Came(*came)
        asks(round(pace.in_use(came, rate), 9), round(share, 9), f"the share of {came}")
        asks(pace.words(came, rate), wanted, f"{came} at {rate}")
        asks(pace.words(came, None), wanted.partition("; ")[2], f"{came} without a rate")


# what is done to output 2: the moment, the control and the time in units of 100 ms; and at which moments it is on
SWITCHES = (
    ("for good", ((0, 2, 0),), {0: 1, 10: 1, 99999: 1}),
    ("off for good", ((0, 2, 0), (5, 1, 0)), {4: 1, 5: 0, 9999: 0}),
    ("for 300 ms", ((0, 5, 3),), {0: 1, 299: 1, 300: 0, 301: 0}),
    ("off for 300 ms", ((0, 2, 0), (10, 6, 3)), {9: 1, 10: 0, 309: 0, 310: 1}),
    ("off for a time where it was off", ((0, 6, 3),), {0: 0, 299: 0, 300: 0}),
    ("on for good while a time off runs", ((0, 6, 3), (100, 4, 0)), {100: 0, 299: 0, 300: 1}),
    ("off for good while a time on runs", ((0, 2, 0), (0, 5, 3), (100, 3, 0)), {100: 1, 299: 1, 300: 0}),
    ("on at once while a time off runs", ((0, 6, 3), (100, 2, 0)), {99: 0, 100: 1, 301: 1}),
    ("off at once while a time on runs", ((0, 5, 3), (100, 1, 0)), {99: 1, 100: 0, 200: 0}),
    ("3 where no time runs", ((0, 2, 0), (5, 3, 0)), {4: 1, 5: 0}),
    ("4 where no time runs", ((5, 4, 0),), {4: 0, 5: 1}),
    ("a second time in place of the first", ((0, 5, 3), (100, 5, 1)), {199: 1, 200: 0}),
    ("no time at all", ((0, 5, 0),), {0: 0, 1: 0}),
    ("controls that ask for nothing", ((0, 2, 0), (1, 0, 9), (2, 7, 9), (3, 255, 9)), {1: 1, 2: 1, 3: 1, 5000: 1}),
)


def looks_at_outputs():
    for what, does, states in SWITCHES:
        now = [0]
        outputs, left = Outputs(lambda: now[0]), list(does)
        for moment in sorted({*states, *(at for at, _, _ in does)}):
            now[0] = moment
            while left and left[0][0] <= moment:
                _, control, units = left.pop(0)
                outputs.switch([f"2:{control}:{units}"])
            if moment in states:
                asks(outputs.states(), f"00000{states[moment]}" + "00" * 5, f"an output {what}, at {moment}")
    outputs = Outputs(lambda: 0)
    outputs.switch(["0:2:0", "7:2:0", "6:5:1"])
    asks(outputs.states(), "01" + "00" * 5 + "0101", "several outputs at once")


ORDERS = (  # an order, of a device at 5 and 9600, and its command
    ("open", "OUT 0:5:30"), ("open output 3", "OUT 3:5:30"), ("open 100ms", "OUT 0:5:1"), ("open 1.5s output 7", "OUT 7:5:15"), ("open 6553.5s", "OUT 0:5:65535"), ("open 1m output 0", "OUT 0:5:600"),
    ("on", "OUT 0:2:0"), ("on output 255", "OUT 255:2:0"), ("off", "OUT 0:1:0"), ("off output 3", "OUT 3:1:0"),
    *((f"led {name}", f"LED 0:0:0:0:0:0:0:0:1:1:0:{at}:0") for at, name in enumerate(("off", "red", "green", "amber", "blue", "magenta", "cyan", "white"))),
    ("led black", "LED 0:0:0:0:0:0:0:0:1:1:0:0:0"),
    ("led red blink", "LED 0:0:0:0:0:0:0:0:1:5:5:1:0"), ("led white 2s", "LED 0:0:2:1:0:7:0:20:0:0:0:0:0"),
    ("beep", "BUZ 0 2 1 1 1"), ("beep 255", "BUZ 0 2 1 1 255"),
    ("text A", "TEXT 0 1 0 1 1 41"), ("text COME IN", "TEXT 0 1 0 1 1 434F4D4520494E"), ("text " + "x" * 32, "TEXT 0 1 0 1 1 " + "78" * 32),
    ("id", "ID 0"), ("capabilities", "CAP 0"), ("tamper", "LSTAT"), ("inputs", "ISTAT"), ("outputs", "OSTAT"), ("readers", "RSTAT"),
    ("move 126", "COMSET 126 9600"), ("move 0 115200", "COMSET 0 115200"), ("rate 38400", "COMSET 5 38400"), ("OUT 0:5:30", "OUT 0:5:30"), ("out 1:2:0", "OUT 1:2:0"),
    ("mfg 53494D 01", "MFG 53494D 01"),
)
NO_ORDERS = ("", "open 99ms output", "open output 256", "open 3s output 1 2", "open 3s 4s", "open 6553.6s", "on 3s", "off output", "led", "led red 3s blink", "led red 0s", "beep 0", "beep 256", "beep 1 2",
             "text", "text " + "x" * 33, "id 0", "readers 1", "move", "move 127", "move 7 0", "move 7 9600 1", "rate", "rate 4000001", "rate 9600 1", "POLL", "accept it")
TYPED = (  # a line to a reader, and the call; none where it is refused
    ("card 17 4386", "event RAW 0 1 26 88889100"), ("card 255 65535", "event RAW 0 1 26 7FFFFFC0"), ("card 256 0", None), ("card 0 65536", None), ("card 17", None), ("card -1 5", None), ("card 1 2 3", None),
    ("keys 123#", "event KEYPAD 0 31323323"), ("keys " + "1" * 255, "event KEYPAD 0 " + "31" * 255), ("keys " + "1" * 256, None), ("keys", None), ("keys 1 2", None),
    ("event RAW 0 0 1 80", "event RAW 0 0 1 80"), ("busy 3", "busy 3"), ("local 1 0", "local 1 0"), ("", ""), ("  ", ""),
    ("at 5", None), ("bytes 00", None), ("silence", None), ("tick", None), ("outputs 01", None),
)


def answer_of(takes):
    """What a call answers; none where it refuses the words."""
    try:
        return takes()
    except Refused:
        return None


def looks_at_words():
    for words, wanted in [*ORDERS, *((words, None) for words in NO_ORDERS)]:
        asks(answer_of(lambda: doors.command(words.split(), rounds.Place(5, 9600))), wanted, f"the order {words}")
    for line, wanted in TYPED:
        asks(answer_of(lambda: reader.call_of(line)), wanted, f"to a reader, {line}")
    for line, wanted in ((b"5 open", "5 open"), (b"5 open\r", "5 open"), (b"x" * 8192, "x" * 8192), (b"x" * 8193, None), (b"~ \x20", "~  "), (b"\x7f", None), (b"\x1f", None), (b"\t", None), ("é".encode(), None)):
        asks(Console.text(line), wanted, f"the line {line[:9]}")
    # as the manual has the settings that stand before those that are given
    asks(panel.SETTINGS, ("busy-limit", "4", "busy-wait", "200"), "the settings of a panel")
    asks(reader.ABSENT, ("expire", "10000", "presence", "on"), "the settings of a reader")


class Advised:
    """Advice on a line, and what it says."""

    def __init__(self):
        self.said, self.count = [], 0
        self.advice = Advice(self.said.append, SimpleNamespace(path="PORT", rate=9600, is_there=True))

    def asks_device(self, address, repeats=0, answer=b"", echo=False):
        """A new packet to a device, and its repeats, each with what comes after it."""
        self.count += 1
        burst = bytes([0x53, address, 8, 0, 4, 0x60, self.count >> 8, self.count & 0xFF])
        for _ in range(1 + repeats):
            self.advice.sent(burst)
            self.advice.came((burst if echo else b"") + answer)

    def says(self, wanted, what):
        """What was said begins so, sentence by sentence. It is forgotten then."""
        if len(self.said) != len(wanted) or not all(said.startswith(f"advice: {each}") for said, each in zip(self.said, wanted)):
            faults.append(f"{what}: {self.said}, and not {wanted}")
        self.said.clear()


CABLE = "device 5 answered until now, and nothing comes any more: its power, or the two wires"
SILENT, NOISE = "device 5 doesn't answer: its power", "bytes come, but no answer of device 5: another rate or check"
CAUSES = (
    ("lost 5 too-busy", "device 5 is busy each time"), ("lost 5 number-refused", "device 5 keeps to another session"), ("passed over 5 block 0218", "device 5 demands Secure Channel"),
    ("passed over 5 NAK 6", "device 5 demands Secure Channel"), ("answered 5 NAK 6", "device 5 demands Secure Channel"), ("answered 5 NAK 1", "device 5 reads another check"),
    ("passed over 5 NAK 1", "device 5 reads another check"), ("passed over 5 NAK 2", None), ("passed over 5 seq 2", None), ("answered 5 NAK 3", None), ("lost 5 left", None),
    ("settled 5 OUT 0:5:30 = ACK", None), ("lost 5 no-reply OUT 0:5:30", None),
)


def looks_at_advice():
    line = Advised()
    line.asks_device(5, repeats=2)
    line.advice.heard("lost 5 no-reply")
    line.advice.heard("lost 5 no-reply")
    line.says([SILENT], "a silent device")
    line.asks_device(5, repeats=2, answer=b"\xff")
    line.advice.heard("lost 5 no-reply")
    line.says([NOISE], "a device with noise")
    line.asks_device(5, answer=b"an answer")
    line.asks_device(5, repeats=2)  # since the last new packet nothing has come
    line.advice.heard("online 6 PDID")
    line.advice.heard("lost 5 no-reply")
    line.says([], "a device whose sentences were told")
    line.advice.heard("online 5 PDID")
    line.asks_device(5, answer=b"an answer")
    line.asks_device(5, repeats=2)
    line.advice.heard("lost 5 no-reply")
    line.says([CABLE], "a device that was open and fell silent")
    line.asks_device(5, repeats=2)
    line.advice.heard("lost 5 no-reply")
    line.says([], "a device that stays silent")
    line.advice.heard("online 5 PDID")
    line.asks_device(5, answer=b"an answer")
    line.asks_device(5, repeats=2, answer=b"\xff")
    line.advice.heard("lost 5 no-reply")
    line.says(["device 5 answered until now, and what comes can't be read: a loose wire"], "a device that was open, with noise")
    for told, wanted in CAUSES:
        line = Advised()
        line.advice.heard(told)
        line.advice.heard(told)
        line.says([wanted] if wanted else [], told)


def looks_at_repeats():
    """Of 40 packets 19 repeats are half of them, as a packet of a repeat may be out of sight, and 18 aren't. Three echoes are told once, and count as no bytes."""
    for repeats, wanted in ((18, []), (19, ["device 5 answers late: half of all packets are repeated"])):
        line = Advised()
        for at in range(OFTEN - repeats):
            line.asks_device(5, repeats=at < repeats, answer=b"x")
        line.says(wanted, f"{repeats} repeats of {OFTEN} packets")
    line = Advised()
    for count, wanted in ((2, []), (1, ["the adapter hands back what is sent"]), (9, [])):
        for _ in range(count):
            line.asks_device(5, echo=True)
        line.says(wanted, f"{count} echoes more")
    line.advice.heard("lost 5 no-reply")
    line.says([SILENT], "a device of which nothing but echoes come")


def looks_at_traces():
    os.environ["TZ"] = "XYZ-3"  # the moments are in UTC wherever the line stands
    time.tzset()
    since = 86400 * 366 + 3723.0625
    asks(trace.digits(since, "out", b"\x53\x05\xff"), "# 1971-01-02T01:02:03.062Z out\n5305FF\n", "a burst in lines of digits")
    for way, told in (("in", "input"), ("out", "output"), ("trace", "trace")):
        wanted = {"timeSec": "31626123", "timeNano": "062500000", "io": told, "data": "53-05-FF", "osdpTraceVersion": "1", "osdpSource": "osdp-port"}
        asks(json.loads(trace.osdpcap(since, way, b"\x53\x05\xff")), wanted, f"a burst as an object, {way}")


IDENTITY = "53494D 1 2 12345 1 2 3"


class Sought:
    """A line with devices, which `find` asks: each has an address, a rate and a check, and how many seconds it takes to answer. What was asked, and what was said."""

    def __init__(self, *devices, other=None, answers=None, rate=9600):
        self.devices, self.other = list(devices), other  # at `other` another device answers, once the first one has moved
        self.answers = answers  # what is answered to a COMSET, in place of the COM: nothing is done then but what the answer says
        self.port, self.wait, self.latency = SimpleNamespace(path="PORT", rate=rate, has_own_rate=True), find.ANSWER, 0.0
        self.asked, self.said, self.stops = [], [], 0
        self.noise = ()  # the rates at which there is noise

    def goes(self, rate):
        self.port.rate = rate
        return True

    @staticmethod
    def is_going():
        return True

    def hears(self):
        """Whether bytes come though nobody is asked."""
        return self.port.rate in self.noise

    def say(self, line):
        self.said.append(line)

    def ask(self, address, number, check, text):
        """Those that answer in time, and the address that each has then."""
        self.asked.append((self.port.rate, check, address, text, number, round(self.wait, 6)))
        heard = [each for each in self.devices if each[1:3] == (self.port.rate, check) and address in (each[0], find.EVERYBODY) and each[3] <= self.wait]
        for at, each in enumerate(self.devices):
            if each in heard and text.startswith("COMSET "):
                told = self.answers or text.replace("COMSET", "COM")
                place = tuple(map(int, told.split()[1:])) if told.startswith("COM ") else each[:2]
                self.devices[at] = (*(self.other or place), *each[2:])
                return [(each[0], told)]
        self.latency = max((each[3] for each in heard), default=self.latency)
        if self.port.rate in self.noise and len(self.asked) % 3:  # each third answer can be read
            return [(0, "noise"), (1, "noise")]
        return [(each[0], "PDID " + (IDENTITY if not self.other or each[:2] != self.other else "53494D 1 2 54321 1 2 3")) for each in heard]

    @staticmethod
    def replies(came):
        return (came, False) if len(came) < 2 else ([], True)  # two answers damage each other

    def searched(self):
        search = find.Search(self, self.say)
        search.goes()
        return search

    def found(self, **words):
        """What `find` does and answers with these words."""
        kept, find.Line = find.Line, lambda *_: self
        find.time.sleep, slept = (lambda _: None), find.time.sleep
        try:
            return find.find({f"--set-{name}": value for name, value in words.items()}, self.port, self, "osdp")
        finally:
            find.Line, find.time.sleep = kept, slept


def looks_at_searches():
    """One device is asked for by 127 at each rate with both checks, and then at the address that its answer had, within three times as long as that took."""
    line = Sought((100, 38400, "crc", 0.06))
    asks([str(each) for each in line.searched().found], ["found address 100 rate 38400 check crc maker 53494D model 1 version 2 serial 12345 firmware 1.2.3"], "one device")
    asks([each[:3] for each in line.asked], [*((rate, check, 127) for rate in (9600, 19200) for check in ("crc", "sum")), (38400, "crc", 127), (38400, "crc", 100)], "what is asked of one device")
    asks([each[5] for each in line.asked], [0.2] * 5 + [0.18], "how long one device is waited for")
    line = Sought((3, 9600, "sum", 0.01))
    line.searched()
    asks(line.asked[-1], (9600, "sum", 3, "ID 0", 0, 0.05), "how long a quick device is waited for")
    asks(line.wait, find.ANSWER, "how long a device is waited for after that")
    line = Sought((0, 230400, "sum", 0.01), rate=38400)
    asks([each.address for each in line.searched().found], [0], "a device at the last rate")
    asks(list(dict.fromkeys(each[0] for each in line.asked)), [38400, 9600, 19200, 57600, 115200, 230400], "in which order the rates are tried")
    line = Sought((2, 9600, "crc", 0.01), (126, 9600, "crc", 0.01))
    search = line.searched()
    asks(([each.address for each in search.found], search.several), ([2, 126], True), "two devices")
    asks({each[1] for each in line.asked if each[0] == 9600}, {"crc"}, "the checks that two devices are asked with")
    asks(len(line.said), 3, f"what is said of two devices, {line.said}")


def looks_at_changes():
    """A COMSET has the number after the opening, and is confirmed by the device itself. Of several devices none is set, though one alone is found."""
    line = Sought((5, 9600, "crc", 0.01))
    asks((line.found(address=7), line.devices[0][:2], line.said[-1]), (0, (7, 9600), "set: device is at address 7 rate 9600"), "a new address")
    asks([each[2:5] for each in line.asked[-3:]], [(5, "ID 0", 0), (5, "COMSET 7 9600", 1), (7, "ID 0", 0)], "how a new address is set")
    line = Sought((5, 9600, "crc", 0.01))
    asks((line.found(rate=38400), line.said[-1]), (0, "set: device is at address 5 rate 38400"), "a new rate")
    for answers, wanted in (("NAK 3", "device 5 refuses: NAK 3; it stays at address 5 rate 9600"), ("COM 5 9600", "not set: device is at address 5 rate 9600"), ("COM 8 19200", "not set: device is at address 8 rate 19200"),
                            ("ACK", "not set: device is at address 5 rate 9600")):
        line = Sought((5, 9600, "crc", 0.01), answers=answers)
        asks((line.found(address=7), line.said[-1]), (0 if wanted.startswith("set") else 1, wanted), f"a COMSET that is answered {answers}")
    line = Sought((5, 9600, "crc", 0.01), other=(7, 9600))  # at 7 stands another one
    asks((line.found(address=7), line.said[-1].partition(":")[0]), (1, "device 5 isn't found again"), "another device at the new address")
    line = Sought((5, 9600, "crc", 0.01), (6, 9600, "sum", 0.01), (6, 9600, "sum", 0.02))  # the two at 6 damage each other's answers
    asks((line.found(address=7), [each[3] for each in line.asked if each[3] != "ID 0"]), (0, ["COMSET 7 9600"]), "the one device of a check")
    line = Sought((5, 9600, "crc", 0.01), (6, 9600, "crc", 0.01), (6, 9600, "crc", 0.02))
    asks((line.found(address=7), [each[3] for each in line.asked if each[3] != "ID 0"]), (1, []), "one of several devices")


def looks_at_taken_places():
    """No device is sent to a place where another one answers, also at a rate that the search has skipped; and the rates that it skips are told."""
    for other, wanted in (((6, 19200, "crc", 0.01), (1, [])), ((6, 19200, "sum", 0.01), (1, [])), ((7, 19200, "crc", 0.01), (0, ["COMSET 6 19200"]))):
        line = Sought((5, 9600, "crc", 0.01), other)
        asks((line.found(address=6, rate=19200), [each[3] for each in line.asked if each[3] != "ID 0"]), wanted, f"a device that is to go where {other} may be")
        asks("not asked: rates 19200, 38400, 57600, 115200, 230400" in "\n".join(line.said), True, f"which rates were skipped: {line.said}")
        asks(any(told.startswith("another device answers at address 6 rate 19200") for told in line.said), wanted[0] == 1, f"what is told of a place that is taken: {line.said}")
    line = Sought((5, 9600, "crc", 0.01), (5, 19200, "crc", 0.01))
    asks((line.found(rate=19200), [each[3] for each in line.asked if each[3] != "ID 0"]), (1, []), "a device that is to get a rate at which another one has its address")
    asks("not asked" in "\n".join(Sought((5, 230400, "crc", 0.01)).said), False, "no rate is skipped")


def looks_at_shared_addresses():
    """Two devices at one address are told as such, once, and the end says so. Noise is told once, as noise; a device whose answer comes through is found, and none is set."""
    line = Sought((5, 9600, "crc", 0.01), (5, 9600, "crc", 0.02))
    asks((line.found(), sum(told.startswith("several devices answer at address 5, rate 9600") for told in line.said)), (1, 1), f"two devices at one address: {line.said}")
    asks(line.said[-1].startswith("no device is alone at its address: several answer at address 5 rate 9600"), True, f"what is told at the end of two at one address: {line.said}")
    asks([each for each in line.asked if each[1] == "sum" and each[0] == 9600], [], "two at one address are asked with the other check too")
    line = Sought()
    line.noise = find.RATES
    asks((line.found(), sum("several" in told for told in line.said), sum(told.startswith("bytes come though nobody is asked") for told in line.said)), (1, 0, 1), f"noise: {line.said}")
    asks((line.said[-1].startswith("no device found: bytes come"), len(line.asked) <= 6 * 2 * 3), (True, True), f"what is told at the end of noise, after {len(line.asked)} packets: {line.said}")
    line = Sought((5, 19200, "crc", 0.01))
    line.noise = (19200,)
    asks((line.found(), [told for told in line.said if told.startswith("found address 5 rate 19200")] != []), (0, True), f"one device with noise: {line.said}")
    line = Sought((5, 9600, "crc", 0.01))
    line.noise = (9600,)
    asks((line.found(address=7), [each[3] for each in line.asked if each[3] != "ID 0"]), (1, []), f"one device with noise is set: {line.said}")


class Stopped:
    """A port whose program is stopped after a read, the first time a packet has gone out: the answer of 20 ms comes meanwhile. Time goes on by 5 ms with each wait."""

    def __init__(self, stops):
        self.now, self.stops, self.written, self.due = 100.0, stops, 0, None
        self.path, self.rate, self.is_there = "PORT", 9600, True

    def write(self, burst):
        self.written, self.due = self.written + 1, self.now + 0.02

    def read(self):
        read, is_due = b"", self.due is not None and self.now >= self.due
        if is_due:
            read, self.due = b"an answer", None
        if self.stops and self.due is not None:
            self.stops -= 1
            self.now += 5
        return read


def looks_at_standstill():
    """A question within which the program stood still is asked again; where it does so each time nobody is told to be there, or not to be."""
    kept = find.time, find.wait_for, turns.time

    def waits(port, console, seconds, lines=True):
        port.port.now += 0.005

    try:
        for stops, wanted in ((0, (b"an answer", 1)), (1, (b"an answer", 2)), (3, (b"an answer", 4)), (99, None)):
            port = Stopped(stops)
            find.time = SimpleNamespace(monotonic=lambda: port.now, sleep=None)
            turns.time, find.wait_for = SimpleNamespace(clock_gettime=lambda _: port.now), waits
            line = find.Line(port, SimpleNamespace(stops=0), "osdp")
            line.packet = lambda *_: b"a packet"
            try:
                asks((line.ask(5, 0, "crc", "ID 0"), port.written), wanted, f"a question, {stops} standstills")
            except Stop as stop:
                asks((wanted, stop.why.startswith("the program stands still again and again")), (None, True), f"a question, {stops} standstills")
    finally:
        find.time, find.wait_for, turns.time = kept


def looks_at_settings():
    """A time of a setting may have its unit. Where addresses have commas and spaces, the hint has each comma once."""
    for words, wanted in (("reply-wait 400ms", "reply-wait 400"), ("reply-wait 400", "reply-wait 400"), ("poll-interval 1s gap 20ms", "poll-interval 1000 gap 20"), ("expire 10s", "expire 10000"),
                          ("check sum", "check sum"), ("vendor 53494D", "vendor 53494D"), ("reply-wait 4x", "reply-wait 4x"), ("serial 10s", "serial 10s"), ("reply-wait", "reply-wait"), ("reply-wait 1.5s", "reply-wait 1500")):
        asks(" ".join(Words(["PORT", "9600", "panel", "5", *words.split()]).rest[1:]), wanted, words)
    for words, wanted in ((("5,", "6"), "as 5,6;"), (("5", "6"), "as 5,6;"), (("5,6,", "7"), "as 5,6,7;")):
        try:
            Words(["PORT", "9600", "panel", *words])
            asks(None, wanted, f"{words}")
        except Stop as stop:
            asks(wanted in stop.why, True, f"the hint for {words}: {stop.why}")


TABLE = """device  asked  polls repeats  answered  busy  nak  events  opened  moved  judged  forgot  accused
5          11      0       0         0     0   11       0       0      0      19       1        7
126    123456 123456       0    123456     0    0       0       1      0  123456       0        0
runs 22 packets 22 skipped 0 refused 0 judged 19 accused 7""".splitlines()


def looks_at_narrow_tables():
    """Who is accused stands on a narrow terminal too; on a wide one the table is that of the program."""
    asks(live.narrowed(TABLE, 100), TABLE, "a table on a wide terminal")
    for width in (80, 60, 40):
        rows = [line.split() for line in live.narrowed(TABLE, width)]
        asks((max(len(line) for line in live.narrowed(TABLE, width)[:3]) <= width, rows[0][0], rows[0][-1], rows[1][0], rows[1][-1], rows[2][-1], rows[3]),
             (True, "device", "accused", "5", "7", "0", TABLE[3].split()), f"a table on {width} columns")
        asks([len(row) for row in rows[:3]], [len(rows[0])] * 3, f"the columns of a table on {width} columns")
    asks(live.narrowed(TABLE, 80)[0].split(), [name for name in TABLE[0].split() if name not in ("forgot", "moved")], "the columns on 80")
    asks(live.narrowed([], 80), [], "no table")


def main():
    for looks in (looks_at_standstill, looks_at_narrow_tables, looks_at_settings, looks_at_taken_places, looks_at_shared_addresses, looks_at_cards, looks_at_captures, looks_at_figures, looks_at_outputs, looks_at_words, looks_at_advice, looks_at_repeats, looks_at_traces, looks_at_searches, looks_at_changes):
        looks()
    for fault in faults:
        print(f"port_parts: {fault}")
    print(f"port_parts: {len(CARDS)} cards, {len(SWITCHES)} rows of an output, {len(ORDERS) + len(NO_ORDERS)} orders, {len(faults)} faults")
    return 1 if faults else 0


if __name__ == "__main__":
    sys.exit(main())
