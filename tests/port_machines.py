"""The panel, the reader and the rounds of `osdp-port`, over a stand-in for the program `osdp`, which answers each line as a row says, and a port that is only written down.

So each thing that is told, kept, sent and called is seen in its order. Prints each fault. The status is 1 where there is one."""
import sys
import tempfile
from pathlib import Path
from types import SimpleNamespace

sys.dont_write_bytecode = True
sys.path.insert(0, str(Path(__file__).resolve().parent.parent / "port"))
from osdp_port import devices, line_rate, main, panel, reader, rounds, trace  # noqa: E402
from osdp_port.console import Typed  # noqa: E402
from osdp_port.faults import Stop  # noqa: E402
from osdp_port.rounds import Entry, Place, Rounds  # noqa: E402

faults = []


def asks(said, wanted, what):
    if said != wanted:
        faults.append(f"{what}: {said!r}, and not {wanted!r}")


class Program:
    """Answers a line by what is set for it, once. Else it takes each order, by the numbers from 7 on, and answers by its last line alone."""

    def __init__(self, did, last):
        self.did, self.last, self.answers, self.number = did, last, {}, 6

    def call(self, line):
        self.did.append(line)
        left = self.answers.get(line, [])
        if line.startswith("submit ") and not left:
            self.number += 1
            return [f"order {self.number} waits {line.split()[1]}", self.last]
        return [*(left.pop(0) if left else []), self.last]

    def close(self):
        self.did.append("closed")


class Port:
    """A port that has the rates 9600 and 19200, and writes down what is done."""

    def __init__(self, did):
        self.did, self.rate, self.is_there, self.path = did, 9600, True, "PORT"

    def write(self, burst):
        self.did.append(f"written {burst.hex().upper()}")

    def set_rate(self, rate):
        self.did.append(f"rate {rate}")
        self.rate = rate if self.can_have(rate) else self.rate
        return self.can_have(rate)

    @staticmethod
    def can_have(rate):
        return rate in (9600, 19200)

    may_have = can_have


class Kept:
    """A store that writes down what it keeps. `why` says why no order can be stored."""

    def __init__(self, did):
        self.did, self.known, self.path, self.why = did, {}, "FILE", None

    @staticmethod
    def next_order(name):
        return 7

    @staticmethod
    def left(name):
        return [(4, "OUT 0:5:30"), (6, "LSTAT")] if name == 5 else []

    def gives(self, name, number, text, lasts):
        self.did.append(f"stored {name} {number} {text} {lasts}")
        return self.why

    def forgets(self, name, number):
        self.did.append(f"forgotten {name} {number}")

    def ends(self, name, number, state, answer):
        self.did.append(f"ended {name} {number} {state} {answer}")

    def write(self, entries):
        self.did.append("kept " + ", ".join(" or ".join(map(str, entry.places)) for entry in entries))

    def keep(self, place):
        self.did.append(f"kept {place}")


PDID = "PDID {} {} {} {} 1 2 3".format
SIM = PDID("53494D", 1, 2, 12345)
ACK, COM = "5385080005400000", "53850D00065407004B0000"  # what a reader writes: their codes are told by it alone


class Panel:
    """A panel of devices, of which each has told what it is, and what it did and told."""

    def __init__(self, *names, opened=True):
        self.did, self.told, self.now = [], [], 0
        self.program, self.port = Program(self.did, "due none"), Port(self.did)
        self.kept, self.devices = Kept(self.did), devices.new_devices(list(names), 9600, None)
        for device in self.devices:
            device.next_order = 7
        self.panel = panel.Panel(self.port, self.program, self.devices, lambda: self.now, self.told.append, self.kept)
        self.began = list(self.did), list(self.told)
        for at in range(1, len(names) + 1) if opened else ():
            self.panel.devices[at - 1].session = "begun"
            self.panel.heed(f"opened {at} {SIM}")
        self.did.clear(), self.told.clear()

    def order(self, line, *answers):
        """An order, where the program answers the lines so."""
        self.program.answers = {each: [told] for each, told in answers}
        self.told.clear(), self.did.clear()
        self.panel.order(Typed(line, self.now))
        return self.told


def looks_at_identities():
    """A device is the one that stood there by its maker, its model and its serial number, and not by its version and its firmware. Another one gets no order."""
    for what, wanted in ((SIM, []), (PDID("53494D", 1, 9, 12345), []), (SIM.replace("1 2 3", "4 5 6"), []), (PDID("53494E", 1, 2, 12345), [1]), (PDID("53494D", 2, 2, 12345), [1]), (PDID("53494D", 1, 2, 12346), [1])):
        line = Panel(5)
        line.panel.heed("lost 1 no-reply")
        line.panel.devices[0].session = "begun"
        line.told.clear()
        line.panel.heed(f"opened 1 {what}")
        asks([1 for told in line.told if told.startswith("another device at 5: ")], wanted, f"a device that tells {what}")
        told = line.order("5 on")
        asks(told[0].startswith("not taken 5 on: another device stands at 5"), bool(wanted), f"an order for {what}")
        if wanted:
            asks((list(line.order("5 accept")), line.order("5 on")), (["accepted 5"], ["order 7 waits 5 OUT 0:2:0"]), f"an order for {what} that is accepted")


def looks_at_orders():
    rows = (("5 COMSET 127 9600", (), "not taken 5 COMSET 127 9600: address 127: an address is 0 to 126"), ("5 COMSET 126 9600", (), "order 7 waits 5 COMSET 126 9600"),
            ("5 COMSET 7 57600", (), "not taken 5 COMSET 7 57600: the port has no rate 57600"), ("5 COMSET 7", (), "not taken 5 COMSET 7: a COMSET has an address and a rate, as COMSET 7 9600"),
            ("5 on", (("submit 1 5000 OUT 0:2:0", ["refused C3"]),), "not taken 5 OUT 0:2:0: as many orders as may wait do so already"),
            ("5 on", (("submit 1 5000 OUT 0:2:0", ["refused B7"]),), "not taken 5 OUT 0:2:0: no number is left for another order of this device"),
            ("5 move 7", (("submit 1 5000 COMSET 7 9600", ["refused B3"]),), "not taken 5 COMSET 7 9600: that address is another device's, or may be"),
            ("5 OUT x", (("submit 1 5000 OUT x", ["refused line"]),), "not taken 5 OUT x: osdp doesn't read this command"), ("7 on", (), "not taken 7 on: word 1, 7: the address of a device of this line: 5, 6"))
    for order, answers, wanted in rows:
        line = Panel(5, 6)
        asks(line.order(order, *answers)[-1].startswith(wanted), True, f"{order}: {line.told}")
    line = Panel(5, 6)
    line.order("5 move 7")
    asks(line.did, ["kept 5 9600 or 7 9600, 6 9600", "stored 5 7 COMSET 7 9600 5000", "submit 1 5000 COMSET 7 9600"], "a new place is kept before a COMSET is submitted")
    asks(line.order("5 on")[0].startswith("not taken 5 on: where device 5 is isn't known"), True, "an order after a COMSET")
    asks(line.order("6 on"), ["order 8 waits 6 OUT 0:2:0"], "an order for another device")
    asks(Panel(5, 6, opened=False).order("6 on"), ["not taken 6 on: the session with 6 isn't open"], "an order before the opening")
    line = Panel(5, 6)
    line.panel.ends()
    asks(line.order("6 on"), ["not taken 6 on: the panel ends"], "an order at the end")
    line = Panel(5, 6)
    line.port.is_there = False
    asks(line.order("6 on"), ["not taken 6 on: the port isn't there"], "an order without a port")


def looks_at_refusals():
    """What a device refuses is told in words, and counts as something that was met."""
    for reply, wanted in (("NAK 9", " (the device can't do what its data say)"), ("NAK 3", " (the device doesn't know the command)"), ("NAK 6", " (the device demands Secure Channel for it)"),
                          ("NAK 200", " (for a reason that the standard doesn't have)"), ("ACK", ""), ("OSTATR 00", "")):
        line = Panel(5)
        line.panel.devices[0].orders[3] = "OUT 9:2:0"
        line.panel.heed(f"order 3 settled 1 OUT 9:2:0 = {reply}")
        asks((line.told, line.panel.met, line.panel.devices[0].orders), ([f"order 3 settled 5 OUT 9:2:0 = {reply}{wanted}"], int(wanted != ""), {}), f"an order that is answered {reply}")
        asks(line.did[0], f"ended 5 3 {'refused' if wanted else 'settled'} {reply}", f"what is stored of an order that is answered {reply}")


def looks_at_openings():
    """What a device is stands in words where its session opens, as `find` has it."""
    line = Panel(5, 6)
    line.panel.heed(f"opened 2 {PDID('53494D', 1, 9, 12345)}")
    asks(line.told, ["online 6 maker 53494D model 1 version 9 serial 12345 firmware 1.2.3"], "a session that opens")


def looks_at_quits():
    """`quit` ends the program as Ctrl-C does. The lines before it are taken, and those after it aren't."""
    for lines, taken, told in ((["5 on", "quit", "5 off", None], ["5 on"], ["not taken 5 off: the program ends", "not taken a line: the program ends"]), (["q"], [], []), (["exit", "quit"], [], ["not taken quit: the program ends"])):
        ended, said = [], []
        console = SimpleNamespace(quits=lambda: ended.append(True), say=said.append)
        typed = [Typed(each, 3) for each in lines]
        asks((main.until_quit(typed, console), said, ended), (typed[:len(taken)], told, [True]), f"the lines {lines}")
    for lines in ([], ["5 on", None], ["quit 5", "5 quit"]):
        typed = [Typed(each, 3) for each in lines]
        asks(main.until_quit(typed, None), typed, f"the lines {lines}")


def looks_at_ages():
    """Until when an order may go out goes by the moment at which it was typed. Orders that expired, or were withheld, are told in words, and are met. So is a card that came long ago."""
    for lasts, since, wanted in ((5000, 300, "5300"), (100, 300, "400"), (None, 300, "never")):
        line = Panel(5)
        line.panel.lasts, line.now, line.panel.now = lasts, 900, 900
        line.panel.order(Typed("5 on", since))
        asks(line.did, [f"stored 5 7 OUT 0:2:0 {lasts and lasts + since - 900}", f"submit 1 {wanted} OUT 0:2:0"], f"an order that lasts {lasts}")
    line = Panel(5)
    line.panel.devices[0].orders = {3: "OUT 0:5:30", 4: "OUT 0:5:31"}
    line.panel.heed("order 3 expired 1 OUT 0:5:30")
    line.panel.heed("order 4 lost 1 no-reply withheld OUT 0:5:31")
    asks(line.told, ["order 3 expired 5 OUT 0:5:30: it grew too old before it could go out, and it was never sent",
                     "order 4 lost 5 no-reply withheld OUT 0:5:31: it grew too old to be sent again; it was done or not"], "orders that grew too old")
    asks(([each for each in line.did if each.startswith("ended")], line.panel.met, line.panel.devices[0].orders), (["ended 5 3 back expired", "ended 5 4 doubt None"], 2, {}), "the ends of orders that grew too old")
    for now, since, wanted in ((3000, 1001, ""), (3000, 1000, " (up to 2.0 s old)"), (15000, 2700, " (up to 12.3 s old)")):
        line = Panel(5)
        line.now = now
        for name in ("event", "maybe-again"):
            line.panel.heed(f"{name} 1 since {since} KEYPAD 0 31")
        asks(line.told, [f"{name} 5 KEYPAD 0 31 keys 1{wanted}" for name in ("event", "maybe-again")], f"keys since {since} at {now}")


def looks_at_numbers():
    """The panel begins with the number that is stored, and tells which orders of before are in doubt. An order that isn't stored isn't given, and one that isn't taken leaves its number."""
    line = Panel(5, 6)
    why = "the panel ended before it knew what became of it; it was done or not"
    asks(line.began, (["add 5 7", "add 6 7"], [f"order 4 in doubt 5 OUT 0:5:30: {why}", f"order 6 in doubt 5 LSTAT: {why}"]), "how a panel begins")
    line.kept.why = "the disk is full"
    asks(line.order("5 on"), ["not kept: the disk is full", "not taken 5 OUT 0:2:0: its number must be kept first, and the disk is full"], "an order that isn't stored")
    asks(line.did, ["stored 5 7 OUT 0:2:0 5000"], "what is done with an order that isn't stored")
    line.kept.why = None
    line.order("5 on", ("submit 1 5000 OUT 0:2:0", ["refused C3"]))
    asks(line.did, ["stored 5 7 OUT 0:2:0 5000", "submit 1 5000 OUT 0:2:0", "forgotten 5 7"], "an order that isn't taken")
    asks((list(line.order("5 on")), list(line.order("5 off"))), (["order 7 waits 5 OUT 0:2:0"], ["order 8 waits 5 OUT 0:1:0"]), "the numbers of orders")
    asks(line.did[0], "stored 5 8 OUT 0:1:0 5000", "the number that is stored")


def looks_at_turns():
    """A turn hands over its moment and what came, then orders, then ticks. Where a packet is to go out its moment is taken anew."""
    line = Panel(5)
    moments = iter(range(1000, 2000, 7))
    line.panel.clock = lambda: next(moments)
    line.program.answers = {"tick": [["burst"]], "write": [["send 53050900046100C125"]], "bytes 5305": [["event 1 since 980 KEYPAD 0 31"]]}
    line.panel.turn(bytes.fromhex("5305"), [Typed("5 on", 990)], 999)
    asks(line.did, ["at 999", "bytes 5305", "stored 5 7 OUT 0:2:0 4990", "submit 1 5990 OUT 0:2:0", "tick", "at 1007", "write", "written 53050900046100C125"], "a turn that sends")
    line.did.clear()
    line.panel.turn(b"", [], 1500)
    asks(line.did, ["at 1500", "tick"], "a turn that sends nothing")
    line.told.clear()
    line.panel.turn(b"", [], 9500, 6300)
    asks(line.told, ["stood still for 6.3 s: orders that grew too old aren't sent"], "a turn after the program stood still")


def looks_at_floods():
    """What an opening passes over again and again is told once in ten seconds."""
    line = Panel(5)
    for moment, told, wanted in ((0, "seq 2 ACK", True), (100, "seq 2 ACK", False), (200, "seq 3 ACK", False), (300, "NAK 6", True), (9999, "seq 1 ACK", False), (10000, "seq 1 ACK", True), (10001, "NAK 6", False)):
        line.now = moment
        line.told.clear()
        line.panel.heed(f"passed over 1 {told}")
        asks(line.told, [f"passed over 5 {told}"] if wanted else [], f"{told} at {moment}")


def looks_at_losses():
    """The orders that wait are taken back as their session ends, each is told, and the next session begins a second later."""
    for report, pause in (("lost 1 no-reply OUT 1:2:0", 1000), ("moved 1 COMSET 7 9600 = COM 7 9600", 0)):
        line = Panel(5)
        line.panel.devices[0].orders = {3: report.partition(" 1 ")[2].partition(" = ")[0].removeprefix("no-reply "), 4: "OUT 0:5:30", 5: "OUT 0:5:30"}
        line.now = 5000
        line.program.answers = {"withdraw 1": [["order 4 withdrawn 1 OUT 0:5:30"], ["order 5 withdrawn 1 OUT 0:5:30"]]}
        line.panel.heed(f"order 3 {report}")
        device, at = line.panel.devices[0], 7 if pause == 0 else 5
        asks((line.did.count("withdraw 1"), line.told[1:], device.orders, device.session, device.begins), (3, [f"order {each} withdrawn {at} OUT 0:5:30" for each in (4, 5)], {}, "closed", 5000 + pause), report)
        asks([each for each in line.did if each.startswith("ended")], [f"ended 5 3 {'settled COM 7 9600' if pause == 0 else 'doubt None'}", "ended 5 4 back None", "ended 5 5 back None"], f"what is stored: {report}")


def looks_at_the_reader():
    """What is to be done is done, and the place is kept, before the answer goes out; after it the port gets the new rate."""
    did, told = [], []
    made = reader.Reader(Port(did), lambda at: did.append(f"starts {at}") or Program(did, "waiting 0"), 5, lambda: 0, told.append, Kept(did))
    did.clear()
    made.program.answers = {"bytes 5305": [[f"send {ACK}", "taken OUT 2:2:0", f"send {COM}", "moved 7 19200", "taken COMSET 7 19200"]]}
    made.call("bytes 5305")
    asks(did, ["bytes 5305", "outputs " + "00" * 2 + "01" + "00" * 5, f"written {ACK}", "kept 7 19200", f"written {COM}", "rate 19200"], "in which order a reader does what it is told")
    asks((told, made.address), (["taken OUT 2:2:0", "moved 7 19200", "taken COMSET 7 19200"], 7), "what a reader tells")
    told.clear()
    for line, wanted in (("withdrawn RAW 0 0 1 80", "withdrawn RAW 0 0 1 80: too old while no panel asked; no panel will get it"), ("in doubt RAW 0 0 1 80", "in doubt RAW 0 0 1 80: too old while no panel asked; the panel may have got it or not"),
                         ("offline", "offline: no panel has asked for 8 seconds"), ("online", "online: a panel asks"), ("refused N2", "refused no room for another event")):
        made.heed(line, None)
        asks(told.pop(), wanted, f"a reader is told {line}")
    made.heed("taken LED 0", bytes([0x53, 0x85, 9, 0, 5, 0x41, 9]))
    asks(told.pop(), "refused LED 0", "a command that is answered by a NAK")


def looks_at_a_reader_that_stays():
    """A COMSET to a rate that the port hasn't isn't answered. The program starts anew, with the states that were set last and the events that wait, the oldest first."""
    did, told = [], []
    made = reader.Reader(Port(did), lambda at: did.append(f"starts {at}") or Program(did, "waiting 2"), 5, lambda: 33, told.append, Kept(did))
    for line in ("inputs 01", "busy 1", "inputs 00", "event KEYPAD 0 31", "event KEYPAD 0 32", "event KEYPAD 0 33", "local 1 0"):
        made.line(line)
    made.program.answers = {"event KEYPAD 0 34": [["refused N2"]], "bytes 5305": [[f"send {COM}", "moved 7 57600"]]}
    made.line("event KEYPAD 0 34")
    did.clear()
    made.call("bytes 5305")
    asks(did, ["bytes 5305", "closed", "starts 5", "at 33", "inputs 00", "busy 1", "local 1 0", "event KEYPAD 0 32", "event KEYPAD 0 33", "outputs " + "00" * 8], "a reader that stays")
    asks((told[-1], made.port.rate), ("refused COMSET 7 57600: the port has no rate 57600; the reader stays at 5 9600, and its session ends", 9600), "what a reader that stays tells")


def entry(number, *places, session="closed", sought=0, orders=()):
    made = Entry(str(number), number, [Place(number, rate) for rate in places])
    made.session, made.sought, made.orders = session, sought, dict(enumerate(orders, 1))
    return made


def looks_at_rounds():
    """The port goes to another rate once each device here was tried, as soon as nobody who is reached has orders. Where all who are elsewhere were sought for six rounds it stays 30 seconds."""
    rows = (  # the devices, the moment, and the rate of the next round
        ("one that may be elsewhere", [entry(5, 9600, session="open"), entry(6, 19200)], 0, 19200),
        ("one that isn't tried here yet", [entry(5, 9600), entry(6, 19200)], 0, None),
        ("one that is being tried here", [entry(5, 9600, session="begun"), entry(6, 19200)], 0, None),
        ("nobody elsewhere", [entry(5, 9600, session="open"), entry(6, 9600)], 0, None),
        ("orders of one that is reached", [entry(5, 9600, session="open", orders=["OUT 0:2:0"]), entry(6, 19200)], 0, None),
        ("orders of one that isn't reached", [entry(5, 9600, session="open"), entry(6, 19200, orders=["OUT 0:2:0"])], 0, 19200),
        ("one that was sought for five rounds", [entry(5, 9600, session="open"), entry(6, 19200, sought=5)], 0, 19200),
        ("one that was sought for six rounds", [entry(5, 9600, session="open"), entry(6, 19200, sought=6)], 29999, None),
        ("the same after 30 seconds", [entry(5, 9600, session="open"), entry(6, 19200, sought=6)], 30000, 19200),
        ("six rounds, and nobody is reached", [entry(6, 19200, sought=6)], 0, 19200),
        ("six rounds of one of two", [entry(5, 9600, session="open"), entry(6, 19200, sought=6), entry(7, 19200, sought=5)], 0, 19200),
    )
    for what, entries, now, wanted in rows:
        made = Rounds(entries, 9600)
        asks((made.next_rate(now), made.is_leaving), (wanted, any(each.orders and each.session == "open" for each in entries)), f"the next rate: {what}")


def looks_at_the_rest(folder):
    asks((main.END, rounds.PAUSE, line_rate.HEALS, devices.MOST, reader.ABSENT[1]), (5.0, 1000, 2, 16, "10000"), "the numbers of the manual")
    path = folder / "trace"
    for text, wanted in (("# rate 9600\n", "has a trace of a line"), ('{"timeSec":"1"}\n', "has a trace of a line"), ("heard 0 0 none\n", None), ("", None)):
        path.write_text(text)
        try:
            trace.begun(str(path)).close()
            asks((None, path.read_text()), (wanted, ""), f"a test over the file {text!r}")
        except Stop as stop:
            asks(bool(wanted) and wanted in stop.why and path.read_text() == text, True, f"a test over the file {text!r}")
    told = []
    file = trace.Trace(str(path), 1000000, told.append)
    file.takes(0, "in", b"A")
    path.rename(folder / "aside")
    file.takes(1, "in", b"B")
    asks(((folder / "aside").read_text().split()[-1], path.read_text().split()[-1], file.ended()), ("41", "42", f"trace {path}: 2 bursts, 2 bytes"), "a trace that another program puts aside")


def run():
    for looks in (looks_at_refusals, looks_at_openings, looks_at_quits, looks_at_ages, looks_at_numbers, looks_at_turns, looks_at_floods, looks_at_identities, looks_at_orders, looks_at_losses, looks_at_the_reader, looks_at_a_reader_that_stays, looks_at_rounds):
        looks()
    with tempfile.TemporaryDirectory() as name:
        looks_at_the_rest(Path(name))
    for fault in faults:
        print(f"port_machines: {fault}")
    print(f"port_machines: {len(faults)} faults")
    return 1 if faults else 0


if __name__ == "__main__":
    sys.exit(run())
