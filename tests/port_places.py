"""Where devices are found after a COMSET whose answers were lost, over a simulated line. Takes the path of `osdp`.

For 1, 2 and 3 readers, at several settings, a COMSET of the rate is given while answers are lost: those of each set of readers, each answer of the
line in turn, each row of answers that ends an exchange, the COMSET itself, and all at random. After that each reader is reached within two rounds,
all are at one rate within the rounds that are asked here, and each takes an order once. Then devices that refuse, that are gone, or that were
swapped; and panels that are killed, with a file and without."""
import itertools
import random
import sys
import tempfile
import time
from pathlib import Path

import stores
from simulated import Line, Panel, Port, Reader, new_devices

COMSET, COM, NAK, ID, POLL, OUT = 0x6E, 0x54, 0x41, 0x61, 0x60, 0x68
SETTINGS = ((), ("reply-wait", "400"), ("sends", "1"), ("sends", "2", "reply-wait", "50", "poll-interval", "10", "quiet-wait", "150"), ("check", "sum", "quiet-wait", "1000"))
TOGETHER = 6  # rounds within which all are at one rate again
osdp = ""
faults = []
runs = 0


def asks(holds, what):
    if not holds:
        faults.append(what)


def opened_line(count, settings=(), names=(5, 6, 7), keep=None):
    """A line whose sessions are open."""
    line = Line(osdp, settings)
    for serial, name in enumerate(names[:count], 1):
        line.add_reader(name, serial=serial)
    line.add_panel(list(names[:count]), keep=keep)
    asks(line.run(line.all_open, 30), f"{count} readers, {settings}: the sessions don't open")
    return line


def is_settled(line):
    """All sessions are open, and no COMSET is on its way."""
    return line.all_open() and not any(device.orders for device in line.panel.devices)


def order_each(line, what, timer=[0]):
    """Each device takes an order, once."""
    for device in line.panel.devices:
        timer[0] += 1
        text = f"OUT 0:2:{timer[0]}"
        line.order(f"{device.address} {text}")
        asks(line.run(lambda: f"settled {device.address} {text} = ACK" in line.told, 10), f"{what}: {device.address} takes no order: {line.told[-4:]}")
        took = sum(told.count(f"taken {text}") for told in line.acted.values())
        asks(took == 1, f"{what}: an order was taken {took} times")


def loses_once(line, count, settings, what, loses, addresses=(5, 6, 7), before=()):
    """A COMSET of the rate is given, after other orders, and what `loses` says is lost until all orders have their ends. Then all are found."""
    global runs
    runs += 1
    line.loses = loses
    for order in (*before, "5 rate 19200"):
        line.order(order)
    what = f"{count} readers, {settings}, {what}"
    asks(line.run(lambda: not any(device.orders for device in line.panel.devices), 60), f"{what}: an order has no end")
    line.loses = lambda way, burst: False
    began, told, reached = line.panel.rounds.number, len(line.told), set()

    def looks():
        reached.update(device.name for device in line.panel.devices
                       if line.panel.rounds.is_reached(device) or any(each.startswith(f"online {device.address} ") for each in line.told[told:]))
        return len(reached) == count

    asks(line.run(looks, 60), f"{what}: never reached: {set(addresses[:count]) - reached}")
    asks(line.panel.rounds.number - began <= 2, f"{what}: reached after {line.panel.rounds.number - began} rounds")
    asks(line.run(lambda: is_settled(line), 60), f"{what}: not all are reached at once: {line.told[-8:]}")
    asks(line.panel.rounds.number - began <= TOGETHER, f"{what}: together after {line.panel.rounds.number - began} rounds")
    rates = {reader.port.rate for reader in line.readers.values()}
    asks(rates == {line.panel.port.rate}, f"{what}: the readers are at {rates}, the port at {line.panel.port.rate}")
    order_each(line, what)
    line.close()


def lost_answers():
    """Answers are lost, by the set of readers, one by one, and in rows."""
    for count, settings in itertools.product((1, 2, 3), SETTINGS):
        sets = [group for size in range(1, count + 1) for group in itertools.combinations((5, 6, 7)[:count], size)]
        for group in sets:
            for lost in (COM, COMSET):
                loses_once(opened_line(count, settings), count, settings, f"{lost:02X} of {group} lost",
                           lambda way, burst, group=group, lost=lost: burst[5] == lost and burst[1] & 0x7F in group)
            loses_once(opened_line(count, settings), count, settings, f"COM of {group} lost, COMSET of the others",
                       lambda way, burst, group=group: burst[5] == (COM if burst[1] & 0x7F in group else COMSET))
        for at, length in itertools.product(range(2 * count), (1, 3) if settings in SETTINGS[:3] else ()):
            seen = itertools.count()
            loses_once(opened_line(count, settings), count, settings, f"answers {at} to {at + length - 1} lost",
                       lambda way, burst, seen=seen, at=at, length=length: way == "in" and at <= next(seen) < at + length)


def after_other_orders():
    """The answers to the COMSETs are lost, and other orders are settled while the COMSETs wait."""
    for count, settings in itertools.product((1, 2, 3), SETTINGS[:2]):
        loses_once(opened_line(count, settings), count, settings, "COM lost after other orders", lambda way, burst: burst[5] == COM,
                   before=[f"{address} on" for address in (5, 6, 7)[:count]])


def lost_at_random(seeds=30):
    """Of all bursts a third is lost while the COMSETs go out."""
    for seed in range(seeds):
        count, settings, chance = 1 + seed % 3, SETTINGS[seed % len(SETTINGS)], random.Random(seed)
        loses_once(opened_line(count, settings), count, settings, f"seed {seed}", lambda way, burst, chance=chance: chance.random() < 0.35)


def new_addresses():
    """A COMSET of address and rate at once, with all answers lost."""
    line = opened_line(2)
    line.loses = lambda way, burst: burst[5] == COM
    line.order("5 move 9 19200")
    line.run(lambda: sum(told.startswith("lost") for told in line.told) == 2, 20)
    line.loses = lambda way, burst: False
    asks(line.run(line.all_open, 20), "addresses: not found again")
    asks([str(device.place) for device in line.panel.devices] == ["9 19200", "6 19200"], "addresses: another place")
    order_each(line, "addresses")
    line.close()
    line = opened_line(2)  # an address alone: while it is in doubt the device is tried at both, and gets no order by either
    line.loses = lambda way, burst: burst[1] & 0x7F in (5, 9) and way == "in"
    line.order("5 move 9")
    line.run(lambda: any(told.startswith("lost 5") for told in line.told), 20)
    for word, why in (("9", "may be at 9"), ("6 move 5", "5")):
        line.order(word if " " in word else f"{word} open")
        asks("not taken" in line.told[-1] and why in line.told[-1], f"address: an order in doubt is answered {line.told[-1]}")
    line.loses = lambda way, burst: False
    asks(line.run(line.all_open, 20) and line.panel.devices[0].address == 9, "address: not found at 9")
    asks(not any(told.startswith("lost 6") for told in line.told), "address: the other device was disturbed")
    line.close()


def moves_after_orders():
    """A COMSET right after orders goes out after these, and after a POLL. Where the session is lost before, it is taken back, and the place stays."""
    line, sent = opened_line(1), []
    line.loses = lambda way, burst: way == "out" and sent.append(burst[5])
    for order in ("5 on", "5 off", "5 move 9", "5 on"):
        line.order(order)
    asks("not taken" in line.told[-1], f"moves: an order while a COMSET waits is answered {line.told[-1]}")
    asks(line.run(lambda: line.all_open() and line.panel.devices[0].address == 9, 20), "moves: not at 9")
    at = sent.index(COMSET) if COMSET in sent else 0
    asks(at > 1 and sent[at - 1] == POLL and sent[:at].count(OUT) == 2, f"moves: sent were {[f'{code:02X}' for code in sent[:at + 1]]}")
    order_each(line, "moves")
    line.close()
    line = opened_line(1)
    for order in ("5 on", "5 move 9"):
        line.order(order)
    line.loses = lambda way, burst: True
    asks(line.run(lambda: any(told.startswith("lost 5") for told in line.told), 20), "moves: not lost")
    asks(any(told.startswith("withdrawn 5 COMSET 9") for told in line.told), f"moves: told are {line.told[-4:]}")
    asks([str(place) for place in line.panel.devices[0].places] == ["5 9600"], "moves: two places of a COMSET that was taken back")
    line.loses = lambda way, burst: False
    asks(line.run(line.all_open, 20), "moves: not found again")
    order_each(line, "moves, taken back")
    line.close()


def refusing():
    """One refuses the rate: the others come back to it, and all take orders."""
    for count, refuser in ((2, 6), (2, 5), (3, 6), (3, 7)):
        line = opened_line(count)
        for reader in list(line.readers.values()):
            write = reader.port.write

            def refuses(burst, reader=reader, write=write):
                if burst[1] & 0x7F == refuser and burst[5] == COM:
                    burst = nak_of(burst)
                write(burst)

            if any(name.startswith(f"{refuser}.") and each is reader for name, each in line.readers.items()):
                reader.port.write = refuses
                reader.port.set_rate = lambda rate: False
        line.order("5 rate 19200")
        line.run(lambda: any(told.startswith(f"settled {refuser} COMSET") for told in line.told), 30)
        asks(line.run(lambda: is_settled(line), 60), f"refusing {refuser} of {count}: {line.told[-6:]}")
        asks(line.panel.port.rate == 9600 and line.panel.rounds.number <= 2 + TOGETHER, f"refusing {refuser} of {count}: at {line.panel.port.rate}")
        order_each(line, f"refusing {refuser} of {count}")
        line.close()


def nak_of(burst):
    """A NAK in the place of a reply with a CRC."""
    body = bytes([0x53, burst[1], 9, 0, burst[4], NAK, 9])
    crc = 0x1D0F
    for byte in body:
        crc ^= byte << 8
        for _ in range(8):
            crc = (crc << 1) ^ 0x1021 if crc & 0x8000 else crc << 1
            crc &= 0xFFFF
    return body + crc.to_bytes(2, "little")


def gone():
    """A device that is gone as its COMSET goes out: the others are served, and left for short rounds alone; it is found when it is back."""
    line = opened_line(3)
    line.loses = lambda way, burst: burst[1] & 0x7F == 6
    line.order("5 rate 19200")
    line.run(lambda: False, 200)
    asks([line.panel.rounds.is_reached(device) for device in line.panel.devices] == [True, False, True], "gone: the others aren't served")
    began, from_now = line.panel.rounds.number, line.now
    line.run(lambda: False, 120)
    asks(line.panel.rounds.number - began <= 2 * 120 / 30 + 2, f"gone: {line.panel.rounds.number - began} rounds in {line.now - from_now} ms")
    line.loses = lambda way, burst: False
    asks(line.run(line.all_open, 40), f"gone: it isn't found when it is back: {line.told[-6:]}")
    order_each(line, "gone")
    line.close()


def eight():
    """Eight devices whose answers to the COMSET are lost: each is reached within two rounds, which take no longer than the manual page says."""
    names = list(range(5, 13))
    line = Line(osdp)
    for serial, name in enumerate(names, 1):
        line.add_reader(name, serial=serial)
    line.add_panel(names)
    asks(line.run(line.all_open, 60), "eight: the sessions don't open")
    line.loses = lambda way, burst: burst[5] == COM and burst[1] & 0x7F != 9  # one device has moved: the others are in doubt
    line.order("5 rate 19200")
    asks(line.run(lambda: not any(device.orders for device in line.panel.devices), 60), "eight: an order has no end")
    line.loses = lambda way, burst: burst[5] != POLL and burst[1] & 0x7F == 12  # and one is gone for a while
    began, moments = line.panel.rounds.number, {}

    def looks():
        moments.setdefault(line.panel.rounds.number, line.now)
        return line.panel.rounds.number >= began + 5

    line.run(looks, 120)
    spans = [later - sooner for sooner, later in zip(list(moments.values())[1:], list(moments.values())[2:])]
    asks(spans and max(spans) <= 400 + 8 * 3 * 200 + 500, f"eight: rounds take {spans} ms")
    line.loses = lambda way, burst: False
    asks(line.run(lambda: is_settled(line), 120), f"eight: not all are reached: {line.told[-5:]}")
    asks({reader.port.rate for reader in line.readers.values()} == {line.panel.port.rate}, "eight: they are at several rates")
    order_each(line, "eight")
    line.close()


def swapped_places(folder):
    """The wrong door: two devices change addresses, the panel is killed and started with the same words, and an order goes to the right one."""
    keep = Path(folder) / "swapped"
    line = opened_line(2, keep=keep)
    for order, found in (("5 move 7", 7), ("6 move 5", 5), ("7 move 8", 8)):
        line.order(order)
        asks(line.run(lambda: line.all_open() and any(device.address == found for device in line.panel.devices), 10), f"swapped: {order} isn't done")
    line.stop_panel()
    line.add_panel([5, 6], keep=keep)
    asks(line.run(line.all_open, 20), "swapped: the sessions don't open after the restart")
    asks([device.address for device in line.panel.devices] == [8, 5], "swapped: the panel looks elsewhere")
    line.order("5 OUT 0:5:30")
    line.run(lambda: "settled 5 OUT 0:5:30 = ACK" in line.told, 5)
    asks("taken OUT 0:5:30" in line.acted["6.1"] and "taken OUT 0:5:30" not in line.acted["5.0"], "swapped: the wrong door opens")
    line.stop_panel()
    for names in ([8, 6], [5], [5, 6, 8]):
        try:
            line.add_panel(names, keep=keep)
            asks(names == [5], f"swapped: a panel starts with {names}")
            line.stop_panel()
        except Exception as error:
            asks("may be the device that began as" in str(error), f"swapped: {names}: {error!r}")
    line.close()


def killed_in_doubt(folder):
    """The panel is killed while a COMSET has no answer: its file has both places, and the device is found at either."""
    for at, loses in enumerate((COM, COMSET)):
        keep = Path(folder) / f"doubt{at}"
        line = opened_line(2, keep=keep)
        line.loses = lambda way, burst, loses=loses: burst[5] == loses
        line.order("5 move 9 19200")
        line.run(lambda: any(burst[5] == COMSET for _, burst in line.bursts), 5)
        asks("5 at 5 9600 or 9 19200" in stores.text(keep), f"doubt: as the COMSET goes out the file has {stores.text(keep)!r}")
        line.run(lambda: False, 0.05)
        line.stop_panel()
        line.loses = lambda way, burst: False
        line.add_panel([5, 6], keep=keep)
        asks(line.run(line.all_open, 60), f"doubt: not found: {line.told[-6:]}")
        order_each(line, "doubt")
        asks(" or " not in stores.text(keep), "doubt: the file is still in doubt")
        line.close()


def numbers_go_on(folder):
    """The panel is killed with an order on the wire: its number is told in doubt at the next start, and the numbers go on. The store has each order by its number, with its last moment and its end."""
    keep = Path(folder) / "numbers"
    line = opened_line(1, keep=keep)
    line.order("5 OUT 0:2:1")
    asks(line.run(lambda: "order 1 settled 5 OUT 0:2:1 = ACK" in line.numbered, 5), f"numbers: the first order isn't settled: {line.numbered[-3:]}")
    line.loses = lambda way, burst: burst[5] == OUT
    line.order("5 OUT 0:2:2")
    asks(line.run(lambda: any(burst[5] == OUT and burst[8] == 2 for _, burst in line.bursts), 5), "numbers: the second order doesn't go out")
    asks(stores.rows(keep, "SELECT number, state FROM orders") == [(1, "settled"), (2, "open")], f"numbers: the store has {stores.rows(keep, 'SELECT number, state FROM orders')}")
    line.stop_panel()
    line.loses = lambda way, burst: False
    line.add_panel([5], keep=keep)
    asks("order 2 in doubt 5 OUT 0:2:2: the panel ended before it knew what became of it; it was done or not" in line.numbered, f"numbers: not told: {line.numbered[-3:]}")
    asks(line.run(line.all_open, 20), "numbers: the session doesn't open")
    line.panel.lasts = None
    line.order("5 OUT 0:2:3")
    line.order("5 OUT x")
    line.order("5 OUT 300:2:0")
    asks(line.run(lambda: "order 3 settled 5 OUT 0:2:3 = ACK" in line.numbered, 5), f"numbers: they don't go on: {line.numbered[-3:]}")
    line.panel.lasts = 300
    line.loses = lambda way, burst: burst[5] == OUT
    line.order("5 OUT 0:2:4")
    line.order("5 OUT 0:2:5")
    asks(line.run(lambda: any("withheld OUT 0:2:4" in told for told in line.told) and any(told.startswith("expired 5 OUT 0:2:5") for told in line.told), 10), f"numbers: none is too old: {line.told[-4:]}")
    found = stores.rows(keep, "SELECT number, text, state, answer, until = 9223372036854775807, told FROM orders ORDER BY number")
    asks(found == [(1, "OUT 0:2:1", "settled", "ACK", 0, 1), (2, "OUT 0:2:2", "doubt", None, 0, 1), (3, "OUT 0:2:3", "settled", "ACK", 1, 1), (4, "OUT 0:2:4", "doubt", None, 0, 1),
                   (5, "OUT 0:2:5", "back", "expired", 0, 1)], f"numbers: the store has {found}")
    line.close()


def another_device(folder):
    """Another device stands where one was: it is told, and gets no order until it is accepted. The file knows it after a restart too."""
    keep = Path(folder) / "another"
    line = opened_line(1, keep=keep)
    asks("is 000000 0 1" in stores.text(keep), f"another: the file has {stores.text(keep)!r}")
    line.stop_reader("5.0")
    line.run(lambda: any(told.startswith("lost 5") for told in line.told), 10)
    name = line.add_reader(5, serial=99)
    for _ in range(2):
        asks(line.run(line.all_open, 10), "another: no session")
        line.order("5 open")
        line.run(lambda: False, 1)
        asks("another device stands at 5" in line.told[-1] and not any("OUT" in told for told in line.acted[name]), f"another: it got an order: {line.told[-2:]}")
        line.stop_panel()
        line.add_panel([5], keep=keep)
    asks(line.run(line.all_open, 10), "another: no session")
    line.order("5 accept")
    order_each(line, "another")
    asks("is 000000 0 99" in stores.text(keep), "another: it isn't kept")
    line.close()


def other_at_one_place(folder):
    """A device may be at two places, and another one stands at one of them: it is found at the other, also at another rate. Where it is at neither, the other one is
    told once, gets no order, and is accepted by its address."""
    for at, (first, second) in enumerate((("7 9600", "5 9600"), ("5 9600", "7 19200"), ("7 19200", "5 9600"))):
        keep = Path(folder) / f"one_place{at}"
        stores.write(keep, f"5 at {first} or {second} is 000000 0 1", "6 at 6 9600 is 000000 0 2")
        line = Line(osdp)
        other, here = (tuple(map(int, place.split())) for place in (first, second))
        stranger = line.add_reader(other[0], rate=other[1], serial=99)
        line.add_reader(here[0], rate=here[1], serial=1)
        line.add_reader(6, serial=2)
        line.add_panel([5, 6], keep=keep)
        what = f"one place, {first} and {second}"
        asks(line.run(lambda: line.all_open() and not line.panel.devices[0].other and len({device.place.rate for device in line.panel.devices}) == 1, 120), f"{what}: not found: {line.told[-8:]}")
        asks(" or " not in stores.text(keep) and "is 000000 0 1\n" in stores.text(keep), f"{what}: the file has {stores.text(keep)!r}")
        order_each(line, what)
        asks(not any("OUT" in told for told in line.acted[stranger]), f"{what}: another device got an order")
        line.close()
    keep = Path(folder) / "neither"
    stores.write(keep, "5 at 5 9600 or 7 9600 is 000000 0 1")
    line = Line(osdp)
    line.add_reader(7, serial=99)
    line.add_panel([5], keep=keep)
    asks(line.run(lambda: line.told.count("lost 7 left") > 2, 60), f"neither: not tried again: {line.told[-8:]}")
    asks(sum(told.startswith("another device at 7") for told in line.told) == 1, "neither: the other one isn't told once")
    line.run(lambda: False, 1)
    line.order("5 accept")
    line.order("7 accept")
    asks("not taken 5 accept" in line.told[-2] and line.told[-1] == "accepted 7", f"neither: the words are answered {line.told[-2:]}")
    asks(line.run(lambda: line.all_open() and not line.panel.devices[0].is_left, 60), f"neither: its session doesn't open: {line.told[-8:]}")
    order_each(line, "neither")
    asks(stores.text(keep) == "5 at 7 9600 is 000000 0 99\n", f"neither: the file has {stores.text(keep)!r}")
    line.close()


class Told:
    """A program that tells what it was given, once, at a tick."""

    def __init__(self, last, *told):
        self.last, self.told = last, list(told)

    def call(self, line):
        told, self.told = (self.told, []) if line == "tick" else ([], self.told)
        return [*told, self.last]


def new_lines():
    """Lines that a later `osdp` may tell are printed, with the address of the device where they name it. A card that may have been told before is a card."""
    said = []
    line = Line(osdp)
    panel = Panel(Port(line, 9600), Told("due none", "opened 1 PDID 000000 0 0 1 0 0 0", "maybe-again 1 RAW 0 1 26 88889100", "offline 1", "new 1 words", "strange", "refused B9"),
                  new_devices([5], 9600, None), line.clock, said.append)
    panel.turn(b"", [])
    asks(said == ["online 5 maker 000000 model 0 version 0 serial 1 firmware 0.0.0", "maybe-again 5 RAW 0 1 26 88889100 bits 10001000100010001001000100 facility 17 number 4386", "offline 5", "new 5 words", "strange"],
         f"new lines: the panel prints {said}")
    asks(not panel.devices[0].orders, "new lines: an order was made")
    said.clear()
    told = ["offline", "online", "withdrawn KEYPAD 0 31", "in doubt KEYPAD 0 31", "strange 1 2"]
    Reader(Port(line, 9600), lambda address: Told("waiting 0", *told), 5, line.clock, said.append).turn(b"", [])
    means = ["offline: no panel has asked for 8 seconds", "online: a panel asks", "withdrawn KEYPAD 0 31: too old while no panel asked; no panel will get it",
             "in doubt KEYPAD 0 31: too old while no panel asked; the panel may have got it or not", "strange 1 2"]
    asks(said == means, f"new lines: the reader prints {said}")


def bad_files(folder):
    """A file that is no store is refused, by its name."""
    for at, text in enumerate(("5\n", "5 at 5 9600\n", "nonsense" * 4096)):
        path = Path(folder) / f"bad{at}"
        path.write_text(text)
        try:
            Line(osdp).add_panel([5], keep=path)
            asks(False, f"a file with {text[:9]!r} is taken")
        except Exception as error:
            asks(f"{path} is no store of osdp. Bring back a copy of it" in str(error), f"a file with {text[:9]!r}: {error!r}")


def main(path):
    global osdp
    osdp = path
    begun = time.monotonic()
    lost_answers()
    lost_at_random()
    after_other_orders()
    new_addresses()
    moves_after_orders()
    refusing()
    gone()
    eight()
    new_lines()
    with tempfile.TemporaryDirectory() as folder:
        swapped_places(folder)
        killed_in_doubt(folder)
        numbers_go_on(folder)
        another_device(folder)
        other_at_one_place(folder)
        bad_files(folder)
    print(f"port places: {runs} COMSETs, {len(faults)} faults in {time.monotonic() - begun:.1f} s", *faults[:40], sep="\n")
    return 1 if faults else 0


if __name__ == "__main__":
    sys.exit(main(*sys.argv[1:]))
