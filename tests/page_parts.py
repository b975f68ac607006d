"""The parts of the page, each alone: what becomes of an order, who has control, what a page may order, cards by their bits, and the file of the settings.

Prints each fault. The status is 1 where there is one."""
import re
import shutil
import subprocess
import sys
import tempfile
from pathlib import Path
from types import SimpleNamespace

sys.dont_write_bytecode = True
sys.path.insert(0, str(Path(__file__).resolve().parent.parent / "port"))
from osdp_port import turns  # noqa: E402
from osdp_port.console import Typed  # noqa: E402
from osdp_port.page import desk, pages  # noqa: E402
from osdp_port.page.commands import checked  # noqa: E402
from osdp_port.page.formats import card_of, formats_of, masked  # noqa: E402
from osdp_port.page.setup import Setup  # noqa: E402

from osdp_port.report_page import ROWS  # noqa: E402

TOP = Path(__file__).resolve().parent.parent
WEB = TOP / "port/osdp_port/page/web"
faults = []
OPEN_FOR_3_S = {"what": "output", "output": 0, "tenths": 30}


def asks(said, wanted, what):
    if said != wanted:
        faults.append(f"{what}: {said!r}, and not {wanted!r}")


def made(session="open"):
    """A desk of the device 5, and what it tells of orders."""
    told = []
    device = SimpleNamespace(address=5, session=session, orders=[])
    made = desk.Desk(SimpleNamespace(devices=[device]), lambda kind, **what: told.append((what["number"], what["state"], what["why"])))
    made.is_watched = False
    return made, device, told


def gives(at, number, address=5, order=None, since=300):
    at.gives(number, address, order or OPEN_FOR_3_S, since)


def taken(at, number, text="OUT 0:5:30"):
    """The panel takes the order of device 5 that it was handed, by a number of its own. What it was handed."""
    lines = at.lines()
    at.heard(f"order {number} waits 5 {text}")
    return lines


OPENS = Typed("5 OUT 0:5:30", 300)


def states(told, number):
    return [state for each, state, _ in told if each == number]


def ends_of_orders():
    """An order that the panel has gets the end that the panel tells."""
    for line, wanted in (("order 9 settled 5 OUT 0:5:30 = ACK", "answered"), ("order 9 settled 5 OUT 0:5:30 = OSTATR 01", "answered"), ("order 9 settled 5 OUT 0:5:30 = NAK 9", "refused"),
                         ("order 9 unread 5 code 50 OUT 0:5:30", "unread"), ("order 9 lost 5 no-reply OUT 0:5:30", "in doubt"), ("order 9 lost 5 no-reply withheld OUT 0:5:30: too old", "in doubt"),
                         ("order 9 withdrawn 5 OUT 0:5:30", "taken back"), ("order 9 expired 5 OUT 0:5:30: too old", "expired"), ("not taken 5 OUT 0:5:30: the port isn't there", "refused")):
        at, device, told = made()
        gives(at, 1)
        is_taken, is_sent = not line.startswith("not taken"), not line.startswith("not taken") and wanted != "expired"
        asks(taken(at, 9) if is_taken else at.lines(), [OPENS], "an order goes to the panel")
        if is_sent:
            at.sent(bytes.fromhex("53050E000568"))  # not a whole packet: it says nothing
            at.sent(bytes.fromhex("53050900056800051E"))
        for other in ("order 8 settled 5 OUT 0:5:30 = ACK", "not taken 5 OUT 0:5:30: another one") if is_taken else ():
            at.heard(other)
        asks(list(at.current), [5], "what is told of another order")
        at.heard(line)
        asks((states(told, 1)[0], states(told, 1)[-1], at.current), ("waiting", wanted, {}), f"an order, and {line}")
        asks("on the line" in states(told, 1), is_sent, f"an order on the line, and {line}")
        asks("too old to be sent again" in told[-1][2], "withheld" in line, f"why an order is in doubt, and {line}")


def waiting_orders():
    """One order of a device goes out at a time, with the moment at which it was given. One that waits is taken back, or is refused with a device that isn't online."""
    at, device, told = made()
    for number in (1, 2, 3, 4):
        gives(at, number, since=300 + number)
    asks((taken(at, 9), at.lines()), ([Typed("5 OUT 0:5:30", 301)], []), "of four orders one goes out")
    at.takes_back(3)
    at.lines()
    asks(states(told, 3), ["waiting", "taken back"], "an order that waits is taken back")
    at.takes_back(1)
    at.lines()
    asks(states(told, 1), ["waiting"], "an order that the panel has isn't taken back")
    at.heard("order 9 settled 5 OUT 0:5:30 = ACK")
    asks(taken(at, 10), [Typed("5 OUT 0:5:30", 302)], "then the next one goes out")
    at.heard("order 10 expired 5 OUT 0:5:30: it grew too old")
    asks((states(told, 2), taken(at, 11)), (["waiting", "expired"], [Typed("5 OUT 0:5:30", 304)]), "an order that has grown too old")
    gives(at, 5)
    at.lines()
    at.heard("order 11 lost 5 no-reply OUT 0:5:30")
    asks((states(told, 4)[-1], states(told, 5)[-1]), ("in doubt", "taken back"), "orders of a session that is lost")
    for session, address in (("closed", 5), ("begun", 5), ("open", 6)):
        at, device, told = made(session)
        gives(at, 1, address)
        asks((at.lines(), states(told, 1)), ([], ["refused"]), f"an order for {address}, whose session is {session}")


def the_end():
    """Nobody is there, or the panel ends: what waits is taken back, and what was on the line is in doubt."""
    for ends in (lambda at: (at.takes_back(), at.lines()), lambda at: at.over()):
        at, device, told = made()
        gives(at, 1)
        gives(at, 2)
        taken(at, 9)
        at.sent(bytes.fromhex("53050900056800051E"))
        ends(at)
        asks(states(told, 2)[-1], "taken back", "an order that waits at the end")
    asks(states(told, 1)[-1], "in doubt", "an order on the line at the end")
    gives(at, 3)
    at.over()
    asks(states(told, 3), ["refused"], "an order after the end")


def own_questions():
    """The page asks a device what it can and how it is, once it is open and no order waits, and tells nobody of that."""
    at, device, told = made()
    at.is_watched = True
    asked = []
    before = turns.moment()
    for number in range(7):
        lines = at.lines()
        asked += [line.text for line in lines]
        asks([before <= line.since <= turns.moment() for line in lines], [True] * len(lines), "when the page asks by itself")
        for line in lines:
            at.heard(f"order {number} waits {line.text}")
        at.heard(f"order {number} settled 5 X = ACK")
    asks((asked, told), (["5 CAP 0", "5 LSTAT", "5 ISTAT", "5 OSTAT", "5 RSTAT"], []), "what the page asks by itself")
    gives(at, 1)
    taken(at, 9)
    at.heard("order 9 settled 5 OUT 0:5:30 = ACK")
    asks([line.text for line in at.lines()], ["5 OSTAT"], "after an output was switched the device is asked for its outputs")


def texts_of_orders():
    """What a page may order, and which command it is. No output is on without a time."""
    rows = ((OPEN_FOR_3_S, "OUT 0:5:30"), ({"what": "output", "output": 1, "tenths": 65535}, "OUT 1:5:65535"), ({"what": "led", "led": 1, "colour": 2, "tenths": 0}, "LED 0:1:0:0:0:0:0:0:1:1:0:2:0"),
            ({"what": "led", "led": 0, "colour": 1, "tenths": 10}, "LED 0:0:2:1:0:1:0:10:0:0:0:0:0"), ({"what": "buzzer", "count": 3}, "BUZ 0 2 1 1 3"), ({"what": "text", "text": "HELLO"}, "TEXT 0 1 0 1 1 48454C4C4F"),
            ({"what": "ask", "of": "inputs"}, "ISTAT"))
    for order, wanted in rows:
        asks(desk.text_of(order), wanted, f"the text of {order}")
    command = {"do": "order", "address": 5}
    bad = [{"what": "output", "output": 0}, {"what": "output", "output": 0, "tenths": 0}, {"what": "output", "output": 0, "tenths": 65536}, {"what": "output", "output": True, "tenths": 1}, {"what": "output", "output": 0, "tenths": 1.5},
           {"what": "output", "output": "0", "tenths": 1}, {"what": "led", "led": 0, "colour": 8, "tenths": 0}, {"what": "text", "text": ""}, {"what": "text", "text": "x" * 33}, {"what": "text", "text": "a\n5 OUT 0:2:0"},
           {"what": "ask", "of": "OUT 0:2:0"}, {"what": "COMSET"}, {}, [], "OUT 0:2:0", None]
    others = [
        None, [], {}, {"do": "nobody"}, {"do": "gone"}, {"do": "listens"}, {"do": "panel", "addresses": [5, 5], "rate": 9600, "check": "crc", "wait": 200},
        {"do": "panel", "addresses": [], "rate": 9600, "check": "crc", "wait": 200}, {"do": "panel", "addresses": list(range(17)), "rate": 9600, "check": "crc", "wait": 200}, {"do": "panel", "addresses": [127], "rate": 9600, "check": "crc", "wait": 200},
        {"do": "panel", "addresses": [5], "rate": 9601, "check": "crc", "wait": 200}, {"do": "find", "rate": "9600"}, {"do": "find", "rate": True}, {"do": "set", "device": 0, "address": 127, "rate": 9600},
        {"do": "test", "of": "device", "address": 5, "rate": 9600, "check": "crc", "may": ["out"]}, {"do": "test", "of": "device", "address": 5, "rate": 9600, "check": "crc", "may": ["relay"]}, {"do": "test", "of": "script", "address": 5, "rate": 9600, "check": "crc", "may": []}, {"do": "trace", "on": 1},
        {"do": "demo", "what": "keys", "device": 0, "keys": "<script>"}, {"do": "find", "rate": []}
    ]
    commands = [{**command, "order": each} for each in bad] + others
    for each in commands:
        try:
            faults.append(f"a page may order {each}: {checked(each)}")
        except (desk.Bad, TypeError) as refused:
            asks(isinstance(refused, desk.Bad), True, f"how {each} is refused")
    trial = {"do": "test", "of": "device", "address": 5, "rate": 9600, "check": "crc", "may": ["silence", "out:0", "relay:0"]}
    asks(checked(trial), trial, "what a test may do")
    asks(checked({"do": "set", "device": 0, "address": 5, "rate": 9600, "path": "/etc"}), {"do": "set", "device": 0, "address": 5, "rate": 9600}, "a command has nothing else")


def control():
    """The first page has control. Another one gets it once it is given, or its page has been gone for ten seconds; and one that comes back has it again."""
    told, now = [], [100.0]
    pages.time = SimpleNamespace(monotonic=lambda: now[0])
    each = pages.Pages(told.append)
    first, second = each.comes("a"), each.comes("b")
    each.takes(second)
    asks((each.has_control(first), each.has_control(second)), (True, False), "who has control at first")
    each.gives(second)
    asks(each.has_control(first), True, "a page that watches gives nothing")
    each.goes(first)
    now[0] += 9.9
    each.takes(second)
    asks(each.has_control(second), False, "after 9.9 s")
    again = each.comes("a")
    now[0] += 60
    each.takes(second)
    asks((each.has_control(again), each.has_control(second)), (True, False), "the page came back")
    each.goes(again)
    now[0] += 10
    each.takes(second)
    asks(each.has_control(second), True, "after 10 s")
    each.gives(second)
    third = each.comes("c")
    asks(each.has_control(third), True, "control that was given goes to the next page that comes")
    asks((len([each.comes(str(at)) for at in range(6)]), each.comes("more")), (6, None), "as many pages as there may be")
    for page in list(each.each.values()):
        each.goes(page)
    now[0] += 9.9
    each.looks()
    asks(told, [], "nobody is there for 9.9 s")
    now[0] += 0.1
    each.looks()
    each.looks()
    asks(told, ["nobody"], "nobody is there for 10 s")
    each.comes("d")
    asks(told, ["nobody", "somebody"], "somebody is there again")


def cards():
    """Cards whose bits are worked out by hand: facility and number, and the parity bits at both ends."""
    # 26 bits: 17 is 00010001, 4386 is 0001000100100010; the first 12 have three ones, so the even parity is 1, and the last 12 have three, so the odd one is 0
    bits = "1" + "00010001" + "0001000100100010" + "0"
    asks(formats_of(bits), [{"format": "H10301", "facility": 17, "number": 4386}], "26 bits")
    asks(formats_of("0" + bits[1:]) + formats_of(bits[:-1] + "1") + formats_of(bits + "0"), [], "26 bits whose parity is wrong, and 27")
    # 34 bits: facility 1 and number 2 have one 1 each
    asks(formats_of("1" + f"{1:016b}" + f"{2:016b}" + "0"), [{"format": "H10306", "facility": 1, "number": 2}], "34 bits")
    # 37 bits, 35 of them the number 3: its two ones are the last two; the first 18 have none, the last 18 have two
    asks(formats_of("0" + f"{3:035b}" + "1"), [{"format": "H10304", "facility": 0, "number": 3}, {"format": "H10302", "facility": None, "number": 3}], "37 bits")
    card = card_of(f"RAW 0 1 26 {int(bits.ljust(32, '0'), 2):08X}".split())
    asks((card["bits"], card["count"], card["formats"][0]["number"]), (bits, 26, 4386), "a card of the line")
    asks("4386" in str(masked(card)) or bits in str(masked(card)) or card["digits"] in str(masked(card)), False, "a masked card tells nothing")
    asks(card_of(["KEYPAD", "0", "3132"])["digits"], "12", "keys")
    asks(card_of(["LSTATR", "0", "0"]), None, "no card")


def settings():
    """A row of each device that was set; a device that is set again has one row, and its place."""
    kept = Setup("/dev/ttyUSB0")
    was = {"address": 23, "rate": 38400, "check": "crc", "vendor": "53494D", "model": "1", "version": "2", "serial": "12345", "firmware": "1.2.3"}
    kept.adds(0, was, {**was, "address": 5, "rate": 9600})
    kept.names(0, "=cmd|' /C calc'!A0")
    kept.names(1, "nowhere")
    kept.adds(0, {**was, "address": 5, "rate": 9600}, {**was, "address": 7, "rate": 9600})
    rows = kept.file().splitlines()
    asks((len(rows), rows[1].split(",", 1)[1]), (2, "'=cmd|' /C calc'!A0,/dev/ttyUSB0,7,9600,crc,53494D,1,2,12345,1.2.3,5,9600"), "the file of the settings")


def the_package():
    """Without the page's own package it is said which one to install."""
    with tempfile.TemporaryDirectory() as folder:
        shutil.copytree(TOP / "port", Path(folder) / "port", ignore=shutil.ignore_patterns("page", "__pycache__"))
        done = subprocess.run([Path(folder) / "port/osdp-port", "--osdp", "/bin/true", "--demo", "page"], capture_output=True, text=True, check=False)
        asks((done.returncode, done.stderr), (127, "osdp-port: the page isn't there: call  sudo apt install ./osdp-page_*.deb  where the packages are\n"), "without the package")


def colours():
    """The timelines have the colours of those of `osdp-report`, and the texts of the page are in its table."""
    style = (WEB / "colours.css").read_text()
    for name, colour in ROWS:
        asks(re.search(rf"--{name.split()[0]}: (#[0-9a-f]+);", style)[1], colour, f"the colour of {name}")
    table = set(re.findall(r'"?([a-z][\w. :-]*)"?: "', (WEB / "texts.js").read_text()))
    used = set(re.findall(r'data-(?:text|label)="([^"]+)"', (WEB / "page.html").read_text()))
    used |= {each for file in WEB.glob("*.js") for each in re.findall(r'\btext\("([^"]+)"', file.read_text())}
    asks(sorted(used - table), [], "texts that the table hasn't")
    for file in WEB.glob("*.js"):
        asks(re.findall(r"innerHTML\s*=|insertAdjacentHTML|outerHTML\s*=|document\.write|\beval\b", file.read_text()), [], f"markup that {file.name} puts in")


def run():
    for part in (ends_of_orders, waiting_orders, the_end, own_questions, texts_of_orders, control, cards, settings, the_package, colours):
        part()
    for fault in faults:
        print(f"page_parts: {fault}")
    print(f"page_parts: {len(faults)} faults")
    return 1 if faults else 0


if __name__ == "__main__":
    sys.exit(run())
