"""The parts of a line's service alone: what is said of a wrong configuration, by line and word; what is no order; which time an order has; what goes out. Prints each fault."""
import json
import subprocess
import sys
import tempfile
import time
from pathlib import Path

TOP = Path(__file__).resolve().parent.parent
sys.path.insert(0, str(TOP / "port"))
sys.dont_write_bytecode = True

from osdp_port.rounds import Place  # noqa: E402
from osdp_port.serve import ledger, messages, pulses, settings  # noqa: E402
from osdp_port.serve.messages import Rejected  # noqa: E402
from osdp_port.serve.outbox import Outbox  # noqa: E402
from osdp_port.serve.topics import Topics  # noqa: E402
from osdp_port.serve.systemd import Manager  # noqa: E402

faults = []
RIGHT = """version = 1
line = "north"
port = "/dev/ttyUSB0"
store = "/tmp/store"
[devices]
door-1 = 5
"""
# a configuration in the place of the right one, and what is said of it
WRONG = (
    ("version = 2\n" + RIGHT[12:], "line 1, version: 2 isn't 1"),
    (RIGHT.replace("north", "north/door"), "line 2, line: north/door isn't 1 to 32 letters"),
    (RIGHT.replace("port =", "prot ="), "line 3, prot: no such word"),
    (RIGHT.replace("port = \"/dev/ttyUSB0\"\n", ""), "line 1, file: port is missing"),
    (RIGHT.replace("= 5", "= 127"), "line 6, door-1: 127 is no address"),
    (RIGHT.replace("= 5", "= true"), "line 6, door-1: True is no address"),
    (RIGHT + "door-2 = 5\n", "line 7, door-2: door-1 is at 5 already"),
    (RIGHT + "\"door+\" = 6\n", "line 7, door+: a name has"),
    (RIGHT.replace("door-1 = 5", ""), "line 5, devices: no device"),
    (RIGHT + "".join(f"more-{at} = {at + 10}\n" for at in range(16)), "line 22, more-15: a line has at most 16 devices"),
    (RIGHT + "[broker]\nhost = \"broker.example\"\n", "line 8, host: a broker on another computer needs TLS"),
    (RIGHT + "[broker]\nport = 70000\n", "line 8, port: 70000 isn't a number from 1 to 65535"),
    (RIGHT + "[broker]\ncertificate = \"a\"\n", "line 8, certificate: certificate and key go together"),
    (RIGHT + "[broker]\nca = \"a\"\n", "line 8, ca: say a certificate and key, or user and password_file"),
    (RIGHT + "[broker]\npassword_file = \"a\"\n", "line 8, password_file: it goes with user"),
    (RIGHT + "[orders]\nlongest = 500\nkeys = 400\n", "line 9, keys: keys are to stay for longer"),
    (RIGHT + "[events]\ncards = \"some\"\n", "line 8, cards: some isn't whole or hashed"),
    (RIGHT + "[events]\ncards = \"hashed\"\n", "line 8, cards: hashed needs card_key_file"),
    (RIGHT + "[settings]\ncheck = \"a b\"\n", "line 8, check: a b is no word of osdp panel"),
    (RIGHT + "[events]\noldest = 1\noldest = 2\n", "Cannot overwrite a value (at line 9, column 11)"),
    (RIGHT.replace("north", "\\u001b[2Jnorth"), "line 2, line: \\x1b[2Jnorth isn't"),
)
PLACE = Place(5, 9600)
# what is no order, and what is said of it
NO_ORDERS = (
    (b"", "it is no JSON"),
    (b"\xff", "it is no JSON"),
    (b"[" * 3000, "it is no JSON"),
    (b"[]", "it is no object"),
    (b" " * 5000, "it has more than 4096 bytes"),
    (b"{}", "version: 1"),
    (b'{"version": true, "key": "a", "command": "open"}', "version: 1"),
    (b'{"version": 1, "command": "open"}', "key: 1 to 64"),
    (b'{"version": 1, "key": "a b", "command": "open"}', "key: 1 to 64"),
    (b'{"version": 1, "key": "%s", "command": "open"}' % (b"a" * 65), "key: 1 to 64"),
    (b'{"version": 1, "key": "a"}', "command: words of an order"),
    (b'{"version": 1, "key": "a", "command": "open\\n"}', "command: words of an order"),
    (b'{"version": 1, "key": "a", "command": ["open"]}', "command: words of an order"),
    (b'{"version": 1, "key": "a", "command": "move 7"}', "command move: a line is set up at the line"),
    (b'{"version": 1, "key": "a", "command": "COMSET 7 9600"}', "command COMSET: a line is set up at the line"),
    (b'{"version": 1, "key": "a", "command": "accept"}', "command accept: a line is set up at the line"),
    (b'{"version": 1, "key": "a", "command": "fly"}', "command: word 2, fly"),
    (b'{"version": 1, "key": "a", "command": "open", "pulse": "0:1"}', "pulse and within go together"),
    (b'{"version": 1, "key": "a", "command": "open", "pulse": "0:1", "within": 1.5}', "pulse and within go together"),
    (b'{"version": 1, "key": "a", "command": "open", "within": 5}', "pulse and within go together"),
)


def asks(holds, what):
    if not holds:
        faults.append(what)


def told(does, *given):
    """Why something is rejected; nothing where it isn't."""
    try:
        does(*given)
    except Rejected as rejected:
        return rejected.why
    return ""


def judge_settings(folder):
    path = folder / "line.toml"
    for text, wanted in ((RIGHT, None), *WRONG):
        path.write_text(text)
        said = settings.read(str(path))[1]
        asks(not said if wanted is None else len(said) == 1 + ("prot" in text) and wanted in said[0] and said[0].isprintable(), f"of {text!r} it says {said}, and not {wanted}")
    path.write_text(RIGHT + "[broker]\nport = 1884\n[settings]\nreply-wait = 400\n")
    given = settings.read(str(path))[0]
    asks((given.line, given.rate, given.broker_port, given.orders_longest, given.devices, given.panel) == ("north", 9600, 1884, 300, {"door-1": 5}, ["reply-wait", "400"]), f"it reads {given}")
    path.write_text((TOP / "release/service/line.toml").read_text())
    asks(settings.read(str(path))[1] == [], f"the example is wrong: {settings.read(str(path))[1]}")


def judge_orders():
    for payload, wanted in NO_ORDERS:
        said = told(messages.order_of, payload, PLACE)
        asks(said.startswith(wanted), f"of {payload[:80]} it says {said}, and not {wanted}")
    for command, text in (("open 3s", "OUT 0:5:30"), ("  off   output 2", "OUT 2:1:0"), ("led green", "LED 0:0:0:0:0:0:0:0:1:1:0:2:0"), ("OUT 1:5:7", "OUT 1:5:7")):
        found = messages.order_of(json.dumps({"version": 1, "key": "K-1", "command": command, "more": []}).encode(), PLACE)
        asks(found == ("K-1", text, None), f"{command} is {found}")
    wanted = messages.wanted_of(b'{"version": 1, "states": ["led red", "off output 1"]}', PLACE)
    asks(wanted == ["LED 0:0:0:0:0:0:0:0:1:1:0:1:0", "OUT 1:1:0"] and messages.wanted_of(b"", PLACE) == [], f"states wanted: {wanted}")
    for state in ("open 3s", "led red 3s", "beep", "OUT 0:5:9"):
        asks(told(messages.wanted_of, json.dumps({"version": 1, "states": [state]}).encode(), PLACE).startswith("state "), f"{state} is a state")


def judge_asked():
    asks(messages.asked_of(b'{"version": 1, "key": "a"}').key == "a", "a key isn't asked for")
    found = messages.asked_of(b'{"version": 1, "events": {"from": 3, "to": 5}}')
    asks((found.key, found.first, found.last) == (None, 3, 5), f"events asked for: {found}")
    for events in ({"from": 5, "to": 3}, {"from": 0, "to": 3}, {"from": 1, "to": 5000}, {"from": 1}, [], {"from": "1", "to": 2}, {"from": True, "to": 2}):
        asks(told(messages.asked_of, json.dumps({"version": 1, "events": events}).encode()), f"{events} can be asked for")


def judge_owner(folder):
    """A copy of a store on another computer is another owner; at the same one it is the same."""
    for name in ("one", "two"):
        (folder / name).write_text(f"{name}\n")
    found = [ledger.owner_of("store", str(folder / name)) for name in ("one", "two", "none", "one")] + [ledger.owner_of("other", str(folder / "one"))]
    asks(found[0] == found[3] and len(set(found)) == 4 and all(len(each) == 16 for each in found), f"owners: {found}")


def judge_times():
    """An order that names a pulse is over so many seconds after that, by the clock of the service."""
    now, pulse = 5000, pulses.told()
    time.sleep(0.2)
    until = pulses.until((pulse, 3), "K", now)
    asks(7000 < until <= 7800, f"an order of 3 s that was made 0.2 s ago goes until {until - now} ms from now")
    boot, _, at = pulse.rpartition(":")
    asks(pulses.until((f"{boot}:{int(at) + 60000}", 3), "K", now) == now + 3000, "a pulse that is to come makes an order longer")
    asks("another start" in told(pulses.until, (f"0{boot[1:]}x:{at}", 3), "K", now), "a pulse of another start is taken")
    asks(pulses.until(None, "K", now) is None, "an order without a pulse has a time of its own")


def judge_events():
    asks(messages.event_fields("RAW 0 1 26 08A24880", None) == {"kind": "card", "reader": 0, "format": 1, "bits": 26, "card": "08A24880"}, "a card")
    said = subprocess.run(["openssl", "dgst", "-sha256", "-hmac", "secret"], input=b"26:08A24880", capture_output=True, check=True).stdout.split()[-1].decode()
    found = messages.event_fields("RAW 0 1 26 08A24880", b"secret")
    asks(found == {"kind": "card", "reader": 0, "format": 1, "bits": 26, "hash": said}, f"a hashed card: {found}")
    asks(messages.event_fields("KEYPAD 0 3132", None) == {"kind": "keys", "reader": 0, "keys": "3132"}, "keys")
    asks(messages.event_fields("KEYPAD 0 3132", b"secret") == {"kind": "keys", "reader": 0, "count": 2}, "keys are sent though cards are hashed")
    asks(messages.event_fields("FMT 0 0 313233", None) == {"kind": "card", "reader": 0, "direction": 0, "card": "313233"}, "a card of characters")
    asks(messages.event_fields("LSTATR 1 0", None) == {"kind": "state", "text": "LSTATR 1 0"}, "a state")


def judge_topics():
    topics = Topics("osdp/site", "north", ("door-1",))
    for topic, wanted in (("osdp/site/north/door-1/order", ("door-1", "order")), ("osdp/site/north/door-2/order", (None, None)), ("osdp/site/north/door-1/outcome", (None, None)),
                          ("osdp/site/northdoor-1/order", (None, None)), ("osdp/site/north/door-1/x/order", (None, None)), ("osdp/site/north", (None, None))):
        asks(topics.parted(topic) == wanted, f"{topic} is {topics.parted(topic)}")


def judge_outbox():
    """What isn't confirmed goes out again at the next connection, before the others, in its order; nothing is added twice."""
    sent = []
    box = Outbox(lambda item, confirmed: sent.append((item, confirmed)))
    for item in "abca":
        box.adds(item)
    box.goes_out()
    sent[1][1]()
    box.adds("d")
    box.again()
    box.goes_out()
    asks([item for item, _ in sent] == list("abcacd"), f"the outbox sends {[item for item, _ in sent]}")
    for at in range(30):
        box.adds(at)
    box.goes_out()
    asks(len(box.sent) == 10, f"{len(box.sent)} are on their way")


def judge_manager(folder):
    import socket
    path = str(folder / "notify")
    with socket.socket(socket.AF_UNIX, socket.SOCK_DGRAM) as heard:
        heard.bind(path)
        heard.settimeout(5)
        manager = Manager({"NOTIFY_SOCKET": path})
        manager.ready(), manager.turned(), manager.turned()
        asks([heard.recv(99), heard.recv(99)] == [b"READY=1", b"WATCHDOG=1"], "systemd is told something else")
        heard.settimeout(0.1)
        try:
            asks(False, f"the watchdog is fed twice in a second: {heard.recv(99)}")
        except TimeoutError:
            pass
    manager.tells("x"), Manager({}).ready()


if __name__ == "__main__":
    with tempfile.TemporaryDirectory() as work:
        judge_settings(Path(work)), judge_manager(Path(work)), judge_owner(Path(work))
    judge_orders(), judge_asked(), judge_times(), judge_events(), judge_topics(), judge_outbox()
    print(f"parts of a service: {len(faults)} faults", *faults, sep="\n")
    sys.exit(1 if faults else 0)
