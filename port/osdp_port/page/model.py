"""What the pages show, by what the process at the port tells. It is kept in parts, each with a number that grows as the part changes: so a page gets what is new to it."""
import re
import time
from collections import Counter, deque

from ..faults import shown
from ..report_lines import times_of
from ..reports import without_number
from .formats import card_of, masked
from .listener import Listener
from .setup import Setup

EVERYBODY = 127  # the address at which each device answers
LATELY = 30  # seconds for which a device is shown that isn't known, and was heard
ORDERS, CARDS, LINES = 60, 20, 200  # so many are kept
STATES = {"LSTATR": "local", "ISTATR": "inputs", "OSTATR": "outputs", "RSTATR": "readers"}
IDENTITY = ("maker", "model", "version", "serial", "firmware")  # what the panel says of a device that is online
WORDS = {"RAW": 5, "FMT": 4, "KEYPAD": 3}  # of an event: what stands after them is said for a person
FUNCTION = re.compile(r"(\d+):(\d+):(\d+)")
PARTS = ("line", "find", "devices", "orders", "cards", "told", "log", "test", "setup", "demo", "counts")


def without_cards(told):
    """What the monitor tells, without the digits of cards and keys in the packets that show it."""
    packets = [{**each, "text": f"{each['text'].split(' ')[0]} (digits not shown)"} if each["text"].split(" ")[0] in WORDS else each for each in told["packets"]]
    has_any = any(each["text"].split(" ")[0] in WORDS for each in told["packets"])
    return {**told, "packets": packets, **({"expected": None, "seen": None} if has_any else {})}


class Known:
    """What the panel and the search have told of a device."""

    def __init__(self, address):
        self.address, self.state, self.since, self.cause = address, None, None, None
        self.identity, self.caps, self.is_secure, self.other = None, None, False, None
        self.states = {}

    def identified(self, words):
        vendor, model, version, serial, *firmware = words
        self.identity = {"vendor": vendor, "model": model, "version": version, "serial": serial, "firmware": ".".join(firmware)}


class Model:
    """`settings` are those of the program: its port, its rate, whether it is a demo, what happens where no page is there."""

    def __init__(self, settings):
        self.settings = settings
        self.versions = Counter({part: 1 for part in PARTS})
        self.listener = Listener(settings["osdp"], self.changed)
        self.line = {"port": settings["port"], "rate": settings["rate"], "is_there": True, "doing": "watch", "since": time.time(), "demo": settings["demo"], "alone": settings["alone"], "panel": None,
                     "trace": None, "tracing": False, "traced": ""}
        self.search = {"asks": None, "found": [], "shared": [], "lines": [], "result": None, "other_panel": None}
        self.trial = {"rule": 0, "of": 0, "lines": [], "left_out": [], "status": None, "what": None}
        self.known, self.orders, self.cards, self.log = {}, {}, deque(maxlen=CARDS), deque(maxlen=LINES)
        self.setup, self.demo = Setup(settings["port"]), {0: deque(maxlen=6), 1: deque(maxlen=6)}
        self.ticks = 0

    def changed(self, part):
        self.versions[part] += 1

    def device(self, address):
        self.changed("devices")
        return self.known.setdefault(address, Known(address))

    # what is told

    def takes(self, fact):
        """A burst, which is a list, or what else has happened."""
        if isinstance(fact, list):
            self.listener.burst(*fact)
        else:
            getattr(self, "is_" + fact["kind"].replace(" ", "_"), lambda _: None)(fact)

    def is_left_out(self, fact):
        self.listener.counts["left_out"] += fact["count"]
        self.changed("counts")

    def is_port(self, fact):
        self.line.update(rate=fact["rate"], is_there=fact["is_there"])
        self.changed("line")

    def is_trace(self, fact):
        self.line.update(trace=fact["path"], tracing=fact["on"], traced=fact.get("text", ""))
        self.changed("line")

    def is_doing(self, fact):
        what = fact["what"]
        self.line.update(doing=what, since=fact["at"], panel=fact["command"] if what == "panel" else None)
        if what == "find":
            self.search = {"asks": None, "found": [], "shared": [], "lines": [], "result": None, "other_panel": None}
            self.changed("find")
        if what == "set":
            self.search.update(lines=[], result=None, other_panel=None)
            self.changed("find")
        if what == "test":
            self.trial = {"rule": 0, "of": 0, "lines": [], "left_out": [], "status": None, "what": fact["command"]}
            self.changed("test")
        if what == "panel":
            for address in fact["command"]["addresses"]:
                known = self.device(address)
                known.state, known.since, known.other = "sought", fact["at"], None
        self.changed("line")

    def is_done(self, fact):
        for known in self.known.values() if fact["what"] == "panel" else ():
            known.state, known.since = None, fact["at"]
            self.changed("devices")
        self.search["asks"] = None
        self.changed("find")

    def is_note(self, fact):
        self.adds_line(fact["at"], fact["text"], True)

    def adds_line(self, at, text, is_note=False):
        text = shown(text)[:400]
        self.log.append({"at": at, "text": text, "note": is_note})
        self.changed("log")
        if self.line["doing"] in ("find", "set"):
            self.search["lines"] = [*self.search["lines"], text][-30:]
            self.changed("find")
        elif self.line["doing"] == "test" and is_note:
            self.trial["lines"].append(f"# {text}")
            self.changed("test")

    # finding

    def is_asks(self, fact):
        self.search["asks"] = {name: fact[name] for name in ("rate", "check", "address")}
        self.changed("find")

    def is_found(self, fact):
        self.search["found"].append({name: fact[name] for name in fact if name not in ("kind", "at")})
        self.changed("find")
        known = self.device(fact["address"])
        known.identified([fact[name] for name in ("vendor", "model", "version", "serial")] + fact["firmware"].split("."))

    def is_shared(self, fact):
        self.search["shared"].append({"address": fact["address"], "rate": fact["rate"]})
        self.changed("find")

    def is_other_panel(self, fact):
        self.search["other_panel"] = fact["rate"]
        self.adds_line(fact["at"], f"another panel speaks on the line at rate {fact['rate']}: stop it first; nothing was sent")
        self.changed("find")

    def is_searched(self, fact):
        self.search["result"] = {name: fact[name] for name in ("found", "is_alone", "was_ended")}
        self.changed("find")

    def is_set(self, fact):
        self.search["result"] = {"set": fact["is_set"], "was": fact["was"], "now": fact["now"], "is_alone": True, "found": 1}
        if fact["is_set"]:
            self.search["found"] = [fact["now"]]
            self.setup.adds(fact["at"], fact["was"], fact["now"])
            self.known.pop(fact["was"]["address"], None)
            self.device(fact["now"]["address"]).identity = {name: fact["now"][name] for name in ("vendor", "model", "version", "serial", "firmware")}
            self.changed("setup")
        self.changed("find")

    # tests

    def is_progress(self, fact):
        self.trial.update(rule=max(self.trial["rule"], fact["rule"]), of=fact["of"])
        if fact["left_out"]:
            self.trial["left_out"].append([fact["rule"], fact["left_out"]])
        self.changed("test")

    def is_report(self, fact):
        self.trial["lines"].append(shown(fact["text"]))
        self.changed("test")

    def is_tested(self, fact):
        self.trial.update(status=fact["status"], rule=self.trial["of"])
        self.changed("test")

    # orders, and what the panel says

    def is_order(self, fact):
        order = self.orders.setdefault(fact["number"], {"number": fact["number"], "address": fact["address"], "text": "", "states": [], "why": ""})
        order["text"] = fact["text"] or order["text"]
        order["why"] = fact["why"]
        order["states"].append([fact["state"], fact["at"]])
        for number in sorted(self.orders)[:-ORDERS]:
            del self.orders[number]
        self.changed("orders")

    def is_demo(self, fact):
        self.demo[fact["device"]].append({"at": fact["at"], "text": shown(fact["text"])[:120]})
        self.changed("demo")

    def is_say(self, fact):
        """A line of the panel, of a search, or of the port."""
        words, at = without_number(fact["text"]), fact["at"]
        name = words[0] if words else ""
        does = getattr(self, f"hears_{name.replace('-', '_')}", None)
        if does and self.line["doing"] == "panel":
            does(words, at)
        if not self.is_by_the_page(words):
            self.adds_line(at, self.without_digits(words, fact["text"]))
        if name in ("pulled", "back"):
            self.line["is_there"] = name == "back"
            self.changed("line")

    @staticmethod
    def is_by_the_page(words):
        """Whether a line is about what the page itself asks a device for, again and again."""
        return words[:1] in (["waits"], ["settled"]) and words[2:3] and words[2] in ("CAP", "LSTAT", "ISTAT", "OSTAT", "RSTAT")

    @staticmethod
    def without_digits(words, text):
        """A line of the panel. What a card or a key says is shown elsewhere, once it is asked for."""
        is_event = words[:1] in (["event"], ["maybe-again"]) and len(words) > 2 and words[2] in WORDS
        return " ".join([*words[:3], "(its digits are shown with the card)"]) if is_event else text

    def hears_opened(self, words, at):
        """A session is open, and the answer to its opening isn't what the device is."""
        known = self.device(int(words[1]))
        known.state, known.since, known.cause, known.is_secure = "online", at, None, False

    def hears_online(self, words, at):
        """The same, with what the device is: a name before each value."""
        self.hears_opened(words, at)
        told = dict(zip(words[2::2], words[3::2]))
        if all(name in told for name in IDENTITY):
            self.device(int(words[1])).identity = {"vendor": told["maker"], **{name: told[name] for name in IDENTITY[1:]}}

    def hears_lost(self, words, at):
        known = self.device(int(words[1]))
        if known.state != "offline":
            known.since = at
        known.state, known.cause = "offline", words[2]

    def hears_passed(self, words, at):
        if words[-2:] == ["NAK", "6"] or "block" in words:
            self.device(int(words[2])).is_secure = True

    def hears_answered(self, words, at):
        if words[-2:] == ["NAK", "6"]:
            self.device(int(words[1])).is_secure = True

    def hears_another(self, words, at):
        if words[:3] == ["another", "device", "at"]:
            self.device(int(words[3].rstrip(":"))).other = " ".join(words[4:10])

    def hears_accepted(self, words, at):
        self.device(int(words[1])).other = None

    def hears_event(self, words, at, is_again=False):
        card = card_of(words[2:2 + WORDS.get(words[2], 0)])
        if card:
            age = words[words.index("(up") + 2] if "(up" in words else None
            self.cards.append({"at": at, "address": int(words[1]), "again": is_again, "age": age, **card})
            self.changed("cards")
        self.takes_state(int(words[1]), words[2:])

    def hears_maybe_again(self, words, at):
        self.hears_event(words, at, True)

    def hears_settled(self, words, at):
        text = " ".join(words[2:])
        reply = text.partition(" = ")[2].split()
        if reply[:1] == ["PDCAP"]:
            self.device(int(words[1])).caps = [[int(each) for each in found] for found in FUNCTION.findall(" ".join(reply[1:]))]
        self.takes_state(int(words[1]), reply)

    def takes_state(self, address, words):
        """Tamper and power, inputs, outputs or readers, as a device has told them."""
        name = STATES.get(words[0]) if words else None
        if name == "local" and len(words) > 2:
            self.device(address).states.update(tamper=int(words[1]), power=int(words[2]))
        elif name and name != "local":
            digits = "" if words[1:2] == ["none"] else "".join(words[1:2])
            self.device(address).states[name] = list(bytes.fromhex(digits)) if re.fullmatch(r"([0-9A-F]{2})*", digits) else []

    # what is shown

    def tick(self):
        self.listener.tick()
        self.ticks += 1
        if self.ticks % 20 == 0 and not self.line["panel"]:
            self.changed("devices")  # one that isn't heard any more

    def addresses(self):
        """The devices that are shown: those of the panel that runs, or those that are known or were heard lately. A search asks many addresses at which nobody is."""
        if self.line["panel"]:
            return sorted(self.line["panel"]["addresses"])
        lately = time.time() - LATELY
        return sorted({*self.known, *(address for address, device in self.listener.heard.devices.items() if device.heard and device.heard.moment > lately and address != EVERYBODY)})

    def devices(self):
        rows = []
        for address in self.addresses():
            known, heard = self.known.get(address) or Known(address), self.listener.heard.devices.get(address)
            state = known.state or (None if heard is None else "heard" if heard.is_online() else "silent")
            rows.append({"address": address, "state": state, "since": known.since, "cause": known.cause, "identity": known.identity, "caps": known.caps, "secure": known.is_secure, "other": known.other,
                         "states": known.states})
        return rows

    def count_rows(self):
        rows = []
        panel = self.line["panel"]["addresses"] if self.line["panel"] else ()
        for address, device in sorted(self.listener.heard.devices.items()):
            if not device.answered and address not in panel:
                continue  # a search has asked it
            last = device.heard.moment if device.heard else None
            rows.append({"address": address, "asked": device.asked, "answered": device.answered, "repeats": device.repeats, "damaged": device.damaged, "events": device.events, "orders": device.orders,
                         "times": times_of(device), "heard": last, "online": device.is_online()})
        return {"devices": rows, "line": {**self.listener.counts, "accused": self.listener.accused}, "pace": self.listener.pace(self.line["rate"])}

    def part(self, name, is_revealed):
        """What a page gets of a part."""
        parts = {"line": lambda: self.line, "find": lambda: self.search, "devices": self.devices, "orders": lambda: list(self.orders.values()),
                 "cards": lambda: [each if is_revealed else masked(each) for each in self.cards], "log": lambda: list(self.log), "test": lambda: self.trial, "setup": lambda: self.setup.rows,
                 "demo": lambda: [list(self.demo[at]) for at in (0, 1)], "counts": self.count_rows, "told": lambda: {"told": [each if is_revealed else without_cards(each) for each in self.listener.told], "diagnoses": self.listener.diagnoses}}
        return parts[name]()
