"""Where the orders of pages wait, and what becomes of each.

One order of a device at a time is handed to the panel, so one that waits here can be taken back. What the panel tells of the order that it has is its end, also where it has
grown too old: then the panel tells that it has expired."""
import time
from collections import deque

from ..console import Typed
from ..reports import REASONS, without_number
from ..turns import moment

LOOKS = 10.0  # seconds between two looks at what a device tells only if it is asked
MOST = 16  # orders that wait for one device
ASKS = {"id": "ID 0", "capabilities": "CAP 0", "tamper": "LSTAT", "inputs": "ISTAT", "outputs": "OSTAT", "readers": "RSTAT"}
CODES = {"ID": 0x61, "CAP": 0x62, "LSTAT": 0x64, "ISTAT": 0x65, "OSTAT": 0x66, "RSTAT": 0x67, "OUT": 0x68, "LED": 0x69, "BUZ": 0x6A, "TEXT": 0x6B}
ENDS = ("answered", "unread", "expired", "in doubt", "taken back", "refused")
WHY = {"expired": ("expired", "it grew too old before it could go out, and it was never sent"), "withdrawn": ("taken back", "the session ended"),
       "unread": ("unread", "its answer can't be read: it may be done or not")}
WITHHELD = "no answer came, and it grew too old to be sent again: it may be done or not"


class Bad(Exception):
    """No order of this kind; why."""


def whole(order, name, least, most):
    found = order.get(name)
    if isinstance(found, bool) or not isinstance(found, int) or not least <= found <= most:
        raise Bad(f"{name} is a number from {least} to {most}")
    return found


def text_of(order):
    """The command that an order of a page is. An output is on for a time, which can't be left out."""
    kind = order.get("what")
    if kind == "output":
        return f"OUT {whole(order, 'output', 0, 255)}:5:{whole(order, 'tenths', 1, 65535)}"
    if kind == "led":
        led, colour, tenths = whole(order, "led", 0, 255), whole(order, "colour", 0, 7), whole(order, "tenths", 0, 65535)
        return f"LED 0:{led}:2:1:0:{colour}:0:{tenths}:0:0:0:0:0" if tenths else f"LED 0:{led}:0:0:0:0:0:0:1:1:0:{colour}:0"
    if kind == "buzzer":
        return f"BUZ 0 2 1 1 {whole(order, 'count', 1, 20)}"
    if kind == "text":
        text = order.get("text")
        if not isinstance(text, str) or not 1 <= len(text) <= 32 or not all(0x20 <= ord(each) < 0x7F for each in text):
            raise Bad("a text has 1 to 32 plain characters")
        return f"TEXT 0 1 0 1 1 {text.encode().hex().upper()}"
    if kind == "ask" and order.get("of") in ASKS:
        return ASKS[order["of"]]
    raise Bad("no such order")


class Order:
    """An order: its number on the page, its device, its text, the moment at which it was given, and whether the page itself gave it, to know what the device is."""

    def __init__(self, number, address, text, since, is_own=False):
        self.number, self.address, self.text, self.since, self.is_own = number, address, text, since, is_own
        self.state = self.told_as = None  # `told_as` is the number by which the panel tells of it

    @property
    def code(self):
        return CODES[self.text.split()[0]]


class Desk:
    """`panel` has the devices, `tells` gets what becomes of each order, and `looks` is called in each turn."""

    def __init__(self, panel, tells, looks=lambda: None):
        self.panel, self.tells, self.looks = panel, tells, looks
        self.waiting = {device.address: deque() for device in panel.devices}
        self.current = {}  # the order of each address that the panel has
        self.looks_at, self.asked = {}, {}  # when a device is asked again, and what is left to ask it
        self.again = {}  # when a device is asked for its outputs, since one was switched
        self.given, self.is_watched = deque(), True

    # from the pages, in their thread

    def gives(self, number, address, order, since):
        """A page gives an order, at a moment."""
        self.given.append(("give", number, address, (order, since)))

    def takes_back(self, number=None):
        """A page takes an order back that waits; all of them, where no number is said, since no page is there any more."""
        self.given.append(("take back", number, None, None))

    # in the thread of the line

    def becomes(self, order, state, why=""):
        order.state = state
        if not order.is_own:
            self.tells("order", number=order.number, address=order.address, text=order.text, state=state, why=why)

    def device(self, address):
        return next((each for each in self.panel.devices if each.address == address), None)

    def takes(self, number, address, words, since):
        """Puts an order where it waits, or refuses it."""
        try:
            order = Order(number, address, text_of(words), since)
        except Bad as bad:
            self.tells("order", number=number, address=address, text="", state="refused", why=str(bad))
            return
        device = self.device(address)
        if device is None or device.session != "open":
            self.becomes(order, "refused", "the device isn't online")
        elif len(self.waiting.setdefault(address, deque())) >= MOST:
            self.becomes(order, "refused", "too many orders wait")
        else:
            self.waiting[address].append(order)
            self.becomes(order, "waiting")

    def drop(self, number):
        if number is None:
            self.takes_back_all("no page is there")
            return
        for orders in self.waiting.values():
            for order in [each for each in orders if each.number == number]:
                orders.remove(order)
                self.becomes(order, "taken back")

    def takes_back_all(self, why, address=None):
        """Takes back all that waits; of one device, where that is said."""
        for at, orders in self.waiting.items():
            while orders and address in (None, at):
                self.becomes(orders.popleft(), "taken back", why)

    def lines(self):
        """The orders that go to the panel now, as it takes them."""
        self.looks()
        while self.given:
            what, number, address, order = self.given.popleft()
            if what == "give":
                self.takes(number, address, *order)
            else:
                self.drop(number)
        now = time.monotonic()
        found = []
        for device in self.panel.devices:
            order = self.next_of(device, now)
            if order:
                self.current[device.address] = order
                found.append(Typed(f"{order.address} {order.text}", order.since))
        return found

    def next_of(self, device, now):
        """The order that a device gets now, if any."""
        if device.session != "open" or device.orders or device.address in self.current:
            return None
        waiting = self.waiting.setdefault(device.address, deque())
        if waiting:
            return waiting.popleft()
        if not self.is_watched:
            return None
        again = self.again.get(device.address)
        if again and now >= again[0]:
            again.pop(0)
            return Order(0, device.address, "OSTAT", moment(), True)
        if now >= self.looks_at.get(device.address, 0):
            asked = self.asked.setdefault(device.address, deque(("capabilities", "tamper", "inputs", "outputs", "readers")))
            if asked:
                return Order(0, device.address, ASKS[asked.popleft()], moment(), True)
            self.looks_at[device.address] = now + LOOKS
            self.asked[device.address] = deque(("tamper", "inputs", "outputs"))
        return None

    def sent(self, burst):
        """A packet goes out: the order whose it is stands on the line."""
        order = self.current.get(burst[1] & 0x7F) if len(burst) > 6 else None
        if order and order.state in (None, "waiting") and burst[5] == order.code:
            self.becomes(order, "on the line")

    def came(self, read):
        """What comes in says nothing here: the panel reads it."""

    def heard(self, line):
        """The panel has told something."""
        words, number = without_number(line), int(line.split()[1]) if line.startswith("order ") else None
        if words[:2] == ["not", "taken"]:
            order = self.current.get(int(words[2])) if words[2:3] and words[2].isdigit() else None
            if order and order.told_as is None:
                self.ends(order, "refused", line.partition(": ")[2])
        elif number is not None:
            self.heard_of(number, words, line)
        if words[:1] == ["lost"]:
            self.is_lost(int(words[1]))
        elif words[:1] in (["opened"], ["online"]):
            self.looks_at[int(words[1])] = 0
            self.asked.pop(int(words[1]), None)

    def heard_of(self, number, words, line):
        """The panel has told something of an order."""
        order, name = self.current.get(int(words[1])), words[0]
        if order and name == "waits" and order.text == " ".join(words[2:]):
            order.told_as = number
        if order is None or order.told_as != number:
            return
        if name == "settled":
            reply = line.partition(" = ")[2].split()
            reason = int(reply[1]) if reply[:1] == ["NAK"] else 0
            self.ends(order, *("refused", REASONS[reason if reason < len(REASONS) else 0]) if reply[:1] == ["NAK"] else ("answered", " ".join(reply)))
        elif name in WHY:
            self.ends(order, *WHY[name])
        elif name == "lost":
            self.ends(order, "in doubt", WITHHELD if words[3:4] == ["withheld"] else "no answer came: it may be done or not")

    def ends(self, order, state, why):
        """The order that the panel had of a device has its end."""
        del self.current[order.address]
        self.becomes(order, state, why)
        if order.text.startswith("OUT ") and state == "answered":
            self.looks_again(order)

    def looks_again(self, order):
        """An output was switched: the device is asked for its outputs now, and again once the time is over."""
        now, tenths = time.monotonic(), int(order.text.rpartition(":")[2])
        self.again[order.address] = sorted([*self.again.get(order.address, []), now, now + tenths / 10 + 0.2])[-8:]

    def is_lost(self, address):
        self.takes_back_all("the session ended", address)
        self.asked.pop(address, None)
        self.again.pop(address, None)

    def over(self):
        """The panel has ended."""
        self.lines_are_taken()
        self.takes_back_all("the panel ended")
        for order in list(self.current.values()):
            self.becomes(order, "in doubt" if order.state == "on the line" else "taken back", "the panel ended")
        self.current.clear()

    def lines_are_taken(self):
        """What pages have given and nobody has looked at is refused."""
        while self.given:
            what, number, address, _ = self.given.popleft()
            if what == "give":
                self.tells("order", number=number, address=address, text="", state="refused", why="the panel ended")
