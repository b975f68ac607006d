"""The orders of the broker, from a message to the outcome of its key.

A key waits until its device is ready, is submitted once, and gets one outcome. What became of one that was
submitted as a session was lost, or as the service ended, isn't known: it is in doubt until the device has told
its outputs."""
from collections import deque

from ..reports import reason
from .messages import Rejected

MOST = 100  # orders of a device that wait
SECOND = 1000  # what is left of an expiry is told in whole seconds
PATIENCE = 60000  # so many milliseconds a device in doubt is waited for
STATE = "OSTAT"  # the command that asks for what is known of a doubt


class Waiting:
    """An order that waits or was submitted: its key, none of one of the service's own; its text and its last
    moment, none where it has none."""

    def __init__(self, text, key=None, until=None):
        self.text, self.key, self.until = text, key, until
        self.settles = ()  # the keys in doubt whose outcome its answer is


class DeviceOrders:
    """The orders of one device."""

    def __init__(self, entry):
        self.entry = entry
        self.waiting = deque()
        self.own = deque()  # orders of the service itself, which go first
        self.doubts = {}  # keys whose outcome the device's outputs are, and until when they are waited for
        self.wanted = []  # the texts of the states that it is to have


class Orders:
    """The orders of a line. `ledger` stores them, `line` is the panel, and `tells(key)` publishes an outcome."""

    def __init__(self, devices, ledger, clock, longest, tells):
        self.by_entry = {device: DeviceOrders(device) for device in devices}
        self.ledger, self.clock, self.longest, self.tells = ledger, clock, longest, tells
        self.line = None

    def begins(self):
        """After a restart no stored order is submitted: each that was is in doubt, and each that waited is
        forgotten."""
        by_name = {device.entry.name: device for device in self.by_entry.values()}
        for key in self.ledger.open_keys():
            if key.state == "waiting" or key.device not in by_name:
                self.ends(key.key, "forgotten" if key.state == "waiting" else "in doubt")
            else:
                self.doubts(by_name[key.device], key.key)

    # messages

    def takes(self, entry, key, text, expiry, fresh, until=None):
        """Takes an order of a message, which the broker has sent after a moment with so many seconds left. It
        may say by itself until when. The same key is the same order, or refused."""
        stored = self.ledger.key(key)
        if stored is not None:
            if (stored.device, stored.text) != (entry.name, text):
                raise Rejected("the key is that of another order", key)
            if stored.outcome is not None:
                self.tells(key)
            return
        if expiry is None:
            raise Rejected("no expiry, or nothing of it is left", key)
        if expiry > self.longest:
            raise Rejected(f"its expiry is more than {self.longest} seconds", key)
        device = self.by_entry[entry]
        if len(device.waiting) >= MOST:
            raise Rejected(f"{MOST} orders wait already", key)
        self.ledger.accepts(key, entry.name, text)
        by_broker = fresh + SECOND * (expiry - 1)
        device.waiting.append(Waiting(text, key, by_broker if until is None else min(by_broker, until)))

    def wants(self, entry, texts):
        """A device is to have these states."""
        device = self.by_entry[entry]
        if device.wanted == texts:
            return  # the broker tells what it retains at each connection
        device.wanted = texts
        device.own = deque(order for order in device.own if order.text == STATE)
        device.own.extend(Waiting(text) for text in texts)

    # turns

    def turn(self, now):
        """Gives each device that is ready its next order, and ends what is over."""
        for device in self.by_entry.values():
            self.expires(device, now)
            self.gives(device)

    def expires(self, device, now):
        for order in [each for each in device.waiting if each.until <= now]:
            device.waiting.remove(order)
            self.ends(order.key, "expired")
        for key in [key for key, until in device.doubts.items() if until <= now]:
            del device.doubts[key]
            self.ends(key, "in doubt")

    def gives(self, device):
        """Submits the next order of a device, where it is ready for it. That is stored before."""
        queue = device.own or device.waiting
        if not queue or not self.line.is_ready(device.entry):
            return
        order = queue.popleft()
        if order.key:
            self.ledger.goes_to(order.key, "submitted")
        if order.text == STATE and order.key is None:
            order.settles = tuple(device.doubts)
        why = self.line.gives(device.entry, order.text, order.until, order)
        if why and order.key:
            self.ends(order.key, "refused", why)

    def next_moment(self):
        """When an order that waits is over."""
        moments = [order.until for device in self.by_entry.values() for order in device.waiting]
        moments += [until for device in self.by_entry.values() for until in device.doubts.values()]
        return min(moments, default=None)

    # what the panel tells

    def opened(self, entry):
        """A session has opened: the device acts on no order of before any more."""
        device = self.by_entry[entry]
        device.own = deque(Waiting(text) for text in [*([STATE] if device.doubts else []), *device.wanted])

    def ended(self, order, how, words):
        """A submitted order has its end."""
        if order is None:
            return
        if order.key is None:
            self.settles(order, how, words)
            return
        answer = words.partition(" = ")[2]
        if how == "settled":
            is_refused = answer.startswith("NAK")
            why = f"{answer}{reason(words.split())}" if is_refused else answer
            self.ends(order.key, "refused" if is_refused else "settled", why)
        elif how == "expired":
            self.ends(order.key, "expired")
        elif how == "withdrawn":  # it was never sent, and waits on
            self.ledger.goes_to(order.key, "waiting")
            self.device_of(order.key).waiting.appendleft(order)
        else:  # lost, or an answer that can't be read
            self.doubts(self.device_of(order.key), order.key)

    def settles(self, order, how, words):
        """An order of the service's own has its end: by its outputs the device tells what is known of a doubt."""
        answer = words.partition(" = ")[2].split()
        if how != "settled" or answer[:1] != ["OSTATR"]:
            return
        for device in self.by_entry.values():
            for key in [key for key in order.settles if key in device.doubts]:
                del device.doubts[key]
                self.ends(key, "in doubt", answer[1])

    def device_of(self, key):
        name = self.ledger.key(key).device
        return next(device for device in self.by_entry.values() if device.entry.name == name)

    def doubts(self, device, key):
        """What became of a key isn't known yet."""
        self.ledger.goes_to(key, "doubt")
        device.doubts[key] = self.clock() + PATIENCE
        if device.entry.session == "open" and not any(order.text == STATE for order in device.own):
            device.own.appendleft(Waiting(STATE))

    def ends(self, key, outcome, detail=None):
        """A key has its outcome."""
        self.ledger.ends(key, outcome, detail)
        self.tells(key)

    def gives_up(self):
        """No order that waits is submitted any more."""
        for device in self.by_entry.values():
            for order in device.waiting:
                self.ends(order.key, "forgotten")
            device.waiting.clear()
