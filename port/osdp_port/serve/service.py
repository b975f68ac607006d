"""The service of a line: it joins the panel, what is stored, and the broker."""
import os

from ..cards import shown as shown_card
from ..faults import FAILED, Stop, shown
from . import messages, pulses
from .broker import Broker, Subscription
from .events import Events
from .figures import Figures
from .line import Line
from .messages import Rejected, written
from .metrics import COUNTERS, Metrics
from .orders import Orders
from .outbox import Outbox
from .settings import first_line
from .topics import Topics

BACK = 5000  # so many milliseconds a broker may take to hand the presence back
FIRST = 10000  # .. and to answer at first, until the line is run without it
STALE = 20000  # another store has left a line for which no pulse comes for so long: its will comes before that


class Service:
    """A line's service. `port` is its port, `program` is `osdp panel`, and `ledger` has what is stored."""

    def __init__(self, settings, port, program, devices, kept, ledger, clock, say, metrics=None):
        self.settings, self.ledger, self.clock, self.say = settings, ledger, clock, say
        self.devices = devices
        self.names = {device.name: name for name, device in zip(settings.devices, devices)}
        self.by_name = {name: device for name, device in zip(settings.devices, devices)}
        self.topics = Topics(settings.broker_prefix, settings.line, settings.devices)
        self.outbox = Outbox(self.publishes)
        secret = first_line(settings.events_card_key_file).encode() if settings.events_cards == "hashed" else None
        self.events = Events(ledger, settings.events_oldest, secret, lambda name, number: self.outbox.adds((name, number)))
        self.orders = Orders(devices, ledger, clock, settings.orders_longest, self.outbox.adds)
        self.figures = Figures(devices, clock)
        self.began, self.has_begun = clock(), False
        self.has_claimed = self.is_asked = False
        self.other_since = None  # since when another store is said to serve the line
        self.other = None  # the other store that does
        self.presence_at = None  # when the presence was published that hasn't come back
        self.presented = None  # the presence as it was published last
        will = (self.topics.of_line("presence"), written(**self.presence(False)))
        self.broker = Broker(settings, ledger.owner, will, self.subscriptions(), clock, say, self)
        self.broker.pulse = self.pulse
        self.metrics = Metrics(metrics, settings.line, clock, say, self.rows)
        port.taps.append(self.figures)
        self.line = self.orders.line = Line(port, program, devices, clock, say, kept, self)

    def subscriptions(self):
        """The topics that are heard. No pulse of a time before waits there."""
        found = [Subscription(self.topics.of_line("presence"), True), Subscription(self.topics.of_line("pulse"), False, qos=0)]
        for name, keeps in (("order", False), ("ask", False), ("wanted", True)):
            found += [Subscription(self.topics.of(device, name), keeps) for device in self.settings.devices]
        return found

    def begins(self):
        """What is stored of before comes to its end, and goes out."""
        for key in self.ledger.untold_keys():
            self.outbox.adds(key.key)
        self.events.begins()
        self.orders.begins()
        self.ledger.commit()

    # what the broker tells

    def connected(self):
        self.outbox.again()
        # once this is confirmed the broker has told what it retains of the presence
        topic, payload, _ = self.pulse()
        self.broker.publishes(topic, payload, self.has_answered)

    def disconnected(self):
        self.has_claimed = self.is_asked = False
        self.presence_at = self.other_since = None

    def message(self, topic, payload, is_retained, expiry, fresh):
        if topic in (self.topics.of_line("presence"), self.topics.of_line("pulse")):
            self.hears_line(topic, payload)
            return
        name, kind = self.topics.parted(topic)
        if name is None:
            return
        entry = self.by_name[name]
        try:
            if kind == "order":
                self.takes_order(entry, payload, is_retained, expiry, fresh)
            elif kind == "wanted":
                self.orders.wants(entry, messages.wanted_of(payload, entry.place))
            elif is_retained:
                raise Rejected("it was retained")
            else:
                self.asked(entry, name, messages.asked_of(payload))
        except Rejected as rejected:
            self.rejects(name, rejected)

    def takes_order(self, entry, payload, is_retained, expiry, fresh):
        key, text, since = messages.order_of(payload, entry.place)
        if is_retained:
            raise Rejected("it was retained", key)
        self.orders.takes(entry, key, text, expiry, fresh, pulses.until(since, key, self.clock()))

    def rejects(self, name, rejected):
        self.say(f"rejected {name} {rejected.key or '-'}: {shown(rejected.why)}")
        key = {"key": rejected.key} if rejected.key else {}
        payload = written(device=name, **key, why=rejected.why)
        self.broker.publishes(self.topics.of(name, "rejected"), payload)

    def asked(self, entry, name, asked):
        """Sends an outcome or events again."""
        if asked.key is not None:
            stored = self.ledger.key(asked.key)
            if stored is None or stored.device != entry.name:
                raise Rejected("the key isn't known", asked.key)
            if stored.outcome is not None:
                self.outbox.adds(asked.key)
            return
        last = min(asked.last, self.ledger.last_number(entry.name))
        found = self.ledger.events(entry.name, asked.first, last)
        for event in found:
            self.outbox.adds((event.device, event.number, "asked"))
        if len(found) < last - asked.first + 1:
            raise Rejected(f"of the events {asked.first} to {last} {len(found)} are kept")

    # whose line it is

    def pulse(self):
        """A pulse of the line: its topic, its payload, and whether it is retained. Before the line is this service's it is
        a question, which nobody takes for a pulse."""
        topic = self.topics.of_line("pulse" if self.has_claimed else "question")
        return topic, written(owner=self.ledger.owner, pulse=pulses.told()), self.has_claimed

    def presence(self, is_online):
        found = {"online": is_online, "line": self.settings.line, "owner": self.ledger.owner}
        if not is_online:
            return found
        devices = {name: {"address": entry.address, "online": entry.session == "open", "events": self.ledger.last_number(entry.name)}
                   for name, entry in self.by_name.items()}
        return {**found, "devices": devices}

    def has_answered(self):
        """The broker has told all that it retains."""
        self.is_asked = True

    def claims(self):
        """Takes the line, where nobody else has it as far as the broker knows, or the one that had it gives no pulse."""
        is_free = self.other_since is None or self.clock() > self.other_since + STALE
        if self.is_asked and not self.has_claimed and is_free:
            self.has_claimed, self.presented = True, None

    def may_begin(self):
        """Whether the line may be run: it was taken, or no broker answers."""
        is_alone = not self.broker.is_open and self.clock() > self.began + FIRST
        self.has_begun = self.has_begun or self.has_claimed or is_alone
        return self.has_begun

    def hears_line(self, topic, payload):
        """Hears who serves the line."""
        try:
            found, _ = messages.read(payload)
        except Rejected:
            return
        owner, is_ours = found.get("owner"), found.get("owner") == self.ledger.owner
        if topic == self.topics.of_line("pulse"):
            self.other = self.other if is_ours else owner
        elif found.get("online") is not True:  # it may be a will, which is told late
            self.presented = None
            self.other_since = self.other_since if is_ours else None
        elif is_ours:
            self.presence_at = None
        elif self.has_claimed:
            self.other = owner
        else:
            self.other_since = self.other_since or self.clock()

    def leaves(self):
        """Another store serves the line: this service ends, and sends no will."""
        if self.other is not None:
            self.broker.ends()
            raise Stop(f"the line {self.settings.line} is served by another store: {shown(str(self.other))}", FAILED)

    def tells_presence(self, refreshes=False):
        """Publishes the presence, where it has changed."""
        now = self.presence(True)
        if self.has_claimed and (refreshes or self.presented is None or self.shape(now) != self.shape(self.presented)):
            self.presented, self.presence_at = now, self.clock()
            self.broker.publishes(self.topics.of_line("presence"), written(**now), retain=True)

    @staticmethod
    def shape(presence):
        """A presence without the numbers of events, which are told each minute."""
        return {name: (each["address"], each["online"]) for name, each in presence["devices"].items()}

    def looks_back(self):
        """Tells where the broker hands nothing back: its ACL may not let the service read or write."""
        if self.presence_at is not None and self.clock() > self.presence_at + BACK:
            self.presence_at = None
            self.say(f"the presence doesn't come back: may the service read and write {self.topics.root}/#?")

    # what the panel asks and tells

    def gives_orders(self, now):
        self.orders.turn(now)

    def opened(self, entry):
        self.orders.opened(entry)

    def closed(self, entry):
        self.figures.lost(entry.name)

    def ended(self, order, how, words):
        self.orders.ended(order, how, words)

    def event(self, entry, text, is_marked, since):
        age = 0 if since is None else max(0, self.clock() - since)
        number, is_marked = self.events.reports(entry, text, is_marked, age)
        words = text.split()
        said = words[0] if self.events.secret else f"{text}{shown_card(words)}"
        self.say(f"event {entry.address} number {number} {'marked ' if is_marked else ''}{said}")

    # what goes out

    def publishes(self, item, told):
        if isinstance(item, str):
            self.publishes_key(self.ledger.key(item), told)
        else:
            self.publishes_event(*item, told=told)

    def publishes_key(self, key, told):
        if key is None or key.device not in self.names:
            told()  # it has left the store, or its device the line
            return
        name = self.names[key.device]
        more = {"settled": "answer", "in doubt": "outputs", "refused": "why"}.get(key.outcome)
        payload = written(
            key=key.key, device=name, address=self.by_name[name].address, number=key.number, command=key.text,
            outcome=key.outcome, **({more: key.detail} if more else {}),
        )

        def has_it():
            told()
            self.ledger.tells_key(key.key)
        self.broker.publishes(self.topics.of(name, "outcome"), payload, has_it)

    def publishes_event(self, device, number, asked=None, told=None):
        found = self.ledger.events(device, number, number)
        if not found or device not in self.names:
            told()
            return
        name = self.names[device]
        names = {"device": name, "address": self.by_name[name].address}
        payload, expiry = self.events.payload(names, found[0], asked is not None)

        def has_it():
            told()
            self.ledger.tells_event(device, number)
        self.broker.publishes(self.topics.of(name, "event"), payload, has_it, expiry=expiry)

    def tells_figures(self):
        if self.figures.due() and self.has_claimed:
            seconds, devices = self.figures.taken()
            named = {self.names[name]: fields for name, fields in devices.items()}
            self.broker.publishes(self.topics.of_line("figures"), written(line=self.settings.line, seconds=seconds, devices=named))
            self.tells_presence(refreshes=True)

    def rows(self):
        """What the metrics have."""
        for field, name, text in COUNTERS:
            yield name, "counter", text, [(self.names[each], getattr(of, field)) for each, of in self.figures.totals.items()]
        online = [(name, int(entry.session == "open")) for name, entry in self.by_name.items()]
        yield "osdp_online", "gauge", "Whether the session of the device is open.", online
        waiting = [(self.names[entry.name], len(of.waiting)) for entry, of in self.orders.by_entry.items()]
        yield "osdp_orders_waiting", "gauge", "Orders of the device that wait.", waiting
        yield "osdp_broker_up", "gauge", "Whether the broker answers.", [(None, int(self.broker.is_answering()))]
        left = len(self.outbox.waiting) + len(self.outbox.sent)
        yield "osdp_outbox", "gauge", "Outcomes and events that the broker hasn't got.", [(None, left)]

    # turns

    def turn(self, read, stood_still, now, is_ready):
        """A turn: the line and the broker are heard, and what of it is to last is stored before anything goes
        out."""
        if stood_still:
            self.broker.drops(f"the service stood still for {stood_still / 1000:.1f} s")
        self.broker.looks()
        self.broker.reads(is_ready)
        self.leaves()
        self.claims()
        self.line.turn(read, [], now, stood_still)
        self.ledger.commit()
        self.line.goes_out()
        self.ledger.commit()  # what is told as the packet goes out
        self.goes_out()

    def goes_out(self):
        """What is stored goes to the broker."""
        self.tells_presence()
        self.tells_figures()
        self.looks_back()
        self.metrics.looks()
        if self.has_claimed and self.broker.is_answering():
            self.outbox.goes_out()
        self.broker.writes()

    def ends(self):
        """Tells the broker that nobody serves the line any more."""
        if self.has_claimed:
            self.broker.publishes(self.topics.of_line("presence"), written(**self.presence(False)), retain=True)
        self.broker.ends()
        os.close(self.broker.wakes)
        os.close(self.broker.woken)

    def gives_up(self):
        """The service ends: what waits was never submitted, and what is outstanding is in doubt after the next
        start."""
        self.orders.gives_up()
        self.ledger.commit()

    def has_more(self):
        return self.has_claimed and bool(self.outbox.waiting or self.outbox.sent)
