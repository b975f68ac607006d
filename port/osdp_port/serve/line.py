"""The panel of the line, as the service sees it: orders go in with their last moment, and their ends, events
and sessions come out. Its packet goes out once the turn is stored."""
from ..faults import Refused
from ..keep import PanelPlaces
from ..panel import Panel
from ..reports import EVENTS


class LinePlaces(PanelPlaces):
    """The store of a panel whose turns are transactions. Where it can't be written the service ends."""

    def does(self, write, *values):
        write(*values)

    def put(self, devices):
        self.store.keep(devices)


class Line(Panel):
    """The panel. `hears` is asked for orders by `gives_orders(now)` in each turn, and told `opened(device)`,
    `closed(device)`, `ended(order, how, words)` and `event(device, text, marked, since)`."""

    def __init__(self, port, program, devices, clock, say, kept, hears):
        self.hears = hears
        self.given = {}  # the orders without an end, by their devices and numbers
        self.has_packet = False
        super().__init__(port, program, devices, clock, say, kept)

    # what goes in

    def is_ready(self, device):
        """Whether an order may be given to a device now: its session is open, and it has none."""
        try:
            self.orders.may_take(device, ["OUT"])
        except Refused:
            return False
        return not device.orders

    def gives(self, device, text, until, order):
        """Gives an order, which may go out until a moment, or for ever. Why it isn't taken; nothing where it
        is."""
        number = device.next_order
        self.given[device, number] = order
        why = self.orders.refusal(device, text, until)
        if why:
            del self.given[device, number]
        return why

    # what comes out

    def heed(self, line):
        told = self.reports.parsed(line)
        if told.device is None:
            super().heed(line)
            return
        device, was = told.device, told.device.session
        if told.name in EVENTS:
            self.hears.event(device, " ".join(told.words), told.name == "maybe-again", told.since)
            return
        super().heed(line)
        if told.name == "opened":
            self.hears.opened(device)
        elif was == "open" and device.session == "closed":
            self.hears.closed(device)
        if told.number is not None and told.name != "waits":
            self.hears.ended(self.given.pop((device, told.number), None), told.name, " ".join(told.words))

    # turns

    def goes_round(self, now):
        if self.hears.may_begin():
            super().goes_round(now)
        self.hears.gives_orders(now)

    def next_moment(self):
        return super().next_moment() if self.hears.may_begin() else self.due

    def writes(self):
        self.has_packet = True

    def goes_out(self):
        """The turn is stored: its packet goes out, if the panel still gives it."""
        has_packet, self.has_packet = self.has_packet, False
        if has_packet:
            super().writes()
