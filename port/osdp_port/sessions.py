"""What the reports of `osdp panel` come to: which session is open, where its device is, and which orders have
their ends."""
from .rounds import PAUSE, Place


class Sessions:
    """The sessions of a panel. Of the panel it uses the port, `call`, `keep`, `clock` and `say`, and its
    other pieces."""

    def __init__(self, panel):
        self.panel = panel
        self.deeds = {
            "opened": self.opened,
            "waits": self.waits,
            "settled": self.settled,
            "withdrawn": self.withdrawn,
            "expired": self.expired,
            "unread": self.unread,
            "moved": self.moved,
            "lost": self.lost,
        }

    def heed(self, told):
        """Does what a report asks for."""
        if told.name in self.deeds:
            self.deeds[told.name](told.device, told.words, told.number)

    def opened(self, device, words, _):
        device.session = "open"
        self.panel.identities.recognize(device, (words[1], words[2], words[4]))
        if device.other and device.is_in_doubt():
            device.is_left = True  # it may be at another of its places, and is sought on
            return
        device.sought, device.is_given_up = 0, False
        device.stands(device.place)
        self.panel.keep()
        self.panel.line_rate.gather(device)

    @staticmethod
    def waits(device, words, number):
        """An order was taken."""
        device.orders[number], device.next_order = words[0], number + 1

    def settled(self, device, words, number):
        text, _, reply = " ".join(words).partition(" = ")
        is_refused = reply.startswith("NAK")
        self.panel.met += is_refused
        self.has_end(device, number, "refused" if is_refused else "settled", reply)
        if not text.startswith("COMSET "):
            if not device.awaits_move():
                device.stands(device.place)  # it answers here
        elif is_refused:
            device.stands(device.place)
            self.panel.line_rate.refuses(device)
        self.panel.keep()

    def withdrawn(self, device, words, number):
        self.goes_nowhere(device, words, number)

    def expired(self, device, words, number):
        self.panel.met += 1
        self.goes_nowhere(device, words, number, "expired")

    def goes_nowhere(self, device, words, number, why=None):
        """An order was never sent."""
        self.has_end(device, number, "back", why)
        if words[0] == "COMSET":
            device.stands(device.place)
            self.panel.keep()

    def unread(self, device, _, number):
        self.has_end(device, number, "doubt")

    def moved(self, device, words, number):
        self.has_end(device, number, "settled", " ".join(words).partition(" = ")[2])
        address, rate = map(int, words[-2:])
        has_rate = self.panel.port.may_have(rate)
        if not has_rate:
            self.panel.say(f"no rate {rate}: the port hasn't it, and stays at {self.panel.port.rate}")
        device.stands(Place(address, rate if has_rate else device.place.rate))
        self.panel.keep()
        self.close(device, 0)

    def lost(self, device, _, number):
        self.panel.met += 1
        self.has_end(device, number, "doubt")
        self.close(device, PAUSE)

    def has_end(self, device, number, state, answer=None):
        """An order has its end. A report that is about none has no number."""
        if device.orders.pop(number, None) is not None:
            self.panel.orders.has_end(device, number, state, answer)

    def close(self, device, pause):
        """A session has ended. The orders that wait are taken back: who stands there as it opens again isn't
        known, and an order is for the device that it was given to."""
        device.session, device.begins, device.is_left = "closed", self.panel.clock() + pause, False
        while self.panel.call(f"withdraw {device.number}"):
            pass
