"""When a test of a panel is over: each of its ends is a limit, so each test has one."""
from .panel_tricks import TRICKS

IDLE = 30_000  # milliseconds without a packet of the panel
STALLED = 60_000  # .. in which no trick could be played
ORDER = 20_000  # .. in which an order is waited for once all else was played
MORE = 3  # packets after the last trick, which show it


class Ends:
    """Asked after each packet, and now and then. `note` gets why it is over, or what it waits for."""

    def __init__(self, device, note, moment=0):
        self.device, self.note, self.heard, self.played, self.state = device, note, moment, moment, None
        self.more, self.asked = MORE, None

    def packet(self, moment):
        """A packet to the device came, and was answered or wasn't."""
        self.heard = moment
        if self.device.state() != self.state:
            self.state, self.played = self.device.state(), moment
        if self.device.is_over() and not self.device.waits:
            self.more -= 1

    def is_over(self, moment):
        if self.device.beside.is_deaf or not self.more:
            return True
        if moment > self.heard + IDLE:
            self.note(f"nothing came to device {self.device.address} for {IDLE // 1000} seconds")
            return True
        if self.device.is_over() and self.device.waits:
            return self.lacks_order(moment)
        if moment > self.played + STALLED:
            rules = ", ".join(str(rule) for rule in sorted(self.device.waits) if TRICKS[rule] != "order")
            self.note(f"for {STALLED // 1000} seconds no packet came on which a trick can be played, so this wasn't done: {rules}")
            return True
        return False

    def lacks_order(self, moment):
        """All else was played: whether an order was waited for long enough."""
        if self.asked is None:
            self.asked = moment
            self.note(f"all else was played: give the panel an order within {ORDER // 1000} seconds (an output, an LED), or rule 22 is unclear")
        return moment > self.asked + ORDER
