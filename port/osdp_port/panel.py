"""A panel of the devices on one line, over `osdp panel`: it hands over what comes, writes what goes out, and
looks for devices.

Which orders are taken, what reports come to, which device it is, and the rate of the line are pieces of their
own."""
from .identities import Identities
from .line_rate import LineRate
from .orders import LASTS, Orders
from .reports import Reports
from .rounds import Rounds
from .serial_port import pieces
from .sessions import Sessions
from .turns import LATE

# What the panel's words may set otherwise. A device may be busy for some 0.8 s, and an exchange ends within
# 3.8 s.
SETTINGS = ("busy-limit", "4", "busy-wait", "200")


class Panel:
    """The panel. `port` writes bursts and has a rate, `clock` tells the moment, and `say` prints a line."""

    lasts = LASTS  # for how many milliseconds an order may go out after it was typed; none where for ever
    late = LATE  # a turn that comes so many milliseconds late is told

    def __init__(self, port, program, devices, clock, say, kept=None):
        self.port, self.program, self.devices, self.say, self.kept = port, program, devices, say, kept
        self.clock, self.now = clock, clock()
        self.rounds, self.reports = Rounds(devices, port.rate), Reports(devices, clock, say)
        self.sessions, self.orders = Sessions(self), Orders(self)
        self.identities = Identities(devices, say, self.keep)
        self.line_rate = LineRate(devices, port.rate, say, self.orders.submit)
        self.due = None  # the moment of the next tick
        self.is_ending = False
        self.met = 0  # what was met: sessions that were lost, and orders that were refused or expired
        self.unkept = None  # why something isn't in the store
        for device in devices:
            self.call(f"add {device.address} {device.next_order}")
            self.orders.tells_left(device)

    # calls and what they are answered

    def call(self, line):
        """Hands `osdp panel` a line, and does what its answer says. The lines that were told."""
        *answer, last = self.program.call(line)
        self.due = None if last == "due none" else int(last.split()[1])
        told = []
        for each in answer:
            if each.startswith("send "):
                self.send(bytes.fromhex(each[5:]))
            else:
                told.append(each)
                self.heed(each)
        return told

    def send(self, burst):
        """Writes a packet, at the rate of its device alone: at another one it would be noise. None goes to a
        device whose session is let end: for `osdp` it is lost on the line."""
        for device in self.devices:
            if (
                device.address == burst[1] & 0x7F
                and device.place.rate == self.port.rate
                and not device.is_left
            ):
                self.port.write(burst)

    def heed(self, line):
        """Prints a report, with the address of its device, and does what it asks for."""
        told = self.reports.parsed(line)
        if told.device:
            self.reports.prints(told)
            self.sessions.heed(told)
        elif told.name not in ("refused", "burst"):  # what was refused is told of the order
            self.say(line)

    def keep(self):
        """Writes down where the devices are. Whether they are kept."""
        return self.is_kept(self.kept.write(self.devices) if self.kept else None)

    def is_kept(self, why):
        """Tells why something isn't in the store, where it isn't. Whether it is."""
        before, self.unkept = self.unkept, why
        if why and why != before:  # else each order would tell it again
            self.say(f"not kept: {why}")
        return not why

    def order(self, line):
        """Takes an order, by the address of its device."""
        self.orders.order(line)

    # the loop

    def turn(self, read, lines, now=None, stood_still=0):
        """Hands over what has come, takes orders, and begins what is due. What came while the program stood
        still is true, and what was typed then is as old as it may be."""
        self.now = self.clock() if now is None else now
        self.call(f"at {self.now}")
        for piece in pieces(read):
            self.call(f"bytes {piece.hex()}")
        if stood_still:
            self.say(f"stood still for {stood_still / 1000:.1f} s: orders that grew too old aren't sent")
        for line in lines:
            self.order(line)
        if not self.is_ending:
            self.goes_round(self.now)
        if "burst" in self.call("tick"):
            self.writes()

    def writes(self):
        """A packet is to go out. Its moment is taken anew: where the program stood still since the turn
        began, `osdp` gives none whose order has grown too old."""
        self.call(f"at {self.clock()}")
        self.call("write")

    def goes_to(self, rate, now):
        """Begins a round at another rate. One that the port can't be set to has none, until the port is
        pulled and back."""
        if self.port.set_rate(rate):
            self.rounds.begins(rate, now)
            self.say(f"rate {rate}")
            for device in filter(self.rounds.is_reached, self.devices):
                self.line_rate.gather(device)
        elif self.port.is_there:
            self.rounds.beyond.add(rate)
            self.say(f"no rate {rate}: the port can't be set to it, and stays at {self.port.rate}")

    def goes_round(self, now):
        if not self.port.is_there:
            self.rounds.beyond.clear()
            return
        rate = self.rounds.next_rate(now)
        if rate is not None:
            self.goes_to(rate, now)
        for device in self.devices:
            place = self.rounds.next_place(device) if device.begins <= now else None
            if place:
                self.rounds.tries(device, place)
                self.call(f"retarget {device.number} {place.address}")
                self.call(f"begin {device.number}")

    def next_moment(self):
        """When the next turn is due; none where only bytes or orders bring one."""
        moments = [] if self.due is None else [self.due]
        if not self.is_ending and self.port.is_there:
            moments += [moment for moment in [self.rounds.next_moment(self.clock())] if moment is not None]
        return min(moments) if moments else None

    # the end

    def ends(self):
        """No session begins from now on. Whether each order has its end."""
        self.is_ending = True
        return not any(device.orders for device in self.devices)

    def nothing_comes(self):
        """Nothing can come any more: the moments of what is due go by without a wait, and no packet is taken
        from `osdp`, so that each order gets its end."""
        self.ends()
        for _ in range(100000):
            if self.due is None or not any(device.orders for device in self.devices):
                return
            self.call(f"at {max(self.due, self.clock())}")
            self.call("tick")
