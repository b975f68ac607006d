"""What the line is like: for each device how many packets it got, how many of them once more, its lost sessions
and how long its answers took."""
from statistics import median

EACH = 60000  # milliseconds that a message of figures goes over
MOST = 4096  # answer times that are kept of a device


class Of:
    """The figures of one device since the last message."""

    def __init__(self):
        self.packets = self.repeats = self.lost = 0
        self.answers = []

    def fields(self):
        times = {"median": round(median(self.answers)), "longest": max(self.answers)} if self.answers else None
        return {"packets": self.packets, "repeats": self.repeats, "lost_sessions": self.lost, "answer_ms": times}


class Figures:
    """A tap of the port: it hears each packet that goes out, and when the first byte comes."""

    def __init__(self, devices, clock):
        self.devices, self.clock = devices, clock
        self.totals = {device.name: Of() for device in devices}  # since the start
        self.since, self.asked, self.last = clock(), None, {}
        self.of = {device.name: Of() for device in devices}

    def device_at(self, address):
        return next((each.name for each in self.devices if each.address == address), None)

    def adds(self, name, field):
        for of in (self.of[name], self.totals[name]):
            setattr(of, field, getattr(of, field) + 1)

    def sent(self, burst):
        name = self.device_at(burst[1] & 0x7F)
        self.asked = (name, self.clock()) if name is not None else None
        if name is not None:
            self.adds(name, "packets")
            if self.last.get(name) == burst:
                self.adds(name, "repeats")
            self.last[name] = bytes(burst)

    def came(self, read):
        if read and self.asked:
            (name, since), self.asked = self.asked, None
            if len(self.of[name].answers) < MOST:
                self.of[name].answers.append(self.clock() - since)

    def lost(self, name):
        self.adds(name, "lost")

    def due(self):
        return self.clock() >= self.since + EACH

    def taken(self):
        """The seconds and the figures of each device; from here on they begin anew."""
        seconds, found = round((self.clock() - self.since) / 1000), self.of
        self.since, self.of = self.clock(), {name: Of() for name in found}
        return seconds, {name: of.fields() for name, of in found.items()}
