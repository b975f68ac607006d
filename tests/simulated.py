"""A line in simulated time: the panel and the readers of `osdp-port`, with `osdp` beside each, and ports that are only written down.

A burst comes to the other ends of the same rate after some milliseconds, unless it is lost. No terminal and no clock takes part, so that a minute on
the line takes a second or less."""
import sys
from pathlib import Path

from terminals import without_order

TOP = Path(__file__).resolve().parent.parent
sys.path.insert(0, str(TOP / "port"))
sys.dont_write_bytecode = True

from osdp_port.console import Typed  # noqa: E402
from osdp_port.faults import Stop  # noqa: E402
from osdp_port.keep import PanelPlaces, ReaderPlace  # noqa: E402
from osdp_port.devices import first_rate, new_devices  # noqa: E402
from osdp_port.panel import Panel  # noqa: E402
from osdp_port.program import Lines  # noqa: E402
from osdp_port.reader import Reader  # noqa: E402
from osdp_port.serial_port import has_rate  # noqa: E402

DELAY = 5  # milliseconds that a burst takes


class Port:
    """A port of a simulated line."""

    def __init__(self, line, rate):
        self.line, self.rate, self.is_there, self.has_own_rate = line, rate, True, True

    def write(self, burst):
        if self.is_there:
            self.line.goes(self, burst)

    @staticmethod
    def may_have(rate):
        return has_rate(rate)

    can_have = may_have

    def set_rate(self, rate):
        if has_rate(rate):
            self.rate = rate
        return has_rate(rate)


class Line:
    """The line, its ends and the moment."""

    def __init__(self, osdp, settings=(), loses=lambda way, burst: False):
        self.osdp, self.settings, self.loses = osdp, list(settings), loses
        self.now = 0
        self.on_the_way = []  # the moment at which a burst comes, to whom, and the burst
        self.panel, self.readers = None, {}
        self.numbered, self.told, self.acted, self.bursts = [], [], {}, []  # what the panel tells, and the same without the numbers of orders

    def clock(self):
        return self.now

    def add_panel(self, names, rate=9600, keep=None):
        kept = PanelPlaces(str(keep), is_new=not Path(keep).exists()) if keep else None
        try:
            devices = new_devices(names, rate, kept)
        except Stop:  # the program ends, and its store is free again
            if kept and kept.store:
                kept.close()
            raise
        self.panel = Panel(Port(self, first_rate(devices, rate)), Lines(self.osdp, ["panel", *self.settings]), devices, self.clock, self.says, kept)

    def says(self, line):
        self.numbered.append(line)
        self.told.append(without_order(line))

    def add_reader(self, address, rate=9600, serial=0, words=(), keep=None):
        kept = ReaderPlace(str(keep), not Path(keep).exists()) if keep else None
        place = kept.read() if kept else None
        address, rate = (place.address, place.rate) if place else (address, rate)
        if kept:
            kept.begins(address, rate)
        name, told = f"{address}.{len(self.readers)}", []
        self.acted[name] = told
        starts = lambda at: Lines(self.osdp, ["reader", "address", str(at), "serial", str(serial), *words])
        self.readers[name] = Reader(Port(self, rate), starts, address, self.clock, told.append, kept)
        return name

    def goes(self, port, burst):
        """A burst goes out, to all other ends of the same rate."""
        way = "out" if self.panel and port is self.panel.port else "in"
        self.bursts.append((way, burst))
        if self.loses(way, burst):
            return
        ends = [self.panel] if way == "in" else list(self.readers.values())
        for end in ends:
            if end and end.port.rate == port.rate and end.port.is_there:
                self.on_the_way.append((self.now + DELAY, end, burst))

    def step(self, until):
        """Goes to what comes next."""
        moment = self.panel.next_moment() if self.panel else None
        moments = [each for each in (moment, *(at for at, _, _ in self.on_the_way)) if each is not None]
        self.now = max(self.now, min([*moments, until]))
        come = [each for each in self.on_the_way if each[0] <= self.now]
        self.on_the_way = [each for each in self.on_the_way if each[0] > self.now]
        read = b""
        for _, end, burst in come:
            if end is self.panel:
                read += burst
            elif end in self.readers.values():
                end.turn(burst, [])
        if self.panel:
            self.panel.turn(read, [])

    def run(self, holds, seconds):
        """Goes on until something holds. Whether it has come to hold."""
        end = self.now + int(seconds * 1000)
        while not holds() and self.now < end:
            self.step(end)
        return holds()

    def order(self, line):
        self.panel.turn(b"", [Typed(line, self.now)])

    def all_open(self):
        return all(self.panel.rounds.is_reached(device) for device in self.panel.devices)

    def stop_panel(self):
        """The panel is killed: what it knew is gone, but for its file."""
        self.panel.program.process.kill()
        self.panel.program.close()
        if self.panel.kept:
            self.panel.kept.close()
        self.panel = None

    def stop_reader(self, name):
        reader = self.readers.pop(name)
        reader.program.process.kill()
        reader.program.close()
        if reader.kept:
            reader.kept.close()

    def close(self):
        for end in [self.panel, *self.readers.values()]:
            if end:
                end.program.close()
            if end and end.kept:
                end.kept.close()
