"""The line of a capture as a whole: what came in all of its time, and in its busiest minute. Where it has no
moments nothing can be said of a second."""
from collections import namedtuple

from .pace import Came, turns

MINUTE = 60000
NEW = ("polls", "orders")  # rows of a timeline: packets that are no repeats

Run = namedtuple("Run", "number at stamp size")  # `at` is in whole milliseconds since the first run


class Line:
    """The runs of a capture that have a moment. `sizes` has how many bytes each run has, `rates` are those
    that the line may have, in bits a second: of several nobody knows when it had which."""

    def __init__(self, figures, sizes, rates):
        self.figures, self.rates = figures, rates
        self.rate = next(iter(rates)) if len(rates) == 1 else None
        firsts = {}
        for packet in figures.packets:
            firsts.setdefault(packet.run, packet)
        timed = [packet for packet in firsts.values() if packet.moment is not None]
        self.without = len(firsts) - len(timed)
        self.runs = [
            Run(
                packet.run,
                round((packet.moment - timed[0].moment) * 1000),
                packet.stamp,
                sizes[packet.run - 1],
            )
            for packet in timed
        ]
        self.at = {run.number: run.at for run in self.runs}

    def why_not(self):
        """Why nothing is said of a second; none where it can be said."""
        if not self.runs:
            return "the capture has no moments"
        back = next((run.number for before, run in zip(self.runs, self.runs[1:]) if run.at < before.at), None)
        if back is not None:
            return f"the moments of the capture go back at run {back}"
        return "the capture has one moment alone" if self.runs[-1].at == 0 else None

    def came(self, start, milliseconds, is_all=False):
        """What came in a time, without what came at its end; with it where it is the time of the whole
        capture."""
        def is_in(packet):
            return start <= self.at.get(packet.run, -1) < start + milliseconds + is_all
        packets = [packet for packet in self.figures.packets if is_in(packet)]
        devices = (
            sum(row in NEW and is_in(packet) for packet, row in device.points)
            for device in self.figures.devices.values()
        )
        return Came(
            milliseconds / 1000,
            sum(run.size for run in self.runs if start <= run.at < start + milliseconds + is_all),
            sum(packet.address is not None for packet in packets),
            sum(packet.kind == "refused" for packet in packets),
            turns(devices),
        )

    def whole(self):
        """The first run, and what came from its moment to that of the last run."""
        return self.runs[0], self.came(0, self.runs[-1].at, is_all=True)

    def busiest(self):
        """The run at which the busiest minute begins, the first one of several, and what came in it. None in
        a capture of a minute or less."""
        if self.runs[-1].at <= MINUTE:
            return None
        best, most, size, first = self.runs[0], 0, 0, 0
        for run in self.runs:
            size += run.size
            while self.runs[first].at <= run.at - MINUTE:
                size -= self.runs[first].size
                first += 1
            if size > most:
                best, most = self.runs[first], size
        return best, self.came(best.at, MINUTE)
