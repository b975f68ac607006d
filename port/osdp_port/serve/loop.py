"""The loop of a line's service: it waits for the port, the broker and what is due, and does a turn."""
import os
import select
import time

from ..turns import LONGEST, Turns

END = 5.0  # so many seconds outstanding orders have to end once the service is to end
GOODBYE = 2.0  # .. and what is left may take to go to the broker


def is_ready(number):
    """Whether a descriptor has something to be read."""
    return number is not None and bool(select.select([number], [], [], 0)[0])


class Loop:
    """The loop. `manager` is told that it goes on."""

    def __init__(self, service, port, console, clock, late, manager):
        self.service, self.port, self.console, self.clock, self.manager = service, port, console, clock, manager
        self.turns = Turns(clock, late)
        self.ended_at = None

    def seconds(self):
        """How long nothing is due."""
        service = self.service
        moments = [service.line.next_moment(), service.orders.next_moment()]
        due = min((moment for moment in moments if moment is not None), default=None)
        wait = LONGEST / 2 if due is None else min(LONGEST / 2, max(0, due - self.clock()) / 1000)
        if service.broker.has_read():
            return 0
        # a port without a descriptor is looked at again and again
        return min(wait, 0.005 if self.port.number() is None and self.port.is_there else wait)

    def waits(self, seconds):
        broker = self.service.broker
        wakes = [self.console.wakes, broker.wakes]
        reads = [*wakes, *(number for number in (self.port.number(), broker.number()) if number is not None)]
        writes = [broker.number()] if broker.wants_write() and broker.number() is not None else []
        try:
            ready = select.select(reads, writes, [], seconds)[0]
            for each in wakes:
                if each in ready:
                    os.read(each, 16)
        except OSError:
            time.sleep(0.01)  # a descriptor has gone: its read tells that

    def turn(self):
        seconds, began = self.seconds(), self.clock()
        self.waits(seconds)
        self.port.comes_back()
        self.turns.begins(began, seconds)
        read = self.port.read_all()
        self.turns.has_read()
        broker = self.service.broker
        self.service.turn(
            read, self.turns.stood_still, self.turns.now, lambda: is_ready(broker.number()) or broker.has_read()
        )
        self.manager.turned()

    def goes_on(self):
        """Turns, until the service is to end and its outstanding orders have their ends."""
        while True:
            if self.console.stops:
                self.ended_at = self.ended_at or time.monotonic()
                if self.service.line.ends() or time.monotonic() > self.ended_at + END:
                    break
            self.turn()
        self.service.gives_up()
        end = time.monotonic() + GOODBYE
        while self.service.has_more() and time.monotonic() < end:
            self.turn()
        self.service.ends()
