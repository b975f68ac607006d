"""When a turn of a panel or of a reader began, and whether the program stood still: it was stopped, nobody
read what it prints, or the computer slept.

What a turn reads is as old as the moment at which the turn began. That moment is taken after the wait, and
before anything is read."""
import time

CLOCK = getattr(time, "CLOCK_BOOTTIME", time.CLOCK_MONOTONIC)  # it goes on while the computer sleeps
START = time.clock_gettime(CLOCK)
LATE = 5000  # how late the program may be in milliseconds, where its words don't say otherwise
LONGEST = 1.0  # how long a wait is at most, in seconds
AGAIN = "it came while the program stood still; type it again"


def moment(seconds=None):
    """Milliseconds since the start, by a clock that never goes backwards, and goes on while the computer
    sleeps: a card of before its sleep is an old one. Of now, where no other moment of that clock is said."""
    return int(((time.clock_gettime(CLOCK) if seconds is None else seconds) - START) * 1000)


class Turns:
    """The turns of a program. `clock` tells the moment, which goes on while the computer sleeps."""

    def __init__(self, clock, late):
        self.clock, self.late, self.now = clock, late, clock()
        # for how many milliseconds it did before this turn; 0 where it did not for longer than it may be late
        self.stood_still = 0

    def begins(self, began, seconds):
        """A turn begins, after a wait of so many seconds at most, which began at a moment."""
        before, self.now = self.now, self.clock()
        is_late = began - before > self.late or self.now - began > 1000 * seconds + self.late
        self.stood_still = self.now - before if is_late else 0

    def has_read(self):
        """All that is there was read. Where the program stood still since the turn began, what was read is of
        long ago too."""
        if self.clock() - self.now > self.late:
            self.stood_still = self.clock() - self.now


class Timed:
    """What a reader knows of time."""

    def __init__(self, clock):
        self.clock, self.late, self.now = clock, LATE, clock()

    def begins(self, now):
        """A turn begins; now, where its moment isn't said."""
        self.now = self.clock() if now is None else now

    def is_late(self):
        """Whether the turn began too long ago: an answer of it isn't written any more, and no order of it is
        done."""
        return self.clock() - self.now > self.late


class Watched:
    """A port, and for how long the program stood still between two calls of it, in seconds: what came
    meanwhile lay in the driver, and nobody knows how long it took."""

    def __init__(self, port):
        self.port, self.last, self.longest = port, time.clock_gettime(CLOCK), 0.0

    def begins(self):
        """From now on it is watched."""
        self.last, self.longest = time.clock_gettime(CLOCK), 0.0

    def looks(self):
        before, self.last = self.last, time.clock_gettime(CLOCK)
        self.longest = max(self.longest, self.last - before)

    def read(self):
        self.looks()
        read = self.port.read()
        self.looks()
        return read

    def write(self, burst):
        self.looks()
        self.port.write(burst)
        self.looks()

    def number(self):
        return self.port.number()

    def set_rate(self, rate):
        return self.port.set_rate(rate)

    @property
    def path(self):
        return self.port.path

    @property
    def rate(self):
        return self.port.rate

    @property
    def is_there(self):
        return self.port.is_there

    @property
    def has_own_rate(self):
        return self.port.has_own_rate
