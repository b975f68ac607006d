"""The moment, and whether the program stood still: it was stopped (Ctrl-Z), nobody read what it prints (Ctrl-S), its disk was slow, or the computer slept."""
import math
import select
import time

CLOCK = getattr(time, "CLOCK_BOOTTIME", time.CLOCK_MONOTONIC)  # it goes on while the computer sleeps: a card of before its sleep is an old one
LONGEST = 1.0  # how long a wait is at most, in seconds


def moment():
    """Milliseconds by a clock that never goes backwards."""
    return int(time.clock_gettime(CLOCK) * 1000)


class Turns:
    """The turns of a program. What a turn reads, and each packet that it makes, is as old as the moment at which the turn began."""

    late = 5000  # how late a program may be, in milliseconds; the option `--late` says otherwise

    def __init__(self):
        self.now, self.stood_still = moment(), False

    def wait(self, ends, seconds):
        """Waits for these ends, so many seconds at most, and begins a turn. Its moment is taken after the wait, and before anything is read.
        The ends that are ready."""
        seconds, began, before = min(LONGEST, LONGEST if seconds is None else seconds), moment(), self.now
        ready = select.select(ends, [], [], seconds)[0]
        self.now = moment()
        self.stood_still = began - before > self.late or self.now - began > 1000 * seconds + self.late
        return ready

    def is_old(self, since):
        """Whether more time has passed since a moment than the program may be late."""
        return moment() - since > self.late

    def is_late(self):
        """Whether the turn began too long ago: a packet of it isn't written any more, and no order of it is done."""
        return self.late < math.inf and moment() - self.now > self.late
