"""What goes over a line in a time: the share of the time in use, and packets, damage and turns of the panel a
second."""
from collections import namedtuple
from math import floor, log10

BITS = 10  # of a byte on the line: a start bit, eight bits and a stop bit

Came = namedtuple("Came", "seconds bytes packets damaged turns")


def turns(devices):
    """How often the panel came round: its packets to the device with the most of them. `devices` has how many
    each device got, without repeats.

    A device that is gone gets repeats alone, so the device with the fewest tells nothing."""
    return max(devices, default=0)


def in_use(came, rate):
    """The share of the time in which bytes went over the line at so many bits a second, of a hundred: at most
    all of it."""
    return min(100.0, 100 * came.bytes * BITS / (rate * came.seconds))


def figure(number):
    """A number with one digit after the point; a smaller one that isn't 0 with its first digit."""
    return f"{number:.{1 if number == 0 or number >= 0.05 else -floor(log10(number))}f}"


def words(came, rate):
    """What came, in words. Without the rate nothing is said of the share of time."""
    share = "" if rate is None else f"{in_use(came, rate):.0f}% of the time in use; "
    packets, damaged, rounds = (
        figure(count / came.seconds) for count in (came.packets, came.damaged, came.turns)
    )
    return f"{share}a second {packets} packets, {damaged} damaged, {rounds} turns of the panel"
