"""Pulses: each second the service tells its own clock. An order that names the last one that its sender has seen
was made after that. So its time is over in time wherever it lay, and nobody's clock must agree with another's."""
import secrets
import time

from .messages import Rejected

SECOND = 1000  # milliseconds


def boot():
    """The start of this computer, from which its clock counts. Where the system doesn't tell it, a pulse is of
    this run alone."""
    try:
        with open("/proc/sys/kernel/random/boot_id", encoding="ascii") as file:
            return file.read().strip()
    except OSError:
        return secrets.token_hex(16)


BOOT = boot()


def clock():
    """Milliseconds since the start of this computer. It goes on while that sleeps, and over restarts of the
    service."""
    return int(time.clock_gettime(time.CLOCK_BOOTTIME) * SECOND)


def told():
    """The pulse of this moment."""
    return f"{BOOT}:{clock()}"


def until(since, key, now):
    """Until when an order goes that names a pulse and seconds, by the moments of the service; none where it
    names none."""
    if since is None:
        return None
    pulse, seconds = since
    of_boot, _, moment = pulse.rpartition(":")
    if of_boot != BOOT:
        raise Rejected("the pulse is of another start of the computer: take the last one", key)
    age = max(0, clock() - int(moment))
    return now - age + SECOND * seconds
