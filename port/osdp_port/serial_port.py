"""A serial port, by pyserial: opened for this program alone, set raw, and opened again where its adapter was
pulled."""
import errno
import fcntl
import os
import re
import termios
import time

from .faults import BAD_WORDS, NO_PROGRAM, Stop
from .owner import holders, others

try:
    import serial
except ImportError:
    serial = None

RATES = (9600, 19200, 38400, 57600, 115200, 230400)  # those of the standard
# how many bytes a read takes at most: a line to `osdp` has 8,192 characters at most, and a byte two of them
PIECE = 2048
MOST = 32 * PIECE  # how many bytes are read in a turn at most
AGAIN = 0.5  # after how many seconds a port that isn't there is tried again
LONGEST_AGAIN = 30.0  # .. one that was back and gone again each time, so that no log is filled by it
# a cause that keeps it from being opened is told where it has done so this often: the system may give a new
# port its rights a moment later
TELLS = 2
STAYS = 10.0  # after how many seconds a port that is back is there to stay
FAULTS = (OSError, ValueError, NotImplementedError, termios.error)  # what pyserial raises
# a port that a server has
SERVER = re.compile(r"(?:rfc2217|socket)://(?:\[[^]]+\]|[^:/\s]+):[0-9]{1,5}(?:[/?].*)?")
STOLEN_AGAIN = 10.0  # after how many seconds it is told again that bytes were taken


def needs_pyserial():
    if serial is None:
        raise Stop("pyserial isn't there: call  sudo apt-get install python3-serial", NO_PROGRAM)


def has_rate(rate):
    """Whether a port may have this rate, in bits for a second."""
    return rate in (serial.Serial.BAUDRATES if serial else RATES) and rate > 0


def sets_rate(path):
    """Whether the rate of a port is set here, and not by a server on the network."""
    return not path.startswith("socket://")


def has_taken(made, rate):
    """Whether an opened port has this rate, as far as the system tells: an adapter may take another one
    without a fault."""
    try:
        return termios.tcgetattr(made.fileno())[5] == getattr(termios, f"B{rate}")
    except (OSError, termios.error, AttributeError):
        return True  # it is a server's


def refusal(path, error):
    """What a port that can't be opened asks for."""
    cause = getattr(error, "errno", None)
    if path.startswith(("rfc2217://", "socket://")) and not SERVER.fullmatch(path):
        return f"{path} names no port of a server: rfc2217://HOST:PORT or socket://HOST:PORT"
    if "exclusively lock" in str(error) or cause in (16, 11):
        owners = holders(path)
        whose = " and ".join(owners) if owners else "another program, which this user may not see"
        return f"{path} is in use by {whose}: end it first"
    if cause == 13:
        return f"{path}: no permission: add yourself to dialout (sudo adduser $USER dialout) and log in again"
    if cause == 2:
        return f"{path} isn't there: ls -l /dev/serial/by-id tells which ports are"
    if cause in (25, 22) or "configure port" in str(error):
        return f"{path} is no serial port"
    return f"{path} can't be opened: {os.strerror(cause) if isinstance(cause, int) and cause else error}"


def pieces(read):
    """What was read, in pieces that a line to `osdp` has room for."""
    return [read[at:at + PIECE] for at in range(0, len(read), PIECE)]


class Port:
    """The port, and what it lost. `tell` gets the lines of what happens to it."""

    def __init__(self, path, rate, tell=lambda line: None):
        needs_pyserial()
        if not has_rate(rate):
            raise Stop(
                f"{path} has no rate {rate}: try {', '.join(map(str, RATES[:-1]))} or {RATES[-1]}", BAD_WORDS
            )
        self.path, self.rate, self.tell = path, rate, tell
        self.serial, self.tries_at, self.told_stolen = None, 0.0, -STOLEN_AGAIN
        self.taken = set()  # rates that it has taken since it was opened
        self.is_awaited = True  # whether it is opened again where it was pulled
        self.causes = {}  # why it couldn't be opened again, and how often
        self.again, self.back_at = AGAIN, -STAYS
        self.taps = []  # what else gets each burst that is sent, and the bytes that come
        try:
            self.open()
        except FAULTS as error:
            raise Stop(refusal(path, error)) from None

    @property
    def is_there(self):
        return self.serial is not None

    def open(self):
        """Opens the port, for this program alone: other programs are refused by a lock, and, but for root, by
        the system."""
        made = serial.serial_for_url(self.path, self.rate, timeout=0, do_not_open=True)
        if "://" not in self.path:
            made.exclusive = True
        if not self.path.startswith("rfc2217://"):  # pyserial has none there
            made.write_timeout = 2
        made.open()
        if not has_taken(made, self.rate):
            made.close()
            raise ValueError(f"its adapter can't be set to {self.rate}")
        if "://" not in self.path:
            try:
                fcntl.ioctl(made.fileno(), termios.TIOCEXCL)
            except OSError:
                pass  # a port without it still has the lock
            try:
                made.set_low_latency_mode(True)  # a USB adapter hands its bytes on at once
            except (*FAULTS, AttributeError):
                pass  # it has no such timer
        self.serial, self.taken = made, {self.rate}

    @property
    def has_own_rate(self):
        """Whether the rate is set here, and not by a server on the network."""
        return sets_rate(self.path)

    def may_have(self, rate):
        """Whether the port has this rate, or may be set to it."""
        return has_rate(rate) and (self.has_own_rate or rate == self.rate)

    def others(self):
        """Which other programs have it open already, and may take bytes from it."""
        return [] if "://" in self.path else others(self.path)

    def number(self):
        """The descriptor to wait on, where there is one."""
        try:
            return self.serial.fileno() if self.serial else None
        except (OSError, AttributeError, ValueError):
            return None

    def pulled(self):
        """The port has failed: it is closed, and tried again later."""
        try:
            self.serial.close()
        except (OSError, ValueError):
            pass
        now = time.monotonic()
        self.again = min(2 * self.again, LONGEST_AGAIN) if now < self.back_at + STAYS else AGAIN
        self.serial, self.tries_at = None, now + self.again
        self.causes = {errno.ENOENT: TELLS}
        self.tell(
            f"pulled {self.path}" + (": it is opened again as soon as it is back" if self.is_awaited else "")
        )

    def comes_back(self):
        """Tries to open a port that was pulled. Whether it is back."""
        if self.serial is None and time.monotonic() >= self.tries_at:
            try:
                self.open()
                self.back_at = time.monotonic()
                self.tell(f"back {self.path}")
                return True
            except FAULTS as error:
                self.tries_at = time.monotonic() + AGAIN
                self.tell_cause(error)
        return False

    def tell_cause(self, error):
        """Tells why a port that was pulled can't be opened again, each cause once. That it isn't there was
        told, and what is over at the next try isn't."""
        cause = getattr(error, "errno", None) or str(error)
        self.causes[cause] = self.causes.get(cause, 0) + 1
        if self.causes[cause] == TELLS:
            self.tell(f"not back: {refusal(self.path, error)}")

    def is_hung_up(self):
        """Whether the device is gone, which a read without bytes doesn't tell."""
        try:
            termios.tcgetattr(self.serial.fileno())
        except (OSError, termios.error, AttributeError):
            return True
        return False

    def read(self):
        """The bytes that have come."""
        read = self.read_some()
        for tap in self.taps:
            tap.came(read)
        return read

    def read_all(self):
        """All bytes that have come, up to a bound."""
        read = b""
        while len(read) < MOST and (piece := self.read()):
            read += piece
        return read

    def read_some(self):
        if self.serial is None:
            return b""
        read = b""
        try:
            # a port of RFC 2217 gives one byte at a time
            while len(read) < PIECE and (piece := self.serial.read(PIECE - len(read))):
                read += piece
        except (OSError, TypeError, ValueError):
            if not read:  # else the next read tells
                self.failed()
        return read

    def failed(self):
        """A read has failed: the port is gone, or another program has taken the bytes."""
        if self.is_hung_up():
            self.pulled()
        elif time.monotonic() - self.told_stolen >= STOLEN_AGAIN:
            self.told_stolen = time.monotonic()
            found = self.others()
            self.tell(
                f"bytes taken from {self.path} by {' and '.join(found) if found else 'another program'}:"
                " end it"
            )

    def write(self, burst):
        if self.serial is None:
            return
        try:
            self.serial.write(burst)
        except FAULTS:
            self.pulled()
            return
        for tap in self.taps:
            tap.sent(burst)

    def set_rate(self, rate):
        """Sets another rate. What was written goes out before, at the old one. Whether the port has taken it,
        or will when it is back; else it stays as it is."""
        if not self.may_have(rate):
            return False
        try:
            if self.serial is not None:
                self.serial.flush()
                self.serial.baudrate = rate
                if not has_taken(self.serial, rate):
                    raise ValueError(rate)
        except FAULTS as error:
            if isinstance(error, ValueError) or not self.is_hung_up():
                self.stays()
                return False
            self.pulled()
        self.rate = rate
        self.taken.add(rate)
        return True

    def can_have(self, rate):
        """Whether the port can be set to this rate. Where that isn't known it is set to it, and back: so no
        device is sent to a rate at which it isn't found."""
        before = self.rate
        if rate not in self.taken and self.set_rate(rate) and not self.set_rate(before):
            self.rate = before
            self.pulled()  # it is opened anew, at the rate before
        return self.is_there and rate in self.taken

    def stays(self):
        """Another rate wasn't taken: the port gets its old one again."""
        try:
            self.serial.baudrate = self.rate
        except FAULTS:
            pass  # the next read tells that it is gone

    def close(self):
        if self.serial is not None:
            try:
                self.serial.close()
            except (OSError, ValueError):
                pass
            self.serial = None
