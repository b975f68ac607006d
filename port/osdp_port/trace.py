"""Traces: files to which each burst is appended, as lines of digits for `osdp show`, or as lines of
`.osdpcap`. A file that is full is put aside.

And the lines of a test, in a file that is begun anew. Where either file can't be written, what it is beside
goes on, and the end tells."""
import errno
import json
import os
import time

from .faults import Stop
from .keep import private

GAP = 0.02  # after how many seconds of silence a burst is over


def digits(since, way, burst):
    """A burst as `osdp show` reads it: a line of digits, after a comment that has its moment and its way."""
    stamp = time.strftime("%Y-%m-%dT%H:%M:%S", time.gmtime(since))
    return f"# {stamp}.{int(since * 1000) % 1000:03}Z {way}\n{burst.hex().upper()}\n"


def begun(path):
    """A file for the lines of a test, begun anew. A trace of a line isn't: nobody can take it again."""
    if os.path.isfile(path):
        with open(path, "rb") as file:
            if file.read(10).startswith((b"# rate ", b'{"timeSec"')):
                raise Stop(f"{path} has a trace of a line, which a test would begin anew: name another file")
    return open(path, "w", encoding="utf-8", opener=private)


class Record:
    """The lines of a test, in a file; in none where no path is given."""

    def __init__(self, path):
        self.path, self.fault = path, None
        self.file = begun(path) if path else None

    def write(self, line):
        if self.file and not self.fault:
            self.tries(lambda: (self.file.write(line + "\n"), self.file.flush()))

    def tries(self, does):
        try:
            does()
        except OSError as error:
            self.fault = self.fault or error.strerror

    def ended(self):
        """Why the file hasn't all lines, in a sentence, where it hasn't."""
        if self.file:
            self.tries(self.file.close)
        return f"the trace can't be written: {self.path}: {self.fault}" if self.fault else None


def rate_line(rate):
    """A comment that tells the rate of what comes after it, in bits a second."""
    return f"# rate {rate}\n"


def osdpcap(since, way, burst):
    """A burst as an object of a line, as other tools of OSDP read it."""
    whole = int(since * 1000000)
    return (
        json.dumps(
            {
                "timeSec": str(whole // 1000000),
                "timeNano": f"{whole % 1000000 * 1000:09}",
                "io": {"in": "input", "out": "output"}.get(way, "trace"),
                "data": burst.hex("-").upper(),
                "osdpTraceVersion": "1",
                "osdpSource": "osdp-port",
            }
        )
        + "\n"
    )


class Bursts:
    """Puts together the bytes that come with less than the gap between them. `takes` gets each whole burst:
    its first moment, its way and its bytes."""

    def __init__(self, takes, way="in"):
        self.takes, self.way = takes, way
        self.held, self.since, self.last = b"", None, 0.0

    def flush(self):
        if self.held:
            held, self.held = self.held, b""
            self.takes(self.since, self.way, held)

    def sent(self, burst):
        self.flush()
        self.takes(time.time(), "out", burst)

    def came(self, read):
        """Bytes have come, or none."""
        if time.monotonic() - self.last >= GAP or len(self.held) > 2048:
            self.flush()
        if read:
            self.since, self.last = self.since if self.held else time.time(), time.monotonic()
            self.held += read


class Trace:
    """A file of bursts. At `size` bytes it is renamed to FILE.1, in the place of the one before, and begun
    anew.

    Lines of digits have the line's rate above them, once and after each new one. `rate` tells it, and may
    tell none."""

    def __init__(self, path, size, tell, form=digits, rate=lambda: None):
        self.path, self.size, self.tell, self.form, self.rate = path, size, tell, form, rate
        self.count = self.bytes = 0
        try:
            self.open()
        except OSError as error:
            raise Stop(f"the trace can't be opened: {self.path}: {error.strerror}") from None

    def open(self):
        self.named = None  # the rate that this file has told last
        self.file = open(self.path, "a", encoding="ascii", opener=private)

    def is_moved(self):
        """Whether the file has another name now, or none, as where a program puts logs aside."""
        try:
            return not os.path.samestat(os.fstat(self.file.fileno()), os.stat(self.path))
        except OSError as error:
            return error.errno == errno.ENOENT

    def takes(self, since, way, burst):
        if self.file is None:
            return
        try:
            if self.is_moved():
                self.file.close()
                self.open()
            if self.form is digits and self.rate() != self.named:
                self.named = self.rate()
                self.file.write(rate_line(self.named))
            self.file.write(self.form(since, way, burst))
            self.file.flush()
            self.count, self.bytes = self.count + 1, self.bytes + len(burst)
            if self.file.seekable() and self.file.tell() >= self.size:  # a pipe is never full
                self.put_aside()
        except OSError as error:
            self.fails(error)

    def put_aside(self):
        """The file is full: it gets another name, and is begun anew."""
        self.file.close()
        os.replace(self.path, f"{self.path}.1")
        self.open()
        self.tell(f"the trace is full and goes on: the part before is {self.path}.1")

    def fails(self, error):
        self.file = None
        self.tell(f"the trace can't be written, and ends: {self.path}: {error.strerror}")

    def ended(self):
        """What was written, in a sentence. Whether all was says `file`, which is none then."""
        try:
            if self.file:
                self.file.close()
        except OSError as error:
            self.fails(error)
        return f"trace {self.path}: {self.count} bursts, {self.bytes} bytes"
