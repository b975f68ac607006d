"""What goes over the line, as `osdp show` prints it: each line with its moment; POLL and ACK, and other
devices, may be left out."""
import re
import threading
from collections import deque

from .console import stamp
from .program import Stream

LINE = re.compile(r"(\d+):(\d+) (.*)")
OF_DEVICE = re.compile(r"(?:cmd|reply) (\d+) ")
# so many bytes with nothing but skips and refusals are of another rate, or no bytes of the line
HOPELESS = 1000


class Shown(Stream):
    """`osdp show` beside the program. Each burst is a run of it."""

    def __init__(self, path, console, address=None, is_all=False):
        self.address, self.is_all = address, is_all
        # the moments of the runs whose lines may come, and the number of the first one
        self.runs, self.first = deque(), 1
        self.bytes = self.packets = 0
        self.is_hopeless = False  # whether that was told: once
        self.lock = threading.Lock()
        super().__init__(path, ["show"], console)

    def takes(self, since, _, burst):
        with self.lock:
            self.runs.append(since)
            self.bytes += len(burst)
        self.write(burst.hex().encode() + b"\n")

    def prints(self, line):
        """Prints a line of a run, unless it is left out."""
        found = LINE.match(line)
        if not found:
            return
        run, text = int(found[1]), found[3]
        with self.lock:
            while self.first < run and len(self.runs) > 1:
                self.runs.popleft()
                self.first += 1
            since = self.runs[0] if self.runs else None
        device = OF_DEVICE.match(text)
        self.packets += bool(device)
        if self.packets == 0 and self.bytes >= HOPELESS and not self.is_hopeless:
            self.is_hopeless = True
            self.console.note(
                f"{self.bytes} bytes and no packet: another rate, or the two wires are swapped; osdp-port"
                " PORT RATE find tells the rate"
            )
        if self.address is not None and (not device or int(device[1]) != self.address):
            return
        if self.is_all or not text.endswith((" POLL", " ACK")):
            self.console.raw(f"{stamp(since)} {text}" if self.console.has_times and since else text)
