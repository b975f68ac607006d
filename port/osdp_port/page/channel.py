"""Between the process that has the port and the one that speaks to browsers: facts go there, commands come back.

The process at the port waits for nobody. A fact is put into a queue of a bound, and a thread writes what the queue has. Where the other process is slow the oldest
bursts are left out, and how many is told; what is said and what becomes of orders isn't."""
import json
import os
import sys
import threading
import time
from collections import deque
from pathlib import Path

from ..program import start

TOGETHER = 0.04  # seconds that facts are gathered before they are written
MOST = 4000  # so many bursts wait at most
MOST_TOLD = 20000  # .. and so many other facts


class Channel:
    """Facts to the other process, and commands from it. `takes` gets each command, in a thread of its own."""

    def __init__(self, settings, takes):
        self.takes, self.is_over = takes, False
        self.bursts, self.told, self.left_out = deque(), deque(maxlen=MOST_TOLD), 0
        self.lock, self.has_some = threading.Lock(), threading.Event()
        folder = str(Path(__file__).resolve().parent.parent.parent)
        environment = {**os.environ, "PYTHONPATH": folder, "PYTHONDONTWRITEBYTECODE": "1"}
        self.process = start(sys.executable, ["-m", "osdp_port.page.server"], env=environment)
        self.process.stdin.write(json.dumps(settings).encode() + b"\n")
        self.threads = [threading.Thread(target=each, daemon=True) for each in (self.writes, self.reads)]

    def begins(self):
        for thread in self.threads:
            thread.start()

    def burst(self, since, way, data):
        """A burst that went over the line. Its moment is that which a trace has."""
        with self.lock:
            self.bursts.append((time.monotonic(), [int(since * 1000) / 1000, way, data.hex()]))
            if len(self.bursts) > MOST:
                self.bursts.popleft()
                self.left_out += 1
        self.has_some.set()

    def tells(self, kind, **what):
        """Anything else that has happened."""
        with self.lock:
            self.told.append((time.monotonic(), {"kind": kind, "at": round(time.time(), 3), **what}))
        self.has_some.set()

    def taken(self):
        """What waits, as it is written: in the order in which it came."""
        with self.lock:
            waiting = sorted([*self.bursts, *self.told], key=lambda each: each[0])
            left_out, self.left_out = self.left_out, 0
            self.bursts.clear()
            self.told.clear()
        return [each for _, each in waiting] + ([{"kind": "left out", "count": left_out}] if left_out else [])

    def writes(self):
        while not self.is_over:
            self.has_some.wait()
            time.sleep(TOGETHER)
            self.has_some.clear()
            facts = self.taken()
            try:
                self.process.stdin.write(json.dumps(facts).encode() + b"\n")
                self.process.stdin.flush()
            except (OSError, ValueError):
                return  # it has ended, and its output ends too

    def reads(self):
        for line in self.process.stdout:
            self.takes(json.loads(line))
        self.is_over = True
        self.takes({"do": "gone"})

    def ends(self):
        """What was told comes out, and the other process ends."""
        end = time.monotonic() + 1.0
        while (self.told or self.has_some.is_set()) and time.monotonic() < end:
            time.sleep(TOGETHER)
        self.is_over = True
        try:
            self.process.stdin.close()
        except OSError:
            pass
        try:
            self.process.wait(3)
        except Exception:  # noqa: BLE001  it ends in any case
            self.process.kill()
