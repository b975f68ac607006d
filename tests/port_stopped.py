"""Programs of `osdp-port` that ask, and are stopped (SIGSTOP) while an answer comes: `find` and `test script`. What lay in the driver is taken for no answer that came in time,
and nothing is missed by it: `find` asks again, and a test ends. Takes the path of the program."""
import os
import select
import signal
import subprocess
import sys
import tempfile
import time
from pathlib import Path

import port_line
from port_line import ACK, COMSET, ID, IDENTITY, PDID, POLL, PORT, asks, faults
from terminals import Script, Terminal, crc_packet

STOPPED = 1.5  # seconds for which a program is stopped
EVERYBODY = 127


class Line:
    """A terminal with devices, by their addresses; each answers with a CRC alone. The first packet to an address of `stops` stops the program while it is answered."""

    def __init__(self, *words, devices=(5,), stops=()):
        self.terminal, self.devices, self.stops, self.asked = Terminal(), list(devices), set(stops), []
        self.script = Script(PORT, "--plain", "--osdp", port_line.osdp, self.terminal.path, 9600, *words, stderr=subprocess.PIPE)

    def replies(self, burst):
        """The reply of the device that is asked; the configuration address is the first one's."""
        at = self.devices[0] if burst[1] == EVERYBODY else burst[1]
        if at not in self.devices or not burst[4] & 4:
            return b""
        code, data = {ID: (PDID, IDENTITY), POLL: (ACK, b"")}.get(burst[5], (ACK, b""))
        return crc_packet(at | 0x80, burst[4] & 3, code, data)

    def takes(self, burst):
        self.asked.append(burst)
        reply, place = self.replies(burst), (burst[1], burst[5])
        if place in self.stops:
            self.stops.discard(place)
            os.kill(self.script.process.pid, signal.SIGSTOP)
            os.write(self.terminal.end, reply)
            time.sleep(STOPPED)
            os.kill(self.script.process.pid, signal.SIGCONT)
        elif reply:
            os.write(self.terminal.end, reply)

    def ends(self, seconds=40):
        """Runs it to its end. Its status, and what it has told on standard error."""
        until = time.monotonic() + seconds
        while self.script.process.poll() is None and time.monotonic() < until:
            self.terminal.note_rate()
            for burst in self.terminal.bursts() if select.select([self.terminal.end], [], [], 0.01)[0] else ():
                self.takes(burst)
            self.script.read()
        self.script.read()
        if self.script.process.poll() is None:
            self.script.process.kill()
            return None, ""
        self.terminal.close()
        return self.script.process.poll(), self.script.process.stderr.read().decode()


def finds():
    """A device whose first answer came while the program was stopped is found at once, and not after each address was asked at each rate."""
    line = Line("find", stops=[(EVERYBODY, ID)])
    status, _ = line.ends()
    asks(status == 0 and any(told.startswith("found address 5 rate 9600 check crc") for told in line.script.lines), f"find: {status}: {line.script.lines}")
    asks(line.stops == set() and len(line.asked) < 10, f"find: asked {len(line.asked)} times")


def sets_nothing():
    """A device that answers at the new place while the program is stopped is there all the same: no device is sent to it."""
    line = Line("--set-address", "7", "find", devices=(5, 7), stops=[(7, ID)])
    status, _ = line.ends()
    asks(status == 1 and any(told.startswith("another device answers at address 7 rate 9600: nothing is set") for told in line.script.lines), f"set: {status}: {line.script.lines}")
    asks(not any(burst[5] == COMSET for burst in line.asked), "set: a COMSET was sent")


def ends_a_test():
    """How long an answer took that came while the program was stopped isn't known: no verdict says that it was late, or in time, and the test ends with a sentence."""
    with tempfile.TemporaryDirectory() as folder:
        path = Path(folder) / "script"
        path.write_text("device 5\nsend POLL\nexpect ACK within 500\nsend POLL\nexpect ACK within 500\n")
        for stops, wanted in (((), 0), ([(5, POLL)], 1)):
            line = Line("test", "script", path, stops=stops)
            status, said = line.ends()
            polls = sum(burst[5] == POLL for burst in line.asked)
            asks((status, polls) == (wanted, 2 - wanted), f"test script, stopped at {stops}: status {status}, {polls} POLLs: {line.script.lines}: {said}")
            asks(("the program stood still for 1." in said) == bool(stops), f"test script, stopped at {stops}: {said}")
            asks(not any("within" in told or " ms" in told for told in line.script.lines) or not stops, f"test script, stopped at {stops}: {line.script.lines}")


def main(program):
    port_line.osdp = program
    for part in (finds, sets_nothing, ends_a_test):
        part()
    for fault in faults:
        print(f"port stopped: {fault}")
    print(f"port stopped: {len(faults)} faults")
    return 1 if faults else 0


if __name__ == "__main__":
    sys.exit(main(sys.argv[1]))
