"""A line for the tests of the page: pseudo terminals that a thread joins, with what goes over them and when; and a device whose sixteen addresses are played here."""
import os
import select
import sys
import termios
import threading
import time
from pathlib import Path

sys.path.insert(0, str(Path(__file__).resolve().parent.parent / "port"))
from osdp_port.testing import packet as packed  # noqa: E402
from port_line import Line  # noqa: E402

PDCAP = bytes.fromhex("46" + "010102" + "020102" + "040401" + "080100")
STATES = {0x64: b"\x48\x00\x00", 0x65: b"\x49\x00\x00", 0x66: b"\x4A\x00\x00", 0x67: b"\x4B\x00"}
CARD = bytes.fromhex("5000001A0088112240")[:5] + bytes.fromhex("88112240")


class Relayed(Line):
    """A line whose bursts are carried by a thread of its own. `sent` has the moment of each burst of the panel's end."""

    def __init__(self, readers=1):
        super().__init__(readers)
        self.sent, self.is_over = [], False
        self.thread = threading.Thread(target=self.carries, daemon=True)

    def __enter__(self):
        self.thread.start()
        return self

    def __exit__(self, *words):
        self.is_over = True
        self.thread.join()
        super().__exit__(*words)

    def carries(self):
        while not self.is_over:
            self.run(lambda: self.is_over, 0.5)

    def hand_on(self, way, source, others):
        """Carries what was written, whether it is a packet or not: a test sends other bytes too."""
        burst = os.read(source.end, 65536)
        if way == "out":
            self.sent.append(time.monotonic())
        for other in others:
            if other.rate == source.rate and not self.loses(way, burst):
                os.write(other.end, burst)

    @staticmethod
    def waits(until, seconds=60.0):
        """Waits while the thread carries. Whether it has come to hold."""
        end = time.monotonic() + seconds
        while not until() and time.monotonic() < end:
            time.sleep(0.02)
        return until()

    def rests(self, seconds):
        time.sleep(seconds)

    def stops(self, script, number=2):
        script.process.send_signal(number)
        return script.process.wait(30)


class Sixteen:
    """Sixteen devices at one pseudo terminal, each with a card once a second."""

    def __init__(self, end, addresses=range(16)):
        self.end, self.held, self.is_over = end, b"", False
        self.last = {address: (b"", b"") for address in addresses}
        self.card_at = {address: time.monotonic() + 3 + address / 16 for address in addresses}
        self.sent = []  # the moment of each packet to them
        self.cards = 0
        self.thread = threading.Thread(target=self.goes, daemon=True)

    def __enter__(self):
        self.thread.start()
        return self

    def __exit__(self, *_):
        self.is_over = True
        self.thread.join()

    def goes(self):
        while not self.is_over:
            if not select.select([self.end], [], [], 0.05)[0]:
                continue
            self.held += os.read(self.end, 65536)
            while len(self.held) >= 4 and len(self.held) >= (size := int.from_bytes(self.held[2:4], "little")):
                whole, self.held = self.held[:size], self.held[size:]
                self.sent.append(time.monotonic())
                if whole[1] in self.last:
                    os.write(self.end, self.answer(whole))

    def answer(self, whole):
        """The answer to a packet; the same again where the packet comes again."""
        address, number, code = whole[1], whole[4] & 3, whole[5]
        if self.last[address][0] == whole:
            return self.last[address][1]
        if code == 0x60 and number and time.monotonic() >= self.card_at[address]:
            self.card_at[address] += 1.0
            self.cards += 1
            body = CARD
        elif code == 0x61:
            body = bytes.fromhex("4553494D0101") + address.to_bytes(4, "little") + bytes((1, 0, 0))
        else:
            body = {0x62: PDCAP, **STATES}.get(code, b"\x40")
        said = packed(address, number, body, "crc", True)
        self.last[address] = (whole, said)
        return said


def rate_of(terminal):
    return termios.tcgetattr(terminal.other)[5]
