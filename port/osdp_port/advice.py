"""What goes wrong on a panel's line, by what to do about it. Each sentence is told once for a device, until
its session opens again."""
from collections import deque

OFTEN = 40  # so many packets to a device are looked at


class Advice:
    """Watches what a panel sends, what comes and what is told. `ways` is how to search, and how to see what
    comes: by commands, where nothing else is given."""

    def __init__(self, say, port, ways=None):
        self.say, self.port, self.ways = say, port, ways
        self.sent_before = {}  # the last packet to each address
        self.repeats = {}  # of the last packets to each address, whether they were repeats
        self.came_since = 0  # bytes since the last packet went out, without its echo
        self.has_come = {}  # bytes that came after the last new packet to each address and its repeats
        self.told = set()
        self.reached = set()  # the devices whose sessions have opened since they were lost last
        self.last, self.address, self.echo = b"", None, 0

    def once(self, key, line):
        if key not in self.told:
            self.told.add(key)
            self.say(f"advice: {line}")

    def sent(self, burst):
        address = burst[1] & 0x7F
        is_repeat = self.sent_before.get(address) == burst
        self.repeats.setdefault(address, deque(maxlen=OFTEN)).append(is_repeat)
        if not is_repeat:
            self.has_come[address] = 0  # the packet before was answered
        self.sent_before[address], self.last, self.address = burst, burst, address

    def came(self, read):
        if not read:
            return
        if self.last and read.startswith(self.last):  # the adapter hands back what was sent
            self.echo += 1
            read = read[len(self.last):]
            if self.echo == 3:
                self.once("echo", "the adapter hands back what is sent: it does no harm")
        self.last = b""
        if read and self.address is not None:
            self.has_come[self.address] = self.has_come.get(self.address, 0) + len(read)
        repeats = self.repeats.get(self.address, ())
        if len(repeats) == OFTEN and sum(repeats) * 2 >= OFTEN - 2:
            self.once(
                (self.address, "late"),
                f"device {self.address} answers late: half of all packets are repeated; try reply-wait 400",
            )

    def heard(self, line):
        """A line of the panel was told."""
        words = line.split()
        if words[0] == "online":
            address = int(words[1])
            self.reached.add(address)
            self.told -= {each for each in self.told if each[0] == address}
            self.has_come[address] = 0
        elif words[0] == "lost" and len(words) == 3 and self.port.is_there:
            self.is_lost(int(words[1]), words[2])
        elif words[:2] == ["passed", "over"] or words[0] == "answered":
            self.is_refused(words[-2:], words[2] if words[0] == "passed" else words[1])

    def is_lost(self, address, cause):
        find, show = self.ways or (
            f"osdp-port {self.port.path} {self.port.rate} {command}" for command in ("find", "show")
        )
        if cause == "no-reply" and address in self.reached and not self.has_come.get(address):
            self.once(
                (address, "silent"),
                (
                    f"device {address} answered until now, and nothing comes any more: its power, or the two"
                    f" wires; if it was set anew, {find}"
                ),
            )
        elif cause == "no-reply" and address in self.reached:
            self.once(
                (address, "noise"),
                (
                    f"device {address} answered until now, and what comes can't be read: a loose wire, noise,"
                    f" or another device at its address; {show}"
                ),
            )
        elif cause == "no-reply" and not self.has_come.get(address):
            self.once(
                (address, "silent"),
                (
                    f"device {address} doesn't answer: its power, the two wires, its address, its rate, its"
                    f" check; {find}"
                ),
            )
        elif cause == "no-reply":
            self.once(
                (address, "noise"),
                (
                    f"bytes come, but no answer of device {address}: another rate or check, two devices at"
                    f" one address, an answer later than reply-wait, or noise; {show}, or {find}"
                ),
            )
        elif cause == "too-busy":
            self.once(
                (address, cause),
                f"device {address} is busy each time: wait until it has started, or give a larger busy-limit",
            )
        elif cause == "number-refused":
            self.once(
                (address, cause),
                (
                    f"device {address} keeps to another session: stop the other panel, or switch the device"
                    " off and on"
                ),
            )
        self.has_come[address] = 0
        self.reached.discard(address)

    def is_refused(self, words, address):
        if words == ["NAK", "6"] or words[0] == "block":
            self.once(
                (int(address), "secure"),
                f"device {address} demands Secure Channel, which isn't spoken here: set it to a mode without",
            )
        elif words == ["NAK", "1"]:
            self.once(
                (int(address), "check"), f"device {address} reads another check: try check sum, or check crc"
            )
