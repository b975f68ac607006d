"""What a capture comes to: for each device its answer times, its repeats and when it was heard, and of the
monitor's lines what each is about."""
import datetime
import re
from collections import namedtuple

from .report_pace import Line

Packet = namedtuple("Packet", "moment stamp way run place kind address sequence check text")
Told = namedtuple("Told", "run place party address text lines")
TOLD = re.compile(r"^(\d+):(\d+) (device|panel to|reader) (\d+): (.*)$")
EVENTS = ("RAW", "FMT", "KEYPAD")
PLAIN = ("POLL", "ACK")
SILENT = 3  # so many packets in a row without an answer: the device is offline
LATE = "a late answer"
RESTARTED = "restarted"
REACH = 200  # so many items before an answer are looked at


def seconds(stamp):
    """The moment that a stamp tells, in seconds: a date and a time, a time of the day, or a number of 15
    digits at most. None where it tells none."""
    if stamp is None:
        return None
    text = stamp.strip().strip("[]()")
    if re.fullmatch(r"[0-9]{1,15}(\.[0-9]+)?", text):
        return float(text)
    found = re.search(r"(?<![0-9])([0-9]{1,9}):([0-9]{2}):([0-9]{2}(?:[.,][0-9]+)?)", text)
    if found is None:
        return None
    day = re.search(r"(\d{4})-(\d\d)-(\d\d)", text)
    try:
        days = datetime.date(*map(int, day.groups())).toordinal() if day else 0
    except ValueError:
        days = 0
    return days * 86400 + int(found[1]) * 3600 + int(found[2]) * 60 + float(found[3].replace(",", "."))


def rank(times, hundredth):
    """Of times in their order, the least that as many of a hundred are not above."""
    return times[max(0, -(-len(times) * hundredth // 100) - 1)]


def late_answer(before, answer):
    """Of a late answer, in seconds: how long it took, and how long the panel waited. Each copy of a packet is
    answered once, in their order."""
    copies, replies, after = [], 0, None
    for packet in reversed(before):
        if packet.address != answer.address:
            continue
        if packet.sequence == answer.sequence:
            if packet.kind == "cmd":
                copies.insert(0, packet)
            replies += packet.kind == "reply"
        elif packet.kind == "cmd":
            if copies:
                break
            after = packet
    following = copies[1] if len(copies) > 1 else after
    if (
        replies >= len(copies)
        or following is None
        or None in (copies[0].moment, copies[replies].moment, following.moment, answer.moment)
    ):
        return None
    return answer.moment - copies[replies].moment, following.moment - copies[0].moment


class Device:
    """What is known of an address."""

    def __init__(self, address):
        self.address = address
        self.asked = self.answered = self.repeats = self.events = 0
        self.orders = self.damaged = self.unanswered = 0
        self.times = []  # of its answers, in seconds
        self.last = None  # the last packet to it
        self.waiting = 0  # how many packets were sent to it since it answered the last one
        self.heard = None  # its last reply
        self.points = []  # of its timeline: a packet and the row that it stands in

    def asks(self, packet):
        self.asked += 1
        is_repeat = self.last is not None and self.last[6:] == packet[6:]
        self.repeats += is_repeat
        self.unanswered += 1
        self.orders += not is_repeat and packet.text not in PLAIN
        self.last, self.waiting = packet, self.waiting + 1
        self.points.append(
            (packet, "repeats" if is_repeat else "polls" if packet.text in PLAIN else "orders")
        )

    def answers(self, packet):
        self.answered += 1
        self.unanswered = 0
        self.heard = packet
        is_event = packet.text.split(" ")[0] in EVENTS
        self.events += is_event
        self.takes_time(packet)
        self.points.append((packet, "cards and keys" if is_event else "answers"))

    def takes_time(self, packet):
        """Keeps how long the answer took, where it answers the one packet that waits: of several nobody knows
        which."""
        sent = self.last
        if sent is None or packet.sequence != sent.sequence and packet.text != "BUSY":
            return
        waiting, self.waiting = self.waiting, 0
        if (
            waiting == 1
            and sent.run != packet.run
            and None not in (sent.moment, packet.moment)
            and packet.moment >= sent.moment
        ):
            self.times.append(packet.moment - sent.moment)

    def damage(self, packet):
        self.damaged += 1
        self.points.append((packet, "damage"))

    def is_online(self):
        return self.heard is not None and self.unanswered < SILENT


class Heard:
    """The devices of a line, as its packets, skipped bytes and refused bytes come, one after the other.
    `made` makes a device at an address."""

    def __init__(self, made=Device):
        self.devices, self.made = {}, made
        # the device that was asked last, and whether damage has come since
        self.asked, self.was_damage = None, False

    def takes(self, packet):
        if packet.address is None:
            if packet.kind == "refused" and self.asked is not None and not self.was_damage:
                self.asked.damage(packet)
            self.was_damage = self.was_damage or packet.kind == "refused"
            return
        self.was_damage = False
        if packet.address not in self.devices:
            self.devices[packet.address] = self.made(packet.address)
        device = self.devices[packet.address]
        if packet.kind == "cmd":
            device.asks(packet)
            self.asked = device
        else:
            device.answers(packet)
            self.asked = None


class Figures:
    """The packets of a capture, what is told of them, each device, and the line as a whole."""

    def __init__(self, packets, told, echoes, sizes, rates):
        self.packets, self.echoes = packets, echoes
        self.heard = Heard()
        self.devices = self.heard.devices
        self.places = {}  # where a packet stands in the list, by its run and place
        self.read_told(told)
        self.read_packets()
        self.diagnoses = [self.with_period(each) for each in self.diagnoses]
        self.line = Line(self, sizes, rates)

    def read_told(self, told):
        self.told, self.diagnoses, self.table = [], [], []
        for line in told.splitlines():
            found = TOLD.match(line)
            if found:
                self.told.append(Told(int(found[1]), int(found[2]), found[3], int(found[4]), found[5], []))
            elif line.startswith("     ") and self.told and not self.table:
                self.told[-1].lines.append(line.strip())
            elif line.startswith("diagnosis: "):
                self.diagnoses.append(line[11:])
            elif line.startswith(("device ", "runs ")) or self.table:
                self.table.append(line)

    def read_packets(self):
        for at, packet in enumerate(self.packets):
            self.places[packet.run, packet.place] = at
            self.heard.takes(packet)

    def rows(self):
        """The devices that the monitor's table has, in their order: damage alone makes no device."""
        known = {int(line.split()[0]) for line in self.table if re.match(r"\d+ ", line)}
        return [device for address, device in sorted(self.devices.items()) if address in known]

    def restarts(self, address):
        """The moments of a device's restarts, in seconds, as far as they have one."""
        places = [
            self.places.get((each.run, each.place))
            for each in self.told
            if each.address == address and each.text == RESTARTED
        ]
        return sorted(
            self.packets[at].moment for at in places if at is not None and self.packets[at].moment is not None
        )

    def with_period(self, diagnosis):
        """A diagnosis; where it counts restarts, with the median of the times between them."""
        found = re.fullmatch(r"(\d+) restarted (\d+) times", diagnosis)
        moments = self.restarts(int(found[1])) if found else []
        if not found or len(moments) < int(found[2]):
            return diagnosis
        return (
            f"{diagnosis}, every"
            f" {rank(sorted(later - one for one, later in zip(moments, moments[1:])), 50):.0f} s"
        )

    def accusations(self):
        return [each for each in self.told if each.party != "device"]

    def late(self):
        """Of each device whose answers come late, how long each took, and how long the panel waited."""
        found = {}
        for each in self.told:
            at = self.places.get((each.run, each.place))
            if at is not None and each.text.startswith(LATE):
                times = late_answer(self.packets[max(0, at - REACH):at], self.packets[at])
                if times is not None:
                    found.setdefault(each.address, []).append(times)
        return sorted(found.items())

    def around(self, told):
        """The packet that is told of, and the four packets before it to that address or from it."""
        at = self.places.get((told.run, told.place))
        if at is None:
            return []
        before = [packet for packet in self.packets[max(0, at - REACH):at] if packet.address == told.address]
        return before[-4:] + [self.packets[at]]
