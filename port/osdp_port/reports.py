"""What is printed of the reports of `osdp panel`: with the address of the device, and in words what its
numbers say."""
from typing import NamedTuple

from . import cards

REASONS = (  # of a NAK, as `osdp monitor` has them
    "for a reason that the standard doesn't have",
    "its check characters are wrong",
    "its length is wrong",
    "the device doesn't know the command",
    "its number was not expected",
    "the device doesn't support its security block",
    "the device demands Secure Channel for it",
    "the device doesn't support the biometric type",
    "the device doesn't support the biometric format",
    "the device can't do what its data say",
)
EVENTS = ("event", "maybe-again")
EXPIRED = ": it grew too old before it could go out, and it was never sent"
WITHHELD = ": it grew too old to be sent again; it was done or not"
FLOOD = 10000  # after how many milliseconds that which an opening passes over is told again
OLD = 2000  # the age of a card or of keys, in milliseconds, from which on it is told


class Told(NamedTuple):
    """A line of `osdp panel`: the name of a report, its device and the words after it. The number is that of
    the order that it is about. An event was offered no earlier than at the moment `since`."""

    name: str
    device: object
    words: list
    number: int | None = None
    since: int | None = None


def identity_words(words):
    """What a PDID says: vendor, model, version, serial number, and the three numbers of the firmware."""
    vendor, model, version, serial, *firmware = words
    return f"maker {vendor} model {model} version {version} serial {serial} firmware {'.'.join(firmware)}"


def without_number(line):
    """The words of a line after `order` and its number."""
    words = line.split()
    return words[2:] if words[:1] == ["order"] else words


def reason(words):
    """Why an order was refused, in words; nothing where it wasn't."""
    reply = " ".join(words).partition(" = ")[2].split()
    if reply[:1] != ["NAK"]:
        return ""
    number = int(reply[1])
    return f" ({REASONS[number if number < len(REASONS) else 0]})"


class Reports:
    """The reports of the devices of a line."""

    def __init__(self, devices, clock, say):
        self.by_number = {device.number: device for device in devices}
        self.clock, self.say = clock, say
        # when that was told which the opening of a device has passed over, without its number
        self.passed = {}

    def parsed(self, line):
        """What a line tells. There is no device where it is of none."""
        words = line.split()
        number = int(words[1]) if words[:1] == ["order"] else None
        words = without_number(line)
        at = 2 if words[:2] == ["passed", "over"] else 1
        name, rest, since = " ".join(words[:at]), words[at + 1:], None
        device = self.by_number.get(words[at]) if at < len(words) else None
        if name in EVENTS and rest[:1] == ["since"]:
            since, rest = int(rest[1]), rest[2:]
        if name == "lost" and device and device.is_left:
            rest[0] = "left"
        if name == "waits" and device:
            rest = [device.given]
        return Told(name, device, rest, number, since)

    def prints(self, told):
        """Prints a report of a device."""
        name, device, words = told.name, told.device, told.words
        if name == "passed over" and self.floods(device, words):
            return
        if name == "opened" and words[:1] == ["PDID"]:
            self.say(f"online {device.address} {identity_words(words[1:])}")
            return
        number = [] if told.number is None else ["order", str(told.number)]
        self.say(" ".join([*number, name, str(device.address), *words]) + self.shown(told))

    def shown(self, told):
        """What stands after a report, for a person."""
        if told.name in EVENTS:
            return cards.shown(told.words) + self.age(told.since)
        if told.name == "settled":
            return reason(told.words)
        if told.name == "expired":
            return EXPIRED
        return WITHHELD if told.name == "lost" and told.words[1:2] == ["withheld"] else ""

    def age(self, since):
        """How old an event may be, where it may be so old that nobody stands at the door any more."""
        age = 0 if since is None else self.clock() - since
        return f" (up to {age / 1000:.1f} s old)" if age >= OLD else ""

    def floods(self, device, words):
        """Whether this was told of a device lately: beside a second panel each packet of that would be."""
        text, now = (device.number, *(words[2:] if words[:1] == ["seq"] else words)), self.clock()
        if now < self.passed.get(text, -FLOOD) + FLOOD:
            return True
        self.passed[text] = now
        return False
