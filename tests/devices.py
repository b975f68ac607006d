"""Devices for `osdp test`, written from the standard and not from our code: one that is right, wrong ones, each with the rules that it breaks, and
ones that follow the standard in another way than ours, which break none.

    devices.py OSDP          plays the scenarios against each of them, without a port, and holds the verdicts to what is said here
    devices.py OSDP NAME     prints the lines and the verdicts of one of them
    devices.py --report OSDP NAME  prints its report, where nothing more is allowed
    devices.py --serve NAME  is that device on standard input and output, for a pseudo terminal"""
import random
import subprocess
import sys
from concurrent.futures import ThreadPoolExecutor
from pathlib import Path

sys.path.insert(0, str(Path(__file__).resolve().parent.parent / "port"))
from osdp_port.accused import accused  # noqa: E402
from osdp_port.scenarios import SCENARIOS  # noqa: E402
from osdp_port.testing import Player, crc, packet  # noqa: E402

ALL = {"silence": 0, "out": 1, "led": 0, "buz": 0, "text": 0, "comset": 0, "beyond": 0, "relay": 1}
PDID = bytes.fromhex("53494D010101000000010203")
LENGTHS = {0x60: (0,), 0x61: (1,), 0x62: (1,), 0x64: (0,), 0x65: (0,), 0x66: (0,), 0x67: (0,), 0x6A: (5,), 0x6E: (5,)}


class Device:
    """A device at an address that keeps the rules."""

    delay = 5
    caps = bytes.fromhex("010101 020104 040101 060101 080100 0A0001 0D0001")  # an input, 4 outputs, an LED, 16 characters, CRC, 256 bytes, a reader
    outputs, leds, characters, buffer = 4, 1, 16, 256
    now, stood_still = 0, 0  # the moment; how long the computer stood still that tests it

    def __init__(self, address=5):
        self.address, self.last, self.stored, self.events, self.asked, self.at = address, None, b"", [], 0, 0
        self.off_at = {}  # until when an output is on

    def delay_of(self, answer):
        return self.delay

    def shows(self):
        """Somebody shows it a card."""

    # ---- what the wrong ones do otherwise

    def is_mine(self, address):
        return address in (self.address, 0x7F)

    def check_of(self, asked):
        return asked

    def number_of(self, number, body):
        return number

    def address_of(self, address):
        return address

    def block_of(self):
        return b""

    def checks(self, data, check):
        return crc(data[:-2]) == int.from_bytes(data[-2:], "little") if check == "crc" else sum(data) & 0xFF == 0

    def takes(self, number):
        """Whether a number is 0 or the next one."""
        return number == 0 or (self.last is not None and number == self.last % 3 + 1)

    def refused(self, number):
        return b"\x41\x04"

    def repeats(self, number, check):
        return self.stored

    def secured(self):
        return b"\x41\x05"

    def unknown(self, code):
        return b"\x41\x03"

    def wrong_length(self, code):
        return b"\x41\x02"

    def poll(self, number):
        return self.events[0] if self.events and number else b"\x40"

    def id(self):
        return b"\x45" + PDID

    def cap(self):
        return b"\x46" + self.caps

    def has(self, code, data):
        """Whether there is what an order names."""
        if code == 0x68:
            return all(output < self.outputs or control == 0 for output, control in zip(data[::4], data[1::4]))
        if code == 0x69:
            return all(led < self.leds for led in data[1::14])
        return code != 0x6B or len(data) - 6 <= self.characters

    def status(self, code):
        outputs = bytes(self.off_at.get(output, 0) > self.now for output in range(4))
        return {0x64: b"\x48\x00\x00", 0x65: b"\x49\x00", 0x66: b"\x4A" + outputs, 0x67: b"\x4B\x00"}[code]

    def acts(self, code):
        return b"\x40"

    def turns(self, data):
        """An OUT that turns outputs on for a time."""
        for output, control, low, high in zip(data[::4], data[1::4], data[2::4], data[3::4]):
            if control == 5:
                self.off_at[output] = self.now + 100 * (low + 256 * high)

    def is_busy(self):
        return False

    def busy(self, number, check):
        return packet(self.address, 0, b"\x79", check, True)

    def damaged(self, rest):
        """What is said to bytes at 53 that are no packet."""
        return b""

    def noise(self, byte):
        return b""

    def sent(self, answer):
        return answer

    # ---- what it does

    def is_long(self, code, data):
        if code in LENGTHS:
            return len(data) not in LENGTHS[code]
        if code == 0x68:
            return not data or len(data) % 4 != 0
        if code == 0x69:
            return not data or len(data) % 14 != 0
        if code == 0x6B:
            return len(data) < 6 or data[5] != len(data) - 6
        return code == 0x80 and len(data) < 3

    def does(self, body, number):
        code, data = body[0], body[1:]
        if code not in LENGTHS and code not in (0x68, 0x69, 0x6B, 0x80):
            return self.unknown(code)
        if self.is_long(code, data):
            return self.wrong_length(code)
        if code == 0x60:
            return self.poll(number)
        if code == 0x61:
            return self.id()
        if code == 0x62:
            return self.cap()
        if code in (0x64, 0x65, 0x66, 0x67):
            return self.status(code)
        if code == 0x6E:
            return b"\x54" + data
        if not self.has(code, data):
            return b"\x41\x09"
        if code == 0x68:
            self.turns(data)
        return self.acts(code)

    def takes_packet(self, data):
        """The answer to a packet whose check is right."""
        address, control = data[1], data[4]
        check, number = ("crc", control & 3) if control & 4 else ("sum", control & 3)
        if not self.is_mine(address):
            return b""
        kind, at = self.check_of(check), self.address_of(address & 0x7F)
        body = data[5:-2 if check == "crc" else -1]
        if control & 8:
            return packet(at, number, self.secured(), kind, True)
        if number and number == self.last:
            return self.repeats(number, check)
        if not self.takes(number):
            return packet(at, self.number_of(number, b"\x41\x04"), self.refused(number), kind, True)
        if self.is_busy():
            return self.busy(number, check)
        if number:
            self.leaves()
        said = self.does(body, number)
        answer = packet(at, self.number_of(number, said), said, kind, True, self.block_of())
        self.last = number
        if number:
            self.stored = answer
        return answer

    def takes_large(self, data):
        """What is said to a packet that is larger than the buffer."""
        return b""

    def leaves(self):
        """An event that was told is over at the next number."""
        if self.stored and self.stored[5:6] in (b"\x50", b"\x53") and self.events:
            self.events.pop(0)

    def hears(self, data):
        """The answer to the bytes between two silences. `at` counts the packets among them."""
        answer, self.at = b"", 0
        while data:
            if data[0] != 0x53:
                answer += self.noise(data[0])
                data = data[1:]
                continue
            size = int.from_bytes(data[2:4], "little") if len(data) >= 4 else 0
            check = "crc" if len(data) > 4 and data[4] & 4 else "sum"
            if not 7 <= size <= len(data) or not self.checks(data[:size], check):
                answer += self.damaged(data)
                data = data[1:]
                continue
            answer += self.takes_large(data[:size]) if size > self.buffer else self.takes_packet(data[:size])
            self.at += 1
            data = data[size:]
        return self.sent(answer)


class Nobody:
    """A console without a terminal. `notes` has what it was told. Where a card is asked for, the device is shown one."""

    def __init__(self, device):
        self.stops, self.is_over, self.notes, self.device = False, True, [], device

    def note(self, line):
        self.notes.append(line)
        if line.startswith("show one card"):
            self.device.shows()


class Played(Player):
    """Plays without a port and without time. `loses` is how often in a hundred a packet or an answer is lost. `person` answers questions, where one is at the terminal."""

    def __init__(self, device, write, loses=0, may=None, seed=7, goes_on=False, person=None):
        super().__init__(None, Nobody(device), 5, ALL if may is None else may, write, goes_on=goes_on)
        self.port = type("", (), {"is_there": True, "rate": 9600})()
        self.device, self.now, self.loses, self.dice, self.person = device, 0, loses, random.Random(seed), person

    def moment(self):
        return self.now

    def hears(self, sent, wait, count=1):
        came = b""
        self.device.now = self.now
        if self.dice.randrange(100) >= self.loses:
            came = self.device.hears(sent)
            if self.dice.randrange(100) < self.loses:
                came = b""
        delay = self.device.delay_of(came) if came else int(wait * 1000)
        self.own = max(self.own, self.device.stood_still)
        self.now += delay
        return came, delay

    def pauses(self, milliseconds):
        self.now += int(milliseconds)
        if milliseconds >= 8000:
            getattr(self.device, "waits", lambda: None)()

    def is_at_terminal(self):
        return self.person is not None

    def asks_person(self, question):
        return self.person


NOT_SHOWN = {11, 94, 95}  # rules that the right device doesn't show: it is never busy, and nobody shows it a card
WRONG = {}
TOLERANT = {}


# which rule on the whole run a rule of a scenario belongs to: what breaks the one breaks the other
WHOLE = {98: (1,), 99: (2, 3), 100: (4, 5, 6, 7, 77), 101: (12, 13, 14, 15, 16, 18, 80, 82, 84, 86, 87, 88, 89), 102: (54, 55, 56), 103: (*range(43, 54), 78),
         104: (19, 20, 21, 22, 23, 24, 79), 105: (37, 38, 81, 92), 106: (*range(30, 37), 90, 91), 107: (9,)}


def wrong(*rules):
    """A device that breaks these rules, those on the whole run that belong to them, and no others."""
    def add(kind):
        WRONG[kind.__name__] = (kind, set(rules) | {whole for whole, of in WHOLE.items() if set(of) & set(rules)})
        return kind
    return add


def tolerant(kind):
    TOLERANT[kind.__name__] = kind
    return kind


@wrong(1)
class AnswersFromAnotherAddress(Device):
    def address_of(self, address):
        return address ^ 1


@wrong(2)
class AnswersSumByCrc(Device):
    def check_of(self, asked):
        return "crc"


@wrong(3)
class AnswersCrcBySum(Device):
    def check_of(self, asked):
        return "sum"


@wrong(4)
class AnswersZeroByOne(Device):
    def number_of(self, number, body):
        return number or 1


@wrong(5, 77)
class AnswersOneByZero(Device):
    def number_of(self, number, body):
        return 0 if number == 1 else number


@wrong(6, 77)
class AnswersTwoByThree(Device):
    def number_of(self, number, body):
        return 3 if number == 2 and body[0] != 0x41 else number


@wrong(7)
class AnswersThreeByZero(Device):
    def number_of(self, number, body):
        return 0 if number == 3 and body[0] != 0x41 else number


@wrong(8, 57, 58, *range(66, 71))
class AddsABlock(Device):
    """What stands after a block is no message: so its refusals are none either."""

    def block_of(self):
        return b"\x02\x11"


@wrong(9)
class AnswersTwice(Device):
    def sent(self, answer):
        return answer + answer


@wrong(10, 85)
class IsLate(Device):
    delay = 500


@wrong(11)
class IsBusyWithNumberThree(Device):
    count = 0

    def is_busy(self):
        self.count += 1
        return self.count % 5 == 0

    def busy(self, number, check):
        return packet(self.address, 0 if number == 3 else 3, b"\x79", check, True)


@wrong(12, 18, 84)
class RefusesZeroInASession(Device):
    def takes(self, number):
        return (number == 0 and self.last != 1) or (number != 0 and super().takes(number))


@wrong(13, 86, 87, 89)
class CountsToFour(Device):
    def takes(self, number):
        return number == 0 or (self.last is not None and number == (self.last + 1) % 4)


@wrong(14)
class ForgetsAtAWrongNumber(Device):
    def refused(self, number):
        self.last = None
        return b"\x41\x04"


@wrong(15)
class ForgetsAtDamage(Device):
    def damaged(self, rest):
        self.last = None
        return b""


@wrong(16)
class FollowsOthers(Device):
    def takes_packet(self, data):
        if not self.is_mine(data[1]) and self.last is not None:
            self.last = data[4] & 3
        return super().takes_packet(data)


@wrong(18)
class RefusesAfterSilence(Device):
    is_long_ago = False

    def waits(self):
        self.is_long_ago = True

    def takes(self, number):
        past, self.is_long_ago = self.is_long_ago, False
        return not past and super().takes(number)


@wrong(19, 22, 79)
class PollsAnew(Device):
    def repeats(self, number, check):
        return packet(self.address, number, b"\x41\x04", check, True) if self.stored[5] == 0x40 else self.stored


@wrong(20, 79)
class IdIsAnewEachTime(Device):
    def repeats(self, number, check):
        return packet(self.address, number, b"\x40", check, True) if self.stored[5] == 0x45 and number == 1 else self.stored


@wrong(21)
class CapIsAnewEachTime(Device):
    def repeats(self, number, check):
        return packet(self.address, number, b"\x46", check, True) if self.stored[5] == 0x46 else self.stored


@wrong(22)
class RepeatsOnceAlone(Device):
    copies = 0

    def takes(self, number):
        self.copies = 0
        return super().takes(number)

    def repeats(self, number, check):
        self.copies += 1
        return self.stored if self.copies == 1 else packet(self.address, number, b"\x41\x04", check, True)


@wrong(23)
class RefusesARepeatOtherwise(Device):
    def repeats(self, number, check):
        return packet(self.address, number, b"\x40", check, True) if self.stored[5] == 0x41 else self.stored


@wrong(24)
class StoresNothingAtThree(Device):
    def repeats(self, number, check):
        return packet(self.address, number, b"\x40", check, True) if number == 3 and self.stored[5] == 0x45 else self.stored


@wrong(19, 20, 21, 22, 23, 24, 79)
class StoresNoReply(Device):
    def repeats(self, number, check):
        return packet(self.address, number, b"\x41\x04", check, True)


@wrong(22)
class ForgetsACardWhenItsAckIsLost(Device):
    """It has an event, tells it once, and says ACK to the same POLL."""

    def __init__(self, address=5):
        super().__init__(address)
        self.told = 0

    def repeats(self, number, check):
        self.told += 1
        return packet(self.address, number, b"\x40", check, True) if self.stored[5] == 0x45 and number == 2 else self.stored


@wrong(25, 26, 27, 28, 29)
class TakesAnyNumber(Device):
    def takes(self, number):
        return True


@wrong(25)
class TakesTwoAfterZero(Device):
    def takes(self, number):
        return super().takes(number) or (self.last == 0 and number == 2)


@wrong(26)
class TakesThreeAfterZero(Device):
    def takes(self, number):
        return super().takes(number) or (self.last == 0 and number == 3)


@wrong(27)
class TakesThreeAfterOne(Device):
    def takes(self, number):
        return super().takes(number) or (self.last == 1 and number == 3)


@wrong(28)
class TakesOneAfterTwo(Device):
    def takes(self, number):
        return super().takes(number) or (self.last == 2 and number == 1)


@wrong(29)
class TakesTwoAfterThree(Device):
    def takes(self, number):
        return super().takes(number) or (self.last == 3 and number == 2)


@wrong(30)
class ReadsNoChecksum(Device):
    def checks(self, data, check):
        return check == "sum" or super().checks(data, check)


@wrong(31, 90)
class ReadsNoCrc(Device):
    def checks(self, data, check):
        return check == "crc" or super().checks(data, check)


@wrong(30, 31, 90)
class ReadsNoCheck(Device):
    def checks(self, data, check):
        return True


@wrong(32)
class PassesOverALongLength(Device):
    def damaged(self, rest):
        return packet(self.address, 1, b"\x40", "crc", True) if len(rest) > 4 and rest[2] == 48 else b""


@wrong(33)
class PassesOverAShortLength(Device):
    def damaged(self, rest):
        return packet(self.address, 1, b"\x40", "crc", True) if len(rest) > 4 and rest[2] == 5 else b""


@wrong(34)
class ReadsAnyStart(Device):
    def noise(self, byte):
        return packet(self.address, 1, b"\x40", "crc", True) if byte == 0x35 else b""


@wrong(35)
class AnswersBeforeTheEnd(Device):
    def damaged(self, rest):
        return packet(self.address, 1, b"\x40", "crc", True) if len(rest) == 6 and rest[2] == 8 else b""


@wrong(36)
class AnswersNoise(Device):
    def noise(self, byte):
        return packet(self.address, 0, b"\x40", "crc", True) if byte == 0x5A else b""


@wrong(37, 92)
class AnswersOthers(Device):
    def is_mine(self, address):
        return address < 0x80


@wrong(38)
class AnswersReplies(Device):
    def is_mine(self, address):
        return address & 0x7F in (self.address, 0x7F)


@wrong(40)
class RefusesPolls(Device):
    def poll(self, number):
        return b"\x41\x09"


@wrong(41)
class RefusesIds(Device):
    def id(self):
        return b"\x41\x03"


@wrong(42)
class RefusesCaps(Device):
    def cap(self):
        return b"\x41\x03"


@wrong(43)
class AnswersPollsByPdid(Device):
    def poll(self, number):
        return b"\x45" + PDID


@wrong(44, 78)
class AnswersIdsByAck(Device):
    def id(self):
        return b"\x40"


@wrong(45, 78)
class AnswersCapsByAck(Device):
    def cap(self):
        return b"\x40"


@wrong(46)
class AnswersLstatByAck(Device):
    def status(self, code):
        return b"\x40" if code == 0x64 else super().status(code)


@wrong(47)
class AnswersIstatByOstatr(Device):
    def status(self, code):
        return b"\x4A\x00" if code == 0x65 else super().status(code)


@wrong(48)
class AnswersOstatByIstatr(Device):
    def status(self, code):
        return b"\x49\x00" if code == 0x66 else super().status(code)


@wrong(49)
class AnswersRstatByAck(Device):
    def status(self, code):
        return b"\x40" if code == 0x67 else super().status(code)


@wrong(50)
class AnswersOutByPdid(Device):
    def acts(self, code):
        return b"\x45" + PDID if code == 0x68 else b"\x40"


@wrong(51)
class AnswersLedByOstatr(Device):
    def acts(self, code):
        return b"\x4A\x00" if code == 0x69 else b"\x40"


@wrong(52)
class AnswersBuzByIstatr(Device):
    def acts(self, code):
        return b"\x49\x00" if code == 0x6A else b"\x40"


@wrong(53)
class AnswersTextByLstatr(Device):
    def acts(self, code):
        return b"\x48\x00\x00" if code == 0x6B else b"\x40"


@wrong(54)
class PdidIsShort(Device):
    def id(self):
        return b"\x45" + PDID[:11]


@wrong(55)
class PdcapIsCutOff(Device):
    def cap(self):
        return bytes.fromhex("460201")


@wrong(56)
class LstatrIsLong(Device):
    def status(self, code):
        return b"\x48\x00\x00\x00" if code == 0x64 else super().status(code)


@wrong(57, 58, 83)
class TakesUnknownCodes(Device):
    def unknown(self, code):
        return b"\x40"


@wrong(66, 67, 68, 69, 70)
class TakesWrongLengths(Device):
    def wrong_length(self, code):
        return b"\x40"


@wrong(69)
class CountsNoCharacters(Device):
    def wrong_length(self, code):
        return b"\x40" if code == 0x6B else b"\x41\x02"


@wrong(71)
class HasMoreInputsThanItTells(Device):
    def status(self, code):
        return b"\x49\x00\x00" if code == 0x65 else super().status(code)


@wrong(72)
class HasFewerOutputsThanItTells(Device):
    def status(self, code):
        return b"\x4A\x00\x00\x00" if code == 0x66 else super().status(code)


@wrong(72, 74)
class TellsFewerOutputsThanItHas(Device):
    caps = bytes.fromhex("010101 020103 040101 060101 080100 0A0001 0D0001")


@wrong(74)
class TakesAnyOutput(Device):
    def has(self, code, data):
        return code == 0x68 or super().has(code, data)


@wrong(75)
class TakesAnyLed(Device):
    def has(self, code, data):
        return code == 0x69 or super().has(code, data)


@wrong(76)
class TakesATextWithoutADisplay(Device):
    caps = bytes.fromhex("010101 020104 040101 060000 080100 0A0001 0D0001")


@wrong(77)
class NumbersTheSecondAsTheFirst(Device):
    number = 0

    def number_of(self, number, body):
        if not self.at:
            self.number = number
        return self.number


@wrong(78)
class SaysTheSameToBothAtOnce(Device):
    said = b""

    def does(self, body, number):
        said = super().does(body, number)
        if not self.at:
            self.said = said
        return self.said


@wrong(79)
class RefusesACopyAtOnce(Device):
    def repeats(self, number, check):
        return packet(self.address, number, b"\x41\x04", check, True) if self.at else self.stored


@wrong(79)
class ActsOnACopyAtOnce(Device):
    """Each ID has the number of IDs so far in it."""
    ids = 0

    def id(self):
        self.ids += 1
        return b"\x45" + PDID[:-1] + bytes((self.ids & 0xFF,))

    def repeats(self, number, check):
        return packet(self.address, number, self.id() if self.stored[5] == 0x45 else self.stored[5:-2], check, True) if self.at else self.stored


@wrong(80)
class ForgetsAfterTwoAtOnce(Device):
    def hears(self, data):
        answer = super().hears(data)
        if self.at > 1:
            self.last = None
        return answer


@wrong(81)
class AnswersLargePacketsOfOthers(Device):
    def takes_large(self, data):
        return packet(self.address, data[4] & 3, b"\x41\x03", "crc", True) if data[1] != self.address else b""


@wrong(82)
class ForgetsAtALargePacket(Device):
    def takes_large(self, data):
        self.last = None
        return b""


@wrong(83)
class TakesUnknownCodesThatFill(Device):
    def does(self, body, number):
        return b"\x40" if len(body) > 100 else super().does(body, number)


@wrong(84)
class RefusesZeroAfterALargePacket(Device):
    is_full = False

    def takes_large(self, data):
        self.is_full = data[1] == self.address
        return b""

    def takes(self, number):
        was_full, self.is_full = self.is_full, False
        return not was_full and super().takes(number)


@wrong(85)
class IsLateWithItsOwnState(Device):
    """It answers LSTAT after 300 ms, and all else in time."""

    def hears(self, data):
        answer = super().hears(data)
        self.delay = 300 if answer[5:6] == b"\x48" else 5
        return answer


# ---- the standard otherwise

@tolerant
class Right(Device):
    pass


@tolerant
class AsksNoByteOfAnId(Device):
    def wrong_length(self, code):
        return self.id() if code == 0x61 else b"\x41\x02"


@tolerant
class IsSlow(Device):
    delay = 190


@tolerant
class SaysNakOfDetail(Device):
    def unknown(self, code):
        return b"\x41\x03" + bytes((code,))

    def wrong_length(self, code):
        return b"\x41\x02\x00\x01"


@tolerant
class RefusesByNine(Device):
    def unknown(self, code):
        return b"\x41\x09"

    def wrong_length(self, code):
        return b"\x41\x09"

    def refused(self, number):
        return b"\x41\x01"


@tolerant
class FillsWithFf(Device):
    def sent(self, answer):
        return b"\xFF" + answer if answer else b""


@tolerant
class SetsReservedBits(Device):
    def sent(self, answer):
        if not answer:
            return b""
        head = answer[:4] + bytes((answer[4] | 0x20,)) + answer[5:-2 if answer[4] & 4 else -1]
        return head + (crc(head).to_bytes(2, "little") if answer[4] & 4 else bytes(((-sum(head)) & 0xFF,)))


@tolerant
class IsBusyNowAndThen(Device):
    count = 0

    def is_busy(self):
        self.count += 1
        return self.count % 4 == 0


@tolerant
class IsBusyWithItsNumber(IsBusyNowAndThen):
    def busy(self, number, check):
        return packet(self.address, number, b"\x79", check, True)


@tolerant
class SaysNakOneToDamage(Device):
    def damaged(self, rest):
        return packet(self.address, 0, b"\x41\x01", "crc", True)


@tolerant
class IsSilentToBlocks(Device):
    def takes_packet(self, data):
        return b"" if data[4] & 8 else super().takes_packet(data)


@tolerant
class HasNoOutputsAndInputs(Device):
    def status(self, code):
        return b"\x41\x03" if code in (0x65, 0x66) else super().status(code)

    def acts(self, code):
        return b"\x41\x09"


@tolerant
class HasACard(Device):
    def __init__(self, address=5):
        super().__init__(address)
        self.events = [bytes.fromhex("5000001A0012345640")] * 3


@tolerant
class TellsLittleOfItself(Device):
    caps = bytes.fromhex("080100")


@tolerant
class CountsItsOwnReaderNot(Device):
    caps = bytes.fromhex("010101 020104 040101 060101 080100 0A0001 0D0000")


@tolerant
class CutsLongTexts(Device):
    characters = 255


@tolerant
class HasALargeBuffer(Device):
    buffer = 1440
    caps = bytes.fromhex("010101 020104 040101 060201 080100 0AA005 0D0001")
    characters = 32


@tolerant
class HearsTheFirstOfTwo(Device):
    def takes_packet(self, data):
        return super().takes_packet(data) if not self.at else b""


@tolerant
class HearsNeitherOfTwo(Device):
    """What comes while it reads a packet makes it drop both."""

    def hears(self, data):
        size = int.from_bytes(data[2:4], "little")
        return b"" if data[:1] == b"\x53" and 7 <= size < len(data) and data[size:size + 1] == b"\x53" else super().hears(data)


@tolerant
class HearsTheLastOfTwo(HearsNeitherOfTwo):
    """The second packet overwrites the first."""

    def hears(self, data):
        size = int.from_bytes(data[2:4], "little")
        return Device.hears(self, data[size:] if 7 <= size < len(data) and data[size:size + 1] == b"\x53" else data)


# what the monitor says of some of the wrong ones, by its manual page, and at which rules
ACCUSED = {
    "TakesAnyNumber": ((25, 26, 27, 28, 29), "a number out of turn was taken (standard)"),
    "AnswersTwoByThree": ((6,), "another number (standard)"),
    "AnswersTwice": ((9,), "a second reply to one packet (standard)"),
    "PdidIsShort": ((54,), "a reply that can't be read (standard)"),
    "IdIsAnewEachTime": ((20,), "a repeat is answered by something else (standard)"),
    "AnswersCrcBySum": ((3,), "another check (standard)"),
}


def lines_of(device, loses=0, may=None):
    lines = []
    Played(device, lines.append, loses, may).goes()
    return lines


def of_run(lines):
    """The lines of the run itself, without what is said once more for the rules on the whole run."""
    return lines[:next((at for at, line in enumerate(lines) if line.startswith("#")), len(lines))]


def verdicts(osdp, lines):
    """The numbers of the rules by their verdicts, and the report."""
    done = subprocess.run([*osdp, "test"], input="\n".join(lines) + "\n", capture_output=True, text=True, check=False)
    found = {}
    for line in done.stdout.splitlines():
        words = line.split()
        if words and words[0].isdigit():
            found.setdefault(words[1].rstrip(":,"), set()).add(int(words[0]))
    return found, done


def in_parts(does, all_of):
    """What a function says of each of these: four at once, since each waits for a program."""
    with ThreadPoolExecutor(4) as parts:
        return list(parts.map(lambda words: does(*words), all_of))


def is_wrong(osdp, name, kind, rules):
    """Whether a wrong device breaks other rules than are said of it."""
    found, done = verdicts(osdp, lines_of(kind()))
    broken = found.get("broken", set())
    if broken != rules or done.returncode != 1:
        print(f"{name}: broken {sorted(broken)}, expected {sorted(rules)}, status {done.returncode} {done.stderr.strip()}")
    return broken != rules or done.returncode != 1


def is_blamed(osdp, name, kind, loses):
    """Whether a device that follows the standard in another way is told to break a rule, or is accused by the monitor."""
    lines = lines_of(kind(), loses)
    (found, done), said = verdicts(osdp, lines), accused(osdp, 5, of_run(lines))
    if found.get("broken") or done.returncode or said:
        print(f"{name}: broken {sorted(found.get('broken', ()))} at {loses} losses of 100, status {done.returncode} {done.stderr.strip()} {said}")
    return bool(found.get("broken") or done.returncode or said)


def holds(osdp):
    """How many devices haven't the verdicts that are said of them."""
    bad = sum(in_parts(is_wrong, [(osdp, name, *wrong_one) for name, wrong_one in WRONG.items()]))
    bad += sum(in_parts(is_blamed, [(osdp, name, kind, loses) for name, kind in TOLERANT.items() for loses in (0, 10)]))
    bad += monitored(osdp)
    found, _ = verdicts(osdp, lines_of(Device()))
    missing = set(SCENARIOS) - found.get("ok", set()) - NOT_SHOWN
    if missing:
        print(f"Right: not ok {sorted(missing)}")
        bad += 1
    print(f"devices: {len(WRONG)} wrong, {len(TOLERANT)} right in other ways, {bad} with another verdict")
    return bad


def monitored(osdp):
    """How many devices the monitor beside the scenarios doesn't accuse as it must."""
    bad = 0
    for name, (rules, why) in ACCUSED.items():
        said = accused(osdp, 5, of_run(lines_of(WRONG[name][0]())))
        if not all(f"the monitor accuses the device: {why}" in said.get(rule, ()) for rule in rules):
            print(f"{name}: the monitor says {said}, and is to say {why!r} at {rules}")
            bad += 1
    print(f"the monitor: {len(ACCUSED)} wrong devices accused, {len(TOLERANT)} others not")
    return bad


def main(words):
    if words[:1] == ["--serve"]:
        device = (WRONG.get(words[1], (None,))[0] or TOLERANT[words[1]])()
        serves(device)
        return 0
    if words[:1] == ["--report"]:
        print(verdicts([words[1]], lines_of(WRONG[words[2]][0](), may={}))[1].stdout, end="")
        return 0
    osdp = words[0].split()
    if len(words) > 1:
        lines = lines_of((WRONG.get(words[1], (None,))[0] or TOLERANT[words[1]])())
        print("\n".join(lines))
        print(verdicts(osdp, lines)[1].stdout)
        return 0
    return 1 if holds(osdp) else 0


def serves(device):
    """The device on standard input and output: bytes come, and a silence of 20 ms ends a run."""
    import os
    import select
    held = b""
    while True:
        ready, _, _ = select.select([0], [], [], 0.02 if held else None)
        if ready:
            read = os.read(0, 4096)
            if not read:
                return
            held += read
        else:
            answer, held = device.hears(held), b""
            if answer:
                os.write(1, answer)


if __name__ == "__main__":
    sys.exit(main(sys.argv[1:]))
