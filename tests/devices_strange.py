"""Strange devices for `osdp test`, written from what others were seen to do: faults that show only beside the scenarios, silence, events and orders that come twice; and sound
devices with habits that must not be accused.

    devices_strange.py OSDP [SEEDS]   plays the scenarios against each of them, without losses and with 3 of 100, with so many seeds (3)
    devices_strange.py OSDP NAME      prints the lines and the report of one of them"""
import sys

from devices import Device, Played, in_parts, of_run, verdicts
from osdp_port.accused import accused
from osdp_port.testing import crc, packet

FAULTS, SOUND = {}, {}
CARD = bytes.fromhex("5000001A0012345640")
KEYS = bytes.fromhex("53000231 32".replace(" ", ""))
INPUTS = bytes.fromhex("4901")
LOSSES = 3  # of 100


def fault(*rules, **how):
    """A device that breaks one of these rules at least; `MONITOR` where the monitor accuses it. `how` says what else is given to the player."""
    def add(kind):
        FAULTS[kind.__name__] = (kind, set(rules), how)
        return kind
    return add


def sound(kind):
    SOUND[kind.__name__] = (kind, {})
    return kind


MONITOR = 0

# ---- right in clean scenarios


@fault(MONITOR)
class HasItsOwnCounter(Device):
    """Its answers have the number after the one that it answered last: a refusal has not that of its packet."""

    def number_of(self, number, body):
        return (self.last or 0) % 3 + 1 if body[:2] == b"\x41\x04" else number


@fault(MONITOR)
class AnswersRefusedNumbersByZero(Device):
    def number_of(self, number, body):
        return 0 if body[:2] == b"\x41\x04" else number


@fault(86, 101)
class ForgetsAtAnUnknownCode(Device):
    """A right number is refused after NAK 3."""

    def does(self, body, number):
        said = super().does(body, number)
        self.is_lost = said[:2] == b"\x41\x03"
        return said

    is_lost = False

    def takes(self, number):
        was, self.is_lost = self.is_lost, False
        return (number == 0 or not was) and super().takes(number)


@fault(87, 101)
class ForgetsAtAWrongLength(ForgetsAtAnUnknownCode):
    def does(self, body, number):
        said = Device.does(self, body, number)
        self.is_lost = said[:2] == b"\x41\x02"
        return said


@fault(88, 101)
class ForgetsAtARefusedOrder(ForgetsAtAnUnknownCode):
    def does(self, body, number):
        said = Device.does(self, body, number)
        self.is_lost = said[:2] == b"\x41\x09"
        return said


@fault(89, 101)
class ForgetsAfterARepeat(Device):
    was_again = False

    def repeats(self, number, check):
        self.was_again = True
        return self.stored

    def takes(self, number):
        was, self.was_again = self.was_again, False
        return (number == 0 or not was) and super().takes(number)


class TellsCards(Device):
    """It has a card each time that it was opened."""

    def takes_packet(self, data):
        if self.is_mine(data[1]) and not data[4] & 3 and not self.events:
            self.events = [self.card()]
        return super().takes_packet(data)

    def card(self):
        return CARD


@fault(100)
class TellsCardsWithNumberZero(TellsCards):
    def number_of(self, number, body):
        return 0 if body[0] == 0x50 else number


@fault(102)
class TellsCardsThatCannotBeRead(TellsCards):
    """The bits that it tells are more than its bytes have."""

    def card(self):
        return bytes.fromhex("5000002A00123456")


@fault(102)
class TellsShortKeys(TellsCards):
    def card(self):
        return bytes.fromhex("530004")


@fault(99)
class TellsCardsBySum(TellsCards):
    """A card has a checksum where a CRC was asked."""

    def poll(self, number):
        said = super().poll(number)
        self.is_card = said[0] == 0x50
        return said

    is_card = False

    def check_of(self, asked):
        return asked

    def does(self, body, number):
        self.is_card = False
        return super().does(body, number)

    def takes_packet(self, data):
        answer = super().takes_packet(data)
        if self.is_card and answer[5:6] == b"\x50" and answer[4] & 4:
            answer = packet(self.address, answer[4] & 3, answer[5:-2], "sum", True)
            self.stored = answer
        return answer


# ---- silence


class Hangs(Device):
    """It answers nothing more once it has met what it hangs at."""
    is_hung = False

    def hangs_at(self, data):
        return False

    def hears(self, data):
        answer = b"" if self.is_hung else super().hears(data)
        self.is_hung = self.is_hung or self.hangs_at(data)
        return b"" if self.is_hung else answer


@fault(97)
class HangsAtNoise(Hangs):
    def hangs_at(self, data):
        return data == bytes.fromhex("00FF5A5300A5")


@fault(97)
class HangsAtAnotherStart(Hangs):
    def hangs_at(self, data):
        return data[0] == 0x35


@fault(97)
class HangsAtAShortLength(Hangs):
    def hangs_at(self, data):
        return data[0] == 0x53 and data[2:4] == b"\x05\x00"


@fault(97)
class HangsAtLengthZero(Hangs):
    def hangs_at(self, data):
        return data[0] == 0x53 and data[2:4] == b"\x00\x00"


@fault(97)
class HangsAtLengthSix(Hangs):
    def hangs_at(self, data):
        return data[0] == 0x53 and data[2:4] == b"\x06\x00"


@fault(97)
class HangsAtTheLargestPacketThatItClaims(Hangs):
    def hangs_at(self, data):
        return data[0] == 0x53 and data[1] == self.address and len(data) == self.buffer


@fault(97)
class DiesAfterTheLargestPacketThatItClaims(Hangs):
    """It answers that packet, and no other one."""

    def hears(self, data):
        if self.is_hung:
            return b""
        self.is_hung = data[0] == 0x53 and data[1] == self.address and len(data) == self.buffer
        return Device.hears(self, data)


@fault(97)
class HangsAtTheLargestPacketOfOthers(Hangs):
    def hangs_at(self, data):
        return len(data) == 1440 and data[1] != self.address


@fault(97)
class HangsAtTheTwentiethPacket(Hangs):
    count = 0

    def hangs_at(self, data):
        self.count += 1
        return self.count == 20


# ---- what comes twice


@fault(95, person="")
class TellsAnEventTwiceWhenItsAnswerWasLost(Device):
    """It tells a card once more, as a new one, where its POLL came again."""
    told, is_again = CARD, False

    def shows(self):
        self.events = [self.told]

    def leaves(self):
        if self.stored and self.stored[5:5 + len(self.told)] == self.told and self.events:
            self.events.pop(0)

    def repeats(self, number, check):
        if self.stored[5:5 + len(self.told)] == self.told and not self.is_again:
            self.events.append(self.told)
            self.is_again = True
        return self.stored


@fault(95, person="")
class TellsAnInputTwice(TellsAnEventTwiceWhenItsAnswerWasLost):
    told = INPUTS


@fault(95, person="")
class TellsKeysTwice(TellsAnEventTwiceWhenItsAnswerWasLost):
    told = KEYS


@fault(94, 104)
class ForgetsAnEventAtALostAnswer(TellsCards):
    """It tells a card once, and says ACK where its POLL comes again."""

    def repeats(self, number, check):
        if self.stored[5:6] == b"\x50":
            self.events = []
            self.stored = packet(self.address, number, b"\x40", check, True)
        return self.stored


@fault(96)
class DoesAnOutTwice(Device):
    """Where an OUT comes again, its answer does, and it is done once more."""
    order = b""

    def does(self, body, number):
        self.order = body
        return super().does(body, number)

    def repeats(self, number, check):
        if self.order[:1] == b"\x68":
            self.turns(self.order[1:])
        return self.stored


@fault(96, person="twice")
class ClicksTwice(Device):
    """The same, and its OSTAT tells nothing of it."""

    def status(self, code):
        return b"\x4A\x00\x00\x00\x00" if code == 0x66 else super().status(code)


# ---- checks, addresses, CAP


@fault(90, 106)
class ReadsTheLastByteOfACrcAlone(Device):
    def checks(self, data, check):
        return crc(data[:-2]) >> 8 == data[-1] if check == "crc" else super().checks(data, check)


@fault(31, 106)
class ReadsTheFirstByteOfACrcAlone(Device):
    def checks(self, data, check):
        return crc(data[:-2]) & 0xFF == data[-2] if check == "crc" else super().checks(data, check)


@fault(92, 105)
class AnswersAddressZero(Device):
    def is_mine(self, address):
        return address in (0, self.address, 0x7F)


@fault(92, 105)
class ReadsFiveBitsOfItsAddress(Device):
    def is_mine(self, address):
        return address < 0x80 and address & 0x1F == self.address & 0x1F or address == 0x7F


@fault(92, 105)
class AnswersTheAddressAfterTheNext(Device):
    def is_mine(self, address):
        return address in (self.address, self.address + 2, 0x7F)


@fault(92, 105)
class AnswersTheAddressBefore(Device):
    def is_mine(self, address):
        return address in (self.address, self.address - 1, 0x7F)


@fault(93)
class TellsAFunctionTwice(Device):
    caps = bytes.fromhex("010101 020104 040101 060101 080100 0A0001 0D0001 040101")


@fault(93)
class TellsFunctionZero(Device):
    caps = bytes.fromhex("010101 020104 040101 060101 080100 0A0001 0D0001 000000")


@fault(10, 85)
class IsOftenLate(Device):
    """Each fourth answer comes after 300 ms, also where the computer stands still."""
    count, stood_still = 0, 60

    def delay_of(self, answer):
        self.count += 1
        return 300 if answer[5:6] == b"\x46" else 5


# ---- sound ones


@sound
class Right(Device):
    pass


@sound
class IsMeasuredByABusyComputer(Device):
    """It answers after 190 ms, and twice that was heard after 201 and 264 ms, since the computer stood still."""
    count, stood_still = 0, 70

    def delay_of(self, answer):
        self.count += 1
        return {40: 201, 41: 264}.get(self.count, 190)


@sound
class BeginsEachAnswerByZero(Device):
    """A single 00 stands before each packet that it says."""

    def sent(self, answer):
        return b"\x00" + answer if answer else b""


@sound
class HasAnEmptyCap(Device):
    caps = b""


@sound
class PassesOverWrongLengths(Device):
    """What a POLL or an ID has too much or too little, it doesn't read."""

    def wrong_length(self, code):
        if code in (0x60, 0x64, 0x65, 0x66, 0x67):
            return b"\x40" if code == 0x60 else self.status(code)
        return self.id() if code == 0x61 else self.cap() if code == 0x62 else b"\x41\x02"


@sound
class RefusesItsLed(Device):
    """It claims an LED and a display, and refuses both by NAK 3: what is answered is told."""

    def acts(self, code):
        return b"\x41\x03" if code in (0x69, 0x6A, 0x6B) else super().acts(code)


@sound
class IsBusyForAWhile(Device):
    """Whatever comes, it is busy for 100 ms after it was opened."""
    until = 0

    def is_busy(self):
        return self.now < self.until

    def takes_packet(self, data):
        answer = super().takes_packet(data)
        if not data[4] & 3 and answer[5:6] != b"\x79":
            self.until = self.now + 100
        return answer


@sound
class TellsTwoCardsAlike(Device):
    def __init__(self, address=5):
        super().__init__(address)
        self.events = [CARD, CARD]


@sound
class TellsKeys(TellsCards):
    def card(self):
        return KEYS


@sound
class ComesBackAfterNoise(Device):
    """For 400 ms after noise it hears nothing."""
    deaf_until = 0

    def hears(self, data):
        if self.now < self.deaf_until:
            return b""
        if data == bytes.fromhex("00FF5A5300A5"):
            self.deaf_until = self.now + 400
        return super().hears(data)


def played(device, loses, seed, how):
    lines = []
    player = Played(device, lines.append, loses, seed=seed, person=how.get("person"))
    player.goes()
    return lines, player


def found_in(osdp, name, kind, rules, how, loses, seed):
    """Whether a fault is found, by one of its rules, and no `ok` stands for what a dead device didn't show."""
    lines, player = played(kind(), loses, seed, how)
    found, done = verdicts(osdp, lines)
    broken = found.get("broken", set())
    is_accused = MONITOR in rules and accused(osdp, 5, of_run(lines))
    if not (broken & rules or is_accused):
        print(f"{name}, {loses} losses of 100, seed {seed}: broken {sorted(broken)}, expected one of {sorted(rules)} {done.stderr.strip()}")
        return False
    if 97 in rules and not any("is silent since" in note for note in player.console.notes):
        print(f"{name}: nobody was told that it fell silent")
        return False
    return True


def is_left_alone(osdp, name, kind, how, loses, seed):
    """Whether a sound device is accused of nothing."""
    lines, _ = played(kind(), loses, seed, how)
    found, done = verdicts(osdp, lines)
    said = accused(osdp, 5, of_run(lines))
    if found.get("broken") or done.returncode or said:
        print(f"{name}, {loses} losses of 100, seed {seed}: broken {sorted(found.get('broken', ()))} status {done.returncode} {said} {done.stderr.strip()}")
        return False
    return True


def dead_has_no_ok(osdp):
    """A device that hangs at noise has no `ok` for that, nor for what comes after it."""
    found, _ = verdicts(osdp, played(HangsAtNoise(), 0, 7, {})[0])
    late = found.get("ok", set()) & set(range(36, 98)) - {85}
    if late:
        print(f"HangsAtNoise: ok {sorted(late)} after it fell silent")
    return not late


class RestsAfterNoise(Hangs):
    """It answers nothing for 20 seconds after noise, as where a watchdog starts it anew."""
    rests_until = 0

    def hears(self, data):
        if self.now < self.rests_until:
            return b""
        if data == bytes.fromhex("00FF5A5300A5"):
            self.rests_until = self.now + 20000
        return Device.hears(self, data)


def goes_on(osdp):
    """A test that is told to go on plays what is left once the device is back; else it is skipped. In both the device breaks the rule that it answers to the end."""
    bad = 0
    for is_told, ok, skipped in ((True, {57, 90, 98}, set()), (False, {98}, {57, 90})):
        lines = []
        player = Played(RestsAfterNoise(), lines.append, goes_on=is_told)
        player.goes()
        found, done = verdicts(osdp, lines)
        is_back = any("answers again" in note for note in player.console.notes)
        if found.get("broken") != {97} or done.returncode != 1 or not ok <= found["ok"] or not skipped <= found.get("skipped", set()) or is_back != is_told:
            print(f"RestsAfterNoise, told to go on {is_told}: {found} {player.console.notes}")
            bad += 1
    return bad


def main(words):
    osdp = words[0].split()
    if len(words) > 1 and not words[1].isdecimal():
        kind, how = (FAULTS[words[1]][0], FAULTS[words[1]][2]) if words[1] in FAULTS else SOUND[words[1]]
        lines, player = played(kind(), 0, 7, how)
        print("\n".join(lines), *player.console.notes, verdicts(osdp, lines)[1].stdout, sep="\n")
        return 0
    seeds = range(7, 7 + int(words[1] if len(words) > 1 else 3))
    runs = [(0, seeds[0]), *((LOSSES, seed) for seed in seeds)]
    bad = in_parts(found_in, [(osdp, name, *device, *run) for run in runs for name, device in FAULTS.items()]).count(False)
    bad += in_parts(is_left_alone, [(osdp, name, *device, *run) for run in runs for name, device in SOUND.items()]).count(False)
    bad += (not dead_has_no_ok(osdp)) + goes_on(osdp)
    print(f"strange devices: {len(FAULTS)} with a fault, {len(SOUND)} sound, {len(seeds)} seeds of {LOSSES} losses in 100, {bad} with another verdict")
    return 1 if bad else 0


if __name__ == "__main__":
    sys.exit(main(sys.argv[1:]))
