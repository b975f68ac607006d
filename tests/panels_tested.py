"""Panels for `osdp test panel`, written from the standard and not from our code: wrong ones, each with the rules that it breaks, and ones that follow the
standard in another way than ours, which break none.

    panels_tested.py OSDP          plays the tricks against each of them, without a port, and holds the verdicts to what is said here
    panels_tested.py --seeds=20 OSDP     the same over so many lines with losses, in place of one
    panels_tested.py OSDP NAME     prints the lines and the verdicts of one of them
    panels_tested.py --report OSDP NAME  prints its report, where nothing more is allowed"""
import random
import subprocess
import sys
import time
from concurrent.futures import ProcessPoolExecutor
from pathlib import Path

sys.path.insert(0, str(Path(__file__).resolve().parent.parent / "port"))
from osdp_port.panel_ends import Ends  # noqa: E402
from osdp_port.panel_testing import LAG, Device, Player, lines_of, reads  # noqa: E402
from osdp_port.testing import crc, packet  # noqa: E402

MOST = 4000  # packets after which a panel that is not done is left
ORDER = bytes.fromhex("6800020A00")
RULES = 37


class Panel:
    """A panel of one device that keeps the rules: it polls every 50 ms, and sends an order now and then."""

    poll, reply_wait, busy_wait, quiet_wait, sends, check = 50, 200, 50, 400, 3, "crc"
    orders = 7  # each so many exchanges an order
    takes = 4  # milliseconds that its packet and the answer take on the line

    def __init__(self, address=5):
        self.address, self.number, self.body, self.sent, self.count, self.is_open, self.busies = address, 0, b"\x61\x00", 0, 0, False, 0

    # ---- what the wrong ones do otherwise

    def next_number(self):
        return self.number % 3 + 1

    def number_after_loss(self):
        """The number of a packet that comes again after silence."""
        return self.number

    def number_after_busy(self):
        return self.number

    def body_again(self):
        return self.body

    def gives_up(self):
        """After as many sends as it makes: a new session."""
        self.reopens()
        return self.quiet_wait

    def takes_busy(self, number):
        return number in (0, self.number)

    def reply_to(self, read):
        """Whether a reply is one to the packet that is out."""
        is_reply, address, number, _, body, _ = read
        return is_reply and address == self.address and (number == self.number or (body[:1] == b"\x79" and self.takes_busy(number)))

    def finds(self, heard):
        """The reply among bytes."""
        while heard:
            read = reads(heard)
            if read is None:
                return None
            if self.reply_to(read):
                return read
            heard = heard[heard.index(read[5]) + len(read[5]):]
        return None

    def refused(self):
        """NAK 4."""
        self.reopens()
        return self.quiet_wait

    def damaged(self):
        """NAK 1: the packet comes again at once."""
        return 5

    def noise(self):
        """Bytes came, and no reply: it waits as if none had."""
        return self.silence()

    def control(self):
        return 0

    def make(self):
        made = packet(self.address, self.number, self.body, self.check)
        return made if not self.control() else changed(made, self.control())

    # ---- what it does

    def reopens(self):
        self.number, self.body, self.sent, self.is_open, self.busies = 0, b"\x61\x00", 0, False, 0

    def asks(self):
        """The bytes that it sends now."""
        self.sent += 1
        return self.make()

    def answered(self):
        self.count += 1
        self.is_open, self.sent, self.busies = True, 0, 0
        self.number = self.next_number()
        self.body = ORDER if self.orders and self.count % self.orders == 0 else b"\x60"
        return self.poll

    def silence(self):
        if self.sent >= self.sends:
            return self.reply_wait + self.gives_up()
        self.number, self.body = self.number_after_loss(), self.body_again()
        return self.reply_wait

    def busy(self):
        self.sent, self.busies = 0, self.busies + 1
        self.number = self.number_after_busy()
        return self.busy_wait

    def hears(self, heard, delay):
        """After how many milliseconds its next packet comes, since it sent the last one."""
        read = self.finds(heard)
        if read is None:
            return self.noise() if heard else self.silence()
        body = read[4]
        if body[:1] == b"\x79":
            return delay + self.busy()
        if body[:2] == b"\x41\x01":
            return delay + self.damaged()
        if body[:2] == b"\x41\x04":
            return delay + self.refused()
        return delay + self.answered()


def changed(made, bits, address=None):
    """A packet with more bits of its control byte, or with another address."""
    is_crc = made[4] & 4
    head = bytes((made[0], made[1] if address is None else address)) + made[2:4] + bytes((made[4] | bits,)) + made[5:-2 if is_crc else -1]
    return head + (crc(head).to_bytes(2, "little") if is_crc else bytes(((-sum(head)) & 0xFF,)))


def packet_to(address, sent):
    """The bytes of the packet to an address, or from it, among those that a panel sends. None where there is none."""
    while sent:
        read = reads(sent)
        if read is None or read[1] == address:
            return read[5] if read else None
        sent = sent[sent.index(read[5]) + len(read[5]):]
    return None


class Test:
    """What came of a test of a panel over a line that loses so many of a hundred packets and answers."""

    def __init__(self, panel, loses=0, may=None, seed=11):
        self.lines, self.notes, self.moment = [], [], 0
        self.device = Device(5, {"silence": 0} if may is None else may, self.lines.append)
        self.ends = Ends(self.device, self.notes.append)
        self.goes(panel, loses, random.Random(seed))

    def goes(self, panel, loses, dice):
        late = b""
        for _ in range(MOST):
            sent, said, delay = panel.asks(), b"", panel.takes
            self.device.beside.reads(sent)
            whole = packet_to(5, sent)
            if dice.randrange(100) >= loses and whole:
                rule, pieces = self.device.hears(whole, self.moment)
                self.lines += lines_of(rule, self.moment, whole, pieces)
                self.ends.packet(self.moment)
                said = b"".join(piece for _, piece in pieces)
                delay += int(sum(wait for wait, _ in pieces) * 1000)
                if dice.randrange(100) < loses:
                    said = b""
            if said and delay > panel.reply_wait:  # it is on its way when the packet comes again
                said, late = late, said
            else:
                said, late = late + said, b""
            self.moment += panel.hears(said, delay)
            if self.ends.is_over(self.moment):
                return
        self.notes.append("no end")


WRONG = {}
TOLERANT = {}


def wrong(*rules, beside=(), cause=False):
    """The rules that a panel breaks, what is found beside them, and whether it is told from what the rules follow."""
    def add(kind):
        WRONG[kind.__name__] = (kind, set(rules), set(beside), cause)
        return kind
    return add


def tolerant(kind):
    TOLERANT[kind.__name__] = kind
    return kind


LOST = {16, 17, 18, 21, 22}  # nothing is said to a first copy with a number other than 0
NOISE = {23, 24, 25, 26, 27}
ASTRAY = {28, 29, 30, 31}
ONCE = {"GoesOnAfterTheFirstLoss", "GivesUpARepeat"}  # a loss may come where its own fault would be shown, so another rule shows it, or none


@wrong(1)
class SetsBitSeven(Panel):
    def asks(self):
        made = super().asks()
        return changed(made, 0, 0x85) if self.count % 9 == 5 and self.sent == 1 else made


@wrong(4)
class SkipsANumber(Panel):
    def next_number(self):
        return (self.number + 1) % 3 + 1 if self.number and self.count % 5 == 0 else super().next_number()


@wrong(4)
class CountsBackwards(Panel):
    def next_number(self):
        return {0: 1, 1: 3, 2: 1, 3: 2}[self.number]


@wrong(5)
class ChangesAnOrderOnRepeat(Panel):
    def body_again(self):
        return bytes.fromhex("6800020B00") if self.body == ORDER else self.body


@wrong(5)
class PollsAnewWithTheSameNumber(Panel):
    def body_again(self):
        return b"\x64" if self.body == b"\x60" else self.body


@wrong(5)
class ChangesTheCheckOnRepeat(Panel):
    def make(self):
        return packet(self.address, self.number, self.body, "sum" if self.sent > 1 and self.number else "crc")


@wrong(6)
class RepeatsAtOnce(Panel):
    reply_wait = 40
    sends = 12


@wrong(6)
class Hasty(Panel):
    """It waits for less time than the device takes: a late answer comes after the copy, and counts."""

    reply_wait = 120


@wrong(7)
class PollsEveryNineSeconds(Panel):
    poll = 9000


@wrong(*LOST, 37)
class GoesOnAfterALoss(Panel):
    """It sends no copy, so nothing shows the rule of a copy, and it counts on through the silence of 8 seconds."""

    def number_after_loss(self):
        return self.next_number() if self.number else 0

    def noise(self):
        return self.reply_wait


@wrong(22)
class RepeatsAnOrderWithANewNumber(Panel):
    def number_after_loss(self):
        return self.next_number() if self.body == ORDER else self.number

    def noise(self):
        return self.reply_wait


@wrong(16)
class GoesOnAfterTheFirstLoss(Panel):
    """The first packet with number 1 that has no answer, and is no order, is followed by number 2."""

    has_lost = False

    def number_after_loss(self):
        if self.number == 1 and self.body != ORDER and not self.has_lost:
            self.has_lost = True
            return 2
        return self.number


@wrong(20, 37)
class GivesUpARepeat(Panel):
    """After a second silence it goes on with the next number, also in the silence of 8 seconds."""

    def number_after_loss(self):
        return self.next_number() if self.number and self.sent >= 2 else self.number

    def noise(self):
        return self.reply_wait


@wrong(19, 37)
class OpensWithoutAnAnswer(Panel):
    """An opening in the silence of 8 seconds has no answer either."""

    def number_after_loss(self):
        return 1 if self.number == 0 else self.number

    def body_again(self):
        return b"\x60" if self.number == 0 else self.body


@wrong(23)
class ReadsNoCheck(Panel):
    def finds(self, heard):
        is_whole = len(heard) >= 8 and heard[0] == 0x53 and int.from_bytes(heard[2:4], "little") == len(heard)
        if is_whole and heard[1] == 0x80 | self.address and reads(heard) is None:
            return True, self.address, self.number, "crc", b"\x40", heard
        return super().finds(heard)


@wrong(24)
class NeedsNoEnd(Panel):
    def finds(self, heard):
        if len(heard) >= 6 and heard[0] == 0x53 and len(heard) == int.from_bytes(heard[2:4], "little") - 2:
            return True, self.address, self.number, "crc", b"\x40", heard
        return super().finds(heard)


@wrong(25)
class ReadsNoLength(Panel):
    def finds(self, heard):
        if len(heard) >= 8 and heard[0] == 0x53 and int.from_bytes(heard[2:4], "little") == len(heard) + 40:
            return True, self.address, self.number, "crc", b"\x40", heard
        return super().finds(heard)


@wrong(26)
class ReadsAnyStart(Panel):
    def finds(self, heard):
        return super().finds(b"\x53" + heard[1:] if heard[:1] == b"\x35" else heard)


@wrong(27)
class TakesNoiseForAnAnswer(Panel):
    def finds(self, heard):
        if heard and 0x53 not in heard and heard[0] == 0 and self.number:
            return True, self.address, self.number, "crc", b"\x40", heard
        return super().finds(heard)


@wrong(*NOISE)
class TakesAnyBytes(Panel):
    def noise(self):
        return self.answered() if self.number else self.silence()

    def finds(self, heard):
        read = reads(heard)
        return super().finds(heard) or (read if read and read[0] else None) if read and read[0] and read[1] == self.address and read[2] == self.number else \
            super().finds(heard) or self.passes(heard)

    def passes(self, heard):
        """A whole packet of another is no noise to it: it waits."""
        read = reads(heard)
        if read is None:
            return None
        return True, self.address, self.number, "crc", b"\x41\x01", heard


@wrong(28, 29)
class ReadsNoNumber(Panel):
    def reply_to(self, read):
        return read[0] and read[1] == self.address


@wrong(29)
class TakesNumberZero(Panel):
    def reply_to(self, read):
        return super().reply_to(read) or (read[0] and read[1] == self.address and read[2] == 0)


@wrong(30)
class TakesAnothersAnswer(Panel):
    def reply_to(self, read):
        return read[0] and (read[2] == self.number or read[4][:1] == b"\x79")


@wrong(31)
class ReadsNoBitSeven(Panel):
    def reply_to(self, read):
        return super().reply_to((True, *read[1:]))


@wrong(32, 34)
class TakesBusyForAnAnswer(Panel):
    """It has no second BUSY to one packet."""

    def busy(self):
        return self.answered()


@wrong(33)
class GoesOnAfterTwoBusies(Panel):
    def busy(self):
        return self.answered() if self.busies else super().busy()


@wrong(34)
class TakesItsBusyForAnAnswer(Panel):
    def finds(self, heard):
        read = super().finds(heard)
        if read and read[4] == b"\x79" and read[2] == self.number and self.number:
            return (*read[:4], b"\x40", read[5])
        return read


@wrong(36)
class GoesOnAfterARefusal(Panel):
    """NAK 4 is an answer to it."""

    refusals = 0

    def refused(self):
        self.refusals += 1
        if self.refusals % 4:
            return self.answered()
        self.reopens()
        return self.quiet_wait


@wrong(4, 5, 36, 37, beside=["number 0"])
class BeginsWithOne(Panel):
    """Its sessions begin with number 1 in place of 0: at power-up, after NAK 4 and after a silence."""

    def __init__(self, address=5):
        super().__init__(address)
        self.number = 1

    def reopens(self):
        super().reopens()
        self.number = 1


@wrong(4, 5, 36, beside=["number 0"])
class BeginsWithOneAfterARefusal(Panel):
    def refused(self):
        self.reopens()
        self.number = 1
        return self.quiet_wait


@wrong(36, beside=["number 0"])
class TakesEachRefusalForAnAnswer(Panel):
    """It takes NAK 4 for an answer at each time, so it never begins anew."""

    def refused(self):
        return self.answered()


@wrong(36, beside=["number 0"])
class TakesARefusalForAnAnswerWithoutOrders(TakesEachRefusalForAnAnswer):
    orders = 0


@wrong(36)
class TakesARefusalOfAPollForAnAnswer(Panel):
    """After the answer to another packet it begins anew."""

    def refused(self):
        return self.answered() if self.body == b"\x60" else super().refused()


@wrong(beside=["number 0", "next number"])
class PollsWithOneForEver(Panel):
    """It sends one packet, POLL with number 1, for ever."""

    def __init__(self, address=5):
        super().__init__(address)
        self.number, self.body = 1, b"\x60"

    def next_number(self):
        return 1

    def answered(self):
        wait = super().answered()
        self.body = b"\x60"
        return wait

    def reopens(self):
        super().reopens()
        self.number, self.body = 1, b"\x60"


@wrong(beside=["next number"])
class PollsWithZeroForEver(Panel):
    """It counts no numbers: each packet is POLL with number 0."""

    def __init__(self, address=5):
        super().__init__(address)
        self.body = b"\x60"

    def next_number(self):
        return 0

    def answered(self):
        wait = super().answered()
        self.body = b"\x60"
        return wait


@wrong(beside=["next number"])
class HearsNothing(Panel):
    def finds(self, heard):
        return None


@wrong(6, 37, cause=True)
class WaitsThirtyMilliseconds(Panel):
    """It sends each packet three times within 90 ms, and goes on then."""

    reply_wait = 30

    def gives_up(self):
        return self.answered()


@wrong(16, 17, 18, *range(21, 32), 37, cause=True)
class GoesOnAfterThirtyMilliseconds(Panel):
    """It sends no copy, so what breaks fifteen rules is told by the wait before the next number."""

    reply_wait = 30

    def number_after_loss(self):
        return self.next_number() if self.number else 0


@wrong(6, *range(16, 19), *range(21, 33), 34, 36, 37, cause=True)
class TakesLateAnswersForOthers(Panel):
    """It waits 30 ms, where an answer takes 35, and takes an answer with any number."""

    reply_wait, takes = 30, 35

    def reply_to(self, read):
        is_reply, address, _, _, body, _ = read
        return is_reply and address == self.address and body[:1] != b""


class PollsAnother(Panel):
    """It polls device 6 too, which isn't there."""

    def other(self):
        return packet(6, 0, b"\x60", self.check)

    def asks(self):
        return self.other() + super().asks()


@wrong(beside=["check"])
class EndsAnothersPacketWrong(PollsAnother):
    """The CRC of its packets to device 6 is always the same."""

    def other(self):
        return super().other()[:-2] + b"\x12\x34"


@wrong(beside=["check"])
class SwapsAnothersCheck(PollsAnother):
    def other(self):
        made = super().other()
        return made[:-2] + made[:-3:-1]


@wrong(beside=["check"])
class EndsAnothersSumWrong(PollsAnother):
    check = "sum"

    def other(self):
        made = super().other()
        return made[:-1] + bytes((made[-1] ^ 1,))


@wrong(*NOISE, *ASTRAY, *LOST, 32, 34, 37)
class NeverRepeats(Panel):
    """It sends each number once, whatever comes: no copy shows the rules of a second silence and of a second BUSY."""

    def silence(self):
        return self.reply_wait - self.poll + self.answered() if self.number else super().silence()

    def busy(self):
        return self.answered()


# ---- the standard otherwise

@tolerant
class Right(Panel):
    pass


@tolerant
class OpensAnewAtAnyTime(Panel):
    def answered(self):
        wait = super().answered()
        if self.count % 11 == 0:
            self.reopens()
        return wait


@tolerant
class NeverSendsTwice(Panel):
    """A lost answer ends its session."""

    sends = 1


@tolerant
class PollsFast(Panel):
    poll = 2


@tolerant
class PollsSlowly(Panel):
    poll = 7500


@tolerant
class EndsWithAChecksum(Panel):
    check = "sum"


@tolerant
class ChangesItsCheck(Panel):
    def asks(self):
        if not self.sent:
            self.check = "sum" if self.count % 4 < 2 else "crc"
        return super().asks()


@tolerant
class FillsWithFf(Panel):
    def make(self):
        return b"\xFF\xFF" + super().make()


@tolerant
class SetsReservedBits(Panel):
    def control(self):
        return 0x40


@tolerant
class TakesNakOneForAnAnswer(Panel):
    def damaged(self):
        return self.answered()


@tolerant
class RepeatsWithoutEnd(Panel):
    """It doesn't know NAK 4, and sends a packet until it is answered or the device is gone for ten seconds."""

    sends = 50

    def refused(self):
        return self.silence()


@tolerant
class GivesNoOrders(Panel):
    orders = 0


@tolerant
class SendsMakersOrders(Panel):
    """Its orders are MFG of a maker."""

    def answered(self):
        wait = super().answered()
        self.body = b"\x80\x00\x06\x8E\x01" if self.body == ORDER else self.body
        return wait


@tolerant
class PollsAnotherOverDamage(PollsAnother):
    """A third of its packets to device 6 are damaged on the line, each in another way."""

    dice = random.Random(5)

    def other(self):
        made = super().other()
        at = self.dice.randrange(3 * len(made))
        return made if at >= len(made) else made[:at] + bytes((self.dice.randrange(256),)) + made[at + 1:]


@tolerant
class GivesAnOrderLate(Panel):
    """Its first order comes 15 seconds after all else was played."""

    orders = 0

    def answered(self):
        wait = super().answered()
        self.body = ORDER if self.count == 430 else b"\x60"
        return wait


@tolerant
class AsksItsStatus(Panel):
    def answered(self):
        wait = super().answered()
        if self.count % 5 == 2:
            self.body = b"\x64"
        return wait


def verdicts(osdp, lines):
    """The numbers of the rules by their verdicts, and the report."""
    done = subprocess.run([*osdp, "test", "panel"], input="\n".join(lines) + "\n", capture_output=True, text=True, check=False)
    found = {}
    for line in done.stdout.splitlines():
        words = line.split()
        if words and words[0].isdigit():
            found.setdefault(words[1].rstrip(":,"), set()).add(int(words[0]))
    return found, done


def tested(osdp, name, loses, seed):
    """The verdicts on a panel over a line, what was found beside them, what the test said, all of it in words, and the status."""
    kind = WRONG[name][0] if name in WRONG else TOLERANT[name]
    test = Test(kind(), loses, seed=seed)
    found, done = verdicts(osdp, test.lines)
    text = f"broken {sorted(found.get('broken', ()))}, beside {sorted(test.device.beside.found)}, notes {test.notes}, status {done.returncode} {done.stderr.strip()}"
    return found, test.device.beside, test.notes, f"{name}, {loses} losses of 100, seed {seed}: {text}", done.returncode


def is_found(osdp, name, loses, seed):
    """What is otherwise of a wrong panel, or an empty text. Without losses it has exactly its verdicts, and else one of them at least."""
    _, rules, beside, cause = WRONG[name]
    found, more, notes, text, status = tested(osdp, name, loses, seed)
    broken = found.get("broken", set())
    holds_so = set(more.found) == beside and "no end" not in notes and status == (1 if broken else 0)
    if not loses:
        holds_so = holds_so and broken == rules and bool(more.cause(broken)) == cause
    elif rules and name not in ONCE:
        holds_so = holds_so and broken & rules and (not cause or more.cause(broken))
    return "" if holds_so else text


def is_sound(osdp, name, loses, seed):
    """What a panel that keeps the rules is accused of, or an empty text."""
    found, more, notes, text, status = tested(osdp, name, loses, seed)
    return "" if not (found.get("broken") or more.found or status or "no end" in notes) else text


def holds(osdp, seeds):
    """Whether each panel has the verdicts that are said of it."""
    many = range(11, 11 + seeds)
    cases = [(is_found, name, 0, 11) for name in WRONG] + [(is_found, name, 3, seed) for name in WRONG for seed in many]
    cases += [(is_sound, name, 0, 11) for name in TOLERANT] + [(is_sound, name, loses, seed) for name in TOLERANT for loses in (3, 10, 30) for seed in many]
    with ProcessPoolExecutor(max_workers=4) as pool:
        bad = [each for each in pool.map(judged, [(osdp, *case) for case in cases], chunksize=4) if each]
    bad += [each for each in [reads_late()] if each]
    print(*bad, sep="\n", end="\n" if bad else "")
    found, *_ = tested(osdp, "Right", 0, 11)
    missing = set(range(1, RULES + 1)) - found.get("ok", set())
    late, *_ = tested(osdp, "GivesAnOrderLate", 0, 11)
    if missing or 22 not in late.get("ok", ()):
        bad.append(f"Right: not ok {sorted(missing)}; an order that comes late: {late}")
        print(bad[-1])
    print(f"panels: {len(WRONG)} wrong, {len(TOLERANT)} right in other ways, {len(bad)} with another verdict")
    return len(bad)


class Slow:
    """A port that gives a packet each time that it is read, and a console. Where it is told so, the computer stands still before it reads."""

    is_there, stops = True, 0

    def __init__(self, packets):
        self.packets, self.said = packets, []

    def read(self):
        return self.packets.pop(0)

    def write(self, data):
        self.said.append(data)

    def note(self, line):
        self.said.append(line)


def reads_late():
    """What is otherwise where a computer reads late: the packet has no answer and no line, and its copy has both."""
    poll, lines = packet(5, 0, b"\x60", "crc"), []
    port = Slow([poll, poll])
    player = Player(port, port, Device(5, {}, lambda line: None), lines.append, lambda: None)
    time.sleep(2 * LAG)
    player.turn()
    first = (player.late, list(port.said), list(lines))
    player.turn()
    return "" if first == (1, [], []) and (player.late, len(port.said), len(lines)) == (1, 1, 1) else f"read late: {first}, {player.late}, {port.said}, {lines}"


def judged(case):
    osdp, asks, *words = case
    return asks(osdp, *words)


def main(words):
    if words[:1] == ["--report"]:
        print(verdicts([words[1]], Test(WRONG[words[2]][0](), may={}).lines)[1].stdout, end="")
        return 0
    seeds = int(words.pop(0).removeprefix("--seeds=")) if words[0].startswith("--seeds=") else 1
    osdp = words[0].split()
    if len(words) > 1:
        test = Test((WRONG.get(words[1], (None,))[0] or TOLERANT[words[1]])())
        print("\n".join([*test.lines, *test.notes, *test.device.beside.lines()]))
        print(verdicts(osdp, test.lines)[1].stdout)
        return 0
    return 1 if holds(osdp, seeds) else 0


if __name__ == "__main__":
    sys.exit(main(sys.argv[1:]))
