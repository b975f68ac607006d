"""`test panel`: a device that misbehaves within the rules, and hands what the panel sent and what was said to `osdp test panel`, which judges it."""
import re
import time

from .console import wait_for
from .faults import MET
from .panel_beside import Beside
from .panel_early import Early
from .panel_ends import Ends
from .panel_tricks import NUMBERED, TRICKS
from .testing import LARGEST, Judge, allowed, crc, packet, status_of
from .trace import Record

GAP = 0.05  # seconds of silence after which bytes without a packet are passed over
LAG = 0.04  # seconds: where this computer didn't read for longer, nobody knows when a packet came
AGAIN = tuple(range(23, 36))  # where a line loses answers, these tricks are played once more: what is said for them may be lost, and then a copy shows nothing
TRIES = 2  # as many tricks are played again, for each, at most, whose answers were lost
REST = 2  # exchanges without a trick between two
SILENCE = 8.2  # seconds that the device is silent for the rule of 8 seconds
CARD = bytes.fromhex("5000001A0012345640")
PDID = bytes.fromhex("4553494D010105000000010000")
PDCAP = bytes.fromhex("46020108080100")
STATUS = {0x64: b"\x48\x00\x00", 0x65: b"\x49\x00", 0x66: b"\x4A" + bytes(8), 0x67: b"\x4B\x00"}
ORDERS = (0x68, 0x69, 0x6A, 0x6B)
PLAYED = (*ORDERS, 0x80)  # orders on which the trick of rule 22 is played
ANSWERS = ("answer", "late", "filled", "after noise", "reserved", "pieces", "after another", "card")


def reads(data):
    """The first packet of bytes: whether it is a reply, its address, number, check and body, and all of its bytes. None where there is none."""
    for at in range(len(data)):
        rest = data[at:]
        if rest[0] != 0x53 or len(rest) < 7:
            continue
        size, is_crc = int.from_bytes(rest[2:4], "little"), bool(rest[4] & 4)
        if not 7 + is_crc <= size <= min(len(rest), LARGEST):
            continue
        whole = rest[:size]
        is_right = crc(whole[:-2]) == int.from_bytes(whole[-2:], "little") if is_crc else sum(whole) & 0xFF == 0
        if is_right:
            return bool(whole[1] & 0x80), whole[1] & 0x7F, whole[4] & 3, "crc" if is_crc else "sum", whole[5:-2 if is_crc else -1], whole
    return None


class Device:
    """A device at an address, which answers by the rules, and a trick where one is due. `write` gets each line for `osdp test panel`."""

    def __init__(self, address, may, write):
        self.address, self.may, self.write = address, may, write
        self.last, self.last_packet, self.stored, self.has_card = None, b"", b"", False
        self.waits, self.tries, self.rest, self.trick, self.steps, self.silent_till = list(TRICKS), 0, REST, None, 0, None
        self.is_refusing, self.first, self.answered, self.beside = False, b"", None, Beside(address)
        self.was_plain, self.losses, self.is_again = False, 0, False
        write(f"device {address}")
        for rule in [rule for rule in self.waits if TRICKS[rule] == "lapse" and "silence" not in may]:
            self.waits.remove(rule)
            write(f"skips {rule} --may=silence")

    # ---- what it would say

    def body_to(self, body, number):
        code = body[0]
        if code == 0x60:
            return CARD if self.has_card and number else b"\x40"
        if code == 0x61:
            return PDID
        if code == 0x62:
            return PDCAP
        if code in STATUS:
            return STATUS[code]
        return b"\x40" if code in ORDERS else b"\x41\x09" if code == 0x6E else b"\x41\x03"

    def answer(self, number, check, body, whole, moment):
        """The answer by the rules: of a copy that which it had, and NAK 4 to a number out of turn."""
        if number and self.stored and whole == self.last_packet:
            return self.stored
        if number and (self.last is None or number != self.last % 3 + 1) and self.beside.refuses(number, moment):
            return packet(self.address, number, b"\x41\x04", check, True)
        self.beside.takes()
        if self.stored[5:6] == b"\x50" and number:
            self.has_card = False
        said = packet(self.address, number, self.body_to(body, number), check, True)
        self.last, self.last_packet, self.stored = number, whole, said if number else b""
        return said

    # ---- which trick is due

    def suits(self, trick, number, body, is_copy):
        """Whether a trick can be played on a packet. On an order none is but its own, so that what a panel does to orders alone breaks one rule."""
        if body[0] in PLAYED and trick != "order":
            return False
        if trick == "lapse":
            return True
        if trick in NUMBERED:
            return number == NUMBERED[trick] and not is_copy
        if trick == "order":
            return number and body[0] in PLAYED and not is_copy
        if trick in ("card", "lost card"):
            return number and body[0] == 0x60 and not is_copy
        if trick == "restart":  # after number 1 a panel that begins with 1 in place of 0 would only seem to repeat
            return number > 1 and not is_copy
        return bool(number) and not is_copy

    def next_trick(self, number, body, is_copy):
        """The rule whose trick is played on this packet, or 0. On a number out of turn none is: it is refused."""
        if number and not is_copy and (self.last is None or number != self.last % 3 + 1):
            return 0
        orders = [rule for rule in self.waits if TRICKS[rule] == "order" and self.suits("order", number, body, is_copy)]
        if self.rest and not orders:
            self.rest -= not is_copy
            return 0
        for rule in orders + self.waits:  # orders are rare: the first one is taken
            if self.suits(TRICKS[rule], number, body, is_copy):
                self.trick, self.steps = rule, 0
                return rule
        return 0

    def is_over(self):
        """Whether all tricks were played that need no order of the user."""
        return not self.trick and all(TRICKS[rule] == "order" for rule in self.waits)

    def sees_loss(self, is_copy):
        """An answer that was lost shows nothing: its trick is played again."""
        self.losses += is_copy and self.was_plain
        if self.answered and is_copy and self.tries < TRIES * len(TRICKS):
            self.waits.insert(0, self.answered)
            self.tries += 1
        self.answered = None

    # ---- what it says

    def done(self):
        self.waits.remove(self.trick)
        self.trick, self.rest = None, REST
        if self.losses and not self.is_again and all(TRICKS[rule] == "order" for rule in self.waits):
            self.is_again = True
            self.waits += AGAIN

    def plays(self, trick, answer, number, check, now):
        """What is said for a trick: pieces, each with how many seconds later."""
        at = self.address
        if trick in ("card", "lost card"):
            self.has_card = True
        if trick in ("answer", "card"):
            return [(0, answer)]
        if trick == "late":
            return [(0.15, answer)]
        if trick == "filled":
            return [(0, b"\xFF\xFF" + answer)]
        if trick == "after noise":
            return [(0, b"\x00\xA5" + answer)]
        if trick == "reserved":
            return [(0, with_control(answer, answer[4] | 0x20))]
        if trick == "pieces":
            return [(0, answer[:4]), (0.004, answer[4:])]
        if trick == "after another":
            return [(0, packet((at + 1) % 127, number, b"\x40", check, True)), (0, answer)]
        if trick in ("order", "lost card") or trick in NUMBERED:
            return []
        if trick == "check":
            return [(0, answer[:-1] + bytes((answer[-1] ^ 0x5A,)))]
        if trick == "cut":
            return [(0, answer[:-2])]
        if trick == "length":
            return [(0, answer[:2] + bytes((answer[2] + 40,)) + answer[3:])]
        if trick == "start":
            return [(0, b"\x35" + answer[1:])]
        if trick == "noise":
            return [(0, bytes.fromhex("00FF5A00A5"))]
        if trick == "next number":
            return [(0, packet(at, number % 3 + 1, b"\x40", check, True))]
        if trick == "number 0":
            return [(0, packet(at, 0, b"\x40", check, True))]
        if trick == "another":
            return [(0, packet((at + 1) % 127, number, b"\x40", check, True))]
        if trick == "no reply":
            return [(0, packet(at, number, b"\x40", check, False))]
        if trick.startswith("busy"):
            return [(0, packet(at, number if trick == "busy number" else 0, b"\x79", check, True))]
        return [(0, packet(at, number, b"\x41\x01", check, True))]  # nak 1

    def state(self):
        """What is another whenever a trick is begun or done."""
        return len(self.waits), self.tries, self.trick, self.steps, self.is_refusing

    def hears(self, data, moment):
        """What is said to bytes that came: the rule for which, and its pieces. None where nothing is to the device."""
        read = reads(data)
        if read is None or read[0] or read[1] != self.address:
            return 0, []
        _, _, number, check, body, whole = read
        is_copy = whole == self.last_packet
        self.beside.came(number, is_copy, moment)
        rule, pieces = self.says(number, check, body, whole, is_copy, moment)
        self.was_plain = not rule and bool(pieces) and pieces[0][1][5:7] != b"\x41\x04"
        if self.was_plain:
            self.beside.answers(whole, moment)
        self.beside.says(pieces, moment)
        return rule, pieces

    def says(self, number, check, body, whole, is_copy, moment):
        """The same of a packet to the device."""
        self.sees_loss(is_copy)
        if self.trick and TRICKS[self.trick] == "lapse":
            return self.lapses(number, check, body, whole, moment)
        if self.is_refusing:
            return self.refuses(number, check, body, whole, moment)
        if self.trick:
            return self.goes_on(number, check, body, whole, moment)
        rule = self.next_trick(number, body, is_copy)
        if not rule:
            return 0, [(0, self.answer(number, check, body, whole, moment))]
        trick = TRICKS[rule]
        if trick == "lapse":
            self.silent_till = moment + int(SILENCE * 1000)
            return rule, []
        if trick in ("restart", "opening"):
            self.is_refusing, self.last, self.stored = True, None, b""
            return self.refuses(number, check, body, whole, moment)
        if trick in ("card", "lost card"):
            self.has_card = True
        answer = self.answer(number, check, body, whole, moment)
        self.first, self.answered = whole, rule if TRICKS[rule] in ANSWERS else None
        if trick not in ("twice", "second busy"):
            self.done()
        else:
            self.steps = 1
            return 0, [] if trick == "twice" else self.plays("busy", answer, number, check, moment)
        return rule, self.plays(trick, answer, number, check, moment)

    def lapses(self, number, check, body, whole, moment):
        """Nothing is said for long, and then the device begins anew."""
        if moment < self.silent_till:
            return self.trick, []
        self.last, self.stored, self.last_packet = None, b"", b""
        self.done()
        return 0, [(0, self.answer(number, check, body, whole, moment))]

    def goes_on(self, number, check, body, whole, moment):
        """The second step of a trick that has two: the copy has no answer either."""
        trick, rule = TRICKS[self.trick], self.trick
        answer = self.answer(number, check, body, whole, moment)
        self.done()
        if whole != self.first:
            return 0, [(0, answer)]
        return rule, [] if trick == "twice" else self.plays("busy", answer, number, check, 0)

    def refuses(self, number, check, body, whole, moment):
        """After a restart each number but 0 is refused. For the rule of the opening nothing is said to number 0."""
        rule, is_opening = self.trick, TRICKS[self.trick] == "opening"
        if number and self.beside.refuses(number, moment):
            return 0 if is_opening else rule, [(0, packet(self.address, number, b"\x41\x04", check, True))]
        self.is_refusing = False
        if number:  # the panel never sends number 0: it shows nothing of an opening
            self.done()
            return 0, [(0, self.answer(number, check, body, whole, moment))]
        answer = self.answer(number, check, body, whole, moment)
        self.done()
        return (rule, []) if is_opening else (0, [(0, answer)])


def with_control(whole, control):
    """A packet with another control byte."""
    head = whole[:4] + bytes((control,)) + whole[5:-2 if whole[4] & 4 else -1]
    return head + (crc(head).to_bytes(2, "little") if whole[4] & 4 else bytes(((-sum(head)) & 0xFF,)))


def lines_of(rule, moment, whole, pieces):
    """The lines of a packet and of what was said to it: what comes later goes with what went before, and else is a line of its own."""
    packets = []
    for delay, piece in pieces:
        if packets and delay:
            packets[-1][1] += piece
        else:
            packets.append([delay, piece])
    first = packets[0] if packets else [0, b""]
    yield f"hears {rule} {moment} {whole.hex().upper()} {int(first[0] * 1000)} {first[1].hex().upper() or 'none'}"
    for delay, piece in packets[1:]:
        yield f"says {int(delay * 1000)} {piece.hex().upper()}"


class Player:
    """Plays the device on a port. `told` is called after each packet to the device."""

    def __init__(self, port, console, device, write, told):
        self.port, self.console, self.device, self.write, self.told = port, console, device, write, told
        self.start, self.held, self.echo = time.monotonic(), b"", b""
        self.ends, self.read_at, self.is_late, self.late = Ends(device, console.note), self.start, False, 0

    def moment(self):
        return int((time.monotonic() - self.start) * 1000)

    def says(self, pieces):
        """Says pieces, each so many seconds after the one before."""
        for delay, piece in pieces:
            time.sleep(delay)
            self.port.write(piece)
            self.echo += piece

    def takes(self, whole):
        moment = self.moment()
        rule, pieces = self.device.hears(whole, moment)
        self.says(pieces)
        for line in lines_of(rule, moment, whole, pieces):
            self.write(line)
        self.ends.packet(moment)
        self.told()
        self.read_at = time.monotonic()

    def forgets(self, size):
        """So many of the bytes held are of no use any more, but for what they show of wrong checks."""
        self.device.beside.reads(self.held[:size])
        self.held, self.echo = self.held[size:], b""

    def turn(self):
        """Bytes that came. Whether there were any, or a packet was left of those before. A packet that this computer may have read late counts as lost."""
        has_lagged = time.monotonic() > self.read_at + LAG
        came = self.port.read()
        self.read_at = time.monotonic()
        self.is_late = (bool(came) and has_lagged) or (bool(self.held) and self.is_late)
        self.held += came
        if self.echo and self.held.startswith(self.echo):
            self.held, self.echo = self.held.removeprefix(self.echo), b""
        read = reads(self.held)
        if read is None:
            return bool(came)
        self.forgets(self.held.index(read[5]) + len(read[5]))
        if read[1] != self.device.address and (read[1] != 0x7F or read[0]):
            return True
        if self.is_late:
            self.late += 1
        else:
            self.takes(read[5])
        return True

    def goes(self):
        last = time.monotonic()
        while self.port.is_there and not self.console.stops and not self.ends.is_over(self.moment()):
            wait_for(self.port, self.console, 0.01, lines=False)
            if self.turn():
                last = time.monotonic()
            elif (self.held or self.echo) and time.monotonic() > last + GAP:
                self.forgets(len(self.held))


class Held(Judge):
    """`osdp test panel`, whose report is held until what was found beside it is told."""

    def __init__(self, osdp, is_tap, console):
        self.lines = []
        super().__init__(osdp, ["test", "panel", *(["--tap"] if is_tap else [])], console)

    def prints(self, line):
        self.lines.append(line)

    def broken(self):
        """The rules that are told broken."""
        told = (re.match(r"not ok (\d+) |(\d+) broken", line) for line in self.lines)
        return {int(each[1] or each[2]) for each in told if each}


def report(judge, beside, is_tap):
    """The lines of a report: first what others follow from, and what was found beside the rules."""
    cause = beside.cause(judge.broken())
    first = [*([cause] if cause else []), *beside.lines()]
    return [*judge.lines, *(f"# {line}" for line in first)] if is_tap else [*first, *judge.lines]


def test_panel(words, port, console, osdp):
    """Is the device at an address, and tests the panel that asks it. The status: that of `osdp test panel`, or 1 where something was found beside its rules."""
    may, lines, is_tap = allowed(words), [], bool(words.get("--tap"))
    record, early = Record(words.get("--trace")), Early(osdp, console)
    judge = Held(osdp, is_tap, console)

    def write(line):
        judge.write(line.encode() + b"\n")
        lines.append(line)
        record.write(line)
    console.note(f"device {words.rest[1]} waits for its panel; give it an order now (an output, an LED), or rule 22 is unclear")
    device = Device(int(words.rest[1]), may, write)
    player = Player(port, console, device, write, lambda: early.looks(lines, device.state()))
    player.goes()
    early.ends()
    if player.late:
        console.note(f"this computer was busy, so {player.late} packets may have been read late: they count as lost on the line")
    is_cut_off = bool(console.stops) or not port.is_there
    status = judge.ends()
    for line in report(judge, device.beside, is_tap):
        console.raw(line)
    return status_of(port, console, is_cut_off, status or (MET if device.beside.found else 0), record)
