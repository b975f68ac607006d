"""A panel and a reader that aren't ours, by the rules of the standard alone, over a line that loses and damages bursts; and wrong ones. Moments are made up."""
import binascii
import heapq
import random

ACK, NAK, PDID, LSTATR, COM, RAW, BUSY, MFGREP = 0x40, 0x41, 0x45, 0x48, 0x54, 0x50, 0x79, 0x90
POLL, ID, OUT, COMSET, LED = 0x60, 0x61, 0x68, 0x6E, 0x69
OWN = bytes.fromhex("53494D010105000000010000")
ALL = "537F07000060C7"
LOSSES = (0, 0.01, 0.05)
QUIET = {"resets": 0, "busy": 0, "restarts": 0, "moves": 0}
PLAIN = {"delay": 20, "wait": 200, "repeats": 3, "pause": 50, **QUIET}


def crc(data):
    return binascii.crc_hqx(data, 0x1D0F)


def packet(address, number, code, data=b"", reply=False, check="sum"):
    size = 6 + len(data) + (1 if check == "sum" else 2)
    body = bytes([0x53, address | (0x80 if reply else 0), size & 255, size >> 8, number | (4 if check == "crc" else 0), code]) + data
    return body + (bytes([-sum(body) & 255]) if check == "sum" else crc(body).to_bytes(2, "little"))


class Habits:
    """What makers do differently, all within the rules."""

    def __init__(self, chance, **words):
        self.check = chance.choice(("sum", "crc"))
        self.marks = chance.choice((0, 1, 3))  # FF before each packet
        self.resets = chance.choice((0, 0.02))  # number 0 at any time
        self.repeats = chance.choice((0, 3, 8))  # how often a packet is sent again before number 0
        self.pause = chance.choice((5, 50, 200))  # between two exchanges
        self.busy = chance.choice((0, 0.1))
        self.busy_number = chance.choice((True, False))  # BUSY with the packet's number, or 0
        self.restarts = chance.choice((0, 0.01))
        self.moves = chance.choice((0, 0.01))
        self.wait, self.delay = 200, chance.choice((3, 40, 199))
        self.__dict__.update(words)


class Reader:
    """A reader by the rules: it takes number 0 and the next, answers the last as before, and refuses any other."""

    def __init__(self, line, address):
        self.line, self.address = line, address
        self.taken = self.stored = None

    def answer(self, number, code, data):
        habits, chance = self.line.habits, self.line.chance
        if number and number == self.taken:
            return self.repeat()
        if number and (self.taken is None or number != self.taken % 3 + 1):
            self.taken = self.stored = None
            return self.reply(number, NAK, bytes([4]))
        if habits.busy and chance.random() < habits.busy:
            return self.reply(number if habits.busy_number else 0, BUSY)
        reply = self.reply(number, *self.act(number, code, data))
        self.taken, self.stored = number, reply
        if code == COMSET and data[0] != self.address:
            self.address, self.taken = data[0], None
        return reply

    def repeat(self):
        return self.stored

    def act(self, number, code, data):
        if code == ID:
            return PDID, OWN
        if code == COMSET:
            return COM, data
        if code == POLL and number and self.line.chance.random() < 0.1:
            return RAW, bytes([0, 1, 8, 0, self.line.chance.randrange(256)])
        return ACK, b""

    def reply(self, number, code, data=b""):
        return packet(self.address, number, code, data, True, self.line.habits.check)


class Panel:
    """A panel by the rules: number 0 first, the next number after an answer, and else the same packet once more."""

    def __init__(self, line, address):
        self.line, self.address = line, address
        self.number, self.code, self.data = 0, ID, bytes([0])
        self.sent = self.answered = 0

    def is_answered(self, reply):
        """A reply with the packet's number, but BUSY, NAK 1 and NAK 4."""
        return reply[4] & 3 == self.number and reply[5] != BUSY and not (reply[5] == NAK and reply[6] in (1, 4))

    def opens(self):
        self.number, self.code, self.data, self.sent = 0, ID, bytes([0]), 0

    def next(self):
        self.number, self.sent = self.number % 3 + 1, 0
        self.code, self.data = self.line.chance.choice(((POLL, b""), (POLL, b""), (POLL, b""), (OUT, bytes([0, self.line.chance.randint(1, 2), 0, 0]))))
        if self.line.chance.random() < self.line.habits.moves:
            self.code, self.data = COMSET, bytes([self.line.chance.choice((5, 6, 7)), *(9600).to_bytes(4, "little")])

    def burst(self):
        self.sent += 1
        return packet(self.address, self.number, self.code, self.data, check=self.line.habits.check)


class Line:
    """One panel, one reader, and what a listener hears, a line of digits for each burst."""

    def __init__(self, seed, loss, unheard=0.0, panel=Panel, reader=Reader, **words):
        self.chance = random.Random(seed)
        self.habits = Habits(self.chance, **words)
        self.loss, self.unheard = loss, unheard
        self.panel, self.reader = panel(self, 5), reader(self, 5)
        self.heard, self.events, self.order = [], [], 0
        self.missed = 0  # bursts that the listener alone misses
        self.waits = self.heard_of = 0  # the number of the packet that is waited for, and of the last one that was answered

    def at(self, moment, what, *data):
        self.order += 1
        heapq.heappush(self.events, (moment, self.order, what, data))

    def say(self, burst):
        """A burst goes over the line: whether the end that it is for reads it."""
        fate = self.chance.random()
        if self.unheard and self.chance.random() < self.unheard:
            self.missed += 1
            return True
        if fate < self.loss:
            at = self.chance.randrange(1, len(burst))
            burst = burst[:at] + bytes([burst[at] ^ 1 << self.chance.randrange(8)]) + burst[at + 1:]
        marks = bytes([0xFF] * (self.habits.marks + (8 if fate < self.loss else 0)))  # damage has a mark of its own
        self.heard.append((marks + burst).hex().upper())
        return fate >= 2 * self.loss

    def send(self, now):
        """The panel's packet goes out, and is due again after its wait."""
        burst = self.panel.burst()
        if self.say(burst):
            self.at(now + self.habits.delay, "answer", burst)
        self.waits += 1
        self.at(now + self.habits.wait, "wait", self.waits)

    def run(self, rounds):
        self.at(0, "begin")
        while self.events and len(self.heard) < rounds:
            now, _, what, data = heapq.heappop(self.events)
            getattr(self, f"on_{what}")(now, *data)
        return self.heard

    def on_begin(self, now):
        self.send(now)

    def on_answer(self, now, burst):
        if burst[1] & 0x7F != self.reader.address:
            return
        size = 7 if self.habits.check == "sum" else 8
        for reply in self.replies(burst[4] & 3, burst[5], burst[6:len(burst) - size + 6]):
            if self.say(reply):
                self.hears(now, reply)

    def replies(self, number, code, data):
        if self.habits.restarts and self.chance.random() < self.habits.restarts:
            self.reader.taken = self.reader.stored = None
        return [self.reader.answer(number, code, data)]

    def hears(self, now, reply):
        """The panel reads a reply: it goes on, waits, or begins anew."""
        if self.waits == self.heard_of:
            return
        if reply[5] == NAK and reply[6] == 4 and reply[4] & 3 == self.panel.number:
            self.ends_wait()
            self.panel.opens()
            self.at(now + 300, "begin")
        elif self.panel.is_answered(reply):
            self.ends_wait()
            if reply[5] == COM and self.panel.code == COMSET:
                self.panel.address = reply[6]
                self.panel.opens()
            else:
                self.panel.next()
            if self.chance.random() < self.habits.resets:
                self.panel.opens()
            self.at(now + self.habits.pause, "begin")

    def ends_wait(self):
        """What was sent last was answered."""
        self.waits += 1
        self.heard_of = self.waits

    def on_wait(self, now, sent):
        """No answer came within the wait: the same once more, or number 0."""
        if sent != self.waits:
            return
        if self.panel.sent > self.habits.repeats:
            self.panel.opens()
        self.send(now)


class AnotherNumber(Reader):
    """Its answer has the number of the packet before, now and then."""

    def reply(self, number, code, data=b""):
        if number and code not in (BUSY, NAK) and self.line.chance.random() < 0.05:
            number = (number + 1) % 3 + 1
        return super().reply(number, code, data)


class ActsAgain(Reader):
    """It answers a repeat anew."""

    def repeat(self):
        return self.reply(self.taken, RAW, bytes([0, 1, 8, 0, self.line.chance.randrange(256)]))


class GivesUp(Panel):
    """It goes on to the next number without an answer."""

    def opens(self):
        if self.number:
            self.next()
        else:
            super().opens()


class Begins(Panel):
    """It begins a session by one command and by another in turn, all with number 0."""

    def opens(self):
        self.begun = getattr(self, "begun", 0) + 1
        self.number, self.sent = 0, 0
        self.code, self.data = ((ID, bytes([0])), (POLL, b""))[self.begun % 2]


class Hanging(Line):
    """The reader takes the packets in their order, and now and then it hangs for longer than its panel waits three times."""

    ready = 0

    def send(self, now):
        burst = self.panel.burst()
        hangs = now >= self.ready and self.chance.random() < 0.05
        if self.say(burst):
            self.ready = max(self.ready, now + (self.chance.randrange(620, 900) if hangs else self.habits.delay))
            self.at(self.ready, "answer", burst)
        self.waits += 1
        self.at(now + self.habits.wait, "wait", self.waits)


class Unfit(Reader):
    """Now and then it answers a POLL by what its maker has defined."""

    def act(self, number, code, data):
        if code == POLL and number and self.line.chance.random() < 0.05:
            return MFGREP, b"SIM\1"
        return super().act(number, code, data)


class TellsAtZero(Reader):
    """It answers a POLL with number 0 by its state."""

    def act(self, number, code, data):
        return (LSTATR, bytes([0, 0])) if code == POLL and not number else super().act(number, code, data)


class BusyAgain(Reader):
    """It answers a repeat by BUSY."""

    def repeat(self):
        return self.reply(self.taken, BUSY)


class KeepsSession(Reader):
    """It refuses a new session by its number, every second time."""

    def act(self, number, code, data):
        self.begun = getattr(self, "begun", 0) + (not number)
        return (NAK, bytes([4])) if not number and not self.begun % 2 else super().act(number, code, data)


class OtherCheck(Reader):
    """Now and then its reply has the other kind of check."""

    def reply(self, number, code, data=b""):
        check = self.line.habits.check
        if code not in (BUSY, NAK) and self.line.chance.random() < 0.05:
            check = "crc" if check == "sum" else "sum"
        return packet(self.address, number, code, data, True, check)


class Unreadable(Reader):
    """Now and then a card has fewer bits than it says."""

    def act(self, number, code, data):
        if code == POLL and number and self.line.chance.random() < 0.05:
            return RAW, bytes([0, 1, 26, 0, 1])
        return super().act(number, code, data)


class AnyNumber(Reader):
    """It takes any number."""

    def answer(self, number, code, data):
        if number and number != self.taken:
            self.taken = (number + 1) % 3 + 1
        return super().answer(number, code, data)


class Skips(Panel):
    """Now and then it leaves a number out."""

    def next(self):
        super().next()
        if self.line.chance.random() < 0.05:
            self.number = self.number % 3 + 1


class Changes(Panel):
    """Its repeat is another packet."""

    def burst(self):
        if self.sent and self.number:
            self.code, self.data = (OUT, bytes([0, 2, 0, 0])) if self.code == POLL else (POLL, b"")
        return super().burst()


class TwoChecks(Panel):
    """Its packets with an even number have a sum, the others a CRC."""

    def burst(self):
        self.sent += 1
        return packet(self.address, self.number, self.code, self.data, check=("sum", "crc")[self.number % 2])


class Checked(Line):
    """A reply has the check of its packet."""

    def on_answer(self, now, burst):
        self.habits.check = "crc" if burst[4] & 4 else "sum"
        super().on_answer(now, burst)


class Twin(Line):
    """Two devices at one address, which don't collide: each answers."""

    def replies(self, number, code, data):
        self.twin = getattr(self, "twin", None) or Reader(self, 5)
        return [each.answer(number, code, data) for each in (self.reader, self.twin)]
