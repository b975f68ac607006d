"""Which devices are on the line: each rate is tried with both checks, by the configuration address, at which
each device answers, and then address by address. No device is changed, unless it is asked for; then an
opening at the new place confirms it."""
import re
import subprocess
import time
from dataclasses import dataclass

from .console import wait_for
from .faults import BAD_WORDS, Stop
from .reports import identity_words
from .serial_port import RATES, has_rate
from .turns import Watched

EVERYBODY = 127  # the configuration address: each device answers there
ANSWER = 0.2  # seconds that an answer may take
GAP = 0.03  # seconds of silence after which an answer is over
QUICK = 0.05  # seconds that an answer is waited for at least, where it is known how long the device takes
SETTLES = 0.05  # seconds that a port is left after its rate was changed
# seconds that late answers may take to come, and for which it is listened whether bytes come though nobody is
# asked
DRAINS, LISTENS = 0.3, 0.5
TRIES = 3  # how often a question is asked where there is noise
STILL = 0.1  # seconds for which the program may stand still within a question; else it is asked again
AGAIN = 20  # .. so often at most
CHECKS = ("crc", "sum")
LINE = re.compile(r"^\d+:\d+ (.*)$", re.M)
REPLY = re.compile(r"reply (\d+) seq (\d) (?:crc|sum) (.*)")


@dataclass(frozen=True)
class Found:
    """A device: where it answers, and what it says of itself."""

    address: int
    rate: int
    check: str
    identity: str

    def __str__(self):
        return (
            f"found address {self.address} rate {self.rate} check"
            f" {self.check} {identity_words(self.identity.split())}"
        )


class Line:
    """The line, asked packet by packet."""

    def __init__(self, port, console, osdp):
        self.port, self.console, self.osdp = Watched(port), console, osdp
        self.wait = ANSWER
        self.latency = 0.0  # how long the last answer took
        self.made = {}
        self.beyond = set()  # rates that the port hasn't taken

    def goes(self, rate):
        """Sets the port to a rate. An adapter may need a moment for it. Whether the port has taken it; that
        it hasn't is told once."""
        if rate == self.port.rate:
            return True
        has_taken = self.port.set_rate(rate)
        if not has_taken and rate not in self.beyond:
            self.beyond.add(rate)
            self.console.say(f"no rate {rate}: the port can't be set to it")
        time.sleep(SETTLES)
        return has_taken

    def packet(self, address, number, check, text):
        """A packet as `osdp make` spells it."""
        words = ("make", str(address), str(number), check, *text.split())
        if words not in self.made:
            done = subprocess.run(
                [self.osdp, *words], capture_output=True, text=True, check=False, start_new_session=True
            )
            if done.returncode:
                raise Stop(f"the program osdp makes no packet {' '.join(words[1:])}: {done.stderr.strip()}")
            self.made[words] = bytes.fromhex(done.stdout)
        return self.made[words]

    def ask(self, address, number, check, text):
        """Sends a packet. The bytes that come after it, without their own echo. Where the program stood still
        meanwhile it is sent again: an answer may lie in the driver, or be one to a packet before."""
        packet = self.packet(address, number, check, text)
        for _ in range(AGAIN):
            self.port.begins()
            came = self.sends(packet)
            self.port.looks()
            if self.port.longest < STILL or not self.is_going():
                return came
            self.drains()
        raise Stop(
            "the program stands still again and again, so nobody knows who answers: end what else runs here"
        )

    def drains(self):
        """Waits until late answers have come, and reads them: they are of nobody who is asked."""
        until = time.monotonic() + DRAINS
        while time.monotonic() < until and self.is_going():
            wait_for(self.port, self.console, 0.02, lines=False)
            self.port.read()

    def sends(self, packet):
        """Sends a packet once. The bytes that come after it, without their own echo."""
        came = b""
        self.port.read()  # what came before is of nobody who is asked
        self.port.write(packet)
        begun = last = time.monotonic()
        while self.is_going():
            now = time.monotonic()
            if now > begun + (1.0 if came else self.wait + 12 * len(packet) / self.port.rate) or (
                came and now > last + GAP
            ):
                break
            wait_for(self.port, self.console, 0.005, lines=False)
            read = self.port.read()
            if read:
                came, last = came + read, time.monotonic()
                self.latency = last - begun
                if came == packet:
                    came = b""
        return came.removeprefix(packet)

    def hears(self):
        """Whether bytes come though nobody is asked, once late answers have come."""
        came, begun = b"", time.monotonic()
        while self.is_going() and (now := time.monotonic()) < begun + DRAINS + LISTENS and not came:
            wait_for(self.port, self.console, 0.02, lines=False)
            read = self.port.read()
            came = read if now > begun + DRAINS else b""
        return bool(came)

    def is_going(self):
        if not self.port.is_there:
            raise Stop(f"{self.port.path} is gone")
        return not self.console.stops

    def replies(self, came):
        """The replies among the bytes that came, as pairs of address and text, and whether there was anything
        else but single bytes of filling."""
        if not came:
            return [], False
        done = subprocess.run(
            [self.osdp, "show"],
            input=came.hex() + "\n",
            capture_output=True,
            text=True,
            check=False,
            start_new_session=True,
        )
        lines = LINE.findall(done.stdout)
        if any(line.startswith("cmd") for line in lines):
            raise Stop(f"another panel speaks on the line of {self.port.path}: stop it first")
        replies = [(int(found[1]), found[3]) for found in map(REPLY.fullmatch, lines) if found]
        return replies, any(line.startswith("refused") for line in lines) or (
            not replies and any(line not in ("skip FF", "skip 00") for line in lines)
        )


class Search:
    """What was found so far, and what was heard that can't be read."""

    def __init__(self, line, say):
        self.line, self.say, self.found, self.several = line, say, [], False
        self.shared = []  # places at which several devices answer
        # of each rate at which something couldn't be read: whether bytes come there though nobody is asked
        self.noise = {}

    def reads(self, address, check, tries=1):
        """Asks an address, more than once where the answer can't be read. The replies, and whether there was
        anything else."""
        for _ in range(tries):
            replies, is_broken = self.line.replies(self.line.ask(address, 0, check, "ID 0"))
            if not is_broken and len(replies) < 2:
                break
        return replies, is_broken

    def everybody(self, check, tries=1):
        """Asks the configuration address. The identity of the one that answers, and the address that its
        answer has; an empty text where several do, and none where nobody does."""
        replies, is_broken = self.reads(EVERYBODY, check, tries)
        told = [text for _, text in replies if text.startswith("PDID ")]
        if not replies and not is_broken:
            return None, EVERYBODY
        return (
            (told[0].removeprefix("PDID "), replies[0][0])
            if len(replies) == 1 and told and not is_broken
            else ("", EVERYBODY)
        )

    def is_noisy(self):
        """Whether bytes come at this rate though nobody is asked: then it isn't by the answers of several
        devices that nothing can be read. It is told once."""
        rate = self.line.port.rate
        if rate not in self.noise:
            self.noise[rate] = self.line.hears()
            if list(self.noise.values()).count(True) == 1 and self.noise[rate]:
                self.say(
                    f"bytes come though nobody is asked, as at rate {rate}: noise, or something that speaks"
                    f" by itself; each question is asked {TRIES} times there"
                )
        return self.noise[rate]

    def the_one(self, check, identity, at):
        """Looks for the device that is alone on the line: first with the wait that its answer needed, at the
        address that this answer had. How many were found."""
        others = (
            [at] * (TRIES - 1)
            if self.noise.get(self.line.port.rate)
            else [address for address in range(EVERYBODY) if address != at]
        )
        for self.line.wait in (min(ANSWER, max(QUICK, 3 * self.line.latency)), ANSWER):
            if self.each_address(check, identity, [at, *others]):
                break
        self.line.wait = ANSWER
        return len(self.found)

    def each_address(self, check, identity=None, addresses=range(EVERYBODY)):
        """Asks address by address; where one device is known to be there, until it has answered. How many
        were found."""
        before = len(self.found)
        for address in addresses:
            if not self.line.is_going():
                break
            if address == EVERYBODY:
                continue
            replies, is_broken = self.reads(address, check, 2)
            if is_broken or len(replies) > 1:
                self.shares(address)
            for at, text in replies[:1] if not is_broken else ():
                if text.startswith("PDID ") and at == address:
                    self.adds(Found(address, self.line.port.rate, check, text.removeprefix("PDID ")))
                    if identity:
                        return 1
                elif text.startswith("NAK"):
                    self.say(
                        f"address {address} rate {self.line.port.rate} check {check} answers {text}:"
                        f" {'it demands Secure Channel' if text == 'NAK 6' else 'it takes no opening'}"
                    )
        return len(self.found) - before

    def shares(self, address):
        """Several devices answer at an address, where it isn't noise. Each such place is told once."""
        place = f"address {address} rate {self.line.port.rate}"
        if place not in self.shared and not self.is_noisy():
            self.shared.append(place)
            self.say(
                f"several devices answer at address {address}, rate {self.line.port.rate}: give each an"
                " address of its own, one device on the line at a time"
            )

    def adds(self, found):
        if not any((each.address, each.rate) == (found.address, found.rate) for each in self.found):
            self.found.append(found)
            self.say(str(found))

    def rates(self):
        """The rates, the one that was named first; that one alone where a server sets the rate."""
        first = self.line.port.rate
        return [first, *(rate for rate in RATES if rate != first and self.line.port.has_own_rate)]

    def goes(self):
        """Tries each rate with both checks by the configuration address, until one device answers alone."""
        rates = self.rates()
        for at, rate in enumerate(rates, 1):
            if self.line.goes(rate) and self.tries(rate):
                if rates[at:]:
                    self.say(
                        f"not asked: rates {', '.join(map(str, rates[at:]))}, at which other devices may be;"
                        " RATE names the one that is asked first"
                    )
                return

    def tries(self, rate):
        """Tries a rate with both checks. Whether a device was alone there, as its answer could be read."""
        for check in CHECKS:
            if not self.line.is_going():
                return False
            identity, at = self.everybody(check)
            if identity == "" and self.is_noisy():
                identity, at = self.everybody(check, TRIES - 1)
                identity = identity or None
            if identity is None:
                continue
            if identity:
                if self.the_one(check, identity, at):
                    return True
                continue
            if not self.several:
                self.say(f"several devices answer at rate {rate}, or one with noise: each address is asked")
            self.several = True
            if self.each_address(check) or self.shared:
                break
        return False

    def goes_by_address(self):
        """Nobody answers at the configuration address: asks each address, at each rate, with both checks."""
        rates = [rate for rate in self.rates() if not self.noise.get(rate)]
        self.say(
            f"nobody answers at address {EVERYBODY}: each address is asked at each rate, which takes some"
            f" {len(rates) * 2 * EVERYBODY * self.line.wait / 60:.0f} minutes; Ctrl-C ends it"
        )
        for _ in filter(self.line.goes, rates):
            for check in CHECKS:
                if self.line.is_going() and self.each_address(check):
                    break

    def none_found(self):
        """Why no device was found, and what to do."""
        if self.shared:
            return (
                f"no device is alone at its address: several answer at {' and '.join(self.shared)}; put one"
                " of them on the line at a time, and give it another address by --set-address"
            )
        noisy = [str(rate) for rate, is_noisy in self.noise.items() if is_noisy]
        if noisy:
            return (
                f"no device found: bytes come though nobody is asked, at rate {', '.join(noisy)}, and no"
                " answer can be read: the ground, the shield, a resistor at each end; stop every other"
                " panel, and take off what speaks by itself"
            )
        if self.several:
            return (
                "no device found: something answers, and no answer can be read: put one device on the line at"
                " a time; the ground, the shield, a resistor at each end"
            )
        return "no device found: power, the two wires and the ground; stop every other panel"


def opens(line, place, check, identity):
    """Whether this device answers an opening there."""
    address, rate = place
    if not line.goes(rate):
        return False
    for _ in range(3):
        replies, _ = line.replies(line.ask(address, 0, check, "ID 0"))
        if (address, f"PDID {identity}") in replies:
            return True
    return False


def is_taken(line, place, say):
    """Whether a device answers at a place. Two there would both do each order."""
    search = Search(line, say)
    for check in CHECKS:
        replies, is_broken = search.reads(place[0], check, 2)
        if replies or is_broken:
            say(f"another device answers at address {place[0]} rate {place[1]}: nothing is set")
            return True
    return False


def changes(line, found, address, rate, say):
    """Gives a device another place, and confirms it by an opening there. Whether it is there: it may tell by
    its COM that it has taken another one."""
    wanted = place = (found.address if address is None else address, found.rate if rate is None else rate)
    if not line.goes(place[1]):
        say(f"device {found.address} isn't changed")
        return False
    if place != (found.address, found.rate) and is_taken(line, place, say):
        return False
    if not opens(line, (found.address, found.rate), found.check, found.identity):
        say(f"device {found.address} doesn't answer any more: it isn't changed")
        return False
    for _ in range(3):
        replies, _ = line.replies(line.ask(found.address, 1, found.check, f"COMSET {place[0]} {place[1]}"))
        if replies:
            break
    told = replies[0][1] if replies else "no answer"
    if told.startswith("NAK"):
        say(f"device {found.address} refuses: {told}; it stays at address {found.address} rate {found.rate}")
        return False
    if told.startswith("COM ") and len(told.split()) == 3 and has_rate(int(told.split()[2])):
        place = tuple(map(int, told.split()[1:]))
    time.sleep(0.1)  # the device sets its port
    for each in (place, (found.address, found.rate)):
        if opens(line, each, found.check, found.identity):
            say(f"{'set' if each == wanted else 'not set'}: device is at address {each[0]} rate {each[1]}")
            return each == wanted
    say(
        f"device {found.address} isn't found again: it may be at address {place[0]} rate {place[1]}; try find"
        " once more"
    )
    return False


def seeks(search, console):
    """Looks for the devices. Whether one was found; why none was is told."""
    search.goes()
    is_noisy = all(search.noise.get(rate) for rate in search.rates())
    if not search.found and not search.several and not is_noisy and not console.stops:
        search.goes_by_address()
    if console.stops:
        console.say(f"stopped: {len(search.found)} devices found so far")
    elif not search.found:
        console.say(search.none_found())
    return bool(search.found)


def find(words, port, console, osdp):
    """Finds the devices, and changes the one that was found where that is asked."""
    address, rate = words.get("--set-address"), words.get("--set-rate")
    if rate is not None and not has_rate(rate):
        raise Stop(f"the port has no rate {rate}: try {', '.join(map(str, RATES))}", BAD_WORDS)
    if rate not in (None, port.rate) and not port.has_own_rate:
        raise Stop(
            (
                f"the rate of {port.path} is set at its server alone: a device that is given another rate"
                " there isn't found again"
            ),
            BAD_WORDS,
        )
    line = Line(port, console, osdp)
    search = Search(line, console.say)
    console.say(
        f"find at {port.path}: rates {', '.join(map(str, search.rates()))}, both checks; no device is"
        f" changed{'' if address is None and rate is None else ' before it is found'}"
    )
    if not seeks(search, console):
        return 1
    if console.stops:
        return 0
    if address is None and rate is None:
        return 0
    if len(search.found) != 1 or search.several:
        console.say(
            "more than one device is on the line: nothing is set; put the one to be set alone on the line"
        )
        return 1
    if any(search.noise.values()):
        console.say("bytes come though nobody is asked: nothing is set")
        return 1
    return 0 if changes(line, search.found[0], address, rate, console.say) else 1
