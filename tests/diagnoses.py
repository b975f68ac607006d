"""Lines with a fault that the counts tell, for `monitor`: which diagnosis stands after the table. Takes the path of the program.

Both ends are those of `ends.py`, by the rules of the standard alone. Each kind of line is made at losses of 0, 1 and 5 of a hundred bursts. What must be
told is wanted in each line, and what may be told besides is named. Anything else is told falsely, and so is each row of a device that isn't there, and each
accusation where both ends keep the rules. Where nothing could be judged a line says so, and only there. The counts of both are printed. Two things can't be told in each line, and are counted:

- a rate that a COMSET has changed, where damage has hit the one answer that names it: nothing may be told there;
- damage on one device alone, where the line damages 1 or 5% of all bursts besides: the others then have damage too, and from one in sixty on it is theirs as well."""
import random
import re
import subprocess
import sys
from collections import Counter, namedtuple

from ends import ALL, COM, COMSET, ID, LOSSES, NAK, PLAIN, POLL, Line, Panel, Reader, Twin, packet
from strangers import ACCUSED, PROGRAM

DIAGNOSIS = re.compile(r"^diagnosis: (.*)$", re.M)
ROW = re.compile(r"^(\d+)(?: +\d+){12}$", re.M)
ROUNDS, SHORT = 800, 400
SEEDS = ("", "b ", "e ", "g ", "h ")
LOSES = r"\d+ loses \d+% of answers(, others none)?"
ALIKE = r"damage on all alike"
DAMAGED = r"damage on 5 alone"
REPEATED = r"packets to \d+ are repeated although answered"
RESTARTED = r"\d+ restarted \d+ times"
SHARED = "two devices may answer at 5"
RATE = 9600  # at which a line begins
UNJUDGED = "\nnothing was judged\n"
# what stands before each packet, so that nothing is known when it comes: marks, a packet with a wrong check, and a packet to all devices
BEFORE = {"marks": lambda burst: ["FF" * 8 + burst], "a refusal": lambda burst: ["53050700016041", burst], "a packet to all": lambda burst: [ALL, burst]}
SETTINGS = ((5, 38400), (5, 19200), (6, 9600), (6, 115200))  # the address and the rate of a COMSET
counts = Counter()


class Mute(Reader):
    """It answers nothing."""

    def answer(self, number, code, data):
        return None


class Forgetful(Reader):
    """Of a hundred answers it leaves eight out."""

    def answer(self, number, code, data):
        reply = super().answer(number, code, data)
        return None if self.line.chance.random() < 0.08 else reply


class Loses(Reader):
    """It loses its number now and then, as after a loss of power."""

    def answer(self, number, code, data):
        if self.line.chance.random() < 0.02:
            self.taken = self.stored = None
        return super().answer(number, code, data)


class Secures(Reader):
    """It answers everything but the opening by NAK 6."""

    def act(self, number, code, data):
        return (NAK, bytes([6])) if number else super().act(number, code, data)


class Answering(Line):
    """A line whose reader may stay silent."""

    def replies(self, number, code, data):
        return [reply for reply in super().replies(number, code, data) if reply]


class Collides(Answering):
    """Two devices answer at once: each answer is damaged, but where both are the same byte for byte now and then."""

    def say(self, burst):
        if burst[1] & 0x80 and self.chance.random() < 0.8:
            self.heard.append((bytes([burst[0]]) + bytes(byte ^ self.chance.randrange(1, 255) for byte in burst[1:])).hex().upper())
            return False
        return super().say(burst)


class Deaf(Line):
    """A panel that hears nine of ten answers, while the listener hears all."""

    def hears(self, now, reply):
        if self.chance.random() < 0.1:
            return
        super().hears(now, reply)


class Sets(Panel):
    """It orders another address or rate, once. It goes there when it has the answer. Where none comes it tries both in turn."""

    setting, before = SETTINGS[0], 80  # what it orders, and how many packets it sends before

    def next(self):
        super().next()
        self.before -= 1
        if self.before == 0:
            self.code, self.data = COMSET, bytes([self.setting[0], *self.setting[1].to_bytes(4, "little")])

    def opens(self):
        if self.before <= 0 and self.code in (COMSET, ID):
            is_new = (self.address, self.line.rates["panel"]) == self.setting
            self.address, self.line.rates["panel"] = (5, RATE) if is_new and self.code == ID else self.setting
        super().opens()


class Refuses(Reader):
    """It knows no COMSET."""

    def act(self, number, code, data):
        return (NAK, bytes([3])) if code == COMSET else super().act(number, code, data)


class Rated(Line):
    """A line whose ends read only what is sent at their own rate. The reader goes to another one after its COM. The listener goes where the panel is, or stays."""

    follows = True

    def __init__(self, *words, **more):
        super().__init__(*words, **more)
        self.rates, self.named = {"panel": RATE, "reader": RATE}, False

    def say(self, burst):
        sender, other = ("reader", "panel") if burst[1] & 0x80 else ("panel", "reader")
        rate = self.rates[sender]
        reads = super().say(burst)
        if rate != (self.rates["panel"] if self.follows else RATE):
            self.heard[-1] = bytes(self.chance.choice((0x00, 0x80, 0xF8, 0xE0, 0xFE, 0x1C)) for _ in range(max(1, len(burst) * RATE // rate))).hex().upper()
        elif burst[5] == COM and burst[1] & 0x80:
            self.named |= self.heard[-1].endswith(burst.hex().upper())
        reads = reads and rate == self.rates[other]
        if sender == "reader" and burst[5] == COM:
            self.rates["reader"] = int.from_bytes(burst[7:11], "little")
        return reads


class Stays(Rated):
    """The listener stays at the rate at which the line begins."""

    follows = False


class Ghosts(Rated):
    """Now and then damage puts bytes before a packet, and changes one bit of its address and the same one of its sum, so that the sum doesn't tell it: the packet
    seems to be another device's. Two such packets of a kind come at most for each address, one before a COM. The first COM is always such a packet."""

    def __init__(self, *words, **more):
        super().__init__(*words, **more | {"check": "sum"})
        self.ghosts, self.sets = Counter(), False

    def say(self, burst):
        sets = burst[1] & 0x80 and burst[5] == COM and not self.sets
        bits = [1 << at for at in self.chance.sample(range(7), 7 if sets else 1)]
        made = [bytes([burst[0], burst[1] ^ bit, *burst[2:-1], burst[-1] ^ bit]) for bit in bits]
        most = 2 if sets or self.sets else 1
        ghost = next((each for each in made if sum(each) & 0xFF == 0 and self.ghosts[each[1]] < most), None)
        if ghost and (sets or self.chance.random() < 0.2):
            self.sets |= bool(sets)
            self.ghosts[ghost[1]] += 1
            self.heard.append((bytes(self.chance.choice((0xAA, 0x00, 0xFE)) for _ in range(9)) + ghost).hex().upper())
            return False
        return super().say(burst)


class Drops(Line):
    """It loses bursts whole, so that nobody hears them. Of the reader's bursts it damages a share."""

    damages = 0.0

    def say(self, burst):
        if self.chance.random() < self.loss:
            return False
        if not (burst[1] & 0x80 and self.chance.random() < self.damages):
            self.heard.append(burst.hex().upper())
            return True
        at = self.chance.randrange(1, len(burst))
        self.heard.append((burst[:at] + bytes([burst[at] ^ 1 << self.chance.randrange(8)]) + burst[at + 1:]).hex().upper())
        return False


class Damages(Line):
    """The whole line damages its share of bursts, and of the reader's one in five besides."""

    def say(self, burst):
        loss = self.loss
        self.loss = max(loss, 0.2) if burst[1] & 0x80 else loss
        reads = super().say(burst)
        self.loss = loss
        return reads


def made(kind, seed, loss, address=5, rounds=ROUNDS, **words):
    """A line with its devices at this address, and its bursts."""
    line = kind(seed, loss, **PLAIN | words)
    line.panel.address = line.reader.address = address
    return line, line.run(rounds)


def bursts(kind, seed, loss, address=5, rounds=ROUNDS, **words):
    """A line's bursts, with its devices at this address."""
    return made(kind, seed, loss, address, rounds, **words)[1]


def dropping(seed, loss, address, damages):
    """The bursts of a line that loses its share of them whole, and damages another one of the reader's."""
    return bursts(type("Damaging", (Drops,), {"damages": damages}), f"{seed} {loss} {damages}", loss, address, rounds=SHORT)


def exchanges(lines):
    """The bursts from each packet of the panel up to its next one."""
    mine = []
    for burst in lines:
        if not bytes.fromhex(burst).lstrip(b"\xff")[1:2] or not bytes.fromhex(burst).lstrip(b"\xff")[1] & 0x80 or not mine:
            mine.append([])
        mine[-1].append(burst)
    return mine


def both(*lines):
    """Several devices on one line: an exchange of each in turn."""
    return [burst for turn in zip(*map(exchanges, lines)) for exchange in turn for burst in exchange]


def with_rare(lines, seed):
    """A line on which 6 is asked three times, each time after damage, and 7 once, without: damage makes no three packets of one device."""
    chance, mine = random.Random(seed), exchanges(lines)
    for rare in (*[[(bytes([0xAA] * 9) + packet(6, 0, POLL)).hex()]] * 3, [packet(7, 0, POLL).hex()]):
        mine.insert(chance.randrange(1, len(mine)), rare)
    return [burst for exchange in mine for burst in exchange]


def doubled(lines, which):
    """A capture with the echo of commands, of replies or of both."""
    is_reply = [len(burst) > 3 and burst[1] & 0x80 for burst in (bytes.fromhex(line).lstrip(b"\xff") for line in lines)]
    return [line for line, reply in zip(lines, is_reply) for _ in range(2 if which in ("both", "replies" if reply else "commands") else 1)]


def undone(lines):
    """The capture after the manual's way to leave an echo out."""
    command = """/^#/ {next} $0 == last {last = ""; next} {last = $0} 1"""
    return subprocess.run(["awk", command], input="".join(f"{line}\n" for line in lines), capture_output=True, text=True, check=True).stdout.splitlines()


def noise(seed):
    """Bytes of another rate."""
    chance = random.Random(seed)
    return [bytes(chance.choice((0x00, 0x80, 0xF8, 0xE0, 0xFE, 0x1C)) for _ in range(8)).hex().upper() for _ in range(40)]


def told(lines):
    """What is told of a line, and the status."""
    done = subprocess.run([PROGRAM, "monitor", "--hex"], input="".join(f"{line}\n" for line in lines).encode(), capture_output=True, check=False)
    return done.stdout.decode(), done.returncode


# A line, its bursts, what must be told, what may, and what is told of some such lines; the devices that are there, whether both ends keep the rules, and whether something
# can be judged.
Case = namedtuple("Case", "name lines wanted allowed some devices keep judged", defaults=((), (), (), (5,), True, True))


def answer_cases(loss, at, lost, seed):
    """How a device answers, and what an adapter hands back."""
    yield Case(f"a good line, {at}", bursts(Line, f"good{seed} {loss}", loss), allowed=lost)
    devices = both(bursts(Line, f"{seed}one {loss}", loss), bursts(Line, f"{seed}two {loss}", loss, 6))
    yield Case(f"two good devices, {at}", devices, allowed=(*lost, ALIKE), devices=(5, 6))
    yield Case(f"a reader that never answers, {at}", bursts(Answering, f"mute{seed} {loss}", loss, reader=Mute), ("5 never answered",))
    yield Case(f"a reader that loses 8%, {at}", bursts(Answering, f"eight{seed} {loss}", loss, reader=Forgetful), (r"5 loses ([5-9]|1\d|2[0-5])% of answers",), lost[1:])
    alone = both(bursts(Answering, f"eight of two{seed} {loss}", loss, reader=Forgetful), bursts(Line, f"other{seed} {loss}", 0, 6))
    yield Case(f"one of two that loses 8%, {at}", alone, (r"5 loses ([5-9]|1\d|2[0-5])% of answers, others none",), (DAMAGED, *lost[1:]) if loss else (), devices=(5, 6))
    yield Case(f"restarts, {at}", bursts(Line, f"restarts{seed} {loss}", loss, reader=Loses), (RESTARTED,), lost)
    yield Case(f"two at one address that collide, {at}", bursts(Collides, f"collide{seed} {loss}", loss), (SHARED,), (LOSES, *lost[1:]))
    yield Case(f"two at one address that don't, {at}", bursts(Twin, f"twins{seed} {loss}", loss), (SHARED,), (*lost, REPEATED, RESTARTED), keep=False)
    yield Case(f"a deaf panel, {at}", bursts(Deaf, f"deaf{seed} {loss}", loss), (REPEATED,), lost)
    yield Case(f"Secure Channel demanded, {at}", bursts(Line, f"secure{seed} {loss}", loss, reader=Secures), ("5 demands Secure Channel",), lost)
    yield Case(f"an echo of commands, {at}", doubled(bursts(Line, f"echo{seed} {loss}", loss), "commands"), (r"each packet to 5 comes twice: an echo of the adapter\?",), lost[1:])
    yield Case(f"an echo of replies, {at}", doubled(bursts(Line, f"back{seed} {loss}", loss), "replies"), (SHARED,), (*lost, REPEATED), keep=False)
    yield Case(f"an echo of both, {at}", doubled(bursts(Line, f"both{seed} {loss}", loss), "both"), allowed=(*lost, REPEATED, SHARED), keep=False)
    for which in ("commands", "replies", "both"):
        yield Case(f"an echo of {which} left out, {at}", undone(doubled(bursts(Line, f"undone{seed} {loss}", loss), which)), allowed=lost)
    for what, before in BEFORE.items():
        lines = [each for burst in bursts(Line, f"{what} {seed} {loss}", loss, rounds=SHORT) for each in before(burst)]
        asks_all = what == "a packet to all"
        silent = ("damage on 127 alone",) if asks_all else ()
        yield Case(f"{what} before each packet, {at}", lines, (), (SHARED, LOSES, REPEATED, *silent), devices=(5, 127) if asks_all else (5,), judged=False)
    yield Case(f"noise alone, {at}", noise(f"{seed} {loss}"), ("nothing but noise: another rate\\?",), devices=())


def setting_cases(loss, at, lost):
    """A COMSET that is done, whose answer is hit by damage, and that is refused."""
    for kind, listener in ((Rated, "the listener goes there"), (Stays, "the listener stays")):
        for seed in range(3):
            for setting in SETTINGS:
                panel = type("Setting", (Sets,), {"setting": setting})
                line, said = made(kind, f"{seed} {setting} {loss}", loss, rounds=SHORT, panel=panel)
                what = f"a COMSET, and {listener}" if line.named else "a COMSET whose answer is hit by damage"
                words = (f"5 was set to {setting[1]} bits a second",) if line.named else ()
                moved = (5, 6) if setting[0] == 6 and (line.follows or setting[1] == RATE) else (5,)
                yield Case(f"{what}, {at}", said, words, (*lost, REPEATED, ALIKE) if loss else (), devices=moved)
    for seed in range(5):
        yield Case(f"a COMSET that is refused, {at}", bursts(Rated, f"refused {seed} {loss}", loss, panel=Sets, reader=Refuses, rounds=SHORT), allowed=lost)


def damage_cases(loss, at, lost):
    """Damage on one device, on all alike, and that puts devices there that aren't."""
    for seed in range(3):
        for damages in (0.1, 0.2, 0.3):
            for devices in ((5, 6), (5, 6, 7)):
                worn = dropping(f"worn {seed}", loss, 5, damages)
                sound = [dropping(f"sound {seed} {other}", loss, other, 0) for other in devices[1:]]
                yield Case(f"damage on one of {len(devices)}, {at}", both(worn, *sound), (DAMAGED,), (LOSES, REPEATED), devices=devices)
                alike = [dropping(f"alike {seed} {each}", loss, each, damages) for each in devices]
                yield Case(f"damage on all {len(devices)}, {at}", both(*alike), (ALIKE,), (LOSES, REPEATED), devices=devices)
    for seed in range(10 if loss else 0):
        lines = both(bursts(Damages, f"worn {seed} {loss}", loss), bursts(Line, f"sound {seed} {loss}", loss, 6))
        yield Case(f"damage on one of 2, where all have some, {at}", lines, (), (LOSES, REPEATED, ALIKE), (DAMAGED,), devices=(5, 6))
    for seed in range(10):
        line, said = made(Ghosts, f"ghosts {seed} {loss}", loss, panel=type("Setting", (Sets,), {"setting": (5, RATE)}))
        assert line.sets, "damage has made no COM"
        yield Case(f"ghost devices, {at}", said, (f"5 was set to {RATE} bits a second",) if line.named else (), (LOSES, *lost))
        yield Case(f"devices that are rarely asked, {at}", with_rare(bursts(Line, f"rare {seed} {loss}", loss), seed), ("6 never answered",), lost, devices=(5, 6, 7))


def cases():
    """All lines."""
    for loss in LOSSES:
        lost = {0: (), 0.01: (LOSES,), 0.05: (LOSES, REPEATED)}[loss]
        at = f"losses {loss:.0%}"
        for seed in SEEDS:
            yield from answer_cases(loss, at, lost, seed)
        for of in (setting_cases, damage_cases):
            yield from of(loss, at, lost)


def judge(case):
    """What is missing of what is told of a line, and what is told falsely."""
    text, status = told(case.lines)
    said = DIAGNOSIS.findall(text)
    missing = [word for word in case.wanted if not any(re.fullmatch(word, what) for what in said)]
    false = [what for what in said if not any(re.fullmatch(word, what) for word in (*case.wanted, *case.allowed, *case.some))]
    rows = tuple(int(address) for address in ROW.findall(text))
    false += [f"rows of {rows}"] if rows != case.devices else []
    missing += [f"nothing was judged: {not case.judged}"] if (UNJUDGED in text) == case.judged or not case.judged and status != 1 else []
    false += [" ".join(accused) for accused in ACCUSED.findall(text)] if case.keep else []
    some = any(re.fullmatch(word, what) for word in case.some for what in said)
    for what, more in (("lines", 1), ("found", not missing), ("falsely told", len(false)), ("told of some", some)):
        counts[case.name, what] += more
    return missing, false


def main():
    """Listens to each line, and prints the counts."""
    faults = 0
    for case in cases():
        missing, false = judge(case)
        if missing or false:
            faults += 1
            print(f"diagnoses: {case.name}: wanted {missing}, not wanted {false}")
    for name in dict.fromkeys(name for name, _ in counts):
        some = f", of which {counts[name, 'told of some']} tell it" if "where all have some" in name else ""
        print(f"{name}: {', '.join(f'{what} {counts[name, what]}' for what in ('lines', 'found', 'falsely told'))}{some}")
    print(f"diagnoses: {faults} faults")
    return 1 if faults else 0


if __name__ == "__main__":
    sys.exit(main())
