"""Holds the two tables of docs/INSTALLING.md to captures: for each of their rows a line with that fault is made, which loses 0, 1 and 5% of all bursts
besides, and the rules lead to that row and no earlier one. Takes the path of the program.

A panel runs by `osdp panel` in simulated time, and a device that the fault is put into answers it. What the tables speak of is read from the trace by
`osdp show`, each line with the way of its burst, from what the panel has told, and from `osdp monitor` where a row names it. A row is its text in the
page, so that a row that is changed there has to be changed here."""
import itertools
import random
import re
import subprocess
import sys
import time
from collections import Counter, deque
from pathlib import Path

TOP = Path(__file__).resolve().parent.parent
sys.path.insert(0, str(TOP / "port"))
sys.dont_write_bytecode = True

from osdp_port.program import Lines  # noqa: E402

ID, POLL, OUT, ACK, NAK, PDID, BUSY, RAW, KEYPAD = 0x61, 0x60, 0x68, 0x40, 0x41, 0x45, 0x79, 0x50, 0x53
LOSSES = ((0.0, 1), (0.01, 1), (0.05, 1), (0.05, 2))  # the share of bursts that a line loses, and the seed
IDENTITY = bytes.fromhex("53494D010101000000010000")
LINE = re.compile(r"^(\d+):\d+ (.*)$", re.M)
SECONDS = 12  # that a capture is long
osdp = ""


def crc(body):
    """The CRC of a packet, as the standard has it: polynomial 1021, begun with 1D0F."""
    value = 0x1D0F
    for byte in body:
        value ^= byte << 8
        for _ in range(8):
            value = ((value << 1) ^ 0x1021 if value & 0x8000 else value << 1) & 0xFFFF
    return body + value.to_bytes(2, "little")


def reply(burst, code, data=b"", number=None, control=0):
    """A device's packet, as an answer to this one."""
    number = burst[4] & 3 if number is None else number
    return crc(bytes([0x53, burst[1] | 0x80, 8 + len(data), 0, number | 4 | control, code]) + data)


def answer(burst):
    return reply(burst, PDID, IDENTITY) if burst[5] == ID else reply(burst, ACK)


def merged(first, second):
    """Two answers at once: where both drive the line a 0 wins, and what is longer goes on alone."""
    both = bytes(one & other for one, other in zip(first, second))
    return both + max(first, second, key=len)[len(both):]


# What comes on the line after a packet of the panel: pairs of milliseconds and bytes. None where no panel speaks.

def healthy(burst, _):
    return [(5, answer(burst))]


def echo(burst, _):
    return [(1, burst), (6, answer(burst))]


def silent(burst, _):
    return []


def another_panel(burst, chance):
    return [(2, crc(bytes([0x53, 9, 8, 0, 4 + chance.randrange(4), POLL]))), (9, answer(burst))]


def two_at_once(burst, chance):
    one, other = answer(burst), reply(burst, PDID, bytes(reversed(IDENTITY))) if burst[5] == ID else reply(burst, 0x50, b"\0\1\x1a\0\x31\x32\x33\x34")
    late = chance.randrange(0, 3)
    return [(5, merged(one, one[:late] + other))]


def two_in_turn(burst, _):
    return [(5, answer(burst)), (40, reply(burst, PDID, bytes(reversed(IDENTITY))) if burst[5] == ID else answer(burst))]


def head_lost(burst, chance):
    return [(5, answer(burst)[chance.randrange(1, 5):])]


def another_check(burst, _):
    return [(5, reply(burst, NAK, b"\x01"))]


def secure(burst, _):
    return [(5, reply(burst, NAK, b"\x06"))]


def busy(burst, _):
    return [(5, reply(burst, BUSY, number=0) if burst[5] == ID else answer(burst))]


def number_refused(burst, _):
    return [(5, reply(burst, NAK, b"\x04"))]


def late(wait):
    return lambda burst, _: [(wait, answer(burst))]


def another_number(burst, _):
    return [(5, reply(burst, PDID, IDENTITY, number=2))]


def another_reply(burst, _):
    return [(5, reply(burst, NAK, b"\x03"))]


def noisy(burst, chance):
    whole = answer(burst)
    if chance.random() < 0.15:
        at = chance.randrange(6, len(whole))
        whole = whole[:at] + bytes([whole[at] ^ 0x40]) + whole[at + 1:]
    return [(3, b"\xa7\x21")] * (chance.random() < 0.15) + [(6, whole)]


def at_times():
    """A device that is cut off now and then."""
    count = itertools.count()
    return lambda burst, _: [] if next(count) % 40 > 32 else [(5, answer(burst))]


def another_address(burst, _):
    return [(5, crc(bytes([0x53, 0x89]) + answer(burst)[2:-2]))]


class Reader:
    """A device that keeps the rules, but for what is put into it: a new number is answered anew, and the last one by what was answered before. An event comes
    after so many answers, and is told until a number after its answer has come, or a session later."""

    def __init__(self, address=5, events=(), out=(ACK, b""), restarts=0):
        self.address, self.coming, self.out, self.restarts = address, deque(events), out, restarts
        self.number, self.kept, self.events, self.is_offered, self.answered = None, b"", deque(), False, 0

    def __call__(self, burst, _):
        if burst[1] != self.address:
            return []
        number = burst[4] & 3
        if number and number == self.number:
            return [(5, self.kept)]
        self.answered += 1
        if self.restarts and self.answered % self.restarts == 0:
            self.number = None
        if number and (self.number is None or number != self.number % 3 + 1):
            return [(5, reply(burst, NAK, b"\x04"))]
        if number and self.is_offered:
            self.events.popleft()
        self.number, self.is_offered = number, False
        if self.coming and self.answered >= self.coming[0][0]:
            self.events.append(self.coming.popleft()[1:])
        self.kept = self.says(burst)
        return [(5, self.kept)]

    def says(self, burst):
        if burst[5] == POLL and self.events:
            self.is_offered = True
            return reply(burst, *self.events[0])
        return reply(burst, *self.out) if burst[5] == OUT else answer(burst)


class Together:
    """Devices with addresses of their own."""

    def __init__(self, *readers):
        self.readers = readers

    def __call__(self, burst, chance):
        return [each for reader in self.readers for each in reader(burst, chance)]


class Deaf:
    """A device that doesn't hear the packet after an event of its own, the first time."""

    def __init__(self, reader):
        self.reader, self.misses, self.has_missed = reader, False, set()

    def __call__(self, burst, chance):
        if self.misses:
            self.misses = False
            return []
        said = self.reader(burst, chance)
        for _, whole in said:
            self.misses = whole[5] in (RAW, KEYPAD) and whole[6:-2] not in self.has_missed
            self.has_missed |= {whole[6:-2]} if self.misses else set()
        return said


# What a panel's program does with a line that the panel tells: the calls that it makes.

def opens(number=1, strike="0:5:30"):
    return lambda line: [f"submit {number} never OUT {strike}"] if line.startswith("event 1 RAW") else []


CARD = (RAW, bytes.fromhex("00001A0012345640"))
KEYS = [(15 + 15 * at, KEYPAD, bytes([0, 1, 0x31 + at])) for at in range(4)]  # the keys 1 2 3 4, one after the other


class Capture:
    """What a fault leaves: each line of `osdp show` with its way, what the panel has told, and what the monitor tells of it."""

    def __init__(self, fault, loss, seed, heard_wrong=False, speaks=True, **panel):
        self.bursts, self.told = [], []
        if speaks:
            self.run(fault, loss, seed, **panel)
        if heard_wrong:  # a listener at another rate: none of the bytes is right
            chance = random.Random(4)
            self.bursts = [("in", bytes(chance.choice([0x53, *range(0x80, 0x100)]) for _ in burst)) for _, burst in self.bursts]
        self.lines = self.shown()

    def run(self, fault, loss, seed, addresses=(5,), decides=lambda line: [], settings=()):
        """A panel of these devices and the faulty line, for some seconds. The line loses this share of the bursts of each way."""
        chance, losses, panel = random.Random(seed), random.Random(f"{seed} {loss}"), Lines(osdp, ["panel", *settings])
        coming, begins, now, due = [], {number: 0 for number, _ in enumerate(addresses, 1)}, 0, None
        for address in addresses:
            panel.call(f"add {address} 1")
        while now < SECONDS * 1000:
            now = max(now, min([*([] if due is None else [due]), *begins.values(), *(at for at, _ in coming)]))
            calls = deque([f"at {now}", *(f"begin {number}" for number, at in begins.items() if at <= now)])
            begins = {number: at for number, at in begins.items() if at > now}
            for at, burst in sorted(each for each in coming if each[0] <= now):
                self.bursts.append(("in", burst))
                calls.append(f"bytes {burst.hex()}")
            coming = [each for each in coming if each[0] > now]
            lines = deque(each for call in [*calls, "tick"] for each in panel.call(call))
            while lines:
                line = re.sub(r"^order \d+ | since \d+", "", lines.popleft())
                lines.extend(each for call in (["write"] if line == "burst" else decides(line)) for each in panel.call(call))
                if line.startswith("send "):
                    burst = bytes.fromhex(line[5:])
                    self.bursts.append(("out", burst))
                    heard = fault(burst, chance) if losses.random() >= loss else []
                    coming += [(now + at, bytes(each)) for at, each in heard if losses.random() >= loss]
                elif line.startswith("due "):
                    due = None if line == "due none" else int(line[4:])
                elif line != "burst":
                    self.told.append(line)
                    begins |= {int(line.split()[1]): now + 1000} if line.startswith("lost") else {}
        panel.close()

    def shown(self):
        text = "\n".join(burst.hex() for _, burst in self.bursts) + "\n"
        done = subprocess.run([osdp, "show"], input=text, capture_output=True, text=True)
        return [(self.bursts[int(run) - 1][0], line) for run, line in LINE.findall(done.stdout)]

    def heard(self):
        """What the monitor tells."""
        text = "\n".join(burst.hex() for _, burst in self.bursts) + "\n"
        return subprocess.run([osdp, "monitor", "--hex"], input=text, capture_output=True, text=True).stdout


class Seen:
    """A capture after the echoes were left out, and what the table's rows ask of it."""

    def __init__(self, capture):
        self.told, self.lines, last = capture.told, [], None
        self.capture, self.echoes = capture, 0
        for way, line in capture.lines:
            if way == "in" and line.startswith("cmd") and last == ("out", line):
                self.echoes += 1
            else:
                self.lines.append((way, line))
            last = (way, line)

    def kinds(self):
        return [line.split()[0] for _, line in self.lines]

    def after_each_cmd(self):
        """The kinds of the lines after each `cmd`."""
        parts = []
        for kind in self.kinds():
            if kind == "cmd":
                parts.append([])
            elif parts:
                parts[-1].append(kind)
        return parts

    def begins_each(self, kind):
        """After each `cmd` such a line stands first, and no `reply` is there. (Of the answers that came: some may be lost.)"""
        parts = [part for part in self.after_each_cmd() if part]
        return len(parts) > 2 and "reply" not in self.kinds() and sum(part[0] == kind for part in parts) > len(parts) / 2

    def has_reply(self, text):
        return any(line.startswith("reply") and line.endswith(text) for _, line in self.lines)

    def has_another_address(self):
        """Most of the `reply` have another address than the `cmd` before them."""
        lines = [line.split() for _, line in self.lines if line.startswith(("cmd", "reply"))]
        pairs = [(one[1], other[1]) for one, other in zip(lines, lines[1:]) if one[0] == "cmd" and other[0] == "reply"]
        return len(pairs) > 2 and sum(one != other for one, other in pairs) > len(pairs) / 2

    def repeats(self):
        """Most of the `cmd` come again before they are answered."""
        cmds = [line for _, line in self.lines if line.startswith("cmd")]
        return sum(one == other for one, other in zip(cmds, cmds[1:])) * 2 >= len(cmds) - 4

    def tells(self, *beginnings):
        return any(line.startswith(beginnings) for line in self.told)

    def outs(self):
        """Each OUT of the panel: its address, its records, and the names of the replies after it, before another command."""
        found, lines = [], [line.split() for _, line in self.lines if line.startswith(("cmd", "reply"))]
        for at, words in enumerate(lines):
            if words[0] == "cmd" and words[5] == "OUT":
                replies = itertools.takewhile(lambda each: each[0] == "reply", lines[at + 1:])
                found.append((words[1], words[6:], [" ".join(each[5:]) for each in replies]))
        return found

    def cards(self):
        """The addresses that have told a card."""
        return {line.split()[1] for _, line in self.lines if line.startswith("reply") and line.split()[5] == "RAW"}

    def twice(self):
        """Of each card and each key that comes once more, and not as a repeat: whether an ID stands between."""
        found, last, is_opened = [], None, False
        for words in [line.split() for _, line in self.lines if line.startswith(("cmd", "reply"))]:
            is_opened |= words[0] == "cmd" and words[5] == "ID"
            if words[0] == "reply" and words[5] in ("RAW", "KEYPAD"):
                if last and words[5:] == last[5:] and (words[3] != last[3] or is_opened):
                    found.append(is_opened)
                last, is_opened = words, False
        return found


def of(fault, **panel):
    """Makes captures of a fault that remembers nothing."""
    return lambda **line: Capture(fault, **line, **panel)


def anew(makes, **panel):
    """Makes captures of a fault that is made anew for each."""
    return lambda **line: Capture(makes(), **line, **panel)


ROWS = {
    "nothing, not even `cmd`": (lambda seen: not seen.lines, [("no panel", of(silent, speaks=False))]),
    "`skip` alone, or `skip` and `refused`, and no `cmd`": (lambda seen: set(seen.kinds()) <= {"skip", "refused"}, [("another rate", of(healthy, heard_wrong=True))]),
    "a `cmd` that came `in`, in the trace of your own panel": (lambda seen: any(way == "in" and line.startswith("cmd") for way, line in seen.lines), [("another panel", of(another_panel))]),
    "`cmd` alone": (lambda seen: set(seen.kinds()) == {"cmd"}, [("no answer", of(silent)), ("an echo and no answer", of(lambda burst, _: [(1, burst)]))]),
    "two `reply` after one `cmd`; or `refused` first after each `cmd`, and no `reply`": (
        lambda seen: seen.begins_each("refused") or sum(part.count("reply") > 1 for part in seen.after_each_cmd()) > 2 and not seen.repeats(),
        [("two devices at one address, at once", of(two_at_once)), ("two devices at one address, in turn", of(two_in_turn))]),
    "`skip` first after each `cmd`, and no `reply`": (lambda seen: seen.begins_each("skip"), [("the head is lost", of(head_lost))]),
    "`reply .. NAK 1`, then `lost I no-reply`": (lambda seen: seen.has_reply("NAK 1") and seen.tells("lost 1 no-reply"), [("another check", of(another_check))]),
    "`reply .. NAK 6`, or `passed over I block`": (lambda seen: seen.has_reply("NAK 6") or seen.tells("passed over 1 block"), [("Secure Channel", of(secure))]),
    "`lost I too-busy`": (lambda seen: seen.tells("lost 1 too-busy"), [("busy", of(busy))]),
    "`lost I number-refused`, and no `opened`": (lambda seen: seen.tells("lost 1 number-refused") and not seen.tells("opened"), [("another session", of(number_refused))]),
    "`lost I number-refused` and `opened` in turn": (lambda seen: seen.tells("lost 1 number-refused"), [("restarts", anew(lambda: Reader(restarts=70)))]),
    "a `reply` with another address than its `cmd`": (lambda seen: seen.has_another_address(), [("answers with another address", of(another_address))]),
    "`passed over I seq N`, and no `opened`": (lambda seen: seen.tells("passed over 1 seq") and not seen.tells("opened"), [("another number", of(another_number))]),
    "each `cmd` comes again, and is answered": (
        lambda seen: "reply" in seen.kinds() and seen.repeats() and not seen.tells("passed over 1 NAK"), [(f"late by {wait} ms", of(late(wait))) for wait in (205, 250, 390, 590)]),
    "`passed over I` and another reply": (lambda seen: seen.tells("passed over 1 ") and not seen.tells("opened"), [("another reply", of(another_reply))]),
    "`refused F3` or `skip` now and then": (lambda seen: "reply" in seen.kinds() and any(line.startswith(("refused", "skip")) for _, line in seen.lines), [("noise", of(noisy))]),
    "`lost I no-reply` every few seconds": (lambda seen: seen.tells("lost 1 no-reply"), [("a loose wire", anew(at_times))]),
    "none of these, and a `cmd` was left out": (lambda seen: seen.echoes > 0, [("an echo", of(echo))]),
}
SHUT, TWICE, OFFLINE = "it beeps and stays shut", "digits come twice", "it is offline every few minutes"
DOOR = {
    f"{SHUT}: after the `RAW` no `OUT`": (lambda seen: seen.cards() and not seen.outs(), [("no order", anew(lambda: Reader(events=[(60, *CARD)])))]),
    f"{SHUT}: `OUT` to another address than that of the `RAW`": (
        lambda seen: seen.cards() and not seen.cards() & {address for address, *_ in seen.outs()},
        [("an order to another reader", anew(lambda: Together(Reader(events=[(60, *CARD)]), Reader(6)), addresses=(5, 6), decides=opens(2)))]),
    f"{SHUT}: `OUT`, and `reply .. NAK`": (
        lambda seen: any(name.startswith("NAK") for *_, names in seen.outs() for name in names),
        [(f"refused by NAK {reason}", anew(lambda reason=reason: Reader(events=[(60, *CARD)], out=(NAK, bytes([reason]))), decides=opens())) for reason in (3, 9)]),
    f"{SHUT}: an `OUT` such as `0:5:0`, or one with 1, 3 or 6 in the middle": (
        lambda seen: any(each.split(":")[1] in "136" or each.split(":")[1] == "5" and each.endswith(":0") for _, records, _ in seen.outs() for each in records),
        [(f"OUT {strike}", anew(lambda: Reader(events=[(60, *CARD)]), decides=opens(strike=strike))) for strike in ("0:5:0", "0:1:0", "0:6:30")]),
    f"{SHUT}: `OUT`, and `reply .. ACK`": (lambda seen: any("ACK" in names for *_, names in seen.outs()), [(f"the strike's wire, OUT {strike}", anew(lambda: Reader(events=[(60, *CARD)]), decides=opens(strike=strike))) for strike in ("0:5:30", "0:2:0")]),
    f"{TWICE}: a `KEYPAD` comes again with another `seq`, and no `ID` between": (
        lambda seen: seen.twice() and not any(seen.twice()), [("keys sent anew", anew(lambda: Reader(events=[each for key in KEYS for each in (key, key)])))]),
    f"{TWICE}: a `KEYPAD` comes again after an `ID`": (
        lambda seen: any(seen.twice()), [("a panel that reopens", anew(lambda: Deaf(Reader(events=KEYS)), settings=("sends", "1")))]),
    f"{OFFLINE}: `lost I number-refused`, then `opened`": (lambda seen: seen.tells("lost 1 number-refused"), [("restarts", anew(lambda: Reader(restarts=70)))]),
    f"{OFFLINE}: `lost I no-reply`, then `opened`": (lambda seen: seen.tells("lost 1 no-reply"), [("a loose wire", anew(at_times))]),
}
# what a line that loses bursts shows besides: it does lose sessions
LOSES = {"`lost I no-reply` every few seconds"}


def rows_of_page(heading):
    """The first cells of the first table under a heading of the page, each with what the second one says that the monitor tells."""
    text = (TOP / "docs/INSTALLING.md").read_text()
    body = re.split(rf"^## {heading}$", text, flags=re.M)[1].split("\n## ")[0]
    table = body[body.index("| What is seen | `osdp monitor` tells |"):].split("\n\n")[0]
    cells = [[cell.strip() for cell in line.strip("|").split(" |")] for line in table.splitlines()[2:]]
    return {first: re.findall(r"`([^`]*)`", second) for first, second, *_ in cells}


def row_for(seen, rows, complaint=""):
    """The first row of this complaint that fits."""
    return next((row for row, (fits, _) in rows.items() if row.startswith(complaint) and fits(seen)), None)


def judge(rows, names, line, faults, found):
    """Goes down a table with the captures of each of its rows, on such a line. The monitor tells what the page says of the row."""
    for row, (_, captures) in rows.items():
        complaint = row.split(": ")[0] if rows is DOOR else ""
        for name, makes in captures:
            seen = Seen(makes(**line))
            led = row_for(seen, rows, complaint)
            found[led == row] += 1
            if led != row and not (line["loss"] and name == "an echo" and led in LOSES):
                faults.append(f"{name}, {line}: the table leads to {led!r}, and not to {row!r}")
            for named in names.get(row, ()):
                if named not in (heard := seen.capture.heard()):
                    faults.append(f"{name}, {line}: osdp monitor doesn't tell {named!r}: {heard}")


def main(path):
    global osdp
    osdp, begun, faults, found = path, time.monotonic(), [], Counter()
    names = {}
    for heading, rows in (("A device that doesn't answer", ROWS), ("A door that stays shut, or digits that come twice", DOOR)):
        page = rows_of_page(heading)
        names |= page
        if list(page) != list(rows):
            faults.append(f"docs/INSTALLING.md has other rows: {[*set(page) ^ set(rows)]}")
    for loss, seed in LOSSES:
        line = {"loss": loss, "seed": seed}
        for rows in (ROWS, DOOR):
            judge(rows, names, line, faults, found)
        led = row_for(Seen(Capture(healthy, **line)), ROWS)
        if led is not None and not (loss and led in LOSES):
            faults.append(f"a line without a fault, {line}: the table leads to {led!r}")
    print(f"installing: {found.total()} captures, {found[True]} lead to their row, {len(faults)} faults in {time.monotonic() - begun:.1f} s", *faults, sep="\n")
    return 1 if faults else 0


if __name__ == "__main__":
    sys.exit(main(*sys.argv[1:]))
