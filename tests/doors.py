"""What is wrong at a door, on lines that aren't ours: `monitor --talk` leads to the row of docs/INSTALLING.md. Takes the path of the program.

The panel is that of `ends.py` and the readers are those of `installing.py`, by the rules of the standard alone. For each row of the page's table of a door a line with that fault is made,
at losses of 0, 1 and 5 of a hundred bursts. What `--talk` prints of it alone leads to that row and no earlier one. The words that must come and those that mustn't stand with
each fault. Both ends keep the rules, so whoever is accused is accused falsely. The counts of both are printed."""
import re
import subprocess
import sys
from collections import Counter

import installing
from diagnoses import both
from ends import LOSSES, OUT, POLL, QUIET, RAW, Line, Panel
from installing import CARD, DOOR, KEYS, NAK, Deaf, Reader, Seen, at_times
from strangers import ACCUSED, PROGRAM

BURSTS = 600
CARDS = [(30 + 40 * at, *CARD) for at in range(5)]  # a card each 40 answers
SAID = re.compile(r"^\d+:\d+ ((?:cmd|reply) .*)$", re.M)
REASONS = {2: "its length is wrong", 3: "the device doesn't know the command", 9: "the device can't do what its data say"}
counts = Counter()


class Door(Panel):
    """It polls, and gives its order after each card, or after so many packets."""

    order, after = None, 0

    def __init__(self, line, address):
        super().__init__(line, address)
        self.is_due, self.packets = False, 0

    def is_answered(self, reply):
        answered = super().is_answered(reply)
        self.is_due |= answered and reply[5] == RAW
        return answered

    def next(self):
        self.number, self.sent = self.number % 3 + 1, 0
        self.packets += 1
        gives = self.order and (self.is_due or self.packets == self.after)
        self.code, self.data = (OUT, self.order) if gives else (POLL, b"")
        self.is_due = False


class Doors(Line):
    """Its reader is one of `installing.py`."""

    device = None

    def on_answer(self, now, burst):
        for _, reply in self.device(burst, self.chance):
            if self.say(reply):
                self.hears(now, reply)


def line(seed, loss, device, address=5, order="", after=0, repeats=8):
    """The bursts of a line with this reader, whose panel gives this order: the output, the control and the time."""
    output, control, time = map(int, order.split(":")) if order else (0, 0, 0)
    panel = type("Ordering", (Door,), {"order": order and bytes([output, control, *time.to_bytes(2, "little")]), "after": after})
    doors = Doors(seed, loss, panel=panel, **QUIET | {"check": "crc", "marks": 0, "delay": 20, "wait": 200, "pause": 50, "repeats": repeats})
    doors.device, doors.panel.address = device, address
    return doors.run(BURSTS)


def faults(seed, loss):
    """The complaint and the part of its row, the bursts, the words that must come, and those that mustn't."""
    shut, twice, offline = installing.SHUT, installing.TWICE, installing.OFFLINE
    yield f"{shut}: after the `RAW`", line(seed, loss, Reader(events=CARDS)), (r"reply 5 .* RAW 0 0 26 12345640$",), (r" OUT ",)
    shown = line(seed, loss, Reader(events=CARDS))
    other = line(seed, loss, Reader(6), 6, "0:5:30", next(at for at, burst in enumerate(shown) if "00001A0012345640" in burst) + 20)
    yield f"{shut}: `OUT` to another", both(shown, other), (r"reply 5 .* RAW ", r"cmd 6 .* OUT 0:5:30$"), (r"cmd 5 .* OUT ",)
    for reason, words in REASONS.items():
        refuses = Reader(events=CARDS, out=(NAK, bytes([reason])))
        must = (r"cmd 5 .* OUT 0:5:30$", rf"reply 5 .* NAK {reason}$", rf"device 5: NAK to this order: {words}$")
        yield f"{shut}: `OUT`, and `reply .. NAK`", line(seed, loss, refuses, order="0:5:30"), must, (r"NAK to a POLL",)
    for order in ("0:5:0", "0:1:0", "1:6:30"):
        yield f"{shut}: an `OUT` such as", line(seed, loss, Reader(events=CARDS), order=order), (rf"cmd 5 .* OUT {order}$", r"reply 5 .* ACK$"), (r"NAK",)
    for order in ("0:5:30", "0:2:0"):
        yield f"{shut}: `OUT`, and `reply .. ACK`", line(seed, loss, Reader(events=CARDS), order=order), (rf"cmd 5 .* OUT {order}$", r"reply 5 .* ACK$"), (r"NAK",)
    keys = [rf"reply 5 .* KEYPAD 0 3{key}$" for key in "1234"]
    yield f"{twice}: a `KEYPAD` comes again with", line(seed, loss, Reader(events=[each for key in KEYS for each in (key, key)])), keys, (r"NAK", r"restarted")
    yield f"{twice}: a `KEYPAD` comes again after", line(seed, loss, Deaf(Reader(events=KEYS)), repeats=0), (*keys, r"device 5: opened$"), (r"NAK", r"restarted")
    yield f"{offline}: `lost I number-refused`", line(seed, loss, Reader(restarts=70)), (r"device 5: restarted$", r"diagnosis: 5 restarted \d times$"), (r"never answered",)
    yield f"{offline}: `lost I no-reply`", line(seed, loss, at_times(), repeats=3), (r"device 5: unanswered$", r"diagnosis: 5 loses \d+% of answers$"), (r"restarted", r"NAK")


class Talk(Seen):
    """What `--talk` prints, as the rows of the page ask for it. What a panel of ours would tell is read from the notices."""

    def __init__(self, text):
        self.lines, self.echoes = [(None, said) for said in SAID.findall(text)], 0
        opened = text.count(" device 5: opened\n") > 1
        self.told = ["lost 1 number-refused"] * ("device 5: restarted\n" in text and opened) + ["lost 1 no-reply"] * ("device 5: unanswered\n" in text and opened)


def judge(row, bursts, must, mustnt):
    """What is missing of what is told of a line, and what is told falsely."""
    done = subprocess.run([PROGRAM, "monitor", "--hex", "--talk"], input="".join(f"{burst}\n" for burst in bursts), capture_output=True, text=True)
    led = installing.row_for(Talk(done.stdout), DOOR, row.split(": ")[0])
    missing = [word for word in must if not re.search(word, done.stdout, re.M)] + ([] if led == row else [f"the row, and not {led}"])
    return missing, [word for word in mustnt if re.search(word, done.stdout, re.M)] + [" ".join(accused) for accused in ACCUSED.findall(done.stdout)]


def main():
    """Listens to each line, and prints the counts."""
    wrong, made = 0, set()
    for loss in LOSSES:
        for seed in range(5):
            for begins, bursts, must, mustnt in faults(f"door {seed} {loss}", loss):
                row = next(row for row in DOOR if row.startswith(begins))
                made |= {row}
                missing, false = judge(row, bursts, must, mustnt)
                for what, more in (("lines", 1), ("found", not missing), ("falsely told", len(false))):
                    counts[f"{row}, losses {loss:.0%}", what] += more
                if missing or false:
                    wrong += 1
                    print(f"doors: {row}, losses {loss:.0%}, {seed}: missing {missing}, not wanted {false}")
    for name in dict.fromkeys(name for name, _ in counts):
        print(f"{name}: {', '.join(f'{what} {counts[name, what]}' for what in ('lines', 'found', 'falsely told'))}")
    for row in set(DOOR) - made:
        wrong += 1
        print(f"doors: no line is made for the row {row}")
    print(f"doors: {wrong} faults")
    return 1 if wrong else 0


if __name__ == "__main__":
    sys.exit(main())
