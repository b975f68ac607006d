"""Lines of panels and readers that aren't ours, for `monitor`. Takes the path of the program.

Both ends are those of `ends.py`, by the rules of the standard alone, with habits of several makers. Each burst may be lost to the end that it is for, or damaged for
all. A line whose ends keep the rules has nobody accused. A line with one fault has the words that tell it, and no others of those that accuse. The counts of
what was found and of what was falsely told are printed.

Where the listener alone misses bursts nothing tells that from a fault of the ends. The manual says how many accusations that makes, and more than half as many
again are a fault here."""
import bisect
import itertools
import re
import subprocess
import sys
from collections import Counter
from pathlib import Path

from ends import (
    ALL, LOSSES, PLAIN, QUIET, ActsAgain, AnotherNumber, AnyNumber, Begins, BusyAgain, Changes, Checked, GivesUp, Hanging, KeepsSession, Line, OtherCheck, Skips, TellsAtZero, Twin, TwoChecks, Unfit, Unreadable,
)

PROGRAM = str(Path(sys.argv[1]).resolve())
ACCUSED = re.compile(r"^\d+:\d+ (panel to|reader) (\d+): (.*) \((?:standard|profile)\)$", re.M)
BASES = re.compile(r"^\d+:\d+ (?:panel to|reader) \d+: (.*) \((standard|profile)\)$", re.M)
OURS = {"BUSY to a packet that was answered", "NAK 4 to number 0", "a reply that doesn't fit the command", "an event at number 0"}  # what the profile alone asks for
NOTICED = re.compile(r"^\d+:\d+ device (\d+): (.*)$", re.M)
counts = Counter()


class Case:
    """A line, what must be told of it, whom it may accuse of what besides, and what may not be noticed."""

    def __init__(self, name, line, wanted=(), allowed=(), noticed=(), unwanted=(), rounds=600):
        self.name, self.lines, self.missed = name, line.run(rounds), line.missed
        self.wanted, self.allowed, self.noticed, self.unwanted = wanted, allowed, noticed, unwanted

    def judge(self, text):
        """What is missing in the text, and what is told falsely."""
        accused = [f"{end} {what}" for end, _, what in ACCUSED.findall(text)]
        told = {what for _, what in NOTICED.findall(text)}
        missing = [word for word in self.wanted if word not in accused] + [word for word in self.noticed if not any(what.startswith(word) for what in told)]
        false = [word for word in accused if word not in (*self.wanted, *self.allowed)]
        false += [word for word in self.unwanted if any(what.startswith(word) for what in told)]
        false += [f"{what} ({basis})" for what, basis in BASES.findall(text) if (basis == "profile") != (what in OURS)]
        for what, more in (("lines", 1), ("packets", len(self.lines)), ("found", not missing), ("accusations", len(accused)), ("falsely told", len(false)),
                           ("missed", self.missed), ("lines accused", bool(accused)), ("too little", text.count(TOO_LITTLE))):
            counts[self.name, what] += more
        return missing + false


def listen(cases, *words):
    """What is told of each case. All are one input, with a packet to all devices after each: then nothing is known any more."""
    capture = "".join("".join(f"{line}\n" for line in [*case.lines, ALL]) for case in cases)
    done = subprocess.run([PROGRAM, "monitor", "--hex", *words], input=capture.encode(), capture_output=True, check=False)
    ends = list(itertools.accumulate(len(case.lines) + 1 for case in cases))
    texts = [[] for _ in cases]
    for line in done.stdout.decode().splitlines(keepends=True):
        run = re.match(r"(\d+):", line)
        if run:
            texts[bisect.bisect_left(ends, int(run[1]))].append(line)
    return ["".join(lines) for lines in texts]


LATE = "a late answer"
TOO_LITTLE = ": heard too little to judge\n"
DEAF = "a listener that alone misses"
# of a hundred packets that it misses, one in a hundred of all, so many accusations by the manual, by what the line itself loses; of one in a thousand none, on most lines
BY_MANUAL = {0: (6, "some six give an accusation"), 0.01: (9, "it is some nine"), 0.05: (16, "at five in a hundred some sixteen")}
MANUAL = Path(__file__).resolve().parent.parent / "man/osdp-monitor.1"
SECOND = "reader a second reply to one packet"


def good_lines():
    """Nobody who keeps the rules is accused, whatever the habits and the losses."""
    for seed in range(60):
        for loss in LOSSES:
            yield Case(f"good lines, losses {loss:.0%}", Line(f"good {seed}", loss), unwanted=(LATE,) if loss == 0 else ())


def late_readers():
    """A reader that takes longer than its panel waits is told as late, and nobody is accused."""
    for loss in LOSSES:
        for delay in range(205, 591, 35):
            yield Case(f"late by 205 to 590 ms, losses {loss:.0%}", Line(f"late {delay}", loss, delay=delay, wait=200, repeats=8, pause=50, **QUIET), noticed=(LATE,))
        for number in (True, False):
            for delay in range(240, 391, 35):
                busy = Line(f"late and busy {delay}", loss, delay=delay, wait=200, repeats=8, pause=50, **QUIET | {"busy": 0.2, "busy_number": number})
                yield Case(f"late and busy, losses {loss:.0%}", busy, noticed=(LATE,))
        for delay in range(240, 391, 35):
            line = Checked(f"late and busy, two checks {delay}", loss, panel=TwoChecks, delay=delay, wait=200, repeats=8, pause=50, **QUIET | {"busy": 0.2, "busy_number": False})
            yield Case(f"late and busy with two checks, losses {loss:.0%}", line, noticed=(LATE,))
        for seed in range(10):
            line = Hanging(f"hangs {seed}", loss, panel=Begins, delay=20, wait=200, repeats=0, pause=50, **QUIET)
            yield Case(f"late by several packets with number 0, losses {loss:.0%}", line, noticed=(LATE,))
        yield Case(f"a hasty panel, losses {loss:.0%}", Line("hasty", loss, delay=100, wait=60, repeats=8, pause=5, **QUIET), noticed=(LATE,))


def faulty_lines():
    """Each fault is told by its words, and nobody is accused of anything that doesn't follow from it."""
    for seed in range(10):
        for loss in LOSSES:
            wrong = Line(f"number {seed}", loss, reader=AnotherNumber, **PLAIN)
            yield Case(f"another number, losses {loss:.0%}", wrong, ("reader another number",), (SECOND,))
            twins = Twin(f"twin {seed}", loss, **PLAIN)
            yield Case(f"two devices at one address, losses {loss:.0%}", twins, (SECOND,), ("reader another number", "reader a number out of turn was taken", "reader a repeat is answered by something else"))
            for kind, what in ((Unfit, "a reply that doesn't fit the command"), (OtherCheck, "another check"), (Unreadable, "a reply that can't be read")):
                yield Case(f"{what}, losses {loss:.0%}", Line(f"{what} {seed}", loss, reader=kind, **PLAIN), (f"reader {what}",))
            for kind, what in ((TellsAtZero, "an event at number 0"), (KeepsSession, "NAK 4 to number 0")):
                line = Line(f"{what} {seed}", loss, panel=Begins, reader=kind, **PLAIN | {"resets": 0.05})
                yield Case(f"{what}, losses {loss:.0%}", line, (f"reader {what}",))
            skips = Line(f"skips {seed}", loss, panel=Skips, **PLAIN)
            yield Case(f"a number left out, losses {loss:.0%}", skips, ("panel to a number out of turn",))
            taken = Line(f"taken {seed}", loss, panel=Skips, reader=AnyNumber, **PLAIN)
            yield Case(f"a number left out and taken, losses {loss:.0%}", taken, ("panel to a number out of turn", "reader a number out of turn was taken"))
        for loss in LOSSES:  # these show only where something is lost, and in short lines not at each loss
            rounds = 3000 if loss == 0.01 else 600
            again = Line(f"again {seed}", loss, reader=ActsAgain, **PLAIN)
            yield Case(f"a repeat acted on again, losses {loss:.0%}", again, ("reader a repeat is answered by something else",) if loss else (), rounds=rounds)
            busy = Line(f"busy again {seed}", loss, reader=BusyAgain, **PLAIN)
            yield Case(f"a repeat answered by BUSY, losses {loss:.0%}", busy, ("reader BUSY to a packet that was answered",) if loss else (), rounds=rounds)
            other = Line(f"changes {seed}", loss, panel=Changes, **PLAIN)
            yield Case(f"another packet with the last number, losses {loss:.0%}", other, ("panel to another packet with the number of the last",) if loss else (), rounds=rounds)
            up = Line(f"up {seed}", loss, panel=GivesUp, **PLAIN | {"repeats": 0})
            yield Case(f"a panel that gives up, losses {loss:.0%}", up, ("panel to the next number, but the last one was not answered",) if loss else (), rounds=rounds)


def deaf_listeners():
    """The listener alone misses bursts."""
    for loss in LOSSES:
        for often in (100, 1000):
            for seed in range(100):
                yield Case(f"{DEAF} 1 in {often}, losses {loss:.0%}", Line(f"deaf {seed}", loss, unheard=1 / often, **QUIET))


def listener_faults():
    """More accusations than the manual says, and fewer notices that too little was heard than one for two packets that were missed."""
    for loss, (said, words) in BY_MANUAL.items():
        if words not in MANUAL.read_text():
            yield f"the manual has no words {words}"
        often, rarely = f"{DEAF} 1 in 100, losses {loss:.0%}", f"{DEAF} 1 in 1000, losses {loss:.0%}"
        if counts[often, "accusations"] > 1.5 * said * counts[often, "missed"] / 100:
            yield f"{often}: {counts[often, 'accusations']} accusations of {counts[often, 'missed']} that were missed, by the manual {said} of 100"
        if counts[rarely, "lines accused"] > counts[rarely, "lines"] / 10:
            yield f"{rarely}: {counts[rarely, 'lines accused']} lines have accusations, by the manual most have none"
        for name in (often, rarely):
            if counts[name, "too little"] < counts[name, "missed"] / 2:
                yield f"{name}: {counts[name, 'too little']} notices of {counts[name, 'missed']} that were missed"


def main():
    """Listens to all lines, and prints the counts. With --standard what the profile alone asks for is left out, and nothing else."""
    faults = 0
    cases = [*good_lines(), *late_readers(), *faulty_lines(), *deaf_listeners()]
    for case, text, standard in zip(cases, listen(cases), listen(cases, "--standard")):
        wrong = case.judge(text)
        if BASES.findall(standard) != [each for each in BASES.findall(text) if each[0] not in OURS]:
            faults += 1
            print(f"strangers: {case.name}: with --standard others are accused")
        if wrong and not case.name.startswith(DEAF):
            faults += 1
            print(f"strangers: {case.name}: {', '.join(dict.fromkeys(wrong))}")
    for fault in listener_faults():
        faults += 1
        print(f"strangers: {fault}")
    for name in dict.fromkeys(name for name, _ in counts):
        told = ("missed", "too little", "accusations", "lines accused") if name.startswith(DEAF) else ("found", "accusations", "falsely told")
        print(f"{name}: {', '.join(f'{what} {counts[name, what]}' for what in ('lines', 'packets', *told))}")
    print(f"strangers: {faults} faults")
    return 1 if faults else 0


if __name__ == "__main__":
    sys.exit(main())
