"""Good lines of ten makers' habits, a million packets, for `monitor`: nobody is accused. Takes the path of the program.

Both ends are those of `ends.py`, by the rules of the standard alone. Each habit has lines of its own, at losses of 0, 1 and 5 of a hundred bursts; every
burst is a run. Besides that nobody is accused, nearly every packet must have been judged: a monitor that judges nothing would accuse nobody too. The counts of
each habit are printed."""
import re
import subprocess
import sys
from concurrent.futures import ProcessPoolExecutor

from ends import LOSSES, QUIET, Line, Panel, Reader
from strangers import ACCUSED, PROGRAM

ROUNDS = 31500  # bursts of one habit at one loss: 33 lines of them are a million
COUNTS = re.compile(r"^runs \d+ packets (\d+) .* judged (\d+) accused (\d+)$", re.M)


class RestartingPanel(Panel):
    """It loses power now and then: number 0 comes in the middle of anything, also while an answer is on its way."""

    def burst(self):
        if self.line.chance.random() < 0.01:
            self.opens()
        return super().burst()


class ForgetfulReader(Reader):
    """It loses power now and then, and with it the number that it took last."""

    def answer(self, number, code, data):
        if self.line.chance.random() < 0.01:
            self.taken = self.stored = None
        return super().answer(number, code, data)


PLAIN = {"marks": 1, "repeats": 3, "pause": 50, "delay": 20, "wait": 200, **QUIET}
HABITS = {
    "resets by number 0 at any time": {"resets": 0.1},
    "no repeats": {"repeats": 0},
    "fast polls": {"pause": 5, "delay": 3},
    "slow polls": {"pause": 2000, "repeats": 8},
    "BUSY": {"busy": 0.2},
    "BUSY with number 0": {"busy": 0.2, "busy_number": False},
    "FF before packets": {"marks": 3},
    "a CRC": {"check": "crc"},
    "COMSETs": {"moves": 0.05},
    "restarts of both": {"panel": RestartingPanel, "reader": ForgetfulReader},
    "replies just within the wait": {"delay": 199},
}


def heard(name, loss):
    """The bursts of a line with this habit."""
    return Line(f"{name} {loss}", loss, **PLAIN | {"busy_number": True, "check": "sum"} | HABITS[name]).run(ROUNDS)


def judge(name):
    """The habit's packets, how many were judged and how many accusations there were, and what is wrong."""
    packets = judged = accused = 0
    wrong = []
    for loss in LOSSES:
        capture = "".join(f"{line}\n" for line in heard(name, loss))
        done = subprocess.run([PROGRAM, "monitor", "--hex"], input=capture.encode(), capture_output=True, check=False)
        text = done.stdout.decode()
        wrong += [f"losses {loss:.0%}: {' '.join(what)}" for what in dict.fromkeys(ACCUSED.findall(text))]
        seen = COUNTS.findall(text)
        if len(seen) != 1:
            return packets, judged, accused, [*wrong, f"losses {loss:.0%}: no line of counts"]
        counts = [int(count) for count in seen[0]]
        if counts[2]:
            wrong.append(f"losses {loss:.0%}: {counts[2]} accusations are counted")
        if counts[1] < counts[0] * (0.95 if loss == 0 else 0.8):
            wrong.append(f"losses {loss:.0%}: of {counts[0]} packets {counts[1]} were judged")
        packets, judged, accused = packets + counts[0], judged + counts[1], accused + counts[2]
    return packets, judged, accused, wrong


def main():
    """Listens to each line, and prints the counts."""
    faults = total = 0
    with ProcessPoolExecutor() as pool:
        for name, (packets, judged, accused, wrong) in zip(HABITS, pool.map(judge, HABITS)):
            total += packets
            faults += len(wrong)
            print(f"{name}: packets {packets}, judged {judged}, accused {accused}")
            print("".join(f"habits: {name}: {what}\n" for what in wrong), end="")
    print(f"packets {total}")
    if total < 1_000_000:
        faults += 1
    print(f"habits: {faults} faults")
    return 1 if faults else 0


if __name__ == "__main__":
    sys.exit(main())
