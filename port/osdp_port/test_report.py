"""The report of a test of a device, as it grows: each verdict of `osdp test` is printed as soon as its rule's lines are written, with what the monitor says."""
import re
import time

from .accused import accused
from .faults import MET, Stop
from .program import PROGRAM_FAULTS, start


BY_ACK = (50, 51, 52, 53)  # rules on orders, which an ACK alone shows
ALONE = "an ACK alone shows it: whether it was done, only who is there sees"
EVERY = 0.7  # seconds between two readings of the lines at least


class Report:
    """The report. `osdp test` reads all lines so far again, so that each verdict is the program's own."""

    def __init__(self, osdp, is_tap, address, console):
        self.osdp, self.is_tap, self.address, self.console = osdp, is_tap, address, console
        self.mark = "# " if is_tap else "  "
        self.lines, self.printed, self.accusations, self.told_at = [], 0, {}, 0.0

    def adds(self, line):
        self.lines.append(line)

    def judged(self):
        """The lines of the report on all lines so far, and the status."""
        process = start(self.osdp, ["test", *(["--tap"] if self.is_tap else [])])
        told, _ = process.communicate("".join(f"{line}\n" for line in self.lines).encode())
        if process.returncode in PROGRAM_FAULTS:
            raise Stop("", process.returncode)
        if process.returncode not in (0, MET):
            raise Stop("the program osdp has ended")
        return told.decode().splitlines(), process.returncode

    def rule_of(self, line):
        """The rule of a line that tells a verdict; none of a line below one."""
        verdict = None if line.startswith(self.mark) else re.match(r"(?:(?:not )?ok )?(\d+) ", line)
        return int(verdict[1]) if verdict else None

    def prints(self, lines, said):
        """Prints lines of the report, and below each verdict what the monitor says anew of its scenario. What it says of an earlier one names the rule."""
        new, rule = {each: told for each, told in said.items() if each not in self.accusations}, None
        for line, after in zip(lines, [*lines[1:], ""]):
            self.console.raw(line)
            rule = self.rule_of(line) or rule
            if rule in BY_ACK and re.match(r"ok \d+ - [^#]*$|\d+ ok: ", line):
                self.console.raw(self.mark + ALONE)
            if not after.startswith(self.mark):
                for each in new.pop(rule, []):
                    self.console.raw(self.mark + each)
        for rule, told in new.items():
            self.console.raw(f"{self.mark}rule {rule}: {'; '.join(told)}")
        self.printed += len(lines)
        self.accusations = said

    def tells(self, is_waiting=False):
        """Prints what is new, unless that was done a moment ago, and somebody isn't waited for."""
        if time.monotonic() < self.told_at + EVERY and not is_waiting:
            return
        self.told_at = time.monotonic()
        self.tells_all()

    def tells_all(self):
        """Prints what is new. The line of counts, and the status."""
        lines, status = self.judged()
        self.prints(lines[:-1][self.printed:], accused([self.osdp], self.address, self.run()))
        return lines[-1], status

    def run(self):
        """The lines of the run itself: what is said once more for the rules on the whole run stands after a comment."""
        ends = [at for at, line in enumerate(self.lines) if line.startswith("#")]
        return self.lines[:ends[0]] if ends else self.lines

    def ends(self):
        """Prints what is left, and the counts. The status: 1 where a rule is broken, or the monitor accuses the device."""
        counts, status = self.tells_all()
        self.console.raw(counts)
        said = [each.partition(": ")[2] for rule in self.accusations.values() for each in rule if each.startswith("the monitor accuses")]
        if said:
            kinds = ", ".join(f"{each} {said.count(each)}" for each in dict.fromkeys(said))
            self.console.raw(f"{'# ' if self.is_tap else ''}the monitor accuses the device {len(said)} times: {kinds}")
        return status or (MET if said else 0)
