"""The verdicts of a test of a panel as they fall: beside the test, `osdp test panel` judges what went over the line so far."""
import re
import subprocess
import threading

from .panel_tricks import ALWAYS

VERDICT = re.compile(r"(\d+) (ok|ok, in another way|broken): ")


class Early:
    """Prints each verdict on standard error once it has fallen. One that is broken stays so, whatever comes after."""

    def __init__(self, osdp, console):
        self.osdp, self.console, self.told, self.state = osdp, console, {}, None
        self.lines, self.is_over, self.more = [], False, threading.Condition()
        self.thread = threading.Thread(target=self.judges, daemon=True)
        self.thread.start()

    def looks(self, lines, state):
        """A packet was answered, or a trick was played on it. What went before is judged once a trick is done."""
        if state == self.state:
            return
        self.state = state
        with self.more:
            self.lines = list(lines)
            self.more.notify()

    def ends(self):
        """The report comes now."""
        with self.more:
            self.is_over = True
            self.more.notify()
        self.thread.join(2.0)

    def judges(self):
        while True:
            with self.more:
                while not self.lines and not self.is_over:
                    self.more.wait()
                lines, self.lines = self.lines, []
            if self.is_over:
                return
            text = "".join(f"{line}\n" for line in lines)
            done = subprocess.run([self.osdp, "test", "panel"], input=text, capture_output=True, text=True, check=False)
            self.tells(done.stdout.splitlines())

    def tells(self, lines):
        """Each verdict that is another than before. Of a rule that each packet shows only that it is broken."""
        for line in lines:
            verdict = VERDICT.match(line)
            if verdict and self.told.get(verdict[1]) != verdict[2] and (verdict[2] == "broken" or int(verdict[1]) not in ALWAYS):
                self.told[verdict[1]] = verdict[2]
                self.console.note(line)
