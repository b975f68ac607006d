"""What the line is like, for Prometheus: a file in its text format, which the textfile collector of its node
exporter reads."""
import os

from ..faults import shown

EACH = 15000  # milliseconds between two writes
COUNTERS = (
    ("packets", "osdp_packets_total", "Packets that went to the device."),
    ("repeats", "osdp_repeats_total", "Packets that were the one before once more."),
    ("lost", "osdp_lost_sessions_total", "Sessions of the device that were lost."),
)


class Metrics:
    """The file. `rows` gives of each metric its name, its kind, its help, and pairs of a device, none of the whole line,
    and a value."""

    def __init__(self, path, line, clock, say, rows):
        self.path, self.line, self.clock, self.say, self.rows = path, line, clock, say, rows
        self.due, self.why = 0, None

    def text(self):
        lines = []
        for name, kind, text, values in self.rows():
            lines += [f"# HELP {name} {text}", f"# TYPE {name} {kind}"]
            for device, value in values:
                of_device = f',device="{device}"' if device else ""
                lines.append(f'{name}{{line="{self.line}"{of_device}}} {value}')
        return "\n".join(lines) + "\n"

    def looks(self):
        """Writes the file anew, where that is due. Whoever reads it finds one that is whole."""
        if not self.path or self.clock() < self.due:
            return
        self.due, new, before = self.clock() + EACH, f"{self.path}.new", self.why
        try:
            with open(new, "w", encoding="ascii") as file:
                file.write(self.text())
            os.replace(new, self.path)
            self.why = None
        except OSError as error:
            self.why = error.strerror
            if self.why != before:
                self.say(f"no metrics in {shown(self.path)}: {self.why}")
