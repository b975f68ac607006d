"""The devices that were set up here, for the file that is handed over with the building."""
import csv
import io
import time

HEADS = ("when", "place", "port", "address", "rate", "check", "vendor", "model", "version", "serial", "firmware", "address before", "rate before")
FORMULA = ("=", "+", "-", "@", "\t", "\r")  # a table program takes a cell that begins so for a formula


class Setup:
    """Each device, with the place that a person has given it."""

    def __init__(self, port):
        self.port, self.rows = port, []

    def adds(self, at, was, now):
        """A device was set. Where the same one was set before, the later row holds, with its place."""
        place = ""
        for row in [each for each in self.rows if all(each[name] == now[name] for name in ("vendor", "model", "serial"))]:
            place = row["place"]
            self.rows.remove(row)
        self.rows.append({"when": at, "place": place, "port": self.port, **now, "address before": was["address"], "rate before": was["rate"]})

    def names(self, row, place):
        if 0 <= row < len(self.rows):
            self.rows[row]["place"] = place[:80]

    def file(self):
        """The file, with commas between its cells."""
        out = io.StringIO()
        writer = csv.writer(out)
        writer.writerow(HEADS)
        for row in self.rows:
            cells = [time.strftime("%Y-%m-%d %H:%M:%S", time.localtime(row["when"])), *(str(row[name]) for name in HEADS[1:])]
            writer.writerow([f"'{cell}" if cell.startswith(FORMULA) else cell for cell in cells])
        return out.getvalue()
