"""The outputs of `reader.py`."""
from moments import moment


class Output:
    """An output: whether it is on for good, and whether it is on for a time, which counts until a moment."""

    def __init__(self):
        self.for_good = self.for_a_time = False
        self.until = 0

    def is_on(self):
        return self.for_a_time if moment() < self.until else self.for_good

    def switch(self, control, time):
        """Does what one record of an OUT says. 1 and 2 are off and on for good, at once. 3 and 4 are the same, but a time that runs goes on.
        5 and 6 are on and off for a time. Other controls ask for nothing, though the reader confirms them too."""
        if control in (5, 6):
            self.for_a_time, self.until = control == 5, moment() + 100 * time
        elif control in (1, 2, 3, 4):
            self.for_good = control in (2, 4)
            self.until = 0 if control in (1, 2) else self.until


class Outputs:
    """Eight outputs."""

    def __init__(self):
        self.each = [Output() for _ in range(8)]

    def switch(self, records):
        """Does what an OUT says. One of an output that isn't here was refused."""
        for output, control, time in (map(int, record.split(":")) for record in records):
            self.each[output].switch(control, time)

    def states(self):
        """A byte in digits for each output: 01 where it is on."""
        return "".join("01" if output.is_on() else "00" for output in self.each)
