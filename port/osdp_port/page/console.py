"""What stands in the place of the terminal while a page has the line: what is told goes to the pages, and what they order comes from there.

The parts that find, test and run a panel speak to a console. This one has what they use. It takes no line of standard input."""
import os


class PageConsole:
    """`console` is the terminal's, which knows Ctrl-C; `channel` goes to the pages."""

    def __init__(self, console, channel):
        self.console, self.channel = console, channel
        self.wakes, self.is_over, self.has_times = console.wakes, True, False
        self.is_to_end = False  # whether what is done is to end
        self.desk = None  # where orders wait, while a panel runs
        self.progress = None  # gets each line that a test hands to the program that judges it

    @property
    def stops(self):
        return self.console.stops or int(self.is_to_end)

    def begins(self):
        self.is_to_end, self.desk, self.progress = False, None, None

    def wake(self):
        """Ends what is done, from another thread."""
        self.is_to_end = True
        self.looks_up()

    quits = wake

    def looks_up(self):
        """Something has come from a page."""
        os.write(self.console.woken, b"x")

    def say(self, line):
        self.channel.tells("say", text=line)
        if self.desk:
            self.desk.heard(line)

    def raw(self, line):
        """A line of a report: one that tells a verdict shows how far a test is."""
        if self.progress:
            self.progress(line)
        self.channel.tells("report", text=line)

    def note(self, line):
        self.channel.tells("note", text=line)

    def lines(self):
        """The orders that go out now."""
        return self.desk.lines() if self.desk else []

    all_lines = lines  # also after the program stood still: an order that has grown too old expires

    def hands(self, end, data):
        """Hands data to a program beside."""
        for line in data.decode(errors="replace").splitlines() if self.progress else ():
            self.progress(line)
        self.console.hands(end, data)

    @staticmethod
    def is_stuck():
        return False
