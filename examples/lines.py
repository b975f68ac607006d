"""What `panel.py` and `reader.py` share: their words, and the lines that they take and print."""
import os
import select
import signal
import sys

from moments import Turns, moment

LONGEST = 8192  # how many characters a line has at most
BAD_WORDS, FAILED, NO_PROGRAM = 2, 3, 127  # statuses
STOPS = (signal.SIGINT, signal.SIGTERM, signal.SIGHUP)


def stop(why, status=FAILED):
    """Ends the example with one line on standard error."""
    print(why, file=sys.stderr)
    raise SystemExit(status)


def tell(line):
    """Prints a line at once. Where nobody reads it any more the example ends without a word."""
    try:
        os.write(1, f"{line}\n".encode())
    except BrokenPipeError:
        raise SystemExit(FAILED) from None
    except OSError:
        stop("standard output can't be written")


def take_words(usage, least, options=None, has_late=True):
    """The words after the options, so many at least. `options` has the default of each option beside `--late MS`, and gets what the words say: a flag has False, and
    another one is followed by its value. `--help` prints the usage. Ctrl-C ends the example, which then tells what became of its orders."""
    for number in STOPS:
        if number != signal.SIGHUP or signal.getsignal(number) != signal.SIG_IGN:  # as under `nohup`
            signal.signal(number, lambda number, _: sys.exit(128 + number))
    words = sys.argv[1:]
    if words in (["--help"], ["-h"]):
        tell(usage.strip())
        raise SystemExit(0)
    options = {} if options is None else options
    while words and ((has_late and words[0] == "--late") or words[0] in options):
        name = words.pop(0)
        value = True if options.get(name) is False else words.pop(0) if words else ""
        if name == "--late":
            take_late(value)
        options[name] = value
    if len(words) < least or words[0].startswith("-") or (options.get("--new") and not options.get("--keep", True)):
        stop("bad words: --help tells the right ones", BAD_WORDS)
    return words


def take_late(word=""):
    """Sets how late the example may be."""
    Turns.late = number(word, "--late")
    if not 100 <= Turns.late <= 60000:
        stop(f"bad --late: {word} isn't from 100 to 60000 milliseconds", BAD_WORDS)


def number(word, what):
    """The number that a word is."""
    if not (word.isascii() and word.isdecimal()):
        stop(f"bad {what}: {word}", BAD_WORDS)
    return int(word)


class Lines:
    """The lines of standard input, which come in pieces. One that isn't printable ASCII is no call, and refused here."""

    def __init__(self):
        self.rest, self.is_over = b"", sys.stdin is None
        self.empty_at = moment()

    def read(self):
        piece = os.read(0, 4096)
        *whole, rest = (self.rest + piece).split(b"\n")
        self.is_over, self.rest = not piece, rest[:LONGEST + 1]
        for line in whole + [rest] if self.is_over and rest else whole:
            if len(line) <= LONGEST and all(0x20 <= byte < 0x7F for byte in line):
                yield line.decode()
            else:
                tell("refused line")

    def since(self):
        """A moment before which no line was typed that isn't read yet: the one at which standard input was last seen empty."""
        looks_at = moment()  # before the look: an example that is stopped in between takes no line for younger
        if not select.select([0], [], [], 0)[0]:
            self.empty_at = looks_at
        return self.empty_at

    def refuse(self):
        """Refuses all lines that are there: they came while the program stood still, and nobody knows when."""
        while not self.is_over and select.select([0], [], [], 0)[0]:
            for line in self.read():
                tell(f"not taken {line}: it came while the program stood still; type it again")
