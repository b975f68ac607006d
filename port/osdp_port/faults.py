"""How the program ends: its statuses, and the sentence that says why."""
MET, BAD_WORDS, FAILED, NO_PROGRAM = 1, 2, 3, 127  # statuses
INTERRUPTED = 130  # Ctrl-C


class Stop(Exception):
    """Ends the program with one sentence, or without a word, and a status."""

    def __init__(self, why="", status=FAILED):
        super().__init__(why)
        self.why, self.status = why, status


class Refused(Exception):
    """A line that can't be done, and the sentence that says why."""


def shown(text):
    """A text that comes from outside, such as the words of another user's program, as it is printed: no
    character of it does anything to a terminal."""
    return "".join(each if each.isprintable() else each.encode("unicode_escape").decode() for each in text)


def is_number(word, least, most):
    """Whether a word is a number of this span. (Python refuses to read one of thousands of digits.)"""
    return word.isascii() and word.isdecimal() and len(word) <= 10 and least <= int(word) <= most


def number(word, what, least, most):
    """The number of this span that a word is."""
    if not is_number(word, least, most):
        raise Stop(f"{what}: {word or 'nothing'} is no number from {least} to {most}", BAD_WORDS)
    return int(word)
