"""Events: their numbers, which of them may be the one before once more, and what the broker hears of them."""
import time

from ..store import moment
from .messages import event_fields, written


def time_of(since):
    """A moment in milliseconds since 1970 as JSON has it."""
    return f"{time.strftime('%Y-%m-%dT%H:%M:%S', time.gmtime(since // 1000))}.{since % 1000:03}Z"


class Events:
    """The events of a line. `adds` takes the device and the number of one that is to go out."""

    def __init__(self, ledger, oldest, secret, adds):
        self.ledger, self.oldest, self.secret, self.adds = ledger, 1000 * oldest, secret, adds
        self.begun = set()  # devices whose first event since the start was met

    def begins(self):
        for event in self.ledger.untold_events():
            self.adds(event.device, event.number)

    def reports(self, entry, text, is_marked, age=0):
        """An event was read, so many milliseconds ago. Its number, and whether it is marked. The panel marks what may be a repeat; after a
        restart it knows of none, so the first event of a device is marked that says what the last one said."""
        if entry.name not in self.begun:
            self.begun.add(entry.name)
            last = self.ledger.last_event(entry.name)
            is_marked = is_marked or last is not None and last.text == text
        number = self.ledger.reports(entry.name, text, moment() - age, is_marked)
        self.adds(entry.name, number)
        return number, is_marked

    def payload(self, names, event, is_asked):
        """The payload of an event, and in how many seconds a card in it is too old; none where that is no matter."""
        age = max(0, moment() - event.since)
        fields = event_fields(event.text, self.secret)
        is_late = is_asked or age >= self.oldest
        is_passing = fields["kind"] in ("card", "keys") and not is_late
        expiry = max(1, (self.oldest - age) // 1000) if is_passing else None
        return written(
            **names, number=event.number, time=time_of(event.since), age=round(age / 1000, 1), late=is_late,
            marked=bool(event.marked), **fields,
        ), expiry
