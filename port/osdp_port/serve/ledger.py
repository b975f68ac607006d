"""What the service stores: keys with their outcomes, and events, in the store of its panel. So a turn of the
panel and what the broker hears of it are one transaction.

A device is named by the address that it had first, as in the panel's tables."""
import hashlib
import secrets
import sqlite3
import time
from collections import namedtuple
from pathlib import Path

from ..store import StoreError, moment

VERSION = 1  # of the tables in ledger.sql
NOTES = 5.0  # so many seconds what was told waits for a transaction to go along with

Key = namedtuple("Key", "key device number text state outcome detail told")
Event = namedtuple("Event", "device number text since marked told")
KEYS = f"SELECT {', '.join(Key._fields)} FROM broker_keys"
EVENTS = f"SELECT {', '.join(Event._fields)} FROM broker_events"


def owner_of(name, path="/etc/machine-id"):
    """Who has a line: a store on a computer. So a copy of a store on another computer is another one."""
    try:
        machine = Path(path).read_bytes()
    except OSError:
        machine = b""
    return hashlib.sha256(name.encode() + machine).hexdigest()[:16]


class Ledger:
    """The tables of the service. `keeps` says how many seconds a key stays once its outcome was told."""

    def __init__(self, store, keeps):
        self.store, self.keeps = store, 1000 * keeps
        self.told_keys, self.told_events, self.noted = [], [], time.monotonic()
        self.makes()
        self.owner = owner_of(store.value("SELECT owner FROM broker"))

    def makes(self):
        """Makes the tables where there are none. A store of a later version is refused."""
        statements = Path(__file__).with_name("ledger.sql").read_text(encoding="ascii")
        try:
            self.store.base.executescript(f"BEGIN IMMEDIATE; {statements} COMMIT;")
        except sqlite3.Error as error:
            raise StoreError(f"the store {self.store.name} can't be written: {error}") from None
        self.store.write("INSERT OR IGNORE INTO broker VALUES (1, ?, ?)", VERSION, secrets.token_hex(8))
        self.store.commit()
        found = self.store.value("SELECT version FROM broker")
        if found != VERSION:
            raise StoreError(f"{self.store.name} has a broker's tables of version {found}, and this program knows {VERSION}")

    # keys

    def key(self, key):
        """What is stored of a key; none where it isn't known."""
        return next((Key(*row) for row in self.store.rows(f"{KEYS} WHERE key = ?", key)), None)

    def open_keys(self):
        """The keys without an outcome, in the order of their numbers."""
        return [Key(*row) for row in self.store.rows(f"{KEYS} WHERE state <> 'ended' ORDER BY device, number")]

    def untold_keys(self):
        found = self.store.rows(f"{KEYS} WHERE state = 'ended' AND told IS NULL ORDER BY device, number")
        return [Key(*row) for row in found]

    def accepts(self, key, device, text):
        """Stores a key that waits. Its number, which counts on for each device, also over restarts."""
        last = self.store.value("SELECT max(number) FROM broker_keys WHERE device = ?", device) or 0
        self.store.write(
            "INSERT INTO broker_keys (key, device, number, text, state) VALUES (?, ?, ?, ?, 'waiting')",
            key, device, last + 1, text,
        )
        return last + 1

    def goes_to(self, key, state):
        """A key is submitted, or in doubt."""
        self.store.write("UPDATE broker_keys SET state = ? WHERE key = ?", state, key)

    def ends(self, key, outcome, detail=None):
        """A key has its outcome."""
        self.store.write(
            "UPDATE broker_keys SET state = 'ended', outcome = ?, detail = ? WHERE key = ?", outcome, detail, key
        )

    def forgets(self):
        """Keys whose outcome was told long ago leave, but for the last one of each device: so numbers go on."""
        self.store.write(
            "DELETE FROM broker_keys WHERE told < ? AND number < (SELECT max(number) FROM broker_keys AS other"
            " WHERE other.device = broker_keys.device)",
            moment() - self.keeps,
        )

    # events

    def reports(self, device, text, since, marked):
        """Stores an event. Its number."""
        last = self.last_number(device)
        self.store.write(
            "INSERT INTO broker_events (device, number, text, since, marked) VALUES (?, ?, ?, ?, ?)",
            device, last + 1, text, since, int(marked),
        )
        return last + 1

    def last_number(self, device):
        """The number of the last event of a device; 0 where there was none."""
        return self.store.value("SELECT max(number) FROM broker_events WHERE device = ?", device) or 0

    def last_event(self, device):
        found = f"{EVENTS} WHERE device = ? ORDER BY number DESC LIMIT 1"
        return next((Event(*row) for row in self.store.rows(found, device)), None)

    def events(self, device, first, last):
        found = f"{EVENTS} WHERE device = ? AND number BETWEEN ? AND ? ORDER BY number"
        return [Event(*row) for row in self.store.rows(found, device, first, last)]

    def untold_events(self):
        return [Event(*row) for row in self.store.rows(f"{EVENTS} WHERE told = 0 ORDER BY device, number")]

    # what the broker has

    def tells_key(self, key):
        self.told_keys.append(key)

    def tells_event(self, device, number):
        self.told_events.append((device, number))

    def notes(self):
        """Notes what the broker has: along with a transaction that there is, or after a while in its own."""
        is_due = time.monotonic() > self.noted + NOTES
        if not (self.told_keys or self.told_events) or not (is_due or self.store.base.in_transaction):
            return
        self.noted = time.monotonic()
        for key in self.told_keys:
            self.store.write("UPDATE broker_keys SET told = ? WHERE key = ? AND told IS NULL", moment(), key)
        for each in self.told_events:
            self.store.write("UPDATE broker_events SET told = 1 WHERE device = ? AND number = ?", *each)
        self.told_keys, self.told_events = [], []
        self.forgets()

    def commit(self):
        """Ends the transaction of the turn: from here on it stands a loss of power."""
        self.notes()
        self.store.commit()
