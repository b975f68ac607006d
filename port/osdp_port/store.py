"""The store of a program: one file of SQLite for where devices are, for orders and for events. docs/STORE.md tells what is in it, and what it stands.

A turn of a program is one transaction. The first call that writes begins it, and `commit` ends it: before the packet of that turn goes out, and before anything is
told. Where the disk takes it, it is there after a loss of power; where not, `StoreError` says why, and nothing of the turn is there."""
import fcntl
import os
import sqlite3
import stat
import time
from pathlib import Path
from urllib.parse import quote

APPLICATION = 1330857040  # the number that the file has of these programs
WAIT = 2.0  # so many seconds another program may write, as a shell that somebody has open
DO = "Bring back a copy of it; or see at which address each device is, say that, and start once with --new and no such file"


class StoreError(Exception):
    """A store that can't be used, or written: its text says why, and what to do."""


def parts():
    """The statements that bring a store from each version to the next, by the version that they bring it to."""
    found = {}
    for line in Path(__file__).with_name("store.sql").read_text(encoding="ascii").splitlines():
        if line.startswith("-- version "):
            number = int(line.split()[2])
            found[number] = ""
        elif not line.startswith("--") and found:
            found[number] += f"{line}\n"
    return found


PARTS = parts()


def moment():
    """Milliseconds since 1970, as a store has them."""
    return int(time.time() * 1000)


class Store:
    """A store that this program alone has, while it runs. `role` is "panel" or "device". Where `is_new` it is made, and may not be there yet."""

    def __init__(self, path, role, is_new=False):
        name = os.fspath(path)
        self.name, self.path = name, os.path.join(os.path.realpath(os.path.dirname(name) or "."), os.path.basename(name))
        self.held = self.base = None
        self.told = set()  # the devices of which all that is stored was told, and that isn't stored yet
        try:
            self.begins(role, is_new)
        except StoreError:
            self.close()
            raise

    def begins(self, role, is_new):
        try:
            if is_new:
                self.make(role)
            self.held = self.hold()
            self.opens(role)
        except sqlite3.Error as error:
            raise StoreError(f"{self.name} can't be {'made' if is_new else 'opened'}: {self.cause(error)}") from None
        except OSError as error:
            raise StoreError(f"{self.name} can't be {'made' if is_new else 'opened'}: {error.strerror}") from None

    @staticmethod
    def cause(error):
        """What SQLite says, and what to do: of a disk that is full or fails, or may not be written, nothing is lost; else the file is damaged."""
        return f"{error}. See that its disk has room, and may be written" if isinstance(error, sqlite3.OperationalError) else f"{error}. {DO}"

    # the file

    def make(self, role):
        """Makes the file beside its place, whole, and then puts it there: one whose making was cut is no store, and the next `--new` removes it."""
        new = f"{self.path}.new"
        if os.path.lexists(self.path):
            raise StoreError(f"there is a store already: {self.name}. Start without --new")
        if os.path.lexists(new):
            os.unlink(new)
        os.close(os.open(new, os.O_RDWR | os.O_CREAT | os.O_EXCL | os.O_NOFOLLOW | os.O_CLOEXEC, 0o600))
        base = self.connected(new)
        try:
            base.execute("PRAGMA synchronous = EXTRA")
            base.executescript(f"BEGIN; {''.join(PARTS.values())} INSERT INTO store (one, role) VALUES (1, '{role}'); COMMIT;")
            base.execute("PRAGMA journal_mode = WAL")
        finally:
            base.close()
        os.link(new, self.path)
        os.unlink(new)
        folder = os.open(os.path.dirname(self.path), os.O_RDONLY)
        try:
            os.fsync(folder)
        finally:
            os.close(folder)

    @staticmethod
    def connected(path):
        return sqlite3.connect(f"file:{quote(path)}?mode=rw", uri=True, isolation_level=None, timeout=WAIT)

    def hold(self):
        """Holds the file for as long as the program runs. It is closed at the end alone: by closing it the program would lose the locks of SQLite too."""
        try:
            file = os.open(self.path, os.O_RDWR | os.O_NOFOLLOW | os.O_CLOEXEC | os.O_NONBLOCK)
        except FileNotFoundError:
            raise StoreError(f"there is no store at {self.name}. {DO}") from None
        except OSError:
            if os.path.islink(self.path):
                raise StoreError(f"{self.name} is a symbolic link: name the file itself") from None
            raise
        found = os.fstat(file)
        why = None
        if not stat.S_ISREG(found.st_mode):
            why = f"{self.name} is no file"
        elif found.st_size == 0:
            why = f"{self.name} has 0 bytes, and is no store. {DO}"
        elif os.pread(file, 16, 0) != b"SQLite format 3\0":
            why = f"{self.name} is no store of osdp. {DO}"
        if why:
            os.close(file)
            raise StoreError(why)
        try:
            fcntl.flock(file, fcntl.LOCK_EX | fcntl.LOCK_NB)
        except BlockingIOError:
            os.close(file)
            raise StoreError(f"another program has the store {self.name}") from None
        if found.st_mode & 0o077:
            os.fchmod(file, 0o600)
        return file

    def opens(self, role):
        """Opens the store that is held, and refuses one that isn't whole, is another program's, or is of a later version."""
        self.base = self.connected(self.path)
        if not os.path.samestat(os.fstat(self.held), os.stat(self.path, follow_symlinks=False)):
            raise StoreError(f"{self.name} was replaced while it was opened: start again")
        if self.value("PRAGMA application_id") != APPLICATION:
            raise StoreError(f"{self.name} is no store of osdp. {DO}")
        state = self.value("PRAGMA quick_check(1)")
        if state != "ok":
            raise StoreError(f"{self.name} is damaged: {state}. {DO}")
        self.upgrades()
        found = self.value("SELECT role FROM store")
        if found != role:
            raise StoreError(f"{self.name} is the store of a {found}, and not of a {role}: name another file")
        # without a log each transaction is to be on the disk with the removal of its journal, too
        self.base.execute(f"PRAGMA synchronous = {'FULL' if self.value('PRAGMA journal_mode') == 'wal' else 'EXTRA'}")
        self.base.execute("PRAGMA foreign_keys = ON")

    def rows(self, statement, *values):
        """The rows that a statement finds."""
        try:
            return self.base.execute(statement, values).fetchall()
        except sqlite3.Error as error:
            raise StoreError(f"{self.name} can't be read: {self.cause(error)}") from None

    def value(self, statement, *values):
        """The first value of the first row; none where there is none."""
        found = self.rows(statement, *values)
        return found[0][0] if found else None

    def upgrades(self):
        """Brings a store of an earlier version to that of this program, in one transaction."""
        number, mine = self.value("SELECT max(number) FROM version"), max(PARTS)
        if number is None or number > mine:
            raise StoreError(f"{self.name} is of version {number}, and this program knows {mine}: take a program of that version")
        if number < mine:
            rest = "".join(text for part, text in PARTS.items() if part > number)
            self.base.execute("PRAGMA synchronous = EXTRA")
            self.base.executescript(f"BEGIN IMMEDIATE; {rest} COMMIT;")

    def close(self):
        if self.base is not None:
            self.base.close()
        if self.held is not None:
            os.close(self.held)
        self.held = self.base = None

    # transactions

    def write(self, statement, *values):
        """Does a statement in the transaction of this turn."""
        try:
            if not self.base.in_transaction:
                self.base.execute("BEGIN IMMEDIATE")
                for device in self.told:
                    self.base.execute("UPDATE orders SET told = 1 WHERE device = ? AND state <> 'open' AND told = 0", (device,))
                    self.base.execute("UPDATE events SET handled = 1 WHERE device = ? AND handled = 0", (device,))
            self.base.execute(statement, values)
        except sqlite3.Error as error:
            self.fails(error)

    def commit(self):
        """Ends the transaction of this turn, if it has one: from here on it stands a loss of power."""
        try:
            if self.base.in_transaction:
                self.base.execute("COMMIT")
                self.told.clear()
        except sqlite3.Error as error:
            self.fails(error)

    def fails(self, error):
        if self.base.in_transaction:
            self.base.execute("ROLLBACK")
        raise StoreError(f"the store {self.name} can't be written: {error}") from None

    def retain(self, count):
        """So many orders of each device and so many events stay, beside those that are open or not handled."""
        self.write("UPDATE store SET kept_orders = ?, kept_events = ?", count, count)

    # where devices are

    def devices(self):
        """Of each device, by its name, its places by their ranks, and what it is: vendor, model and serial number; none before it has said that."""
        found = {}
        for name, vendor, model, serial in self.rows("SELECT name, vendor, model, serial FROM devices ORDER BY name"):
            places = self.rows("SELECT address, rate FROM places WHERE device = ? ORDER BY rank", name)
            found[name] = (places, None if vendor is None else (vendor, model, serial))
        twice = self.value("SELECT one.address FROM places one JOIN places other ON one.address = other.address AND one.device < other.device")
        if twice is not None or not all(places for places, _ in found.values()):
            raise StoreError(f"{self.name} is damaged: {'a device has no place' if twice is None else f'two devices may be at address {twice}'}. {DO}")
        return found

    def keep(self, devices):
        """Keeps these devices, as `devices` gives them, beside those that aren't named. What is kept already isn't written again: flash lasts longer."""
        kept = self.devices()
        changed = {name: each for name, each in devices.items() if kept.get(name) != each}
        for name, (_, identity) in changed.items():
            self.write("INSERT OR IGNORE INTO devices (name) VALUES (?)", name)
            self.write("UPDATE devices SET vendor = ?, model = ?, serial = ? WHERE name = ?", *(identity or (None, None, None)), name)
            self.write("DELETE FROM places WHERE device = ?", name)
        for name, (places, _) in changed.items():
            for rank, place in enumerate(places):
                self.write("INSERT INTO places VALUES (?, ?, ?, ?)", name, rank, *place)

    # orders

    def next_order(self, device):
        """The number of the next order, for the panel that is made: they go on over restarts, from 1."""
        return 1 + (self.value("SELECT max(number) FROM orders WHERE device = ?", device) or 0)

    def gives(self, device, number, text, until):
        """Stores an order that is about to be given, by the number that the panel will give it. It may go out until a moment."""
        self.write("INSERT INTO orders (device, number, text, until) VALUES (?, ?, ?, ?)", device, number, text, until)

    def forgets(self, device, number):
        """The panel has refused that order: the next one gets its number."""
        self.write("DELETE FROM orders WHERE device = ? AND number = ?", device, number)

    def ends(self, device, number, state, answer=None, is_told=False):
        """Stores what became of an order, and whether that was told."""
        self.write("UPDATE orders SET state = ?, answer = ?, told = ? WHERE device = ? AND number = ?", state, answer, int(is_told), device, number)

    def open_orders(self, device):
        """The orders that have no end: their numbers and texts."""
        return self.rows("SELECT number, text FROM orders WHERE device = ? AND state = 'open' ORDER BY number", device)

    def untold_orders(self, device):
        """The orders whose end was not told: their numbers, texts, states and answers."""
        return self.rows("SELECT number, text, state, answer FROM orders WHERE device = ? AND state <> 'open' AND told = 0 ORDER BY number", device)

    # events

    def reports(self, device, text, again):
        """Stores an event. It isn't handled yet."""
        self.write("INSERT INTO events (device, text, since, again) VALUES (?, ?, ?, ?)", device, text, moment(), int(again))

    def last_event(self, device):
        """The text of the event that was stored last; none where there was none."""
        return self.value("SELECT text FROM events WHERE device = ? ORDER BY number DESC LIMIT 1", device)

    def new_events(self, device):
        """The texts of the events that aren't handled: their user may not have heard of them."""
        return [text for text, in self.rows("SELECT text FROM events WHERE device = ? AND handled = 0 ORDER BY number", device)]

    def tells(self, device):
        """All that is stored of a device was told: the ends of its orders and its events. The next transaction notes it, so that no card costs the disk one more."""
        self.told.add(device)
