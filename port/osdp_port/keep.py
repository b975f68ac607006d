"""What keeps, while there is no power, where devices stand: a panel's store, and a reader's. docs/STORE.md has its tables."""
import os
import re

from .faults import FAILED, Stop
from .rounds import Place
from .store import Store, StoreError, moment

FOREVER = 2 ** 63 - 1  # the last moment of an order that never grows too old


def private(path, flags):
    """Opens a file that no other user may read where it is made here: it has cards, codes or places."""
    return os.open(path, flags, 0o600)


def opened(path, role, is_new):
    """A store. The program ends where it can't be used."""
    try:
        return Store(path, role, is_new)
    except StoreError as error:
        raise Stop(str(error), FAILED) from None


class Kept:
    """A store, which is this program's alone from `read` to `close`."""

    role = ""

    def __init__(self, path, is_new=False):
        self.path, self.is_new, self.store = path, is_new, None

    def open(self):
        """Opens the store, and makes it before that where it is to be new. What it keeps of each device."""
        self.store = opened(self.path, self.role, self.is_new)
        try:
            return self.store.devices()
        except StoreError as error:
            raise Stop(str(error), FAILED) from None

    def put(self, devices):
        """Keeps where these devices are. Why that isn't kept; none where it is."""
        try:
            self.store.keep(devices)
            self.store.commit()
        except StoreError as error:
            return str(error)
        return None

    def close(self):
        self.store.close()


class ReaderPlace(Kept):
    """A reader's address and rate: the one device of its store."""

    role = "device"

    def __init__(self, path, is_new=False):
        super().__init__(path, is_new)
        self.name = None  # the address at which the reader was first

    def read(self):
        """The place; none where nothing was kept yet."""
        devices = self.open()
        if len(devices) > 1:
            raise Stop(f"{self.path} keeps {len(devices)} devices, and a reader is one: name another file", FAILED)
        for self.name, (places, _) in devices.items():
            return Place(*places[0])
        return None

    def begins(self, address, rate):
        """Keeps the first place, where none is kept: by its address the store names the reader. Why it isn't kept; none where it is."""
        if self.name is not None:
            return None
        self.name = address
        return self.keep(Place(address, rate))

    def keep(self, place):
        """Keeps a place. Why it isn't kept; none where it is."""
        address, rate = map(int, str(place).split())
        return self.put({self.name: ([(address, rate)], None)})


class Known:
    """What is kept of a device: where it may be, and what it said that it is: vendor, model and serial number."""

    def __init__(self, places, identity=None):
        self.places, self.identity = places, identity

    def row(self):
        """The same as a store has it."""
        identity = self.identity and (self.identity[0], int(self.identity[1]), int(self.identity[2]))
        return [(place.address, place.rate) for place in self.places], identity


def port_name(port):
    """A port as a store names it."""
    path = port if "://" in port else os.path.abspath(port)
    return re.sub(r"[^ -~]", lambda found: found[0].encode("unicode_escape").decode(), path)


def is_same_port(name, other):
    """Whether two such names are those of one port, as the system has it: one may be a link to the other."""
    return name == other or "://" not in name + other and os.path.realpath(name) == os.path.realpath(other)


class PanelPlaces(Kept):
    """The places of the devices of a line, by the address that each was named by at the first start, their orders, and whose line it is."""

    role = "panel"

    def __init__(self, path, port=None, is_new=False):
        super().__init__(path, is_new)
        self.port, self.known = port and port_name(port), {}

    def read(self):
        """What is kept of each device. Refused is the store of another port."""
        for name, (places, identity) in self.open().items():
            self.known[name] = Known([Place(*place) for place in places], identity and tuple(map(str, identity)))
        line = self.store.value("SELECT line FROM store")
        if self.port and line is not None and not is_same_port(line, self.port):
            raise Stop(f"{self.path} is of the line at {line}, and not of {self.port}: name another file; or, if it is the same line, forget its name by  "
                       f"sqlite3 {self.path} 'UPDATE store SET line = NULL'", FAILED)
        return self.known

    def begins(self):
        """Writes down whose line it is, before anything goes out. Why it isn't kept; none where it is."""
        try:
            if self.port and self.store.value("SELECT line FROM store") != self.port:
                self.store.write("UPDATE store SET line = ?", self.port)
                self.store.commit()
        except StoreError as error:
            return str(error)
        return None

    # orders

    def next_order(self, name):
        """The number that the next order of a device gets."""
        return self.store.next_order(name)

    def does(self, write, *values):
        """Writes something, and ends the transaction. Why it isn't stored; none where it is."""
        try:
            write(*values)
            self.store.commit()
        except StoreError as error:
            return str(error)
        return None

    def gives(self, name, number, text, until):
        """Stores an order that is about to be given, by the number that it will have, and the milliseconds for which it may go out; none where it may for ever."""
        last = FOREVER if until is None else moment() + until
        return self.does(self.store.gives, name, number, text, last)

    def forgets(self, name, number):
        """An order wasn't taken: the next one gets its number."""
        return self.does(self.store.forgets, name, number)

    def ends(self, name, number, state, answer=None):
        """Stores the end of an order, which is told in the same turn."""
        return self.does(self.store.ends, name, number, state, answer, True)

    def left(self, name):
        """The orders of a run before that have no end: their numbers and texts. They are in doubt from now on."""
        found = self.store.open_orders(name)
        for number, _ in found:
            self.ends(name, number, "doubt")
        return found

    # places

    def write(self, entries):
        """Keeps the places of these devices, beside those of devices that aren't here now. Why they aren't kept; none where they are."""
        for entry in entries:
            self.known[entry.name] = Known(list(entry.places), entry.identity)
        return self.put({name: known.row() for name, known in self.known.items()})

    def refusal(self, names):
        """Why a panel of the devices with these names may not start: one would be at a place where another may be."""
        places = {name: [place.address for place in self.known[name].places] if name in self.known else [name] for name in names}
        others = {**{name: [place.address for place in known.places] for name, known in self.known.items()}, **places}
        for name, addresses in places.items():
            for other, taken in others.items():
                both = set(addresses) & set(taken)
                if other != name and both:
                    return (f"at address {min(both)} there may be the device that began as {other}, and not only {name}: {self.path} says so. "
                            f"Give the addresses of the first start ({','.join(map(str, sorted(self.known)))}), or correct the file")
        return None
