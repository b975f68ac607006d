"""What `panel.py` knows of its readers."""
import atexit

from lines import BAD_WORDS, stop, tell

MOST = 16  # readers of a line
ENDS = ("settled", "withdrawn", "expired", "unread", "moved", "lost")  # reports by which an order has its end


def without_number(line):
    """The number of the order that a line is about, none where it is about none; and its other words."""
    words = line.split()
    return words[1:] if words[:1] == ["order"] else [None, *words]


class Reader:
    """A reader of the line."""

    def __init__(self, address):
        self.address = address
        self.begins = 0  # when its closed session begins; none while it has one
        self.is_open = False
        self.given = ""  # the order that was handed over last
        self.orders = {}  # those that have no end yet, by their numbers

    def hears(self, number, name):
        """Notes an order that is taken, or that has its end by a report."""
        if name == "waits":
            self.orders[number] = self.given
        elif name in ENDS:
            self.orders.pop(number, None)


class Readers(dict):
    """The readers by their numbers, from "1"."""

    def __init__(self, addresses):
        for at, address in enumerate(addresses, 1):
            if address in addresses[:at - 1]:
                stop(f"bad address: {address} stands twice in the list", BAD_WORDS)
            if address > 126 or at > MOST:
                stop(f"bad address: {address}, {'an address is 0 to 126' if address > 126 else f'a line has {MOST} readers at most'}", BAD_WORDS)
            self[str(at)] = Reader(address)
        atexit.register(self.ends)

    def due(self):
        """When the next session begins."""
        return [each.begins for each in self.values() if each.begins is not None]

    def ends(self):
        """The example ends: of each reader's orders the first may have gone out, and the others have not."""
        for which, reader in self.items():
            for at, (number, text) in enumerate(reader.orders.items()):
                tell(f"order {number} {'withdrawn' if at else 'in doubt'} {which} {text}")
