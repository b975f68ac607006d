"""The devices of a panel's line: what the panel knows of each, and where each is known to be as it starts."""
from .faults import BAD_WORDS, Stop
from .rounds import Entry, Place

MOST = 16  # devices of a line
FIRST = 1  # the number of the first order of a device, where no store knows another one


class Device(Entry):
    """A device, and what the panel knows of it."""

    def __init__(self, number, name, places, identity=None, next_order=FIRST):
        super().__init__(number, name, places)
        self.next_order = next_order  # the number that its next order gets, as `osdp` counts them
        self.given = ""  # the text of the order that was handed over last
        self.identity = identity  # vendor, model and serial number of the device that stood here
        self.other = None  # those of another one that was met last, and gets no order
        self.other_place = None  # where that one stands
        self.is_left = False  # whether nothing more is said to it, so that its session ends
        self.heals = 0  # how often it was given a COMSET for the rate of the line

    def awaits_move(self):
        """Whether a COMSET waits in `osdp` or is on its way: its new place stays kept."""
        return any(text.startswith("COMSET ") for text in self.orders.values())


def new_devices(names, rate, kept):
    """The devices with these addresses, where they are known to be. Refused are an address that isn't one,
    one that stands twice, and a 17th."""
    for at, name in enumerate(names):
        if not 0 <= name <= 126:
            raise Stop(f"address {name}: an address is a number from 0 to 126", BAD_WORDS)
        if name in names[:at]:
            raise Stop(f"device {name} stands twice in the list: each has an address of its own", BAD_WORDS)
        if at >= MOST:
            raise Stop(f"device {name} is the 17th of the list: a line has at most {MOST}", BAD_WORDS)
    known = kept.read() if kept else {}
    why = kept.refusal(names) if kept else None
    if why:
        raise Stop(why)
    return [Device(str(at), name, known[name].places if name in known else [Place(name, rate)],
                   known[name].identity if name in known else None,
                   kept.next_order(name) if kept else FIRST)
            for at, name in enumerate(names, 1)]


def at_one_rate(devices, rate):
    """Puts each place at this rate, for a port whose server sets it: what was kept of another one says
    nothing there."""
    for device in devices:
        device.places = list(dict.fromkeys(Place(place.address, rate) for place in device.places))


def first_rate(devices, rate):
    """The rate at which a panel begins: that of most places of its devices; of several not the one that its
    words say, which is the older one."""
    rates = [place.rate for device in devices for place in device.places]
    return max(sorted(set(rates)), key=lambda each: (rates.count(each), each != rate))
