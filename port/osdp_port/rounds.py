"""At which rate the port is, and where each device of a line is tried.

A device may stand at two places, an address and a rate each, while its answer to a COMSET isn't known. The line has one rate at a time. So there
are rounds: a time at one rate, in which each device that isn't reached is tried once at each of its places there. Where one that isn't reached
may be at another rate the next round is at that rate which was left the longest ago. So of R rates (2 after a COMSET) each place of each device is
tried within R rounds, whatever the others do. A round takes as long as its attempts: at most the quiet wait, and `sends` times the reply wait for
each device of the line.

A device that has been sought for SEARCHES rounds in vain, while others are reached, keeps these from being left at each turn: the port
stays with them for REST milliseconds between its rounds elsewhere. Then each place is tried within R rounds and the rests between them.

A rate that the port can't be set to has no rounds: a device that may be there too is tried at its other places."""
from dataclasses import dataclass

PAUSE = 1000  # from a lost session to the next one, in milliseconds
SEARCHES = 6  # rounds in which a device is sought without a rest
REST = 30000  # how long the port stays with the devices that are reached, in milliseconds


@dataclass(frozen=True)
class Place:
    """Where a device is: its address and its rate."""

    address: int
    rate: int

    def __str__(self):
        return f"{self.address} {self.rate}"


class Entry:
    """A device of the line: where it may be, and how its session is."""

    def __init__(self, number, name, places):
        self.number, self.name = number, name  # its number in `osdp panel`, and the address by which it was named first
        self.places = list(places)  # the first one is where it was tried last
        self.session = "closed"  # then "begun", then "open"
        self.begins = 0  # from when on a closed session may begin
        self.tried = []  # its places that were tried in this round
        self.sought = 0  # rounds in which it was tried in vain since it was reached
        self.is_given_up = False  # it stands at another rate and stays there
        self.orders = {}  # the texts of orders that have no end yet, by their numbers

    @property
    def place(self):
        return self.places[0]

    @property
    def address(self):
        return self.places[0].address

    def stands(self, place):
        """It is known to be here, and nowhere else."""
        self.places = [place]

    def may_be(self, place):
        """It is here or at one of the places that it had."""
        self.places = [self.place] + [each for each in (*self.places[1:], place) if each != self.place]

    def is_in_doubt(self):
        return len(self.places) > 1


class Rounds:
    """The rounds of a line."""

    def __init__(self, entries, rate):
        self.entries, self.rate = entries, rate
        self.number, self.last = 1, {}  # of this round; of the last round at each rate
        self.since = 0  # when it began
        self.beyond = set()  # rates that the port can't be set to
        self.is_leaving = False  # whether the port goes to another rate as soon as no order is on its way

    def is_reached(self, entry):
        return entry.session == "open" and entry.place.rate == self.rate

    def here(self, entry):
        """The places of a device at the port's rate."""
        return [place for place in entry.places if place.rate == self.rate]

    def elsewhere(self, entry):
        """The other rates at which a device may be, and the port too."""
        return {place.rate for place in entry.places} - {self.rate} - self.beyond

    def seekers(self):
        """The devices that aren't reached and may be at another rate."""
        return [entry for entry in self.entries
                if not self.is_reached(entry) and not entry.is_given_up and entry.session != "begun" and self.elsewhere(entry)]

    def untried(self, entry):
        return [place for place in self.here(entry) if place not in entry.tried]

    def next_place(self, entry):
        """Where a device is tried next in this round; none where its round is over, or its session isn't closed."""
        if entry.session != "closed":
            return None
        places = self.untried(entry)
        if not places and not self.seekers():
            places = self.here(entry)  # nobody is elsewhere: there is no end of the round to wait for
        return places[-1] if places else None

    def is_over(self):
        """Each device that may be here, and isn't reached, has been tried."""
        return all(entry.session != "begun" and not (entry.session == "closed" and self.untried(entry)) for entry in self.entries)

    def rests_until(self):
        """Until when the port stays although the round is over."""
        is_late = all(entry.sought >= SEARCHES for entry in self.seekers())
        return self.since + REST if is_late and any(map(self.is_reached, self.entries)) else self.since

    def has_orders(self):
        """Whether a device that is reached has orders without an end: the port isn't taken away from it."""
        return any(entry.orders for entry in self.entries if self.is_reached(entry))

    def next_rate(self, now):
        """The rate of the next round, where one at another rate begins now."""
        self.is_leaving = False
        seekers = self.seekers()
        if not seekers or not self.is_over():
            return None
        if now < self.rests_until():
            for entry in self.entries:
                entry.tried = []  # it is tried here again, while the port rests
            return None
        self.is_leaving = self.has_orders()
        if self.is_leaving:
            return None
        rates = set().union(*map(self.elsewhere, seekers))
        return min(sorted(rates), key=lambda rate: self.last.get(rate, 0))

    def begins(self, rate, now):
        """A round at a rate begins."""
        self.last[self.rate] = self.number
        self.rate, self.number, self.since = rate, self.number + 1, now
        for entry in self.entries:
            entry.sought += bool(entry.tried) and entry.session != "open"
            entry.tried, entry.begins = [], min(entry.begins, now)

    def tries(self, entry, place):
        """A device is tried at a place."""
        entry.places = [place] + [each for each in entry.places if each != place]
        entry.tried.append(place)
        entry.session = "begun"

    def next_moment(self, now):
        """When the next attempt or round is due, if nothing happens before."""
        moments = [entry.begins for entry in self.entries if self.next_place(entry)]
        if self.seekers() and self.is_over() and not self.has_orders():
            moments.append(max(self.rests_until(), now))
        return min(moments) if moments else None
