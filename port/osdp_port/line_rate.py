"""One rate for the line: a device that is found at another rate than those that have moved is brought to
theirs, or they come back to its own."""

# how often a device at another rate than the line's is given a COMSET for it, until it counts as one that
# refuses it
HEALS = 2


class LineRate:
    """The rate to which all devices go. `submit` hands a COMSET to a device."""

    def __init__(self, devices, rate, say, submit):
        self.devices, self.say, self.submit = devices, say, submit
        self.goal = rate if len({place.rate for device in devices for place in device.places}) > 1 else None
        self.has_turned_back = False  # whether the goal is the old rate again

    def goes_to(self, rate, first, since):
        """Another rate was ordered, of the first device already: each other one gets it too, by an order of
        the same age."""
        self.goal, self.has_turned_back = rate, False
        for other in self.devices:
            if other is not first:
                self.submit(other, f"COMSET {other.address} {rate}", since)

    def gather(self, device):
        """A device that is found at another rate than those that have moved is given a COMSET for that
        rate."""
        rates = {each.place.rate for each in self.devices}
        if len(rates) == 1 and not any(each.is_in_doubt() for each in self.devices):
            self.goal, self.has_turned_back = None, False
            for each in self.devices:
                each.heals = 0
        if (
            self.goal is None
            or device.place.rate == self.goal
            or device.other
            or device.awaits_move()
            or device.is_left
        ):
            return
        if not any(each.place.rate == self.goal and not each.is_in_doubt() for each in self.devices):
            return
        device.heals += 1
        if device.heals > HEALS:
            self.refuses(device)  # it answers here again and again, and goes nowhere
        else:
            self.submit(device, f"COMSET {device.address} {self.goal}")

    def refuses(self, device):
        """A device has refused another rate: the others come back to it, once."""
        if self.goal is None or device.place.rate == self.goal:
            return
        if self.has_turned_back:
            self.gives_up(device)
            return
        self.goal, self.has_turned_back = device.place.rate, True
        self.say(f"back to {self.goal}: device {device.address} stays there")
        for each in self.devices:
            if each is not device and each.session == "open":
                self.gather(each)

    def gives_up(self, device):
        device.is_given_up = True
        self.say(
            f"out of reach {device.address} at {device.place.rate}: run a panel for it alone at that rate,"
            " and move it"
        )
