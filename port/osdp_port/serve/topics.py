"""The topics of a line: `PREFIX/LINE/DEVICE/order` and its like."""
TO_US = ("order", "ask", "wanted")  # what is sent to a device's topics by others


class Topics:
    """The topics of one line. `devices` are the names of its devices."""

    def __init__(self, prefix, line, devices):
        self.root, self.devices = f"{prefix}/{line}", tuple(devices)

    def of(self, device, name):
        return f"{self.root}/{device}/{name}"

    def of_line(self, name):
        return f"{self.root}/{name}"

    def parted(self, topic):
        """The device and the last word of a topic that is of a device here; none of both else."""
        root, _, rest = topic[:len(self.root)], topic[len(self.root):len(self.root) + 1], topic[len(self.root) + 1:]
        words = rest.split("/")
        if root != self.root or len(words) != 2 or words[0] not in self.devices or words[1] not in TO_US:
            return None, None
        return words[0], words[1]
