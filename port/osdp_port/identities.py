"""Which device stands at an address: the one that stood there, or another one, which gets no order until it
is accepted."""
from .faults import Refused


class Identities:
    """The makers, models and serial numbers of the devices. `keep` writes them down."""

    def __init__(self, devices, say, keep):
        self.devices, self.say, self.keep = devices, say, keep

    def recognize(self, device, identity):
        """Compares a device with the one that stood there. Another one is told once while it stands there."""
        told, device.other = (device.other, device.other_place), None
        if device.identity is None:
            device.identity = identity
        elif device.identity != identity:
            device.other, device.other_place = identity, device.place
            if told == (identity, device.place):
                return
            self.say(
                f"another device at {device.address}: vendor {identity[0]} model {identity[1]} serial"
                f" {identity[2]} stands where vendor {device.identity[0]} model {device.identity[1]} serial"
                f" {device.identity[2]} stood; it gets no order until you type: {device.address} accept"
            )

    def other_at(self, word):
        """The device in whose place another one was met last, by the address where that stands; none where
        none was."""
        return next(
            (device for device in self.devices if device.other and word == str(device.other_place.address)),
            None,
        )

    def accept(self, word, device_at):
        """The device that stands at this address now is the right one. `device_at` finds the device that an
        order names."""
        device = self.other_at(word)
        if device is None:
            raise Refused(f"device {device_at(word).address} is the one that stood there")
        device.identity, device.other = device.other, None
        self.keep()  # of several places it is known which it is once its session opens again
        self.say(f"accepted {word}")
