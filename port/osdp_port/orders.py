"""The orders that are typed to a panel: which are taken, until when each may go out, and which would leave a
device where nobody finds it."""
from . import doors
from .faults import Refused, is_number
from .rounds import Place

# For how many milliseconds an order may go out after it was typed. An exchange of a device that is busy takes
# 3.8 s, and an order after it still goes out. Who stands at a door that hasn't opened for 5 s tries again,
# or has left.
LASTS = 5000
FAULTS = {
    "line": "osdp doesn't read this command: man osdp-panel has them",
    "B3": "that address is another device's, or may be",
    "B5": "an address is 0 to 126",
    "B7": "no number is left for another order of this device",
    "C3": "as many orders as may wait do so already",
    "C4": "osdp itself sends POLL",
}
LEFT = "the panel ended before it knew what became of it; it was done or not"


class Orders:
    """The orders of a panel. Of the panel it uses devices, port, rounds and file, `call`, `keep` and `say`,
    and its other pieces."""

    def __init__(self, panel):
        self.panel, self.say = panel, panel.say

    def order(self, line):
        """Takes an order that was typed, by the address of its device."""
        if line.text is None:
            self.say("refused line: it is no text, or too long")
            return
        try:
            self.take(line.text.split(), line.since)
        except Refused as refused:
            self.say(f"not taken {line.text}: {refused}")

    def take(self, words, since):
        if words in (["help"], ["?"]):
            for line in doors.HELP.splitlines():
                self.say(line)
            return
        if not words:
            return
        if words[1:] == ["accept"]:
            self.panel.identities.accept(words[0], self.device_at)
            return
        device = self.device_at(words[0])
        text = doors.command(words[1:], device.place)
        self.may_take(device, text.split())
        if not self.submit(device, text, since) or not text.startswith("COMSET "):
            return
        rate = int(text.split()[2])
        if rate != self.panel.rounds.rate:  # the line has one rate
            self.panel.line_rate.goes_to(rate, device, since)

    def device_at(self, word):
        """The device that an order names."""
        for device in self.panel.devices:
            if word == str(device.address):
                return device
        for device in self.panel.devices:
            if any(word == str(place.address) for place in device.places):
                raise Refused(f"device {device.address} may be at {word}: its COMSET isn't answered yet")
        known = ", ".join(str(device.address) for device in self.panel.devices)
        doors.wrong(1, word, f"the address of a device of this line: {known}; help prints all orders")

    def may_take(self, device, words):
        """Refuses an order that nobody could do now, or that would leave a device where nobody finds it."""
        if self.panel.is_ending:
            raise Refused("the panel ends")
        if not self.panel.port.is_there:
            raise Refused("the port isn't there")
        if device.session != "open":
            raise Refused(f"the session with {device.address} isn't open")
        if device.is_left:
            raise Refused(f"the session with {device.address} ends: type it again once it has opened")
        if device.other:
            raise Refused(
                f"another device stands at {device.address}: type {device.address} accept if it is the"
                " right one"
            )
        if device.awaits_move() or device.is_in_doubt():
            raise Refused(f"where device {device.address} is isn't known until its COMSET has an answer")
        rounds = self.panel.rounds
        if rounds.is_leaving or not rounds.is_reached(device):
            sought = " and ".join(str(each.address) for each in rounds.seekers())
            raise Refused(f"the port looks for {sought} at another rate: try again")
        if words[0] == "COMSET":
            self.may_move(words[1:])

    def may_move(self, words):
        if len(words) != 2 or not all(is_number(word, 0, 9999999999) for word in words):
            raise Refused("a COMSET has an address and a rate, as COMSET 7 9600")
        if int(words[0]) > 126:
            raise Refused(f"address {words[0]}: an address is 0 to 126")
        self.may_go_to(int(words[0]))
        for each in self.panel.devices:
            if each.session != "open":
                raise Refused(
                    f"the session with {each.address} isn't open: it would stay at its rate, where nobody"
                    " finds it"
                )
            if each.is_in_doubt():
                raise Refused(f"the COMSET of {each.address} isn't answered yet")
        if not self.panel.port.can_have(int(words[1])):
            raise Refused(f"the port has no rate {words[1]}")

    def may_go_to(self, address):
        """Refuses an address at which a device may be that the file knows and this panel hasn't."""
        here, kept = {each.name for each in self.panel.devices}, self.panel.kept
        for name, known in (kept.known if kept else {}).items():
            if name not in here and any(place.address == address for place in known.places):
                raise Refused(
                    f"at address {address} there may be the device that began as {name}: {kept.path} says so"
                )

    # what is handed to `osdp`

    def submit(self, device, text, since=None):
        """Hands an order to `osdp`, which was typed at a moment, or is given now: from then on it may go out
        for a while. Whether it was taken."""
        panel = self.panel
        until = None if panel.lasts is None else (panel.now if since is None else since) + panel.lasts
        why = self.refusal(device, text, until)
        if why:
            self.say(f"not taken {device.address} {text}: {why}")
        return not why

    def refusal(self, device, text, until):
        """Hands an order to `osdp`, with its last moment. Why it wasn't taken; nothing where it was."""
        panel, places = self.panel, list(device.places)
        why = self.not_stored(device, text, until)
        if not why:
            device.given = text
            told = panel.call(f"submit {device.number} {'never' if until is None else until} {text}")
            refusals = [each.split()[1] for each in told if each.startswith("refused ")]
            if not refusals:
                return ""
            why = FAULTS.get(refusals[0], refusals[0])
            if panel.kept:
                panel.is_kept(panel.kept.forgets(device.name, device.next_order))
        if device.places != places:
            device.places = places
            panel.keep()
        return why

    def not_stored(self, device, text, until):
        """Stores what a restart is to know of an order, before it is given: the new place of a COMSET, and
        its number. Why that can't be done; nothing where it is done."""
        panel = self.panel
        if text.startswith("COMSET "):
            device.may_be(Place(*map(int, text.split()[1:3])))
            if not panel.keep():
                return f"the new place must be kept first, and {panel.unkept}"
        lasts = None if until is None else until - panel.clock()
        if panel.kept and not panel.is_kept(panel.kept.gives(device.name, device.next_order, text, lasts)):
            return f"its number must be kept first, and {panel.unkept}"
        return ""

    def has_end(self, device, number, state, answer):
        """Stores the end of an order."""
        kept = self.panel.kept
        if kept:
            self.panel.is_kept(kept.ends(device.name, number, state, answer))

    def tells_left(self, device):
        """Tells which orders of a run before have no end."""
        for number, text in self.panel.kept.left(device.name) if self.panel.kept else ():
            self.say(f"order {number} in doubt {device.address} {text}: {LEFT}")
