"""A reader: what it is asked it does, and then it answers."""
from .cards import raw_of
from .faults import Refused, is_number
from .outputs import Outputs
from .rounds import Place
from .serial_port import pieces
from .turns import AGAIN, Timed

TURN = 10  # how long a read waits, in milliseconds
NAK = 0x41  # the code of a reply that says that nothing was done
ABSENT = ("expire", "10000", "presence", "on")  # what it does while no panel is there, where its words don't say otherwise
MEANS = {"offline": "no panel has asked for 8 seconds", "online": "a panel asks",
         "withdrawn": "too old while no panel asked; no panel will get it", "in": "too old while no panel asked; the panel may have got it or not"}
OWN = ("at", "bytes", "silence", "tick", "outputs")  # the calls that are made here, and aren't taken from standard input
COULD = "what can stand there is card, keys, event, busy, inputs, readers, local and help"
HELP = """card FACILITY NUMBER   a card of 26 bits was read
keys KEYS              keys were pressed, as keys 123#
event, busy, inputs, readers, local   as osdp reader has them: event KEYPAD 0 31
quit, or Ctrl-C        ends the reader"""


def call_of(line):
    """The call that a line of standard input is."""
    words = line.split()
    if words[:1] == ["card"]:
        if len(words) != 3 or not is_number(words[1], 0, 255) or not is_number(words[2], 0, 65535):
            raise Refused("a card is its facility, 0 to 255, and its number, 0 to 65535: card 17 4386")
        return f"event {raw_of(*map(int, words[1:]))}"
    if words[:1] == ["keys"]:
        if len(words) != 2 or len(words[1]) > 255:
            raise Refused("keys is followed by one word of at most 255 keys: keys 123#")
        return f"event KEYPAD 0 {words[1].encode().hex().upper()}"
    if words[:1] and words[0] in OWN:
        raise Refused(f"word 1, {words[0]}: this call is made here; {COULD}")
    return line if words else ""


STATES = ("busy", "inputs", "readers", "local")  # calls that hold until the next one of their name


class Reader(Timed):
    """The reader. `port` writes bursts and has a rate, `starts` gives the program `osdp reader` at an address, `clock` tells the moment, and `say` prints a line."""

    def __init__(self, port, starts, address, clock, say, kept=None):
        super().__init__(clock)
        self.port, self.starts, self.address, self.say, self.kept = port, starts, address, say, kept
        self.program = starts(address)
        self.outputs = Outputs(clock)
        self.told = None  # what the program was told of them
        self.states, self.events = {}, []  # the calls that hold, by their names, and those of the events that wait
        self.met = 0
        self.unkept = None  # why the place isn't in the file
        self.tell_outputs()

    def note(self, line, answer, waiting):
        """Notes a call that was taken: the program that starts anew is to be told it again. The oldest events leave first."""
        name = line.split()[0]
        if not any(each.startswith("refused ") for each in answer):
            if name in STATES:
                self.states[name] = line
            if name == "event":
                self.events.append(line)
        self.events = self.events[len(self.events) - waiting:]

    def call(self, line):
        """Hands `osdp reader` a line, and does what its answer says. Each answer to the panel goes out after what it confirms was done."""
        *answer, last = self.program.call(line)
        self.note(line, answer, int(last.split()[1]))
        groups = [(None, [])]
        for each in answer:
            if each.startswith("send "):
                groups.append((bytes.fromhex(each[5:]), []))
            else:
                groups[-1][1].append(each)
        for burst, told in groups:
            place = self.place_of(told)
            if place and not self.port.can_have(place.rate):
                self.stays(place)
                return
            for each in told:
                if self.is_late() and each.startswith(("taken ", "moved ")) and (burst is None or burst[5] != NAK):
                    self.comes_too_late(each.partition(" ")[2])
                    return
                self.heed(each, burst)
            if place:
                self.keep(place)  # before the panel is told
            if burst is not None and not self.is_late():
                self.port.write(burst)
            if place:
                self.address = place.address
                self.port.set_rate(place.rate)

    @staticmethod
    def place_of(told):
        """The place to which a COMSET sends the reader; none where nothing of that is told."""
        return next((Place(*map(int, each.split()[1:])) for each in told if each.startswith("moved ")), None)

    def stays(self, place):
        """A COMSET to a rate that the port hasn't isn't answered, since nobody would find the reader there. The program starts anew where the reader is, as after a
        loss of power. So the panel loses the session, and finds the reader there. The events that wait are told in the next session."""
        self.say(f"refused COMSET {place}: the port has no rate {place.rate}; the reader stays at {self.address} {self.port.rate}, and its session ends")
        events, self.events = self.events, []
        self.starts_anew(events)

    def comes_too_late(self, text):
        """The program stood still before it could do a command, and its panel has given that up. It isn't done, nor answered: the program starts anew, as after a loss
        of power, so that no panel takes it for done. The events that wait may be too old, too."""
        self.say(f"not done {text}: the program stood still; the session of the reader ends")
        for line in self.events:
            self.say(f"in doubt {line.removeprefix('event ')}: the program stood still; the panel may have got it or not")
        self.events = []
        self.starts_anew()

    def starts_anew(self, events=()):
        """Starts the program anew where the reader is, with its states and these events."""
        self.program.close()
        self.program, self.told = self.starts(self.address), None
        for line in [f"at {self.clock()}", *self.states.values(), *events]:
            self.call(line)
        self.tell_outputs()

    def heed(self, line, burst):
        """Prints what was told, and does it."""
        name, *words = line.split()
        if name in ("taken", "again") and burst is not None and burst[5] == NAK:
            name = "refused"
        elif name == "refused":
            words = [{"N2": "no room for another event", "line": f"osdp doesn't read this line: man osdp-reader has them; of word 1 {COULD}"}.get(words[0], words[0])]
        if name == "taken" and words[0] == "OUT":
            self.outputs.switch(words[1:])
            self.tell_outputs()
        self.say(" ".join([name, *words]) + (f": {MEANS[name]}" if name in MEANS else ""))

    def keep(self, place):
        """Keeps where the reader is from now on."""
        self.unkept = self.kept.keep(place) if self.kept else None
        if self.unkept:
            self.say(f"not kept {place}: {self.unkept}")

    def tell_outputs(self):
        """Tells the program which outputs are on, where that has changed: by it OSTAT is answered."""
        states = self.outputs.states()
        if states != self.told:
            self.told = states
            self.call(f"outputs {states}")

    def line(self, line):
        """Takes a line of standard input."""
        if line in ("help", "?"):
            for each in HELP.splitlines():
                self.say(each)
            return
        try:
            call = call_of(line) if line is not None else None
        except Refused as refused:
            self.say(f"refused {line}: {refused}")
            return
        if call is None:
            self.say("refused line: it is no text, or too long")
        elif call:
            self.say(call)
            self.call(call)

    def turn(self, read, lines, now=None, stood_still=0):
        """Hands over what has come. What came while the program stood still is dropped, as the line may lose it: its panel has given it up."""
        self.begins(now)
        self.call(f"at {self.now}")
        self.tell_outputs()
        if stood_still:
            self.say(f"stood still for {stood_still / 1000:.1f} s: {len(read)} bytes that came meanwhile are dropped")
        for piece in [] if stood_still else pieces(read):
            self.call(f"bytes {piece.hex()}")
        for line in lines:
            self.say(f"refused {line.text or 'a line'}: {AGAIN}") if stood_still else self.line(line.text)
        self.call("tick")

    def next_moment(self):
        return self.clock() + TURN

    @staticmethod
    def ends():
        return True

    def nothing_comes(self):
        pass
