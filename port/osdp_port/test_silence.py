"""A device that falls silent: a silence counts only between answers."""
from .test_packets import packet

ALIVE = b"\x61\x00"  # an ID: each device answers it
QUIET = 0.22  # seconds of silence where none is expected
ANSWER = 0.5  # seconds that an answer of a device is waited for that may be silent
TRIES = 5  # how often it is asked before it counts as silent
BACK = 50  # .. and how often where the test goes on, before the next rule is left out
DEVICE = 97  # the rule that it answers to the end


def short(sent):
    """A packet in digits, of which a long one's middle is left out."""
    digits = sent.hex().upper()
    return digits if len(digits) <= 64 else f"{digits[:32]}..{digits[-8:]}-({len(sent)}-bytes)"


class Silence:
    """What a player does where nothing is heard."""

    def answers(self, rule, tries=TRIES):
        """Whether the device answers an ID with number 0. Every second packet has the other check."""
        for attempt in range(tries):
            check = self.check if attempt % 2 == 0 else {"crc": "sum", "sum": "crc"}[self.check]
            if self.exchange(rule, "open", packet(self.address, 0, ALIVE, check), ANSWER).heard:
                return True
            if self.console.stops or not self.port.is_there:
                return True
        return False

    def expects_silence(self, rule, verb, *sent):
        """Sends what isn't answered, one after the other. Their silence counts where the device answers afterwards."""
        said = [self.exchange(rule, verb, each, QUIET) for each in sent]
        if verb == "ask" and not said[-1].heard and not self.answers(rule):
            self.falls_silent()

    @staticmethod
    def counts(said):
        """Whether what was said is judged by the rules on the whole run: a silence after which no answer came is none between answers."""
        return not getattr(said, "is_last", False)

    def looks_for(self, rule):
        """Nothing was heard: the device may have fallen silent. One that never answered has not."""
        if not self.is_silent and not self.answers(rule):
            self.falls_silent()

    def falls_silent(self):
        """Tells at once that it fell silent, after which packets."""
        run = self.said + [each for each in self.lines if not isinstance(each, str)]
        last = max((at for at, each in enumerate(run) if each.heard), default=-1)
        for each in run[last + 1:]:
            each.is_last = True
            each.verb = "open"
        answered = short(run[last].sent) if last >= 0 else "nothing"
        since, packet_before = run[last + 1].moment, short(run[last + 1].sent)
        self.lines.append(f"breaks {DEVICE} silent-since-{since}-ms,-when-{packet_before}-was-sent;-the-last-packet-that-it-answered-was-{answered}")
        self.is_dead = self.has_fallen = self.waits_back = True
        self.console.note(f"device {self.address} is silent since {since} ms, when {packet_before} was sent; the last packet that it answered was {answered}")

    def is_back(self, rule):
        """Whether a device that fell silent answers again, where the test goes on."""
        tries, self.waits_back = BACK if self.waits_back else 1, False
        if not self.goes_on or not self.answers(rule, tries):
            return False
        self.is_dead = False
        self.console.note(f"device {self.address} answers again")
        return True

    def alive(self, rule):
        """The last step of the run."""
        if self.has_fallen:
            return
        if self.answers(rule):
            self.lines.append(f"keeps {rule}")
        else:
            self.falls_silent()
