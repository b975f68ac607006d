"""Answers that come late: this computer may have been late itself, so they are measured again."""
import time

from .test_packets import packet

LATEST = 200  # milliseconds within which an answer begins
STILL = 20  # milliseconds from which on this computer counts as busy
WAIT = 5  # milliseconds that a wait of the player takes
ONCE = 10  # the rule on the times of its own scenario
AGAIN = 3  # how often a late answer is measured again
ORDER = 0x68  # the first code of a command that may change something


class Lateness:
    """What a player knows of times."""

    def stood_still(self, since):
        """How long this computer stood still in a wait at most, since a moment."""
        self.own = max(self.own, int((time.monotonic() - since) * 1000) - WAIT)

    def is_doubtful(self, said):
        """Whether a late answer may have come in time, while this computer stood still."""
        return said.delay > LATEST >= said.least

    def measures_again(self, rule):
        """Whether a scenario on times is played again. What may be this computer's own delay isn't judged by."""
        if rule != ONCE:
            return False
        late = [each for each in self.lines if not isinstance(each, str) and each.heard and each.verb == "ask" and each.delay > LATEST]
        doubtful = [each for each in late if self.is_doubtful(each) or self.own >= STILL]
        for each in doubtful:
            each.verb = "open"
        return bool(doubtful)

    def is_late_again(self, rule, said):
        """Whether the answer to the command of an exchange is late once more. An order isn't given again for that."""
        sent = said.sent.lstrip(b"\xFF")
        body = sent[5:int.from_bytes(sent[2:4], "little") - (2 if sent[4] & 4 else 1)]
        if body[0] >= ORDER:
            return False
        delays = []
        for _ in range(AGAIN):
            self.exchange(rule, "open", packet(self.address, 0, b"\x61\x00", self.check), 1.0)
            delays.append(self.exchange(rule, "open", packet(self.address, 1, body, self.check), 1.0))
        return sum(each.delay > LATEST and not self.is_doubtful(each) for each in delays if each.heard) > AGAIN / 2

    def times(self, rule):
        """Judges a rule by the times of all answers. Where the late ones may be this computer's, it is left out, with both times."""
        late = [each for each in self.said if each.replies and each.delay > LATEST]
        sure = [each for each in late if not self.is_doubtful(each)]
        if late and (not sure or self.own >= STILL) and not any(self.is_late_again(rule, each) for each in sure[:3]):
            told = "-and-".join(str(each.delay) for each in late[:3])
            self.lines = [f"skips {rule} unclear:-answers-came-after-{told}-ms,-and-this-computer-was-late-by-{self.own}-ms-itself"]
            return
        self.lines = [f"times {rule}"]
