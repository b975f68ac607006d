"""What `test panel` finds beside the rules of `osdp test panel`: what no single packet shows, and which fault of a panel the others follow from."""
from .testing import LARGEST, crc

PATIENCE = 12_000  # milliseconds after which a panel that is refused, or answered, again and again shows that it goes on so
REFUSED = 8  # .. where it was refused so often at least: each NAK 4 may be lost, but not so many
ANSWERED = 20  # .. or answered so often at least
ALIKE = 3  # as often the same bytes come with a wrong check: damage isn't the same each time
SOONEST = 150  # milliseconds: a panel that waits for less doesn't wait for each answer, whatever clocks differ by
HASTY = 3  # packets that came sooner, at least
BEFORE = (1, 2, 3, 5, 7)  # these rules have other causes


def wrong_checks(data):
    """The packets of a panel among bytes that are whole but for their check."""
    found, at = [], 0
    while at + 7 <= len(data):
        size, is_crc = int.from_bytes(data[at + 2:at + 4], "little"), bool(data[at + 4] & 4)
        if data[at] != 0x53 or not 7 + is_crc <= size <= min(len(data) - at, LARGEST):
            at += 1
            continue
        whole = data[at:at + size]
        if whole[-2 if is_crc else -1:] != check_of(whole):
            if not whole[1] & 0x80:
                found.append(whole)
            at += 1
        else:
            at += size
    return found


def check_of(whole):
    """The check that the bytes of a packet have."""
    return crc(whole[:-2]).to_bytes(2, "little") if whole[4] & 4 else bytes(((-sum(whole[:-1])) & 0xFF,))


class Beside:
    """What was found of a panel. `found` has of each fault the line that says it, and the lines below."""

    def __init__(self, address):
        self.address, self.found, self.wrong = address, {}, {}
        self.refused, self.refused_at, self.same, self.same_at, self.is_deaf = 0, 0, 0, 0, False
        self.silent_at, self.hasty = None, []

    # ---- packets whose check is wrong

    def reads(self, data):
        """Bytes of the line, whether or not a packet is among them."""
        for whole in wrong_checks(data):
            self.wrong[whole] = self.wrong.get(whole, 0) + 1
            if self.wrong[whole] == ALIKE:
                expected = check_of(whole)
                self.found.setdefault("check", (
                    f"a packet ends with its check: those to address {whole[1]} don't",
                    f"{ALIKE} times read {whole.hex().upper()}",
                    f"expected {(whole[:-len(expected)] + expected).hex().upper()}",
                ))

    # ---- panels that go on so for ever

    def refuses(self, number, moment):
        """Whether a number out of turn is refused once more. A panel that sends no number 0 for long is given in to, and has shown it; later ones sooner."""
        if not self.refused:
            self.refused_at = moment
        self.refused += 1
        if self.refused <= REFUSED or ("number 0" not in self.found and moment - self.refused_at < PATIENCE):
            return True
        self.found.setdefault("number 0", (
            "after NAK 4 a session begins with number 0: this panel never sends it",
            f"refused {self.refused - 1} packets in {(moment - self.refused_at) // 1000} s, the last with number {number}",
        ))
        return False

    def takes(self):
        """Number 0, or a number in turn, was taken."""
        self.refused = 0

    def answers(self, whole, moment):
        """A packet had the answer that it has by the rules."""
        self.same += 1
        if self.same <= ANSWERED or moment - self.same_at < PATIENCE:
            return
        self.is_deaf = True
        self.found.setdefault("next number", (
            "an answer is followed by the next number: this panel takes none, so it hears none, reads none in time, or counts no numbers",
            f"answered {self.same} times in {(moment - self.same_at) // 1000} s {whole.hex().upper()}",
        ))

    # ---- a panel that doesn't wait

    def came(self, number, is_copy, moment):
        """A packet to the device. Number 0 may come at any time."""
        if not is_copy:
            self.same, self.same_at = 0, moment
        if self.silent_at is not None and number and moment - self.silent_at < SOONEST:
            self.hasty.append(moment - self.silent_at)
        self.silent_at = None

    def says(self, pieces, moment):
        """What was said to it: nothing, or pieces."""
        self.silent_at = None if pieces else moment

    def cause(self, broken):
        """Where the panel doesn't wait for answers, and breaks other rules than that of waiting: the line that says so. Else an empty one."""
        followers = [rule for rule in sorted(broken) if rule != 6 and rule not in BEFORE]
        if len(self.hasty) < HASTY or not followers:
            return ""
        waited = sorted(self.hasty)[len(self.hasty) // 2]
        rules = ", ".join(map(str, followers))
        return f"mend this first: where nothing was said a packet comes after 200 ms at the soonest (rule 6), and this panel waits {waited} ms. From that may follow: {rules}"

    def lines(self):
        """What was found: a line for each fault, and those below it."""
        return [line for told in self.found.values() for line in (f"broken beside the rules: {told[0]}", *(f"  {below}" for below in told[1:]))]
