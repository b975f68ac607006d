"""`test script`: runs a script of one's own. `osdp test script` says what is sent, and judges what is
heard."""
from .console import write_all
from .faults import BAD_WORDS, Stop
from .panel_testing import reads
from .program import Lines
from .testing import ANSWER, Player, delay_at, status_of
from .trace import Record
from .turns import Watched

STILL = 0.5  # seconds for which the program may stand still within an exchange; else the test ends
LONGEST = 4000  # how many bytes of what was heard are handed over at most
OWN = ("heard", "ready")  # the lines that are written here, and don't stand in a script


class Script(Lines):
    """`osdp test script`: each line is answered by the lines up to `ready`."""

    def call(self, line):
        answer = []
        try:
            write_all(self.process.stdin.fileno(), line.encode() + b"\nready\n")
        except OSError:
            pass  # it has ended, and its output ends too
        while True:
            text = self.process.stdout.readline()
            if not text.endswith(b"\n"):
                self.ended()
            if text == b"ready\n":
                return answer
            answer.append(text.decode().rstrip("\n"))

    def ends(self):
        """The lines after the last one, and the status."""
        self.process.stdin.close()
        rest = self.process.stdout.read().decode().splitlines()
        return rest, self.process.wait()


def lines_of(path):
    """The lines of a script, as `osdp` counts them: only the end of a line ends one."""
    try:
        with open(path, encoding="utf-8-sig") as file:
            return file.read().removesuffix("\n").split("\n")
    except UnicodeDecodeError:
        raise Stop(f"{path} is no text", BAD_WORDS) from None


def is_own(line):
    """Whether a line is one that is written here: in a script it would be taken for an answer of the line, or
    for the end of one of the program."""
    return line.split()[:1] in ([word] for word in OWN)


def refusals(osdp, path, lines):
    """What is wrong with the lines, found before anything is sent."""
    script, found = Script(osdp, ["test", "script"], quiet=True), []
    for number, line in enumerate(lines, 1):
        if is_own(line):
            found.append(
                f"{path}: line {number}, {line.strip()}: no line of a script begins so, since osdp-port"
                " writes it"
            )
            continue
        why = [answer.partition(" refused: ")[2] for answer in script.call(line) if " refused: " in answer]
        found += [f"{path}: line {number}, {line.strip()}: {each}" for each in why]
    script.ends()
    return found


def answer_at(heard, address):
    """Where the answer begins: the first reply from an address, as `osdp test script` finds it. None where
    there is none."""
    at = 0
    while found := reads(heard[at:]):
        is_reply, sender, *_, whole = found
        place = heard.index(whole, at)
        if is_reply and sender == address:
            return place
        at = place + len(whole)
    return None


class Runner:
    """Runs the lines of a script on a port. `keep` gets each line that the program reads."""

    def __init__(self, port, console, script, keep):
        self.port = Watched(port)
        self.player = Player(self.port, console, 0, {}, None)
        self.stood_still = 0.0  # for how many seconds the program did within an exchange
        self.console, self.script, self.keep = console, script, keep

    def calls(self, line):
        self.keep(line)
        return self.script.call(line)

    def sends(self, digits):
        """The line that tells what was heard of these bytes."""
        moment = self.player.moment()
        sent = bytes.fromhex(digits)
        self.port.begins()
        heard, delays = self.player.reads(
            sent, ANSWER, is_whole=lambda came: answer_at(came, sent[1]) is not None
        )
        self.port.looks()
        self.stood_still = self.port.longest if self.port.longest > STILL else 0.0
        heard = heard[:LONGEST]
        delay = delay_at(delays, answer_at(heard, sent[1]) or 0)
        return f"heard {moment} {delay} {heard.hex().upper() or 'none'}"

    def runs(self, line):
        """A line of the script, to its end."""
        answer = self.calls(line)
        while answer and not self.console.stops:
            said = answer.pop(0)
            verb, _, rest = said.partition(" ")
            if verb == "send":
                heard = self.sends(rest)
                if self.stood_still:
                    return  # how long the answer took isn't known
                answer += self.calls(heard)
            elif verb == "wait":
                self.player.pauses(int(rest))
            else:
                self.console.raw(said)


def run(words, port, console, osdp):
    """Runs the script of a file. The status: that of `osdp test script`."""
    path = words.rest[1]
    lines = lines_of(path)
    wrong = refusals(osdp, path, lines)
    if wrong:
        for each in wrong:
            console.note(each)
        raise Stop(status=BAD_WORDS)
    record = Record(words.get("--trace"))
    runner = Runner(port, console, Script(osdp, ["test", "script"]), record.write)
    for line in lines:
        if console.stops or not port.is_there or runner.stood_still:
            break
        if " from user " in line and not line.lstrip().startswith("#"):
            console.note(f"the user: {line.strip()}")
        runner.runs(line)
    is_cut_off = bool(console.stops) or not port.is_there or bool(runner.stood_still)
    if runner.stood_still:
        console.note(
            f"the program stood still for {runner.stood_still:.1f} s within an exchange, so how long its"
            " answer took isn't known"
        )
    rest, status = runner.script.ends()
    for line in rest:
        console.raw(line)
    return status_of(port, console, is_cut_off, status, record)
