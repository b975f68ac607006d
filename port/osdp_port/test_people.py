"""What a test of a device needs people for: cards, keys and inputs, and whether a relay clicked once or twice."""
import sys
import time

from .console import wait_for
from .test_packets import packet, replies_in

EVENTS = (0x48, 0x49, 0x4A, 0x4B, 0x50, 0x51, 0x53)  # codes of replies to a POLL that tell an event
SHOWN = 20.0  # seconds that a card is waited for where somebody is at the terminal
POLLS = 4  # .. else so many POLLs
ANSWERED = 30.0  # seconds that a question is waited for
ON, AGAIN, LOOK = 1000, 600, 1300  # milliseconds: how long the output is on, when the order comes again, and when it is looked at
ORDERED = 0.21  # seconds that the answer to such an order is waited for
TRIES = 3  # how often an order is sent whose answer is lost
POLL, OSTAT = b"\x60", b"\x66"


class People:
    """What a player does where somebody beside the line is needed."""

    @staticmethod
    def is_at_terminal():
        return sys.stdin is not None and sys.stdin.isatty()

    def asks_person(self, question):
        """The answer of whoever is at the terminal; none where nobody is, or nobody answers."""
        if not self.is_at_terminal():
            return None
        self.console.note(question)
        until = time.monotonic() + ANSWERED
        while time.monotonic() < until and not self.console.stops and not self.console.is_over:
            wait_for(self.port, self.console, 0.1)
            for line in self.console.lines():
                if line:
                    return line.strip()
        return None

    def polled(self, rule, number, tries=3):
        """The first reply to a POLL."""
        for _ in range(tries):
            said = self.exchange(rule, "open", packet(self.address, number, POLL, self.check), 0.5)
            if said.replies and not said.replies[0].is_busy():
                return said.replies[0]
        return None

    def waits_for_event(self, rule):
        """The number and the message of the next event; none where none comes."""
        number, polls = 0, 0
        if self.is_at_terminal():
            self.tells(True)
            self.console.note(f"show one card once, or press one key, within {SHOWN:.0f} seconds")
        until = self.moment() + (SHOWN * 1000 if self.is_at_terminal() else 0)
        while (polls < POLLS or self.moment() < until) and not self.console.stops and self.port.is_there:
            number, polls = number % 3 + 1, polls + 1
            reply = self.polled(rule, number)
            if reply is None:
                return None
            if reply.body[:1] and reply.body[0] in EVENTS:
                return number, reply.body
            if self.is_at_terminal():
                self.pauses(100)
        return None

    def event(self, rule):
        """Waits for an event, and asks for it again, twice, as where its answer was lost."""
        self.event_told = self.waits_for_event(rule)
        if self.event_told:
            for _ in range(2):
                self.sends(rule, "ask", packet(self.address, self.event_told[0], POLL, self.check))

    def anew(self, rule):
        """Looks whether the event is told once more. Where nobody was asked to show one card alone, two may have been shown."""
        if not self.event_told:
            self.answers(rule)
            return
        number, body = self.event_told
        again = 0
        for _ in range(3):
            number = number % 3 + 1
            reply = self.polled(rule, number)
            again += reply is not None and reply.body == body
        if not again:
            self.lines.append(f"keeps {rule}")
        elif self.is_at_terminal():
            self.lines.append(f"breaks {rule} it-was-shown-once,-and-told-{again + 1}-times:{body.hex().upper()}")

    # ---- an output

    def is_on(self, rule, output):
        """Whether an output is on, by OSTAT; none where OSTAT doesn't tell."""
        for _ in range(3):
            self.exchange(rule, "open", packet(self.address, 0, OSTAT, self.check), 0.3)
            replies = replies_in(self.lines[-1].heard)
            if replies and replies[0].body[:1] == b"\x4A":
                states = replies[0].body[1:]
                return states[output] == 1 if output < len(states) else None
        return None

    def ordered(self, rule, output, tries):
        """What was answered to an order that turns an output on for a second, with number 1: nothing where nothing was heard, or it wasn't taken."""
        sent = packet(self.address, 1, bytes((0x68, output, 5, ON // 100, 0)), self.check)
        for _ in range(tries):
            replies = self.exchange(rule, "open", sent, ORDERED).replies
            if replies and not replies[0].is_busy() and not replies[0].is_nak(1, 4):
                return replies[0].body
        return b""

    def waits_until(self, moment):
        self.pauses(max(0, moment - self.moment()))

    def relay(self, rule):
        """Turns an output on for a second, by an OUT that comes again before that is over: done once it is off a second after the first one. Where an
        answer was lost nobody knows when it was turned on, so it is tried again."""
        output = self.may["relay"]
        for _ in range(TRIES):
            before = self.is_on(rule, output)
            if before:
                self.lines.append(f"skips {rule} output-{output}-is-on")
                return
            self.answers(rule, 3)
            begun = self.moment()
            said = self.ordered(rule, output, 1)
            if said[:1] == b"\x41":
                self.lines.append(f"skips {rule} OUT-was-answered-by-{said.hex().upper()}")
                return
            self.waits_until(begun + AGAIN)
            again = self.ordered(rule, output, TRIES)
            middle = self.is_on(rule, output)
            self.waits_until(begun + LOOK)
            after = self.is_on(rule, output)
            self.waits_until(begun + 3 * ON)
            if said and again:
                self.judges_relay(rule, output, before, middle, after)
                return

    def judges_relay(self, rule, output, before, middle, after):
        """By OSTAT, where it tells that the output was on at all, and else by whoever is there."""
        if before is False and middle and after is not None:
            why = f"an-OUT-of-{ON}-ms-came-again-after-{AGAIN}-ms,-and-output-{output}-is-still-on-after-{LOOK}-ms"
            self.lines.append(f"breaks {rule} {why}" if after else f"keeps {rule}")
            return
        answer = self.asks_person(f"did relay {output} click on once or twice? (once, twice, or nothing where you don't know)")
        if answer in ("once", "twice"):
            self.lines.append(f"keeps {rule}" if answer == "once" else f"breaks {rule} it-was-heard-twice")
