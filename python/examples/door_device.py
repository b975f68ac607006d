#!/usr/bin/env python3
"""A device with two outputs: door_device.py [--keep FILE [--new]] [--late MS] PORT RATE, at address 5, or where the store FILE has it after a COMSET. `--new` makes that store. A line `card 12345640` says
that a card was read. Each output that is switched on is printed, and so are a card that was too old and a place that can't be kept.

Where the program stood still for more than MS milliseconds, 5000 if not said, it drops what came meanwhile: its panel has given it up.

It stands beside the folder `examples`, of which it takes the port. It needs the package osdp on PYTHONPATH, or the folder above this one."""
import sys
from pathlib import Path

HERE = Path(__file__).resolve().parent
sys.path[:0] = [str(HERE.parent), str(HERE.parent.parent / "examples")]

try:
    import osdp  # noqa: E402
except ImportError as error:
    sys.exit(str(error))
from lines import BAD_WORDS, Lines, number, stop, take_words, tell  # noqa: E402
from place import OPTIONS, Kept  # noqa: E402
from port import Port  # noqa: E402

OUT = 0x68
OFF, ON_FOR_A_TIME = 1, 5
NOT_PROCESSED = 9  # the reason of a NAK
TOO_OLD = 30000  # how long a card may wait while no panel is there, in milliseconds


def records(command):
    """The output and the control of each record of an OUT; none of another command."""
    return [(command.data[at], command.data[at + 1]) for at in range(0, len(command.data), 4)] if command and command.code == OUT else []


def may_be_done(output, control):
    """Whether an output may be switched so: for a time, or off. A door may not stand open for good."""
    return output < 2 and control in (OFF, ON_FOR_A_TIME)


class Door:
    """The device at its port."""

    def __init__(self, path, rate, kept):
        (self.address, rate), self.kept = kept.place or (5, rate), kept
        self.port = Port(path, rate)
        self.starts()

    def starts(self):
        """Makes the device where it is."""
        self.device = osdp.Device(self.address, vendor=b"SIM", serial=1, on_command=self.judges)
        self.device.set_outputs(bytes(2))

    def judges(self, command):
        """Refuses an OUT that may not be done, before the device answers it."""
        if not all(may_be_done(*each) for each in records(command)):
            self.device.answer_refused(NOT_PROCESSED)

    def take(self, answers):
        """Does what the device is to do, and then writes what it says: so an order that is answered was done, also where power is lost in between."""
        for answer in answers:
            if (answer.moved or answer.order is osdp.Order.ONCE) and self.port.turns.is_late():
                self.starts_anew(f"not done {answer.command}")
                return
            if answer.moved and not self.port.can_have(answer.moved[1]):
                self.starts_anew(f"no rate {answer.moved[1]}")
                return
            if answer.moved:
                self.kept.keep(*answer.moved)  # before the panel is told
            if answer.order is osdp.Order.ONCE:
                for output, control in records(answer.command):
                    if control == ON_FOR_A_TIME:
                        tell(f"on {output}")
            self.port.write(answer.data)
            if answer.moved:
                self.address = answer.moved[0]
                self.port.set_rate(answer.moved[1])

    def starts_anew(self, why):
        """A command that came too late isn't done, nor answered; nor is a COMSET to a rate that the port hasn't, since nobody would find the device there. It is made anew
        where it was, as after a loss of power."""
        tell(why)
        while event := self.device.lapse_event():
            tell(f"in doubt {event}")
        while event := self.device.withdraw_event():
            tell(f"withdrawn {event}")
        self.device.close()
        self.starts()

    def take_line(self, line):
        """A card of 26 bits was read, where a line says so: it is told to the next POLL."""
        try:
            self.device.event(f"RAW 0 0 26 {line.removeprefix('card ')}")
        except osdp.OsdpError as error:
            tell(f"refused line: {error}")

    def run(self):
        lines = Lines()
        while True:
            read, typed = self.port.wait(lines, 0.01)
            typed, now = list(typed), self.port.turns.now  # after the wait, and before the read
            self.device.set_moment(now)  # so it is taken too where the program was stopped for more than a day
            for how, event in self.device.expire_events(now, TOO_OLD):
                tell(f"{how.name.lower().replace('_', ' ')} {event}")
            self.take(self.device.hear(b"" if self.port.turns.stood_still else b"".join(read), now))
            for line in typed:
                self.take_line(line)
            self.take(self.device.tick(now))


def main():
    path, rate, *more = take_words(__doc__, 2, OPTIONS)
    if more:
        stop("bad words: --help tells the right ones", BAD_WORDS)
    Door(path, number(rate, "rate"), Kept(OPTIONS)).run()


if __name__ == "__main__":
    main()
