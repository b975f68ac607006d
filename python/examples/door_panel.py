#!/usr/bin/env python3
"""A panel that opens a door for two cards: door_panel.py [--late MS] PORT RATE. The door is the device at address 5. What it reports is printed.

The door opens within MS milliseconds, 5000 if not said, after its card was asked for, or not at all, also where the program stood still.

It stands beside the folder `examples`, of which it takes the port. It needs the package osdp on PYTHONPATH, or the folder above this one."""
import math
import sys
from pathlib import Path

HERE = Path(__file__).resolve().parent
sys.path[:0] = [str(HERE.parent), str(HERE.parent.parent / "examples")]

try:
    import osdp  # noqa: E402
except ImportError as error:
    sys.exit(str(error))
from lines import BAD_WORDS, Lines, number, stop, take_words, tell  # noqa: E402
from moments import Turns, moment  # noqa: E402
from port import Port  # noqa: E402

CARDS = (bytes.fromhex("12345640"), bytes.fromhex("65432180"))
STRIKE = "OUT 0:5:30"  # output 0, on for three seconds
PAUSE = 1000  # from a session that was lost to the next one, in milliseconds


def may_enter(card):
    """Whether a card opens the door: two cards of 26 bits do."""
    return card.bits == 26 and card.data in CARDS


def take_reports(panel, door, now, lasts):
    """Takes what the panel reports. The order for a card lasts so many milliseconds. The moment at which the next session begins, where one has ended."""
    begins = None
    for report in panel.reports():
        tell(f"{report.kind.name.lower()} {report.command or ''} {report.reply or ''}".strip())
        if report.kind in (osdp.Kind.LOST, osdp.Kind.MOVED):
            begins = now + PAUSE
        card = report.reply.card() if report.kind is osdp.Kind.EVENT else None
        if card and may_enter(card) and not report.maybe_again:  # one that may have been told before makes no second order
            try:
                panel.submit(door, STRIKE, until=report.since + lasts)  # the door opens in time for its card, or not at all
            except osdp.OsdpError as error:
                tell(f"the door stays closed: {error}")  # as many orders wait as may
    return begins


def moment_for(panel):
    """This moment, which the panel takes too where the program was stopped for more than a day."""
    now = moment()
    panel.set_moment(now)
    return now


def main():
    path, rate, *more = take_words(__doc__, 2)
    if more:
        stop("bad words: --help tells the right ones", BAD_WORDS)
    port, lines, panel = Port(path, number(rate, "rate")), Lines(), osdp.Panel()
    door, begins = panel.add(5), 0
    lasts, Turns.late = Turns.late, math.inf  # the panel itself keeps orders from going out late
    while True:
        until = [each for each in (panel.next_deadline(), begins) if each is not None]
        read, typed = port.wait(lines, max(min(until) - moment(), 0) / 1000 if until else None)
        now = port.turns.now  # after the wait, and before the read
        panel.set_moment(now)
        panel.hear(b"".join(read), now)
        ended = take_reports(panel, door, now, lasts)
        begins = begins if ended is None else ended
        for _ in typed:
            tell("refused line")
        if begins is not None and begins <= now:
            while panel.withdraw(door):  # the door may be another one by the next session
                pass
            panel.begin(door, now)
            begins = None
        if panel.tick(now):
            port.write(panel.write(moment_for(panel)))


if __name__ == "__main__":
    main()
