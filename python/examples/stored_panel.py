#!/usr/bin/env python3
"""A panel that stores its orders and its reports: stored_panel.py [--new] [--retain N] [--late MS] STORE PORT RATE. The door is the device at address 5, or where STORE
has it, which two cards open. `--new` makes STORE. It keeps N ended orders and N handled events, 1000 if not said, beside all others.

Each line is an order, such as `OUT 1:2:0`. It is stored before it is given, and each report before it is acted on, both in the transaction of their turn, which ends before
the packet of that turn goes out. So the program may be ended at any moment, also by a loss of power: when it starts again it tells which orders are in doubt, makes no
second order for a card, and acts on no order twice. `again:` stands before what it tells then, and may have told already. After a COMSET it looks for the door at both places.
Another device in the door's place gets no order.

An order goes out within MS milliseconds, 5000 if not said, after it was typed or its card was asked for, however long the program stood still or the disk took. Where it
waited for longer it is told as `back`, since it never went out; where it may have gone out it is in doubt. Where STORE can't be written the program ends with status 3, and
nothing of that turn has happened.

It stands beside the folder `examples`, of which it takes the port. It needs the package osdp on PYTHONPATH, or the folder above this one."""
import math
import sys
from pathlib import Path

HERE = Path(__file__).resolve().parent
sys.path[:0] = [str(HERE.parent), str(HERE.parent.parent / "examples")]

try:
    import osdp  # noqa: E402, F401
except ImportError as error:
    sys.exit(str(error))
from lines import BAD_WORDS, Lines, number, stop, take_words  # noqa: E402
from moments import Turns, moment  # noqa: E402
from port import Port  # noqa: E402
from store import Store, StoreError  # noqa: E402
from stored_door import Door  # noqa: E402

OPTIONS = {"--new": False, "--retain": None}


def turn(door, port, lines):
    """Waits for what comes next, and does all of it. What of it is to last is on the disk before the packet goes out."""
    due, since = door.due(), lines.since()
    read, typed = port.wait(lines, None if due is None else max(due - moment(), 0) / 1000)
    now = port.turns.now  # after the wait, and before the read
    door.begins_turn()
    door.panel.set_moment(now)
    door.panel.hear(b"".join(read), now)
    door.take_reports(now)
    for line in typed:
        door.take_line(line.strip(), since + door.lasts)
    door.begin(now)
    sends = door.panel.tick(now)
    door.ends_turn()  # before the packet goes out: by that the device may forget an event
    if sends:
        door.write()


def main():
    path, where, rate, *more = take_words(__doc__, 3, OPTIONS)
    if more:
        stop("bad words: --help tells the right ones", BAD_WORDS)
    retain = None if OPTIONS["--retain"] is None else number(OPTIONS["--retain"], "--retain")
    port, lines = Port(where, number(rate, "rate")), Lines()
    lasts, Turns.late = Turns.late, math.inf  # the panel itself keeps orders from going out late
    try:
        store = Store(path, "panel", OPTIONS["--new"])
        if retain is not None:
            store.retain(retain)
        door = Door(store, port, port.rate, lasts)
        while True:
            turn(door, port, lines)
    except StoreError as error:
        stop(str(error))


if __name__ == "__main__":
    main()
