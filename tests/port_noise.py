"""The line of `line.py`, which loses, damages and repeats bursts, with `osdp-port` at both ends: 200 orders and 200 events of three readers.

Takes the path of the program, and a seed. What `osdp-port` prints by address is read as the lines by number that `line.py` judges."""
import re
import sys
import time
from pathlib import Path

import line
from terminals import Numbered, Script

TOP = Path(__file__).resolve().parent.parent
NUMBERS = {str(address): str(number) for number, address in enumerate(line.ADDRESSES, 1)}
REFUSED = re.compile(r"not taken (\d+) (OUT [\d:]+): .*")
TOLD = re.compile(r"(waits|online|settled|withdrawn|event|maybe-again|lost|unread) (\d+) ?(.*)")
SAME = {"maybe-again": "event", "online": "opened", "waits": "ordered"}


class Panel(Numbered):
    """The panel, with orders and reports by number."""

    def say(self, order):
        number, _, text = order.partition(" ")
        super().say(f"{line.ADDRESSES[int(number) - 1]} {text}")

    def read(self):
        before = len(self.lines)
        super().read()
        self.lines[before:] = [each for told in self.lines[before:] for each in self.by_number(told)]

    @staticmethod
    def by_number(told):
        if refused := REFUSED.fullmatch(told):
            return [f"ordered {NUMBERS[refused[1]]} {refused[2]}", f"not taken {NUMBERS[refused[1]]} {refused[2]}"]
        if found := TOLD.fullmatch(told):
            return [f"{SAME.get(found[1], found[1])} {NUMBERS[found[2]]} {found[3].partition(' keys ')[0]}".rstrip()]
        return []  # the port, or advice


def main(osdp, seed="1"):
    begun, relay = time.monotonic(), line.Relay(seed)
    words = [TOP / "port/osdp-port", "--plain", "--osdp", osdp]
    readers = [Script(*words, terminal.path, 9600, "reader", address, "vendor", "53494D", "serial", address, "room", 256, "gap", 15)
               for terminal, address in zip(relay.readers, line.ADDRESSES)]
    panel = Panel(*words, relay.panel.path, 9600, "panel", ",".join(map(str, line.ADDRESSES)), *line.TIMES.split())
    try:
        line.run(relay, panel, readers, begun)
    finally:
        for script in [panel, *readers]:
            script.process.kill()
    told = line.accounts(panel, readers)
    for number, account in enumerate(told, 1):
        account.judge(number)
    issued, closed, queued = (sum(map(count, told)) for count in (lambda each: len(each.issued), lambda each: each.closed, lambda each: len(each.queued)))
    if (issued + closed, queued) != (line.ORDERS, line.EVENTS) or issued < line.ORDERS / 4:
        line.faults.append(f"{issued} orders, {closed} of them refused, and {queued} events")
    print(f"port noise: {issued} orders taken, {closed} refused, {queued} events, {sum(each.lost for each in told)} sessions lost; "
          f"{len(line.faults)} faults in {time.monotonic() - begun:.1f} s", *line.faults, sep="\n")
    return 1 if line.faults else 0


if __name__ == "__main__":
    sys.exit(main(*sys.argv[1:]))
