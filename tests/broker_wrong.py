"""The service of a line with one of its rules left out: `broker_wrong.py dedupe|expiry|store|moment WORDS..`, where WORDS are those of osdp-port. `broker.py --wrong` has to find it.

- `dedupe`: a key that is known is an order once more.
- `expiry`: an order may go out for ever.
- `store`: an order is submitted, and acknowledged, long before it is stored.
- `moment`: the moment of a packet is that of its turn, however long that took to be stored."""
import os
import sys
import time
from pathlib import Path

TOP = Path(__file__).resolve().parent.parent
sys.path.insert(0, str(TOP / "port"))
sys.dont_write_bytecode = True

from osdp_port import panel  # noqa: E402
from osdp_port.main import main  # noqa: E402
from osdp_port.serve import ledger, orders  # noqa: E402

STORED_LATER = 600.0  # seconds


def without_dedupe():
    takes = orders.Orders.takes

    def again(self, entry, key, text, expiry, fresh, until=None):
        stored = self.ledger.key(key)
        if stored is not None and stored.outcome is not None:
            self.ledger.store.write("DELETE FROM broker_keys WHERE key = ?", key)
        takes(self, entry, key, text, expiry, fresh, until)
    orders.Orders.takes = again
    ledger.Ledger.tells_key = lambda *_: None  # an outcome of before is none of the order that came again


def without_expiry():
    made = orders.Waiting.__init__

    def endless(self, text, key=None, until=None):
        made(self, text, key, None if until is None else until + 10 ** 9)
    orders.Waiting.__init__ = endless


def without_store():
    commits, last = ledger.Ledger.commit, [time.monotonic()]

    def later(self):
        if time.monotonic() > last[0] + STORED_LATER:
            commits(self)
            last[0] = time.monotonic()
    ledger.Ledger.commit = later


def without_moment():
    def writes(self):
        self.call("write")
    panel.Panel.writes = writes


if __name__ == "__main__":
    {"dedupe": without_dedupe, "expiry": without_expiry, "store": without_store, "moment": without_moment}[sys.argv[1]]()
    os.environ.pop("PYTHONPATH", None)
    sys.exit(main(sys.argv[2:]))
