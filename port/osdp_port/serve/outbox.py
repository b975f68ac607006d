"""What the broker hasn't got: outcomes and events go out until it confirms them, also over connections and
restarts."""
from collections import deque

WINDOW = 10  # of them are on their way at a time


class Outbox:
    """What is to go out, in its order. `publishes(item, told)` publishes one; `told` is called once the broker
    has it."""

    def __init__(self, publishes):
        self.publishes = publishes
        self.waiting, self.sent = deque(), []

    def adds(self, item):
        """An item is to go out. One that waits already isn't added twice."""
        if item not in self.waiting:
            self.waiting.append(item)

    def again(self):
        """The connection is a new one: what wasn't confirmed goes out anew, before the others."""
        self.waiting.extendleft(reversed([item for item in self.sent if item not in self.waiting]))
        self.sent = []

    def goes_out(self):
        while self.waiting and len(self.sent) < WINDOW:
            item = self.waiting.popleft()
            self.sent.append(item)
            self.publishes(item, lambda item=item: self.confirmed(item))

    def confirmed(self, item):
        if item in self.sent:
            self.sent.remove(item)
