#!/usr/bin/env python3
"""Tries the bounds in time of a bus on random runs of a model, which is written from the rules and shares no code with the machines.

Each run has its own settings, a program that ticks up to `late` ms late, and a line that answers as it likes. The worst that is measured of each
bound stands beside it: none may lie above, and what is said to be reached is reached. A bound with a part left out, or without one of its
premises, is broken by some run: so the runs can fail.

Where a POLL comes between any two orders, as in every panel, orders are held back until it has gone out, and an order and a card have bounds of their own. The other bounds
of an order and a card are those of a bus whose settings leave that POLL out.

    times.py [SEED] [RUNS]"""
import random
import sys

CLOSED, QUIET, IDLE, WAITING, PAUSING = "closed", "quiet", "idle", "waiting", "pausing"
OPENING, POLLING, ORDER = "opening", "polling", "order"
PLAIN, BUSY, DAMAGED, REFUSED, OTHER = "plain", "busy", "damaged", "refused", "other"


class Settings:
    """The settings of a line, its entries, and how late its program is."""

    def __init__(self, pick):
        self.entries = pick.choice([1, 1, 2, 2, 3, 4])
        self.reply_wait = pick.randint(1, 7)
        self.poll_interval = pick.randint(1, 9)
        self.sends = pick.randint(1, 3)
        self.busy_wait = pick.choice([1, 2, 3, 6, 30])
        self.busy_limit = pick.randint(0, 2)
        self.quiet_wait = pick.randint(1, 9)
        self.gap = pick.randint(1, 4)
        self.late = pick.choice([0, 0, 1, 2, 3])

    def round_time(self):
        return self.sends * (self.reply_wait + self.late)

    def longest_exchange(self):
        return self.round_time() + self.busy_limit * (self.busy_wait + self.late + self.round_time())


class Entry:
    """One controller of the bus, and the reader that it asks."""

    def __init__(self):
        self.state, self.until, self.sends, self.busies, self.kind = CLOSED, 0, 0, 0, None
        self.waiting = []
        self.events, self.offered = [], False


class Bus:
    """A bus whose entries take turns. What happens to an entry is told to `told`, by a name and the moment."""

    def __init__(self, settings, told):
        self.set, self.told = settings, told
        self.entries = [Entry() for _ in range(settings.entries)]
        self.first, self.report, self.held, self.last = 0, False, [], 0
        self.fair = True

    def holder(self):
        for at, entry in enumerate(self.entries):
            if entry.state in (WAITING, PAUSING):
                return at
        return None

    @staticmethod
    def is_due(entry, now):
        if entry.state == CLOSED:
            return False
        if entry.state == IDLE and entry.waiting:
            return True
        return entry.until <= now

    def next_due(self, now):
        count = len(self.entries)
        start = self.first if self.fair else 0
        for step in range(count):
            if self.is_due(self.entries[(start + step) % count], now):
                return (start + step) % count
        return None

    def is_silent(self, now):
        return bool(self.held) and self.last + self.set.gap <= now

    def does_something(self, now):
        """A tick at this moment would do something, or a report waits."""
        if self.report or self.is_silent(now):
            return True
        holder = self.holder()
        if holder is None:
            return self.next_due(now) is not None or bool(self.held)
        return self.is_due(self.entries[holder], now)

    def rest(self, at, now):
        self.entries[at].state, self.entries[at].until = IDLE, now + self.set.poll_interval

    def end(self, at, now):
        self.entries[at].state, self.report = CLOSED, True
        self.told("ended", at, now)

    def hear(self, at, answer, now):
        entry = self.entries[at]
        if entry.state not in (WAITING, PAUSING) or answer == OTHER:
            return
        if answer == BUSY:
            if entry.state == PAUSING:
                return
            self.told("busy", at, now)
            if entry.busies + 1 > self.set.busy_limit:
                self.end(at, now)
            else:
                entry.busies += 1
                entry.state, entry.until = PAUSING, now + self.set.busy_wait
        elif answer == DAMAGED:
            if entry.state == WAITING:
                entry.until = now
                self.told("damaged", at, now)
        elif answer == REFUSED:
            self.told("refused", at, now)
            self.end(at, now)
        else:
            kind, card = entry.kind, answer[1] if isinstance(answer, tuple) else None
            self.rest(at, now)
            self.report = self.report or kind != POLLING or card is not None
            self.told("answered", at, now, kind, card)

    def end_run(self, now):
        held, self.held = self.held, []
        for at, answer in held:
            self.hear(at, answer, now)

    def bytes_come(self, items, held, now):
        """Items that are decided at once, and then items whose bytes are held."""
        if self.is_silent(now):
            self.end_run(now)
        if not self.held:
            for at, answer in items:
                self.hear(at, answer, now)
        else:
            held = items + held
        self.held += held
        self.last = now

    def send(self, at, sends, now):
        entry = self.entries[at]
        entry.state, entry.sends, entry.until = WAITING, sends, now + self.set.reply_wait
        self.first = at + 1
        self.told("sent", at, now, entry.kind)

    def begin_exchange(self, at, now):
        entry = self.entries[at]
        entry.busies, order = 0, None
        if entry.state == QUIET:
            entry.kind = OPENING
        elif entry.waiting:
            entry.kind, order = ORDER, entry.waiting.pop(0)
        else:
            entry.kind = POLLING
        self.told("began", at, now, entry.kind, order)
        self.send(at, 1, now)

    def go_on(self, at, now):
        entry = self.entries[at]
        self.first = at + 1
        if entry.state == PAUSING:
            self.send(at, 1, now)
        elif entry.sends < self.set.sends:
            self.send(at, entry.sends + 1, now)
        else:
            self.end(at, now)

    def tick(self, now):
        if self.report:
            return
        if self.is_silent(now):
            self.end_run(now)
        holder = self.holder()
        if holder is None:
            self.end_run(now)
            at = None if self.report else self.next_due(now)
            if at is not None:
                self.begin_exchange(at, now)
        elif self.is_due(self.entries[holder], now):
            self.end_run(now)
            entry = self.entries[holder]
            if not self.report and entry.state in (WAITING, PAUSING) and self.is_due(entry, now):
                self.go_on(holder, now)


class Run:
    """A run of a bus: its program, its line, and what is measured of it."""

    def __init__(self, pick, measured, hostile, off, between=False):
        self.pick, self.measured, self.hostile, self.off, self.between = pick, measured, hostile, off, between
        self.set = Settings(pick)
        # the orders of each entry that are held back, and whether the next one may go to the bus at once
        self.held, self.may_go = [[] for _ in range(self.set.entries)], [True] * self.set.entries
        self.bus = Bus(self.set, self.told)
        self.bus.fair = "fair turns" not in off
        self.duty, self.now = None, 0
        self.exchange = None            # the moment of its first packet, whether a BUSY was read, and the entry
        self.orders, self.openings, self.cards, self.silent = [], {}, [], {}
        self.sleepy = pick.choice([0, 0, 3, 10])     # how often the program is less late than it may be
        self.answering = pick.randint(1, 12)         # how often an answer comes
        self.moods = [pick.choice([[BUSY], [PLAIN], [BUSY, DAMAGED, PLAIN], [PLAIN, BUSY, BUSY, BUSY], [DAMAGED], [OTHER, PLAIN, REFUSED], [PLAIN] * 6 + [None], [None]])
                      for _ in range(self.set.entries)]
        self.dead = [None] * self.set.entries        # from when on a device is silent
        self.read_in = pick.randint(0, max(0, self.set.reply_wait - 1))
        self.due_answers = []
        # on a good line the first of several devices may fall silent for ever
        self.dying = None
        if not hostile and self.set.entries > 1 and pick.random() < 0.5:
            self.dying = pick.randint(20, 200)
        # every device answers BUSY as often as it may, and then with its answer, each time as late as it can
        self.slowest = hostile and pick.random() < 0.3
        if self.slowest:
            self.sleepy = 0

    def note(self, name, took, bound, what, **wrong):
        """So long was taken, and so long may be; the rest: bounds with a part left out, which some run breaks."""
        self.measured.note(name, took, bound, what, self.set)
        for part, shorter in wrong.items():
            self.measured.wrong.setdefault(f"{name}: {part.replace('_', ' ')}", False)
            if took > shorter:
                self.measured.wrong[f"{name}: {part.replace('_', ' ')}"] = True

    def all_of(self):
        """A turn of each entry, where all answer in time but the one that may fall silent, and each has a late tick."""
        s, answered = self.set, self.read_in + self.set.late
        return s.entries * answered if self.dying is None else (s.entries - 1) * answered + s.round_time() + s.late

    def let_go(self, at):
        """Where none waits in the bus the next order of an entry goes to it."""
        if self.between and not self.bus.entries[at].waiting:
            self.may_go[at] = not self.held[at]
            if self.held[at]:
                self.bus.entries[at].waiting.append(self.held[at].pop(0))

    def orders_of(self, at):
        return len(self.bus.entries[at].waiting) + len(self.held[at])

    def on_good(self):
        return " on a good line" if self.dying is None else " beside a silent device"

    # What a program and a reader see of the bus.
    def told(self, name, at, now, kind=None, more=None):
        getattr(self, "on_" + name)(at, now, kind, more)

    def on_began(self, at, now, kind, order):
        self.exchange = [now, 0, at]
        if kind == OPENING and at in self.openings:
            begun, _ = self.openings.pop(at)
            s = self.set
            others = (s.entries - 1) * (s.longest_exchange() + s.late)
            self.note("opening", now - begun, s.quiet_wait + s.late + others, None, without_the_quiet=s.late + others,
                      without_the_others=s.quiet_wait + s.late, with_no_late_tick=s.quiet_wait + others)
        for one in [one for one in self.orders if one[0] == order]:
            self.orders.remove(one)
            _, _, accepted, before = one
            x = self.set.longest_exchange() + self.set.late
            entries = self.set.entries
            if self.between:
                poll = self.set.poll_interval
                self.note("order among POLLs", now - accepted, (before + 1) * (poll + 2 * entries * x), before, without_the_polls=(before + 1) * entries * x,
                          without_their_interval=(before + 1) * 2 * entries * x, without_those_before=poll + 2 * entries * x)
                if not self.hostile:
                    self.note("order among POLLs" + self.on_good(), now - accepted, (before + 1) * (poll + 2 * self.all_of()), before)
                continue
            if not self.hostile:
                self.note("order" + self.on_good(), now - accepted, (before + 1) * self.all_of(), before,
                          without_a_turn=(before + 1) * (self.all_of() - self.read_in - self.set.late))
            self.note("order", now - accepted, (before + 1) * entries * x, before, of_one_entry_less=(before + 1) * (entries - 1) * x,
                      without_those_before=entries * x)

    def on_sent(self, at, now, kind, _):
        entry = self.bus.entries[at]
        if kind == POLLING:
            self.let_go(at)
        if self.hostile:
            self.due_answers = []
            return
        # a reader that is well takes the packet at once, and its answer is read within so many ms
        if entry.offered and entry.sends == 1:
            entry.events.pop(0)
            entry.offered = False
        answer = (PLAIN, None)
        if kind == POLLING and entry.events:
            answer, entry.offered = (PLAIN, entry.events[0]), True
        slow = self.read_in if self.pick.random() < 0.7 else self.pick.randint(0, self.read_in)
        if "answers in time" in self.off:
            slow = min(self.set.reply_wait - 1, slow + self.pick.randint(0, 4))
        self.due_answers = [(now + slow, at, answer)]
        if "nobody is busy" in self.off and self.pick.random() < 0.3:
            self.due_answers = [(now + slow, at, BUSY)]

    def on_busy(self, at, now, *_):
        self.exchange[1] += 1
        self.silent.pop(at, None)
        if "an answer that is no BUSY" in self.off:
            self.silent[at] = now

    def on_damaged(self, at, now, *_):
        self.silent.pop(at, None)
        if "an answer that is no BUSY" in self.off:
            self.silent[at] = now

    def on_refused(self, at, *_):
        self.silent.pop(at, None)

    def exchange_ended(self, at, now):
        begun, busies, _ = self.exchange
        self.exchange = None
        s = self.set
        self.note("exchange", now - begun, s.longest_exchange(), None, without_busy=s.round_time(),
                  with_no_late_tick=s.sends * s.reply_wait * (1 + s.busy_limit) + s.busy_limit * s.busy_wait)
        if not busies:
            self.note("exchange without BUSY", now - begun, self.set.round_time(), None)

    def on_answered(self, at, now, kind, card):
        self.exchange_ended(at, now)
        self.silent[at] = now
        for one in [one for one in self.cards if one[0] == card]:
            self.cards.remove(one)
            _, _, queued, events, orders = one
            s, a = self.set, self.read_in
            cycle = s.poll_interval + self.all_of()
            if self.between:
                wrong = {} if self.dying is not None else dict(without_an_order=(2 * events + 1) * cycle + a, of_one_order_in_all=(events + 2) * cycle + a)
                self.note("card among orders" + self.on_good(), now - queued, (2 * events + 2) * cycle + a, (events, orders), **wrong)
                continue
            self.note("card" + self.on_good(), now - queued, (events + orders + 1) * cycle + a, (events, orders), without_its_last_answer=(events + orders + 1) * cycle,
                      without_the_events_before=(orders + 1) * cycle + a, without_the_orders=(events + 1) * cycle + a,
                      of_one_entry_less=(events + orders + 1) * (cycle - a - s.late) + a)

    def on_ended(self, at, now, *_):
        if self.exchange and self.exchange[2] == at:
            self.exchange_ended(at, now)
        self.orders = [one for one in self.orders if one[1] != at]
        self.cards = [one for one in self.cards if one[1] != at]
        if self.bus.entries[at].kind == OPENING:
            self.silent.pop(at, None)

    # What the program, the readers and the line do.
    def settle(self, now):
        """The report that waits is taken: an end that it tells is told now."""
        self.bus.report = False
        for at, answered in list(self.silent.items()):
            if self.bus.entries[at].state == CLOSED:
                s = self.set
                bound = s.poll_interval + s.late + (s.entries - 1) * (s.longest_exchange() + s.late) + s.round_time() + s.late
                if not self.hostile:
                    others = (s.entries - 1) * (self.read_in + s.late)
                    alone = s.poll_interval + s.late + s.round_time() + s.late
                    self.note("silence on a good line", now - answered, alone + others, None, without_the_others=alone)
                self.note("silence", now - answered, bound, None, without_the_poll=bound - s.poll_interval,
                          without_the_others=bound - (s.entries - 1) * (s.longest_exchange() + s.late))
                del self.silent[at]

    def may_be_late(self):
        """How late the program is in this duty."""
        late = self.set.late
        if "ticks in time" in self.off:
            late += self.pick.randint(0, 3)
        return late if self.pick.random() * 10 >= self.sleepy else self.pick.randint(0, late)

    def program_ticks(self, now):
        """A duty begins at the first moment at which a tick would do something or a report waits, and is done so late at the most."""
        for _ in range(50):
            if not self.bus.does_something(now):
                self.duty = None
                return
            if "the first such moment" in self.off and self.duty and self.duty[2] != self.deadline():
                self.duty = None
            if self.duty is None:
                self.duty = (now, now + self.may_be_late(), self.deadline())
            if now < self.duty[1]:
                return
            if self.bus.report:
                self.settle(now)
            self.bus.tick(now)
            self.duty = None

    def deadline(self):
        holder = self.bus.holder()
        return None if holder is None else self.bus.entries[holder].until

    def program_orders(self, now):
        for at, entry in enumerate(self.bus.entries):
            if entry.state == CLOSED and self.pick.random() < 0.1:
                entry.state, entry.until = QUIET, now + self.set.quiet_wait
                self.openings[at] = (now, None)
                self.let_go(at)
            if self.orders_of(at) < 3 and self.pick.random() < self.busyness[at]:
                number = object()
                if entry.state in (IDLE, WAITING, PAUSING):
                    self.orders.append((number, at, now, self.orders_of(at)))
                for card in self.cards:
                    if card[1] == at and "orders are counted" not in self.off:
                        card[4] += 1
                if self.between and not self.may_go[at]:
                    self.held[at].append(number)
                else:
                    self.may_go[at] = False
                    entry.waiting.append(number)

    def readers_queue(self, now):
        for at, entry in enumerate(self.bus.entries):
            if entry.state == CLOSED or entry.kind == OPENING and entry.state != IDLE or entry.state == QUIET:
                continue
            if len(entry.events) < 3 and self.pick.random() < 0.15:
                card = object()
                # an offered front leaves with the next packet, so it costs no POLL
                self.cards.append([card, at, now, len(entry.events) - entry.offered, 0 if "orders are counted" in self.off else self.orders_of(at)])
                entry.events.append(card)

    def line_answers(self, now):
        holder = self.bus.holder()
        if not self.hostile:
            if self.dying is not None and self.dying <= now:
                self.due_answers = [one for one in self.due_answers if one[1] != 0]
            for _, at, answer in [one for one in self.due_answers if one[0] <= now]:
                self.bus.bytes_come([(at, answer)], [], now)
            self.due_answers = [one for one in self.due_answers if one[0] > now]
            return
        if holder is None or (self.dead[holder] is not None and self.dead[holder] <= now):
            if self.pick.random() < 0.02:
                self.bus.bytes_come([], [(0, OTHER)], now)
            return
        entry = self.bus.entries[holder]
        if self.slowest:
            if entry.state == WAITING and entry.sends == self.set.sends and now == entry.until + self.set.late:
                self.bus.bytes_come([(holder, BUSY if entry.busies < self.set.busy_limit else PLAIN)], [], now)
            return
        at_the_end = entry.until - 1 <= now + self.set.late
        if self.pick.random() * 12 < (self.answering if at_the_end else 1):
            answer = self.pick.choice(self.moods[holder])
            if answer is not None:
                item = [(holder, answer)]
                self.bus.bytes_come(*((item, []) if self.pick.random() < 0.7 else ([], item)), now)

    def go(self, steps):
        self.busyness = [self.pick.choice([0, 0.02, 0.5]) for _ in range(self.set.entries)]
        for now in range(steps):
            self.now = now
            for at in range(self.set.entries):
                if self.hostile and not self.slowest and self.dead[at] is None and self.pick.random() < 0.01:
                    self.dead[at] = now
                elif self.dead[at] is not None and self.pick.random() < 0.01:
                    self.dead[at] = None
            if not self.slowest and self.pick.random() < 0.5:
                self.program_ticks(now)
            self.line_answers(now)
            self.program_orders(now)
            if not self.hostile:
                self.readers_queue(now)
            self.program_ticks(now)
            while not self.hostile and any(one[0] <= now for one in self.due_answers):
                self.line_answers(now)
                self.program_ticks(now)


class Measured:
    """The worst of each bound: how often it was tried, how near it came, and what lay above it."""

    def __init__(self):
        self.tried, self.reached, self.worst, self.above, self.wrong = {}, {}, {}, {}, {}

    def note(self, name, took, bound, what, settings):
        self.tried[name] = self.tried.get(name, 0) + 1
        if took == bound:
            self.reached[name] = self.reached.get(name, 0) + 1
        if bound and (took / bound, took) > self.worst.get(name, (-1, 0, 0)):
            self.worst[name] = (took / bound, took, bound)
        if took > bound and name not in self.above:
            self.above[name] = (took, bound, what, vars(settings))


def runs(seed, most, hostile, off=(), name=None, between=False):
    """So many runs at most: fewer where this bound is broken by one."""
    measured = Measured()
    for number in range(most):
        if off and name in measured.above:
            break
        Run(random.Random(f"{seed} {number} {hostile}"), measured, hostile, off, between).go(400)
    return measured


def main():
    seed = sys.argv[1] if len(sys.argv) > 1 else "1"
    most = int(sys.argv[2]) if len(sys.argv) > 2 else 2000
    failed = False
    for hostile, between in ((True, False), (False, False), (True, True), (False, True)):
        measured = runs(seed, most // 2 if between else most, hostile, between=between)
        if between:
            names = ["order among POLLs"] + ([] if hostile else ["card among orders on a good line", "card among orders beside a silent device",
                                                                 "order among POLLs on a good line", "order among POLLs beside a silent device"])
        else:
            names = ["exchange", "exchange without BUSY", "order", "opening", "silence"] if hostile else \
                ["order on a good line", "order beside a silent device", "card on a good line", "card beside a silent device", "silence on a good line"]
        for name in names:
            _, took, bound = measured.worst.get(name, (0, 0, 0))
            print(f"times: {name}: {measured.tried.get(name, 0)} tried, at worst {took} ms of {bound}, "
                  f"reached {measured.reached.get(name, 0)} times")
            failed |= not measured.tried.get(name)
        for form, broken in sorted(measured.wrong.items()):
            if form.split(":")[0] in names and not broken:
                print(f"times: {form}: no run breaks this, so it says no less than the bound")
                failed = True
        for name in measured.above:
            took, bound, what, settings = measured.above[name]
            print(f"times: {name}: took {took} ms, above its bound of {bound}: {what} {settings}")
            failed = True
    for off, hostile, name in PREMISES:
        measured = runs(seed, most, hostile, (off,), name)
        if name not in measured.above:
            print(f"times: {name} keeps its bound without its premise ({off}), so nothing was tried")
            failed = True
        else:
            took, bound, _, _ = measured.above[name]
            print(f"times: without its premise ({off}) {name} took {took} ms, above {bound}")
    sys.exit(failed)


PREMISES = [("ticks in time", True, "exchange"), ("ticks in time", True, "order"), ("the first such moment", True, "exchange"),
            ("fair turns", True, "order"), ("an answer that is no BUSY", True, "silence"), ("answers in time", False, "card on a good line"),
            ("nobody is busy", False, "card on a good line"), ("orders are counted", False, "card on a good line")]

if __name__ == "__main__":
    main()
