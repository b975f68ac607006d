"""A panel's only door, of which a store has all: where it is, what it is, its orders and its events. A turn is one transaction: `ends_turn` stores what has happened, and then
tells it. What was told for sure is noted with the next transaction; so what was told last before the program ended is told once more at its next start, after `again:`.

Orders have the numbers of the panel, which go on where the store ends. The question after the state has one too, and isn't stored, since it may be asked twice."""
import osdp
from lines import tell
from moments import moment
from store import moment as date

NAME = 5  # the address at which the door was first: the store names it so
CARDS = (bytes.fromhex("12345640"), bytes.fromhex("65432180"))
STRIKE = "OUT 0:5:30"  # output 0, on for three seconds
ASK = "OSTAT"  # asks for the state of the outputs
PAUSE = 1000  # from a session that was lost to the next one, in milliseconds
COMSET, NAK, COM = 0x6E, 0x41, 0x54


def may_enter(card):
    """Whether a card opens the door: two cards of 26 bits do."""
    return card.bits == 26 and card.data in CARDS


def told(state, answer):
    """What became of an order, as it is told."""
    return {"settled": f"settled {answer}", "refused": f"refused ({answer})"}.get(state, state)


def place_of(message):
    """The address and the rate that a COMSET or a COM has."""
    return message.data[0], int.from_bytes(message.data[1:5], "little")


class Door:
    """The panel with its door. An order lasts so many milliseconds."""

    def __init__(self, store, port, rate, lasts):
        self.store, self.port, self.lasts, self.said = store, port, lasts, []
        self.places, self.identity = store.devices().get(NAME, ([(NAME, rate)], None))  # the first place is where it was tried last
        self.panel = osdp.Panel()
        self.entry, self.begins = self.panel.add(self.places[0][0], store.next_order(NAME)), 0
        self.asked = None  # the number of the question after the state, while the panel has one
        self.is_left = False  # whether nothing is sent to the device, so that its session ends
        self.is_new = True  # since the start no event was reported
        self.other = None  # another device than the door, and where it answered
        self.doubts, self.is_heard = {}, False  # orders in doubt, and whether their user has heard all that can be known
        for number, text, state, answer in store.untold_orders(NAME):
            self.said.append(f"again: {told(state, answer)} {number} {text}")
        self.said += [f"again: event {text}" for text in store.new_events(NAME)]
        for number, _ in store.open_orders(NAME):  # it waited, was on its way, or was done: nobody knows
            self.doubt(number)
        self.keep()
        self.ends_turn()

    # the turn's transaction

    def ends_turn(self):
        """The disk has all of this turn; then it is told."""
        self.store.commit()
        for line in self.said:
            tell(line)
        if self.said:
            self.store.tells(NAME)
        self.said = []

    def keep(self):
        self.store.keep({NAME: (self.places, self.identity)})

    def begins_turn(self):
        """Once the user has heard the state, what was in doubt is noted: not before it, so that a loss of power in between leaves it to be told again."""
        for number in self.doubts if self.is_heard else ():
            self.store.ends(NAME, number, "doubt", is_told=True)
        if self.is_heard:
            self.doubts, self.is_heard = {}, False

    # orders

    def text(self, number):
        return self.store.value("SELECT text FROM orders WHERE device = ? AND number = ?", NAME, number)

    def doubt(self, number):
        self.doubts[number] = True
        self.said.append(f"doubt {number} {self.text(number)}")

    def ends(self, number, state, answer=None):
        """What became of an order."""
        self.store.ends(NAME, number, state, answer)
        self.said.append(f"{told(state, answer)} {number} {self.text(number)}")

    def order(self, text, until):
        """Gives an order that may go out until a moment, and stores it with the turn. Whether the panel has taken it."""
        number = self.panel.next_number(self.entry)
        self.store.gives(NAME, number, text, date() + until - moment())
        try:
            self.panel.submit(self.entry, text, until)
        except osdp.OsdpError as error:
            self.store.forgets(NAME, number)
            self.said.append(f"refused ({error}) {text}")
            return False
        self.said.append(f"order {number} {text}")
        return True

    def comset(self, text, until):
        """Gives a COMSET. Where it leads is stored with it, before it goes out. Whether it was taken."""
        try:
            place = tuple(map(int, text.split()[1:]))
        except ValueError:
            return False
        if len(place) != 2 or len(self.places) > 1 or self.begins is not None or self.is_left or not self.port.can_have(place[1]):
            return False
        if self.order(text, until):
            self.places.append(place)
            self.keep()
        return True

    def take_line(self, line, until):
        """Does what a line says, if that goes out by a moment."""
        name = line.split(" ")[0]
        if name in ("", ASK) or (name == "COMSET" and not self.comset(line, until)):
            self.said.append("refused line")
        elif name != "COMSET":
            self.order(line, until)

    def ask(self):
        """Asks for the state of the outputs, before anybody gives an order in doubt again."""
        if self.doubts and self.asked is None:
            try:
                self.asked = self.panel.submit(self.entry, ASK)
            except osdp.OsdpError:
                pass  # as many orders wait as may: the next session asks

    # reports

    def ended(self, number, state, answer=None):
        """An order is over, or the question after the state."""
        if number != self.asked:
            self.doubt(number) if state == "doubt" else self.ends(number, state, answer)
            return
        self.asked = None
        if answer is not None:
            self.said.append(f"state {answer}")
            self.is_heard = True

    def settled(self, report):
        self.ended(report.number, "settled", str(report.reply))
        if report.command.code == COMSET:
            self.stands(self.places[0]) if report.reply.code == NAK else self.leaves()  # after another answer it is at either place

    def moved(self, report, now):
        self.ended(report.number, "settled", str(report.reply))
        address, rate = place_of(report.reply)
        if not self.port.can_have(rate):
            self.said.append(f"no rate {rate}")
            rate = self.places[0][1]
        self.stands((address, rate))
        self.closes(now, 0)

    def lost(self, report, now):
        if report.number is not None:
            self.ended(report.number, "doubt")
        self.closes(now, PAUSE)

    def closes(self, now, pause):
        """A session has ended. The orders that wait are taken back: the door may be elsewhere by the next one."""
        next_number = self.panel.next_number(self.entry)
        for number in range(next_number - self.panel.waiting(self.entry), next_number):
            self.back(number, self.panel.withdraw(self.entry))
        self.begins, self.is_left = now + pause, False

    def back(self, number, command):
        """An order was never sent, and never will be. A COMSET leads nowhere then."""
        self.ended(number, "back")
        if command.code == COMSET:
            self.stands(self.places[0])

    def stands(self, place):
        """The door is here, and nowhere else."""
        self.places = [place]
        self.keep()

    def opened(self, reply):
        """Another device than the door gets no order: its session is let end, and the door is looked for at its next place."""
        data, place = reply.data, self.places[0]
        identity = (data[:3].hex().upper(), data[3], int.from_bytes(data[5:9], "little"))
        if self.identity in (None, identity):
            self.identity, self.other = identity, None
            self.stands(place)
            self.said.append(f"opened {reply}")
            self.ask()
            return
        if self.other != (identity, place):
            self.said.append(f"another device at {place[0]}: it gets no order")
        self.other, self.is_left = (identity, place), True

    def event(self, report):
        """Stores an event, and opens the door for a card. One that may have been reported before makes no second order: the panel has marked it, or it is the
        first one since this program has started, and the last one that is stored. The order goes out in time for its card, or not at all."""
        text = str(report.reply)
        is_again = report.maybe_again or (self.is_new and text == self.store.last_event(NAME))
        self.is_new = False
        self.store.reports(NAME, text, is_again)
        self.said.append(f"{'maybe again' if is_again else 'event'} {text}")
        card = report.reply.card()
        if card and may_enter(card) and not is_again and not self.is_left:
            self.order(STRIKE, report.since + self.lasts)

    def unread(self, report):
        self.said.append(f"unread code {report.code:02X}")
        if report.number is not None:  # none where a POLL was answered so
            self.ended(report.number, "doubt")
        if report.command and report.command.code == COMSET:
            self.leaves()
        else:
            self.ask()

    def take_reports(self, now):
        for report in self.panel.reports():
            if report.kind is osdp.Kind.OPENED:
                self.opened(report.reply)
            elif report.kind is osdp.Kind.SETTLED:
                self.settled(report)
            elif report.kind is osdp.Kind.UNREAD:
                self.unread(report)
            elif report.kind is osdp.Kind.EVENT:
                self.event(report)
            elif report.kind is osdp.Kind.MOVED:
                self.moved(report, now)
            elif report.kind is osdp.Kind.LOST:
                self.lost(report, now)
            elif report.kind is osdp.Kind.EXPIRED:
                self.back(report.number, report.command)
            else:
                self.said.append(f"{report.kind.name.lower()} {report.reply or ''}".strip())

    # sessions and packets

    def leaves(self):
        """Nothing more is said to the device, until its session is lost: there is no call for it. What isn't written the line has lost."""
        self.is_left = self.is_left or self.begins is None

    def begin(self, now):
        """Begins the next session once it is due, at each place in turn."""
        if self.begins is not None and self.begins <= now:
            self.places = self.places[1:] + self.places[:1]
            address, rate = self.places[0]
            if not self.port.set_rate(rate):
                self.said.append(f"no rate {rate}")
            self.panel.retarget(self.entry, address)
            self.panel.begin(self.entry, now)
            self.begins = None

    def due(self):
        """The moment at which something is to be done; none where nothing is."""
        return min((each for each in (self.panel.next_deadline(), self.begins) if each is not None), default=None)

    def write(self):
        """Writes the packet of the tick, at the moment that it is now, but not to a door that is left: where the disk took long an order may be too late."""
        now = moment()
        self.panel.set_moment(now)
        burst = self.panel.write(now)
        if not self.is_left:
            self.port.write(burst)
