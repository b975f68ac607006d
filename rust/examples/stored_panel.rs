//! A panel that stores its orders and its reports: `stored_panel [--new] [--retain N] STORE PORT RATE`. The door is the device at address 5, or where STORE has it, which two
//! cards open. `--new` makes STORE. It keeps N ended orders and N handled events, 1000 if not said, beside all others.
//!
//! Each line is an order: `OUT 1:5:30` switches output 1 on for three seconds, and `COMSET 7 9600` gives the door another address and rate. It is stored before it is given, and
//! each report before it is acted on, both in the transaction of their turn, which ends before the packet of that turn goes out. So the program may be ended at any moment,
//! also by a loss of power: when it starts again it tells which orders are in doubt, makes no second order for a card, and acts on no order twice. `again:` stands before
//! what it tells then, and may have told already. Another device in the door's place gets no order. Where STORE can't be written the program ends, and nothing of that turn
//! has happened.
//!
//! Orders have the numbers of the panel, which go on where the store ends. The question after the state has one too, and isn't stored.
mod port;

use osdp::{Card, Command, Moment, Output, Panel, PanelConfig, PanelReport, Reply, Report, output};
use port::ledger::{End, Ledger};
use port::stand::{Id, Place, Stand, id_of, read_stands, stand_of, write_stand};
use port::store::Store;
use port::{Keeps, Port, RATES, run_on_port};
use std::io;
use std::process::ExitCode;
use std::time::Duration;

/// The address at which the door was first: the store names it so.
const NAME: u8 = 5;
/// How long it waits at most.
const TURN: Duration = Duration::from_millis(100);
/// From a session that was lost to the next one.
const PAUSE: Duration = Duration::from_secs(1);
const COMSET: u8 = 0x6E;
/// The door's strike, its output 0, on for three seconds.
const STRIKE: Output = Output {
    output: 0,
    control: output::ON_FOR_A_TIME,
    timer: 30,
};

/// Whether a card opens the door: two cards of 26 bits do.
fn may_enter(card: &Card) -> bool {
    let cards = [[0x12, 0x34, 0x56, 0x40], [0x65, 0x43, 0x21, 0x80]];
    card.bits() == 26 && cards.iter().any(|known| card.bytes() == known)
}

/// The text of a reply, as the other programs store it.
fn text_of(reply: &Reply) -> String {
    match reply.write() {
        Ok(raw) => raw.to_string(),
        Err(_) => format!("{reply:?}"), // the panel gives none that isn't one
    }
}

/// The OUT of one record that a text says: output, control and time, as `0:5:30`.
fn out_of(text: &str) -> Option<Command> {
    let (output, rest) = text.split_once(':')?;
    let (control, timer) = rest.split_once(':')?;
    Command::out(&[Output {
        output: output.parse().ok()?,
        control: control.parse().ok()?,
        timer: timer.parse().ok()?,
    }])
    .ok()
}

type Failure = Box<dyn std::error::Error>;
type Done = Result<(), Failure>;

struct Door {
    panel: Panel,
    entry: osdp::EntryNumber,
    ledger: Ledger,
    stands: Vec<Stand>,
    at: usize,
    /// The number of the question after the state, while the panel has one. It may be asked twice, so it isn't stored.
    asked: Option<u64>,
    /// When the next session begins; none while one goes on.
    begins: Option<Moment>,
    /// Whether nothing is sent to the device, so that its session ends.
    is_left: bool,
    /// Since the start no event was reported.
    is_new: bool,
    /// Another device than the door, and where it answered.
    other: Option<(Id, Place)>,
}

impl Door {
    fn open(port: &Port) -> Result<Door, Failure> {
        let options = &port.options;
        let path = options.kept.as_deref().unwrap_or_default();
        let mut store = Store::open(path, "panel", options.is_new)?;
        let mut stands = read_stands(&store)?;
        let at = stand_of(&mut stands, NAME, port.rate)?;
        write_stand(&mut store, &stands[at])?;
        let ledger = Ledger::open(store, NAME, options.retain)?;
        let mut panel = Panel::new(&PanelConfig::default())?;
        Ok(Door {
            entry: panel.add(stands[at].place().0, ledger.next_number()?)?,
            panel,
            ledger,
            stands,
            at,
            asked: None,
            begins: Some(port.now()),
            is_left: false,
            is_new: true,
            other: None,
        })
    }

    /// Nothing more is said to the device, until its session is lost: there is no call for it. What isn't written the line has lost.
    fn leave(&mut self) {
        self.is_left = self.is_left || self.begins.is_none();
    }

    fn keep(&mut self) -> io::Result<()> {
        write_stand(self.ledger.store(), &self.stands[self.at])
    }

    /// The door is here, and nowhere else.
    fn stands_at(&mut self, place: Place) -> io::Result<()> {
        self.stands[self.at].places = vec![place];
        self.keep()
    }

    /// Gives an order that may go out until a moment, and stores it with the turn. Whether the panel has taken it.
    fn order(&mut self, command: &Command, until: Moment, port: &Port) -> Result<bool, Failure> {
        let (number, text) = (self.panel.next_number(self.entry)?, command.to_string());
        self.ledger.gives(number, &text, until.since(port.now()))?;
        let taken = self.panel.submit(self.entry, command, until);
        match &taken {
            Ok(number) => self.ledger.say(format!("order {number} {text}")),
            Err(why) => {
                self.ledger.refused(number)?;
                self.ledger.say(format!("refused ({why}) {text}"));
            }
        }
        Ok(taken.is_ok())
    }

    /// Gives a COMSET. Where it leads is stored with it, before it goes out. Whether it was one that may be given.
    fn move_to(&mut self, place: Place, port: &Port, until: Moment) -> Result<bool, Failure> {
        let mine = &self.stands[self.at];
        let is_taken = self
            .stands
            .iter()
            .any(|other| other.name != mine.name && other.may_be_at(place.0));
        let may = mine.places.len() == 1 && self.begins.is_none() && !self.is_left && !is_taken;
        let Ok(comset) = Command::comset(place.0, place.1) else {
            return Ok(false);
        };
        if !may || !RATES.contains(&place.1) {
            return Ok(false);
        }
        if self.order(&comset, until, port)? {
            self.stands[self.at].places.insert(0, place);
            self.keep()?;
        }
        Ok(true)
    }

    /// Does what a line says, if that goes out by a moment. Whether it says an order.
    fn take_line(&mut self, line: &str, until: Moment, port: &Port) -> Result<bool, Failure> {
        match line.split_whitespace().collect::<Vec<_>>()[..] {
            ["COMSET", address, rate] => match (address.parse(), rate.parse()) {
                (Ok(address), Ok(rate)) => self.move_to((address, rate), port, until),
                _ => Ok(false),
            },
            ["OUT", record] => match out_of(record) {
                Some(command) => self.order(&command, until, port).map(|_| true),
                None => Ok(false),
            },
            _ => Ok(false),
        }
    }

    /// An order is over, or the question after the state. An order without an end is in doubt.
    fn ended(&mut self, number: u64, end: Option<End>, answer: Option<&Reply>) -> io::Result<()> {
        let answer = answer.map(text_of);
        if self.asked == Some(number) {
            self.asked = None;
            if let Some(answer) = answer {
                self.ledger.say(format!("state {answer}"));
                self.ledger.heard_all();
            }
            return Ok(());
        }
        match end {
            Some(end) => self.ledger.ends(number, end, answer),
            None => self.ledger.doubt(number),
        }
    }

    /// A session has ended. Those orders that wait are taken back: the door may be elsewhere by the next one.
    fn closes(&mut self, begins: Moment) -> Done {
        let waits = self.panel.waiting(self.entry)? as u64;
        let next = self.panel.next_number(self.entry)?;
        for number in next - waits..next {
            let command = self.panel.withdraw(self.entry)?;
            self.back(number, command.as_ref())?;
        }
        (self.begins, self.is_left) = (Some(begins), false);
        Ok(())
    }

    /// An order was never sent, and never will be. A COMSET leads nowhere then.
    fn back(&mut self, number: u64, command: Option<&Command>) -> io::Result<()> {
        if command.is_some_and(|command| command.code() == COMSET) {
            self.stands_at(self.stands[self.at].place())?;
        }
        self.ended(number, Some(End::Back), None)
    }

    /// Asks for the state of the outputs, before anybody gives an order in doubt again.
    fn ask(&mut self) {
        if self.ledger.has_doubts() && self.asked.is_none() {
            let asks = Command::output_status();
            let asked = self.panel.submit(self.entry, &asks, Moment::NEVER);
            self.asked = asked.ok();
        }
    }

    /// Another device than the door gets no order: its session is let end, and the door is looked for at its next place.
    fn opened(&mut self, id: Id) -> io::Result<()> {
        let mine = &mut self.stands[self.at];
        let place = mine.place();
        if mine.id.as_ref().is_none_or(|known| *known == id) {
            self.ledger
                .say(format!("opened {} {} {}", id.0, id.1, id.2));
            (mine.id, self.other) = (Some(id), None);
            self.stands_at(place)?;
            self.ask();
            return Ok(());
        }
        let other = Some((id, place));
        if self.other != other {
            self.ledger
                .say(format!("another device at {}: it gets no order", place.0));
        }
        (self.other, self.is_left) = (other, true);
        Ok(())
    }

    /// Stores an event, and opens the door for a card. One that may have been reported before makes no second order: the panel has marked it, or it is the first
    /// one since this program has started, and the last one that is stored. The order goes out in time for its card, or not at all.
    fn event(&mut self, event: &Reply, told: &PanelReport, port: &Port, since: Moment) -> Done {
        let text = text_of(event);
        let is_last = self.is_new && self.ledger.last_event()?.as_deref() == Some(&text);
        let is_again = told.maybe_again || is_last;
        self.is_new = false;
        self.ledger.reports(&text, is_again)?;
        let how = if is_again { "maybe again" } else { "event" };
        self.ledger.say(format!("{how} {text}"));
        match event {
            Reply::Raw(card) if may_enter(card) && !is_again && !self.is_left => {
                self.order(&Command::out(&[STRIKE])?, since + port.late(), port)?;
            }
            _ => {}
        }
        Ok(())
    }

    /// The answer to an order, or to a POLL, can't be read.
    fn unread(&mut self, number: Option<u64>, command: Option<&Command>, code: u8) -> Done {
        self.ledger.say(format!("unread code {code:02X}"));
        if let Some(number) = number {
            self.ended(number, None, None)?;
        }
        match command.map(Command::code) {
            Some(COMSET) => self.leave(),
            Some(_) | None => self.ask(),
        }
        Ok(())
    }

    fn take_report(&mut self, told: &PanelReport, port: &Port, now: Moment) -> Done {
        match (&told.report, told.number, told.since) {
            (Report::Opened(id), ..) => self.opened(id_of(id))?,
            (Report::Settled(command, reply), Some(number), _) => {
                self.ended(number, Some(End::Settled), Some(reply))?;
                match (command.code(), reply) {
                    (COMSET, Reply::Nak(_)) => self.stands_at(self.stands[self.at].place())?,
                    (COMSET, _) => self.leave(), // it is at either place
                    _ => {}
                }
            }
            (Report::Moved(_, reply), Some(number), _) => {
                self.ended(number, Some(End::Settled), Some(reply))?;
                if let Reply::Com(address, rate) = reply {
                    self.stands_at((*address, *rate))?;
                }
                self.closes(now)?;
            }
            (Report::Event(event), _, Some(since)) => self.event(event, told, port, since)?,
            (Report::Lost(..), number, _) => {
                if let Some(number) = number {
                    self.ended(number, None, None)?;
                }
                self.closes(now + PAUSE)?;
            }
            (Report::Unread { code, command }, number, _) => {
                self.unread(number, command.as_ref(), *code)?;
            }
            (Report::Expired(command), Some(number), _) => self.back(number, Some(command))?,
            _ => {}
        }
        Ok(())
    }

    fn take_reports(&mut self, port: &Port, now: Moment) -> Done {
        while let Some(told) = self.panel.next_report() {
            self.take_report(&told, port, now)?;
        }
        Ok(())
    }

    /// Begins the next session once it is due, at each place in turn.
    fn begin(&mut self, port: &mut Port, now: Moment) -> Done {
        if self.begins.is_some_and(|begins| begins <= now) {
            let places = &mut self.stands[self.at].places;
            places.rotate_left(1);
            let (address, rate) = places[places.len() - 1];
            if port.set_rate(rate).is_err() {
                self.ledger.say(format!("no rate {rate}"));
            }
            self.panel.retarget(self.entry, address)?;
            self.panel.begin(self.entry, now)?;
            self.begins = None;
        }
        Ok(())
    }

    /// When something is to be done, or the next turn begins at the latest.
    fn due(&self, port: &Port) -> Moment {
        let due = [self.panel.next_deadline(), self.begins];
        let latest = port.now() + TURN;
        due.into_iter()
            .flatten()
            .min()
            .unwrap_or(latest)
            .min(latest)
    }
}

/// Waits for what comes next, and does all of it. What of it is to last is on the disk before the packet goes out.
fn turn(door: &mut Door, port: &mut Port) -> Done {
    let came = port.wait(door.due(port))?;
    let now = came.now;
    door.ledger.begins_turn()?;
    door.panel.set_moment(now); // also where the program was stopped for more than a day
    door.panel.on_bytes(&came.bytes, now)?;
    door.take_reports(port, now)?;
    for line in &came.lines {
        if !door.take_line(line, came.typed + port.late(), port)? {
            door.ledger.say(format!("refused line {line}"));
        }
    }
    door.begin(port, now)?;
    let unsent = door.panel.tick(now)?;
    door.ledger.ends_turn()?; // before the packet goes out: by that the device may forget an event
    if !door.is_left {
        port.write_unsent(unsent)?; // by its own moment: where the disk took long an order may be too late
    }
    Ok(())
}

fn run(mut port: Port) -> Done {
    let mut door = Door::open(&port)?;
    door.ledger.ends_turn()?;
    loop {
        turn(&mut door, &mut port)?;
    }
}

fn main() -> ExitCode {
    run_on_port("stored_panel", Keeps::All, run)
}
