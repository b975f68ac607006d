//! A controller: it opens a session with one reader, asks by POLL and by commands, and tells what comes of them.

use crate::bytes::{Body, Queue, Sink};
use crate::commands::{Command, Communication};
use crate::packets::{next, Head, View, CONFIGURATION};
use crate::replies::{Event, NakReason, PdId, Reply};

/// Times are in milliseconds, 1 to 3,600,000.
#[derive(Clone, Copy, Debug, PartialEq, Eq)]
pub struct Settings {
    /// 0 to 126.
    pub address: u8,
    pub crc: bool,
    pub waits: Waits,
    /// How often a frame is sent while no answer comes, 1 to 255.
    pub sends: u8,
    /// How many BUSY answers an exchange may have.
    pub busy_limit: u8,
}

/// How long it waits: for a reply, from an answer to the next POLL, after a BUSY, and before it opens a session.
#[derive(Clone, Copy, Debug, PartialEq, Eq)]
pub struct Waits {
    pub reply: u32,
    pub poll: u32,
    pub busy: u32,
    pub quiet: u32,
}

impl Settings {
    pub const fn new(address: u8, crc: bool) -> Settings {
        let waits = Waits { reply: 200, poll: 50, busy: 50, quiet: 400 };
        Settings { address, crc, waits, sends: 3, busy_limit: 20 }
    }

    fn are_in_range(&self) -> bool {
        let Waits { reply, poll, busy, quiet } = self.waits;
        let times = [reply, poll, busy, quiet];
        self.address < CONFIGURATION && self.sends > 0 && times.iter().all(|time| (1..=3_600_000).contains(time))
    }
}

/// Why a call is refused: C2 to C5.
#[derive(Clone, Copy, Debug, PartialEq, Eq)]
pub enum Refusal {
    OutOfRange,
    Full,
    Poll,
    NotClosed,
}

#[derive(Clone, Copy, Debug, PartialEq, Eq)]
pub enum Cause {
    NoReply,
    TooBusy,
    NumberRefused,
}

/// What is told. A command is none where a POLL or the opening was asked.
#[derive(Clone, Copy, Debug, PartialEq, Eq)]
pub enum Report<'a> {
    Opened(PdId),
    Settled(Command<'a>, Reply<'a>),
    Moved(Command<'a>, Communication),
    Event(Event<'a>),
    PollAnswered(Reply<'a>),
    /// A reply with this code, which can't be read.
    Unread(Option<Command<'a>>, u8),
    Lost(Cause, Option<Command<'a>>),
}

/// What a tick comes to.
#[derive(Clone, Copy, Debug, PartialEq, Eq)]
pub enum Step<'a> {
    Nothing,
    Send(View<'a>),
    Tell(Report<'a>),
}

/// What is asked.
#[derive(Clone, Copy, Debug, PartialEq, Eq)]
enum Exchange {
    Opening,
    Poll,
    Command,
}

#[derive(Clone, Copy, Debug, PartialEq, Eq)]
enum State {
    Closed,
    Quiet { until: u64 },
    Idle { due: u64 },
    Waiting { until: u64, sends: u8, busies: u8 },
    Pausing { until: u64, busies: u8 },
}

pub struct Controller {
    settings: Settings,
    state: State,
    /// The greatest moment that was handed in.
    greatest: u64,
    exchange: Exchange,
    number: u8,
    /// The message of the exchange.
    asked: Body,
    /// How often the frame of the exchange was sent.
    sent: u32,
    commands: Queue,
}

impl Controller {
    /// Room for 1 to 1024 commands.
    pub fn new(settings: Settings, capacity: usize) -> Result<Controller, Refusal> {
        if !settings.are_in_range() || !(1..=1024).contains(&capacity) {
            return Err(Refusal::OutOfRange);
        }
        Ok(Controller {
            settings,
            state: State::Closed,
            greatest: 0,
            exchange: Exchange::Opening,
            number: 0,
            asked: Body::new(),
            sent: 0,
            commands: Queue::new(capacity),
        })
    }

    pub fn address(&self) -> u8 {
        self.settings.address
    }

    pub fn is_closed(&self) -> bool {
        self.state == State::Closed
    }

    /// Whether an answer is awaited.
    pub fn outstanding(&self) -> bool {
        matches!(self.state, State::Waiting { .. } | State::Pausing { .. })
    }

    pub fn sent_in_exchange(&self) -> u32 {
        self.sent
    }

    pub fn waiting(&self) -> usize {
        self.commands.len()
    }

    pub fn submit(&mut self, command: &Command<'_>) -> Result<(), Refusal> {
        if *command == Command::Poll {
            return Err(Refusal::Poll);
        }
        command.write(self.commands.push().ok_or(Refusal::Full)?);
        Ok(())
    }

    /// Takes back the command that has waited longest, where none is on its way.
    pub fn withdraw(&mut self) -> Option<Command<'_>> {
        if self.outstanding() && self.exchange == Exchange::Command {
            return None;
        }
        self.commands.pop().and_then(|body| Command::of(body).ok())
    }

    pub fn begin(&mut self, now: u64) -> Result<(), Refusal> {
        if self.state != State::Closed {
            return Err(Refusal::NotClosed);
        }
        self.greatest = self.greatest.max(now);
        self.state = State::Quiet { until: self.after(self.settings.waits.quiet) };
        Ok(())
    }

    pub fn retarget(&mut self, address: u8) -> Result<(), Refusal> {
        if self.state != State::Closed {
            return Err(Refusal::NotClosed);
        }
        if address >= CONFIGURATION {
            return Err(Refusal::OutOfRange);
        }
        self.settings.address = address;
        Ok(())
    }

    /// The moment from which on a tick sends or tells.
    pub fn next_deadline(&self) -> Option<u64> {
        let until = match self.state {
            State::Closed => return None,
            State::Idle { .. } if !self.commands.is_empty() => self.greatest,
            State::Idle { due } => due,
            State::Quiet { until } | State::Waiting { until, .. } | State::Pausing { until, .. } => until,
        };
        Some(until.max(self.greatest))
    }

    /// Whether a tick at this moment sends or tells.
    #[inline]
    pub fn due(&self, now: u64) -> bool {
        let now = self.greatest.max(now);
        match self.state {
            State::Closed => false,
            State::Idle { due } => due <= now || !self.commands.is_empty(),
            State::Quiet { until } | State::Waiting { until, .. } | State::Pausing { until, .. } => until <= now,
        }
    }

    /// What is due at a moment.
    #[inline]
    pub fn tick(&mut self, now: u64) -> Step<'_> {
        self.greatest = self.greatest.max(now);
        if self.due(self.greatest) {
            self.act()
        } else {
            Step::Nothing
        }
    }

    /// Does what is due.
    fn act(&mut self) -> Step<'_> {
        match self.state {
            State::Closed => Step::Nothing,
            State::Quiet { .. } => self.open(),
            State::Idle { .. } => self.ask(),
            State::Waiting { sends, .. } if sends == self.settings.sends => Step::Tell(self.lose(Cause::NoReply)),
            State::Waiting { sends, busies, .. } => self.send(sends + 1, busies),
            State::Pausing { busies, .. } => self.send(1, busies),
        }
    }

    fn after(&self, wait: u32) -> u64 {
        self.greatest.saturating_add(u64::from(wait))
    }

    fn open(&mut self) -> Step<'_> {
        self.begin_exchange(Exchange::Opening, 0);
        Command::Id(0).write(&mut self.asked);
        self.send(1, 0)
    }

    /// Asks by the command that waits, or else by a POLL.
    fn ask(&mut self) -> Step<'_> {
        let number = next(self.number);
        if self.commands.is_empty() {
            self.begin_exchange(Exchange::Poll, number);
            Command::Poll.write(&mut self.asked);
        } else {
            self.begin_exchange(Exchange::Command, number);
            if let Some(body) = self.commands.pop() {
                self.asked.put(body);
            }
        }
        self.send(1, 0)
    }

    fn begin_exchange(&mut self, exchange: Exchange, number: u8) {
        self.exchange = exchange;
        self.number = number;
        self.sent = 0;
        self.asked.clear();
    }

    fn send(&mut self, sends: u8, busies: u8) -> Step<'_> {
        self.state = State::Waiting { until: self.after(self.settings.waits.reply), sends, busies };
        self.sent += 1;
        let head = Head::plain(false, self.settings.address, self.number, self.settings.crc);
        Step::Send(View { head, body: self.asked.as_slice() })
    }

    fn lose(&mut self, cause: Cause) -> Report<'_> {
        self.state = State::Closed;
        Report::Lost(cause, self.command())
    }

    /// The command that is asked, read from what is sent.
    fn command(&self) -> Option<Command<'_>> {
        match self.exchange {
            Exchange::Opening | Exchange::Poll => None,
            Exchange::Command => Command::of(self.asked.as_slice()).ok(),
        }
    }

    /// Hears a packet from the line.
    #[inline]
    pub fn hear<'a>(&'a mut self, packet: &View<'a>, now: u64) -> Option<Report<'a>> {
        self.greatest = self.greatest.max(now);
        let head = packet.head;
        if !head.reply || head.address != self.settings.address || head.block {
            return None;
        }
        self.hear_own(packet)
    }

    /// Hears a packet of its reader.
    fn hear_own<'a>(&'a mut self, packet: &View<'a>) -> Option<Report<'a>> {
        let head = packet.head;
        let (busies, pausing) = match self.state {
            State::Closed | State::Quiet { .. } | State::Idle { .. } => return None,
            State::Waiting { busies, .. } => (busies, false),
            State::Pausing { busies, .. } => (busies, true),
        };
        if head.number != self.number && head.number != 0 {
            return None;
        }
        match Reply::of(packet.body) {
            Ok(Reply::Busy) if pausing => None,
            Ok(Reply::Busy) => self.hear_busy(busies),
            _ if head.number != self.number => None,
            Ok(Reply::Nak(NakReason::CHECK, _)) => self.hear_bad_check(),
            Ok(Reply::Nak(NakReason::NUMBER, _)) => Some(self.lose(Cause::NumberRefused)),
            Ok(reply) => self.hear_reply(reply),
            Err(_) if self.exchange == Exchange::Opening => None,
            Err(_) => {
                self.rest();
                Some(Report::Unread(self.command(), packet.code()))
            }
        }
    }

    /// The reader hasn't taken what was sent.
    fn hear_busy(&mut self, busies: u8) -> Option<Report<'_>> {
        if busies == self.settings.busy_limit {
            return Some(self.lose(Cause::TooBusy));
        }
        self.state = State::Pausing { until: self.after(self.settings.waits.busy), busies: busies + 1 };
        None
    }

    /// What was sent came damaged: the next tick sends again or gives up. In a pause it is sent again anyway.
    fn hear_bad_check(&mut self) -> Option<Report<'_>> {
        if let State::Waiting { until, .. } = &mut self.state {
            *until = self.greatest;
        }
        None
    }

    fn hear_reply<'a>(&'a mut self, reply: Reply<'a>) -> Option<Report<'a>> {
        match (self.exchange, reply) {
            (Exchange::Opening, Reply::PdId(id)) => {
                self.rest();
                Some(Report::Opened(id))
            }
            (Exchange::Opening, _) => None,
            (Exchange::Poll, reply) => {
                self.rest();
                match reply {
                    Reply::Ack => None,
                    Reply::Event(event) => Some(Report::Event(event)),
                    other => Some(Report::PollAnswered(other)),
                }
            }
            (Exchange::Command, reply) => self.settle(reply),
        }
    }

    fn settle<'a>(&'a mut self, reply: Reply<'a>) -> Option<Report<'a>> {
        self.rest();
        let command = Command::of(self.asked.as_slice()).ok()?;
        if let (Command::Comset(wanted), Reply::Com(told)) = (command, reply) {
            if wanted.address < CONFIGURATION && told.address == wanted.address {
                self.settings.address = told.address;
                self.state = State::Closed;
                return Some(Report::Moved(command, told));
            }
        }
        Some(Report::Settled(command, reply))
    }

    /// The exchange has ended, and a POLL is due after the interval.
    fn rest(&mut self) {
        self.state = State::Idle { due: self.after(self.settings.waits.poll) };
    }
}
