//! A schedule run over a simulated line with one controller and one reader, and the account of what happened.

use crate::bytes::Burst;
use crate::commands::Command;
use crate::controller::{self, Cause, Controller, Report, Step};
use crate::packets::{first, First, View};
use crate::reader::{self, Handler, Reader, Response};
use crate::replies::{Event, Reply};
use std::collections::VecDeque;

/// What the line does with the burst in front.
#[derive(Clone, Copy, Debug, PartialEq, Eq)]
pub enum Move<'a> {
    Deliver,
    Drop,
    /// It comes through, and stays in front.
    Repeat,
    /// These bytes come through in its place. No packet may stand among them.
    Damage(&'a [u8]),
}

/// A step of a schedule. The reader has number 1; a step with another does nothing.
#[derive(Clone, Copy, Debug, PartialEq, Eq)]
pub enum SimStep<'a> {
    Issue(usize, Command<'a>),
    Queue(usize, Event<'a>),
    Busy(usize, bool),
    /// So many milliseconds pass, and what is due is asked once.
    Wait(u64),
    ToReader(Move<'a>),
    ToController(Move<'a>),
    /// The session, which has ended, begins again.
    Reopen(usize),
}

#[derive(Clone, Copy, Debug, PartialEq, Eq)]
pub enum End {
    Lost(Cause),
    Moved,
}

/// Messages, one after the other in one place.
#[derive(Clone, Debug, Default, PartialEq, Eq)]
pub struct Messages {
    bytes: Vec<u8>,
    ends: Vec<usize>,
}

impl Messages {
    fn push(&mut self, write: impl FnOnce(&mut Vec<u8>)) {
        write(&mut self.bytes);
        self.ends.push(self.bytes.len());
    }

    pub fn len(&self) -> usize {
        self.ends.len()
    }

    pub fn is_empty(&self) -> bool {
        self.ends.is_empty()
    }

    pub fn iter(&self) -> impl Iterator<Item = &[u8]> {
        let mut from = 0;
        self.ends.iter().map(move |end| &self.bytes[std::mem::replace(&mut from, *end)..*end])
    }
}

/// What a schedule came to.
#[derive(Clone, Debug, Default, PartialEq, Eq)]
pub struct Account {
    pub issued: Messages,
    /// The commands but POLL that the reader has taken.
    pub taken: Messages,
    pub settled: Messages,
    /// The answers to those settled.
    pub answers: Messages,
    pub unsettled: Messages,
    pub queued: Messages,
    pub reported: Messages,
    pub ends: Vec<End>,
    /// How long the lists above were, that of answers left out, when each session began.
    pub sessions: Vec<[usize; 7]>,
}

impl Account {
    fn begin(&mut self) {
        let [issued, taken, settled] = [&self.issued, &self.taken, &self.settled].map(Messages::len);
        let [unsettled, queued, reported] = [&self.unsettled, &self.queued, &self.reported].map(Messages::len);
        self.sessions.push([issued, taken, settled, unsettled, queued, reported, self.ends.len()]);
    }

    fn settle(&mut self, command: Command<'_>, write: impl FnOnce(&mut Vec<u8>)) {
        self.settled.push(|to| command.write(to));
        self.answers.push(write);
    }

    fn tell(&mut self, report: Report<'_>) {
        match report {
            Report::Opened(_) | Report::PollAnswered(_) | Report::Unread(..) => {}
            Report::Settled(command, reply) => self.settle(command, |to| reply.write(to)),
            Report::Moved(command, told) => {
                self.settle(command, |to| Reply::Com(told).write(to));
                self.ends.push(End::Moved);
            }
            Report::Event(event) => self.reported.push(|to| event.write(to)),
            Report::Lost(cause, command) => {
                if let Some(command) = command {
                    self.unsettled.push(|to| command.write(to));
                }
                self.ends.push(End::Lost(cause));
            }
        }
    }
}

/// Why a schedule stops: S2, S4 or S5.
#[derive(Clone, Copy, Debug, PartialEq, Eq)]
pub enum Stop {
    HoldsPacket,
    NotQuiet,
    OutOfRange,
}

/// The step, from 1, at which a schedule stopped, 0 for the settings, and the account of the steps before.
#[derive(Clone, Debug, PartialEq, Eq)]
pub struct Fault {
    pub step: usize,
    pub stop: Stop,
    pub account: Account,
}

/// The settings of both ends, and how many events and commands may wait.
#[derive(Clone, Debug)]
pub struct SimConfig {
    pub reader: reader::Settings,
    pub events: usize,
    pub controller: controller::Settings,
    pub commands: usize,
}

struct Simulation<H> {
    controller: Controller,
    reader: Reader<H>,
    to_reader: VecDeque<Vec<u8>>,
    to_controller: VecDeque<Vec<u8>>,
    clock: u64,
    burst: Burst,
    account: Account,
}

pub fn run_session<H: Handler>(config: &SimConfig, handler: H, steps: &[SimStep<'_>]) -> Result<Account, Box<Fault>> {
    let fault = |step, stop, account| Box::new(Fault { step, stop, account });
    let Some(mut simulation) = Simulation::new(config, handler) else {
        return Err(fault(0, Stop::OutOfRange, Account::default()));
    };
    for (place, step) in steps.iter().enumerate() {
        if let Err(stop) = simulation.take(step) {
            return Err(fault(place + 1, stop, simulation.account));
        }
    }
    Ok(simulation.account)
}

impl<H: Handler> Simulation<H> {
    /// Both ends are set up, and the session begins. None where a setting is out of its range.
    fn new(config: &SimConfig, handler: H) -> Option<Simulation<H>> {
        let mut controller = Controller::new(config.controller, config.commands).ok()?;
        controller.begin(0).ok()?;
        let mut account = Account::default();
        account.begin();
        Some(Simulation {
            controller,
            reader: Reader::new(config.reader.clone(), handler, config.events).ok()?,
            to_reader: VecDeque::new(),
            to_controller: VecDeque::new(),
            clock: 0,
            burst: Burst::new(),
            account,
        })
    }

    fn take(&mut self, step: &SimStep<'_>) -> Result<(), Stop> {
        match *step {
            SimStep::Issue(1, command) => self.issue(command),
            SimStep::Queue(1, event) => self.queue(event),
            SimStep::Busy(1, busy) => self.reader.set_busy(busy),
            SimStep::Wait(wait) => self.wait(wait),
            SimStep::ToReader(way) => return self.move_to_reader(way),
            SimStep::ToController(way) => return self.move_to_controller(way),
            SimStep::Reopen(1) => return self.reopen(),
            SimStep::Issue(..) | SimStep::Queue(..) | SimStep::Busy(..) | SimStep::Reopen(_) => {}
        }
        Ok(())
    }

    fn issue(&mut self, command: Command<'_>) {
        if self.controller.submit(&command).is_ok() {
            self.account.issued.push(|to| command.write(to));
        }
    }

    fn queue(&mut self, event: Event<'_>) {
        if self.reader.submit_event(&event).is_ok() {
            self.account.queued.push(|to| event.write(to));
        }
    }

    fn wait(&mut self, wait: u64) {
        self.clock = self.clock.saturating_add(wait);
        match self.controller.tick(self.clock) {
            Step::Nothing => {}
            Step::Send(packet) => {
                self.burst.write_view(&packet);
                self.to_reader.push_back(self.burst.as_slice().to_vec());
            }
            Step::Tell(report) => self.account.tell(report),
        }
    }

    fn reopen(&mut self) -> Result<(), Stop> {
        if !self.to_reader.is_empty() || !self.to_controller.is_empty() || self.controller.begin(self.clock).is_err() {
            return Err(Stop::NotQuiet);
        }
        self.account.begin();
        Ok(())
    }

    fn move_to_reader(&mut self, way: Move<'_>) -> Result<(), Stop> {
        let Some(bytes) = moved(&mut self.to_reader, way)? else { return Ok(()) };
        let Some(packet) = View::first(&bytes) else { return Ok(()) };
        let response = self.reader.hear(&packet);
        if let Response::Taken(Ok(command), _) = response {
            if command != Command::Poll {
                self.account.taken.push(|to| command.write(to));
            }
        }
        if !response.bytes().is_empty() {
            self.to_controller.push_back(response.bytes().to_vec());
        }
        Ok(())
    }

    fn move_to_controller(&mut self, way: Move<'_>) -> Result<(), Stop> {
        let Some(bytes) = moved(&mut self.to_controller, way)? else { return Ok(()) };
        let Some(packet) = View::first(&bytes) else { return Ok(()) };
        if let Some(report) = self.controller.hear(&packet, self.clock) {
            self.account.tell(report);
        }
        Ok(())
    }
}

/// Moves the line on, and gives the burst that comes through whole.
fn moved(line: &mut VecDeque<Vec<u8>>, way: Move<'_>) -> Result<Option<Vec<u8>>, Stop> {
    match way {
        Move::Deliver => Ok(line.pop_front()),
        Move::Repeat => Ok(line.front().cloned()),
        Move::Drop => {
            line.pop_front();
            Ok(None)
        }
        Move::Damage(bytes) if holds_packet(bytes) => Err(Stop::HoldsPacket),
        Move::Damage(_) => {
            line.pop_front();
            Ok(None)
        }
    }
}

fn holds_packet(bytes: &[u8]) -> bool {
    (0..bytes.len()).any(|place| matches!(first(&bytes[place..], true), Some(First::Packet(_))))
}
