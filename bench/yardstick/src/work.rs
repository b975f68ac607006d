//! The work of the bench over the machines. Each kind tells how often it came out as it should.

use crate::bytes::Burst;
use crate::commands::{Command, OutputRecord, Outputs};
use crate::controller::{self, Controller, Step, Waits};
use crate::packets::{crc, Framer, Head, Item, View};
use crate::reader::{self, Answer, Handler, Reader, Response};
use crate::replies::PdId;
use crate::session::{run_session, Move, SimConfig, SimStep};
use std::hint::black_box;

/// A device that does all that it is told.
pub struct Device;

impl Handler for Device {
    fn answer<'a>(&'a mut self, _: &Command<'a>) -> Answer<'a> {
        Answer::Done
    }
}

const ADDRESS: u8 = 5;
const POLL: View<'_> = asked(1, &[0x60]);
const ACK: View<'_> = View { head: Head::plain(true, ADDRESS, 1, true), body: &[0x40] };
const RECORD: OutputRecord = OutputRecord { output: 3, control: 2, timer: 0 };

const fn asked(number: u8, body: &[u8]) -> View<'_> {
    View { head: Head::plain(false, ADDRESS, number, true), body }
}

fn reader_settings() -> reader::Settings {
    let id = PdId([1, 2, 3, 1, 1, 1, 0, 0, 0, 1, 0, 0]);
    reader::Settings { address: ADDRESS, id, caps: Vec::new() }
}

fn controller_settings(poll_interval: u32) -> controller::Settings {
    let settings = controller::Settings::new(ADDRESS, true);
    let waits = Waits { poll: poll_interval, quiet: 1, ..settings.waits };
    controller::Settings { waits, ..settings }
}

/// Both ends of a link, with the session open.
struct Link {
    controller: Controller,
    reader: Reader<Device>,
    burst: Burst,
    now: u64,
}

impl Link {
    fn new(poll_interval: u32) -> Option<Link> {
        let mut controller = Controller::new(controller_settings(poll_interval), 4).ok()?;
        controller.begin(0).ok()?;
        let reader = Reader::new(reader_settings(), Device, 4).ok()?;
        let mut link = Link { controller, reader, burst: Burst::new(), now: 0 };
        link.exchange().then_some(link)
    }

    /// What is due goes to the reader, and its answer to the controller. Each packet goes out as bytes and is found in them.
    #[inline(never)]
    fn exchange(&mut self) -> bool {
        self.now += 2;
        let Step::Send(packet) = self.controller.tick(self.now) else { return false };
        self.burst.write_view(&packet);
        let Some(packet) = View::first(self.burst.as_slice()) else { return false };
        let response = self.reader.hear(&packet);
        let Some(reply) = View::first(response.bytes()) else { return false };
        black_box(&self.controller.hear(&reply, self.now));
        !self.controller.outstanding()
    }

    fn submit(&mut self) -> bool {
        let bytes = black_box(RECORD).bytes();
        Outputs::new(&bytes).is_some_and(|records| self.controller.submit(&Command::Output(records)).is_ok())
    }
}

fn times(count: u64, mut is_well: impl FnMut(u64) -> bool) -> u64 {
    (0..count).map(|place| u64::from(is_well(place))).sum()
}

fn polls(count: u64) -> Option<u64> {
    let mut link = Link::new(1)?;
    Some(times(count, |_| link.exchange()))
}

fn outs(count: u64) -> Option<u64> {
    let mut link = Link::new(1000)?;
    Some(times(count, |_| link.submit() && link.exchange()))
}

/// A controller alone: it writes a POLL, and hears its ACK.
fn turns(count: u64) -> Option<u64> {
    let mut link = Link::new(1)?;
    Some(times(count, |place| {
        link.now += 2;
        let ack = View { head: Head { number: (place % 3) as u8 + 1, ..ACK.head }, ..ACK };
        if let Step::Send(packet) = link.controller.tick(link.now) {
            link.burst.write_view(&packet);
            black_box(link.burst.as_slice());
        }
        black_box(&link.controller.hear(black_box(&ack), link.now));
        !link.controller.outstanding()
    }))
}

/// Packets with this body to a reader alone, each with the next number.
fn heard(body: &[u8], count: u64) -> Option<u64> {
    let mut reader = Reader::new(reader_settings(), Device, 4).ok()?;
    reader.hear(&asked(0, body));
    Some(times(count, |place| {
        let packet = asked((place % 3) as u8 + 1, body);
        matches!(reader.hear(black_box(&packet)), Response::Taken(Ok(_), bytes) if bytes.len() == 8)
    }))
}

fn repeats(count: u64) -> Option<u64> {
    let mut reader = Reader::new(reader_settings(), Device, 4).ok()?;
    reader.hear(&asked(0, &[0x60]));
    reader.hear(&POLL);
    Some(times(count, |_| matches!(reader.hear(black_box(&POLL)), Response::Repeat(bytes) if bytes.len() == 8)))
}

fn ignored(count: u64) -> Option<u64> {
    let mut controller = Controller::new(controller_settings(1), 4).ok()?;
    controller.begin(0).ok()?;
    let packet = View { head: Head { address: 6, ..ACK.head }, ..ACK };
    Some(times(count, |now| controller.hear(black_box(&packet), now).is_none()))
}

fn idle(count: u64) -> Option<u64> {
    let mut link = Link::new(3_600_000)?;
    Some(times(count, |place| matches!(link.controller.tick(black_box(place % 1000)), Step::Nothing)))
}

fn encoded(count: u64) -> u64 {
    let mut burst = Burst::new();
    times(count, |place| {
        let head = Head::plain(false, black_box(ADDRESS), (place % 4) as u8, true);
        burst.write_view(&View { head, body: black_box(&[0x60]) });
        black_box(&burst).as_slice().len() == 8
    })
}

/// A packet of 1440 bytes pushed, shown and taken off.
fn framed(with_crc: bool, count: u64) -> u64 {
    let mut burst = Burst::new();
    burst.write_view(&View { head: Head { crc: with_crc, ..POLL.head }, body: &[0x61; 1433] });
    let mut framer = Framer::new();
    times(count, |_| {
        framer.push(black_box(burst.as_slice()));
        let is_well = matches!(framer.item(), Some(Item::Packet(_)));
        framer.advance();
        is_well
    })
}

fn checks(count: u64) -> u64 {
    let mut bytes = [0x61u8; 1438];
    times(count, |place| {
        bytes[0] = place as u8;
        let check = crc(black_box(&bytes)).to_le_bytes();
        check[0] != check[1]
    })
}

/// How many rounds one schedule has.
const ROUNDS: usize = 100;

/// The steps of a session that opens.
const OPENING: [SimStep<'_>; 3] = round(400);

/// A round that loses nothing, after so many milliseconds.
const fn round(wait: u64) -> [SimStep<'static>; 3] {
    [SimStep::Wait(wait), SimStep::ToReader(Move::Deliver), SimStep::ToController(Move::Deliver)]
}

/// So many rounds, in sessions of `ROUNDS` and one of those that are left, each over a line of its own. In each round this command is asked,
/// or else a POLL.
fn rounds(command: Option<Command<'_>>, count: u64) -> Option<u64> {
    let in_round: Vec<SimStep<'_>> = command.map(|command| SimStep::Issue(1, command)).into_iter().chain(round(50)).collect();
    let steps = [&OPENING[..], &in_round.repeat(ROUNDS)].concat();
    let controller = controller::Settings::new(ADDRESS, true);
    let config = SimConfig { reader: reader_settings(), events: 4, controller, commands: 4 };
    let mut left = count;
    let mut done = 0;
    while left > 0 {
        let now = left.min(ROUNDS as u64);
        let length = OPENING.len() + in_round.len() * now as usize;
        let account = run_session(&config, Device, black_box(&steps[..length])).ok()?;
        let settled = if command.is_some() { now as usize } else { 0 };
        if account.ends.is_empty() && account.taken.len() == settled && account.settled.len() == settled {
            done += now;
        }
        left -= now;
    }
    Some(done)
}

fn out_rounds(count: u64) -> Option<u64> {
    let bytes = RECORD.bytes();
    rounds(Some(Command::Output(Outputs::new(&bytes)?)), count)
}

/// Does one kind of work so many times, and tells how often it came out as it should. None where the kind has no such name.
pub fn done(kind: &str, count: u64) -> Option<u64> {
    match kind {
        "poll" => polls(count),
        "out" => outs(count),
        "turn" => turns(count),
        "poll_heard" => heard(&[0x60], count),
        "out_heard" => heard(&[0x68, 3, 2, 0, 0], count),
        "repeat" => repeats(count),
        "ignored" => ignored(count),
        "idle" => idle(count),
        "encode" | "encode_to" => Some(encoded(count)),
        "framer_sum" => Some(framed(false, count)),
        "framer_crc" => Some(framed(true, count)),
        "crc" => Some(checks(count)),
        "session_poll" => rounds(None, count),
        "session_out" => out_rounds(count),
        _ => None,
    }
}
