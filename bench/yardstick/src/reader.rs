//! A reader: it answers the packets of its address, and acts once on each command of a session.

use crate::bytes::{Burst, Queue, Sink};
use crate::commands::{Command, Communication, Fault, Maker, States};
use crate::packets::{next, Head, View, CONFIGURATION};
use crate::replies::{Event, NakReason, PdCap, PdId, Reply};

/// What a handler says to a command.
#[derive(Clone, Copy, Debug, PartialEq, Eq)]
pub enum Answer<'a> {
    Done,
    /// Tamper and power.
    Local(u8, u8),
    /// A byte for each, at most 1432.
    List(&'a [u8]),
    Refuse(NakReason),
    Maker(Maker<'a>),
}

/// What a device does with the commands that aren't the reader's own.
pub trait Handler {
    fn answer<'a>(&'a mut self, command: &Command<'a>) -> Answer<'a>;
}

/// What a reader is.
#[derive(Clone, Debug)]
pub struct Settings {
    /// 0 to 126.
    pub address: u8,
    pub id: PdId,
    /// Capabilities, three bytes each, at most 477.
    pub caps: Vec<u8>,
}

/// Why a reader isn't made: a setting is out of its range, which is N3.
#[derive(Clone, Copy, Debug, PartialEq, Eq)]
pub struct OutOfRange;

/// Why an event isn't taken: there is no room, which is N2.
#[derive(Clone, Copy, Debug, PartialEq, Eq)]
pub struct Full;

/// What a packet is to a reader, and the bytes to send, which the reader lends. The command is read from the packet.
#[derive(Clone, Copy, Debug, PartialEq, Eq)]
pub enum Response<'packet, 'reader> {
    Silent,
    Secured(&'reader [u8]),
    Zero(Result<Command<'packet>, Fault>, &'reader [u8]),
    Repeat(&'reader [u8]),
    Taken(Result<Command<'packet>, Fault>, &'reader [u8]),
    Busy(&'reader [u8]),
    Wrong(&'reader [u8]),
}

impl<'reader> Response<'_, 'reader> {
    #[inline]
    pub fn bytes(&self) -> &'reader [u8] {
        match *self {
            Response::Silent => &[],
            Response::Secured(bytes) | Response::Repeat(bytes) | Response::Busy(bytes) | Response::Wrong(bytes) => bytes,
            Response::Zero(_, bytes) | Response::Taken(_, bytes) => bytes,
        }
    }
}

pub struct Reader<H> {
    settings: Settings,
    handler: H,
    /// The number that was taken last. None at first, and once the reader has moved.
    last: Option<u8>,
    /// The reply to it.
    stored: Burst,
    /// Any other reply.
    sent: Burst,
    events: Queue,
    /// Whether the event in front was told to the last POLL.
    offered: bool,
    busy: bool,
}

impl<H: Handler> Reader<H> {
    /// Room for 1 to 1024 events.
    pub fn new(settings: Settings, handler: H, capacity: usize) -> Result<Reader<H>, OutOfRange> {
        if settings.address >= CONFIGURATION || PdCap::new(&settings.caps).is_none() || !(1..=1024).contains(&capacity) {
            return Err(OutOfRange);
        }
        Ok(Reader {
            settings,
            handler,
            last: None,
            stored: Burst::new(),
            sent: Burst::new(),
            events: Queue::new(capacity),
            offered: false,
            busy: false,
        })
    }

    pub fn submit_event(&mut self, event: &Event<'_>) -> Result<(), Full> {
        event.write(self.events.push().ok_or(Full)?);
        Ok(())
    }

    pub fn set_busy(&mut self, busy: bool) {
        self.busy = busy;
    }

    pub fn address(&self) -> u8 {
        self.settings.address
    }

    /// How many events wait, an offered one too.
    pub fn waiting(&self) -> usize {
        self.events.len()
    }

    pub fn handler(&self) -> &H {
        &self.handler
    }

    pub fn set_handler(&mut self, handler: H) -> H {
        std::mem::replace(&mut self.handler, handler)
    }

    /// Answers a packet.
    pub fn hear<'packet>(&mut self, packet: &View<'packet>) -> Response<'packet, '_> {
        let head = packet.head;
        if head.reply || (head.address != self.settings.address && head.address != CONFIGURATION) {
            return Response::Silent;
        }
        if head.block {
            return Response::Secured(self.say(head, Reply::Nak(NakReason::BLOCK, &[])));
        }
        if head.number == 0 {
            return if self.busy { self.say_busy(head) } else { self.open(packet) };
        }
        match self.last {
            Some(last) if head.number == last => Response::Repeat(self.stored.as_slice()),
            Some(last) if head.number == next(last) => {
                if self.busy {
                    self.say_busy(head)
                } else {
                    self.take(packet)
                }
            }
            Some(_) | None => Response::Wrong(self.say(head, Reply::Nak(NakReason::NUMBER, &[]))),
        }
    }

    fn say(&mut self, head: Head, reply: Reply<'_>) -> &[u8] {
        self.sent.write(answering(head), |burst| reply.write(burst));
        self.sent.as_slice()
    }

    fn say_busy(&mut self, head: Head) -> Response<'static, '_> {
        Response::Busy(self.say(Head { number: 0, ..head }, Reply::Busy))
    }

    /// Number 0: the command is acted on, also where it was acted on before. No event is told.
    fn open<'packet>(&mut self, packet: &View<'packet>) -> Response<'packet, '_> {
        let command = Command::of(packet.body);
        self.last = Some(0);
        self.offered = false;
        self.act(packet.head, &command, false);
        Response::Zero(command, self.sent.as_slice())
    }

    /// The next number: the command is acted on, and its reply is kept.
    fn take<'packet>(&mut self, packet: &View<'packet>) -> Response<'packet, '_> {
        let command = Command::of(packet.body);
        if self.offered {
            self.events.pop();
            self.offered = false;
        }
        self.last = Some(packet.head.number);
        self.act(packet.head, &command, true);
        Response::Taken(command, self.stored.as_slice())
    }

    /// Writes the reply to a command in its place.
    fn act(&mut self, head: Head, command: &Result<Command<'_>, Fault>, taken: bool) {
        let burst = if taken { &mut self.stored } else { &mut self.sent };
        let reply = match command {
            Ok(Command::Poll) => match self.events.front() {
                Some(event) if taken => {
                    self.offered = true;
                    return burst.write(answering(head), |burst| burst.put(event));
                }
                Some(_) | None => Reply::Ack,
            },
            Ok(Command::Id(_)) => Reply::PdId(self.settings.id),
            Ok(Command::Cap(_)) => PdCap::new(&self.settings.caps).map_or(Reply::Nak(NakReason::RECORD, &[]), Reply::PdCap),
            Ok(Command::Comset(wanted)) => move_to(&mut self.settings.address, &mut self.last, *wanted),
            Ok(command) => reply_to(command, self.handler.answer(command)),
            Err(Fault::Code) => Reply::Nak(NakReason::UNKNOWN, &[]),
            Err(Fault::Length | Fault::Count) => Reply::Nak(NakReason::LENGTH, &[]),
        };
        burst.write(answering(head), |burst| reply.write(burst));
    }
}

/// The head of a reply to a packet: its number, its check and the address that it used.
fn answering(head: Head) -> Head {
    Head::plain(true, head.address, head.number, head.crc)
}

/// The reply to a COMSET. A reader that moves has no last number.
fn move_to(address: &mut u8, last: &mut Option<u8>, wanted: Communication) -> Reply<'static> {
    if wanted.address >= CONFIGURATION {
        return Reply::Nak(NakReason::RECORD, &[]);
    }
    if wanted.address != *address {
        *address = wanted.address;
        *last = None;
    }
    Reply::Com(wanted)
}

/// The reply that a handler's answer is, where it is one to this command.
fn reply_to<'a>(command: &Command<'_>, answer: Answer<'a>) -> Reply<'a> {
    match (command, answer) {
        (Command::Output(_) | Command::Led(_) | Command::Buzzer(_) | Command::Text(_) | Command::Maker(_), Answer::Done) => Reply::Ack,
        (Command::Status(States::Local), Answer::Local(tamper, power)) => Reply::Event(Event::LocalState { tamper, power }),
        (Command::Status(States::Inputs), Answer::List(list)) => Reply::Event(Event::Inputs(list)),
        (Command::Status(States::Outputs), Answer::List(list)) => Reply::Event(Event::Outputs(list)),
        (Command::Status(States::Readers), Answer::List(list)) => Reply::Event(Event::Readers(list)),
        (Command::Maker(_), Answer::Maker(maker)) => Reply::Maker(maker),
        (_, Answer::Refuse(reason @ (NakReason::LENGTH | NakReason::UNKNOWN | NakReason::RECORD))) => Reply::Nak(reason, &[]),
        _ => Reply::Nak(NakReason::RECORD, &[]),
    }
}
