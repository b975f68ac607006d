//! Both machines, call by call.

use yardstick::bytes::Burst;
use yardstick::commands::{Command, Communication, Outputs, States};
use yardstick::controller::{self, Cause, Controller, Refusal, Report, Step, Waits};
use yardstick::packets::{Head, View};
use yardstick::reader::{self, Answer, Full, Handler, OutOfRange, Reader, Response};
use yardstick::replies::{Event, Keypad, NakReason, PdId, Reply};

const ID: PdId = PdId([0x53, 0x49, 0x4d, 1, 1, 1, 0, 0, 0, 1, 0, 0]);

/// Counts what it is told, and knows one output.
struct Door {
    told: usize,
    output: [u8; 1],
}

impl Handler for Door {
    fn answer<'a>(&'a mut self, command: &Command<'a>) -> Answer<'a> {
        self.told += 1;
        match command {
            Command::Status(States::Local) => Answer::Local(0, 1),
            Command::Status(States::Outputs) => Answer::List(&self.output),
            Command::Led(_) => Answer::Refuse(NakReason::NUMBER),
            Command::Maker(maker) => Answer::Maker(*maker),
            _ => Answer::Done,
        }
    }
}

fn reader(events: usize) -> Reader<Door> {
    let settings = reader::Settings { address: 5, id: ID, caps: vec![2, 1, 8] };
    Reader::new(settings, Door { told: 0, output: [1] }, events).unwrap()
}

fn asked<'a>(address: u8, number: u8, body: &'a [u8]) -> View<'a> {
    View { head: Head::plain(false, address, number, false), body }
}

/// The body of a reply, of this number and from the address 5.
fn body(number: u8, bytes: &[u8]) -> &[u8] {
    let view = View::first(bytes).unwrap();
    assert_eq!(view.head, Head::plain(true, 5, number, false));
    view.body
}

#[test]
fn readers_out_of_range() {
    let settings = |address, caps| reader::Settings { address, id: ID, caps };
    for (settings, events) in [(settings(127, vec![]), 1), (settings(5, vec![1]), 1), (settings(5, vec![]), 0), (settings(5, vec![]), 1025)] {
        assert_eq!(Reader::new(settings, Door { told: 0, output: [1] }, events).err(), Some(OutOfRange));
    }
}

/// Every row of the reader's table that isn't taken.
#[test]
fn packets_that_change_nothing() {
    let mut reader = reader(4);
    let reply = View { head: Head::plain(true, 5, 0, false), body: &[0x40] };
    assert_eq!(reader.hear(&reply), Response::Silent);
    assert_eq!(reader.hear(&asked(6, 0, &[0x60])), Response::Silent);
    let Response::Wrong(bytes) = reader.hear(&asked(5, 3, &[0x60])) else { panic!() };
    assert_eq!(bytes, [0x53, 0x85, 8, 0, 3, 0x41, 4, 0xd8]);
    let block = View { head: Head { block: true, ..Head::plain(false, 5, 2, false) }, body: &[2, 0x15, 0x60] };
    let Response::Secured(bytes) = reader.hear(&block) else { panic!() };
    assert_eq!(body(2, bytes), [0x41, 5]);
    reader.set_busy(true);
    let Response::Busy(bytes) = reader.hear(&asked(5, 0, &[0x61, 0])) else { panic!() };
    assert_eq!(bytes, [0x53, 0x85, 7, 0, 0, 0x79, 0xa8]);
    let Response::Wrong(bytes) = reader.hear(&asked(5, 1, &[0x60])) else { panic!() };
    assert_eq!(body(1, bytes), [0x41, 4]);
    assert_eq!(reader.handler().told, 0);
}

#[test]
fn numbers_of_a_session() {
    let mut reader = reader(4);
    let Response::Zero(Ok(Command::Id(0)), bytes) = reader.hear(&asked(5, 0, &[0x61, 0])) else { panic!() };
    assert_eq!(bytes, [0x53, 0x85, 0x13, 0, 0, 0x45, 0x53, 0x49, 0x4d, 1, 1, 1, 0, 0, 0, 1, 0, 0, 0xe3]);
    let out = [0x68, 0, 2, 0, 0];
    for number in [1, 2, 3, 1] {
        let Response::Taken(Ok(Command::Output(_)), bytes) = reader.hear(&asked(5, number, &out)) else { panic!() };
        assert_eq!(body(number, bytes), [0x40]);
    }
    assert_eq!(reader.handler().told, 4);
    reader.set_busy(true);
    let Response::Repeat(bytes) = reader.hear(&asked(127, 1, &[0x60])) else { panic!() };
    assert_eq!(body(1, bytes), [0x40]);
    let Response::Busy(bytes) = reader.hear(&asked(5, 2, &out)) else { panic!() };
    assert_eq!(body(0, bytes), [0x79]);
    let Response::Wrong(bytes) = reader.hear(&asked(5, 3, &out)) else { panic!() };
    assert_eq!(body(3, bytes), [0x41, 4]);
    assert_eq!(reader.handler().told, 4);
}

#[test]
fn replies_to_commands() {
    let mut reader = reader(4);
    let rows: [(&[u8], &[u8]); 12] = [
        (&[0x60], &[0x40]),
        (&[0x62, 0], &[0x46, 2, 1, 8]),
        (&[0x64], &[0x48, 0, 1]),
        (&[0x65], &[0x41, 9]),
        (&[0x66], &[0x4a, 1]),
        (&[0x69; 1], &[0x41, 2]),
        (&[0x69, 0, 0, 0, 0, 0, 0, 0, 0, 0, 0, 0, 0, 0, 0], &[0x41, 9]),
        (&[0x6a, 0, 2, 5, 5, 1], &[0x40]),
        (&[0x6b, 0, 1, 0, 1, 1, 2, 0x41], &[0x41, 2]),
        (&[0x6e, 127, 0x80, 0x25, 0, 0], &[0x41, 9]),
        (&[0x70], &[0x41, 3]),
        (&[0x80, 1, 2, 3, 4], &[0x90, 1, 2, 3, 4]),
    ];
    for (command, reply) in rows {
        let Response::Zero(_, bytes) = reader.hear(&asked(5, 0, command)) else { panic!() };
        assert_eq!(body(0, bytes), reply);
    }
}

/// A reader that moves has no last number; one that is told its own address stays.
#[test]
fn comset_moves_a_reader() {
    let mut reader = reader(4);
    reader.hear(&asked(5, 0, &[0x60]));
    let own = [0x6e, 5, 0x80, 0x25, 0, 0];
    let Response::Taken(_, bytes) = reader.hear(&asked(5, 1, &own)) else { panic!() };
    assert_eq!(body(1, bytes), [0x54, 5, 0x80, 0x25, 0, 0]);
    assert!(matches!(reader.hear(&asked(5, 1, &own)), Response::Repeat(_)));
    let Response::Taken(_, bytes) = reader.hear(&asked(5, 2, &[0x6e, 7, 0x80, 0x25, 0, 0])) else { panic!() };
    assert_eq!(body(2, bytes), [0x54, 7, 0x80, 0x25, 0, 0]);
    assert_eq!(reader.address(), 7);
    assert!(matches!(reader.hear(&asked(7, 2, &[0x60])), Response::Wrong(_)));
    assert_eq!(reader.hear(&asked(5, 0, &[0x60])), Response::Silent);
}

/// An event that was offered leaves with the next number, and one that is offered when a session begins again is told once more.
#[test]
fn events_leave_once_they_are_heard() {
    let mut reader = reader(1);
    let event = |digits| Event::Keypad(Keypad { reader: 0, digits });
    reader.hear(&asked(5, 0, &[0x61, 0]));
    assert_eq!(reader.submit_event(&event(b"1")), Ok(()));
    let Response::Taken(_, bytes) = reader.hear(&asked(5, 1, &[0x60])) else { panic!() };
    assert_eq!(body(1, bytes), [0x53, 0, 1, 0x31]);
    assert_eq!(reader.submit_event(&event(b"2")), Err(Full));
    let Response::Taken(_, bytes) = reader.hear(&asked(5, 2, &[0x60])) else { panic!() };
    assert_eq!(body(2, bytes), [0x40]);
    assert_eq!(reader.submit_event(&event(b"2")), Ok(()));
    reader.hear(&asked(5, 3, &[0x60]));
    let Response::Zero(_, bytes) = reader.hear(&asked(5, 0, &[0x60])) else { panic!() };
    assert_eq!(body(0, bytes), [0x40]);
    let Response::Taken(_, bytes) = reader.hear(&asked(5, 1, &[0x60])) else { panic!() };
    assert_eq!(body(1, bytes), [0x53, 0, 1, 0x32]);
    assert_eq!(reader.waiting(), 1);
}

fn controller() -> Controller {
    let mut controller = Controller::new(controller::Settings::new(5, true), 2).unwrap();
    controller.begin(0).unwrap();
    controller
}

/// A reply of the reader, heard at a moment.
fn hear<'a>(controller: &'a mut Controller, number: u8, body: &'a [u8], now: u64) -> Option<Report<'a>> {
    controller.hear(&View { head: Head::plain(true, 5, number, true), body }, now)
}

fn opened() -> Controller {
    let mut controller = controller();
    assert_eq!(controller.tick(399), Step::Nothing);
    assert_eq!(controller.tick(400), Step::Send(View { head: Head::plain(false, 5, 0, true), body: &[0x61, 0] }));
    assert_eq!(hear(&mut controller, 0, &[0x40], 400), None);
    assert!(controller.outstanding());
    let mut burst = Burst::new();
    burst.write(Head::plain(true, 5, 0, true), |burst| Reply::PdId(ID).write(burst));
    assert_eq!(controller.hear(&View::of(burst.as_slice()), 400), Some(Report::Opened(ID)));
    controller
}

fn is_sent(step: Step<'_>, number: u8, body: &[u8]) -> bool {
    matches!(step, Step::Send(view) if view == View { head: Head::plain(false, 5, number, true), body })
}

#[test]
fn refusals_of_a_controller() {
    let settings = controller::Settings::new(5, true);
    let wrong = [
        controller::Settings { address: 127, ..settings },
        controller::Settings { sends: 0, ..settings },
        controller::Settings { waits: Waits { reply: 0, ..settings.waits }, ..settings },
        controller::Settings { waits: Waits { quiet: 3_600_001, ..settings.waits }, ..settings },
    ];
    for settings in wrong {
        assert_eq!(Controller::new(settings, 1).err(), Some(Refusal::OutOfRange));
    }
    assert_eq!(Controller::new(settings, 0).err(), Some(Refusal::OutOfRange));
    let mut controller = controller();
    assert_eq!(controller.begin(0), Err(Refusal::NotClosed));
    assert_eq!(controller.retarget(6), Err(Refusal::NotClosed));
    assert_eq!(controller.submit(&Command::Poll), Err(Refusal::Poll));
    assert_eq!(controller.submit(&Command::Status(States::Local)), Ok(()));
    assert_eq!(controller.submit(&Command::Id(0)), Ok(()));
    assert_eq!(controller.submit(&Command::Id(0)), Err(Refusal::Full));
    assert_eq!(controller.withdraw(), Some(Command::Status(States::Local)));
}

#[test]
fn exchanges_settle_and_polls_tell() {
    let mut controller = opened();
    let out = [3, 2, 0, 0];
    let command = Command::Output(Outputs::new(&out).unwrap());
    controller.submit(&command).unwrap();
    assert!(is_sent(controller.tick(400), 1, &[0x68, 3, 2, 0, 0]));
    assert_eq!(hear(&mut controller, 2, &[0x40], 410), None);
    assert_eq!(hear(&mut controller, 1, &[0x40], 410), Some(Report::Settled(command, Reply::Ack)));
    assert!(!controller.due(459));
    assert_eq!(controller.next_deadline(), Some(460));
    assert!(is_sent(controller.tick(460), 2, &[0x60]));
    let event = Event::Keypad(Keypad { reader: 0, digits: b"1" });
    assert_eq!(hear(&mut controller, 2, &[0x53, 0, 1, 0x31], 460), Some(Report::Event(event)));
    assert!(is_sent(controller.tick(510), 3, &[0x60]));
    assert_eq!(hear(&mut controller, 3, &[0x41, 9], 510), Some(Report::PollAnswered(Reply::Nak(NakReason::RECORD, &[]))));
    assert!(is_sent(controller.tick(560), 1, &[0x60]));
    assert_eq!(hear(&mut controller, 1, &[0x79, 0], 560), Some(Report::Unread(None, 0x79)));
    controller.submit(&Command::Status(States::Local)).unwrap();
    assert!(is_sent(controller.tick(560), 2, &[0x64]));
    assert_eq!(hear(&mut controller, 2, &[0x63], 560), Some(Report::Unread(Some(Command::Status(States::Local)), 0x63)));
}

#[test]
fn repeats_and_lost() {
    let mut controller = opened();
    controller.submit(&Command::Status(States::Local)).unwrap();
    controller.submit(&Command::Id(0)).unwrap();
    for moment in [400, 600, 800] {
        assert!(is_sent(controller.tick(moment), 1, &[0x64]));
    }
    assert_eq!(controller.sent_in_exchange(), 3);
    assert_eq!(controller.withdraw(), None);
    assert_eq!(controller.tick(1000), Step::Tell(Report::Lost(Cause::NoReply, Some(Command::Status(States::Local)))));
    assert!(controller.is_closed());
    assert_eq!(controller.withdraw(), Some(Command::Id(0)));
    assert_eq!(controller.withdraw(), None);
    assert_eq!(controller.retarget(127), Err(Refusal::OutOfRange));
    assert_eq!(controller.retarget(6), Ok(()));
    assert_eq!(controller.address(), 6);
}

#[test]
fn busy_pauses_and_then_loses() {
    let mut controller = Controller::new(controller::Settings { busy_limit: 1, ..controller::Settings::new(5, true) }, 2).unwrap();
    controller.begin(0).unwrap();
    controller.tick(400);
    assert_eq!(hear(&mut controller, 0, &[0x79], 400), None);
    assert_eq!(hear(&mut controller, 0, &[0x79], 400), None);
    assert_eq!(hear(&mut controller, 0, &[0x41, 1], 400), None);
    assert_eq!(controller.tick(449), Step::Nothing);
    assert!(is_sent(controller.tick(450), 0, &[0x61, 0]));
    assert_eq!(hear(&mut controller, 0, &[0x79], 450), Some(Report::Lost(Cause::TooBusy, None)));
}

#[test]
fn naks_of_the_link() {
    let mut controller = opened();
    assert!(is_sent(controller.tick(450), 1, &[0x60]));
    assert_eq!(hear(&mut controller, 1, &[0x41, 1], 451), None);
    assert!(is_sent(controller.tick(451), 1, &[0x60]));
    assert_eq!(hear(&mut controller, 1, &[0x41, 4, 7], 452), Some(Report::Lost(Cause::NumberRefused, None)));
}

#[test]
fn comset_moves_a_controller() {
    let mut controller = opened();
    let wanted = Communication { address: 7, rate: 9600 };
    let com = [0x54, 7, 0x80, 0x25, 0, 0];
    controller.submit(&Command::Comset(wanted)).unwrap();
    assert!(is_sent(controller.tick(400), 1, &[0x6e, 7, 0x80, 0x25, 0, 0]));
    assert_eq!(hear(&mut controller, 1, &com, 400), Some(Report::Moved(Command::Comset(wanted), wanted)));
    assert_eq!((controller.address(), controller.is_closed()), (7, true));
}
