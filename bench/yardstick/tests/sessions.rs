//! Schedules, and what they come to.

use yardstick::commands::{Command, Outputs, States};
use yardstick::controller::{self, Cause};
use yardstick::reader;
use yardstick::replies::{Event, Keypad, PdId};
use yardstick::session::{run_session, Account, End, Fault, Messages, Move, SimConfig, SimStep, Stop};
use yardstick::script::told;
use yardstick::work::{done, Device};

const TO_READER: SimStep<'_> = SimStep::ToReader(Move::Deliver);
const TO_CONTROLLER: SimStep<'_> = SimStep::ToController(Move::Deliver);
const DROPPED: SimStep<'_> = SimStep::ToReader(Move::Drop);
const OUT: [u8; 4] = [0, 2, 0, 0];
const PRESSED: Event<'_> = Event::Keypad(Keypad { reader: 0, digits: b"1" });

fn run(steps: &[SimStep<'_>]) -> Result<Account, Box<Fault>> {
    let id = PdId([0x53, 0x49, 0x4d, 1, 1, 1, 0, 0, 0, 1, 0, 0]);
    let reader = reader::Settings { address: 5, id, caps: Vec::new() };
    let controller = controller::Settings::new(5, true);
    run_session(&SimConfig { reader, events: 4, controller, commands: 4 }, Device, steps)
}

fn out() -> SimStep<'static> {
    SimStep::Issue(1, Command::Output(Outputs::new(&OUT).unwrap()))
}

/// A session that opens, and so many rounds without losses.
fn clean(rounds: usize) -> Vec<SimStep<'static>> {
    let opening = [SimStep::Wait(400), TO_READER, TO_CONTROLLER];
    let round = [SimStep::Wait(50), TO_READER, TO_CONTROLLER];
    [&opening[..], &round.repeat(rounds)].concat()
}

fn lists(messages: &Messages) -> Vec<&[u8]> {
    messages.iter().collect()
}

#[test]
fn rounds_settle_and_then_report() {
    let buzzer = SimStep::Issue(1, Command::of(&[0x6a, 0, 2, 5, 5, 1]).unwrap());
    let mut steps = vec![out(), buzzer, SimStep::Queue(1, PRESSED), SimStep::Queue(1, PRESSED), SimStep::Issue(2, Command::Status(States::Local))];
    steps.extend(clean(3));
    let account = run(&steps).unwrap();
    let both: [&[u8]; 2] = [&[0x68, 0, 2, 0, 0], &[0x6a, 0, 2, 5, 5, 1]];
    assert_eq!(lists(&account.issued), both);
    assert_eq!(lists(&account.taken), both);
    assert_eq!(lists(&account.settled), both);
    assert_eq!(lists(&account.answers), [[0x40], [0x40]]);
    assert_eq!(lists(&account.queued).len(), 2);
    assert_eq!(lists(&account.reported), [[0x53, 0, 1, 0x31]]);
    assert_eq!((account.unsettled.is_empty(), &account.ends[..], account.sessions.len()), (true, &[][..], 1));
}

/// The reader's answer is lost and comes again; the command is done once.
#[test]
fn a_lost_answer() {
    let mut steps = vec![out()];
    steps.extend(clean(0));
    steps.extend([SimStep::Wait(50), TO_READER, SimStep::ToController(Move::Drop), SimStep::Wait(200), TO_READER, TO_CONTROLLER]);
    let account = run(&steps).unwrap();
    assert_eq!((account.taken.len(), account.settled.len()), (1, 1));
}

/// Every copy is lost, so the session ends; the next one tells the event, and the command isn't sent again.
#[test]
fn a_session_that_ends() {
    let mut steps = clean(0);
    steps.extend([out(), SimStep::Queue(1, PRESSED)]);
    steps.extend([SimStep::Wait(50), DROPPED, SimStep::Wait(200), DROPPED, SimStep::Wait(200), DROPPED, SimStep::Wait(200)]);
    steps.push(SimStep::Reopen(1));
    steps.extend(clean(1));
    let account = run(&steps).unwrap();
    assert_eq!((account.taken.len(), account.unsettled.len(), account.reported.len()), (0, 1, 1));
    assert_eq!(account.ends, [End::Lost(Cause::NoReply)]);
    assert_eq!(account.sessions[1][3], 1, "unsettled");
}

/// Busy, a repeated burst and damage change nothing but the time.
#[test]
fn noise_on_the_line() {
    let mut steps = vec![out(), SimStep::Busy(1, true)];
    steps.extend([SimStep::Wait(400), TO_READER, TO_CONTROLLER, SimStep::Busy(1, false)]);
    steps.extend([SimStep::Wait(50), SimStep::ToReader(Move::Repeat), TO_READER, TO_CONTROLLER, TO_CONTROLLER]);
    steps.extend([SimStep::Wait(50), TO_READER, SimStep::ToController(Move::Damage(&[0x53]))]);
    steps.extend([SimStep::Wait(200), TO_READER, TO_CONTROLLER]);
    let account = run(&steps).unwrap();
    assert_eq!((account.taken.len(), account.settled.len(), account.ends.len()), (1, 1, 0));
}

#[test]
fn schedules_that_stop() {
    let packet = [0x53, 0, 7, 0, 0, 0x60, 0x46];
    let fault = run(&[out(), SimStep::ToReader(Move::Damage(&packet))]).unwrap_err();
    assert_eq!((fault.step, fault.stop, fault.account.issued.len()), (2, Stop::HoldsPacket, 1));
    let fault = run(&[SimStep::Reopen(1)]).unwrap_err();
    assert_eq!((fault.step, fault.stop), (1, Stop::NotQuiet));
}

#[test]
fn work_comes_out() {
    for kind in ["poll", "out", "turn", "poll_heard", "out_heard", "repeat", "ignored", "idle"] {
        assert_eq!(done(kind, 250), Some(250), "{kind}");
    }
    for kind in ["encode", "encode_to", "framer_sum", "framer_crc", "crc", "session_poll", "session_out"] {
        assert_eq!(done(kind, 250), Some(250), "{kind}");
    }
    assert_eq!(done("dim", 1), None);
}

/// A script with its messages as digits, and the account of it.
#[test]
fn a_script() {
    let script = "check sum\nreader 5 4\nissue 1 6800020000\nqueue 1 53000131\nwait 400\nto-reader deliver\nto-controller deliver\n\
                  wait 50\nto-reader deliver\nto-controller deliver\nwait 50\nto-reader deliver\nto-controller deliver\n";
    let account = "reader 1 issued 1 taken 1 settled 1 unsettled 0 queued 1 reported 1\n\
                   taken 6800020000\nsettled 6800020000 = 40\nreported 53000131\n";
    assert_eq!(told(script).as_deref(), Some(account));
    assert_eq!(told("check sum\nreader 5 4\ndim 1\n"), None);
}
