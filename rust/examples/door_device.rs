//! A device with two outputs: `door_device [--keep FILE [--new]] PORT RATE`, at address 5, or where the file has it after a COMSET. A line `card 12345640` is a card.
//! Each output that is switched on is printed, and so is a card that was too old.
mod port;

use osdp::{
    Answer, Card, Command, Device, DeviceAnswer, DeviceConfig, Moment, NakReason, Order, Output,
    Reply, card, output,
};
use port::device::{Said, is_too_old, let_go, take_turn};
use port::{Keeps, Port, run_on_port, tell};
use std::error::Error;
use std::process::ExitCode;
use std::time::Duration;

/// How long it waits at most.
const TURN: Duration = Duration::from_millis(10);
/// How long a card may wait while no panel is there.
const TOO_OLD: Duration = Duration::from_secs(30);

/// Whether an output may be switched so: for a time, or off. A door may not stand open for good.
fn may_be_done(record: &Output) -> bool {
    record.output < 2 && matches!(record.control, output::OFF | output::ON_FOR_A_TIME)
}

/// What is said to a command, where it isn't answered as it was set.
fn decide(command: &Command) -> Option<DeviceAnswer<'static>> {
    let refused = DeviceAnswer::Refused(NakReason::RecordNotProcessed);
    let may = command.outputs().all(|record| may_be_done(&record));
    (!may).then_some(refused)
}

/// The card that a line tells: 26 bits at the first reader.
fn card_of(line: &str) -> Option<Reply> {
    let bits = u32::from_str_radix(line.strip_prefix("card ")?, 16).ok()?;
    Card::new(0, card::RAW, 26, &bits.to_be_bytes()).map(Reply::Raw)
}

type Done = Result<(), Box<dyn Error>>;

/// Acts, and then sends the answer: so what is answered was done, also where power is lost in between. What is to be said to a command that waits for it.
fn obey(answer: Answer<'_>, port: &mut Port, now: Moment) -> Said {
    if let Some(Order::Once(command)) = answer.order() {
        let opens = |record: &Output| record.control == output::ON_FOR_A_TIME;
        for record in command.outputs().filter(opens) {
            tell(format_args!("on {}", record.output))?;
        }
    }
    match port.send(answer, now)? {
        Some(Order::Pending(command)) => Ok(decide(&command)),
        _ => Ok(None),
    }
}

/// The device, made where it is.
fn start(address: u8) -> Result<Device, osdp::Error> {
    let mut device = Device::new(&DeviceConfig::new(address))?;
    device.set_outputs(&[0, 0]).map(|()| device)
}

fn run(mut port: Port) -> Done {
    let mut device = start(port.address(5)?)?;
    loop {
        let came = port.wait(port.now() + TURN)?;
        let now = came.now;
        let_go(&mut device, now, TOO_OLD)?; // before anything is heard: so a panel that is back gets no card of long ago
        for line in &came.lines {
            match card_of(line) {
                Some(_) if is_too_old(&came, line)? => {}
                Some(card) if device.submit_event(&card).is_ok() => {}
                _ => tell("refused line")?,
            }
        }
        take_turn(&mut device, &came, |answer| obey(answer, &mut port, now))?;
        port.starts_anew(&mut device, start)?;
    }
}

fn main() -> ExitCode {
    run_on_port("door_device", Keeps::Places, run)
}

#[test]
fn a_door_does_not_stand_open() {
    let record = |output, control| Output {
        output,
        control,
        timer: 30,
    };
    let opens = output::ON_FOR_A_TIME;
    assert!(may_be_done(&record(0, opens)) && may_be_done(&record(1, output::OFF)));
    assert!(!may_be_done(&record(0, output::ON)) && !may_be_done(&record(2, opens)));
}
