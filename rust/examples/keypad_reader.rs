//! A device with a card reader, a keypad and a relay: `keypad_reader [--keep FILE [--new]] PORT RATE`, at address 1, or where the file has it after a COMSET. A line
//! `RAW 0 0 26 12345640` is a card, `KEYPAD 0 31323334` are keys, and `ISTATR 01` the door's contact. The relay, output 0, is on for the time that is ordered. LED
//! and buzzer are told as they are ordered.
mod port;

use osdp::{
    Answer, Command, Device, DeviceAnswer, DeviceConfig, Moment, NakReason, Order, Output, output,
};
use port::device::{Said, is_too_old, let_go, take_turn};
use port::{Keeps, Port, run_on_port, tell};
use std::error::Error;
use std::io;
use std::process::ExitCode;
use std::time::Duration;

/// How long it waits at most.
const TURN: Duration = Duration::from_millis(10);
/// How long an event may wait while no panel is there.
const TOO_OLD: Duration = Duration::from_secs(30);

type Done = Result<(), Box<dyn Error>>;

/// Whether an output may be switched so: the relay for a time, or off. A door may not stand open for good.
fn may_be_done(record: &Output) -> bool {
    record.output == 0 && matches!(record.control, output::OFF | output::ON_FOR_A_TIME)
}

/// What is said to a command, where it isn't answered as it was set.
fn decide(command: &Command) -> Option<DeviceAnswer<'static>> {
    let refused = DeviceAnswer::Refused(NakReason::RecordNotProcessed);
    let may = command.outputs().all(|record| may_be_done(&record));
    (!may).then_some(refused)
}

struct Reader {
    port: Port,
    /// When the relay goes off; none while it is off.
    relay: Option<Moment>,
}

impl Reader {
    fn switch(&mut self, ends: Option<Moment>) -> io::Result<()> {
        self.relay = ends;
        tell(match ends {
            Some(_) => "relay on",
            None => "relay off",
        })
    }

    /// Acts, and then sends the answer: so what is answered was done. What is to be said to a command that waits for it.
    fn obey(&mut self, answer: Answer<'_>, now: Moment) -> Said {
        if let Some(Order::Once(command)) = answer.order() {
            for record in command.outputs() {
                let time = Duration::from_millis(100) * u32::from(record.timer);
                let on = record.control == output::ON_FOR_A_TIME && record.timer > 0; // a timer of 0 ends it
                self.switch(on.then_some(now + time))?;
            }
            if command.outputs().next().is_none() {
                tell(command)?;
            }
        }
        match self.port.send(answer, now)? {
            Some(Order::Pending(command)) => Ok(decide(&command)),
            _ => Ok(None),
        }
    }
}

/// A card, keys or the contact, by its text: it is told to the next POLL. What the contact is from now on is the answer to ISTAT, also where as many events wait
/// as may.
fn take_line(device: &mut Device, contact: &mut u8, line: &str) -> Result<(), osdp::Error> {
    match line {
        "ISTATR 00" => *contact = 0,
        "ISTATR 01" => *contact = 1,
        _ => {}
    }
    device.set_inputs(&[*contact])?;
    device.event_text(line)
}

/// The device, made where it is, with what its contact is.
fn start(address: u8, contact: u8) -> Result<Device, osdp::Error> {
    let mut device = Device::new(&DeviceConfig::new(address))?;
    device.set_inputs(&[contact])?;
    device.set_outputs(&[0])?;
    Ok(device)
}

fn run(mut port: Port) -> Done {
    let (mut device, mut contact) = (start(port.address(1)?, 0)?, 0);
    let mut reader = Reader { port, relay: None };
    reader.switch(None)?; // the program before this one may have left it on
    loop {
        let came = reader.port.wait(reader.port.now() + TURN)?;
        let now = came.now;
        let_go(&mut device, now, TOO_OLD)?; // before anything is heard: so a panel that is back gets no card of long ago
        if reader.relay.is_some_and(|ends| ends <= now) {
            reader.switch(None)?;
        }
        device.set_outputs(&[reader.relay.is_some().into()])?;
        for line in &came.lines {
            if !is_too_old(&came, line)? && take_line(&mut device, &mut contact, line).is_err() {
                tell("refused line")?;
            }
        }
        take_turn(&mut device, &came, |answer| reader.obey(answer, now))?;
        let start = |address| start(address, contact);
        reader.port.starts_anew(&mut device, start)?;
    }
}

fn main() -> ExitCode {
    // However it ends, the relay goes off: nobody else would switch it.
    run_on_port("keypad_reader", Keeps::Places, |port| {
        run(port).inspect_err(|_| drop(tell("relay off")))
    })
}
