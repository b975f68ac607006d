//! A panel that opens a door for two cards: `door_panel [--keep FILE [--new]] PORT RATE`. The door is the device at address 5. What it reports is printed. A line
//! `move 7 9600` gives the device another address and rate, which FILE keeps: a panel that starts again finds it there. `--new` makes FILE.
mod port;

use osdp::{Card, Command, Error, Moment, Output, Panel, PanelConfig, Reply, Report, output};
use port::door::Door;
use port::{Keeps, Port, run_on_port, tell};
use std::process::ExitCode;
use std::time::Duration;

/// How long it waits at most.
const TURN: Duration = Duration::from_millis(100);

/// The door's strike, its output 0, on for three seconds.
const STRIKE: Output = Output {
    output: 0,
    control: output::ON_FOR_A_TIME,
    timer: 30,
};

/// Whether a card opens the door: two cards of 26 bits do.
fn may_enter(card: &Card) -> bool {
    let cards = [[0x12, 0x34, 0x56, 0x40], [0x65, 0x43, 0x21, 0x80]];
    card.bits() == 26 && cards.iter().any(|known| card.bytes() == known)
}

type Done = Result<(), Box<dyn std::error::Error>>;

/// Takes what the panel reports, and does what is to be done about it.
fn take_reports(panel: &mut Panel, door: &mut Door, port: &Port, now: Moment) -> Done {
    while let Some(told) = panel.next_report() {
        tell(format_args!("{:?}", told.report))?;
        door.heed(&told.report, now)?;
        // a card that may have been told before makes no second order
        if let (Report::Event(Reply::Raw(card)), Some(since)) = (&told.report, told.since)
            && door.may_order
            && !told.maybe_again
            && may_enter(card)
        {
            let until = since + port.late(); // the door opens in time for its card, or not at all
            match panel.submit(door.entry, &Command::out(&[STRIKE])?, until) {
                Err(Error::Full) => {} // as many orders wait as may: the door stays closed
                done => drop(done?),
            }
        }
    }
    Ok(())
}

fn run(mut port: Port) -> Done {
    let mut panel = Panel::new(&PanelConfig::default())?;
    let mut door = Door::add(&mut panel, &port, 5)?;
    loop {
        let until = door.site.wait_until(&panel, port.now() + TURN);
        let came = port.wait(until)?;
        let now = came.now;
        panel.set_moment(now); // also where the program was stopped for more than a day
        panel.on_bytes(&came.bytes, now)?;
        take_reports(&mut panel, &mut door, &port, now)?;
        for line in &came.lines {
            if !door.take_line(&mut panel, line, came.typed + port.late())? {
                tell(format_args!("refused line {line}"))?;
            }
        }
        door.begin(&mut panel, &mut port, now)?;
        door.write(&mut port, panel.tick(now)?)?;
    }
}

fn main() -> ExitCode {
    run_on_port("door_panel", Keeps::Places, run)
}

#[test]
fn two_cards_open() {
    let enters = |bytes| Card::new(0, 0, 26, bytes).is_some_and(|card| may_enter(&card));
    assert!(enters(&[0x12, 0x34, 0x56, 0x40]) && enters(&[0x65, 0x43, 0x21, 0x80]));
    assert!(!enters(&[0x12, 0x34, 0x56, 0x80]));
}
