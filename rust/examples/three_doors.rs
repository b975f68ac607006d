//! A panel for three doors: `three_doors PORT RATE`, with readers at 1, 2 and 3. A card of the list unlocks its doors for five seconds. A reader's LED is red, and
//! green while its door is unlocked. Input 0 of a reader is its door's contact, active while the door is open: its buzzer sounds once it is held open.
mod port;

use osdp::{
    Card, Command, EntryNumber, Moment, Panel, PanelConfig, Presence, Reply, Report, Site, color,
    state,
};
use port::door::take_back;
use port::{Keeps, Port, run_on_port, tell};
use std::error::Error;
use std::process::ExitCode;
use std::time::Duration;

const DOORS: usize = 3;
/// In tenths of a second.
const UNLOCK: u16 = 50;
/// After so long an open door is held open.
const HELD: Duration = Duration::from_secs(10);
/// When one is held open whose buzzer sounds already.
const SOUNDS: Moment = Moment::from_millis(u64::MAX);
/// How long it waits at most.
const TURN: Duration = Duration::from_millis(100);

/// Who may enter where: a card of 26 bits, and the doors.
const ENTRANTS: [([u8; 4], &[usize]); 2] = [
    ([0x12, 0x34, 0x56, 0x40], &[0, 1, 2]),
    ([0x65, 0x43, 0x21, 0x80], &[0]),
];

fn may_enter(card: &Card, door: usize) -> bool {
    let knows =
        |(known, doors): &([u8; 4], &[usize])| card.bytes() == known && doors.contains(&door);
    card.bits() == 26 && ENTRANTS.iter().any(knows)
}

type Done = Result<(), Box<dyn Error>>;

struct Doors {
    panel: Panel,
    site: Site<DOORS>,
    /// When a door is held open; none while it is closed.
    held: [Option<Moment>; DOORS],
}

impl Doors {
    fn new(now: Moment) -> Result<Doors, Box<dyn Error>> {
        let mut panel = Panel::new(&PanelConfig::default())?;
        let mut site = Site::new(&panel, now);
        for address in (1..).take(DOORS) {
            let door = panel.add(address, 0)?;
            site.wants(door, &Command::color(color::RED)?)?;
            site.wants(door, &Command::sound(false))?;
        }
        let held = [None; DOORS];
        Ok(Doors { panel, site, held })
    }

    /// The strike, output 0, and a green LED, both for a time: orders, which a reader that comes back doesn't get again. They go out until a moment.
    fn unlock(&mut self, door: EntryNumber, until: Moment) -> Done {
        let strike = Command::output_for(0, UNLOCK)?;
        let given = self.site.order(&mut self.panel, door, &strike, until)?;
        if given.is_some() {
            let green = Command::color_for(color::GREEN, UNLOCK)?;
            self.site.order(&mut self.panel, door, &green, until)?;
        }
        Ok(())
    }

    /// The door's contact, as an event or an answer tells it. That a door is still open, as where its reader was away, is no news. Else a buzzer is silent from
    /// then on: a state, which a reader that comes back gets again.
    fn take_contact(&mut self, door: EntryNumber, states: &[u8], now: Moment) -> Done {
        let is_open = states.first() == Some(&state::ACTIVE);
        let held = &mut self.held[door.index()];
        if is_open && held.is_some() {
            return Ok(());
        }
        *held = is_open.then_some(now + HELD);
        Ok(self.site.wants(door, &Command::sound(false))?)
    }

    fn take_reports(&mut self, port: &Port, now: Moment) -> Done {
        while let Some((told, change)) = self.site.next_report(&mut self.panel, now) {
            let door = told.entry;
            let number = door.index() + 1;
            if let Some(presence) = change {
                tell(format_args!("door {number} is {presence:?}"))?;
            }
            if let Some(Presence::Online(_)) = change {
                let asks = Command::input_status();
                self.site
                    .order(&mut self.panel, door, &asks, Moment::NEVER)?;
            }
            match (told.report, told.since) {
                // a card that may have been told before unlocks nothing again, and one of long ago nothing at all
                (Report::Event(Reply::Raw(card)), Some(since))
                    if !told.maybe_again && may_enter(&card, door.index()) =>
                {
                    self.unlock(door, since + port.late())?
                }
                (
                    Report::Event(Reply::Inputs(states))
                    | Report::Settled(_, Reply::Inputs(states)),
                    _,
                ) => self.take_contact(door, &states, now)?,
                (Report::Expired(order), _) => tell(format_args!("expired {number} {order}"))?,
                (Report::Lost(_, order), _) => take_back(&mut self.panel, door, order)?,
                _ => {}
            }
        }
        Ok(())
    }

    /// The buzzer sounds at each door that is held open.
    fn watch(&mut self, now: Moment) -> Done {
        for door in self.panel.entries() {
            let held = &mut self.held[door.index()];
            if held.is_some_and(|held| held <= now) {
                *held = Some(SOUNDS);
                self.site.wants(door, &Command::sound(true))?;
            }
        }
        Ok(())
    }
}

fn run(mut port: Port) -> Done {
    let mut doors = Doors::new(port.now())?;
    loop {
        let until = doors.site.wait_until(&doors.panel, port.now() + TURN);
        let came = port.wait(until)?;
        let now = came.now;
        for line in &came.lines {
            tell(format_args!("refused line {line}"))?;
        }
        doors.panel.set_moment(now); // also where the program was stopped for more than a day
        doors.panel.on_bytes(&came.bytes, now)?;
        doors.take_reports(&port, now)?;
        doors.watch(now)?;
        doors.site.act(&mut doors.panel, now)?;
        port.write_unsent(doors.panel.tick(now)?)?;
    }
}

fn main() -> ExitCode {
    run_on_port("three_doors", Keeps::Nothing, run)
}
