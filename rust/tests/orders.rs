//! The numbers and the last moments of orders, and since when events are there.
mod settings;

use osdp::{
    Command, Device, DeviceConfig, EntryNumber, Error, LostCause, Moment, Panel, PanelConfig,
    PanelReport, Report,
};
use settings::DEVICE;
use std::time::Duration;

const LSTAT: u8 = 0x64;
const POLL: u8 = 0x60;

fn at(milliseconds: u64) -> Moment {
    Moment::from_millis(milliseconds)
}

/// Both ends, joined in memory, and what has come of them.
struct Line {
    panel: Panel,
    door: EntryNumber,
    device: Device,
    is_there: bool,
    answered: Vec<u8>,
    /// The codes of the packets that went out, and when.
    sent: Vec<(u64, u8)>,
    told: Vec<PanelReport>,
    now: u64,
}

/// A session that is open, of a device whose next order has this number, and nothing is on its way.
fn line(next_number: u64) -> Line {
    let mut panel = Panel::new(&PanelConfig::default()).unwrap();
    let door = panel.add(5, next_number).unwrap();
    panel.begin(door, at(0)).unwrap();
    let device = Device::new(&DeviceConfig {
        clock_limit: Duration::ZERO, // a day: the device is away for a while
        ..DEVICE
    });
    let mut line = Line {
        panel,
        door,
        device: device.unwrap(),
        is_there: true,
        answered: Vec::new(),
        sent: Vec::new(),
        told: Vec::new(),
        now: 0,
    };
    line.run(1000);
    line.rests();
    assert!(matches!(&line.told[..], [told] if matches!(told.report, Report::Opened(_))));
    line.told.clear();
    line
}

impl Line {
    fn answer(&mut self, mut bytes: &[u8]) {
        loop {
            let step = self.device.step(bytes, at(self.now)).unwrap();
            bytes = &bytes[step.taken..];
            match step.answer {
                Some(answer) => drop(answer.send(|burst| -> Result<(), Error> {
                    self.answered.extend(burst);
                    Ok(())
                })),
                None if bytes.is_empty() => return,
                None => {}
            }
        }
    }

    /// Both ends run up to a moment, a millisecond each time.
    fn run(&mut self, until: u64) {
        while self.now < until {
            let (bytes, now) = (std::mem::take(&mut self.answered), at(self.now));
            self.panel.on_bytes(&bytes, now).unwrap();
            while let Some(told) = self.panel.next_report() {
                self.told.push(told);
            }
            let burst = self.panel.tick(now).unwrap().write(now).unwrap().to_vec();
            if let Some(code) = burst.get(5) {
                self.sent.push((self.now, *code));
            }
            if self.is_there {
                self.answer(&burst);
            }
            self.now += 1;
        }
    }

    /// Runs until the last packet was answered some time ago.
    fn rests(&mut self) {
        while self.sent.last().is_none_or(|sent| sent.0 + 5 > self.now) {
            self.run(self.now + 1);
        }
    }

    fn submit(&mut self, until: u64) -> u64 {
        let asks = Command::local_status();
        self.panel.submit(self.door, &asks, at(until)).unwrap()
    }

    /// When an order went out.
    fn ordered(&self) -> Vec<u64> {
        let ordered = self.sent.iter().filter(|sent| sent.1 == LSTAT);
        ordered.map(|sent| sent.0).collect()
    }
}

#[test]
fn numbers_go_on() {
    let mut line = line(7);
    assert_eq!(line.panel.next_number(line.door), Ok(7));
    assert_eq!((line.submit(2000), line.submit(2000)), (7, 8));
    let text = "OUT 0:5:30";
    let submitted = line.panel.submit_text(line.door, text, Moment::NEVER);
    assert_eq!(submitted, Ok(9));
    let refused = line.panel.submit_text(line.door, "POLL", Moment::NEVER);
    assert_eq!(refused, Err(Error::PollSubmitted));
    assert_eq!(line.panel.next_number(line.door), Ok(10));
    line.device.event_text("KEYPAD 0 31").unwrap();
    line.run(2000);
    let numbers: Vec<_> = line.told.iter().map(|told| told.number).collect();
    assert_eq!(numbers, [Some(7), None, Some(8), Some(9)]);
    assert!(line.told.iter().all(|told| told.entry == line.door));
    let mut other = Panel::new(&PanelConfig::default()).unwrap();
    assert_eq!(other.next_number(line.door), Err(Error::NoEntry));
    let number = other.add(5, 10).map(|door| other.next_number(door));
    assert_eq!(number, Ok(Ok(10)));
}

/// No order has the number 2^64 - 1.
#[test]
fn numbers_are_used_up() {
    let mut line = line(u64::MAX - 1);
    assert_eq!(line.submit(2000), u64::MAX - 1);
    let asks = Command::local_status();
    let refused = line.panel.submit(line.door, &asks, Moment::NEVER);
    assert_eq!(refused, Err(Error::NumbersUsedUp));
    let refused = line.panel.submit_text(line.door, "LSTAT", Moment::NEVER);
    assert_eq!(refused, Err(Error::NumbersUsedUp));
    assert_eq!(line.panel.next_number(line.door), Ok(u64::MAX));
    assert_eq!(line.panel.waiting(line.door), Ok(1));
    let other = line.panel.add(6, 0).unwrap();
    assert_eq!(line.panel.submit(other, &asks, Moment::NEVER), Ok(0));
}

/// An order goes out at its last moment, and not a millisecond later.
#[test]
fn the_last_moment_counts() {
    let mut line = line(0);
    let now = line.now;
    line.submit(now);
    line.run(now + 1);
    assert_eq!(line.ordered(), [now]);
    line.run(now + 100);
    line.rests();
    assert!(matches!(&line.told[..], [told] if matches!(told.report, Report::Settled(..))));
    line.told.clear();
    let now = line.now;
    let submitted = line.panel.submit_text(line.door, "LSTAT", at(now - 1));
    assert_eq!(submitted, Ok(1));
    assert_eq!(line.panel.next_deadline(), Some(at(now - 1))); // at once: it is late already
    let unsent = line.panel.tick(at(now)).unwrap();
    assert!(!unsent.is_one() && unsent.write(at(now)).unwrap().is_empty());
    line.run(now + 100);
    let Some(told) = line.told.pop() else {
        panic!("nothing is told");
    };
    assert_eq!(told.report, Report::Expired(Command::local_status()));
    assert_eq!(
        (told.number, told.since, told.too_late),
        (Some(1), None, false)
    );
    assert!(line.ordered().len() == 1 && line.told.is_empty());
    assert_eq!(line.panel.withdraw(line.door), Ok(None));
}

/// The program stands still between the tick and the writing: then the order isn't given out, nor later. It is in doubt, and told so by its number.
#[test]
fn what_is_written_too_late_is_withheld() {
    for late in [0, 1] {
        let mut line = line(0);
        let now = line.now;
        line.submit(now + 100);
        let unsent = line.panel.tick(at(now)).unwrap();
        assert!(unsent.is_one());
        let burst = unsent.write(at(now + 100 + late)).unwrap();
        assert_eq!(burst.len(), [8, 0][late as usize]); // LSTAT with a CRC
        (line.is_there, line.now) = (false, now + 101);
        line.run(now + 2000);
        assert!(line.ordered().is_empty());
        let Some(told) = line.told.pop() else {
            panic!("nothing is told");
        };
        let lost = Report::Lost(LostCause::NoReply, Some(Command::local_status()));
        assert_eq!(
            (told.report, told.number, told.too_late),
            (lost, Some(0), true)
        );
    }
}

/// An order whose session is lost while it still might be sent isn't too late.
#[test]
fn what_is_lost_in_time_is_not_too_late() {
    let mut line = line(0);
    line.submit(10_000);
    line.is_there = false;
    line.run(line.now + 2000);
    assert_eq!(line.ordered().len(), 3);
    let told = line.told.pop().map(|told| (told.number, told.too_late));
    assert_eq!(told, Some((Some(0), false)));
}

/// An event is there since its POLL first went out: later ones with the same number may have brought it too.
#[test]
fn an_event_is_as_old_as_its_poll() {
    let mut line = line(0);
    line.is_there = false;
    line.sent.clear();
    while line.sent.is_empty() {
        line.run(line.now + 1);
    }
    line.device.event_text("KEYPAD 0 31").unwrap();
    line.is_there = true;
    line.run(line.now + 300);
    let first = line.sent[0].0;
    assert_eq!(line.sent[..2], [(first, POLL), (first + 200, POLL)]);
    let Some(told) = line.told.pop() else {
        panic!("nothing is told");
    };
    assert!(matches!(told.report, Report::Event(_)));
    assert_eq!((told.since, told.number), (Some(at(first)), None));
    assert!(!told.maybe_again && !told.too_late);
}
