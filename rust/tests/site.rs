//! A site over a panel and a device, which are joined in memory: what is refused; that states come once after each opening, the latest of each, and in their
//! order, also where the panel has room for one command; that a state which is longer than the panel's room keeps none waiting; that orders for a time are not
//! repeated; when sessions begin; that no order goes out late where the program stood still; and that a moment too far ahead takes nothing back.
mod settings;

use osdp::{
    Buzzer, Command, Device, DeviceConfig, EntryNumber, Error, Led, Moment, Order, Output, Panel,
    PanelConfig, Presence, Reply, Report, Site, SiteError, Step, Text, color,
};
use settings::DEVICE;
use std::time::Duration;

fn at(milliseconds: u64) -> Moment {
    Moment::from_millis(milliseconds)
}

/// Both ends, and what has come of them.
struct Line {
    panel: Panel,
    site: Site<1>,
    door: EntryNumber,
    device: Device,
    is_there: bool,
    answered: Vec<u8>,
    taken: Vec<String>,
    told: Vec<Presence>,
    /// The orders that were lost, by their numbers, and whether they were too late to be sent again; and those that expired.
    lost: Vec<(Option<u64>, bool)>,
    expired: Vec<Option<u64>>,
    now: u64,
}

/// The settings of a panel with room for one command.
fn one() -> PanelConfig {
    PanelConfig {
        capacity: 1,
        ..PanelConfig::default()
    }
}

fn line() -> Line {
    line_over(Panel::new(&one()).unwrap())
}

fn line_over(mut panel: Panel) -> Line {
    let door = panel.add(5, 0).unwrap();
    let mut device = Device::new(&DeviceConfig {
        clock_limit: Duration::ZERO, // a day: the device is away for a while
        ..DEVICE
    })
    .unwrap();
    device.set_outputs(&[0]).unwrap();
    let site = Site::new(&panel, at(1000));
    Line {
        panel,
        site,
        door,
        device,
        is_there: true,
        answered: Vec::new(),
        taken: Vec::new(),
        told: Vec::new(),
        lost: Vec::new(),
        expired: Vec::new(),
        now: 1000,
    }
}

impl Line {
    fn take_reports(&mut self) {
        while let Some((told, change)) = self.site.next_report(&mut self.panel, at(self.now)) {
            match told.report {
                Report::Lost(..) => self.lost.push((told.number, told.too_late)),
                Report::Expired(_) => self.expired.push(told.number),
                _ => {}
            }
            self.told.extend(change);
        }
    }

    fn answer(&mut self, mut bytes: &[u8]) {
        loop {
            let Step { taken, answer } = self.device.step(bytes, at(self.now)).unwrap();
            bytes = &bytes[taken..];
            match answer {
                Some(answer) => {
                    if let Some(Order::Once(command)) = answer.order() {
                        self.taken.push(command.to_string());
                    }
                    let put = |burst: &[u8]| {
                        self.answered.extend(burst);
                        Ok::<(), Error>(())
                    };
                    answer.send(put).unwrap();
                }
                None if bytes.is_empty() => return,
                None => {}
            }
        }
    }

    /// Both ends run up to a moment, a millisecond each time.
    fn run(&mut self, until: u64) {
        while self.now < until {
            let bytes = std::mem::take(&mut self.answered);
            let now = at(self.now);
            self.panel.on_bytes(&bytes, now).unwrap();
            self.take_reports();
            self.site.act(&mut self.panel, now).unwrap();
            let burst = self.panel.tick(now).unwrap().write(now).unwrap().to_vec();
            if self.is_there {
                self.answer(&burst);
            }
            self.now += 1;
        }
    }

    /// Orders that the strike is on for so many tenths of a second, until a moment.
    fn order(&mut self, tenths: u16, until: Moment) -> Result<Option<u64>, Error> {
        let strike = Command::output_for(0, tenths).unwrap();
        self.site.order(&mut self.panel, self.door, &strike, until)
    }

    fn wants(&mut self, command: &Command) {
        assert_eq!(self.site.wants(self.door, command), Ok(()));
    }
}

#[test]
fn states_come_again_and_orders_do_not() {
    let mut line = line();
    line.wants(&Command::color(color::RED).unwrap());
    line.wants(&Command::sound(false));
    line.wants(&Command::color(color::GREEN).unwrap());
    line.wants(&Command::text(&Text::new(b"AB").unwrap()));
    assert_eq!(line.order(50, Moment::NEVER), Ok(None));
    line.run(3000);
    let (sound, green, text) = (
        "BUZ 0 1 5 5 0",
        "LED 0:0:0:0:0:0:0:0:1:1:0:2:2",
        "TEXT 0 1 0 1 1 4142",
    );
    assert_eq!(line.taken, [sound, green, text]);
    assert_eq!(line.told, [Presence::Online(at(1401))]);
    assert!(line.site.is_refreshed(line.door) && line.site.next_deadline().is_none());
    line.taken.clear();
    assert_eq!(line.order(50, Moment::NEVER), Ok(Some(3))); // after three states
    line.run(3500);
    assert_eq!(line.taken, ["OUT 0:5:50"]);

    // the device is gone, and comes back
    (line.is_there, line.answered) = (false, Vec::new());
    line.taken.clear();
    line.run(6000);
    assert_eq!(line.told.len(), 2);
    assert!(
        matches!(line.told[1], Presence::Offline(since) if since > at(3500) && since < at(4500))
    );
    assert_eq!(line.site.presence(line.door), Some(line.told[1]));
    line.is_there = true;
    line.run(12000);
    assert_eq!(line.taken, [sound, green, text]);
    assert!(line.told.len() == 3 && line.site.is_refreshed(line.door));
}

/// One order has gone out and one waits as the program stands still: neither goes out later. The first one is in doubt, and the next one is done.
#[test]
fn no_order_goes_out_late() {
    let mut line = line();
    line.run(3000);
    line.is_there = false;
    assert_eq!(line.order(50, at(8000)), Ok(Some(0)));
    line.run(3050); // it has gone out, and nobody has heard it
    assert_eq!(line.order(51, at(8050)), Ok(Some(1))); // that one waits
    (line.is_there, line.now) = (true, 8051);
    line.run(12_000);
    assert_eq!(
        (&line.lost[..], &line.expired[..]),
        (&[(Some(0), true)][..], &[Some(1)][..])
    );
    assert!(line.taken.is_empty() && line.told.len() == 3);
    assert_eq!(line.order(52, at(13_000)), Ok(Some(2)));
    line.run(13_000);
    assert_eq!(line.taken, ["OUT 0:5:52"]);
}

/// An order that waits for a POLL is told as expired, by its number, once its last moment has passed.
#[test]
fn an_order_that_waits_expires() {
    let mut line = line_over(Panel::new(&PanelConfig::default()).unwrap());
    line.run(3000);
    let until = at(line.now + 20); // a POLL comes 50 ms after an answer
    assert_eq!(line.order(50, until), Ok(Some(0)));
    assert_eq!(line.order(51, until), Ok(Some(1)));
    line.run(3500);
    assert_eq!(line.taken, ["OUT 0:5:50"]);
    assert_eq!((&line.expired[..], line.lost.len()), (&[Some(1)][..], 0));
}

#[test]
fn what_lasts_for_a_time_is_refused() {
    let mut line = line();
    let output = |output, control| Output {
        output,
        control,
        timer: 30,
    };
    let out = |records: &[Output]| Command::out(records).unwrap();
    let buzzer = |tone, count| {
        Command::buzzer(&Buzzer {
            reader: 0,
            tone,
            on_time: 5,
            off_time: 5,
            count,
        })
    };
    let text = Text::new(b"AB").unwrap();
    let rows = [
        (out(&[output(0, 5)]), SiteError::Timed),
        (out(&[output(0, 6)]), SiteError::Timed),
        (out(&[output(0, 0)]), SiteError::NoState),
        (out(&[output(0, 7)]), SiteError::NoState),
        (out(&[output(0, 1), output(1, 1)]), SiteError::Several),
        (
            Command::color_for(color::RED, 50).unwrap(),
            SiteError::Timed,
        ),
        (Command::led(&[Led::default()]).unwrap(), SiteError::NoState),
        (
            Command::led(&[Led::default(); 2]).unwrap(),
            SiteError::Several,
        ),
        (buzzer(2, 3), SiteError::Timed),
        (buzzer(2, 1), SiteError::Timed),
        (buzzer(0, 0), SiteError::NoState),
        (Command::text(&text.for_seconds(5)), SiteError::Timed),
        (Command::raw(0x65, &[]).unwrap(), SiteError::NoState),
        (Command::comset(7, 9600).unwrap(), SiteError::NoState),
    ];
    for (command, error) in rows {
        assert_eq!(line.site.wants(line.door, &command), Err(error));
    }
    for number in 0..=16 {
        let wanted = line.site.wants(line.door, &out(&[output(number, 2)]));
        let full = Err(SiteError::Full);
        assert_eq!(wanted, if number < 16 { Ok(()) } else { full });
    }
    line.wants(&out(&[output(3, 1)])); // the same again needs no room
    let other = line.panel.add(6, 0).unwrap(); // the site has one entry
    let wanted = line.site.wants(other, &Command::sound(false));
    assert_eq!(wanted, Err(SiteError::NoEntry));
}

/// A state that is longer than the panel's room is refused: it would keep each state after it waiting. One that just fits goes out, and so do those after it.
#[test]
fn what_is_too_long_keeps_no_state_waiting() {
    let mut line = line_over(Panel::with_room(&one(), 12).unwrap());
    let text = |shown| Text::new(shown).unwrap();
    let long = Command::text(&text(b"ABCDEF")); // 13 bytes with its code
    let too_long = Err(SiteError::TooLong);
    assert_eq!(line.site.wants(line.door, &long), too_long);
    line.wants(&Command::text(&text(b"ABCDE")));
    line.wants(&Command::sound(false));
    assert_eq!(line.site.wants(line.door, &long), too_long); // what was wanted stays
    let timed = Command::text(&text(b"ABCDEF").for_seconds(5));
    assert_eq!(line.site.wants(line.door, &timed), Err(SiteError::Timed));
    line.run(4000);
    assert_eq!(line.taken, ["TEXT 0 1 0 1 1 4142434445", "BUZ 0 1 5 5 0"]);
    assert!(line.site.is_refreshed(line.door));
}

#[test]
fn the_next_session_is_due_after_the_pause() {
    let mut line = line();
    let mut site = Site::<1>::new(&line.panel, at(0)).with_pause(Duration::from_millis(300));
    assert!(site.is_due(line.door, at(0)));
    assert_eq!(site.act(&mut line.panel, at(0)), Ok(()));
    assert_eq!(site.next_deadline(), None);
    assert_eq!(line.panel.is_closed(line.door), Ok(false));
    let lost = Report::Lost(osdp::LostCause::NoReply, None);
    assert_eq!(site.heed(line.door, &lost, at(1000)), None);
    assert_eq!(site.presence(line.door), Some(Presence::Offline(at(0))));
    assert_eq!(site.next_deadline(), Some(at(1300)));
    assert!(!site.is_due(line.door, at(1299)) && site.is_due(line.door, at(1300)));
    // the opening ID is due 400 ms after the session has begun
    assert_eq!(site.wait_until(&line.panel, at(2000)), at(400));
    assert_eq!(site.wait_until(&line.panel, at(300)), at(300));
}

#[test]
fn a_moment_too_far_ahead_takes_nothing_back() {
    let mut line = line();
    line.panel.on_bytes(&[], at(1000)).unwrap();
    let sound = Command::sound(false);
    line.panel.submit(line.door, &sound, Moment::NEVER).unwrap();
    let late = at(1000 + 2 * 86_400_000); // a panel allows a day by default
    let acted = line.site.act(&mut line.panel, late);
    assert_eq!(acted, Err(Error::MomentTooFar));
    assert_eq!(line.site.next_deadline(), Some(at(1000)));
    assert_eq!(line.panel.withdraw(line.door), Ok(Some(sound)));
    assert_eq!(line.site.act(&mut line.panel, at(1001)), Ok(()));
    assert_eq!(line.site.next_deadline(), None);
}

/// Each output, LED, buzzer and place of a text has a state of its own, whatever says it. Once more each of them needs no room.
#[test]
fn each_thing_has_a_state_of_its_own() {
    let mut line = line();
    line.device.set_outputs(&[0; 4]).unwrap();
    let states: [(u8, &[u8], &str); 13] = [
        (0x68, &[0, 1, 0, 0], "OUT 0:1:0"),
        (0x68, &[1, 2, 0, 0], "OUT 1:2:0"),
        (0x68, &[2, 3, 7, 0], "OUT 2:3:7"),
        (0x68, &[3, 4, 7, 0], "OUT 3:4:7"),
        (
            0x69,
            &[0, 0, 0, 0, 0, 0, 0, 0, 0, 1, 1, 0, 1, 1],
            "LED 0:0:0:0:0:0:0:0:1:1:0:1:1",
        ),
        (
            0x69,
            &[0, 1, 1, 0, 0, 0, 0, 0, 0, 1, 1, 0, 1, 1],
            "LED 0:1:1:0:0:0:0:0:1:1:0:1:1",
        ),
        (
            0x69,
            &[1, 0, 0, 0, 0, 0, 0, 0, 0, 1, 1, 0, 1, 1],
            "LED 1:0:0:0:0:0:0:0:1:1:0:1:1",
        ),
        (0x6A, &[0, 1, 5, 5, 3], "BUZ 0 1 5 5 3"),
        (0x6A, &[1, 2, 5, 5, 0], "BUZ 1 2 5 5 0"),
        (0x6B, &[0, 1, 0, 1, 1, 1, 0x41], "TEXT 0 1 0 1 1 41"),
        (0x6B, &[0, 1, 0, 1, 2, 1, 0x41], "TEXT 0 1 0 1 2 41"),
        (0x6B, &[0, 2, 0, 2, 1, 1, 0x41], "TEXT 0 2 0 2 1 41"),
        (0x6B, &[1, 1, 0, 1, 1, 1, 0x41], "TEXT 1 1 0 1 1 41"),
    ];
    for (code, data, _) in states.iter().chain(&states) {
        line.wants(&Command::raw(*code, data).unwrap());
    }
    line.run(8000);
    assert_eq!(line.taken, states.map(|(_, _, text)| text));
}

/// The commands that panels mostly give, by their texts.
#[test]
fn commands_of_panels() {
    let strike = Command::output_for(3, 300).unwrap();
    let amber = Command::color(color::AMBER).unwrap();
    let red = Command::color_for(color::RED, 50).unwrap();
    let texts = [strike, amber, red, Command::sound(true)].map(|it| it.to_string());
    let wanted = [
        "OUT 3:5:300",
        "LED 0:0:0:0:0:0:0:0:1:1:0:3:3",
        "LED 0:0:2:1:0:1:1:50:0:0:0:0:0",
        "BUZ 0 2 5 5 0",
    ];
    assert_eq!(texts, wanted);
}

/// Where the program sets no pause it is a second, also after a device has moved.
#[test]
fn the_pause_is_a_second() {
    let mut line = line();
    let lost = Report::Lost(osdp::LostCause::NoReply, None);
    let comset = Command::comset(7, 9600).unwrap();
    let com = Reply::read(0x54, &[7, 0x80, 0x25, 0, 0]).unwrap();
    for report in [lost, Report::Moved(comset, com)] {
        let mut site = Site::<1>::new(&line.panel, at(0));
        assert_eq!(site.heed(line.door, &report, at(5000)), None);
        assert_eq!(site.next_deadline(), Some(at(6000)));
    }
    // a session that the program has begun itself is begun
    line.panel.begin(line.door, at(1000)).unwrap();
    assert_eq!(line.site.act(&mut line.panel, at(1000)), Ok(()));
    assert_eq!(line.site.next_deadline(), None);
}

/// A state that waits for room and is wanted anew brings none again that was submitted, and an order without room is told so.
#[test]
fn what_was_submitted_is_not_submitted_again() {
    let mut line = line();
    line.run(3000);
    line.wants(&Command::color(color::GREEN).unwrap());
    line.wants(&Command::sound(true));
    line.site.act(&mut line.panel, at(3000)).unwrap();
    assert_eq!(line.panel.waiting(line.door), Ok(1));
    line.wants(&Command::sound(false));
    assert_eq!(line.order(50, Moment::NEVER), Ok(None));
    line.run(4000);
    let (green, silent) = ("LED 0:0:0:0:0:0:0:0:1:1:0:2:2", "BUZ 0 1 5 5 0");
    assert_eq!(line.taken, [green, silent]);
}

/// A state that takes the place of one which was submitted goes out, and those beside it don't come again. Then the device is refreshed.
#[test]
fn a_new_state_goes_out() {
    let mut line = line();
    line.wants(&Command::color(color::GREEN).unwrap());
    line.wants(&Command::sound(false));
    line.run(3000);
    line.taken.clear();
    line.wants(&Command::color(color::RED).unwrap());
    assert!(!line.site.is_refreshed(line.door));
    line.run(4000);
    line.wants(&Command::sound(true));
    line.run(5000);
    let (red, sound) = ("LED 0:0:0:0:0:0:0:0:1:1:0:1:1", "BUZ 0 2 5 5 0");
    assert_eq!(line.taken, [red, sound]);
    assert!(line.site.is_refreshed(line.door));
}

/// A state for which there is no room now keeps those after it waiting, though one of them would fit: they go out in their order, each once.
#[test]
fn what_has_no_room_goes_out_first() {
    let four = PanelConfig {
        capacity: 4,
        ..PanelConfig::default()
    };
    let mut line = line_over(Panel::with_room(&four, 18).unwrap());
    let text = |row| Command::text(&Text::new(b"ABCDE").unwrap().at(row, 1)); // 12 bytes with its code
    line.wants(&text(1));
    line.wants(&text(2));
    line.wants(&Command::sound(false)); // 6 bytes
    line.run(4000);
    let (first, second) = ("TEXT 0 1 0 1 1 4142434445", "TEXT 0 1 0 2 1 4142434445");
    assert_eq!(line.taken, [first, second, "BUZ 0 1 5 5 0"]);
}

/// All orders that wait are taken back before a session.
#[test]
fn no_stale_order_is_left() {
    let mut line = line_over(Panel::new(&PanelConfig::default()).unwrap());
    for _ in 0..3 {
        let sound = Command::sound(true);
        line.panel.submit(line.door, &sound, Moment::NEVER).unwrap();
    }
    assert_eq!(line.site.act(&mut line.panel, at(1000)), Ok(()));
    assert_eq!(line.panel.waiting(line.door), Ok(0));
}
