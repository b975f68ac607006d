//! A maker's panel over a line that loses, damages and repeats 5% of all bursts: no card makes a second order, and none is missing. A panel that doesn't look at
//! `maybe_again` makes second orders there.
use osdp::{
    Answer, Card, Command, Device, DeviceConfig, Error, Moment, Output, Panel, PanelConfig, Reply,
    Report, Step, output,
};

const CARDS: usize = 5000;
const KNOWN: [[u8; 4]; 2] = [[0x12, 0x34, 0x56, 0x40], [0x65, 0x43, 0x21, 0x80]];
const STRIKE: Output = Output {
    output: 0,
    control: output::ON_FOR_A_TIME,
    timer: 30,
};

/// The line: bursts on their way, each with its moment and whether it goes to the panel.
struct Line {
    chance: u64,
    now: u64,
    coming: Vec<(u64, bool, Vec<u8>)>,
}

impl Line {
    /// What becomes of a burst: it is lost, damaged, comes twice, or comes as it is.
    fn carry(&mut self, to_panel: bool, burst: &[u8]) -> Result<(), Error> {
        self.chance ^= self.chance << 13;
        self.chance ^= self.chance >> 7;
        self.chance ^= self.chance << 17;
        let (fate, mut heard) = (self.chance % 100, burst.to_vec());
        if let Some(last) = heard.last_mut().filter(|_| (5..10).contains(&fate)) {
            *last ^= 0x5A;
        }
        let copies = match fate {
            0..5 => 0,
            10..15 => 2,
            _ => 1,
        };
        for copy in 0..copies {
            self.coming
                .push((self.now + 10 + copy, to_panel, heard.clone()));
        }
        Ok(())
    }

    /// The burst that comes first up to this moment.
    fn first(&mut self) -> Option<(bool, Vec<u8>)> {
        let at = (0..self.coming.len()).min_by_key(|&at| self.coming[at].0)?;
        let due = self.coming[at].0 <= self.now;
        due.then(|| self.coming.remove(at))
            .map(|(_, to_panel, heard)| (to_panel, heard))
    }
}

fn answer(answer: Option<Answer<'_>>, line: &mut Line) -> Result<(), Error> {
    answer.map_or(Ok(()), |answer| {
        answer.send(|burst| line.carry(true, burst)).map(|_| ())
    })
}

fn device_hears(device: &mut Device, mut bytes: &[u8], line: &mut Line) -> Result<(), Error> {
    let now = Moment::from_millis(line.now);
    answer(device.tick(now)?.answer, line)?;
    loop {
        let Step {
            taken,
            answer: said,
        } = device.step(bytes, now)?;
        bytes = &bytes[taken..];
        if said.is_none() && bytes.is_empty() {
            return Ok(());
        }
        answer(said, line)?;
    }
}

/// How many cards were told, how many of them once more, how many made an order, and how many a second one.
fn run(looks: bool) -> Result<(usize, usize, usize, usize), Error> {
    let mut panel = Panel::new(&PanelConfig::default())?;
    let door = panel.add(5, 0)?;
    let mut device = Device::new(&DeviceConfig::new(5))?;
    device.set_outputs(&[0])?;
    let mut line = Line {
        chance: 0x9E37_79B9_7F4A_7C15,
        now: 0,
        coming: Vec::new(),
    };
    let (mut told, mut read, mut again, mut second, mut orders) = (0, 0, 0, 0, 0);
    let mut first = 0;
    let (mut last, mut begins, mut next_card) = (None, Some(0), Some(500));
    while told < CARDS && line.now < CARDS as u64 * 5000 {
        let due = panel.next_deadline().map(Moment::as_millis);
        let come = line.coming.iter().map(|each| each.0).min();
        let next = [due, come, begins, next_card].into_iter().flatten().min();
        line.now = line.now.max(next.unwrap_or(line.now + 1));
        let now = Moment::from_millis(line.now);
        if next_card.is_some_and(|at| at <= line.now) {
            device.event(0x50, &[&[0, 0, 26, 0][..], &KNOWN[read % 2]].concat())?;
            (read, next_card) = (read + 1, None);
        }
        let heard = match line.first() {
            Some((false, heard)) => {
                device_hears(&mut device, &heard, &mut line)?;
                Vec::new()
            }
            Some((true, heard)) => heard,
            None => Vec::new(),
        };
        panel.on_bytes(&heard, now)?;
        if begins.is_some_and(|at| at <= line.now) {
            while panel.withdraw(door)?.is_some() {}
            panel.begin(door, now)?;
            begins = None;
        }
        while let Some(report) = panel.next_report() {
            match report.report {
                Report::Event(Reply::Raw(card)) => {
                    let is_again = told == read || last.as_ref() == Some(&card);
                    if is_again {
                        again += 1;
                    } else {
                        (told, orders, next_card) = (told + 1, 0, Some(line.now + 200));
                    }
                    if !(looks && report.maybe_again) && may_enter(&card) {
                        panel.submit(door, &Command::out(&[STRIKE])?, Moment::NEVER)?;
                        orders += 1;
                        first += usize::from(orders == 1 && !is_again);
                        second += usize::from(orders > 1);
                    }
                    last = Some(card);
                }
                Report::Lost { .. } => begins = Some(line.now + 1000),
                _ => {}
            }
        }
        let burst = panel.tick(now)?.write(now)?;
        if !burst.is_empty() {
            line.carry(false, &burst)?;
        }
    }
    Ok((told, again, first, second))
}

fn may_enter(card: &Card) -> bool {
    card.bits() == 26 && KNOWN.iter().any(|known| card.bytes() == known)
}

#[test]
fn no_card_makes_a_second_order() -> Result<(), Error> {
    let (told, again, first, second) = run(true)?;
    assert_eq!((told, first, second), (CARDS, CARDS, 0));
    assert!(again > 0);
    let (told, again, first, second) = run(false)?;
    assert_eq!((told, first, second), (CARDS, CARDS, again));
    assert!(again > 0);
    Ok(())
}
