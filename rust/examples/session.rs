//! A panel and a reader in one program, joined in memory: a card opens a door. One answer in seven is lost on the way.
use osdp::{
    Capability, Card, Command, Device, DeviceConfig, Error, Moment, Order, Output, Panel,
    PanelConfig, PdId, Product, Reply, Report, Step, card, function, output,
};
use std::io::{self, Write};
use std::time::Duration;

/// A card of 26 bits.
const CARD: [u8; 4] = [0x12, 0x34, 0x56, 0x40];
const STRIKE: Output = Output {
    output: 0,
    control: output::ON_FOR_A_TIME,
    timer: 30,
};
const CARDS_ARE_TOLD: Capability = Capability {
    function: function::CARD_DATA_FORMAT,
    level: 1,
    count: 0,
};
const CARDS: usize = 20;
/// The door opens so long after its card at most.
const OLD: Duration = Duration::from_secs(5);

/// The line from the device to the panel. It loses one answer in seven.
#[derive(Default)]
struct Line {
    answers: usize,
    bytes: Vec<u8>,
}

impl Line {
    fn carry(&mut self, burst: &[u8]) -> Result<(), Error> {
        self.answers += 1;
        if !self.answers.is_multiple_of(7) {
            self.bytes.extend_from_slice(burst);
        }
        Ok(())
    }
}

/// Hands bytes to the device, counts how often the door is opened, and then puts the answer on the line.
fn device_hears(
    device: &mut Device,
    mut bytes: &[u8],
    now: Moment,
    line: &mut Line,
) -> Result<usize, Error> {
    let mut opened = 0;
    loop {
        let Step { taken, answer } = device.step(bytes, now)?;
        bytes = &bytes[taken..];
        let Some(answer) = answer else {
            if bytes.is_empty() {
                return Ok(opened);
            }
            continue;
        };
        if let Some(Order::Once(command)) = answer.order() {
            opened += usize::from(command.outputs().eq([STRIKE]));
        }
        answer.send(|burst| line.carry(burst))?;
    }
}

/// Prints a line. That nobody reads it is no fault.
fn tell(line: &str) {
    let _ = writeln!(io::stdout(), "{line}");
}

fn main() -> Result<(), Error> {
    let mut panel = Panel::new(&PanelConfig::default())?;
    let door = panel.add(5, 0)?;
    let mut device = Device::new(&DeviceConfig {
        clock_limit: Duration::from_secs(60),
        id: PdId {
            serial: 1,
            product: Product {
                vendor: *b"SIM",
                ..Product::default()
            },
        },
        capabilities: &[CARDS_ARE_TOLD],
        ..DeviceConfig::new(5)
    })?;
    device.set_outputs(&[0])?;
    let card = Card::new(0, card::RAW, 26, &CARD).ok_or(Error::BadCount)?;
    let event = Reply::Raw(card);
    for _ in 0..CARDS {
        device.submit_event(&event)?;
    }
    let mut now = Moment::from_millis(0);
    panel.begin(door, now)?;

    let (mut cards, mut settled, mut opened) = (0, 0, 0); // orders have numbers from 0 on
    let mut line = Line::default();
    for _ in 0..1000 {
        panel.on_bytes(&std::mem::take(&mut line.bytes), now)?;
        while let Some(told) = panel.next_report() {
            match (told.report, told.since) {
                (Report::Opened(id), _) => tell(&format!("opened by {id:?}")),
                (Report::Event(reply), Some(since)) if !told.maybe_again => {
                    assert_eq!(reply, event);
                    cards += 1;
                    panel.submit(told.entry, &Command::out(&[STRIKE])?, since + OLD)?;
                }
                (Report::Settled(command, reply), _) => {
                    assert_eq!(command.to_string(), "OUT 0:5:30");
                    assert_eq!((reply, told.number), (Reply::Ack, Some(settled)));
                    settled += 1;
                }
                other => panic!("{other:?}"),
            }
        }
        let burst = panel.tick(now)?.write(now)?;
        opened += device_hears(&mut device, &burst, now, &mut line)?;
        if burst.is_empty() && line.bytes.is_empty() {
            now = panel
                .next_deadline()
                .unwrap_or(now + Duration::from_millis(1))
                .max(now);
        }
    }
    tell(&format!(
        "{cards} cards, {opened} times opened, {settled} settled, {} answers",
        line.answers
    ));
    assert_eq!((cards, opened, settled), (CARDS, CARDS, CARDS as u64));

    assert_eq!(
        panel.submit_text(door, "OPEN THE DOOR", Moment::NEVER),
        Err(Error::BadText)
    );
    assert_eq!(panel.add(5, 0), Err(Error::AddressTaken));
    assert_eq!(device.submit_event(&Reply::Ack), Err(Error::NoEvent));
    assert_eq!(device.waiting(), 0);
    Ok(())
}
