//! Commands of a device that come as fast as they go: the device is asked for its events between two of them, and a card is told.
mod settings;

use osdp::{Command, Device, Error, Moment, Panel, PanelConfig, Report};
use settings::DEVICE;

/// What the panel sends comes to the device at once, and its answer to the panel.
fn carry(
    panel: &mut Panel,
    device: &mut Device,
    mut bytes: &[u8],
    now: Moment,
) -> Result<(), Error> {
    loop {
        let step = device.step(bytes, now)?;
        bytes = &bytes[step.taken..];
        let said = step.answer.is_some();
        if let Some(answer) = step.answer {
            answer.send(|burst| panel.on_bytes(burst, now))?;
        }
        if !said && bytes.is_empty() {
            return Ok(());
        }
    }
}

/// How many commands are settled and how many cards told in ten seconds, where a command is ordered as soon as there is room, and a card is shown at once.
fn ten_seconds() -> Result<(u64, usize), Error> {
    let mut panel = Panel::new(&PanelConfig {
        capacity: 4,
        ..PanelConfig::default()
    })?;
    let mut device = Device::new(&DEVICE)?;
    let door = panel.add(5, 0)?;
    panel.begin(door, Moment::from_millis(0))?;
    device.event(0x53, &[0, 1, 0x31])?;
    let (mut settled, mut cards) = (0, 0);
    for now in (1..10_000).map(Moment::from_millis) {
        while panel.waiting(door)? < 4 {
            panel.submit(door, &Command::local_status(), Moment::NEVER)?;
        }
        assert_eq!(
            panel.submit(door, &Command::local_status(), Moment::NEVER),
            Err(Error::Full)
        );
        let sent = panel.tick(now)?.write(now)?.to_vec();
        carry(&mut panel, &mut device, &sent, now)?;
        while let Some(told) = panel.next_report() {
            match told.report {
                Report::Settled(..) => {
                    assert_eq!(told.number, Some(settled));
                    settled += 1;
                }
                Report::Event(_) => cards += 1,
                _ => {}
            }
        }
    }
    Ok((settled, cards))
}

#[test]
fn a_card_waits_for_no_orders() {
    let (settled, cards) = ten_seconds().unwrap();
    // a POLL comes 50 ms after each command
    assert!(
        settled > 150 && settled <= 200 && cards == 1,
        "{settled} {cards}"
    );
}

#[test]
fn what_waits_is_counted_and_withdrawn() {
    let mut panel = Panel::new(&PanelConfig::default()).unwrap();
    let door = panel.add(5, 0).unwrap();
    let commands = || {
        [
            Command::local_status(),
            Command::input_status(),
            Command::output_status(),
        ]
    };
    for command in commands() {
        panel.submit(door, &command, Moment::NEVER).unwrap();
    }
    assert_eq!(panel.waiting(door), Ok(3));
    for command in commands() {
        assert_eq!(panel.withdraw(door), Ok(Some(command)));
    }
    assert_eq!(panel.withdraw(door), Ok(None));
}
