//! A moment that lies too far after the greatest one seen is refused, and changes nothing; one that is set outright is seen.
mod settings;

use osdp::{Device, DeviceConfig, Error, Moment, Panel, PanelConfig, Step};
use settings::DEVICE;
use std::time::Duration;

fn at(milliseconds: u64) -> Moment {
    Moment::from_millis(milliseconds)
}

#[test]
fn a_panel_refuses_what_lies_too_far_ahead() {
    let mut panel = Panel::new(&PanelConfig {
        clock_limit: Duration::from_secs(1),
        ..PanelConfig::default()
    })
    .unwrap();
    let door = panel.add(5, 0).unwrap();
    let begin = 1 << 40; // the first moment may be any
    assert_eq!(panel.begin(door, at(begin)), Ok(()));
    let late = at(begin + 1001);
    assert_eq!(panel.tick(late).err(), Some(Error::MomentTooFar));
    assert_eq!(panel.on_bytes(&[0xFF], late), Err(Error::MomentTooFar));
    assert_eq!(panel.on_silence(at(u64::MAX)), Err(Error::MomentTooFar));
    // the opening ID is due 400 ms after `begin`, as if no other moment had come
    assert_eq!(panel.next_deadline(), Some(at(begin + 400)));
    let unsent = panel.tick(at(begin + 400)).unwrap();
    assert!(unsent.is_one());
    let written = unsent.write(at(begin + 1401));
    assert_eq!(written.err(), Some(Error::MomentTooFar));
    panel.set_moment(at(begin + 5000));
    let unsent = panel.tick(at(begin + 6000)).unwrap();
    assert_eq!(unsent.write(at(begin + 6000)).unwrap().len(), 9); // the opening ID once more
}

#[test]
fn a_device_too() {
    let mut device = Device::new(&DEVICE).unwrap();
    assert!(device.tick(at(1 << 40)).is_ok());
    let late = at((1 << 40) + 1001);
    assert_eq!(device.tick(late).err(), Some(Error::MomentTooFar));
    assert_eq!(device.silence(late).err(), Some(Error::MomentTooFar));
    let step = device.step(&[0x53], late);
    assert_eq!(step.err(), Some(Error::MomentTooFar));
    device.set_moment(late);
    let Step { taken, answer } = device.step(&[0x53], late).unwrap();
    assert!(taken == 1 && answer.is_none());
}

#[test]
fn a_limit_of_less_than_a_millisecond_is_refused() {
    let clock_limit = Duration::from_micros(999);
    let config = PanelConfig {
        clock_limit,
        ..PanelConfig::default()
    };
    assert_eq!(Panel::new(&config).err(), Some(Error::OutOfRange));
    let config = DeviceConfig {
        clock_limit,
        ..DEVICE
    };
    assert_eq!(Device::new(&config).err(), Some(Error::OutOfRange));
}

/// It would be cut to 49 days, so that a program which wants none would be refused a moment.
#[test]
fn a_limit_of_more_than_49_days_is_refused() {
    let with = |clock_limit| {
        let panel = PanelConfig {
            clock_limit,
            ..PanelConfig::default()
        };
        let device = DeviceConfig {
            clock_limit,
            ..DEVICE
        };
        (Panel::new(&panel).err(), Device::new(&device).err())
    };
    let days = |count: u64| Duration::from_secs(count * 86_400);
    let refused = Some(Error::OutOfRange);
    assert_eq!(with(days(49)), (None, None));
    assert_eq!(with(days(50)), (refused, refused));
    assert_eq!(with(Duration::MAX), (refused, refused));
}

/// Nothing is changed by a question, so it takes no more than a reference.
#[test]
fn what_is_asked_changes_nothing() {
    let mut panel = Panel::new(&PanelConfig::default()).unwrap();
    let door = panel.add(5, 3).unwrap();
    let asked: &Panel = &panel;
    assert_eq!((asked.address(door), asked.waiting(door)), (Ok(5), Ok(0)));
    assert_eq!(asked.next_number(door), Ok(3));
    assert_eq!(
        (asked.is_closed(door), asked.next_deadline()),
        (Ok(true), None)
    );
    assert_eq!(asked.entries().count(), 1);
    let device = &Device::new(&DEVICE).unwrap();
    assert_eq!((device.waiting(), device.is_closed()), (0, true));
    assert!(device.pending().is_none());
}

/// A packet that stands in a run after the beginning of a longer one is read once the run is over: after the gap, or where the line was seen silent.
#[test]
fn a_run_is_over_after_the_gap_or_by_silence() {
    const RUN: [u8; 13] = [
        0x53, 5, 40, 0, 0, 0x53, 5, 8, 0, 0, 0x61, 0, 0x3F, // an ID
    ];
    let ends: [fn(&mut Device) -> bool; 3] = [
        |device| device.tick(at(1019)).unwrap().answer.is_some(),
        |device| device.tick(at(1020)).unwrap().answer.is_some(),
        |device| device.silence(at(1001)).unwrap().answer.is_some(),
    ];
    let said = ends.map(|end| {
        let mut device = Device::new(&DEVICE).unwrap(); // the gap is 20 ms
        assert!(device.step(&RUN, at(1000)).unwrap().answer.is_none());
        end(&mut device)
    });
    assert_eq!(said, [false, true, true]);
}

/// What lies beyond the greatest moment is that moment, and no time lies between a moment and a later one.
#[test]
fn moments_do_not_wrap() {
    assert_eq!(Moment::after(Duration::MAX), at(u64::MAX));
    assert_eq!(at(u64::MAX - 1) + Duration::from_secs(1), at(u64::MAX));
    assert_eq!(at(5).since(at(9)), Duration::ZERO);
    assert_eq!(at(9).since(at(5)), Duration::from_millis(4));
}
