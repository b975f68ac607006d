//! Events that are too old: where nobody polls, a card is told to nobody after a limit.

use core::time::Duration;
use osdp::{Bytes, Card, Device, DeviceConfig, Error, Expired, Moment, Reply, card};

/// The opening ID, and POLL with number 1, to the device at 5.
const ID: [u8; 8] = [0x53, 0x05, 0x08, 0x00, 0x00, 0x61, 0x00, 0x3F];
const POLL: [u8; 7] = [0x53, 0x05, 0x07, 0x00, 0x01, 0x60, 0x40];

const LIMIT: Duration = Duration::from_secs(30);

fn at(millis: u64) -> Moment {
    Moment::after(Duration::from_millis(millis))
}

fn answer_code(device: &mut Device, packet: &[u8], now: u64) -> Result<u8, Error> {
    let mut code = 0;
    if let Some(answer) = device.step(packet, at(now))?.answer {
        answer.send(|burst| {
            code = burst[5];
            Ok::<(), Error>(())
        })?;
    }
    Ok(code)
}

/// The panel is stopped, a card is held, and the panel comes back 45 s later.
#[test]
fn a_card_of_long_ago_is_told_to_nobody() -> Result<(), Error> {
    let mut device = Device::new(&DeviceConfig::new(5))?;
    assert!(device.is_offline(at(0))?);
    assert_eq!(answer_code(&mut device, &ID, 1000)?, 0x45);
    let card = Card::new(0, card::RAW, 26, &[0x12, 0x34, 0x56, 0x40]);
    device.submit_event(&card.map(Reply::Raw).ok_or(Error::BadCount)?)?;
    assert!(!device.is_offline(at(8999))? && device.is_offline(at(9000))?);
    assert_eq!(device.expire_event(at(31_000), LIMIT)?, None);
    assert_eq!(device.expire_event(at(31_001), Duration::ZERO)?, None);
    match device.expire_event(at(31_001), LIMIT)? {
        Some(Expired::Withdrawn(Reply::Raw(card))) => assert_eq!(card.bits(), 26),
        other => panic!("{other:?}"),
    }
    assert_eq!(device.waiting(), 0);
    assert_eq!(answer_code(&mut device, &ID, 46_000)?, 0x45);
    assert_eq!(answer_code(&mut device, &POLL, 46_100)?, 0x40);
    Ok(())
}

/// A limit of less than a millisecond isn't one of no time, which takes nothing off.
#[test]
fn a_limit_of_less_than_a_millisecond_counts_as_one() -> Result<(), Error> {
    let mut device = Device::new(&DeviceConfig::new(5))?;
    assert_eq!(answer_code(&mut device, &ID, 1000)?, 0x45);
    let keys = Bytes::new(b"1").ok_or(Error::BadLength)?;
    device.submit_event(&Reply::Keypad(0, keys))?;
    let limit = Duration::from_micros(999);
    assert_eq!(device.expire_event(at(8999), limit)?, None);
    assert!(matches!(
        device.expire_event(at(9000), limit)?,
        Some(Expired::Withdrawn(Reply::Keypad(..)))
    ));
    Ok(())
}

/// A card that was told once is in doubt, and the one after it is withdrawn.
#[test]
fn what_was_told_is_in_doubt() -> Result<(), Error> {
    let mut device = Device::new(&DeviceConfig::new(5))?;
    assert_eq!(answer_code(&mut device, &ID, 1000)?, 0x45);
    for key in [b"1", b"2"] {
        let keys = Bytes::new(key).ok_or(Error::BadLength)?;
        device.submit_event(&Reply::Keypad(0, keys))?;
    }
    assert_eq!(answer_code(&mut device, &POLL, 1100)?, 0x53);
    assert!(matches!(device.withdraw_event(), Some(Reply::Keypad(..))));
    assert_eq!(device.withdraw_event(), None);
    assert!(matches!(
        device.expire_event(at(40_000), LIMIT)?,
        Some(Expired::InDoubt(Reply::Keypad(..)))
    ));
    assert_eq!(device.lapse_event(), None);
    Ok(())
}

/// A card that was told once lapses, and the one after it doesn't.
#[test]
fn what_was_told_lapses() -> Result<(), Error> {
    let mut device = Device::new(&DeviceConfig::new(5))?;
    assert_eq!(answer_code(&mut device, &ID, 1000)?, 0x45);
    let pressed = |key: &[u8]| Bytes::new(key).map(|keys| Reply::Keypad(0, keys));
    for key in [b"1", b"2"] {
        device.submit_event(&pressed(key).ok_or(Error::BadLength)?)?;
    }
    assert_eq!(answer_code(&mut device, &POLL, 1100)?, 0x53);
    assert_eq!(device.lapse_event(), pressed(b"1"));
    assert_eq!(device.lapse_event(), None);
    assert_eq!(device.withdraw_event(), pressed(b"2"));
    Ok(())
}
