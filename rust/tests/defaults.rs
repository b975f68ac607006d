//! What stands where a program says nothing else: the settings of a panel and of a device, and what a device tells of its states. And what is the same as what: a
//! command is its code too, and a card its bits.
mod settings;

use osdp::{
    Card, Check, Command, Device, DeviceConfig, Error, Moment, Panel, PanelConfig, PdId, Product,
    RawReply, Site, Text, color,
};
use settings::DEVICE;
use std::time::Duration;

/// The packets ISTAT, OSTAT and RSTAT with number 0 to address 5, worked by hand.
const ASKED: [[u8; 7]; 3] = [
    [0x53, 5, 7, 0, 0, 0x65, 0x3C],
    [0x53, 5, 7, 0, 0, 0x66, 0x3B],
    [0x53, 5, 7, 0, 0, 0x67, 0x3A],
];

#[test]
fn a_panel_has_these_settings() {
    let time = Duration::from_millis;
    let wanted = PanelConfig {
        check: Check::Crc,
        reply_wait: time(200),
        poll_interval: time(50),
        sends: 3,
        busy_wait: time(50),
        busy_limit: 20,
        quiet_wait: time(400),
        gap: time(20),
        capacity: 64,
        clock_limit: time(86_400_000),
    };
    assert_eq!(PanelConfig::default(), wanted);
}

#[test]
fn a_device_has_these_settings() {
    let nothing = PdId {
        serial: 0,
        product: Product {
            vendor: [0; 3],
            model: 0,
            version: 0,
            firmware_major: 0,
            firmware_minor: 0,
            firmware_build: 0,
        },
    };
    let wanted = DeviceConfig {
        address: 9,
        capacity: 64,
        gap: Duration::from_millis(20),
        clock_limit: Duration::from_secs(86_400),
        id: nothing,
        capabilities: &[],
    };
    assert_eq!(DeviceConfig::new(9), wanted);
}

/// What a device says to a packet before which it stops.
fn said(device: &mut Device, packet: &[u8]) -> Option<Vec<u8>> {
    let (now, mut burst) = (Moment::from_millis(0), Vec::new());
    for bytes in [packet, &[]] {
        let answer = device.step(bytes, now).ok()?.answer?;
        let put = |told: &[u8]| {
            burst = told.to_vec();
            Ok::<(), Error>(())
        };
        answer.send(put).ok()?;
    }
    Some(burst)
}

#[test]
fn states_are_told_as_they_were_set() {
    let mut device = Device::new(&DEVICE).unwrap();
    device.set_inputs(&[1]).unwrap();
    device.set_outputs(&[0, 1]).unwrap();
    device.set_readers(&[0, 0, 2]).unwrap();
    let told = ASKED.map(|packet| said(&mut device, &packet).unwrap());
    let part = |at: usize| told[at][5..told[at].len() - 1].to_vec();
    assert_eq!(
        [part(0), part(1), part(2)],
        [vec![0x49, 1], vec![0x4A, 0, 1], vec![0x4B, 0, 0, 2]]
    );
    let long = [0; 1433];
    let refused = [
        device.set_inputs(&long),
        device.set_outputs(&long),
        device.set_readers(&long),
    ];
    assert_eq!(refused, [Err(Error::BadLength); 3]);
}

#[test]
fn what_differs_is_not_the_same() {
    assert_ne!(Command::input_status(), Command::output_status());
    assert_eq!(Command::input_status(), Command::raw(0x65, &[]).unwrap());
    let card = |reader, format, bits, bytes: &[u8]| Card::new(reader, format, bits, bytes).unwrap();
    let one = card(0, 0, 26, &[1, 2, 3, 0]);
    assert_eq!(one, card(0, 0, 26, &[1, 2, 3, 0]));
    for other in [
        card(1, 0, 26, &[1, 2, 3, 0]),
        card(0, 1, 26, &[1, 2, 3, 0]),
        card(0, 0, 25, &[1, 2, 3, 0]),
        card(0, 0, 26, &[1, 2, 3, 0x40]),
    ] {
        assert_ne!(one, other);
    }
    assert_eq!(Card::new(0, 0, 26, &[1, 2, 3, 4, 5]), None);
}

/// A text for a time keeps that it is wrapped, and one that is wrapped keeps its time.
#[test]
fn a_text_is_wrapped_and_for_a_time() {
    let text = Text::new(b"AB").unwrap();
    let command = |text: &Text| (text.command(), text.seconds());
    let both = [
        text.for_seconds(5).wrapped(),
        text.wrapped().for_seconds(5),
        text.for_seconds(7).for_seconds(5).wrapped().wrapped(),
    ];
    assert_eq!(both.each_ref().map(command), [(4, 5); 3]);
    assert_eq!(
        [
            command(&text),
            command(&text.wrapped()),
            command(&text.for_seconds(5))
        ],
        [(1, 0), (2, 0), (3, 5)]
    );
}

#[test]
fn what_is_wrong_is_told_by_its_own_error() {
    // a KEYPAD and a TEXT whose counts are one too many
    let keys = RawReply::raw(0x53, &[0, 2, b'1']);
    assert_eq!(keys.err(), Some(Error::BadCount));
    let text = Command::raw(0x6B, &[0, 1, 0, 1, 1, 2, b'A']);
    assert_eq!(text.err(), Some(Error::BadCount));
    let sends = PanelConfig {
        sends: 0,
        ..PanelConfig::default()
    };
    assert_eq!(Panel::new(&sends).err(), Some(Error::OutOfRange));
    let address = DeviceConfig {
        address: 127,
        ..DEVICE
    };
    assert_eq!(Device::new(&address).err(), Some(Error::OutOfRange));
    let mut panel = Panel::new(&PanelConfig::default()).unwrap();
    let door = panel.add(5, 0).unwrap();
    assert_eq!(panel.add(127, 0), Err(Error::OutOfRange));
    assert_eq!(panel.add(5, 0), Err(Error::AddressTaken));
    let submitted = panel.submit_text(door, "nonsense", Moment::NEVER);
    assert_eq!(submitted, Err(Error::BadText));
    let mut device = Device::new(&DEVICE).unwrap();
    assert_eq!(device.event_text("nonsense"), Err(Error::BadText));
    assert_eq!(device.event(0x40, &[]), Err(Error::NoEvent));
    assert_eq!(device.event(0x01, &[]), Err(Error::UnknownCode));
}

/// A device that is offline isn't refreshed, also where nothing is wanted of it.
#[test]
fn what_is_offline_is_not_refreshed() {
    let mut panel = Panel::new(&PanelConfig::default()).unwrap();
    let door = panel.add(5, 0).unwrap();
    let mut site = Site::<1>::new(&panel, Moment::from_millis(0));
    assert!(!site.is_refreshed(door));
    let red = Command::color(color::RED).unwrap();
    assert_eq!(site.wants(door, &red), Ok(()));
    assert!(!site.is_refreshed(door));
}
