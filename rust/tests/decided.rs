//! What a program decides: which card may enter, without a line; and what a device says to a command.
mod settings;

use osdp::{
    Card, Check, Command, Device, DeviceAnswer, EntryNumber, Error, LostCause, Moment, Moved,
    NakReason, Order, Output, Panel, PanelConfig, Reply, Report,
};
use settings::DEVICE;
use std::io::Write;
use std::thread::spawn;
use std::time::Duration;

/// `OUT 0:2:0` and `MFG 010203 04` with number 0, worked by hand, and what is said to them.
const OUT: [u8; 11] = [0x53, 0x05, 0x0B, 0, 0, 0x68, 0, 2, 0, 0, 0x33];
const MFG: [u8; 11] = [0x53, 0x05, 0x0B, 0, 0, 0x80, 1, 2, 3, 4, 0x13];
/// `LSTAT` and `COMSET 7 19200` with number 0, and that the power fails.
const LSTAT: [u8; 7] = [0x53, 5, 7, 0, 0, 0x64, 0x3D];
const LSTATR_POWER: [u8; 9] = [0x53, 0x85, 9, 0, 0, 0x48, 0, 1, 0xD6];
const COMSET: [u8; 12] = [0x53, 5, 12, 0, 0, 0x6E, 7, 0, 0x4B, 0, 0, 0xDC];
const NAK_9: [u8; 8] = [0x53, 0x85, 8, 0, 0, 0x41, 9, 0xD6];
const MFGREP: [u8; 11] = [0x53, 0x85, 0x0B, 0, 0, 0x90, 1, 2, 3, 9, 0x7E];

fn may_enter(card: &Card) -> bool {
    (card.bits(), card.bytes()) == (26, &[0x12, 0x34, 0x56, 0x40])
}

#[test]
fn one_card_may_enter() {
    let card = |last| Card::new(0, 0, 26, &[0x12, 0x34, 0x56, last]);
    assert_eq!(card(0x40).as_ref().map(may_enter), Some(true));
    assert_eq!(card(0x80).as_ref().map(may_enter), Some(false));
    assert_eq!(Card::new(0, 0, 26, &[0x12]), None);
    let told = Reply::read(0x50, &[0, 0, 26, 0, 0x12, 0x34, 0x56, 0x40]);
    assert_eq!(told.ok(), card(0x40).map(Reply::Raw));
}

#[test]
fn commands_are_made() {
    let output = |output, control, timer| Output {
        output,
        control,
        timer,
    };
    let records = [output(0, 5, 30), output(1, 2, 0)];
    let out = Command::out(&records).unwrap();
    assert_eq!(out.to_string(), "OUT 0:5:30 1:2:0");
    assert!(out.outputs().eq(records));
    assert_eq!(Command::out(&[]), Err(Error::BadLength));
    let comset = Command::comset(9, 19200).map(|comset| comset.to_string());
    assert_eq!(comset.as_deref(), Ok("COMSET 9 19200"));
    assert_eq!(Command::comset(127, 19200), Err(Error::AddressOutOfRange));
    assert_eq!(Command::raw(0x68, &[0, 5, 30, 0, 1, 2, 0, 0]), Ok(out));
    assert_eq!(Command::raw(0x01, &[]), Err(Error::UnknownCode));
}

fn said(packet: &[u8], answer: DeviceAnswer<'_>) -> Option<Vec<u8>> {
    let mut device = Device::new(&DEVICE).ok()?;
    device.set_outputs(&[0]).ok()?;
    let now = Moment::from_millis(0);
    assert_eq!(device.answer_next(answer), Err(Error::NotAsked));
    let asked = device.step(packet, now).ok()?.answer?;
    let order = asked.send(|_| Err("nothing is said yet")).ok()?;
    assert!(matches!(order, Some(Order::Pending(command)) if device.pending() == Some(command)));
    device.answer_next(answer).ok()?;
    let mut said = Vec::new();
    let told = device.step(&[], now).ok()?.answer?;
    told.send(|burst| said.write_all(burst)).ok()?;
    assert_eq!(device.answer_next(answer), Err(Error::NotAsked));
    Some(said)
}

#[test]
fn the_program_answers() {
    let refused = DeviceAnswer::Refused(NakReason::RecordNotProcessed);
    assert_eq!(said(&OUT, refused).as_deref(), Some(&NAK_9[..]));
    let own = DeviceAnswer::Maker([1, 2, 3], &[9]);
    assert_eq!(said(&MFG, own).as_deref(), Some(&MFGREP[..]));
    let fails = DeviceAnswer::Local(false, true); // its power
    assert_eq!(said(&LSTAT, fails).as_deref(), Some(&LSTATR_POWER[..]));
}

/// What is set is answered where the program sets no answer.
#[test]
fn what_is_set_is_answered() {
    let now = Moment::from_millis(0);
    let mut device = Device::new(&DEVICE).unwrap();
    device.set_local(false, true);
    let asked = device.step(&LSTAT, now).unwrap().answer.unwrap();
    asked.send(|_| Ok::<(), Error>(())).unwrap();
    let mut said = Vec::new();
    let told = device.step(&[], now).unwrap().answer.unwrap();
    told.send(|burst| said.write_all(burst)).unwrap();
    assert_eq!(said, LSTATR_POWER);
}

/// A device tells where a COMSET has set it, and at which rate.
#[test]
fn a_comset_is_told() {
    let mut device = Device::new(&DEVICE).unwrap();
    let now = Moment::from_millis(0);
    let answer = device.step(&COMSET, now).unwrap().answer.unwrap();
    let (address, baud_rate) = (7, 19200);
    assert_eq!(answer.moved, Some(Moved { address, baud_rate }));
}

#[test]
fn entries_are_of_their_panel() {
    let (mut here, mut there) = (panel(), panel());
    let entry: EntryNumber = here.add(5, 0).unwrap();
    there.add(5, 0).unwrap();
    assert_eq!(there.address(entry), Err(Error::NoEntry));
    assert_eq!(here.address(entry), Ok(5));
    assert_eq!(here.entries().collect::<Vec<_>>(), [entry]);
    assert_eq!(
        (here.waiting(entry), here.is_closed(entry)),
        (Ok(0), Ok(true))
    );
}

fn panel() -> Panel {
    Panel::new(&PanelConfig::default()).unwrap()
}

#[test]
fn a_panel_goes_to_another_thread() {
    let mut panel = panel();
    let added = spawn(move || panel.add(5, 0).map(EntryNumber::index)).join();
    assert_eq!(added.ok(), Some(Ok(0)));
}

/// Each call that is refused says why.
#[test]
fn refusals_have_their_reasons() {
    let mut panel = panel();
    let entries: Vec<_> = (0..16)
        .map(|address| panel.add(address, 0).unwrap())
        .collect();
    assert_eq!(panel.add(16, 0), Err(Error::TooManyDevices));
    assert_eq!(
        panel.submit_text(entries[0], "POLL", Moment::NEVER),
        Err(Error::PollSubmitted)
    );
    let now = Moment::from_millis(0);
    assert_eq!(panel.begin(entries[0], now), Ok(()));
    assert_eq!(panel.begin(entries[0], now), Err(Error::NotClosed));
    let mut device = Device::new(&DEVICE).unwrap(); // with room for four events
    for _ in 0..4 {
        assert_eq!(device.event_text("KEYPAD 0 31"), Ok(()));
    }
    assert_eq!(device.event_text("KEYPAD 0 31"), Err(Error::Full));
}

/// Answers of the device at 5, worked by hand: BUSY, PDID, a RAW without bits to number 1 and to number 3, and NAK 3 to number 2.
const BUSY: [u8; 7] = [0x53, 0x85, 7, 0, 0, 0x79, 0xA8];
const PDID: [u8; 19] = [
    0x53, 0x85, 19, 0, 0, 0x45, 1, 2, 3, 4, 5, 6, 7, 8, 9, 10, 11, 12, 0x82,
];
const RAW_OF_NONE: [u8; 8] = [0x53, 0x85, 8, 0, 1, 0x50, 0, 0xCF];
const RAW_OF_NONE_3: [u8; 8] = [0x53, 0x85, 8, 0, 3, 0x50, 0, 0xCD];
const NAK_3: [u8; 8] = [0x53, 0x85, 8, 0, 2, 0x41, 3, 0xDA];

/// When the panel is due next.
fn due(panel: &Panel) -> Option<u64> {
    panel.next_deadline().map(Moment::as_millis)
}

/// How many bytes the panel sends at a moment.
fn sent(panel: &mut Panel, now: u64) -> usize {
    let now = Moment::from_millis(now);
    panel.tick(now).unwrap().write(now).unwrap().len()
}

/// Each setting does what its name says, and each report is the one that the panel leaves.
#[test]
fn settings_are_those_of_the_panel() {
    let time = Duration::from_millis;
    let mut panel = Panel::new(&PanelConfig {
        check: Check::Sum,
        quiet_wait: time(410),
        reply_wait: time(230),
        poll_interval: time(90),
        busy_wait: time(170),
        gap: time(30),
        busy_limit: 1,
        sends: 2,
        capacity: 1,
        ..PanelConfig::default()
    })
    .unwrap();
    let door = panel.add(5, 0).unwrap();
    let at = Moment::from_millis;
    let report = |panel: &mut Panel, now| {
        let told = panel.next_report().map(|told| told.report);
        assert_eq!(sent(panel, now), 0); // nothing goes out in the turn that brought it
        told
    };
    panel.begin(door, at(0)).unwrap();
    assert_eq!((due(&panel), sent(&mut panel, 410)), (Some(410), 8));
    assert_eq!(due(&panel), Some(410 + 230));
    panel.on_bytes(&[0x53], at(500)).unwrap(); // a run begins
    assert_eq!(due(&panel), Some(500 + 30));
    panel.on_silence(at(501)).unwrap();
    assert_eq!(due(&panel), Some(410 + 230));
    panel.on_bytes(&BUSY, at(510)).unwrap();
    assert_eq!((due(&panel), sent(&mut panel, 680)), (Some(510 + 170), 8));
    panel.on_bytes(&BUSY, at(690)).unwrap(); // one BUSY too many
    assert_eq!(
        report(&mut panel, 690),
        Some(Report::Lost(LostCause::TooBusy, None))
    );
    panel.begin(door, at(700)).unwrap();
    assert_eq!(
        [1110, 1340, 1570].map(|now| sent(&mut panel, now)),
        [8, 8, 0]
    );
    assert_eq!(
        report(&mut panel, 1570),
        Some(Report::Lost(LostCause::NoReply, None))
    );
    panel.begin(door, at(1600)).unwrap();
    assert_eq!(sent(&mut panel, 2010), 8);
    panel.on_bytes(&PDID, at(2020)).unwrap();
    assert!(matches!(report(&mut panel, 2020), Some(Report::Opened(_))));
    assert_eq!((due(&panel), sent(&mut panel, 2110)), (Some(2020 + 90), 7));
    panel.on_bytes(&RAW_OF_NONE, at(2120)).unwrap();
    let (command, code) = (None, 0x50);
    assert_eq!(
        report(&mut panel, 2120),
        Some(Report::Unread { command, code })
    );
    assert_eq!(sent(&mut panel, 2210), 7);
    panel.on_bytes(&NAK_3, at(2220)).unwrap();
    let nak = Reply::read(0x41, &[3]).unwrap();
    assert_eq!(report(&mut panel, 2220), Some(Report::Answered(nak)));
    // so is the answer to a command that can't be read
    let asked = Command::local_status();
    panel.submit(door, &asked, Moment::NEVER).unwrap();
    assert_eq!(sent(&mut panel, 2230), 7);
    panel.on_bytes(&RAW_OF_NONE_3, at(2240)).unwrap();
    let (command, code) = (Some(asked), 0x50);
    assert_eq!(
        report(&mut panel, 2240),
        Some(Report::Unread { command, code })
    );
}
