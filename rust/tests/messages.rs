//! Each message, made and read by the names that `docs/MESSAGES.md` has for it. The bytes are worked by hand from the standard's tables.
mod settings;

use osdp::{
    Buzzer, Bytes, Capabilities, Capability, Card, Command, CommandFields, Device, DeviceAnswer,
    DeviceConfig, Error, Led, LedState, Moment, Nak, NakReason, Output, PdId, Product, RawReply,
    Reply, Text, card, color, function, led, output, reader, state, tone,
};
use settings::DEVICE;
use std::io::Write;

/// A command has this code and these data, and is read as the same from them.
fn is_command(made: Command, code: u8, data: &[u8]) -> Command {
    assert_eq!((made.code(), made.data()), (code, data));
    let read = Command::raw(code, data).expect("a command");
    assert_eq!(read, made);
    read
}

/// A reply has this code and these data, and is read from them.
fn is_reply(made: Reply, code: u8, data: &[u8]) {
    let spelled = made.write().expect("a reply");
    assert_eq!((spelled.code(), spelled.data()), (code, data));
    assert_eq!(Reply::read(code, data), Ok(made));
}

/// So does one that tells an event. A device takes it.
fn is_event(made: Reply, code: u8, data: &[u8]) {
    is_reply(made, code, data);
    let mut device = Device::new(&DEVICE).expect("a device");
    assert_eq!(device.submit_event(&made), Ok(()));
    assert_eq!(device.withdraw_event(), Some(made));
}

/// BUZ 0 2 1 1 1 and MFG 5CD12E 07 to address 5, by number 0.
const BUZ: [u8; 12] = [0x53, 5, 12, 0, 0, 0x6A, 0, 2, 1, 1, 1, 0x2D];
const MFG: [u8; 11] = [0x53, 5, 11, 0, 0, 0x80, 0x5C, 0xD1, 0x2E, 7, 0xBB];

/// What a device says: the code and the data of the packet.
fn said(packet: &[u8], device: &mut Device) -> Option<(u8, Vec<u8>)> {
    let mut burst = Vec::new();
    let step = device.step(packet, Moment::from_millis(0));
    let answer = step.expect("a step").answer?;
    answer.send(|bytes| burst.write_all(bytes)).ok()?;
    Some((*burst.get(5)?, burst[6..burst.len() - 1].to_vec()))
}

/// What a device says to a command before which it stops, and which its program answers.
fn answered(packet: &[u8], answer: DeviceAnswer<'_>) -> Option<(u8, Vec<u8>)> {
    let mut device = Device::new(&DEVICE).ok()?;
    assert_eq!(said(packet, &mut device), None);
    device.answer_next(answer).ok()?;
    said(&[], &mut device)
}

fn bytes(of: &[u8]) -> Bytes {
    Bytes::new(of).expect("bytes")
}

#[test]
fn poll() {
    let poll = Command::raw(0x60, &[]).expect("a POLL");
    assert!(matches!(poll.fields(), CommandFields::Poll));
}

#[test]
fn id() {
    let read = is_command(Command::id(), 0x61, &[0]);
    assert!(matches!(read.fields(), CommandFields::Id(0)));
    assert_eq!(Command::raw(0x61, &[]), Err(Error::BadLength));
}

#[test]
fn cap() {
    let read = is_command(Command::cap(), 0x62, &[0]);
    assert!(matches!(read.fields(), CommandFields::Cap(0)));
    assert_eq!(Command::raw(0x62, &[]), Err(Error::BadLength));
}

#[test]
fn lstat() {
    let read = is_command(Command::local_status(), 0x64, &[]);
    assert!(matches!(read.fields(), CommandFields::LocalStatus));
}

#[test]
fn istat() {
    let read = is_command(Command::input_status(), 0x65, &[]);
    assert!(matches!(read.fields(), CommandFields::InputStatus));
}

#[test]
fn ostat() {
    let read = is_command(Command::output_status(), 0x66, &[]);
    assert!(matches!(read.fields(), CommandFields::OutputStatus));
}

#[test]
fn rstat() {
    let read = is_command(Command::reader_status(), 0x67, &[]);
    assert!(matches!(read.fields(), CommandFields::ReaderStatus));
}

#[test]
fn out() {
    let change = |output, control, timer| Output {
        output,
        control,
        timer,
    };
    let changes = [
        change(1, output::ON_FOR_A_TIME, 300),
        change(2, output::OFF, 0),
    ];
    let made = Command::out(&changes).expect("two records");
    let read = is_command(made, 0x68, &[1, 5, 0x2C, 1, 2, 1, 0, 0]);
    let CommandFields::Output(outputs) = read.fields() else {
        panic!("another command");
    };
    assert!(outputs.eq(changes));
    let four = [0, 1, 2, 3].map(|at| change(at, output::ON, 0));
    assert!(
        Command::out(&four)
            .expect("four records")
            .outputs()
            .eq(four)
    );
}

#[test]
fn led() {
    let state = |control, on_time, off_time, on_color, off_color| LedState {
        control,
        on_time,
        off_time,
        on_color,
        off_color,
    };
    let record = Led {
        timer: 300,
        reader: 0,
        led: 1,
        temporary: state(led::SET_TEMPORARY, 3, 4, color::RED, color::BLUE),
        permanent: state(led::SET_PERMANENT, 5, 6, color::GREEN, color::WHITE),
    };
    let made = Command::led(&[record]).expect("one record");
    let data = [0, 1, 2, 3, 4, 1, 4, 0x2C, 1, 1, 5, 6, 2, 7];
    let read = is_command(made, 0x69, &data);
    let CommandFields::Led(leds) = read.fields() else {
        panic!("another command");
    };
    assert!(leds.eq([record]));
    let four = [0, 1, 2, 3].map(|led| Led { led, ..record });
    assert!(Command::led(&four).expect("four records").leds().eq(four));
}

#[test]
fn buz() {
    let buzzer = Buzzer {
        reader: 1,
        tone: tone::DEFAULT,
        on_time: 3,
        off_time: 4,
        count: 5,
    };
    let read = is_command(Command::buzzer(&buzzer), 0x6A, &[1, 2, 3, 4, 5]);
    assert!(matches!(read.fields(), CommandFields::Buzzer(told) if told == buzzer));
}

#[test]
fn text() {
    let text = Text::new(b"Hi").expect("two characters");
    let text = text.for_seconds(9).at_reader(1).at(2, 4);
    let read = is_command(Command::text(&text), 0x6B, &[1, 3, 9, 2, 4, 2, b'H', b'i']);
    assert!(matches!(read.fields(), CommandFields::Text(told) if told == text));
    let wrapped = Command::text(&text.wrapped());
    assert_eq!(wrapped.data()[1], 4);
}

#[test]
fn comset() {
    let made = Command::comset(7, 115_200).expect("an address of a device");
    let read = is_command(made, 0x6E, &[7, 0, 0xC2, 1, 0]);
    assert!(matches!(read.fields(), CommandFields::Comset(7, 115_200)));
}

#[test]
fn mfg() {
    let made = Command::maker([0x5C, 0xD1, 0x2E], &[1, 2]).expect("two bytes");
    let read = is_command(made, 0x80, &[0x5C, 0xD1, 0x2E, 1, 2]);
    assert!(matches!(
        read.fields(),
        CommandFields::Maker([0x5C, 0xD1, 0x2E], [1, 2])
    ));
    assert!(Command::maker([0; 3], &[0; 1429]).is_ok());
    assert_eq!(Command::maker([0; 3], &[0; 1430]), Err(Error::BadLength));
}

#[test]
fn ack() {
    is_reply(Reply::Ack, 0x40, &[]);
    assert_eq!(answered(&BUZ, DeviceAnswer::Done), Some((0x40, vec![])));
}

#[test]
fn nak() {
    let nak = Nak::new(NakReason::RecordNotProcessed, &[1]).expect("a byte");
    is_reply(Reply::Nak(nak), 0x41, &[9, 1]);
    let refused = DeviceAnswer::Refused(NakReason::RecordNotProcessed);
    assert_eq!(answered(&BUZ, refused), Some((0x41, vec![9])));
}

/// What the device of the tests below is.
const WHAT: PdId = PdId {
    serial: 0x0403_0201,
    product: Product {
        vendor: [0x5C, 0xD1, 0x2E],
        model: 1,
        version: 2,
        firmware_major: 5,
        firmware_minor: 6,
        firmware_build: 7,
    },
};

#[test]
fn pdid() {
    let data = [0x5C, 0xD1, 0x2E, 1, 2, 1, 2, 3, 4, 5, 6, 7];
    is_reply(Reply::PdId(WHAT), 0x45, &data);
    let settings = DeviceConfig { id: WHAT, ..DEVICE };
    let mut device = Device::new(&settings).expect("a device");
    // ID 0 to address 5, by number 0
    let asked = [0x53, 5, 8, 0, 0, 0x61, 0, 0x3F];
    assert_eq!(said(&asked, &mut device), Some((0x45, data.to_vec())));
}

#[test]
fn pdcap() {
    let told = |function, level, count| Capability {
        function,
        level,
        count,
    };
    let both = [
        told(function::OUTPUT_CONTROL, 1, 4),
        told(function::VERSION, 2, 0),
    ];
    let capabilities = Capabilities::new(&both).expect("two records");
    assert!(capabilities.iter().eq(both));
    is_reply(Reply::PdCap(capabilities), 0x46, &[2, 1, 4, 16, 2, 0]);
    let settings = DeviceConfig {
        capabilities: &both,
        ..DEVICE
    };
    let mut device = Device::new(&settings).expect("a device");
    // CAP 0 to address 5, by number 0
    let asked = [0x53, 5, 8, 0, 0, 0x62, 0, 0x3E];
    let told = vec![2, 1, 4, 16, 2, 0];
    assert_eq!(said(&asked, &mut device), Some((0x46, told)));
}

#[test]
fn lstatr() {
    is_event(
        Reply::LocalState(state::TAMPERED, state::NORMAL),
        0x48,
        &[1, 0],
    );
}

#[test]
fn istatr() {
    let states = bytes(&[state::INACTIVE, state::ACTIVE]);
    is_event(Reply::Inputs(states), 0x49, &[0, 1]);
}

#[test]
fn ostatr() {
    let states = bytes(&[state::ACTIVE, state::INACTIVE]);
    is_event(Reply::Outputs(states), 0x4A, &[1, 0]);
}

#[test]
fn rstatr() {
    let states = bytes(&[reader::NORMAL, reader::TAMPERED]);
    is_event(Reply::Readers(states), 0x4B, &[0, 2]);
}

#[test]
fn raw() {
    let card = Card::new(1, card::WIEGAND, 26, &[0x0A, 0x0B, 0x0C, 0x40]);
    let data = [1, 1, 26, 0, 0x0A, 0x0B, 0x0C, 0x40];
    is_event(Reply::Raw(card.expect("four bytes")), 0x50, &data);
}

#[test]
fn fmt() {
    let made = Reply::Formatted(1, card::REVERSE, bytes(b"12"));
    is_event(made, 0x51, &[1, 1, 2, b'1', b'2']);
    let long = Reply::Formatted(1, card::FORWARD, bytes(&[b'1'; 256]));
    assert_eq!(long.write(), Err(Error::BadLength));
}

#[test]
fn keypad() {
    is_event(Reply::Keypad(1, bytes(b"12")), 0x53, &[1, 2, b'1', b'2']);
    assert_eq!(
        Reply::Keypad(1, bytes(&[b'1'; 256])).write(),
        Err(Error::BadLength)
    );
}

#[test]
fn com() {
    is_reply(Reply::Com(7, 115_200), 0x54, &[7, 0, 0xC2, 1, 0]);
}

#[test]
fn busy() {
    is_reply(Reply::Busy, 0x79, &[]);
    let mut device = Device::new(&DEVICE).expect("a device");
    device.set_busy(true);
    assert_eq!(said(&BUZ, &mut device), Some((0x79, vec![])));
}

#[test]
fn mfgrep() {
    let made = Reply::Maker([0x5C, 0xD1, 0x2E], bytes(&[1, 2]));
    is_reply(made, 0x90, &[0x5C, 0xD1, 0x2E, 1, 2]);
    let own = DeviceAnswer::Maker([0x5C, 0xD1, 0x2E], &[1, 2]);
    let data = vec![0x5C, 0xD1, 0x2E, 1, 2];
    assert_eq!(answered(&MFG, own), Some((0x90, data)));
    let long = Reply::Maker([0; 3], bytes(&[0; 1430]));
    assert_eq!(long.write(), Err(Error::BadLength));
}

#[test]
fn what_tells_no_event_is_none() {
    let mut device = Device::new(&DEVICE).expect("a device");
    for reply in [
        Reply::Ack,
        Reply::Busy,
        Reply::Com(7, 9600),
        Reply::PdId(WHAT),
    ] {
        assert_eq!(device.submit_event(&reply), Err(Error::NoEvent));
    }
    let other = RawReply::raw(0x53, &[0, 1, b'1']).expect("a KEYPAD");
    assert_eq!(device.submit_event(&Reply::Other(other)), Ok(()));
    assert_eq!(device.waiting(), 1);
}
