//! Packets and both tables of messages.

use yardstick::bytes::{Burst, Sink};
use yardstick::commands::{Command, Communication, Fault, LedRecord, Light, OutputRecord};
use yardstick::packets::{crc, first, First, Framer, Head, Item, View};
use yardstick::replies::{Capability, Event, Keypad, NakReason, Raw, Reply};

fn hex(text: &str) -> Vec<u8> {
    let digits: Vec<u8> = text.bytes().filter(|digit| !digit.is_ascii_whitespace()).collect();
    digits.chunks(2).map(|pair| u8::from_str_radix(std::str::from_utf8(pair).unwrap(), 16).unwrap()).collect()
}

/// The packet that these digits are, whole, which is written as it was read.
fn check_packet(text: &str, head: Head, body: &str) {
    let bytes = hex(text);
    let view = View::first(&bytes).unwrap();
    assert_eq!((view.head, view.body), (head, &hex(body)[..]));
    let mut burst = Burst::new();
    burst.write_view(&view);
    assert_eq!(burst.as_slice(), bytes);
}

#[test]
fn packets_of_both_checks() {
    assert_eq!(crc(b"123456789"), 0xe5cc);
    check_packet("53000700006046", Head::plain(false, 0, 0, false), "60");
    check_packet("530008000460EBAA", Head::plain(false, 0, 0, true), "60");
    check_packet("538008000540689F", Head::plain(true, 0, 1, true), "40");
    check_packet("53FF0700004067", Head::plain(true, 127, 0, false), "40");
    check_packet("530009000802156025", Head { block: true, ..Head::plain(false, 0, 0, false) }, "021560");
    check_packet("53000700106036", Head { reserved: 1, ..Head::plain(false, 0, 0, false) }, "60");
}

#[test]
fn what_stands_first() {
    assert_eq!(first(&hex("FF5300"), false), Some(First::Skipped(0xff)));
    assert_eq!(first(&hex("530006000060"), false), Some(First::Refused(1)));
    assert_eq!(first(&hex("5300A10500"), false), Some(First::Refused(2)));
    assert_eq!(first(&hex("53000700006047"), false), Some(First::Refused(3)));
    assert_eq!(first(&hex("530007000060"), true), Some(First::Refused(4)));
    assert_eq!(first(&hex("530007000060"), false), None);
}

/// A packet cut anywhere, after a byte that is skipped, and the end of a run in the midst of a packet.
#[test]
fn pieces_of_a_run() {
    let bytes = hex("FF53000700006046");
    for cut in 0..bytes.len() {
        let mut framer = Framer::new();
        assert_eq!(framer.push(&bytes[..cut]), cut);
        framer.push(&bytes[cut..]);
        assert_eq!(framer.item(), Some(Item::Skipped(0xff)));
        framer.advance();
        assert!(matches!(framer.item(), Some(Item::Packet(view)) if view.body == [0x60]));
        framer.advance();
        assert_eq!(framer.item(), None);
    }
    let mut framer = Framer::new();
    framer.push(&bytes[1..4]);
    assert_eq!(framer.item(), None);
    framer.gap();
    assert_eq!(framer.push(&bytes), 0);
    assert_eq!(framer.item(), Some(Item::Refused(4)));
    (0..3).for_each(|_| framer.advance());
    assert_eq!(framer.push(&bytes), bytes.len());
}

/// Each command of these bodies is read, and written as it was.
#[test]
fn commands_by_their_table() {
    let rows = "60 6105 6207 64 65 66 67 6800020000 680002000001050A00 6A0002050501 6B00010001010741424344454647 6E0780250000 8053494D 8053494D01";
    for row in rows.split(' ') {
        let body = hex(row);
        let command = Command::of(&body).unwrap();
        let mut written = Vec::new();
        command.write(&mut written);
        assert_eq!(written, body, "{row}");
    }
    assert_eq!(Command::of(&hex("6E0780250000")), Ok(Command::Comset(Communication { address: 7, rate: 9600 })));
}

#[test]
fn records() {
    let outs = hex("680002000001050A00");
    let Ok(Command::Output(outputs)) = Command::of(&outs) else { panic!() };
    let timer = OutputRecord { output: 1, control: 5, timer: 10 };
    assert_eq!(outputs.records().last(), Some(timer));
    assert_eq!(timer.bytes(), outs[5..]);
    let led = hex("69000002050501001E000101000200");
    let Ok(Command::Led(leds)) = Command::of(&led) else { panic!() };
    let temporary = Light { control: 2, on_time: 5, off_time: 5, on_colour: 1, off_colour: 0 };
    let permanent = Light { control: 1, on_time: 1, off_time: 0, on_colour: 2, off_colour: 0 };
    assert_eq!(leds.records().next(), Some(LedRecord { reader: 0, led: 0, temporary, timer: 30, permanent }));
    let mut written = Vec::new();
    Command::Led(leds).write(&mut written);
    assert_eq!(written, led);
}

#[test]
fn commands_refused() {
    let long = |code: u8, size: usize| [&[code][..], &vec![0; size]].concat();
    for (body, fault) in [
        (hex("63"), Fault::Code),
        (long(0x63, 1433), Fault::Code),
        (hex("6000"), Fault::Length),
        (hex("61"), Fault::Length),
        (hex("68"), Fault::Length),
        (hex("680002"), Fault::Length),
        (long(0x68, 1436), Fault::Length),
        (long(0x69, 1442), Fault::Length),
        (long(0x6b, 1433), Fault::Length),
        (long(0x80, 1433), Fault::Length),
        (hex("6A00"), Fault::Length),
        (hex("6B0001000101084142"), Fault::Count),
    ] {
        assert_eq!(Command::of(&body), Err(fault), "{:02x}", body[0]);
    }
    assert!(Command::of(&long(0x68, 1432)).is_ok());
    assert!(Command::of(&long(0x69, 1428)).is_ok());
}

#[test]
fn replies_by_their_table() {
    let rows = "40 4104 41040203 4553494D010101000000010000 46 46020108080100 480001 49 490100 4A0001 4B00 \
                5000001A000A0B0C40 5000000000 510000023132 5300023132 540780250000 79 9053494D 9053494D0102";
    for row in rows.split(' ') {
        let body = hex(row);
        let mut written = Vec::new();
        Reply::of(&body).unwrap_or_else(|fault| panic!("{row} {fault:?}")).write(&mut written);
        assert_eq!(written, body, "{row}");
    }
    let Ok(Reply::PdCap(caps)) = Reply::of(&[0x46, 2, 1, 8, 8, 1, 0]) else { panic!() };
    assert_eq!(caps.capabilities().last(), Some(Capability { code: 8, level: 1, count: 0 }));
    let card = hex("0A0B0C40");
    let raw = Event::Raw(Raw { reader: 0, format: 0, bits: 26, bytes: &card });
    assert_eq!(Reply::of(&hex("5000001A000A0B0C40")), Ok(Reply::Event(raw)));
    assert_eq!(Reply::of(&[0x53, 0, 1, 0x31]), Ok(Reply::Event(Event::Keypad(Keypad { reader: 0, digits: b"1" }))));
    assert_eq!(Reply::of(&[0x41, 4, 9]), Ok(Reply::Nak(NakReason::NUMBER, &[9])));
}

#[test]
fn replies_refused() {
    for (row, fault) in [
        ("42", Fault::Code),
        ("4000", Fault::Length),
        ("41", Fault::Length),
        ("45010203", Fault::Length),
        ("460201", Fault::Length),
        ("4800", Fault::Length),
        ("500000", Fault::Length),
        ("5000001A000A0B0C", Fault::Count),
        ("500000000001", Fault::Count),
        ("510000013132", Fault::Count),
        ("5300033132", Fault::Count),
        ("5407", Fault::Length),
        ("7900", Fault::Length),
        ("905349", Fault::Length),
    ] {
        assert_eq!(Reply::of(&hex(row)), Err(fault), "{row}");
    }
    let long = [&[0x49u8][..], &[0; 1433]].concat();
    assert_eq!(Reply::of(&long), Err(Fault::Length));
    let mut sink = Vec::new();
    sink.put(&long[..1433]);
    assert!(Reply::of(&sink).is_ok());
}
