//! Each reply with fields, by its code and data as the standard has them.
use osdp::{Bytes, Capabilities, Capability, Card, Nak, NakReason, Reply};

fn read(code: u8, data: &[u8]) -> Reply {
    Reply::read(code, data).expect("a reply")
}

fn bytes(of: &[u8]) -> Bytes {
    Bytes::new(of).expect("bytes")
}

fn told([function, level, count]: [u8; 3]) -> Capability {
    Capability {
        function,
        level,
        count,
    }
}

#[test]
fn states_are_typed() {
    assert_eq!(read(0x48, &[1, 0]), Reply::LocalState(1, 0));
    assert_eq!(read(0x49, &[0, 1]), Reply::Inputs(bytes(&[0, 1])));
    assert_eq!(read(0x4A, &[1, 0]), Reply::Outputs(bytes(&[1, 0])));
    assert_eq!(read(0x4B, &[0, 2]), Reply::Readers(bytes(&[0, 2])));
}

#[test]
fn capabilities_are_typed() {
    let both = [[2, 4, 1], [8, 1, 0]].map(told);
    let Reply::PdCap(capabilities) = read(0x46, &[2, 4, 1, 8, 1, 0]) else {
        panic!("another reply");
    };
    assert!(capabilities.iter().eq(both));
    assert_eq!(Some(capabilities), Capabilities::new(&both));
    assert_eq!(Capabilities::new(&[told([1; 3]); 478]), None);
    assert!(Capabilities::new(&[told([1; 3]); 477]).is_some());
}

#[test]
fn what_cards_and_makers_tell_is_typed() {
    let formatted = Reply::Formatted(0, 1, bytes(b"AB"));
    assert_eq!(read(0x51, &[0, 1, 2, b'A', b'B']), formatted);
    let maker = Reply::Maker([1, 2, 3], bytes(&[9]));
    assert_eq!(read(0x90, &[1, 2, 3, 9]), maker);
    let card = Card::new(1, 2, 4, &[0xF0]).map(Reply::Raw);
    assert_eq!(Some(read(0x50, &[1, 2, 4, 0, 0xF0])), card);
    let refused = Reply::Nak(Nak::new(NakReason::RecordNotProcessed, &[]).unwrap());
    assert_eq!(read(0x41, &[9]), refused);
}

#[test]
fn each_nak_is_one() {
    let detailed = Nak::new(NakReason::RecordNotProcessed, &[1, 2]).unwrap();
    assert_eq!(read(0x41, &[9, 1, 2]), Reply::Nak(detailed));
    assert_eq!((detailed.number(), detailed.detail()), (9, &[1, 2][..]));
    let Reply::Nak(unknown) = read(0x41, &[12]) else {
        panic!("a NAK for another reason is another reply");
    };
    assert_eq!((unknown.number(), unknown.reason()), (12, None));
    assert!(Nak::new(NakReason::UnknownCommand, &[0; 1431]).is_some());
    assert!(Nak::new(NakReason::UnknownCommand, &[0; 1432]).is_none());
}
