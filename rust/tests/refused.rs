//! What a reader's program is told of a command: that it is to be done, or that the reader has refused it; and that no order is told after a send that failed.
mod settings;

use osdp::{Device, Moment, Order, Said};
use settings::DEVICE;
use std::io::Write;

/// `OUT 0:2:0` and `OUT 9:2:0` with number 0, worked by hand: the reader has the first of both outputs alone.
const OUT: [u8; 11] = [0x53, 0x05, 0x0B, 0, 0, 0x68, 0, 2, 0, 0, 0x33];
const OUT_OF_NONE: [u8; 11] = [0x53, 0x05, 0x0B, 0, 0, 0x68, 9, 2, 0, 0, 0x2A];

/// What the program is told of a packet, and what goes out.
fn answer_to(packet: &[u8]) -> Option<(Said, Option<Order>, Vec<u8>)> {
    let mut device = Device::new(&DEVICE).ok()?;
    device.set_outputs(&[0]).ok()?;
    let now = Moment::from_millis(0);
    let asked = device.step(packet, now).ok()?.answer?;
    let order = asked.send(|_| Err("nothing is said yet")).ok()?;
    assert!(matches!(order, Some(Order::Pending(_))));
    let mut sent = Vec::new();
    let answer = device.step(&[], now).ok()?.answer?;
    let said = answer.said;
    let order = answer.send(|burst| sent.write_all(burst)).ok()?;
    Some((said, order, sent))
}

#[test]
fn a_refused_command_is_told_so() {
    let (said, order, sent) = answer_to(&OUT_OF_NONE).expect("an answer");
    assert_eq!(said, Said::Zero);
    let Some(Order::Refused(command)) = order else {
        panic!("another order: {order:?}");
    };
    assert_eq!(command.to_string(), "OUT 9:2:0");
    assert_eq!(&sent[5..7], &[0x41, 9]);
}

/// A send that fails tells no order. `order` has told it before, and the repeat that follows is none.
#[test]
fn an_order_is_told_before_a_send_that_fails() {
    const ID: [u8; 8] = [0x53, 5, 8, 0, 0, 0x61, 0, 0x3F];
    const NEXT_OUT: [u8; 11] = [0x53, 5, 0x0B, 0, 1, 0x68, 0, 2, 0, 0, 0x32];
    let mut device = Device::new(&DEVICE).unwrap();
    device.set_outputs(&[0]).unwrap();
    let answers =
        [(&ID[..], 0), (&NEXT_OUT, 100), (&[], 100), (&NEXT_OUT, 200)].map(|(packet, now)| {
            let step = device.step(packet, Moment::from_millis(now)).unwrap();
            let answer = step.answer.expect("an answer");
            let (said, order) = (answer.said, answer.order().cloned());
            (said, order, answer.send(|_| Err("the port is gone")))
        });
    let [_, (asked, ..), (taken, order, sent), repeated] = &answers;
    assert_eq!((*asked, *taken), (Said::Pending, Said::Taken));
    assert!(matches!(order, Some(Order::Once(_))) && sent.is_err());
    assert_eq!(repeated, &(Said::Repeat, None, Err("the port is gone")));
}

#[test]
fn a_confirmed_command_is_not() {
    let (_, order, _) = answer_to(&OUT).expect("an answer");
    let Some(Order::Again(command)) = order else {
        panic!("another order: {order:?}");
    };
    assert_eq!(command.to_string(), "OUT 0:2:0");
}
