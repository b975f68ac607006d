//! Replies and events: views over a packet's bytes, or a few fields.

use crate::bytes::Sink;
use crate::commands::{Communication, Fault, Maker, MOST_DATA};

/// Why a command is refused, or anything else that a NAK may say.
#[derive(Clone, Copy, Debug, PartialEq, Eq)]
pub struct NakReason(pub u8);

impl NakReason {
    pub const CHECK: NakReason = NakReason(1);
    pub const LENGTH: NakReason = NakReason(2);
    pub const UNKNOWN: NakReason = NakReason(3);
    pub const NUMBER: NakReason = NakReason(4);
    pub const BLOCK: NakReason = NakReason(5);
    pub const CONDITIONS: NakReason = NakReason(6);
    pub const BIOMETRIC_TYPE: NakReason = NakReason(7);
    pub const BIOMETRIC_FORMAT: NakReason = NakReason(8);
    pub const RECORD: NakReason = NakReason(9);
}

/// What a device is, as it goes over the line: vendor (3 bytes), model, version, serial number (4), firmware (3).
#[derive(Clone, Copy, Debug, PartialEq, Eq)]
pub struct PdId(pub [u8; 12]);

/// What a device can do.
#[derive(Clone, Copy, Debug, PartialEq, Eq)]
pub struct Capability {
    pub code: u8,
    pub level: u8,
    pub count: u8,
}

/// Capabilities, three bytes each.
#[derive(Clone, Copy, Debug, PartialEq, Eq)]
pub struct PdCap<'a>(&'a [u8]);

impl<'a> PdCap<'a> {
    /// None where the bytes aren't 0 to 477 capabilities.
    pub fn new(bytes: &'a [u8]) -> Option<PdCap<'a>> {
        (bytes.len().is_multiple_of(3) && bytes.len() <= MOST_DATA).then_some(PdCap(bytes))
    }

    pub fn capabilities(&self) -> impl Iterator<Item = Capability> + 'a {
        self.0.chunks_exact(3).map(|b| Capability { code: b[0], level: b[1], count: b[2] })
    }
}

/// The bits of a card, in as many bytes as they need.
#[derive(Clone, Copy, Debug, PartialEq, Eq)]
pub struct Raw<'a> {
    pub reader: u8,
    pub format: u8,
    pub bits: u16,
    pub bytes: &'a [u8],
}

/// The digits of a card.
#[derive(Clone, Copy, Debug, PartialEq, Eq)]
pub struct Formatted<'a> {
    pub reader: u8,
    pub direction: u8,
    /// At most 255.
    pub digits: &'a [u8],
}

#[derive(Clone, Copy, Debug, PartialEq, Eq)]
pub struct Keypad<'a> {
    pub reader: u8,
    /// At most 255.
    pub digits: &'a [u8],
}

/// What a device tells when it is polled.
#[derive(Clone, Copy, Debug, PartialEq, Eq)]
pub enum Event<'a> {
    LocalState { tamper: u8, power: u8 },
    Inputs(&'a [u8]),
    Outputs(&'a [u8]),
    Readers(&'a [u8]),
    Raw(Raw<'a>),
    Formatted(Formatted<'a>),
    Keypad(Keypad<'a>),
}

impl<'a> Event<'a> {
    /// The event of a code and its data. None where the code is no event's.
    #[inline]
    fn read(code: u8, data: &'a [u8]) -> Option<Result<Event<'a>, Fault>> {
        let fits = data.len() <= MOST_DATA;
        let counted = |event, right| if right { Ok(event) } else { Err(Fault::Count) };
        Some(match (code, data) {
            (0x48, &[tamper, power]) => Ok(Event::LocalState { tamper, power }),
            (0x49, list) if fits => Ok(Event::Inputs(list)),
            (0x4a, list) if fits => Ok(Event::Outputs(list)),
            (0x4b, list) if fits => Ok(Event::Readers(list)),
            (0x50, &[reader, format, low, high, ref bytes @ ..]) if fits => {
                let bits = u16::from_le_bytes([low, high]);
                counted(Event::Raw(Raw { reader, format, bits, bytes }), bytes.len() == usize::from(bits).div_ceil(8))
            }
            (0x51, &[reader, direction, count, ref digits @ ..]) if fits => {
                counted(Event::Formatted(Formatted { reader, direction, digits }), digits.len() == usize::from(count))
            }
            (0x53, &[reader, count, ref digits @ ..]) if fits => {
                counted(Event::Keypad(Keypad { reader, digits }), digits.len() == usize::from(count))
            }
            (0x48..=0x4b | 0x50 | 0x51 | 0x53, _) => Err(Fault::Length),
            _ => return None,
        })
    }

    /// Writes the code and the data.
    pub fn write(&self, to: &mut impl Sink) {
        match self {
            Event::LocalState { tamper, power } => to.put(&[0x48, *tamper, *power]),
            Event::Inputs(list) => write_list(0x49, list, to),
            Event::Outputs(list) => write_list(0x4a, list, to),
            Event::Readers(list) => write_list(0x4b, list, to),
            Event::Raw(raw) => {
                let bits = raw.bits.to_le_bytes();
                to.put(&[0x50, raw.reader, raw.format, bits[0], bits[1]]);
                to.put(raw.bytes);
            }
            Event::Formatted(card) => {
                to.put(&[0x51, card.reader, card.direction, card.digits.len() as u8]);
                to.put(card.digits);
            }
            Event::Keypad(keys) => {
                to.put(&[0x53, keys.reader, keys.digits.len() as u8]);
                to.put(keys.digits);
            }
        }
    }
}

fn write_list(code: u8, list: &[u8], to: &mut impl Sink) {
    to.put(&[code]);
    to.put(list);
}

#[derive(Clone, Copy, Debug, PartialEq, Eq)]
pub enum Reply<'a> {
    Ack,
    /// A reason, and any detail.
    Nak(NakReason, &'a [u8]),
    PdId(PdId),
    PdCap(PdCap<'a>),
    /// LSTATR, ISTATR, OSTATR, RSTATR, RAW, FMT or KEYPAD.
    Event(Event<'a>),
    Com(Communication),
    Busy,
    Maker(Maker<'a>),
}

impl<'a> Reply<'a> {
    /// The reply of a code and its data.
    #[inline]
    pub fn read(code: u8, data: &'a [u8]) -> Result<Reply<'a>, Fault> {
        if code == 0x40 && data.is_empty() {
            return Ok(Reply::Ack);
        }
        match Event::read(code, data) {
            Some(event) => event.map(Reply::Event),
            None => Reply::read_other(code, data),
        }
    }

    fn read_other(code: u8, data: &'a [u8]) -> Result<Reply<'a>, Fault> {
        let fits = data.len() <= MOST_DATA;
        match (code, data) {
            (0x41, &[reason, ref detail @ ..]) if fits => Ok(Reply::Nak(NakReason(reason), detail)),
            (0x45, data) => data.try_into().map(|data| Reply::PdId(PdId(data))).map_err(|_| Fault::Length),
            (0x46, data) => PdCap::new(data).map(Reply::PdCap).ok_or(Fault::Length),
            (0x54, &[address, a, b, c, d]) => Ok(Reply::Com(Communication::of(address, [a, b, c, d]))),
            (0x79, []) => Ok(Reply::Busy),
            (0x90, &[a, b, c, ref bytes @ ..]) if fits => Ok(Reply::Maker(Maker { vendor: [a, b, c], bytes })),
            (0x40 | 0x41 | 0x54 | 0x79 | 0x90, _) => Err(Fault::Length),
            _ => Err(Fault::Code),
        }
    }

    /// The reply of a body.
    #[inline]
    pub fn of(body: &'a [u8]) -> Result<Reply<'a>, Fault> {
        Reply::read(body[0], &body[1..])
    }

    /// Writes the code and the data.
    #[inline]
    pub fn write(&self, to: &mut impl Sink) {
        match self {
            Reply::Ack => to.put(&[0x40]),
            Reply::Nak(reason, detail) => {
                to.put(&[0x41, reason.0]);
                to.put(detail);
            }
            Reply::PdId(id) => {
                to.put(&[0x45]);
                to.put(&id.0);
            }
            Reply::PdCap(caps) => write_list(0x46, caps.0, to),
            Reply::Event(event) => event.write(to),
            Reply::Com(communication) => communication.write(0x54, to),
            Reply::Busy => to.put(&[0x79]),
            Reply::Maker(maker) => maker.write(0x90, to),
        }
    }
}
