//! Packets: both checks, what stands first in a run, a packet as a view into its bytes, its writing, and the framer.

use crate::bytes::{Burst, Sink};

/// The most bytes that a packet has.
pub const LARGEST: usize = 1440;

/// The address at which every reader listens.
pub const CONFIGURATION: u8 = 127;

const START: u8 = 0x53;
const WITH_CRC: u8 = 4;
const WITH_BLOCK: u8 = 8;

const fn crc_table() -> [u16; 256] {
    let mut table = [0u16; 256];
    let mut index = 0;
    while index < 256 {
        let mut state = (index as u16) << 8;
        let mut bit = 0;
        while bit < 8 {
            state = if state & 0x8000 != 0 { (state << 1) ^ 0x1021 } else { state << 1 };
            bit += 1;
        }
        table[index] = state;
        index += 1;
    }
    table
}

static CRC_TABLE: [u16; 256] = crc_table();

#[inline]
pub fn crc(bytes: &[u8]) -> u16 {
    bytes.iter().fold(0x1d0f, |state, byte| (state << 8) ^ CRC_TABLE[usize::from((state >> 8) as u8 ^ byte)])
}

#[inline]
pub fn checksum(bytes: &[u8]) -> u8 {
    bytes.iter().fold(0u8, |sum, byte| sum.wrapping_add(*byte)).wrapping_neg()
}

/// What stands first in a run: a packet of so many bytes, a byte that begins none, or a fault, F1 to F4 by its number.
#[derive(Clone, Copy, Debug, PartialEq, Eq)]
pub enum First {
    Packet(usize),
    Skipped(u8),
    Refused(u8),
}

/// None where it takes more bytes to tell, which can't be where the run has ended.
#[inline]
pub fn first(rest: &[u8], ended: bool) -> Option<First> {
    let start = *rest.first()?;
    if start != START {
        return Some(First::Skipped(start));
    }
    let at_end = if ended { Some(First::Refused(4)) } else { None };
    if rest.len() < 5 {
        return at_end;
    }
    let size = if rest[4] & WITH_CRC != 0 { 2 } else { 1 };
    let length = usize::from(u16::from_le_bytes([rest[2], rest[3]]));
    if length < 6 + size {
        return Some(First::Refused(1));
    }
    if length > LARGEST {
        return Some(First::Refused(2));
    }
    if rest.len() < length {
        return at_end;
    }
    let (front, check) = rest[..length].split_at(length - size);
    let right = if size == 2 { check == crc(front).to_le_bytes() } else { check[0] == checksum(front) };
    Some(if right { First::Packet(length) } else { First::Refused(3) })
}

/// A packet but for its body.
#[derive(Clone, Copy, Debug, PartialEq, Eq)]
pub struct Head {
    pub reply: bool,
    /// 0 to 127.
    pub address: u8,
    /// 0 to 3.
    pub number: u8,
    pub crc: bool,
    pub block: bool,
    /// 0 to 15.
    pub reserved: u8,
}

impl Head {
    /// That of a packet without a block and reserved bits.
    pub const fn plain(reply: bool, address: u8, number: u8, crc: bool) -> Head {
        Head { reply, address, number, crc, block: false, reserved: 0 }
    }

    #[inline]
    fn control(&self) -> u8 {
        self.number | u8::from(self.crc) << 2 | u8::from(self.block) << 3 | self.reserved << 4
    }
}

/// The number after this one: 0 to 1, 1 to 2, 2 to 3, 3 to 1.
#[inline]
pub fn next(number: u8) -> u8 {
    number % 3 + 1
}

/// A packet whose body, of one byte or more, lies in somebody else's bytes.
#[derive(Clone, Copy, Debug, PartialEq, Eq)]
pub struct View<'a> {
    pub head: Head,
    pub body: &'a [u8],
}

impl<'a> View<'a> {
    /// The packet that these bytes are, all of them, as `first` has found it.
    #[inline]
    pub fn of(bytes: &'a [u8]) -> View<'a> {
        let control = bytes[4];
        let crc = control & WITH_CRC != 0;
        let head = Head {
            reply: bytes[1] & 0x80 != 0,
            address: bytes[1] & 0x7f,
            number: control & 3,
            crc,
            block: control & WITH_BLOCK != 0,
            reserved: control >> 4,
        };
        View { head, body: &bytes[5..bytes.len() - if crc { 2 } else { 1 }] }
    }

    /// The packet that begins these bytes, if one does.
    #[inline]
    pub fn first(bytes: &'a [u8]) -> Option<View<'a>> {
        match first(bytes, true) {
            Some(First::Packet(length)) => Some(View::of(&bytes[..length])),
            _ => None,
        }
    }

    #[inline]
    pub fn code(&self) -> u8 {
        self.body[0]
    }

    #[inline]
    pub fn data(&self) -> &'a [u8] {
        &self.body[1..]
    }
}

impl Burst {
    /// Becomes the packet of this head and the body that `fill` puts.
    #[inline]
    pub fn write(&mut self, head: Head, fill: impl FnOnce(&mut Burst)) {
        self.clear();
        self.put(&[START, head.address | u8::from(head.reply) << 7, 0, 0, head.control()]);
        fill(self);
        let length = self.as_slice().len() + if head.crc { 2 } else { 1 };
        self.as_mut_slice()[2..4].copy_from_slice(&(length as u16).to_le_bytes());
        if head.crc {
            let check = crc(self.as_slice());
            self.put(&check.to_le_bytes());
        } else {
            let check = checksum(self.as_slice());
            self.put(&[check]);
        }
    }

    /// Becomes this packet.
    #[inline]
    pub fn write_view(&mut self, view: &View<'_>) {
        self.write(view.head, |burst| burst.put(view.body));
    }
}

/// The next item of a run.
#[derive(Clone, Copy, Debug, PartialEq, Eq)]
pub enum Item<'a> {
    Packet(View<'a>),
    Skipped(u8),
    Refused(u8),
}

/// Takes the bytes of a line as they come, and gives the items of its runs.
pub struct Framer {
    held: [u8; LARGEST],
    length: usize,
    ended: bool,
    /// What stands first, once it was found: bytes that come later don't change it.
    found: Option<First>,
}

impl Framer {
    pub const fn new() -> Framer {
        Framer { held: [0; LARGEST], length: 0, ended: false, found: None }
    }

    /// Takes bytes as far as there is room, none before an ended run is read, and tells how many.
    pub fn push(&mut self, bytes: &[u8]) -> usize {
        let taken = if self.ended { 0 } else { bytes.len().min(LARGEST - self.length) };
        self.held[self.length..self.length + taken].copy_from_slice(&bytes[..taken]);
        self.length += taken;
        taken
    }

    fn find(&mut self) -> Option<First> {
        if self.found.is_none() {
            self.found = first(&self.held[..self.length], self.ended);
        }
        self.found
    }

    /// The next item, where it is decided.
    pub fn item(&mut self) -> Option<Item<'_>> {
        Some(match self.find()? {
            First::Packet(length) => Item::Packet(View::of(&self.held[..length])),
            First::Skipped(byte) => Item::Skipped(byte),
            First::Refused(fault) => Item::Refused(fault),
        })
    }

    /// Takes the next item off, where it is decided.
    pub fn advance(&mut self) {
        let size = match self.find() {
            Some(First::Packet(length)) => length,
            Some(First::Skipped(_) | First::Refused(_)) => 1,
            None => return,
        };
        self.held.copy_within(size..self.length, 0);
        self.length -= size;
        self.ended &= self.length > 0;
        self.found = None;
    }

    /// The run has ended.
    pub fn gap(&mut self) {
        self.ended = self.length > 0;
    }
}

impl Default for Framer {
    fn default() -> Self {
        Self::new()
    }
}
