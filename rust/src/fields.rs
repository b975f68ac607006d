//! The fields of commands and replies.

use crate::error::Error;
use crate::message::RawReply;
use crate::named::text;
use crate::numbered::numbered;
use crate::sys;
use core::fmt;
use core::mem::zeroed;

pub use crate::sys::{
    osdp_buzzer as Buzzer, osdp_capability as Capability, osdp_led as Led,
    osdp_led_state as LedState, osdp_output as Output, osdp_pd_id as PdId, osdp_product as Product,
};

/// What the display of a reader shows.
#[derive(Clone, Copy)]
pub struct Text(sys::osdp_text);

impl Text {
    /// A text that is shown for good, on one row, from row 1 and column 1 on, at the first reader. None where it has more than 255 bytes.
    pub fn new(characters: &[u8]) -> Option<Text> {
        let mut text = sys::osdp_text {
            reader: 0,
            command: text::PERMANENT,
            time: 0,
            row: 1,
            column: 1,
            count: u8::try_from(characters.len()).ok()?,
            characters: [0; 255],
        };
        text.characters[..characters.len()].copy_from_slice(characters);
        Some(Text(text))
    }

    /// The same text, shown for so many seconds.
    pub fn for_seconds(mut self, seconds: u8) -> Text {
        self.0.command = match self.0.command {
            text::PERMANENT_WRAPPED | text::TEMPORARY_WRAPPED => text::TEMPORARY_WRAPPED,
            _ => text::TEMPORARY,
        };
        self.0.time = seconds;
        self
    }

    /// The same text, which goes on in the next row where one row is too short.
    pub fn wrapped(mut self) -> Text {
        self.0.command = match self.0.command {
            text::TEMPORARY | text::TEMPORARY_WRAPPED => text::TEMPORARY_WRAPPED,
            _ => text::PERMANENT_WRAPPED,
        };
        self
    }

    /// The same text at another reader of the device, counted from 0.
    pub fn at_reader(mut self, reader: u8) -> Text {
        self.0.reader = reader;
        self
    }

    /// The same text from another row and column on, both counted from 1.
    pub fn at(mut self, row: u8, column: u8) -> Text {
        (self.0.row, self.0.column) = (row, column);
        self
    }

    pub(crate) fn as_sys(&self) -> &sys::osdp_text {
        &self.0
    }

    pub(crate) fn of(told: sys::osdp_text) -> Text {
        Text(told)
    }

    /// Which reader of the device shows it, counted from 0.
    pub fn reader(&self) -> u8 {
        self.0.reader
    }

    /// How it is shown, as `named::text` has it.
    pub fn command(&self) -> u8 {
        self.0.command
    }

    /// For how many seconds, where it is shown for a time.
    pub fn seconds(&self) -> u8 {
        self.0.time
    }

    /// The row and the column of its first character, counted from 1.
    pub fn place(&self) -> (u8, u8) {
        (self.0.row, self.0.column)
    }

    /// Its characters.
    pub fn characters(&self) -> &[u8] {
        &self.0.characters[..usize::from(self.0.count)]
    }
}

impl PartialEq for Text {
    fn eq(&self, other: &Text) -> bool {
        let parts = |text: &Text| (text.reader(), text.command(), text.seconds(), text.place());
        parts(self) == parts(other) && self.characters() == other.characters()
    }
}

impl Eq for Text {}

impl fmt::Debug for Text {
    fn fmt(&self, f: &mut fmt::Formatter<'_>) -> fmt::Result {
        f.debug_struct("Text")
            .field("reader", &self.reader())
            .field("command", &self.command())
            .field("seconds", &self.seconds())
            .field("place", &self.place())
            .field("characters", &self.characters())
            .finish()
    }
}

numbered! {
    /// Why a command wasn't done.
    pub enum NakReason {
        /// 1: the check characters are wrong.
        CheckCharacters = OSDP_NAK_CHECK_CHARACTERS,
        /// 2: the length of the command is wrong.
        CommandLength = OSDP_NAK_COMMAND_LENGTH,
        /// 3: the command is unknown.
        UnknownCommand = OSDP_NAK_UNKNOWN_COMMAND,
        /// 4: the sequence number was not expected.
        UnexpectedSequence = OSDP_NAK_UNEXPECTED_SEQUENCE,
        /// 5: the security block is not supported.
        SecurityBlock = OSDP_NAK_SECURITY_BLOCK,
        /// 6: the security conditions are not met.
        SecurityConditions = OSDP_NAK_SECURITY_CONDITIONS,
        /// 7: the biometric type is not supported.
        BiometricType = OSDP_NAK_BIOMETRIC_TYPE,
        /// 8: the biometric format is not supported.
        BiometricFormat = OSDP_NAK_BIOMETRIC_FORMAT,
        /// 9: the command's record can't be processed.
        RecordNotProcessed = OSDP_NAK_RECORD_NOT_PROCESSED,
    }
}

/// Why a command wasn't done: the reason, and what else the device tells of it.
#[derive(Clone, Copy, Debug, PartialEq, Eq)]
pub struct Nak {
    number: u8,
    detail: Bytes,
}

impl Nak {
    /// A NAK for a reason, with these bytes of detail. None where there are more than 1,431.
    pub fn new(reason: NakReason, detail: &[u8]) -> Option<Nak> {
        let number = reason.number() as u8;
        let detail = Bytes::new(detail).filter(|detail| detail.len() < detail.bytes.len())?;
        Some(Nak { number, detail })
    }

    /// The reason. None where its number isn't 1 to 9.
    pub fn reason(&self) -> Option<NakReason> {
        NakReason::of(self.number.into())
    }

    /// The number of the reason.
    pub fn number(&self) -> u8 {
        self.number
    }

    /// What else is told of the reason; mostly nothing.
    pub fn detail(&self) -> &[u8] {
        &self.detail
    }
}

/// The bits of a card, as a reader of the device has read them.
#[derive(Clone, Copy)]
pub struct Card(sys::osdp_raw);

impl Card {
    /// A card of so many bits, 0 to 11,424. `format` is as `named::card` has it. None where the bytes aren't as many as the bits need (bits divided by 8,
    /// rounded up), or are more than 1,428.
    pub fn new(reader: u8, format: u8, bits: u16, bytes: &[u8]) -> Option<Card> {
        let mut card = sys::osdp_raw {
            reader,
            format,
            bits,
            length: u16::try_from(bytes.len()).ok()?,
            bytes: [0; 1428],
        };
        if bytes.len() != usize::from(bits).div_ceil(8) {
            return None;
        }
        card.bytes.get_mut(..bytes.len())?.copy_from_slice(bytes);
        Some(Card(card))
    }

    pub(crate) fn as_sys(&self) -> &sys::osdp_raw {
        &self.0
    }

    /// Which reader of the device has read it, counted from 0.
    pub fn reader(&self) -> u8 {
        self.0.reader
    }

    /// How the bits are to be understood, as `named::card` has it.
    pub fn format(&self) -> u8 {
        self.0.format
    }

    /// How many bits there are.
    pub fn bits(&self) -> u16 {
        self.0.bits
    }

    /// The bits, the first in the highest place of the first byte.
    pub fn bytes(&self) -> &[u8] {
        &self.0.bytes[..usize::from(self.0.length)]
    }
}

impl PartialEq for Card {
    fn eq(&self, other: &Card) -> bool {
        (self.reader(), self.format(), self.bits(), self.bytes())
            == (other.reader(), other.format(), other.bits(), other.bytes())
    }
}

impl Eq for Card {}

impl fmt::Debug for Card {
    fn fmt(&self, f: &mut fmt::Formatter<'_>) -> fmt::Result {
        f.debug_struct("Card")
            .field("reader", &self.reader())
            .field("format", &self.format())
            .field("bits", &self.bits())
            .field("bytes", &self.bytes())
            .finish()
    }
}

/// Bytes of a reply, at most 1,432.
#[derive(Clone, Copy)]
pub struct Bytes {
    length: u16,
    bytes: [u8; 1432],
}

impl Bytes {
    /// These bytes. None where there are more than 1,432.
    pub fn new(bytes: &[u8]) -> Option<Bytes> {
        let mut held = Bytes {
            length: u16::try_from(bytes.len()).ok()?,
            bytes: [0; 1432],
        };
        held.bytes.get_mut(..bytes.len())?.copy_from_slice(bytes);
        Some(held)
    }
}

impl core::ops::Deref for Bytes {
    type Target = [u8];

    fn deref(&self) -> &[u8] {
        &self.bytes[..usize::from(self.length)]
    }
}

impl PartialEq for Bytes {
    fn eq(&self, other: &Bytes) -> bool {
        **self == **other
    }
}

impl Eq for Bytes {}

impl fmt::Debug for Bytes {
    fn fmt(&self, f: &mut fmt::Formatter<'_>) -> fmt::Result {
        fmt::Debug::fmt(&**self, f)
    }
}

/// What a device can do, in the order in which it tells it: the records of a PDCAP.
#[derive(Clone, Copy, Debug, PartialEq, Eq)]
pub struct Capabilities(Bytes);

impl Capabilities {
    /// These capabilities. None where there are more than 477.
    pub fn new(capabilities: &[Capability]) -> Option<Capabilities> {
        let mut held = Bytes::new(&[])?;
        held.length = u16::try_from(capabilities.len() * 3).ok()?;
        for (place, told) in held.bytes.chunks_exact_mut(3).zip(capabilities) {
            place.copy_from_slice(&spelled(told));
        }
        (usize::from(held.length) <= held.bytes.len()).then_some(Capabilities(held))
    }

    pub(crate) fn bytes(&self) -> &[u8] {
        &self.0
    }

    /// The capabilities, one by one.
    pub fn iter(&self) -> impl Iterator<Item = Capability> + '_ {
        self.0.chunks_exact(3).map(|told| Capability {
            function: told[0],
            level: told[1],
            count: told[2],
        })
    }
}

/// A reply, with its fields. A program can make each of them, so that its decisions can be tested without a line.
#[derive(Clone, Copy, Debug, PartialEq, Eq)]
#[non_exhaustive]
#[allow(clippy::large_enum_variant)]
pub enum Reply {
    /// The command was done; or, to a POLL, there is nothing to tell.
    Ack,
    /// The command wasn't done, and why.
    Nak(Nak),
    /// What the device is.
    PdId(PdId),
    /// What the device can do.
    PdCap(Capabilities),
    /// Whether the device is tampered with, and whether its power fails, as `named::state` has it.
    LocalState(u8, u8),
    /// A byte for each input, as `named::state` has it.
    Inputs(Bytes),
    /// A byte for each output, as `named::state` has it.
    Outputs(Bytes),
    /// A byte for each reader, as `named::reader` has it.
    Readers(Bytes),
    /// A card's bits.
    Raw(Card),
    /// The characters of a card: the reader of the device, the direction in which the card was drawn (`named::card`), and the characters, at most 255.
    Formatted(u8, u8, Bytes),
    /// Keys that were pressed: the reader of the device, and the keys in their order, at most 255.
    Keypad(u8, Bytes),
    /// The address, and the rate in bits per second, from now on: it confirms a COMSET.
    Com(u8, u32),
    /// The device is busy, and the command wasn't taken: it is to be sent again. A panel does so by itself.
    Busy,
    /// The maker's own reply: the maker's code, and the maker's bytes, at most 1,429.
    Maker([u8; 3], Bytes),
    /// Another reply, as its code and data.
    Other(RawReply),
}

/// The struct of a message's fields, where a call for C finds them.
pub(crate) fn read<T>(
    message: &sys::osdp_message,
    call: unsafe extern "C" fn(*const sys::osdp_message, *mut T) -> sys::osdp_status,
) -> Option<T> {
    // SAFETY: each struct of fields is of numbers and arrays of bytes, so zeros are one; the message is good, and the struct is apart.
    unsafe {
        let mut fields = zeroed();
        (call(message, &mut fields) == sys::OSDP_OK).then_some(fields)
    }
}

/// The numbers of a capability, as they stand on the line.
fn spelled(told: &Capability) -> [u8; 3] {
    [told.function, told.level, told.count]
}

impl Reply {
    /// The reply of a code and its data.
    ///
    /// # Errors
    ///
    /// `UnknownCode`, `BadLength`, `BadCount`: the code and data are those of no reply.
    pub fn read(code: u8, data: &[u8]) -> Result<Reply, Error> {
        RawReply::raw(code, data).map(Reply::from)
    }

    fn known(reply: &RawReply) -> Option<Reply> {
        let told = &reply.0;
        Some(match u32::from(reply.code()) {
            sys::OSDP_ACK => Reply::Ack,
            sys::OSDP_BUSY => Reply::Busy,
            sys::OSDP_NAK => {
                let nak = read(told, sys::osdp_nak_of)?;
                Reply::Nak(Nak {
                    number: nak.reason,
                    detail: Bytes::new(&nak.detail[..nak.length.into()])?,
                })
            }
            sys::OSDP_PDID => Reply::PdId(read(told, sys::osdp_pd_id_of)?),
            sys::OSDP_PDCAP => Reply::PdCap(Capabilities(Bytes::new(reply.data())?)),
            sys::OSDP_LSTATR => {
                let state = read(told, sys::osdp_local_state_of)?;
                Reply::LocalState(state.tamper, state.power)
            }
            sys::OSDP_ISTATR => Reply::Inputs(Bytes::new(reply.data())?),
            sys::OSDP_OSTATR => Reply::Outputs(Bytes::new(reply.data())?),
            sys::OSDP_RSTATR => Reply::Readers(Bytes::new(reply.data())?),
            sys::OSDP_RAW => Reply::Raw(Card(read(told, sys::osdp_raw_of)?)),
            sys::OSDP_FMT => {
                let card = read(told, sys::osdp_formatted_of)?;
                let characters = Bytes::new(&card.digits[..card.count.into()])?;
                Reply::Formatted(card.reader, card.direction, characters)
            }
            sys::OSDP_KEYPAD => {
                let keys = read(told, sys::osdp_keypad_of)?;
                Reply::Keypad(keys.reader, Bytes::new(&keys.digits[..keys.count.into()])?)
            }
            sys::OSDP_COM => {
                let set = read(told, sys::osdp_com_of)?;
                Reply::Com(set.address as u8, set.baud_rate)
            }
            sys::OSDP_MFGREP => {
                let maker = read(told, sys::osdp_maker_reply_of)?;
                Reply::Maker(
                    maker.vendor,
                    Bytes::new(&maker.bytes[..maker.length.into()])?,
                )
            }
            _ => return None,
        })
    }

    pub(crate) fn from_sys(message: &sys::osdp_message) -> Option<Reply> {
        RawReply::from_sys(message).map(Reply::from)
    }
}

impl From<RawReply> for Reply {
    fn from(reply: RawReply) -> Reply {
        Reply::known(&reply).unwrap_or(Reply::Other(reply))
    }
}
