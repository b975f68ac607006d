//! A reply as its code and data, as a device's program makes it.

use crate::error::{Error, check};
use crate::fields::{Card, Reply};
use crate::message::{RawReply, no_message};
use crate::sys;

/// The reply of a code and of data in parts.
fn joined<const N: usize>(code: u32, parts: [&[u8]; N]) -> Result<RawReply, Error> {
    let mut data = [0; sys::OSDP_MOST_DATA as usize];
    let mut length = 0;
    for part in parts {
        let end = length + part.len();
        let place = data.get_mut(length..end).ok_or(Error::BadLength)?;
        place.copy_from_slice(part);
        length = end;
    }
    RawReply::raw(code as u8, &data[..length])
}

/// How many there are, in a byte.
fn count(of: &[u8]) -> Result<[u8; 1], Error> {
    u8::try_from(of.len())
        .map(|count| [count])
        .map_err(|_| Error::BadLength)
}

/// The RAW of a card.
fn raw(card: &Card) -> Result<RawReply, Error> {
    let mut message = no_message();
    // SAFETY: the card is good, and the message is apart.
    check(unsafe { sys::osdp_raw(card.as_sys(), &mut message) })?;
    Ok(RawReply(message))
}

impl Reply {
    /// The code and the data of the reply.
    ///
    /// # Errors
    ///
    /// `BadLength`: there are more characters, keys or bytes than the reply has room for: 255 of a FMT and of a KEYPAD, 1,429 of a maker's reply.
    pub fn write(&self) -> Result<RawReply, Error> {
        match self {
            Reply::Ack => joined(sys::OSDP_ACK, []),
            Reply::Nak(nak) => joined(sys::OSDP_NAK, [&[nak.number()], nak.detail()]),
            Reply::PdId(id) => {
                let what = &id.product;
                let model = [what.model, what.version];
                let serial = id.serial.to_le_bytes();
                let firmware = [
                    what.firmware_major,
                    what.firmware_minor,
                    what.firmware_build,
                ];
                joined(sys::OSDP_PDID, [&what.vendor, &model, &serial, &firmware])
            }
            Reply::PdCap(capabilities) => joined(sys::OSDP_PDCAP, [capabilities.bytes()]),
            Reply::LocalState(tamper, power) => joined(sys::OSDP_LSTATR, [&[*tamper, *power]]),
            Reply::Inputs(states) => joined(sys::OSDP_ISTATR, [states]),
            Reply::Outputs(states) => joined(sys::OSDP_OSTATR, [states]),
            Reply::Readers(states) => joined(sys::OSDP_RSTATR, [states]),
            Reply::Raw(card) => raw(card),
            Reply::Formatted(reader, direction, characters) => joined(
                sys::OSDP_FMT,
                [&[*reader, *direction], &count(characters)?, characters],
            ),
            Reply::Keypad(reader, keys) => {
                joined(sys::OSDP_KEYPAD, [&[*reader], &count(keys)?, keys])
            }
            Reply::Com(address, rate) => joined(sys::OSDP_COM, [&[*address], &rate.to_le_bytes()]),
            Reply::Busy => joined(sys::OSDP_BUSY, []),
            Reply::Maker(vendor, bytes) => joined(sys::OSDP_MFGREP, [vendor, bytes]),
            Reply::Other(reply) => Ok(*reply),
        }
    }
}
