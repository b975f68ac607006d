//! Why a call is refused.

use crate::sys;
use core::fmt;

/// Why a call is refused. A refused call has changed nothing, with two exceptions: a `Monitor` stops by `NoMemory` and by `TooLong`, and `Site::act` may have
/// submitted states to devices that come before the one whose session it can't begin.
#[derive(Clone, Copy, Debug, PartialEq, Eq)]
#[non_exhaustive]
pub enum Error {
    /// The text is that of no command, or of no event.
    BadText,
    /// The reply carries no event.
    NoEvent,
    /// The code isn't in the table of commands, or of replies.
    UnknownCode,
    /// A length isn't allowed: there are more data than the message may have, or there is no record.
    BadLength,
    /// A count inside the data disagrees with their length.
    BadCount,
    /// There is no memory. A monitor that hears has stopped then.
    NoMemory,
    /// The panel has sixteen devices already.
    TooManyDevices,
    /// The address is that of another device or reserved for one; or an address is reserved for this device by an earlier COMSET; or, of `Panel::retarget`, a
    /// COMSET waits for this device.
    AddressTaken,
    /// The panel has no such device, as where the number is of another panel.
    NoEntry,
    /// An address is above 126, or a setting or a room in bytes is out of its range.
    OutOfRange,
    /// The address of a COMSET is 127 or above, which no device has.
    AddressOutOfRange,
    /// As many commands or events wait as there is room for, or there is no room for the bytes of this one.
    Full,
    /// The device has used up its numbers: the next one would be 2^64 - 1, which no order has.
    NumbersUsedUp,
    /// The command is a POLL, which the panel sends by itself.
    PollSubmitted,
    /// The session of the device has begun.
    NotClosed,
    /// No call has stopped before a command since the last answer, so there is no command to answer.
    NotAsked,
    /// The moment lies further after the greatest one seen than `clock_limit` allows: a clock has failed, or the host slept. If it slept, call `set_moment`,
    /// and go on.
    MomentTooFar,
    /// A monitor has counted 2^60 packets or bytes, and has stopped.
    TooLong,
    /// The monitor stopped at an earlier call.
    Stopped,
    /// A status that this crate doesn't know.
    Other(u32),
}

impl fmt::Display for Error {
    fn fmt(&self, f: &mut fmt::Formatter<'_>) -> fmt::Result {
        f.write_str(match self {
            Error::BadText => "the text is that of no command and of no event",
            Error::NoEvent => "the reply tells no event",
            Error::UnknownCode => "the code is in no table",
            Error::BadLength => "the length isn't allowed",
            Error::BadCount => "a count disagrees with the length",
            Error::NoMemory => "there is no memory",
            Error::TooManyDevices => "sixteen devices are there",
            Error::AddressTaken => "the address is taken",
            Error::NoEntry => "there is no such device",
            Error::OutOfRange => "an address or a setting is out of its range",
            Error::AddressOutOfRange => "no device has an address above 126",
            Error::NumbersUsedUp => "no number is left for an order of the device",
            Error::Full => "there is no room for one more",
            Error::PollSubmitted => "a POLL can't be submitted",
            Error::NotClosed => "the session isn't closed",
            Error::NotAsked => "no command waits for an answer",
            Error::MomentTooFar => "the moment lies too far ahead",
            Error::TooLong => "the monitor has counted as much as it can",
            Error::Stopped => "the monitor has stopped",
            Error::Other(status) => return write!(f, "status {status}"),
        })
    }
}

impl core::error::Error for Error {}

/// What a status says.
pub(crate) fn check(status: sys::osdp_status) -> Result<(), Error> {
    Err(match status {
        sys::OSDP_OK => return Ok(()),
        sys::OSDP_BAD_TEXT => Error::BadText,
        sys::OSDP_NO_EVENT => Error::NoEvent,
        sys::OSDP_UNKNOWN_CODE => Error::UnknownCode,
        sys::OSDP_BAD_LENGTH => Error::BadLength,
        sys::OSDP_BAD_COUNT => Error::BadCount,
        sys::OSDP_PANEL_NO_MEMORY | sys::OSDP_DEVICE_NO_MEMORY | sys::OSDP_MONITOR_NO_MEMORY => {
            Error::NoMemory
        }
        sys::OSDP_TOO_MANY => Error::TooManyDevices,
        sys::OSDP_ADDRESS_TAKEN => Error::AddressTaken,
        sys::OSDP_NO_ENTRY => Error::NoEntry,
        sys::OSDP_PANEL_OUT_OF_RANGE
        | sys::OSDP_DEVICE_OUT_OF_RANGE
        | sys::OSDP_MONITOR_OUT_OF_RANGE => Error::OutOfRange,
        sys::OSDP_ADDRESS_OUT_OF_RANGE => Error::AddressOutOfRange,
        sys::OSDP_NUMBERS_USED_UP => Error::NumbersUsedUp,
        sys::OSDP_COMMANDS_FULL | sys::OSDP_EVENTS_FULL => Error::Full,
        sys::OSDP_POLL_SUBMITTED => Error::PollSubmitted,
        sys::OSDP_NOT_CLOSED => Error::NotClosed,
        sys::OSDP_NOT_ASKED => Error::NotAsked,
        sys::OSDP_MOMENT_TOO_FAR => Error::MomentTooFar,
        sys::OSDP_MONITOR_TOO_LONG => Error::TooLong,
        sys::OSDP_MONITOR_STOPPED => Error::Stopped,
        other => Error::Other(other),
    })
}
