//! What both ends share: commands, messages, and the bytes of the line.

use crate::error::{Error, check};
use crate::fields::{Buzzer, Led, Output, Text};
use crate::sys;
use core::ffi::c_char;
use core::fmt;
use core::marker::PhantomData;

/// The text of each command and reply, and a zero after it, have room in so many bytes.
const TEXT_ROOM: usize = sys::OSDP_MOST_TEXT as usize + 1;

type TextCall =
    unsafe extern "C" fn(u8, *const u8, usize, *mut c_char, usize, *mut usize) -> sys::osdp_status;

/// What a call for texts says of a code and data, with this room for the text.
fn text_of(
    call: TextCall,
    code: u8,
    data: &[u8],
    text: &mut [u8],
    length: &mut usize,
) -> sys::osdp_status {
    // SAFETY: each pointer is to as much as the call is told, and none is null, also of a slice that is empty.
    unsafe {
        call(
            code,
            data.as_ptr(),
            data.len(),
            text.as_mut_ptr().cast(),
            text.len(),
            length,
        )
    }
}

/// Whether a code and data are a message: else why not. Its text isn't written, as there is no room for any.
fn judge(call: TextCall, code: u8, data: &[u8]) -> Result<(), Error> {
    match text_of(call, code, data, &mut [], &mut 0) {
        sys::OSDP_OK | sys::OSDP_TOO_SMALL => Ok(()),
        status => check(status),
    }
}

/// Writes the text that a call gives for a message.
fn write_text(
    f: &mut fmt::Formatter<'_>,
    call: TextCall,
    message: &sys::osdp_message,
) -> fmt::Result {
    let mut text = [0; TEXT_ROOM];
    let mut length = 0;
    let status = text_of(
        call,
        message.code,
        message_data(message),
        &mut text,
        &mut length,
    );
    let written = text
        .get(..length)
        .and_then(|bytes| str::from_utf8(bytes).ok());
    match (status, written) {
        (sys::OSDP_OK, Some(text)) => f.write_str(text),
        _ => Err(fmt::Error),
    }
}

pub(crate) fn message_data(message: &sys::osdp_message) -> &[u8] {
    &message.data[..usize::from(message.length)]
}

pub(crate) fn no_message() -> sys::osdp_message {
    sys::osdp_message {
        length: 0,
        present: 0,
        code: 0,
        data: [0; 1432],
    }
}

/// The message of a code and data that a table has, as many as there is room for.
fn message_of(code: u8, data: &[u8]) -> sys::osdp_message {
    let mut message = no_message();
    message.data[..data.len()].copy_from_slice(data);
    message.length = data.len() as u16;
    message.present = 1;
    message.code = code;
    message
}

macro_rules! message {
    ($(#[$about:meta])* $name:ident, $call:ident) => {
        $(#[$about])*
        #[derive(Clone, Copy)]
        pub struct $name(pub(crate) sys::osdp_message);

        impl $name {
            pub(crate) fn from_sys(message: &sys::osdp_message) -> Option<$name> {
                (message.present != 0).then_some($name(*message))
            }

            /// The message of a code and its data.
            ///
            /// # Errors
            ///
            /// `UnknownCode`, `BadLength`, `BadCount`: the code and data are those of no such message.
            pub fn raw(code: u8, data: &[u8]) -> Result<$name, Error> {
                judge(sys::$call, code, data)?;
                Ok($name(message_of(code, data)))
            }

            /// Its code.
            pub fn code(&self) -> u8 {
                self.0.code
            }

            /// Its data.
            pub fn data(&self) -> &[u8] {
                message_data(&self.0)
            }
        }

        /// The text of the message, as `docs/PROTOCOL.md` has it: `OUT 0:5:30`.
        impl fmt::Display for $name {
            fn fmt(&self, f: &mut fmt::Formatter<'_>) -> fmt::Result {
                write_text(f, sys::$call, &self.0)
            }
        }

        impl fmt::Debug for $name {
            fn fmt(&self, f: &mut fmt::Formatter<'_>) -> fmt::Result {
                f.debug_struct(stringify!($name))
                    .field("code", &self.code())
                    .field("data", &self.data())
                    .finish()
            }
        }

        impl PartialEq for $name {
            fn eq(&self, other: &$name) -> bool {
                self.code() == other.code() && self.data() == other.data()
            }
        }

        impl Eq for $name {}
    };
}

message! {
    /// A command: what a panel sends.
    Command, osdp_command_text_nonnull
}

message! {
    /// A reply as its code and data. `Reply::from` gives its fields, and `Reply::write` makes one of them.
    RawReply, osdp_reply_text_nonnull
}

/// The command that a call writes.
fn written(write: impl FnOnce(&mut sys::osdp_message)) -> Command {
    let mut message = no_message();
    write(&mut message);
    Command(message)
}

impl Command {
    /// Asks what the device is. Its byte is 0: the standard has no other.
    pub fn id() -> Command {
        // SAFETY: the message is good.
        written(|message| unsafe { sys::osdp_id(message) })
    }

    /// Asks what the device can do. Its byte is 0: the standard has no other.
    pub fn cap() -> Command {
        // SAFETY: the message is good.
        written(|message| unsafe { sys::osdp_cap(message) })
    }

    /// Asks for the state of the device itself.
    pub fn local_status() -> Command {
        Command(message_of(sys::OSDP_LSTAT as u8, &[]))
    }

    /// Asks for the states of the inputs.
    pub fn input_status() -> Command {
        Command(message_of(sys::OSDP_ISTAT as u8, &[]))
    }

    /// Asks for the states of the outputs.
    pub fn output_status() -> Command {
        Command(message_of(sys::OSDP_OSTAT as u8, &[]))
    }

    /// Asks for the states of the readers.
    pub fn reader_status() -> Command {
        Command(message_of(sys::OSDP_RSTAT as u8, &[]))
    }

    /// Says what outputs are to do: an OUT of 1 to 358 records.
    ///
    /// # Errors
    ///
    /// `BadLength`: there are none, or more than 358.
    pub fn out(outputs: &[Output]) -> Result<Command, Error> {
        let mut message = no_message();
        // SAFETY: an `Output` is an `osdp_output`, so many are there, and the message is apart.
        check(unsafe { sys::osdp_out_nonnull(outputs.as_ptr(), outputs.len(), &mut message) })?;
        Ok(Command(message))
    }

    /// Says what LEDs of readers are to do: a LED of 1 to 102 records.
    ///
    /// # Errors
    ///
    /// `BadLength`: there are none, or more than 102.
    pub fn led(leds: &[Led]) -> Result<Command, Error> {
        let mut message = no_message();
        // SAFETY: a `Led` is an `osdp_led`, so many are there, and the message is apart.
        check(unsafe { sys::osdp_led_nonnull(leds.as_ptr(), leds.len(), &mut message) })?;
        Ok(Command(message))
    }

    /// Says how the buzzer of a reader is to sound.
    pub fn buzzer(buzzer: &Buzzer) -> Command {
        // SAFETY: a `Buzzer` is an `osdp_buzzer`, and the message is apart.
        written(|message| unsafe { sys::osdp_buzzer(buzzer, message) })
    }

    /// Says what the display of a reader is to show.
    pub fn text(text: &Text) -> Command {
        // SAFETY: a `Text` is an `osdp_text`, and the message is apart.
        written(|message| unsafe { sys::osdp_text(text.as_sys(), message) })
    }

    /// Says which address, 0 to 126, and which rate, in bits per second, a device is to have.
    ///
    /// # Errors
    ///
    /// `AddressOutOfRange`: the address is above 126.
    pub fn comset(address: u8, baud_rate: u32) -> Result<Command, Error> {
        let mut message = no_message();
        // SAFETY: the message is good.
        check(unsafe { sys::osdp_comset(u32::from(address), baud_rate, &mut message) })?;
        Ok(Command(message))
    }

    /// A command of the device's maker: the maker's code, and the maker's bytes, at most 1,429.
    ///
    /// # Errors
    ///
    /// `BadLength`: there are more than 1,429 bytes.
    pub fn maker(vendor: [u8; 3], bytes: &[u8]) -> Result<Command, Error> {
        let mut maker = sys::osdp_maker {
            length: u16::try_from(bytes.len()).map_err(|_| Error::BadLength)?,
            vendor,
            bytes: [0; 1429],
        };
        let room = maker.bytes.get_mut(..bytes.len());
        room.ok_or(Error::BadLength)?.copy_from_slice(bytes);
        let mut message = no_message();
        // SAFETY: the maker's message is good, and the message is apart.
        check(unsafe { sys::osdp_maker(&maker, &mut message) })?;
        Ok(Command(message))
    }
}

/// The bytes of one packet, to be written to the line whole and at once. It derefs to them, and is empty where nothing is to go out. It borrows the panel or the
/// device: until it is written, no other call of that machine compiles.
#[must_use = "it goes out before the next call: write it to the line, whole and at once"]
pub struct Burst<'a> {
    bytes: sys::osdp_burst,
    end: PhantomData<&'a mut ()>,
}

impl Burst<'_> {
    pub(crate) fn from_sys<'a>(bytes: &sys::osdp_burst) -> Burst<'a> {
        Burst {
            bytes: *bytes,
            end: PhantomData,
        }
    }
}

pub(crate) fn no_burst() -> sys::osdp_burst {
    sys::osdp_burst {
        length: 0,
        bytes: [0; 1440],
    }
}

impl core::ops::Deref for Burst<'_> {
    type Target = [u8];

    fn deref(&self) -> &[u8] {
        &self.bytes.bytes[..self.bytes.length as usize]
    }
}

impl fmt::Debug for Burst<'_> {
    fn fmt(&self, f: &mut fmt::Formatter<'_>) -> fmt::Result {
        fmt::Debug::fmt(&**self, f)
    }
}
