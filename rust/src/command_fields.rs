//! The fields of a command, as a device's program reads them.

use crate::fields::{Buzzer, Led, Output, Text, read};
use crate::message::Command;
use crate::sys;

/// The records of one command, in their order.
macro_rules! records {
    ($(#[$about:meta])* $name:ident of $record:ty, $call:ident) => {
        $(#[$about])*
        #[derive(Clone, Debug)]
        pub struct $name<'a> {
            command: &'a Command,
            at: usize,
        }

        impl Iterator for $name<'_> {
            type Item = $record;

            fn next(&mut self) -> Option<$record> {
                let mut record = <$record>::default();
                // SAFETY: the command is a message, and the record is apart.
                let status = unsafe { sys::$call(&self.command.0, self.at, &mut record) };
                self.at += 1;
                (status == sys::OSDP_OK).then_some(record)
            }
        }
    };
}

records! {
    /// What outputs are to do: the records of an OUT, one by one, in their order.
    Outputs of Output, osdp_output_of
}

records! {
    /// What LEDs are to do: the records of a LED, one by one, in their order.
    Leds of Led, osdp_led_of
}

/// What a command asks for, with its fields.
#[derive(Clone, Debug)]
#[non_exhaustive]
#[allow(clippy::large_enum_variant)]
pub enum CommandFields<'a> {
    /// It asks for the next event.
    Poll,
    /// It asks what the device is. Its byte is given as it was read.
    Id(u8),
    /// It asks what the device can do. Its byte is given as it was read.
    Cap(u8),
    /// It asks for the state of the device itself.
    LocalStatus,
    /// It asks for the states of the inputs.
    InputStatus,
    /// It asks for the states of the outputs.
    OutputStatus,
    /// It asks for the states of the readers.
    ReaderStatus,
    /// It says what outputs are to do.
    Output(Outputs<'a>),
    /// It says what LEDs of readers are to do.
    Led(Leds<'a>),
    /// It says how the buzzer of a reader is to sound.
    Buzzer(Buzzer),
    /// It says what the display of a reader is to show.
    Text(Text),
    /// It says which address, and which rate in bits per second, the device is to have.
    Comset(u8, u32),
    /// A command of the device's maker: the maker's code, and the maker's bytes.
    Maker([u8; 3], &'a [u8]),
}

impl Command {
    /// What the command asks for, with its fields.
    ///
    /// ```no_run
    /// use osdp::{Command, CommandFields};
    ///
    /// /// The color that a command gives the first LED for good.
    /// fn color_of(command: &Command) -> Option<u8> {
    ///     match command.fields() {
    ///         CommandFields::Led(leds) => leds.map(|led| led.permanent.on_color).next(),
    ///         _ => None,
    ///     }
    /// }
    /// ```
    pub fn fields(&self) -> CommandFields<'_> {
        let read = match u32::from(self.code()) {
            sys::OSDP_ID => self.data().first().copied().map(CommandFields::Id),
            sys::OSDP_CAP => self.data().first().copied().map(CommandFields::Cap),
            sys::OSDP_LSTAT => Some(CommandFields::LocalStatus),
            sys::OSDP_ISTAT => Some(CommandFields::InputStatus),
            sys::OSDP_OSTAT => Some(CommandFields::OutputStatus),
            sys::OSDP_RSTAT => Some(CommandFields::ReaderStatus),
            sys::OSDP_OUT => Some(CommandFields::Output(self.outputs())),
            sys::OSDP_LED => Some(CommandFields::Led(self.leds())),
            sys::OSDP_BUZ => read(&self.0, sys::osdp_buzzer_of).map(CommandFields::Buzzer),
            sys::OSDP_TEXT => {
                read(&self.0, sys::osdp_text_of).map(|text| CommandFields::Text(Text::of(text)))
            }
            sys::OSDP_COMSET => read(&self.0, sys::osdp_comset_of)
                .map(|set| CommandFields::Comset(set.address as u8, set.baud_rate)),
            sys::OSDP_MFG => self
                .data()
                .split_first_chunk()
                .map(|(vendor, bytes)| CommandFields::Maker(*vendor, bytes)),
            _ => None,
        };
        // each command has its table's length, so that there are none without their fields
        read.unwrap_or(CommandFields::Poll)
    }

    /// The records of an OUT, in their order. Another command has none.
    pub fn outputs(&self) -> Outputs<'_> {
        Outputs {
            command: self,
            at: 0,
        }
    }

    /// The records of a LED, in their order. Another command has none.
    pub fn leds(&self) -> Leds<'_> {
        Leds {
            command: self,
            at: 0,
        }
    }
}
