//! Names for the numbers in the fields of messages, as the standard has them.

use crate::sys;

/// A module of numbers of a byte, each with its constant of `sys`.
macro_rules! numbers {
    ($(#[$about:meta])* $name:ident { $($(#[$of:meta])* $case:ident = $number:ident,)* }) => {
        $(#[$about])*
        pub mod $name {
            $($(#[$of])* pub const $case: u8 = super::sys::$number as u8;)*
        }
    };
}

numbers! {
    /// What an output is to do: the control of a record of an OUT.
    output {
        /// Nothing changes.
        NO_CHANGE = OSDP_OUTPUT_NO_CHANGE,
        /// Off for good; a timed operation ends.
        OFF = OSDP_OUTPUT_OFF,
        /// On for good; a timed operation ends.
        ON = OSDP_OUTPUT_ON,
        /// Off for good; a timed operation goes on to its end.
        OFF_AFTER = OSDP_OUTPUT_OFF_AFTER,
        /// On for good; a timed operation goes on to its end.
        ON_AFTER = OSDP_OUTPUT_ON_AFTER,
        /// On for a time, and then as it was set for good.
        ON_FOR_A_TIME = OSDP_OUTPUT_ON_FOR_A_TIME,
        /// Off for a time, and then as it was set for good.
        OFF_FOR_A_TIME = OSDP_OUTPUT_OFF_FOR_A_TIME,
    }
}

numbers! {
    /// What becomes of a state of an LED: the control of its temporary state and of its permanent one.
    led {
        /// The state stays as it is.
        NOTHING = OSDP_LED_NOTHING,
        /// Of the temporary state: it ends.
        CANCEL_TEMPORARY = OSDP_LED_CANCEL_TEMPORARY,
        /// Of the temporary state: it begins, and so does its timer.
        SET_TEMPORARY = OSDP_LED_SET_TEMPORARY,
        /// Of the permanent state: it is set.
        SET_PERMANENT = OSDP_LED_SET_PERMANENT,
    }
}

numbers! {
    /// The colors of an LED.
    color {
        /// No light.
        OFF = OSDP_COLOR_OFF,
        /// Red.
        RED = OSDP_COLOR_RED,
        /// Green.
        GREEN = OSDP_COLOR_GREEN,
        /// Amber.
        AMBER = OSDP_COLOR_AMBER,
        /// Blue.
        BLUE = OSDP_COLOR_BLUE,
        /// Magenta.
        MAGENTA = OSDP_COLOR_MAGENTA,
        /// Cyan.
        CYAN = OSDP_COLOR_CYAN,
        /// White.
        WHITE = OSDP_COLOR_WHITE,
    }
}

numbers! {
    /// The tones of a buzzer.
    tone {
        /// No tone.
        NONE = OSDP_TONE_NONE,
        /// The buzzer is silent.
        OFF = OSDP_TONE_OFF,
        /// The tone that the reader has by itself.
        DEFAULT = OSDP_TONE_DEFAULT,
    }
}

numbers! {
    /// How a text is shown: the command of a TEXT.
    text {
        /// For good, on one row.
        PERMANENT = OSDP_TEXT_PERMANENT,
        /// For good, and it goes on in the next row.
        PERMANENT_WRAPPED = OSDP_TEXT_PERMANENT_WRAPPED,
        /// For a time, on one row.
        TEMPORARY = OSDP_TEXT_TEMPORARY,
        /// For a time, and it goes on in the next row.
        TEMPORARY_WRAPPED = OSDP_TEXT_TEMPORARY_WRAPPED,
    }
}

numbers! {
    /// The state of an input or an output, of the device's case and of its power: bytes of an ISTATR, an OSTATR and an LSTATR.
    state {
        /// Of an input: it isn't active. Of an output: it is off.
        INACTIVE = OSDP_STATE_INACTIVE,
        /// Of an input: it is active. Of an output: it is on.
        ACTIVE = OSDP_STATE_ACTIVE,
        /// Of the case and of the power: all is well.
        NORMAL = OSDP_STATE_NORMAL,
        /// Of the case: the device is tampered with.
        TAMPERED = OSDP_STATE_TAMPERED,
        /// Of the power: it fails.
        POWER_FAILS = OSDP_STATE_POWER_FAILS,
    }
}

numbers! {
    /// The state of a reader of the device: a byte of an RSTATR.
    reader {
        /// It works.
        NORMAL = OSDP_READER_NORMAL,
        /// It isn't connected.
        NOT_CONNECTED = OSDP_READER_NOT_CONNECTED,
        /// It is tampered with.
        TAMPERED = OSDP_READER_TAMPERED,
    }
}

numbers! {
    /// How the bits of a card are to be understood, the format of a RAW; and how a card was drawn, the direction of a FMT.
    card {
        /// Of a RAW: the format of the bits isn't told.
        RAW = OSDP_CARD_RAW,
        /// Of a RAW: a parity bit, data and a parity bit.
        WIEGAND = OSDP_CARD_WIEGAND,
        /// Of a FMT: it was drawn forward.
        FORWARD = OSDP_CARD_FORWARD,
        /// Of a FMT: it was drawn backward.
        REVERSE = OSDP_CARD_REVERSE,
    }
}

numbers! {
    /// What a capability is about: the function of each record of a PDCAP.
    function {
        /// Inputs.
        CONTACT_STATUS = OSDP_FUNCTION_CONTACT_STATUS,
        /// Outputs.
        OUTPUT_CONTROL = OSDP_FUNCTION_OUTPUT_CONTROL,
        /// How cards are told.
        CARD_DATA_FORMAT = OSDP_FUNCTION_CARD_DATA_FORMAT,
        /// LEDs.
        LED_CONTROL = OSDP_FUNCTION_LED_CONTROL,
        /// The buzzer.
        AUDIBLE_OUTPUT = OSDP_FUNCTION_AUDIBLE_OUTPUT,
        /// The display.
        TEXT_OUTPUT = OSDP_FUNCTION_TEXT_OUTPUT,
        /// The clock.
        TIME_KEEPING = OSDP_FUNCTION_TIME_KEEPING,
        /// Whether the device takes packets that end with a CRC.
        CHECK_CHARACTERS = OSDP_FUNCTION_CHECK_CHARACTERS,
        /// Secure Channel.
        COMMUNICATION_SECURITY = OSDP_FUNCTION_COMMUNICATION_SECURITY,
        /// The longest packet that the device takes.
        RECEIVE_BUFFER = OSDP_FUNCTION_RECEIVE_BUFFER,
        /// The longest message of several parts that the device takes.
        LARGEST_MESSAGE = OSDP_FUNCTION_LARGEST_MESSAGE,
        /// Smart cards.
        SMART_CARDS = OSDP_FUNCTION_SMART_CARDS,
        /// The readers of the device.
        READERS = OSDP_FUNCTION_READERS,
        /// Biometrics.
        BIOMETRICS = OSDP_FUNCTION_BIOMETRICS,
        /// Secure PIN entry.
        SECURE_PIN_ENTRY = OSDP_FUNCTION_SECURE_PIN_ENTRY,
        /// The version of OSDP.
        VERSION = OSDP_FUNCTION_VERSION,
    }
}
