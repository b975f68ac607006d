//! The calls of `include/osdp.h` as they are: all of them, also those that the crate doesn't need. Each is described there. The script `tests/names.py` holds this file to the header and to the archive.
//! No program uses them past the crate:
//!
//! ```compile_fail
//! use osdp::sys::osdp_panel;
//! ```
#![allow(dead_code, non_camel_case_types)]

use core::ffi::{c_char, c_void};

pub type osdp_status = u32;

pub const OSDP_OK: u32 = 0;
pub const OSDP_NO_MACHINE: u32 = 1;
pub const OSDP_IN_USE: u32 = 2;
pub const OSDP_BAD_TEXT: u32 = 3;
pub const OSDP_NO_EVENT: u32 = 4;
pub const OSDP_TOO_SMALL: u32 = 5;
pub const OSDP_NOT_ASKED: u32 = 7;
pub const OSDP_OTHER_MESSAGE: u32 = 8;
pub const OSDP_MOMENT_TOO_FAR: u32 = 9;
pub const OSDP_UNKNOWN_CODE: u32 = 11;
pub const OSDP_BAD_LENGTH: u32 = 12;
pub const OSDP_BAD_COUNT: u32 = 13;
pub const OSDP_PANEL_NO_MEMORY: u32 = 21;
pub const OSDP_TOO_MANY: u32 = 22;
pub const OSDP_ADDRESS_TAKEN: u32 = 23;
pub const OSDP_NO_ENTRY: u32 = 24;
pub const OSDP_PANEL_OUT_OF_RANGE: u32 = 25;
pub const OSDP_ADDRESS_OUT_OF_RANGE: u32 = 26;
pub const OSDP_NUMBERS_USED_UP: u32 = 27;
pub const OSDP_COMMANDS_FULL: u32 = 33;
pub const OSDP_POLL_SUBMITTED: u32 = 34;
pub const OSDP_NOT_CLOSED: u32 = 35;
pub const OSDP_DEVICE_NO_MEMORY: u32 = 41;
pub const OSDP_EVENTS_FULL: u32 = 42;
pub const OSDP_DEVICE_OUT_OF_RANGE: u32 = 43;
pub const OSDP_MONITOR_NO_MEMORY: u32 = 51;
pub const OSDP_MONITOR_TOO_LONG: u32 = 52;
pub const OSDP_MONITOR_OUT_OF_RANGE: u32 = 53;
pub const OSDP_MONITOR_STOPPED: u32 = 54;

pub const OSDP_MOST_DATA: u32 = 1432;
pub const OSDP_MOST_PACKET: u32 = 1440;
pub const OSDP_MOST_DEVICES: u32 = 16;
pub const OSDP_MOST_TEXT: u32 = 5729;
pub const OSDP_POLL: u32 = 0x60;
pub const OSDP_ID: u32 = 0x61;
pub const OSDP_CAP: u32 = 0x62;
pub const OSDP_LSTAT: u32 = 0x64;
pub const OSDP_ISTAT: u32 = 0x65;
pub const OSDP_OSTAT: u32 = 0x66;
pub const OSDP_RSTAT: u32 = 0x67;
pub const OSDP_OUT: u32 = 0x68;
pub const OSDP_LED: u32 = 0x69;
pub const OSDP_BUZ: u32 = 0x6A;
pub const OSDP_TEXT: u32 = 0x6B;
pub const OSDP_COMSET: u32 = 0x6E;
pub const OSDP_MFG: u32 = 0x80;
pub const OSDP_ACK: u32 = 0x40;
pub const OSDP_NAK: u32 = 0x41;
pub const OSDP_PDID: u32 = 0x45;
pub const OSDP_PDCAP: u32 = 0x46;
pub const OSDP_LSTATR: u32 = 0x48;
pub const OSDP_ISTATR: u32 = 0x49;
pub const OSDP_OSTATR: u32 = 0x4A;
pub const OSDP_RSTATR: u32 = 0x4B;
pub const OSDP_RAW: u32 = 0x50;
pub const OSDP_FMT: u32 = 0x51;
pub const OSDP_KEYPAD: u32 = 0x53;
pub const OSDP_COM: u32 = 0x54;
pub const OSDP_BUSY: u32 = 0x79;
pub const OSDP_MFGREP: u32 = 0x90;
pub const OSDP_NAK_CHECK_CHARACTERS: u32 = 1;
pub const OSDP_NAK_COMMAND_LENGTH: u32 = 2;
pub const OSDP_NAK_UNKNOWN_COMMAND: u32 = 3;
pub const OSDP_NAK_UNEXPECTED_SEQUENCE: u32 = 4;
pub const OSDP_NAK_SECURITY_BLOCK: u32 = 5;
pub const OSDP_NAK_SECURITY_CONDITIONS: u32 = 6;
pub const OSDP_NAK_BIOMETRIC_TYPE: u32 = 7;
pub const OSDP_NAK_BIOMETRIC_FORMAT: u32 = 8;
pub const OSDP_NAK_RECORD_NOT_PROCESSED: u32 = 9;
pub const OSDP_OUTPUT_NO_CHANGE: u32 = 0;
pub const OSDP_OUTPUT_OFF: u32 = 1;
pub const OSDP_OUTPUT_ON: u32 = 2;
pub const OSDP_OUTPUT_OFF_AFTER: u32 = 3;
pub const OSDP_OUTPUT_ON_AFTER: u32 = 4;
pub const OSDP_OUTPUT_ON_FOR_A_TIME: u32 = 5;
pub const OSDP_OUTPUT_OFF_FOR_A_TIME: u32 = 6;
pub const OSDP_LED_NOTHING: u32 = 0;
pub const OSDP_LED_CANCEL_TEMPORARY: u32 = 1;
pub const OSDP_LED_SET_TEMPORARY: u32 = 2;
pub const OSDP_LED_SET_PERMANENT: u32 = 1;
pub const OSDP_COLOR_OFF: u32 = 0;
pub const OSDP_COLOR_RED: u32 = 1;
pub const OSDP_COLOR_GREEN: u32 = 2;
pub const OSDP_COLOR_AMBER: u32 = 3;
pub const OSDP_COLOR_BLUE: u32 = 4;
pub const OSDP_COLOR_MAGENTA: u32 = 5;
pub const OSDP_COLOR_CYAN: u32 = 6;
pub const OSDP_COLOR_WHITE: u32 = 7;
pub const OSDP_TONE_NONE: u32 = 0;
pub const OSDP_TONE_OFF: u32 = 1;
pub const OSDP_TONE_DEFAULT: u32 = 2;
pub const OSDP_TEXT_PERMANENT: u32 = 1;
pub const OSDP_TEXT_PERMANENT_WRAPPED: u32 = 2;
pub const OSDP_TEXT_TEMPORARY: u32 = 3;
pub const OSDP_TEXT_TEMPORARY_WRAPPED: u32 = 4;
pub const OSDP_STATE_INACTIVE: u32 = 0;
pub const OSDP_STATE_ACTIVE: u32 = 1;
pub const OSDP_STATE_NORMAL: u32 = 0;
pub const OSDP_STATE_TAMPERED: u32 = 1;
pub const OSDP_STATE_POWER_FAILS: u32 = 1;
pub const OSDP_READER_NORMAL: u32 = 0;
pub const OSDP_READER_NOT_CONNECTED: u32 = 1;
pub const OSDP_READER_TAMPERED: u32 = 2;
pub const OSDP_CARD_RAW: u32 = 0;
pub const OSDP_CARD_WIEGAND: u32 = 1;
pub const OSDP_CARD_FORWARD: u32 = 0;
pub const OSDP_CARD_REVERSE: u32 = 1;
pub const OSDP_FUNCTION_CONTACT_STATUS: u32 = 1;
pub const OSDP_FUNCTION_OUTPUT_CONTROL: u32 = 2;
pub const OSDP_FUNCTION_CARD_DATA_FORMAT: u32 = 3;
pub const OSDP_FUNCTION_LED_CONTROL: u32 = 4;
pub const OSDP_FUNCTION_AUDIBLE_OUTPUT: u32 = 5;
pub const OSDP_FUNCTION_TEXT_OUTPUT: u32 = 6;
pub const OSDP_FUNCTION_TIME_KEEPING: u32 = 7;
pub const OSDP_FUNCTION_CHECK_CHARACTERS: u32 = 8;
pub const OSDP_FUNCTION_COMMUNICATION_SECURITY: u32 = 9;
pub const OSDP_FUNCTION_RECEIVE_BUFFER: u32 = 10;
pub const OSDP_FUNCTION_LARGEST_MESSAGE: u32 = 11;
pub const OSDP_FUNCTION_SMART_CARDS: u32 = 12;
pub const OSDP_FUNCTION_READERS: u32 = 13;
pub const OSDP_FUNCTION_BIOMETRICS: u32 = 14;
pub const OSDP_FUNCTION_SECURE_PIN_ENTRY: u32 = 15;
pub const OSDP_FUNCTION_VERSION: u32 = 16;

pub const OSDP_CHECK_SUM: u32 = 0;
pub const OSDP_CHECK_CRC: u32 = 1;

pub const OSDP_REPORT_NONE: u32 = 0;
pub const OSDP_REPORT_OPENED: u32 = 1;
pub const OSDP_REPORT_SETTLED: u32 = 2;
pub const OSDP_REPORT_MOVED: u32 = 3;
pub const OSDP_REPORT_EVENT: u32 = 4;
pub const OSDP_REPORT_ANSWERED: u32 = 5;
pub const OSDP_REPORT_UNREAD: u32 = 6;
pub const OSDP_REPORT_LOST: u32 = 7;
pub const OSDP_REPORT_EXPIRED: u32 = 8;

pub const OSDP_LOST_NO_REPLY: u32 = 1;
pub const OSDP_LOST_TOO_BUSY: u32 = 2;
pub const OSDP_EVENT_MAYBE_AGAIN: u32 = 1;
pub const OSDP_LOST_NUMBER_REFUSED: u32 = 3;

pub const OSDP_EXPIRED_NONE: u32 = 0;
pub const OSDP_EXPIRED_WITHDRAWN: u32 = 1;
pub const OSDP_EXPIRED_IN_DOUBT: u32 = 2;

pub const OSDP_SAID_NONE: u32 = 0;
pub const OSDP_SAID_SECURED: u32 = 1;
pub const OSDP_SAID_ZERO: u32 = 2;
pub const OSDP_SAID_REPEAT: u32 = 3;
pub const OSDP_SAID_TAKEN: u32 = 4;
pub const OSDP_SAID_BUSY: u32 = 5;
pub const OSDP_SAID_WRONG: u32 = 6;
pub const OSDP_SAID_PENDING: u32 = 7;

pub const OSDP_ORDER_NONE: u32 = 0;
pub const OSDP_ORDER_ONCE: u32 = 1;
pub const OSDP_ORDER_AGAIN: u32 = 2;
pub const OSDP_ORDER_REFUSED: u32 = 3;
pub const OSDP_ORDER_PENDING: u32 = 4;

pub const OSDP_PRINTS_FOUND: u32 = 0;
pub const OSDP_PRINTS_TALK: u32 = 1;
pub const OSDP_PRINTS_PACKETS: u32 = 2;

/// The structs of the header, each with the size that the header tells.
macro_rules! structs {
    ($($(#[$about:meta])* $name:ident, $size:literal { $($(#[$told:meta])* $field:ident: $kind:ty,)* })*) => {
        $(
            $(#[$about])*
            #[repr(C)]
            pub struct $name {
                $($(#[$told])* pub $field: $kind,)*
            }

            const _: () = assert!(size_of::<$name>() == $size);
        )*
    };
}

/// The check that packets end with.
#[repr(u32)]
#[derive(Clone, Copy, Debug, PartialEq, Eq)]
pub enum Check {
    /// The checksum, of one byte.
    Sum = OSDP_CHECK_SUM,
    /// The CRC, of two bytes.
    Crc = OSDP_CHECK_CRC,
}

structs! {
    #[derive(Clone, Copy)]
    osdp_message, 1436 { length: u16, present: u8, code: u8, data: [u8; 1432], }

    #[derive(Clone, Copy)]
    osdp_burst, 1444 { length: u32, bytes: [u8; 1440], }

    #[derive(Debug)]
    osdp_panel, 16 { panel: *mut c_void, panel_live: usize, }

    /// The settings of a panel. Times are in milliseconds, 1 to 3,600,000 where nothing else is said.
    #[derive(Clone, Copy, Debug, PartialEq, Eq)]
    osdp_panel_config, 40 {
        /// Which check the packets of the panel end with.
        check: Check,
        /// How long an answer is waited for, from the tick that gave the packet.
        reply_wait: u32,
        /// How long after an answer the next POLL of that device is due.
        poll_interval: u32,
        /// How often a packet is sent, 1 to 255, the first time included, until the session is lost because no answer comes.
        sends: u32,
        /// How long after a BUSY the packet is sent again.
        busy_wait: u32,
        /// How often a device may answer BUSY in one exchange, 0 to 255.
        busy_limit: u32,
        /// How long a device is left quiet before its session opens.
        quiet_wait: u32,
        /// After how long a silence a run of bytes is over.
        gap: u32,
        /// How many commands may wait for each device, 1 to 1,024.
        capacity: u32,
        /// How far a moment may lie after the greatest one seen; 0 stands for a day. Each number is allowed.
        clock_limit: u32,
    }

    #[derive(Clone, Copy)]
    osdp_moment, 16 { moment: u64, present: u64, }

    #[derive(Clone, Copy)]
    osdp_report, 2912 { entry: usize, number: u64, since: u64, kind: u32, detail: u32, numbered: u32, too_late: u32, command: osdp_message, reply: osdp_message, }

    #[derive(Debug)]
    osdp_device, 16 { device: *mut c_void, device_live: usize, }

    #[derive(Debug)]
    osdp_monitor, 16 { monitor: *mut c_void, monitor_live: usize, }

    #[derive(Clone, Copy)]
    osdp_device_config, 28 {
        address: u32,
        capacity: u32,
        gap: u32,
        serial: u32,
        clock_limit: u32,
        product: osdp_product,
    }

    #[derive(Clone, Copy)]
    osdp_answer, 2900 {
        kind: u32,
        order: u32,
        moved: u32,
        address: u32,
        baud_rate: u32,
        command: osdp_message,
        burst: osdp_burst,
    }

    #[derive(Clone, Copy)]
    osdp_raw, 1434 { reader: u8, format: u8, bits: u16, length: u16, bytes: [u8; 1428], }

    #[derive(Clone, Copy)]
    osdp_keypad, 257 { reader: u8, count: u8, digits: [u8; 255], }

    #[derive(Clone, Copy)]
    osdp_formatted, 258 { reader: u8, direction: u8, count: u8, digits: [u8; 255], }

    #[derive(Clone, Copy)]
    osdp_local_state, 2 { tamper: u8, power: u8, }

    #[derive(Clone, Copy)]
    osdp_states, 1434 { length: u16, states: [u8; 1432], }

    /// What a device is, without its serial number.
    #[derive(Clone, Copy, Debug, Default, PartialEq, Eq)]
    osdp_product, 8 {
        /// The maker's code.
        vendor: [u8; 3],
        /// The maker's number of the model.
        model: u8,
        /// The maker's number of the model's version.
        version: u8,
        /// The first number of the firmware's version.
        firmware_major: u8,
        /// The second number of the firmware's version.
        firmware_minor: u8,
        /// The third number of the firmware's version.
        firmware_build: u8,
    }

    /// What a device is.
    #[derive(Clone, Copy, Debug, Default, PartialEq, Eq)]
    osdp_pd_id, 12 {
        /// The serial number.
        serial: u32,
        /// What it is otherwise.
        product: osdp_product,
    }

    /// What a device can do in one respect.
    #[derive(Clone, Copy, Debug, Default, PartialEq, Eq)]
    osdp_capability, 3 {
        /// What it is about, as `named::function` has it: 1 to 16.
        function: u8,
        /// How far the device goes in this respect, as the standard has it for the function.
        level: u8,
        /// How many the device has, as the standard has it for the function.
        count: u8,
    }

    #[derive(Clone, Copy)]
    osdp_communication, 8 { baud_rate: u32, address: u32, }

    #[derive(Clone, Copy)]
    osdp_maker, 1434 { length: u16, vendor: [u8; 3], bytes: [u8; 1429], }

    #[derive(Clone, Copy)]
    osdp_nak, 1434 { length: u16, reason: u8, detail: [u8; 1431], }

    /// What one output is to do: a record of an OUT.
    #[derive(Clone, Copy, Debug, Default, PartialEq, Eq)]
    osdp_output, 4 {
        /// How long the operation lasts, in 100 ms, where `control` is for a time.
        timer: u16,
        /// The output of the device, counted from 0.
        output: u8,
        /// What it is to do, as `named::output` has it: 0 to 6.
        control: u8,
    }

    /// How an LED blinks. Times are in 100 ms. Colors are those of `named::color`.
    #[derive(Clone, Copy, Debug, Default, PartialEq, Eq)]
    osdp_led_state, 5 {
        /// What becomes of this state, as `named::led` has it.
        control: u8,
        /// How long it has the first color, in 100 ms.
        on_time: u8,
        /// How long it has the second color, in 100 ms.
        off_time: u8,
        /// The first color.
        on_color: u8,
        /// The second color.
        off_color: u8,
    }

    /// What one LED of a reader is to do: a record of a LED.
    #[derive(Clone, Copy, Debug, Default, PartialEq, Eq)]
    osdp_led, 14 {
        /// How long the temporary state lasts, in 100 ms.
        timer: u16,
        /// The reader of the device, counted from 0.
        reader: u8,
        /// The LED of the reader, counted from 0.
        led: u8,
        /// What it is to do for a time.
        temporary: osdp_led_state,
        /// What it is to do for good.
        permanent: osdp_led_state,
    }

    /// How the buzzer of a reader sounds: a BUZ.
    #[derive(Clone, Copy, Debug, Default, PartialEq, Eq)]
    osdp_buzzer, 5 {
        /// The reader of the device, counted from 0.
        reader: u8,
        /// What sounds, as `named::tone` has it: 0 to 2.
        tone: u8,
        /// How long it sounds, in 100 ms.
        on_time: u8,
        /// How long it is silent after that, in 100 ms.
        off_time: u8,
        /// How often it sounds; 0 means until another command comes.
        count: u8,
    }

    #[derive(Clone, Copy)]
    osdp_text, 261 { reader: u8, command: u8, time: u8, row: u8, column: u8, count: u8, characters: [u8; 255], }
}

/// The calls of the header that give a status.
macro_rules! calls {
    ($($name:ident($($parameter:ident: $kind:ty),*);)*) => {
        unsafe extern "C" {
            $(pub(crate) fn $name($($parameter: $kind),*) -> osdp_status;)*
        }
    };
}

calls! {
    osdp_command_text_nonnull(code: u8, data: *const u8, length: usize, text: *mut c_char, room: usize, text_length: *mut usize);
    osdp_reply_text_nonnull(code: u8, data: *const u8, length: usize, text: *mut c_char, room: usize, text_length: *mut usize);

    osdp_panel_new(panel: *mut osdp_panel, config: *const osdp_panel_config);
    osdp_panel_new_with_room(panel: *mut osdp_panel, config: *const osdp_panel_config, bytes: usize);
    osdp_panel_free(panel: *mut osdp_panel);
    osdp_panel_add(panel: *mut osdp_panel, address: u32, next_number: u64, entry: *mut usize);
    osdp_panel_next_number(panel: *mut osdp_panel, entry: usize, number: *mut u64);
    osdp_panel_begin(panel: *mut osdp_panel, entry: usize, now: u64);
    osdp_panel_submit_nonnull(panel: *mut osdp_panel, entry: usize, code: u8, data: *const u8, length: usize, until: u64, number: *mut u64);
    osdp_panel_submit_text_nonnull(panel: *mut osdp_panel, entry: usize, text: *const c_char, length: usize, until: u64, number: *mut u64);
    osdp_panel_withdraw(panel: *mut osdp_panel, entry: usize, command: *mut osdp_message);
    osdp_panel_retarget(panel: *mut osdp_panel, entry: usize, address: u32);
    osdp_panel_bytes_nonnull(panel: *mut osdp_panel, bytes: *const u8, length: usize, now: u64);
    osdp_panel_silence(panel: *mut osdp_panel, now: u64);
    osdp_panel_set_moment(panel: *mut osdp_panel, now: u64);
    osdp_panel_tick(panel: *mut osdp_panel, now: u64, sends: *mut u32);
    osdp_panel_write(panel: *mut osdp_panel, now: u64, burst: *mut osdp_burst);
    osdp_panel_next_deadline(panel: *mut osdp_panel, deadline: *mut osdp_moment);
    osdp_panel_next_report(panel: *mut osdp_panel, report: *mut osdp_report);

    osdp_device_new_nonnull(device: *mut osdp_device, config: *const osdp_device_config, capabilities: *const u8, length: usize);
    osdp_device_new_with_room_nonnull(device: *mut osdp_device, config: *const osdp_device_config, capabilities: *const u8, length: usize, bytes: usize);
    osdp_device_free(device: *mut osdp_device);
    osdp_device_set_inputs_nonnull(device: *mut osdp_device, states: *const u8, length: usize);
    osdp_device_set_outputs_nonnull(device: *mut osdp_device, states: *const u8, length: usize);
    osdp_device_set_readers_nonnull(device: *mut osdp_device, states: *const u8, length: usize);
    osdp_device_set_local(device: *mut osdp_device, tamper: u8, power: u8);
    osdp_device_set_busy(device: *mut osdp_device, busy: u32);
    osdp_device_event_nonnull(device: *mut osdp_device, code: u8, data: *const u8, length: usize);
    osdp_device_event_text_nonnull(device: *mut osdp_device, text: *const c_char, length: usize);
    osdp_device_waiting(device: *mut osdp_device, count: *mut usize);
    osdp_device_step_nonnull(device: *mut osdp_device, bytes: *const u8, length: usize, now: u64, taken: *mut usize, answer: *mut osdp_answer);
    osdp_device_tick(device: *mut osdp_device, now: u64, answer: *mut osdp_answer);
    osdp_device_silence(device: *mut osdp_device, now: u64, answer: *mut osdp_answer);

    osdp_monitor_new(monitor: *mut osdp_monitor, prints: u32, standard: u32);
    osdp_monitor_free(monitor: *mut osdp_monitor);
    osdp_monitor_bytes_nonnull(monitor: *mut osdp_monitor, bytes: *const u8, length: usize);
    osdp_monitor_silence(monitor: *mut osdp_monitor);
    osdp_monitor_table(monitor: *mut osdp_monitor);
    osdp_monitor_next_text_nonnull(monitor: *mut osdp_monitor, text: *mut c_char, room: usize, text_length: *mut usize);
    osdp_monitor_is_wrong(monitor: *mut osdp_monitor, wrong: *mut u32);

    osdp_raw_of(reply: *const osdp_message, raw: *mut osdp_raw);
    osdp_formatted_of(reply: *const osdp_message, formatted: *mut osdp_formatted);
    osdp_keypad_of(reply: *const osdp_message, keypad: *mut osdp_keypad);
    osdp_local_state_of(reply: *const osdp_message, state: *mut osdp_local_state);
    osdp_inputs_of(reply: *const osdp_message, inputs: *mut osdp_states);
    osdp_outputs_of(reply: *const osdp_message, outputs: *mut osdp_states);
    osdp_readers_of(reply: *const osdp_message, readers: *mut osdp_states);
    osdp_pd_id_of(reply: *const osdp_message, id: *mut osdp_pd_id);
    osdp_nak_of(reply: *const osdp_message, nak: *mut osdp_nak);
    osdp_com_of(reply: *const osdp_message, communication: *mut osdp_communication);
    osdp_maker_reply_of(reply: *const osdp_message, maker: *mut osdp_maker);
    osdp_capability_of(reply: *const osdp_message, at: usize, capability: *mut osdp_capability);
    osdp_buzzer_of(command: *const osdp_message, buzzer: *mut osdp_buzzer);
    osdp_text_of(command: *const osdp_message, text: *mut osdp_text);
    osdp_comset_of(command: *const osdp_message, communication: *mut osdp_communication);
    osdp_maker_of(command: *const osdp_message, maker: *mut osdp_maker);
    osdp_output_of(command: *const osdp_message, at: usize, output: *mut osdp_output);
    osdp_led_of(command: *const osdp_message, at: usize, led: *mut osdp_led);
    osdp_out_nonnull(outputs: *const osdp_output, count: usize, command: *mut osdp_message);
    osdp_led_nonnull(leds: *const osdp_led, count: usize, command: *mut osdp_message);
    osdp_comset(address: u32, baud_rate: u32, command: *mut osdp_message);
    osdp_maker(maker: *const osdp_maker, command: *mut osdp_message);
    osdp_raw(raw: *const osdp_raw, event: *mut osdp_message);
    osdp_inputs(inputs: *const osdp_states, event: *mut osdp_message);
    osdp_outputs(outputs: *const osdp_states, event: *mut osdp_message);
    osdp_readers(readers: *const osdp_states, event: *mut osdp_message);
    osdp_panel_entries(panel: *mut osdp_panel, count: *mut usize);
    osdp_panel_address(panel: *mut osdp_panel, entry: usize, address: *mut u32);
    osdp_panel_waiting(panel: *mut osdp_panel, entry: usize, count: *mut usize);
    osdp_panel_is_closed(panel: *mut osdp_panel, entry: usize, closed: *mut u32);
    osdp_device_address(device: *mut osdp_device, address: *mut u32);
    osdp_device_is_closed(device: *mut osdp_device, closed: *mut u32);
    osdp_device_is_offline(device: *mut osdp_device, now: u64, offline: *mut u32);
    osdp_device_expire_event(device: *mut osdp_device, now: u64, limit: u64, expired: *mut u32, event: *mut osdp_message);
    osdp_device_withdraw_event(device: *mut osdp_device, event: *mut osdp_message);
    osdp_device_lapse_event(device: *mut osdp_device, event: *mut osdp_message);
    osdp_device_set_moment(device: *mut osdp_device, now: u64);
    osdp_device_pending(device: *mut osdp_device, command: *mut osdp_message);
    osdp_device_answer_done(device: *mut osdp_device);
    osdp_device_answer_local(device: *mut osdp_device, tamper: u8, power: u8);
    osdp_device_answer_list_nonnull(device: *mut osdp_device, states: *const u8, length: usize);
    osdp_device_answer_refused(device: *mut osdp_device, reason: u8);
    osdp_device_answer_maker_nonnull(device: *mut osdp_device, vendor: *const u8, bytes: *const u8, length: usize);
}

unsafe extern "C" {
    pub(crate) fn osdp_panel_defaults(config: *mut osdp_panel_config);
    pub(crate) fn osdp_buzzer(buzzer: *const osdp_buzzer, command: *mut osdp_message);
    pub(crate) fn osdp_text(text: *const osdp_text, command: *mut osdp_message);
    pub(crate) fn osdp_id(command: *mut osdp_message);
    pub(crate) fn osdp_cap(command: *mut osdp_message);
    pub(crate) fn osdp_formatted(formatted: *const osdp_formatted, event: *mut osdp_message);
    pub(crate) fn osdp_keypad(keypad: *const osdp_keypad, event: *mut osdp_message);
    pub(crate) fn osdp_local_state(state: *const osdp_local_state, event: *mut osdp_message);
}
