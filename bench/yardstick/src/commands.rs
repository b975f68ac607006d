//! Commands: views over a packet's bytes, or a few fields.

use crate::bytes::Sink;
use std::marker::PhantomData;

/// The most data bytes that a message has.
pub const MOST_DATA: usize = 1432;

/// Why a message can't be read: M1, M2 or M3.
#[derive(Clone, Copy, Debug, PartialEq, Eq)]
pub enum Fault {
    Code,
    Length,
    Count,
}

/// A record of OUT.
#[derive(Clone, Copy, Debug, PartialEq, Eq)]
pub struct OutputRecord {
    pub output: u8,
    pub control: u8,
    /// In 100 ms.
    pub timer: u16,
}

impl OutputRecord {
    pub fn bytes(&self) -> [u8; 4] {
        let timer = self.timer.to_le_bytes();
        [self.output, self.control, timer[0], timer[1]]
    }
}

impl Record for OutputRecord {
    const SIZE: usize = 4;

    fn of(bytes: &[u8]) -> OutputRecord {
        OutputRecord { output: bytes[0], control: bytes[1], timer: u16::from_le_bytes([bytes[2], bytes[3]]) }
    }
}

/// One part of a record of LED.
#[derive(Clone, Copy, Debug, PartialEq, Eq)]
pub struct Light {
    pub control: u8,
    /// Times are in 100 ms.
    pub on_time: u8,
    pub off_time: u8,
    pub on_colour: u8,
    pub off_colour: u8,
}

impl Light {
    fn of(bytes: &[u8]) -> Light {
        Light { control: bytes[0], on_time: bytes[1], off_time: bytes[2], on_colour: bytes[3], off_colour: bytes[4] }
    }
}

/// A record of LED.
#[derive(Clone, Copy, Debug, PartialEq, Eq)]
pub struct LedRecord {
    pub reader: u8,
    pub led: u8,
    pub temporary: Light,
    /// How long the temporary part holds, in 100 ms.
    pub timer: u16,
    pub permanent: Light,
}

impl Record for LedRecord {
    const SIZE: usize = 14;

    fn of(bytes: &[u8]) -> LedRecord {
        LedRecord {
            reader: bytes[0],
            led: bytes[1],
            temporary: Light::of(&bytes[2..7]),
            timer: u16::from_le_bytes([bytes[7], bytes[8]]),
            permanent: Light::of(&bytes[9..14]),
        }
    }
}

/// What an OUT or an LED has one or more of.
pub trait Record {
    /// In bytes.
    const SIZE: usize;

    fn of(bytes: &[u8]) -> Self;
}

/// The records of an OUT or of an LED: one or more, as many as a message holds.
#[derive(Clone, Copy, Debug, PartialEq, Eq)]
pub struct Records<'a, R>(&'a [u8], PhantomData<R>);

pub type Outputs<'a> = Records<'a, OutputRecord>;
pub type Leds<'a> = Records<'a, LedRecord>;

impl<'a, R: Record> Records<'a, R> {
    /// None where the bytes are no such records.
    pub fn new(bytes: &'a [u8]) -> Option<Records<'a, R>> {
        let is_whole = !bytes.is_empty() && bytes.len() <= MOST_DATA && bytes.len().is_multiple_of(R::SIZE);
        is_whole.then_some(Records(bytes, PhantomData))
    }

    pub fn records(&self) -> impl Iterator<Item = R> + use<'a, R> {
        self.0.chunks_exact(R::SIZE).map(R::of)
    }
}

#[derive(Clone, Copy, Debug, PartialEq, Eq)]
pub struct Buzzer {
    pub reader: u8,
    pub tone: u8,
    /// How long it is on and then off, in 100 ms.
    pub times: [u8; 2],
    /// 0 is until another command.
    pub count: u8,
}

#[derive(Clone, Copy, Debug, PartialEq, Eq)]
pub struct Text<'a> {
    pub reader: u8,
    pub command: u8,
    /// In seconds.
    pub time: u8,
    pub row: u8,
    pub column: u8,
    /// At most 255.
    pub characters: &'a [u8],
}

/// An address and a rate, of a COMSET and of its COM.
#[derive(Clone, Copy, Debug, PartialEq, Eq)]
pub struct Communication {
    pub address: u8,
    /// In bits for a second.
    pub rate: u32,
}

impl Communication {
    pub(crate) fn of(address: u8, rate: [u8; 4]) -> Communication {
        Communication { address, rate: u32::from_le_bytes(rate) }
    }

    pub(crate) fn write(&self, code: u8, to: &mut impl Sink) {
        let rate = self.rate.to_le_bytes();
        to.put(&[code, self.address, rate[0], rate[1], rate[2], rate[3]]);
    }
}

/// A maker's own message.
#[derive(Clone, Copy, Debug, PartialEq, Eq)]
pub struct Maker<'a> {
    pub vendor: [u8; 3],
    /// At most 1429.
    pub bytes: &'a [u8],
}

impl Maker<'_> {
    pub(crate) fn write(&self, code: u8, to: &mut impl Sink) {
        to.put(&[code, self.vendor[0], self.vendor[1], self.vendor[2]]);
        to.put(self.bytes);
    }
}

/// What a command may ask the states of, in the order of the codes.
#[derive(Clone, Copy, Debug, PartialEq, Eq)]
pub enum States {
    Local,
    Inputs,
    Outputs,
    Readers,
}

#[derive(Clone, Copy, Debug, PartialEq, Eq)]
pub enum Command<'a> {
    Poll,
    Id(u8),
    Cap(u8),
    Status(States),
    Output(Outputs<'a>),
    Led(Leds<'a>),
    Buzzer(Buzzer),
    Text(Text<'a>),
    Comset(Communication),
    Maker(Maker<'a>),
}

impl<'a> Command<'a> {
    /// The command of a code and its data.
    #[inline]
    pub fn read(code: u8, data: &'a [u8]) -> Result<Command<'a>, Fault> {
        match (code, data) {
            (0x60, []) => Ok(Command::Poll),
            (0x61, &[byte]) => Ok(Command::Id(byte)),
            (0x62, &[byte]) => Ok(Command::Cap(byte)),
            (0x64, []) => Ok(Command::Status(States::Local)),
            (0x65, []) => Ok(Command::Status(States::Inputs)),
            (0x66, []) => Ok(Command::Status(States::Outputs)),
            (0x67, []) => Ok(Command::Status(States::Readers)),
            (0x68, records) => Outputs::new(records).map(Command::Output).ok_or(Fault::Length),
            (0x69, records) => Leds::new(records).map(Command::Led).ok_or(Fault::Length),
            _ => Command::read_fields(code, data),
        }
    }

    fn read_fields(code: u8, data: &'a [u8]) -> Result<Command<'a>, Fault> {
        let fits = data.len() <= MOST_DATA;
        match (code, data) {
            (0x6a, &[reader, tone, on, off, count]) => Ok(Command::Buzzer(Buzzer { reader, tone, times: [on, off], count })),
            (0x6b, &[reader, command, time, row, column, length, ref characters @ ..]) if fits => {
                if usize::from(length) != characters.len() {
                    return Err(Fault::Count);
                }
                Ok(Command::Text(Text { reader, command, time, row, column, characters }))
            }
            (0x6e, &[address, a, b, c, d]) => Ok(Command::Comset(Communication::of(address, [a, b, c, d]))),
            (0x80, &[a, b, c, ref bytes @ ..]) if fits => Ok(Command::Maker(Maker { vendor: [a, b, c], bytes })),
            (0x60..=0x62 | 0x64..=0x6b | 0x6e | 0x80, _) => Err(Fault::Length),
            _ => Err(Fault::Code),
        }
    }

    /// The command of a body.
    #[inline]
    pub fn of(body: &'a [u8]) -> Result<Command<'a>, Fault> {
        Command::read(body[0], &body[1..])
    }

    /// Writes the code and the data.
    pub fn write(&self, to: &mut impl Sink) {
        match self {
            Command::Poll => to.put(&[0x60]),
            Command::Id(byte) => to.put(&[0x61, *byte]),
            Command::Cap(byte) => to.put(&[0x62, *byte]),
            Command::Status(of) => to.put(&[0x64 + *of as u8]),
            Command::Output(records) => {
                to.put(&[0x68]);
                to.put(records.0);
            }
            Command::Led(records) => {
                to.put(&[0x69]);
                to.put(records.0);
            }
            Command::Buzzer(b) => to.put(&[0x6a, b.reader, b.tone, b.times[0], b.times[1], b.count]),
            Command::Text(text) => {
                to.put(&[0x6b, text.reader, text.command, text.time, text.row, text.column, text.characters.len() as u8]);
                to.put(text.characters);
            }
            Command::Comset(communication) => communication.write(0x6e, to),
            Command::Maker(maker) => maker.write(0x80, to),
        }
    }
}
