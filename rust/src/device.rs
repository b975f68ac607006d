//! The device's end of a line.

use crate::error::{Error, check};
use crate::fields::{Capabilities, Capability, NakReason, PdId, Product, Reply};
use crate::message::{Burst, Command, no_burst, no_message};
use crate::numbered::numbered;
use crate::panel::{limit, milliseconds};
use crate::sys;
use crate::time::Moment;
use core::cell::UnsafeCell;
use core::ptr::null_mut;
use core::time::Duration;

/// The settings of a device, and what it is.
#[derive(Clone, Debug, PartialEq, Eq)]
pub struct DeviceConfig<'a> {
    /// The address on the line, 0 to 126. After a restart it is the one where the device was last (`Answer::moved`).
    pub address: u8,
    /// How many events may wait, 1 to 1,024.
    pub capacity: u32,
    /// After how long a silence a run of bytes is over: 1 ms to an hour; what is left over of a millisecond is cut off.
    pub gap: Duration,
    /// How far a moment may lie after the greatest one seen, 1 ms to 49 days; no time stands for a day.
    pub clock_limit: Duration,
    /// What is answered to ID.
    pub id: PdId,
    /// What is answered to CAP: 477 capabilities at most.
    pub capabilities: &'a [Capability],
}

const NO_ID: PdId = PdId {
    serial: 0,
    product: Product {
        vendor: [0; 3],
        model: 0,
        version: 0,
        firmware_major: 0,
        firmware_minor: 0,
        firmware_build: 0,
    },
};

impl DeviceConfig<'_> {
    /// The settings of a device at an address, with room for 64 events, a gap of 20 ms, a clock limit of a day, no capabilities, and all other numbers 0.
    pub const fn new(address: u8) -> DeviceConfig<'static> {
        DeviceConfig {
            address,
            capacity: 64,
            gap: Duration::from_millis(20),
            clock_limit: Duration::from_secs(86_400),
            id: NO_ID,
            capabilities: &[],
        }
    }
}

/// An event that a device has taken off its queue because it was too old, as the reply that would have carried it.
#[derive(Clone, Debug, PartialEq, Eq)]
pub enum Expired {
    /// The event was never offered: no answer has carried it, and none will.
    Withdrawn(Reply),
    /// The event was offered, and that answer may be lost: the panel may have it or not.
    InDoubt(Reply),
}

numbered! {
    /// How a packet was answered.
    pub enum Said {
        /// NAK 5: the packet has a security block, which isn't supported. Nothing was taken.
        Secured = OSDP_SAID_SECURED,
        /// A packet with number 0, which begins a session anew. Its command was acted on, or answered NAK where it can't be read.
        Zero = OSDP_SAID_ZERO,
        /// A packet with the number of the last one: the answer that was given goes out once more. Nothing was acted on.
        Repeat = OSDP_SAID_REPEAT,
        /// A packet with the next number. Its command was acted on, once, or answered NAK where it can't be read.
        Taken = OSDP_SAID_TAKEN,
        /// BUSY: the device is busy, and nothing was taken.
        Busy = OSDP_SAID_BUSY,
        /// NAK 4: the number isn't expected. Nothing was taken.
        Wrong = OSDP_SAID_WRONG,
        /// Nothing is said yet: the device has stopped before the command, and the next call answers it.
        Pending = OSDP_SAID_PENDING,
    }
}

/// What the device is to do with a command. Of ID, CAP and the commands that ask for states there is nothing to do.
#[derive(Clone, Debug, PartialEq, Eq)]
#[allow(clippy::large_enum_variant)]
pub enum Order {
    /// The command came with the next number, and was not refused: do it. A repeat of it is never told as an order.
    Once(Command),
    /// The command came with number 0, with which the same order may come again, and was not refused: do only what may be done twice.
    Again(Command),
    /// The command came with the next number or with 0, and the device has refused it: the burst is a NAK. Do nothing of it.
    Refused(Command),
    /// Not yet: `answer_next` may set the answer to the command now, and the next call gives it. Do nothing of it before.
    Pending(Command),
}

/// Where a COMSET has put the device. The answer still goes out at the old rate; set the port to the new one after it.
///
/// Where the port hasn't that rate, don't send the answer, since no panel would find the device at that rate. Make the device anew at the address where it was, as
/// after a loss of power: its panel loses the session, and finds it there.
#[derive(Clone, Copy, Debug, PartialEq, Eq)]
pub struct Moved {
    /// The address from now on.
    pub address: u8,
    /// The rate from now on, in bits per second.
    pub baud_rate: u32,
}

/// What a device says to a packet, or before which command it has stopped. It borrows the device: its burst is sent before the next call.
#[must_use = "its burst goes out before the next call: `send` hands it over"]
#[derive(Debug)]
pub struct Answer<'a> {
    /// How the packet was answered.
    pub said: Said,
    /// What a COMSET that was accepted has set. Keep it in memory that stays before the burst is sent, since a device that restarts is to be where it was.
    pub moved: Option<Moved>,
    order: Option<Order>,
    burst: Burst<'a>,
}

impl Answer<'_> {
    /// What the device is to do with the command, before the burst is sent. Do what is quick first, and then send the answer: so an order that was answered was
    /// done, also where power is lost in between. `send` tells the same: act on one of the two, and not on both. None where there is nothing to do.
    pub fn order(&self) -> Option<&Order> {
        self.order.as_ref()
    }

    /// Hands the burst, where there is one, to `write`, which writes it to the line. Then it tells what the device is to do with the command, as `order` does.
    ///
    /// # Errors
    ///
    /// Those of `write`. Then it tells no order. The device has taken the command all the same: a repeat of an `Order::Once` gets the same answer and is no
    /// order, so no later call tells it. A program that goes on after such an error acts on `order`.
    pub fn send<E>(self, write: impl FnOnce(&[u8]) -> Result<(), E>) -> Result<Option<Order>, E> {
        if !self.burst.is_empty() {
            write(&self.burst)?;
        }
        Ok(self.order)
    }
}

/// What a call of a device comes to.
#[must_use = "what is said goes out before the next call"]
#[derive(Debug)]
pub struct Step<'a> {
    /// How many of the bytes were taken. Hand the others in again.
    pub taken: usize,
    /// What the device says. None where no packet is left that it would answer.
    pub answer: Option<Answer<'a>>,
}

fn step_of<'a>(taken: usize, raw: &sys::osdp_answer) -> Step<'a> {
    Step {
        taken,
        answer: answer_of(raw),
    }
}

fn answer_of<'a>(raw: &sys::osdp_answer) -> Option<Answer<'a>> {
    let command = Command::from_sys(&raw.command);
    Some(Answer {
        said: Said::of(raw.kind)?,
        moved: (raw.moved != 0).then_some(Moved {
            address: raw.address as u8,
            baud_rate: raw.baud_rate,
        }),
        order: match raw.order {
            sys::OSDP_ORDER_ONCE => command.map(Order::Once),
            sys::OSDP_ORDER_AGAIN => command.map(Order::Again),
            sys::OSDP_ORDER_REFUSED => command.map(Order::Refused),
            sys::OSDP_ORDER_PENDING => command.map(Order::Pending),
            _ => None,
        },
        burst: Burst::from_sys(&raw.burst),
    })
}

fn no_answer() -> sys::osdp_answer {
    sys::osdp_answer {
        kind: sys::OSDP_SAID_NONE,
        order: sys::OSDP_ORDER_NONE,
        moved: 0,
        address: 0,
        baud_rate: 0,
        command: no_message(),
        burst: no_burst(),
    }
}

/// The device's end of a line. It reads and writes nothing: its program hands bytes and moments in, and writes what `step` and `tick` give.
///
/// The device answers POLL, ID, CAP and COMSET by itself, a COMSET at whatever rate (see `Moved`). Before each other command `step` stops, and `answer_next` may set the
/// answer. Where it sets none, LSTAT, ISTAT, OSTAT and RSTAT are answered by the states that were set. LED, BUZ and TEXT are answered ACK, and so is an OUT
/// whose outputs are all there. Any other OUT is answered NAK 9, and so is each MFG.
///
/// With the feature `heap` it may be moved to another thread, as a panel may.
#[derive(Debug)]
pub struct Device(UnsafeCell<sys::osdp_device>);

// SAFETY: as of a panel: the handle is owned, nothing else points to what it holds, and its memory is that of the global allocator.
#[cfg(feature = "heap")]
unsafe impl Send for Device {}

/// An answer to a command. One that doesn't belong to the command goes out as NAK 9.
#[derive(Clone, Copy, Debug, PartialEq, Eq)]
#[non_exhaustive]
pub enum DeviceAnswer<'a> {
    /// An ACK, for OUT, LED, BUZ, TEXT and MFG: the command is done.
    Done,
    /// Whether the device is tampered with, and whether its power fails: for LSTAT.
    Local(bool, bool),
    /// A byte for each input, output or reader, at most 1,432: for ISTAT, OSTAT and RSTAT.
    List(&'a [u8]),
    /// A NAK, for each command: it isn't done. The reasons 2, 3 and 9 go out as they are, all others as 9.
    Refused(NakReason),
    /// The maker's own reply, for MFG: the maker's code, and the maker's bytes, at most 1,429.
    Maker([u8; 3], &'a [u8]),
}

impl Device {
    /// Makes a device to which nothing has come. It has no inputs, outputs and readers until they are set. It takes memory.
    ///
    /// # Errors
    ///
    /// `BadLength`: there are more than 477 capabilities. `OutOfRange`: a setting is out of its range. `NoMemory`.
    pub fn new(config: &DeviceConfig<'_>) -> Result<Device, Error> {
        Device::made(config, None)
    }

    /// As `new`, with less memory: the events that wait may have `bytes` bytes together, 1 to 1,467,392. An event has the bytes of the code and the data of the
    /// reply that carries it: a card of 26 bits has 9. (With `new` each of `capacity` events has room for 1,433 bytes.) An event without room is refused with
    /// `Full`.
    ///
    /// # Errors
    ///
    /// Those of `new`; `OutOfRange` also where `bytes` is out of its range.
    pub fn with_room(config: &DeviceConfig<'_>, bytes: usize) -> Result<Device, Error> {
        Device::made(config, Some(bytes))
    }

    fn made(config: &DeviceConfig<'_>, room: Option<usize>) -> Result<Device, Error> {
        let reader = Device(UnsafeCell::new(sys::osdp_device {
            device: null_mut(),
            device_live: 0,
        }));
        let raw = sys::osdp_device_config {
            address: config.address.into(),
            capacity: config.capacity,
            gap: milliseconds(config.gap),
            serial: config.id.serial,
            clock_limit: limit(config.clock_limit)?,
            product: config.id.product,
        };
        let capabilities = Capabilities::new(config.capabilities).ok_or(Error::BadLength)?;
        let capabilities = capabilities.bytes();
        // SAFETY: the handle is none, and the pointers are good for as much as the call is told.
        check(unsafe {
            let (handle, first, length) =
                (reader.0.get(), capabilities.as_ptr(), capabilities.len());
            match room {
                None => sys::osdp_device_new_nonnull(handle, &raw, first, length),
                Some(bytes) => {
                    sys::osdp_device_new_with_room_nonnull(handle, &raw, first, length, bytes)
                }
            }
        })?;
        Ok(reader)
    }

    /// Sets what ISTAT is answered from now on: a byte for each input, 1 where it is active. It tells the panel nothing: `submit_event` does, by
    /// `Reply::Inputs`.
    ///
    /// # Errors
    ///
    /// `BadLength`: there are more than 1,432.
    pub fn set_inputs(&mut self, states: &[u8]) -> Result<(), Error> {
        // SAFETY: the handle is ours alone, and so many states are there.
        check(unsafe {
            sys::osdp_device_set_inputs_nonnull(self.0.get(), states.as_ptr(), states.len())
        })
    }

    /// Sets what OSTAT is answered from now on: a byte for each output, 1 where it is on. An OUT to an output that isn't there is refused, where `answer_next`
    /// sets no other answer.
    ///
    /// # Errors
    ///
    /// `BadLength`: there are more than 1,432.
    pub fn set_outputs(&mut self, states: &[u8]) -> Result<(), Error> {
        // SAFETY: the handle is ours alone, and so many states are there.
        check(unsafe {
            sys::osdp_device_set_outputs_nonnull(self.0.get(), states.as_ptr(), states.len())
        })
    }

    /// Sets what RSTAT is answered from now on: a byte for each reader, 0 where it works.
    ///
    /// # Errors
    ///
    /// `BadLength`: there are more than 1,432.
    pub fn set_readers(&mut self, states: &[u8]) -> Result<(), Error> {
        // SAFETY: the handle is ours alone, and so many states are there.
        check(unsafe {
            sys::osdp_device_set_readers_nonnull(self.0.get(), states.as_ptr(), states.len())
        })
    }

    /// Sets what LSTAT is answered from now on: whether the device is tampered with, and whether its power fails.
    pub fn set_local(&mut self, tamper: bool, power: bool) {
        // SAFETY: the handle is ours alone. It holds a machine, so the call isn't refused.
        let _ = unsafe { sys::osdp_device_set_local(self.0.get(), tamper.into(), power.into()) };
    }

    /// Sets whether the device is busy. A busy device answers BUSY to new commands and takes none of them. To a repeat it still gives the answer that was
    /// given.
    pub fn set_busy(&mut self, busy: bool) {
        // SAFETY: the handle is ours alone. It holds a machine, so the call isn't refused.
        let _ = unsafe { sys::osdp_device_set_busy(self.0.get(), busy.into()) };
    }

    /// Puts an event after those that wait, as the reply that carries it: `LocalState`, `Inputs`, `Outputs`, `Readers`, `Raw`, `Formatted` or `Keypad`. It
    /// goes out in the answer to a POLL. Its age counts from the greatest moment that any call has handed in. An event that is put before any moment was
    /// handed in is never too old.
    ///
    /// ```no_run
    /// use osdp::{Card, Device, Error, Reply, card};
    ///
    /// fn tell(device: &mut Device, bits: &[u8; 4]) -> Result<(), Error> {
    ///     let card = Card::new(0, card::RAW, 26, bits).ok_or(Error::BadCount)?;
    ///     device.submit_event(&Reply::Raw(card))
    /// }
    /// ```
    ///
    /// # Errors
    ///
    /// `BadLength`, as of `Reply::write`. `NoEvent`: it is another reply. `Full`: the event isn't told.
    pub fn submit_event(&mut self, event: &Reply) -> Result<(), Error> {
        let event = event.write()?;
        self.event(event.code(), event.data())
    }

    /// As `submit_event`, for the code and the data of the reply that carries the event.
    ///
    /// # Errors
    ///
    /// `UnknownCode`, `BadLength`, `BadCount`: the code and data are those of no reply. `NoEvent`: the reply carries no event. `Full`.
    pub fn event(&mut self, code: u8, data: &[u8]) -> Result<(), Error> {
        // SAFETY: the handle is ours alone, and the data have so many bytes.
        check(unsafe {
            sys::osdp_device_event_nonnull(self.0.get(), code, data.as_ptr(), data.len())
        })
    }

    /// As `submit_event`, for the text of an event, such as `KEYPAD 0 31`.
    ///
    /// # Errors
    ///
    /// `BadText`: it is the text of no event. `Full`.
    pub fn event_text(&mut self, text: &str) -> Result<(), Error> {
        // SAFETY: the handle is ours alone, and the text has so many bytes.
        check(unsafe {
            sys::osdp_device_event_text_nonnull(self.0.get(), text.as_ptr().cast(), text.len())
        })
    }

    /// How many events wait. One that went out, and of which the device doesn't know yet whether it came, is counted.
    pub fn waiting(&self) -> usize {
        let mut count = 0;
        // SAFETY: the handle is ours alone, and the count is one. It holds a machine, so the call isn't refused.
        let _ = unsafe { sys::osdp_device_waiting(self.0.get(), &mut count) };
        count
    }

    /// Whether the session is closed: the device refuses each number but 0, as one does that is new or has moved to another address.
    pub fn is_closed(&self) -> bool {
        let mut closed = 0;
        // SAFETY: the handle is ours alone, and the number is one. It holds a machine, so the call isn't refused.
        let _ = unsafe { sys::osdp_device_is_closed(self.0.get(), &mut closed) };
        closed != 0
    }

    /// Whether no panel is there at a moment: the device has answered no packet for 8 seconds, or none ever. It answers each command to its own address
    /// or to the configuration address that comes whole and undamaged.
    ///
    /// # Errors
    ///
    /// `MomentTooFar`.
    pub fn is_offline(&self, now: Moment) -> Result<bool, Error> {
        let mut offline = 0;
        // SAFETY: the handle is ours alone, and the number is one.
        check(unsafe { sys::osdp_device_is_offline(self.0.get(), now.as_millis(), &mut offline) })?;
        Ok(offline != 0)
    }

    /// Takes the oldest event off where two things hold: no panel is there at the moment (`is_offline`), and the event has waited for longer than the limit. A
    /// limit of no time takes none off, and one of less than a millisecond counts as one. Call it in each turn before bytes are handed in, until it gives
    /// `None`: so no card of long ago opens a door.
    ///
    /// # Errors
    ///
    /// `MomentTooFar`.
    pub fn expire_event(&mut self, now: Moment, limit: Duration) -> Result<Option<Expired>, Error> {
        let limit = match u64::try_from(limit.as_millis()) {
            Ok(0) if !limit.is_zero() => 1, // 0 would take none off
            limit => limit.unwrap_or(u64::MAX),
        };
        let (mut expired, mut event) = (0, no_message());
        // SAFETY: the handle is ours alone, and the number and the event are one each.
        check(unsafe {
            sys::osdp_device_expire_event(
                self.0.get(),
                now.as_millis(),
                limit,
                &mut expired,
                &mut event,
            )
        })?;
        let event = Reply::from_sys(&event);
        Ok(match expired {
            sys::OSDP_EXPIRED_WITHDRAWN => event.map(Expired::Withdrawn),
            sys::OSDP_EXPIRED_IN_DOUBT => event.map(Expired::InDoubt),
            _ => None,
        })
    }

    /// Takes back the oldest event that was never offered, in this session or in one before: no answer has carried it, and none will. It is given as the reply
    /// that would have carried it. None where there is no such event.
    pub fn withdraw_event(&mut self) -> Option<Reply> {
        let mut event = no_message();
        // SAFETY: the handle is ours alone, and the event is one. It holds a machine, so the call isn't refused.
        let _ = unsafe { sys::osdp_device_withdraw_event(self.0.get(), &mut event) };
        Reply::from_sys(&event)
    }

    /// Lets the oldest event go if it was ever offered, in this session or in one before, and gives it. The answer that carried it may be lost, so the panel
    /// may have it or not. A repeat within this session may still tell it. If it was never offered, it gives `None` and changes nothing.
    pub fn lapse_event(&mut self) -> Option<Reply> {
        let mut event = no_message();
        // SAFETY: the handle is ours alone, and the event is one. It holds a machine, so the call isn't refused.
        let _ = unsafe { sys::osdp_device_lapse_event(self.0.get(), &mut event) };
        Reply::from_sys(&event)
    }

    /// The address that the device has now.
    pub fn address(&self) -> u8 {
        let mut address = 0;
        // SAFETY: the handle is ours alone, and the address is one. It holds a machine, so the call isn't refused.
        let _ = unsafe { sys::osdp_device_address(self.0.get(), &mut address) };
        address as u8
    }

    /// The command before which `step` stops: that which the next packet will have acted on, where the device doesn't answer it by itself. None where no such
    /// command came, and while the device is busy.
    pub fn pending(&self) -> Option<Command> {
        let mut command = no_message();
        // SAFETY: the handle is ours alone, and the command is one. It holds a machine, so the call isn't refused.
        let _ = unsafe { sys::osdp_device_pending(self.0.get(), &mut command) };
        Command::from_sys(&command)
    }

    /// Sets the answer to the command before which the last call has stopped (`Order::Pending`), in place of an answer that was set before. The next call gives
    /// that answer: once, to that command and no other. It is gone with that packet, also where the packet is answered BUSY.
    ///
    /// # Errors
    ///
    /// `NotAsked`: no call has stopped before a command since the last answer. `BadLength`: the list or the bytes are too long.
    pub fn answer_next(&mut self, answer: DeviceAnswer<'_>) -> Result<(), Error> {
        let device = self.0.get();
        // SAFETY: the handle is ours alone, and each pointer is to as much as the call is told.
        check(unsafe {
            match answer {
                DeviceAnswer::Done => sys::osdp_device_answer_done(device),
                DeviceAnswer::Local(tamper, power) => {
                    sys::osdp_device_answer_local(device, tamper.into(), power.into())
                }
                DeviceAnswer::List(states) => {
                    sys::osdp_device_answer_list_nonnull(device, states.as_ptr(), states.len())
                }
                DeviceAnswer::Refused(reason) => {
                    sys::osdp_device_answer_refused(device, reason.number() as u8)
                }
                DeviceAnswer::Maker(vendor, bytes) => sys::osdp_device_answer_maker_nonnull(
                    device,
                    vendor.as_ptr(),
                    bytes.as_ptr(),
                    bytes.len(),
                ),
            }
        })
    }

    /// Hands in bytes that have come up to a moment. The device takes as many of them as it has room for. Then it reads the packets that are whole, in their
    /// order, up to and including the first that it answers. Call it again at the same moment with the bytes that weren't taken, until all are taken and
    /// nothing is said. A call with no bytes ends no run: call `tick` after these calls in each turn, also where a read gave no bytes.
    ///
    /// ```no_run
    /// # use osdp::{Answer, Command, Device, Error, Moment, Order, Step};
    /// # fn write(_: &[u8]) -> Result<(), Error> { Ok(()) }
    /// # fn act(_: &Command) {}
    /// fn hear(device: &mut Device, mut bytes: &[u8], now: Moment) -> Result<(), Error> {
    ///     loop {
    ///         let Step { taken, answer } = device.step(bytes, now)?;
    ///         bytes = &bytes[taken..];
    ///         match answer {
    ///             Some(answer) => obey(answer)?,
    ///             None if bytes.is_empty() => return Ok(()),
    ///             None => {}
    ///         }
    ///     }
    /// }
    ///
    /// fn obey(answer: Answer<'_>) -> Result<(), Error> {
    ///     if let Some(Order::Once(command)) = answer.order() {
    ///         act(command);
    ///     }
    ///     answer.send(|burst| write(burst))?;
    ///     Ok(())
    /// }
    /// ```
    ///
    /// The compiler warns of an answer that is forgotten, and no other call of the device compiles before it is sent:
    ///
    /// ```compile_fail
    /// # #![deny(unused_must_use)]
    /// # use osdp::{Device, Error, Moment};
    /// fn forgets(device: &mut Device, now: Moment) -> Result<(), Error> {
    ///     device.tick(now)?;
    ///     Ok(())
    /// }
    /// ```
    ///
    /// ```compile_fail
    /// # use osdp::{Device, Error, Moment};
    /// # fn write(_: &[u8]) -> Result<(), Error> { Ok(()) }
    /// fn is_late(device: &mut Device, now: Moment) -> Result<(), Error> {
    ///     let first = device.tick(now)?.answer;
    ///     let second = device.tick(now)?.answer;
    ///     for answer in [first, second].into_iter().flatten() {
    ///         answer.send(|burst| write(burst))?;
    ///     }
    ///     Ok(())
    /// }
    /// ```
    ///
    /// # Errors
    ///
    /// `MomentTooFar`.
    pub fn step(&mut self, bytes: &[u8], now: Moment) -> Result<Step<'_>, Error> {
        let mut taken = 0;
        let mut answer = no_answer();
        // SAFETY: the handle is ours alone, and what is written is apart.
        check(unsafe {
            sys::osdp_device_step_nonnull(
                self.0.get(),
                bytes.as_ptr(),
                bytes.len(),
                now.as_millis(),
                &mut taken,
                &mut answer,
            )
        })?;
        Ok(step_of(taken, &answer))
    }

    /// Says that no more bytes have come up to a moment. Where the line was silent for the gap after a run, that run is over, and what was begun is no packet.
    /// Where the device says something, call `step` with no bytes until it says nothing.
    ///
    /// # Errors
    ///
    /// `MomentTooFar`.
    pub fn tick(&mut self, now: Moment) -> Result<Step<'_>, Error> {
        let mut answer = no_answer();
        // SAFETY: the handle is ours alone, and the answer is one.
        check(unsafe { sys::osdp_device_tick(self.0.get(), now.as_millis(), &mut answer) })?;
        Ok(step_of(0, &answer))
    }

    /// Says that the line was seen silent: the run is over, whatever the gap. Else it is as `tick`.
    ///
    /// # Errors
    ///
    /// `MomentTooFar`.
    pub fn silence(&mut self, now: Moment) -> Result<Step<'_>, Error> {
        let mut answer = no_answer();
        // SAFETY: the handle is ours alone, and the answer is one.
        check(unsafe { sys::osdp_device_silence(self.0.get(), now.as_millis(), &mut answer) })?;
        Ok(step_of(0, &answer))
    }

    /// Sets the greatest moment seen, however far it lies after the one before: for a host that slept, after `MomentTooFar`.
    pub fn set_moment(&mut self, now: Moment) {
        // SAFETY: the handle is ours alone. It holds a machine, so the call isn't refused.
        let _ = unsafe { sys::osdp_device_set_moment(self.0.get(), now.as_millis()) };
    }
}

impl Drop for Device {
    fn drop(&mut self) {
        // SAFETY: the handle is ours alone. One that is none is refused, which changes nothing.
        let _ = unsafe { sys::osdp_device_free(self.0.get()) };
    }
}
