//! The panel's end of a line.

use crate::error::{Error, check};
use crate::message::{Burst, Command, no_burst, no_message};
use crate::report::{PanelReport, no_report};
use crate::sys;
use crate::time::Moment;
use crate::unsent::Unsent;
use core::cell::UnsafeCell;
use core::mem::MaybeUninit;
use core::ptr::null_mut;
use core::sync::atomic::{AtomicU32, Ordering};
use core::time::Duration;

pub use crate::sys::Check;

/// The settings of a panel. Each time is 1 ms to an hour where nothing else is said; what is left over of a millisecond is cut off.
#[derive(Clone, Copy, Debug, PartialEq, Eq)]
pub struct PanelConfig {
    /// Which check the packets of the panel end with.
    pub check: Check,
    /// How long an answer is waited for, from the `Panel::tick` that had the packet sent.
    pub reply_wait: Duration,
    /// How long after an answer the next POLL of that device is due.
    pub poll_interval: Duration,
    /// How often a packet is sent, 1 to 255, the first time included, until the session is lost because no answer comes. After a BUSY it is counted anew.
    pub sends: u8,
    /// How long after a BUSY the packet is sent again.
    pub busy_wait: Duration,
    /// How often a device may answer BUSY in one exchange, 0 to 255. One BUSY more loses the session.
    pub busy_limit: u8,
    /// How long a device is left quiet before its session opens: more than twice the longest time that a packet takes until it is read.
    pub quiet_wait: Duration,
    /// After how long a silence a run of bytes is over: what was begun by then is no packet.
    pub gap: Duration,
    /// How many commands may wait for each device, 1 to 1,024.
    pub capacity: u32,
    /// How far a moment may lie after the greatest one seen, 1 ms to 49 days; no time stands for a day.
    pub clock_limit: Duration,
}

/// A time of a setting, as the archive takes it; one that is too long is above what it takes.
pub(crate) fn milliseconds(time: Duration) -> u32 {
    u32::try_from(time.as_millis()).unwrap_or(u32::MAX)
}

/// A clock limit, as the archive takes it: one under a millisecond would stand for a day there, and one that is too long for it isn't cut.
pub(crate) fn limit(time: Duration) -> Result<u32, Error> {
    match u32::try_from(time.as_millis()) {
        Ok(0) if !time.is_zero() => Err(Error::OutOfRange),
        Ok(limit) => Ok(limit),
        Err(_) => Err(Error::OutOfRange),
    }
}

impl PanelConfig {
    fn to_sys(self) -> Result<sys::osdp_panel_config, Error> {
        Ok(sys::osdp_panel_config {
            check: self.check,
            reply_wait: milliseconds(self.reply_wait),
            poll_interval: milliseconds(self.poll_interval),
            sends: self.sends.into(),
            busy_wait: milliseconds(self.busy_wait),
            busy_limit: self.busy_limit.into(),
            quiet_wait: milliseconds(self.quiet_wait),
            gap: milliseconds(self.gap),
            capacity: self.capacity,
            clock_limit: limit(self.clock_limit)?,
        })
    }
}

impl Default for PanelConfig {
    fn default() -> PanelConfig {
        let mut config = MaybeUninit::uninit();
        // SAFETY: the call writes each field, and as the check one of the two.
        let config: sys::osdp_panel_config = unsafe {
            sys::osdp_panel_defaults(config.as_mut_ptr());
            config.assume_init()
        };
        PanelConfig {
            check: config.check,
            reply_wait: Duration::from_millis(config.reply_wait.into()),
            poll_interval: Duration::from_millis(config.poll_interval.into()),
            sends: config.sends as u8,
            busy_wait: Duration::from_millis(config.busy_wait.into()),
            busy_limit: config.busy_limit as u8,
            quiet_wait: Duration::from_millis(config.quiet_wait.into()),
            gap: Duration::from_millis(config.gap.into()),
            capacity: config.capacity,
            clock_limit: Duration::from_millis(config.clock_limit.into()),
        }
    }
}

/// The number of a device in its panel. Another panel refuses it with `NoEntry`.
#[derive(Clone, Copy, Debug, PartialEq, Eq, PartialOrd, Ord, Hash)]
pub struct EntryNumber {
    panel: u32,
    index: usize,
}

impl EntryNumber {
    /// The number, counted from 0 in the order of adding.
    pub fn index(self) -> usize {
        self.index
    }
}

/// How many panels were made: each has a number of its own, until there were four billion.
static PANELS: AtomicU32 = AtomicU32::new(0);

/// The panel's end of a line with up to sixteen devices. It reads and writes nothing: its program hands bytes and moments in, and writes what a tick has it send.
///
/// A turn of a program waits for bytes, at most until `next_deadline`, takes the moment, reads all that is there, and hands it to `on_bytes`. Then it takes all
/// reports, and calls `tick`. It takes the moment anew, and writes what `Unsent::write` gives at that, whole and at once. The moment is taken after the wait and
/// before the read: so no byte is older than its moment says, also where the program stood still.
///
/// Each order has a number and a last moment. Once that has passed it isn't sent any more, however long the program stood still. Between any two orders of a
/// device it is asked for its events: so orders that come as fast as they go keep no card waiting.
///
/// With the feature `heap` it may be moved to another thread: its memory is that of the program's global allocator, which every thread may use. Without
/// it the program's own heap may be one of a single thread, so there it stays on the thread that made it.
///
/// A call that only asks takes `&self`. While it runs, it takes the machine out of its handle all the same. That is safe, since a `Panel` isn't `Sync`, so that
/// one thread at a time has the handle, and since no call makes another one.
#[derive(Debug)]
pub struct Panel {
    handle: UnsafeCell<sys::osdp_panel>,
    number: u32,
    /// For how many bytes of commands there is room, of each device. None where there is room for each command, however long it is.
    pub(crate) room: Option<usize>,
}

// SAFETY: the handle is owned, nothing else points to what it holds, and a call uses nothing of its thread. What it takes and gives back is memory of the
// global allocator, which is that of all threads.
#[cfg(feature = "heap")]
unsafe impl Send for Panel {}

impl Panel {
    /// Makes a panel without devices. It takes memory.
    ///
    /// # Errors
    ///
    /// `OutOfRange`: a setting is out of its range. `NoMemory`.
    pub fn new(config: &PanelConfig) -> Result<Panel, Error> {
        let settings = config.to_sys()?;
        let panel = Panel::none(None);
        // SAFETY: the handle is none, and both pointers are good.
        check(unsafe { sys::osdp_panel_new(panel.handle.get(), &settings) })?;
        Ok(panel)
    }

    /// As `new`, with less memory: the commands that wait for one device may have `bytes` bytes together, 1 to 1,467,392. A command has the bytes of its code
    /// and its data: an OUT of one output has 5. (With `new` each of `capacity` commands has room for 1,433 bytes.) A command without room is refused with
    /// `Full`. The bytes of the command that is on its way count too, unless there is room for each command, however long it is. A `Site` over the panel refuses
    /// states that have more than `bytes` bytes.
    ///
    /// # Errors
    ///
    /// `OutOfRange`: a setting or `bytes` is out of its range. `NoMemory`.
    pub fn with_room(config: &PanelConfig, bytes: usize) -> Result<Panel, Error> {
        let settings = config.to_sys()?;
        let panel = Panel::none(Some(bytes));
        // SAFETY: the handle is none, and both pointers are good.
        check(unsafe { sys::osdp_panel_new_with_room(panel.handle.get(), &settings, bytes) })?;
        Ok(panel)
    }

    /// A handle that is none.
    fn none(room: Option<usize>) -> Panel {
        Panel {
            handle: UnsafeCell::new(sys::osdp_panel {
                panel: null_mut(),
                panel_live: 0,
            }),
            number: PANELS.fetch_add(1, Ordering::Relaxed),
            room,
        }
    }

    /// The number of a device of this panel.
    fn index(&self, entry: EntryNumber) -> Result<usize, Error> {
        match entry.panel == self.number {
            true => Ok(entry.index),
            false => Err(Error::NoEntry),
        }
    }

    /// Adds a device at an address, 0 to 126. Its session is closed. Its first order has the number `next_number`: 0 for a device that never had one, and after a
    /// restart of the program the one that `next_number` told last. It takes memory. A device can't be taken away again.
    ///
    /// # Errors
    ///
    /// `TooManyDevices`: there are sixteen. `OutOfRange`: the address is above 126. `AddressTaken`: it is that of another device or reserved for one.
    /// `NoMemory`.
    pub fn add(&mut self, address: u8, next_number: u64) -> Result<EntryNumber, Error> {
        let (address, mut index) = (address.into(), 0);
        // SAFETY: the handle is ours alone, and the entry is written.
        check(unsafe { sys::osdp_panel_add(self.handle.get(), address, next_number, &mut index) })?;
        Ok(EntryNumber {
            panel: self.number,
            index,
        })
    }

    /// The number that the next order of a device has. A program that stores its orders stores this number before it submits, and hands it to `add` after a
    /// restart.
    ///
    /// # Errors
    ///
    /// `NoEntry`.
    pub fn next_number(&self, entry: EntryNumber) -> Result<u64, Error> {
        let (index, mut number) = (self.index(entry)?, 0);
        // SAFETY: the handle is ours alone, and the number is one.
        check(unsafe { sys::osdp_panel_next_number(self.handle.get(), index, &mut number) })?;
        Ok(number)
    }

    /// Begins a session of a device. The device is left quiet for `quiet_wait`, and then the opening ID goes out when its turn comes. `Report::Opened` or
    /// `Report::Lost` says what becomes of it. The panel begins no session by itself, also not after one was lost.
    ///
    /// # Errors
    ///
    /// `MomentTooFar`; `NoEntry`; `NotClosed`: the session has begun already.
    pub fn begin(&mut self, entry: EntryNumber, now: Moment) -> Result<(), Error> {
        let index = self.index(entry)?;
        // SAFETY: the handle is ours alone.
        check(unsafe { sys::osdp_panel_begin(self.handle.get(), index, now.as_millis()) })
    }

    /// Puts an order after those that wait for a device, whether or not its session has begun, and tells its number. It may be sent until a moment, which counts
    /// as well; `Moment::NEVER` is never too late. It waits for its turn, also in a later session, and it is gone where the program loses power before. Once it was
    /// sent a report with its number says what becomes of it. Where its last moment passes while it waits, it is told as `Report::Expired` as soon as it is in
    /// front, and not sent. Before, `withdraw` takes it back.
    ///
    /// # Errors
    ///
    /// `NoEntry`. `NumbersUsedUp`: the next number would be 2^64 - 1. `PollSubmitted`: it is a POLL. `AddressOutOfRange`: it is a COMSET to an address above 126,
    /// where the device would be out of reach. `AddressTaken`: it is a COMSET to an address of another device or reserved for one, or an address is reserved for
    /// this device already. `Full`.
    pub fn submit(
        &mut self,
        entry: EntryNumber,
        command: &Command,
        until: Moment,
    ) -> Result<u64, Error> {
        let (index, mut number) = (self.index(entry)?, 0);
        let (code, data) = (command.code(), command.data());
        // SAFETY: the handle is ours alone, the data have so many bytes, and the number is one.
        check(unsafe {
            sys::osdp_panel_submit_nonnull(
                self.handle.get(),
                index,
                code,
                data.as_ptr(),
                data.len(),
                until.as_millis(),
                &mut number,
            )
        })?;
        Ok(number)
    }

    /// As `submit`, for the text of a command, such as `OUT 0:5:30`.
    ///
    /// # Errors
    ///
    /// `BadText`: it is the text of no command. The others are those of `submit`.
    pub fn submit_text(
        &mut self,
        entry: EntryNumber,
        text: &str,
        until: Moment,
    ) -> Result<u64, Error> {
        let (index, mut number) = (self.index(entry)?, 0);
        // SAFETY: the handle is ours alone, the text has so many bytes, and the number is one.
        check(unsafe {
            sys::osdp_panel_submit_text_nonnull(
                self.handle.get(),
                index,
                text.as_ptr().cast(),
                text.len(),
                until.as_millis(),
                &mut number,
            )
        })?;
        Ok(number)
    }

    /// Takes back the command that has waited longest for a device, also while a session goes on. It won't be sent, no report tells it, and an address that it
    /// reserved is free. None where none waits, or where a command of the device is on its way: from its first packet until a report tells what became of it.
    ///
    /// # Errors
    ///
    /// `NoEntry`.
    pub fn withdraw(&mut self, entry: EntryNumber) -> Result<Option<Command>, Error> {
        let index = self.index(entry)?;
        let mut command = no_message();
        // SAFETY: the handle is ours alone, and the command is one.
        check(unsafe { sys::osdp_panel_withdraw(self.handle.get(), index, &mut command) })?;
        Ok(Command::from_sys(&command))
    }

    /// Sets the address at which the panel looks for a device, 0 to 126, and frees the address that is reserved for it. The session must be closed. Nothing is
    /// sent: the device itself stays where it is.
    ///
    /// # Errors
    ///
    /// `NoEntry`. `NotClosed`: the session has begun. `OutOfRange`: the address is above 126. `AddressTaken`: it is that of another device or reserved for one,
    /// or a COMSET waits for this device.
    pub fn retarget(&mut self, entry: EntryNumber, address: u8) -> Result<(), Error> {
        let index = self.index(entry)?;
        // SAFETY: the handle is ours alone.
        check(unsafe { sys::osdp_panel_retarget(self.handle.get(), index, address.into()) })
    }

    /// The devices, in the order of adding.
    pub fn entries(&self) -> impl Iterator<Item = EntryNumber> + use<> {
        let panel = self.number;
        let mut count = 0;
        // SAFETY: the handle is ours alone, and the count is one. It holds a machine, so the call isn't refused.
        let _ = unsafe { sys::osdp_panel_entries(self.handle.get(), &mut count) };
        (0..count).map(move |index| EntryNumber { panel, index })
    }

    /// The address that a device has now.
    ///
    /// # Errors
    ///
    /// `NoEntry`.
    pub fn address(&self, entry: EntryNumber) -> Result<u8, Error> {
        let index = self.index(entry)?;
        let mut address = 0;
        // SAFETY: the handle is ours alone, and the address is one.
        check(unsafe { sys::osdp_panel_address(self.handle.get(), index, &mut address) })?;
        Ok(address as u8)
    }

    /// How many commands wait for a device. The one that is on its way isn't counted.
    ///
    /// # Errors
    ///
    /// `NoEntry`.
    pub fn waiting(&self, entry: EntryNumber) -> Result<usize, Error> {
        let index = self.index(entry)?;
        let mut count = 0;
        // SAFETY: the handle is ours alone, and the count is one.
        check(unsafe { sys::osdp_panel_waiting(self.handle.get(), index, &mut count) })?;
        Ok(count)
    }

    /// Whether the session of a device is closed: until `begin`, and again once it is lost or the device has moved.
    ///
    /// # Errors
    ///
    /// `NoEntry`.
    pub fn is_closed(&self, entry: EntryNumber) -> Result<bool, Error> {
        let index = self.index(entry)?;
        let mut closed = 0;
        // SAFETY: the handle is ours alone, and the number is one.
        check(unsafe { sys::osdp_panel_is_closed(self.handle.get(), index, &mut closed) })?;
        Ok(closed != 0)
    }

    /// Hands in bytes that a read of the port gave, in any pieces, and the moment, which was taken before the read. Call it in each turn, also where none have
    /// come. Take all reports after it (`next_report`).
    ///
    /// # Errors
    ///
    /// `MomentTooFar`: no byte was taken.
    pub fn on_bytes(&mut self, bytes: &[u8], now: Moment) -> Result<(), Error> {
        let (start, length) = (bytes.as_ptr(), bytes.len());
        // SAFETY: the handle is ours alone, and so many bytes are there.
        check(unsafe {
            sys::osdp_panel_bytes_nonnull(self.handle.get(), start, length, now.as_millis())
        })
    }

    /// Says that the line was seen silent: the run of bytes is over, and what was begun is no packet. Only a program that sees silence by itself needs it,
    /// since `tick` and the next bytes end a run by the setting `gap`.
    ///
    /// # Errors
    ///
    /// `MomentTooFar`.
    pub fn on_silence(&mut self, now: Moment) -> Result<(), Error> {
        // SAFETY: the handle is ours alone.
        check(unsafe { sys::osdp_panel_silence(self.handle.get(), now.as_millis()) })
    }

    /// Does what is due at a moment, and tells whether a burst is to go out. There is none in a turn whose bytes brought a report, and none while a report waits or
    /// an order is late. A tick may also leave a report, which the next turn takes.
    ///
    /// ```no_run
    /// # use osdp::{Error, Moment, Panel};
    /// # fn now() -> Moment { Moment::from_millis(0) }
    /// # fn write(_: &[u8]) -> Result<(), Error> { Ok(()) }
    /// fn turn(panel: &mut Panel, moment: Moment) -> Result<(), Error> {
    ///     let unsent = panel.tick(moment)?;
    ///     write(&unsent.write(now())?)
    /// }
    /// ```
    ///
    /// The compiler warns of a burst that is forgotten, before its bytes are taken and after that:
    ///
    /// ```compile_fail
    /// # #![deny(unused_must_use)]
    /// # use osdp::{Error, Moment, Panel};
    /// fn forgets(panel: &mut Panel, moment: Moment) -> Result<(), Error> {
    ///     panel.tick(moment)?;
    ///     Ok(())
    /// }
    /// ```
    ///
    /// ```compile_fail
    /// # #![deny(unused_must_use)]
    /// # use osdp::{Error, Moment, Panel};
    /// fn forgets_its_bytes(panel: &mut Panel, moment: Moment) -> Result<(), Error> {
    ///     panel.tick(moment)?.write(moment)?;
    ///     Ok(())
    /// }
    /// ```
    ///
    /// No other call of the panel compiles before it is written:
    ///
    /// ```compile_fail
    /// # use osdp::{Error, Moment, Panel};
    /// # fn write(_: &[u8]) -> Result<(), Error> { Ok(()) }
    /// fn is_late(panel: &mut Panel, moment: Moment) -> Result<(), Error> {
    ///     let unsent = panel.tick(moment)?;
    ///     panel.on_silence(moment)?;
    ///     write(&unsent.write(moment)?)
    /// }
    /// ```
    ///
    /// # Errors
    ///
    /// `MomentTooFar`.
    pub fn tick(&mut self, now: Moment) -> Result<Unsent<'_>, Error> {
        let mut sends = 0;
        // SAFETY: the handle is ours alone, and the number is one.
        check(unsafe { sys::osdp_panel_tick(self.handle.get(), now.as_millis(), &mut sends) })?;
        Ok(Unsent::new(self, sends != 0))
    }

    /// The bytes of the tick's burst that go out at a moment.
    pub(crate) fn burst_at(&mut self, now: Moment) -> Result<Burst<'_>, Error> {
        let mut burst = no_burst();
        // SAFETY: the handle is ours alone, and the burst is one.
        check(unsafe { sys::osdp_panel_write(self.handle.get(), now.as_millis(), &mut burst) })?;
        Ok(Burst::from_sys(&burst))
    }

    /// Sets the greatest moment seen, however far it lies after the one before: for a host that slept, after `MomentTooFar`. One that lies before the greatest
    /// changes nothing.
    pub fn set_moment(&mut self, now: Moment) {
        // SAFETY: the handle is ours alone. It holds a machine, so the call isn't refused.
        let _ = unsafe { sys::osdp_panel_set_moment(self.handle.get(), now.as_millis()) };
    }

    /// The moment of the next turn, if no bytes come before. It may lie in the past: then take the turn at once. So it is where a report waits or an order is
    /// late, and where bytes of the turn before brought a report, so that its tick is still to come. None where no turn would do anything before bytes come or the
    /// program itself calls the panel.
    pub fn next_deadline(&self) -> Option<Moment> {
        let mut deadline = sys::osdp_moment {
            moment: 0,
            present: 0,
        };
        // SAFETY: the handle is ours alone, and the moment is one. It holds a machine, so the call isn't refused.
        let _ = unsafe { sys::osdp_panel_next_deadline(self.handle.get(), &mut deadline) };
        (deadline.present != 0).then_some(Moment::from_millis(deadline.moment))
    }

    /// Takes what is to be told: a report, or the first order whose last moment has passed while it waited. Call it after `on_bytes` until there is none: while
    /// something is to be told, the panel sends nothing.
    pub fn next_report(&mut self) -> Option<PanelReport> {
        let mut report = no_report();
        // SAFETY: the handle is ours alone, and the report is one. It holds a machine, so the call isn't refused.
        let _ = unsafe { sys::osdp_panel_next_report(self.handle.get(), &mut report) };
        let (panel, index) = (self.number, report.entry);
        PanelReport::from_sys(EntryNumber { panel, index }, &report)
    }
}

impl Drop for Panel {
    fn drop(&mut self) {
        // SAFETY: the handle is ours alone. One that is none is refused, which changes nothing.
        let _ = unsafe { sys::osdp_panel_free(self.handle.get()) };
    }
}
