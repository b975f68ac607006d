//! What listens to a line.

use crate::error::{Error, check};
use crate::sys;
use core::cell::UnsafeCell;
use core::ptr::null_mut;

/// What has a line of text. Each accusation, each notice and each refused byte has one in each case.
#[derive(Clone, Copy, Debug, Default, PartialEq, Eq)]
#[non_exhaustive]
pub enum Prints {
    /// Nothing else has one.
    #[default]
    Found,
    /// So has each packet and each skipped byte, but no POLL, and no ACK that answers a POLL.
    Talk,
    /// So has each packet and each skipped byte.
    Packets,
}

impl Prints {
    fn number(self) -> u32 {
        match self {
            Prints::Found => sys::OSDP_PRINTS_FOUND,
            Prints::Talk => sys::OSDP_PRINTS_TALK,
            Prints::Packets => sys::OSDP_PRINTS_PACKETS,
        }
    }
}

/// A monitor of one line, which tells what happens there and which end breaks its rules, in the lines of text of the program `osdp monitor`.
///
/// It may begin to listen at any moment: what it hasn't heard it doesn't judge. Its program hands it the bytes that both ends send, and tells it where the
/// line was silent for the gap. The text waits until `next_text` takes it.
///
/// With the feature `heap` it may be moved to another thread, as a `Panel` may.
///
/// ```no_run
/// # use osdp::{Error, Monitor, Prints};
/// # fn read(_: &mut [u8]) -> usize { 0 }
/// # fn print(_: &[u8]) {}
/// # fn main() -> Result<(), Error> {
/// let mut monitor = Monitor::new(Prints::Found, false)?;
/// let (mut bytes, mut text) = ([0; 256], [0; 256]);
/// loop {
///     match read(&mut bytes) { // what came within the gap
///         0 => monitor.on_silence()?,
///         count => monitor.on_bytes(&bytes[..count])?,
///     }
///     while let told @ [_, ..] = monitor.next_text(&mut text) {
///         print(told);
///     }
/// }
/// # }
/// ```
#[derive(Debug)]
pub struct Monitor {
    handle: UnsafeCell<sys::osdp_monitor>,
}

// SAFETY: the handle is owned, nothing else points to what it holds, and a call uses nothing of its thread. What it takes and gives back is memory of the
// global allocator, which is that of all threads.
#[cfg(feature = "heap")]
unsafe impl Send for Monitor {}

impl Monitor {
    /// Makes a monitor of a line of which nothing was heard. With `standard` it leaves out the accusations that the standard doesn't ask for, since other
    /// makers may do otherwise. It takes memory.
    ///
    /// # Errors
    ///
    /// `NoMemory`.
    pub fn new(prints: Prints, standard: bool) -> Result<Monitor, Error> {
        let monitor = Monitor {
            handle: UnsafeCell::new(sys::osdp_monitor {
                monitor: null_mut(),
                monitor_live: 0,
            }),
        };
        let (prints, standard) = (prints.number(), standard.into());
        // SAFETY: the handle is none, and the pointer is good.
        check(unsafe { sys::osdp_monitor_new(monitor.handle.get(), prints, standard) })?;
        Ok(monitor)
    }

    /// Hands in bytes that have come on the line, in any pieces. It takes memory: a block for each address at the first packet to it, and the text.
    ///
    /// # Errors
    ///
    /// `NoMemory`, `TooLong`: the monitor has stopped, and the text that waited is gone. `Stopped`: it had stopped before. Make another one then.
    pub fn on_bytes(&mut self, bytes: &[u8]) -> Result<(), Error> {
        let (start, length) = (bytes.as_ptr(), bytes.len());
        // SAFETY: the handle is ours alone, and so many bytes are there.
        check(unsafe { sys::osdp_monitor_bytes_nonnull(self.handle.get(), start, length) })
    }

    /// Says that the line was silent for the gap, such as 20 ms: the run of bytes is over, and what was begun is no packet. Call it once after bytes, since
    /// lines of text count the runs.
    ///
    /// # Errors
    ///
    /// Those of `on_bytes`.
    pub fn on_silence(&mut self) -> Result<(), Error> {
        // SAFETY: the handle is ours alone.
        check(unsafe { sys::osdp_monitor_silence(self.handle.get()) })
    }

    /// Puts the table of what was heard of each address after the text that waits, and what is amiss by that table.
    ///
    /// # Errors
    ///
    /// Those of `on_bytes`.
    pub fn tell_table(&mut self) -> Result<(), Error> {
        // SAFETY: the handle is ours alone.
        check(unsafe { sys::osdp_monitor_table(self.handle.get()) })
    }

    /// Takes the next of the text that waits, as much as there is room for, and gives it. It is empty where none waits, or where the room is empty. A line
    /// of text may be cut in two.
    pub fn next_text<'a>(&mut self, room: &'a mut [u8]) -> &'a [u8] {
        let mut count = 0;
        // SAFETY: the handle is ours alone, and the room has so many bytes. It holds a machine, so the call isn't refused.
        let _ = unsafe {
            sys::osdp_monitor_next_text_nonnull(
                self.handle.get(),
                room.as_mut_ptr().cast(),
                room.len(),
                &mut count,
            )
        };
        &room[..count]
    }

    /// Whether anything was wrong so far: an end was accused, something was refused, or packets came of which none could be judged.
    ///
    /// # Errors
    ///
    /// `Stopped`.
    pub fn is_wrong(&self) -> Result<bool, Error> {
        let mut wrong = 0;
        // SAFETY: the handle is ours alone, and the number is one.
        check(unsafe { sys::osdp_monitor_is_wrong(self.handle.get(), &mut wrong) })?;
        Ok(wrong != 0)
    }
}

impl Drop for Monitor {
    fn drop(&mut self) {
        // SAFETY: the handle is ours alone. One that is none is refused, which changes nothing.
        let _ = unsafe { sys::osdp_monitor_free(self.handle.get()) };
    }
}
