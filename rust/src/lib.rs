//! Panel, device and monitor of an OSDP line, over machines that are proved in Rattle.
//!
//! This crate links `libosdp_c.a`, which `rt lib` builds from `crates/osdp_c`. What is proved is the archive; this crate is ordinary Rust, with
//! `unsafe` calls into it, which is tested. `docs/GUIDE.md` says what a panel and a device do, and what each report asks for.
//!
//! ```no_run
//! use core::time::Duration;
//! use osdp::{Card, Command, EntryNumber, Error, Moment, Panel, PanelConfig, Reply, Report, Site, color};
//!
//! # fn wait(_: Moment) {}
//! # fn read_all(_: &mut [u8]) -> usize { 0 }
//! # fn write(_: &[u8]) -> Result<(), Error> { Ok(()) }
//! # fn now() -> Moment { Moment::from_millis(0) }
//! const TURN: Duration = Duration::from_millis(100); // how long it waits at most
//! const LATE: Duration = Duration::from_secs(5); // so long after its card a door opens at most
//!
//! fn may_enter(card: &Card) -> bool {
//!     (card.bits(), card.bytes()) == (26, &[0x12, 0x34, 0x56, 0x40])
//! }
//!
//! /// The strike is on for three seconds. Where the door is offline, or as many orders wait as may, it stays closed.
//! fn open(panel: &mut Panel, site: &Site<1>, door: EntryNumber, until: Moment) -> Result<(), Error> {
//!     site.order(panel, door, &Command::output_for(0, 30)?, until)?;
//!     Ok(())
//! }
//!
//! fn take_reports(panel: &mut Panel, site: &mut Site<1>, moment: Moment) -> Result<(), Error> {
//!     while let Some((told, _)) = site.next_report(panel, moment) {
//!         match (told.report, told.since) {
//!             // a card that may have been told before opens nothing again, and one of long ago nothing at all
//!             (Report::Event(Reply::Raw(card)), Some(since)) if !told.maybe_again && may_enter(&card) => {
//!                 open(panel, site, told.entry, since + LATE)?;
//!             }
//!             _ => {}
//!         }
//!     }
//!     Ok(())
//! }
//!
//! # fn main() -> Result<(), Box<dyn core::error::Error>> {
//! let mut panel = Panel::new(&PanelConfig::default())?;
//! let door = panel.add(5, 0)?; // its first order has the number 0
//! let mut site = Site::new(&panel, now()); // begins the session, and again a second after it was lost
//! site.wants(door, &Command::color(color::RED)?)?; // also when the door comes back
//! let mut bytes = [0; 256];
//! loop {
//!     wait(site.wait_until(&panel, now() + TURN)); // for bytes, at most until that moment
//!     let moment = now();
//!     let count = read_all(&mut bytes); // all that is there
//!     panel.set_moment(moment); // also where the program was stopped for more than a day
//!     panel.on_bytes(&bytes[..count], moment)?;
//!     take_reports(&mut panel, &mut site, moment)?;
//!     site.act(&mut panel, moment)?;
//!     let unsent = panel.tick(moment)?;
//!     write(&unsent.write(now())?)?; // whole; nothing where none is to go out, or where its order is too old by now
//! }
//! # }
//! ```
//!
//! The crate is `no_std`. With the feature `heap`, which is on by default, the machines take memory of the program's global allocator. Without it the
//! program links a heap of its own, such as `c/heap_pool.c`.
#![no_std]
#![warn(missing_docs)]

#[cfg(not(target_pointer_width = "64"))]
compile_error!(
    "this crate is for targets of 64 bits; for others include/osdp.h has the calls in C"
);

mod command_fields;
mod device;
mod error;
mod fields;
#[cfg(feature = "heap")]
mod heap;
mod message;
mod monitor;
pub mod named;
mod numbered;
mod panel;
mod reply_data;
mod report;
mod site;
mod sys;
mod time;
mod unsent;

pub use command_fields::{CommandFields, Leds, Outputs};
pub use device::{Answer, Device, DeviceAnswer, DeviceConfig, Expired, Moved, Order, Said, Step};
pub use error::Error;
pub use fields::{
    Buzzer, Bytes, Capabilities, Capability, Card, Led, LedState, Nak, NakReason, Output, PdId,
    Product, Reply, Text,
};
pub use message::{Burst, Command, RawReply};
pub use monitor::{Monitor, Prints};
pub use named::{card, color, function, led, output, reader, state, text, tone};
pub use panel::{Check, EntryNumber, Panel, PanelConfig};
pub use report::{LostCause, PanelReport, Report};
pub use site::{Presence, Site, SiteError};
pub use time::Moment;
pub use unsent::Unsent;
