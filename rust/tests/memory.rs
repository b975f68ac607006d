//! Memory: what a panel, a device and a monitor take is given back when they are dropped, and each block that is refused is told.
//!
//! It is a program of one thread, since the allocator counts what the whole program takes.
mod settings;

use osdp::{Device, Error, Monitor, Panel, PanelConfig, Prints};
use settings::DEVICE;
use std::alloc::{GlobalAlloc, Layout, System};
use std::ptr::null_mut;
use std::sync::atomic::{AtomicUsize, Ordering::SeqCst};

struct Counted;

static ASKED: AtomicUsize = AtomicUsize::new(0);
static HELD: AtomicUsize = AtomicUsize::new(0);
/// Which block is refused, from 1; 0 for none.
static REFUSED: AtomicUsize = AtomicUsize::new(0);

unsafe impl GlobalAlloc for Counted {
    unsafe fn alloc(&self, layout: Layout) -> *mut u8 {
        if ASKED.fetch_add(1, SeqCst) + 1 == REFUSED.load(SeqCst) {
            return null_mut();
        }
        HELD.fetch_add(layout.size(), SeqCst);
        // SAFETY: as of the caller.
        unsafe { System.alloc(layout) }
    }

    unsafe fn dealloc(&self, block: *mut u8, layout: Layout) {
        HELD.fetch_sub(layout.size(), SeqCst);
        // SAFETY: as of the caller.
        unsafe { System.dealloc(block, layout) }
    }
}

#[global_allocator]
static ALLOCATOR: Counted = Counted;

fn both() -> Result<(Panel, Device), Error> {
    let mut panel = Panel::new(&PanelConfig::default())?;
    panel.add(5, 0)?;
    let device = Device::new(&DEVICE)?;
    Ok((panel, device))
}

/// How long the text is that a monitor tells of a POLL to address 5. Nothing else here asks for memory.
fn listened() -> Result<usize, Error> {
    let mut monitor = Monitor::new(Prints::Packets, false)?;
    let heard = monitor
        .on_bytes(&[0x53, 5, 7, 0, 0, 0x60, 0x41])
        .and_then(|()| monitor.on_silence())
        .and_then(|()| monitor.tell_table());
    let mut text = [0; 1024];
    let told = monitor.next_text(&mut text);
    if heard.is_err() {
        assert!(told.is_empty());
        assert_eq!(monitor.on_bytes(&[]), Err(Error::Stopped));
        assert_eq!(monitor.is_wrong(), Err(Error::Stopped));
    }
    heard.map(|()| told.len())
}

/// Each block that a monitor takes is refused once: it stops, or isn't made.
fn monitors_stop() {
    let before = HELD.load(SeqCst);
    ASKED.store(0, SeqCst);
    let told = listened();
    let asked = ASKED.load(SeqCst);
    assert!(told.is_ok_and(|length| length > 100) && asked > 4);
    for number in 1..=asked {
        ASKED.store(0, SeqCst);
        REFUSED.store(number, SeqCst);
        assert_eq!(listened(), Err(Error::NoMemory));
        assert_eq!(HELD.load(SeqCst), before);
    }
    REFUSED.store(0, SeqCst);
    assert_eq!(listened(), told);
}

/// How many bytes these machines hold.
fn taken(made: impl Fn() -> Result<(Panel, Device), Error>) -> usize {
    let before = HELD.load(SeqCst);
    let _machines = made().unwrap();
    HELD.load(SeqCst) - before
}

fn main() {
    let before = HELD.load(SeqCst);
    ASKED.store(0, SeqCst);
    let machines = both();
    let asked = ASKED.load(SeqCst);
    assert!(machines.is_ok());
    assert!(HELD.load(SeqCst) > before);
    drop(machines);
    assert_eq!(HELD.load(SeqCst), before);

    let whole = taken(both);
    let small = taken(|| {
        let mut panel = Panel::with_room(&PanelConfig::default(), 100)?;
        panel.add(5, 0)?;
        Ok((panel, Device::with_room(&DEVICE, 100)?))
    });
    assert!(small + 64 * 1_000 < whole, "{small} of {whole}");
    assert_eq!(
        Panel::with_room(&PanelConfig::default(), 0).err(),
        Some(Error::OutOfRange)
    );
    assert_eq!(Device::with_room(&DEVICE, 0).err(), Some(Error::OutOfRange));

    for number in 1..=asked {
        ASKED.store(0, SeqCst);
        REFUSED.store(number, SeqCst);
        assert_eq!(both().err(), Some(Error::NoMemory));
        assert_eq!(HELD.load(SeqCst), before);
    }
    REFUSED.store(0, SeqCst);
    assert!(asked > 0 && both().is_ok());
    monitors_stop();
}
