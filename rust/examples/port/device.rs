//! What each example of a device does beside its own part: its turns, events that are too old, and where it is.
#![allow(dead_code)] // a panel's program has no use for it

use super::stand::{Stand, read_stands, write_stand};
use super::store::Store;
use super::{Came, Port, RATES, set, tell};
use osdp::{Answer, Device, DeviceAnswer, Expired, Moment, Order, Step};
use std::error::Error;
use std::io;
use std::time::Duration;

type Done = Result<(), Box<dyn Error>>;
/// What is said to a command that waits for its answer, where it isn't answered as it was set.
pub type Said = io::Result<Option<DeviceAnswer<'static>>>;

/// Hands bytes to a device, until nothing is said to them.
fn hear(
    device: &mut Device,
    mut bytes: &[u8],
    now: Moment,
    obey: &mut impl FnMut(Answer<'_>) -> Said,
) -> Done {
    loop {
        let Step { taken, answer } = device.step(bytes, now)?;
        bytes = &bytes[taken..];
        match answer {
            Some(answer) => {
                let said = obey(answer)?;
                said.map_or(Ok(()), |said| device.answer_next(said))?;
            }
            None if bytes.is_empty() => return Ok(()),
            None => {}
        }
    }
}

/// A device's turn: it hears the bytes that have come, and then the moment. Where the program stood still it hears none of them, as a line may lose them: its panel
/// has given them up. `obey` does what an answer says, and then sends it: so what is answered was done, also where power is lost in between.
pub fn take_turn(
    device: &mut Device,
    came: &Came,
    mut obey: impl FnMut(Answer<'_>) -> Said,
) -> Done {
    let (bytes, now) = (
        if came.stood_still {
            &[]
        } else {
            &came.bytes[..]
        },
        came.now,
    );
    hear(device, bytes, now, &mut obey)?;
    if let Some(answer) = device.tick(now)?.answer {
        let said = obey(answer)?;
        said.map_or(Ok(()), |said| device.answer_next(said))?;
        hear(device, &[], now, &mut obey)?;
    }
    Ok(())
}

/// A card that has waited for too long, while no panel was there, is told to nobody any more: it would open the door when the panel comes back.
pub fn let_go(device: &mut Device, now: Moment, too_old: Duration) -> Done {
    device.set_moment(now); // also where the program was stopped for more than a day
    while let Some(expired) = device.expire_event(now, too_old)? {
        tell(format_args!("{expired:?}"))?; // withdrawn, or in doubt: then the panel may have it
    }
    Ok(())
}

/// Whether a line that tells a card or keys came while the program stood still, which is told: nobody stands there any more.
pub fn is_too_old(came: &Came, line: &str) -> io::Result<bool> {
    let is_old = came.stood_still && !line.starts_with("ISTATR ");
    if is_old {
        tell(format_args!("too old {line}"))?;
    }
    Ok(is_old)
}

impl Port {
    /// The address of a device that keeps its place: the one in the store, to whose rate the port is set, or its first one where nothing was kept yet.
    pub fn address(&mut self, first: u8) -> Result<u8, Box<dyn Error>> {
        (self.name, self.address) = (first, first);
        let Some(path) = self.options.kept.clone() else {
            return Ok(first);
        };
        let store = Store::open(&path, "device", self.options.is_new)?;
        let stands = read_stands(&store)?;
        self.store = Some(store);
        match &stands[..] {
            [] => self.keep((first, self.rate))?,
            [mine] => {
                let (address, rate) = mine.place();
                (self.name, self.address) = (mine.name, address);
                self.set_rate(rate).map_err(|_| {
                    format!("the port can't be set to {rate}, the rate that {path} has")
                })?;
            }
            _ => Err(format!(
                "{path} keeps several devices, and a device is one: name another file"
            ))?,
        }
        Ok(self.address)
    }

    /// Keeps where the device is from now on. Tells where that can't be done.
    fn keep(&mut self, place: (u8, u32)) -> io::Result<()> {
        let Some(store) = &mut self.store else {
            return Ok(());
        };
        let stand = Stand {
            name: self.name,
            places: vec![place],
            id: None,
        };
        match write_stand(store, &stand).and_then(|()| store.commit()) {
            Ok(()) => Ok(()),
            Err(why) => tell(format_args!("not kept {} {}: {why}", place.0, place.1)),
        }
    }

    /// Whether the port can be set to a rate: it is set to it, and back.
    pub fn can_have(&self, rate: u32) -> bool {
        let takes = RATES.contains(&rate) && set(&self.file, rate).is_ok();
        set(&self.file, self.rate).is_ok() && takes
    }

    /// Where a COMSET was refused since the last call, the device is made anew where it was, by `start` at its address. The events that wait are told: no panel
    /// gets them.
    pub fn starts_anew(
        &mut self,
        device: &mut Device,
        start: impl FnOnce(u8) -> Result<Device, osdp::Error>,
    ) -> Result<(), Box<dyn Error>> {
        if std::mem::take(&mut self.has_refused) {
            while let Some(event) = device.lapse_event() {
                tell(format_args!("{:?}", Expired::InDoubt(event)))?;
            }
            while let Some(event) = device.withdraw_event() {
                tell(format_args!("{:?}", Expired::Withdrawn(event)))?;
            }
            *device = start(self.address)?;
        }
        Ok(())
    }

    /// Sends the answer of a device to what came by a moment, if it isn't late. Where it has moved, its place is kept before the panel is told, and the port goes to its
    /// rate after that. A COM of a rate that the port hasn't isn't sent, since nobody would find the device there: it is made anew where it was, as after a loss of
    /// power.
    pub fn send(&mut self, answer: Answer<'_>, now: Moment) -> io::Result<Option<Order>> {
        let moved = answer.moved;
        if let Some(to) = moved {
            self.has_refused = !self.can_have(to.baud_rate);
            if self.has_refused {
                tell(format_args!("no rate {}", to.baud_rate))?;
                return Ok(None);
            }
            self.address = to.address;
        }
        if let Some(to) = moved {
            self.keep((to.address, to.baud_rate))?;
        }
        let order = answer.send(|burst| match self.is_late(now) {
            true => Ok(()),
            false => self.write(burst),
        })?;
        moved.map_or(Ok(()), |to| self.set_rate(to.baud_rate))?;
        Ok(order)
    }
}
