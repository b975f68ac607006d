//! A panel's only device: where it is, what it is, and when its session begins. A store keeps the first two, by the address at which the device was first.
#![allow(dead_code)] // a device's program has no use for it
use super::stand::{Id, Place, Stand, id_of, read_stands, stand_of, write_stand};
use super::store::Store;
use super::{Port, RATES, tell};
use osdp::{Command, EntryNumber, Moment, Panel, Presence, Reply, Report, Site, Unsent};
use std::error::Error;
use std::io;

/// A session has ended: tells the order that was under way, which may have been done or not, and takes back those that wait.
pub fn take_back(
    panel: &mut Panel,
    entry: EntryNumber,
    lost: Option<Command>,
) -> Result<(), Box<dyn Error>> {
    let door = entry.index() + 1;
    if let Some(order) = lost {
        tell(format_args!("lost {door} {order}"))?;
    }
    while let Some(order) = panel.withdraw(entry)? {
        tell(format_args!("withdrawn {door} {order}"))?;
    }
    Ok(())
}

pub struct Door {
    pub entry: EntryNumber,
    /// Whether its session is open, and it is the device that stood there before.
    pub may_order: bool,
    /// It says when the next session begins.
    pub site: Site<1>,
    /// Another device than the door that has answered last, and where it stands.
    other: Option<(Id, Place)>,
    /// Whether nothing more is said to it, so that its session ends.
    is_left: bool,
    stands: Vec<Stand>,
    at: usize,
    store: Option<Store>,
}

impl Door {
    /// Adds the device that was at an address when it was first used, where the store has it, or else at that address. Makes the store where that is wanted.
    ///
    /// An error where the store can't be used, or has another device at that address.
    pub fn add(panel: &mut Panel, port: &Port, name: u8) -> Result<Door, Box<dyn Error>> {
        let options = &port.options;
        let store = match &options.kept {
            Some(path) => Some(Store::open(path, "panel", options.is_new)?),
            None => None,
        };
        let mut stands = store.as_ref().map_or(Ok(Vec::new()), read_stands)?;
        let at = stand_of(&mut stands, name, port.rate)?;
        let mut door = Door {
            entry: panel.add(stands[at].place().0, 0)?,
            may_order: false,
            site: Site::new(panel, port.now()),
            other: None,
            is_left: false,
            stands,
            at,
            store,
        };
        door.keep()?;
        Ok(door)
    }

    /// Keeps where the device is. Tells where that can't be done. Whether it was done.
    fn keep(&mut self) -> io::Result<bool> {
        let Some(store) = &mut self.store else {
            return Ok(true);
        };
        let kept = write_stand(store, &self.stands[self.at]).and_then(|()| store.commit());
        if let Err(why) = &kept {
            tell(format_args!("not kept: {why}"))?;
        }
        Ok(kept.is_ok())
    }

    /// It is at this place.
    fn stands_at(&mut self, place: Place) -> io::Result<()> {
        self.stands[self.at].places = vec![place];
        self.keep().map(drop)
    }

    /// The device that has answered is the one.
    fn note(&mut self, id: Id) -> io::Result<()> {
        (self.may_order, self.other) = (!self.is_left, None);
        self.stands[self.at].id = Some(id);
        self.stands_at(self.stands[self.at].place())
    }

    /// Another device has answered, which is told once while it stands there. Of two places the door may be at the other one: so this session is let end.
    fn meet(&mut self, id: Id) -> io::Result<()> {
        let place = self.stands[self.at].place();
        let other = Some((id, place));
        if self.other != other {
            let address = place.0;
            tell(format_args!(
                "another device at {address}: it gets no order until `accept`"
            ))?;
            self.other = other;
        }
        if self.stands[self.at].places.len() > 1 {
            self.leave();
        }
        Ok(())
    }

    /// Lets its open session end, by leaving out what the panel says: there is no call for it. For another device, which stands at one of two places.
    fn leave(&mut self) {
        let presence = self.site.presence(self.entry);
        self.is_left = presence.is_some_and(Presence::is_online);
        self.may_order = false;
    }

    /// The other device that was told last is the door from now on. Where it is, is known once its session opens again, if that doesn't stay open.
    fn accept(&mut self, id: Id) -> io::Result<()> {
        let presence = self.site.presence(self.entry);
        if presence.is_some_and(Presence::is_online) && !self.is_left {
            return self.note(id);
        }
        self.stands[self.at].id = Some(id);
        self.keep().map(drop)
    }

    /// Writes what the panel says, but to a door whose session is let end.
    pub fn write(&self, port: &mut Port, unsent: Unsent<'_>) -> io::Result<()> {
        match self.is_left {
            true => Ok(()),
            false => port.write_unsent(unsent),
        }
    }

    /// Does what a report asks for about its place and its session.
    pub fn heed(&mut self, report: &Report, now: Moment) -> io::Result<()> {
        self.site.heed(self.entry, report, now);
        match report {
            Report::Opened(id) => {
                let (id, known) = (id_of(id), &self.stands[self.at].id);
                if known.as_ref().is_none_or(|known| *known == id) {
                    return self.note(id);
                }
                self.meet(id)?;
            }
            // A COMSET that was refused, or never went out. After any other answer it may be at either place, and is looked for at both once it is lost.
            Report::Settled(command, Reply::Nak(_)) | Report::Expired(command)
                if command.code() == 0x6E =>
            {
                self.stands_at(self.stands[self.at].place())?;
            }
            Report::Moved(_, reply) => {
                (self.may_order, self.is_left) = (false, false);
                if let Reply::Com(address, rate) = reply {
                    self.stands_at((*address, *rate))?;
                }
            }
            Report::Lost(..) => (self.may_order, self.is_left) = (false, false),
            _ => {}
        }
        Ok(())
    }

    /// Begins a session whose moment has come, at each of its places in turn. The orders that waited are stale.
    pub fn begin(
        &mut self,
        panel: &mut Panel,
        port: &mut Port,
        now: Moment,
    ) -> Result<(), Box<dyn Error>> {
        if !self.site.is_due(self.entry, now) {
            return Ok(());
        }
        while let Some(command) = panel.withdraw(self.entry)? {
            tell(format_args!("withdrawn {command}"))?;
            if command.code() == 0x6E {
                self.stands_at(self.stands[self.at].place())?;
            }
        }
        let places = &mut self.stands[self.at].places;
        places.rotate_left(1);
        let (address, rate) = places[places.len() - 1];
        if port.set_rate(rate).is_err() {
            tell(format_args!("no rate {rate}"))?;
        }
        panel.retarget(self.entry, address)?;
        self.site.act(panel, now)?;
        Ok(())
    }

    /// Does what a line says: `move 7 9600` gives the device another address and rate, if that goes out by a moment, and `accept` takes another device for it.
    /// Whether it says that.
    pub fn take_line(
        &mut self,
        panel: &mut Panel,
        line: &str,
        until: Moment,
    ) -> Result<bool, Box<dyn Error>> {
        let words: Vec<&str> = line.split_whitespace().collect();
        match (&words[..], self.other.take()) {
            (["accept"], Some((id, _))) => self.accept(id)?,
            (["move", address, rate], None)
                if self.may_order && self.stands[self.at].places.len() == 1 =>
            {
                let (Ok(address), Ok(rate)) = (address.parse(), rate.parse()) else {
                    return Ok(false);
                };
                let mut others = self
                    .stands
                    .iter()
                    .filter(|other| other.name != self.stands[self.at].name);
                if others.any(|other| other.may_be_at(address)) {
                    return Ok(false); // a device that is kept may be there
                }
                let Ok(comset) = Command::comset(address, rate) else {
                    return Ok(false);
                };
                if !RATES.contains(&rate) {
                    return Ok(false);
                }
                let place = self.stands[self.at].place();
                self.stands[self.at].places = vec![(address, rate), place];
                // before it goes out: it may be there from then on
                if !self.keep()? || panel.submit(self.entry, &comset, until).is_err() {
                    self.stands_at(place)?;
                    return Ok(false);
                }
            }
            (_, other) => {
                self.other = other;
                return Ok(false);
            }
        }
        Ok(true)
    }
}
