//! What each maker of a panel writes above it: when sessions begin, since when devices are online, and the states that a device gets again where its session
//! opens anew. The words are those of the proved crate `osdp_site`, in Rattle. This is ordinary Rust over the calls of a panel.

use crate::error::Error;
use crate::fields::{Buzzer, Led, LedState, Output};
use crate::message::Command;
use crate::named::{led, output, tone};
use crate::panel::{EntryNumber, Panel};
use crate::report::{PanelReport, Report};
use crate::sys;
use crate::time::Moment;
use core::fmt;
use core::time::Duration;

/// How many states may be wanted of each device.
const ROOM: usize = 16;

/// From a session that has ended to the next one, where the program sets no other pause.
const PAUSE: Duration = Duration::from_secs(1);

/// Why a site refuses to want something. A refused call has changed nothing.
#[derive(Clone, Copy, Debug, PartialEq, Eq)]
#[non_exhaustive]
pub enum SiteError {
    /// The site has no such entry.
    NoEntry,
    /// As many states are wanted of the device as there is room for: 16.
    Full,
    /// The command is of several outputs or LEDs. Want each of them by a command of its own.
    Several,
    /// What the command says lasts for a time, so it is an order and no state. Give it by `Site::order`.
    Timed,
    /// The command says nothing that holds from then on, so it is no state.
    NoState,
    /// The command has more bytes than the panel has room for (`Panel::with_room`), so it would never go out.
    TooLong,
}

impl fmt::Display for SiteError {
    fn fmt(&self, f: &mut fmt::Formatter<'_>) -> fmt::Result {
        f.write_str(match self {
            SiteError::NoEntry => "there is no such device",
            SiteError::Full => "there is no room for another state",
            SiteError::Several => "several outputs or LEDs in one command",
            SiteError::Timed => "it lasts for a time, so it is an order",
            SiteError::NoState => "the command says no state",
            SiteError::TooLong => "the command is too long for the panel",
        })
    }
}

impl core::error::Error for SiteError {}

/// Whether a device is there, and from which moment on.
#[derive(Clone, Copy, Debug, PartialEq, Eq)]
pub enum Presence {
    /// Its session opened then, and is open.
    Online(Moment),
    /// Its session was lost then, or its device moved then, and no session has opened since. Or none ever has opened, and the site was made then.
    Offline(Moment),
}

impl Presence {
    /// Whether the device is online.
    pub fn is_online(self) -> bool {
        matches!(self, Presence::Online(_))
    }
}

/// The most data that a state has: those of the longest text.
const MOST_DATA: usize = 261;

/// A command that says a state.
#[derive(Clone, Copy)]
struct State {
    code: u8,
    length: u16,
    data: [u8; MOST_DATA],
}

impl State {
    const NONE: State = State {
        code: 0,
        length: 0,
        data: [0; MOST_DATA],
    };

    /// What a command says, or why it says no state.
    fn of(command: &Command) -> Result<State, SiteError> {
        judge(command)?;
        let bytes = command.data();
        let mut data = [0; MOST_DATA];
        data[..bytes.len()].copy_from_slice(bytes);
        let (code, length) = (command.code(), bytes.len() as u16);
        Ok(State { code, length, data })
    }

    /// Which output, LED, buzzer or text it is of: its numbers.
    fn subject(&self) -> [u8; 4] {
        let data = &self.data;
        match u32::from(self.code) {
            sys::OSDP_LED => [self.code, data[0], data[1], 0],
            sys::OSDP_TEXT => [self.code, data[0], data[3], data[4]],
            _ => [self.code, data[0], 0, 0],
        }
    }

    /// How many bytes its command has: its code and its data.
    fn size(&self) -> usize {
        1 + usize::from(self.length)
    }

    fn command(&self) -> Result<Command, Error> {
        Command::raw(self.code, &self.data[..usize::from(self.length)])
    }
}

/// Whether a command says a state, or why it says none.
fn judge(command: &Command) -> Result<(), SiteError> {
    let data = command.data();
    match (u32::from(command.code()), data) {
        (sys::OSDP_OUT, [_, control, _, _]) => match control {
            1..=4 => Ok(()),
            5 | 6 => Err(SiteError::Timed),
            _ => Err(SiteError::NoState),
        },
        (sys::OSDP_LED, [_, _, temporary, .., permanent, _, _, _, _]) if data.len() == 14 => {
            match (temporary, permanent) {
                (2.., _) => Err(SiteError::Timed),
                (_, 1) => Ok(()),
                _ => Err(SiteError::NoState),
            }
        }
        (sys::OSDP_OUT | sys::OSDP_LED, _) => Err(SiteError::Several),
        (sys::OSDP_BUZ, [_, tone, _, _, count]) => match (tone, count) {
            (0, _) => Err(SiteError::NoState),
            (2.., 1..) => Err(SiteError::Timed),
            _ => Ok(()),
        },
        (sys::OSDP_TEXT, [_, shown, ..]) => match shown {
            1 | 2 => Ok(()),
            3 | 4 => Err(SiteError::Timed),
            _ => Err(SiteError::NoState),
        },
        _ => Err(SiteError::NoState),
    }
}

/// What is kept of an entry.
#[derive(Clone, Copy)]
struct Place {
    wanted: [State; ROOM],
    count: usize,
    /// How many of these, from the first on, were submitted since the session opened.
    done: usize,
    presence: Presence,
    begins: Option<Moment>,
}

impl Place {
    /// A state is wanted, in place of the one of the same that was wanted before.
    fn wants(&mut self, state: State) -> Result<(), SiteError> {
        let is_same = |known: &State| known.subject() == state.subject();
        if let Some(at) = self.wanted[..self.count].iter().position(is_same) {
            self.wanted.copy_within(at + 1..self.count, at);
            self.count -= 1;
            self.done -= usize::from(at < self.done);
        }
        let free = self.wanted.get_mut(self.count).ok_or(SiteError::Full)?;
        *free = state;
        self.count += 1;
        Ok(())
    }

    /// What is wanted and not submitted yet goes to the panel, up to the first that it refuses. A state is never too late.
    fn refresh(&mut self, panel: &mut Panel, entry: EntryNumber) {
        for state in &self.wanted[self.done..self.count] {
            let command = state.command();
            match command.and_then(|it| panel.submit(entry, &it, Moment::NEVER)) {
                Ok(_) => self.done += 1,
                Err(_) => return,
            }
        }
    }

    /// Begins a session that is due, and submits what is wanted to a device that is online.
    fn act(&mut self, panel: &mut Panel, entry: EntryNumber, now: Moment) -> Result<(), Error> {
        if self.begins.is_some_and(|begins| begins <= now) {
            panel.on_bytes(&[], now)?; // a moment that the panel refuses takes no order back
            match panel.begin(entry, now) {
                Ok(()) => while panel.withdraw(entry)?.is_some() {},
                Err(Error::NotClosed) => {}
                refused => return refused,
            }
            self.begins = None;
        }
        if self.presence.is_online() {
            self.refresh(panel, entry);
        }
        Ok(())
    }
}

/// What a panel's program wants of its devices, and when their sessions begin. A site belongs to one panel, and `ENTRIES` is how many devices that panel has. A
/// site leaves further devices alone. Where the panel has fewer, the site is due all the time, so that `wait_until` never waits.
///
/// The program says once how an LED, an output, a buzzer or a text is to be. In each turn it waits, takes the moment, reads all that is there, and hands it to its
/// panel. Then it takes the reports by `Site::next_report`, and calls `act`. At last it calls `Panel::tick`, takes the moment anew, and writes the burst. A site
/// takes no memory of the heap.
pub struct Site<const ENTRIES: usize> {
    places: [Place; ENTRIES],
    pause: Duration,
    /// That of the panel.
    room: Option<usize>,
}

impl<const ENTRIES: usize> Site<ENTRIES> {
    /// A site over a panel, whose devices are all offline since this moment, and whose sessions are due. After a session has ended, the next one is due a second
    /// later. Make it before a session of its panel opens: a device whose session was open already counts as offline until its next one, and gets neither states
    /// nor orders.
    pub fn new(panel: &Panel, now: Moment) -> Site<ENTRIES> {
        let place = Place {
            wanted: [State::NONE; ROOM],
            count: 0,
            done: 0,
            presence: Presence::Offline(now),
            begins: Some(now),
        };
        Site {
            places: [place; ENTRIES],
            pause: PAUSE,
            room: panel.room,
        }
    }

    /// The same site with another pause from a session that has ended to the next one.
    pub fn with_pause(self, pause: Duration) -> Site<ENTRIES> {
        Site { pause, ..self }
    }

    fn place(&self, entry: EntryNumber) -> Option<&Place> {
        self.places.get(entry.index())
    }

    /// Says that a device is to be from now on as the command says: an OUT or LED of one record, a BUZ or a TEXT. That stands in place of what was wanted of
    /// the same output, LED, buzzer or text before. Where the device is online, the next `act` submits it. It is submitted once again after each opening of
    /// the session.
    ///
    /// # Errors
    ///
    /// `NoEntry`. `Several`. `Timed`: it lasts for a time, so it is an order; as a state, an OUT that opens a door for five seconds would open it again after
    /// each lost session. `NoState`: the command says nothing that holds from then on. `TooLong`: the panel would refuse it each time, so that it and all states
    /// after it would wait for ever. `Full`: 16 states are wanted of the device already.
    pub fn wants(&mut self, entry: EntryNumber, command: &Command) -> Result<(), SiteError> {
        let place = self.places.get_mut(entry.index());
        let place = place.ok_or(SiteError::NoEntry)?;
        let state = State::of(command)?;
        if self.room.is_some_and(|bytes| state.size() > bytes) {
            return Err(SiteError::TooLong);
        }
        place.wants(state)
    }

    /// Heeds a report of the panel, at the moment at which it came. Where the device has come online or gone offline by it, that is told, once. After a
    /// session that was lost, or whose device moved, the next one is due after the pause.
    pub fn heed(&mut self, entry: EntryNumber, report: &Report, now: Moment) -> Option<Presence> {
        let place = self.places.get_mut(entry.index())?;
        let presence = match report {
            Report::Opened(_) => {
                place.done = 0;
                Presence::Online(now)
            }
            Report::Moved(..) | Report::Lost(..) => {
                place.begins = Some(now + self.pause);
                Presence::Offline(now)
            }
            _ => return None,
        };
        if place.presence.is_online() == presence.is_online() {
            return None;
        }
        place.presence = presence;
        Some(presence)
    }

    /// Takes what is to be told, as `Panel::next_report` does, and heeds it. The second part is what `heed` tells.
    pub fn next_report(
        &mut self,
        panel: &mut Panel,
        now: Moment,
    ) -> Option<(PanelReport, Option<Presence>)> {
        let told = panel.next_report()?;
        let change = self.heed(told.entry, &told.report, now);
        Some((told, change))
    }

    /// Gives an order: a command that is submitted once, and may be sent until a moment. Tells its number. It isn't submitted, and there is no number, where the
    /// device is offline: it may come back at any time. So it is too where the panel has no room for the order (`Full`), and for a further device, which the site
    /// leaves alone.
    ///
    /// # Errors
    ///
    /// Those of `Panel::submit`, but not `Full`.
    pub fn order(
        &self,
        panel: &mut Panel,
        entry: EntryNumber,
        command: &Command,
        until: Moment,
    ) -> Result<Option<u64>, Error> {
        let presence = self.presence(entry);
        if !presence.is_some_and(Presence::is_online) {
            return Ok(None);
        }
        match panel.submit(entry, command, until) {
            Ok(number) => Ok(Some(number)),
            Err(Error::Full) => Ok(None),
            Err(error) => Err(error),
        }
    }

    /// The moment until which the program may wait for bytes: the earliest of when the site is due, when its panel is due, and `most`.
    pub fn wait_until(&self, panel: &Panel, most: Moment) -> Moment {
        let due = [self.next_deadline(), panel.next_deadline()];
        due.into_iter().flatten().fold(most, Moment::min)
    }

    /// Begins each session that is due. Before that it takes back the orders that wait for the device, since they are stale. A program that wants to know of
    /// them withdraws them itself before. Then, for each device that is online, what is wanted and wasn't submitted since the session opened goes to the
    /// panel, in the order in which it was wanted. Where the panel refuses one, as where its queue is full, that one and those after it are left for the next
    /// call: they wait for room that other commands take.
    ///
    /// # Errors
    ///
    /// `MomentTooFar`: the sessions are still due, and no order was taken back.
    pub fn act(&mut self, panel: &mut Panel, now: Moment) -> Result<(), Error> {
        for (entry, place) in panel.entries().zip(&mut self.places) {
            place.act(panel, entry, now)?;
        }
        Ok(())
    }

    /// The earliest moment at which a session is due, so that `act` begins it. None where no session is due, now or later.
    pub fn next_deadline(&self) -> Option<Moment> {
        self.places.iter().filter_map(|place| place.begins).min()
    }

    /// Whether a session of a device is due at a moment: the next `act` begins it. A program whose device may be elsewhere calls `Panel::retarget` and sets
    /// the rate of its port before that.
    pub fn is_due(&self, entry: EntryNumber, now: Moment) -> bool {
        let begins = self.place(entry).and_then(|place| place.begins);
        begins.is_some_and(|begins| begins <= now)
    }

    /// Whether a device is online, and since when. None where there is no such entry.
    pub fn presence(&self, entry: EntryNumber) -> Option<Presence> {
        Some(self.place(entry)?.presence)
    }

    /// Whether a device is online, and all that is wanted of it was submitted since its session opened. That it was answered isn't told.
    pub fn is_refreshed(&self, entry: EntryNumber) -> bool {
        self.place(entry)
            .is_some_and(|place| place.presence.is_online() && place.done == place.count)
    }
}

/// Commands as panels mostly give them. They are for the first LED and the buzzer of the first reader.
impl Command {
    /// An output, counted from 0, is to be on for so many tenths of a second: an order.
    ///
    /// # Errors
    ///
    /// None today.
    pub fn output_for(output: u8, tenths: u16) -> Result<Command, Error> {
        Command::out(&[Output {
            timer: tenths,
            output,
            control: output::ON_FOR_A_TIME,
        }])
    }

    /// The LED is to have a color (`named::color`) from now on: a state.
    ///
    /// # Errors
    ///
    /// None today.
    pub fn color(color: u8) -> Result<Command, Error> {
        Command::led(&[Led {
            permanent: shines(led::SET_PERMANENT, color),
            ..Led::default()
        }])
    }

    /// The LED is to have a color (`named::color`) for so many tenths of a second: an order.
    ///
    /// # Errors
    ///
    /// None today.
    pub fn color_for(color: u8, tenths: u16) -> Result<Command, Error> {
        Command::led(&[Led {
            timer: tenths,
            temporary: shines(led::SET_TEMPORARY, color),
            ..Led::default()
        }])
    }

    /// The buzzer is to sound, half a second on and half a second off, until another command comes; or, by false, it is to be silent. Both are states.
    pub fn sound(sounds: bool) -> Command {
        Command::buzzer(&Buzzer {
            reader: 0,
            tone: if sounds { tone::DEFAULT } else { tone::OFF },
            on_time: 5,
            off_time: 5,
            count: 0,
        })
    }
}

/// A state of an LED that shines.
fn shines(control: u8, color: u8) -> LedState {
    LedState {
        control,
        on_time: 1,
        off_time: 0,
        on_color: color,
        off_color: color,
    }
}
