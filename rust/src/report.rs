//! What a panel tells of its devices.

use crate::fields::{PdId, Reply};
use crate::message::{Command, no_message};
use crate::numbered::numbered;
use crate::panel::EntryNumber;
use crate::sys;
use crate::time::Moment;

numbered! {
    /// Why a session was lost.
    pub enum LostCause {
        /// The packet was sent as often as `sends` says, and no reply came that answers it.
        NoReply = OSDP_LOST_NO_REPLY,
        /// The device answered BUSY more often than `busy_limit` allows.
        TooBusy = OSDP_LOST_TOO_BUSY,
        /// The device answered NAK 4: it didn't expect the sequence number. Mostly it has restarted.
        NumberRefused = OSDP_LOST_NUMBER_REFUSED,
    }
}

/// What a panel tells of one device, and of which order.
#[derive(Clone, Debug, PartialEq, Eq)]
#[non_exhaustive]
pub struct PanelReport {
    /// The device.
    pub entry: EntryNumber,
    /// The number of the order that it is about: the one that `Panel::submit` told. None where it is about none.
    pub number: Option<u64>,
    /// Of an event: the moment at which the POLL was first sent that it answers. The device offered the event no earlier. An order for a card lasts from then on:
    /// so no door opens later than that for it. None of all others.
    pub since: Option<Moment>,
    /// Whether it is an event that may have been reported before: it is the first of its session, and equal in all its bytes to the event of that device that was
    /// reported last. A lost session may lose the answer that carries an event, and the device sends the event again then. Make no second order of such an event
    /// within a time that you set. A panel that is made anew has forgotten what it reported, and marks no first event.
    pub maybe_again: bool,
    /// Whether a session was lost with an order that wasn't sent again, since its last moment had passed. What became of the order is unknown.
    pub too_late: bool,
    /// What happened.
    pub report: Report,
}

/// What happened. `docs/GUIDE.md` says what a panel's program does with each.
#[derive(Clone, Debug, PartialEq, Eq)]
#[non_exhaustive]
#[allow(clippy::large_enum_variant)]
pub enum Report {
    /// The session is open, and the device said what it is.
    Opened(PdId),
    /// The command was answered by the reply. Look at it: it may be a NAK, and then nothing was done.
    Settled(Command, Reply),
    /// The command, a COMSET, was answered by the reply, a `Reply::Com` with the same address. The device is at its new address, and the session has ended:
    /// begin it again. The device's rate is that of the reply, which may be another than was ordered.
    Moved(Command, Reply),
    /// The device told an event, which the reply carries. `since` and `maybe_again` say more of it.
    Event(Reply),
    /// A POLL was answered by a reply that is neither an ACK nor an event, such as a NAK.
    Answered(Reply),
    /// The answer to a command, or to a POLL where there is no command, can't be read. What became of the command is unknown, and it isn't sent again. The
    /// session goes on. An address that a COMSET reserved stays reserved until `Panel::retarget`.
    Unread {
        /// The command; none where a POLL was answered.
        command: Option<Command>,
        /// The code of the answer.
        code: u8,
    },
    /// The session has ended, for this reason. What became of the command, if there is one, is unknown, and it isn't sent again. If it is a COMSET, its address
    /// stays reserved until `Panel::retarget`. The commands that wait go out in the next session, each until its last moment.
    Lost(LostCause, Option<Command>),
    /// The last moment of the command passed while it waited: it was never sent, and it never will be. If it is a COMSET, its address is free.
    Expired(Command),
}

/// A report that the archive writes over.
pub(crate) fn no_report() -> sys::osdp_report {
    sys::osdp_report {
        entry: 0,
        number: 0,
        since: 0,
        kind: sys::OSDP_REPORT_NONE,
        detail: 0,
        numbered: 0,
        too_late: 0,
        command: no_message(),
        reply: no_message(),
    }
}

/// What happened, by its kind.
fn report_of(raw: &sys::osdp_report) -> Option<Report> {
    let command = Command::from_sys(&raw.command);
    let reply = Reply::from_sys(&raw.reply);
    Some(match raw.kind {
        sys::OSDP_REPORT_OPENED => match reply? {
            Reply::PdId(id) => Report::Opened(id),
            _ => return None,
        },
        sys::OSDP_REPORT_SETTLED => Report::Settled(command?, reply?),
        sys::OSDP_REPORT_MOVED => Report::Moved(command?, reply?),
        sys::OSDP_REPORT_EVENT => Report::Event(reply?),
        sys::OSDP_REPORT_ANSWERED => Report::Answered(reply?),
        sys::OSDP_REPORT_UNREAD => Report::Unread {
            command,
            code: raw.detail as u8,
        },
        sys::OSDP_REPORT_LOST => Report::Lost(LostCause::of(raw.detail)?, command),
        sys::OSDP_REPORT_EXPIRED => Report::Expired(command?),
        _ => return None,
    })
}

impl PanelReport {
    /// What the archive has written of a device; none where it told nothing.
    pub(crate) fn from_sys(entry: EntryNumber, raw: &sys::osdp_report) -> Option<PanelReport> {
        let is_event = raw.kind == sys::OSDP_REPORT_EVENT;
        Some(PanelReport {
            entry,
            number: (raw.numbered != 0).then_some(raw.number),
            since: is_event.then_some(Moment::from_millis(raw.since)),
            maybe_again: is_event && raw.detail == sys::OSDP_EVENT_MAYBE_AGAIN,
            too_late: raw.too_late != 0,
            report: report_of(raw)?,
        })
    }
}
