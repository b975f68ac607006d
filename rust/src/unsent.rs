//! What a tick has its program send.

use crate::error::Error;
use crate::message::{Burst, no_burst};
use crate::panel::Panel;
use crate::time::Moment;

/// That a burst of a panel is to go out, or that none is: `write` gives its bytes. It borrows the panel: before that no other call of it compiles. The compiler
/// warns where it isn't used at all. It doesn't warn where it is dropped by `let _ =`, by `..` in a pattern, or by an early return: then the burst is lost.
#[must_use = "its burst goes out before the next call: `write` gives the bytes"]
#[derive(Debug)]
pub struct Unsent<'a> {
    panel: &'a mut Panel,
    is_one: bool,
}

impl<'a> Unsent<'a> {
    pub(crate) fn new(panel: &'a mut Panel, is_one: bool) -> Unsent<'a> {
        Unsent { panel, is_one }
    }

    /// Whether a burst is to go out.
    pub fn is_one(&self) -> bool {
        self.is_one
    }

    /// The bytes that go out at a moment, which is taken just before they are written. They are empty where none are to go out, and where the last moment of their
    /// order has passed since the tick. Such a burst was lost on the line, and what becomes of its order is in doubt: the panel sends its packet again after
    /// `reply_wait`, if it isn't an order that is too late, or loses the session.
    ///
    /// # Errors
    ///
    /// `MomentTooFar`: the burst is lost as well.
    pub fn write(self, now: Moment) -> Result<Burst<'a>, Error> {
        if !self.is_one {
            return Ok(Burst::from_sys(&no_burst()));
        }
        self.panel.burst_at(now)
    }
}
