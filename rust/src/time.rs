//! Moments.

use core::time::Duration;

/// A moment: how many whole milliseconds it lies after a beginning, which the program chooses once, by a clock that doesn't go backwards.
///
/// With `std` it is `Moment::after(started.elapsed())`, where `started` is the `Instant` at which the program began. An `Instant` of Linux stands still while the
/// computer sleeps, and a card from before is no old one then: `examples/port` takes a clock that goes on.
#[derive(Clone, Copy, Debug, PartialEq, Eq, PartialOrd, Ord, Hash)]
pub struct Moment(u64);

impl Moment {
    /// The last moment of an order that is never too late.
    pub const NEVER: Moment = Moment(u64::MAX);

    /// The moment that lies so many milliseconds after the beginning.
    pub const fn from_millis(milliseconds: u64) -> Moment {
        Moment(milliseconds)
    }

    /// The moment that lies so long after the beginning. What is left over of a millisecond is cut off.
    pub fn after(time: Duration) -> Moment {
        Moment(u64::try_from(time.as_millis()).unwrap_or(u64::MAX))
    }

    /// How many milliseconds after the beginning it lies.
    pub const fn as_millis(self) -> u64 {
        self.0
    }

    /// How long after an earlier moment it lies. No time where that moment isn't earlier.
    pub const fn since(self, earlier: Moment) -> Duration {
        Duration::from_millis(self.0.saturating_sub(earlier.0))
    }
}

impl core::ops::Add<Duration> for Moment {
    type Output = Moment;

    fn add(self, time: Duration) -> Moment {
        Moment(self.0.saturating_add(Moment::after(time).0))
    }
}
