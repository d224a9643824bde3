//! Moments, and a clock for them.

use std::time::{Duration, Instant};

/// A moment: milliseconds of a clock that never goes back, from any beginning.
///
/// A client only compares the moments that it gets with one another, and takes one below an earlier one for the earlier one.
///
/// ```
/// use dirwolleu::{Clock, Moment};
/// use std::time::Duration;
///
/// let due = Moment::from_millis(1_000).saturating_add(Duration::from_millis(500));
/// assert_eq!(due.as_millis(), 1_500);
/// assert!(Clock::start().now() < due);
/// ```
#[derive(Clone, Copy, Debug, Default, PartialEq, Eq, PartialOrd, Ord, Hash)]
pub struct Moment(u64);

/// Whole milliseconds, or the greatest number for a longer duration.
#[inline]
fn millis(duration: Duration) -> u64 {
    let seconds = duration.as_secs().saturating_mul(1_000);
    seconds.saturating_add(duration.subsec_millis().into())
}

impl Moment {
    /// The moment this many milliseconds after the clock's beginning.
    pub const fn from_millis(millis: u64) -> Moment {
        Moment(millis)
    }

    /// The moment this long after the clock's beginning, without parts of a millisecond.
    #[inline]
    pub(crate) fn after(passed: Duration) -> Moment {
        Moment(millis(passed))
    }

    /// How many milliseconds it is from the clock's beginning.
    #[inline]
    pub const fn as_millis(self) -> u64 {
        self.0
    }

    /// The moment this much later, in whole milliseconds, or the last one if it would be after that.
    #[must_use]
    pub fn saturating_add(self, duration: Duration) -> Moment {
        Moment(self.0.saturating_add(millis(duration)))
    }

    /// The moment a millisecond before it, or the first one if there is none.
    pub(crate) const fn before(self) -> Moment {
        Moment(self.0.saturating_sub(1))
    }

    /// How long it is after another moment: zero if it is not later.
    pub const fn saturating_duration_since(self, earlier: Moment) -> Duration {
        Duration::from_millis(self.0.saturating_sub(earlier.0))
    }
}

/// A clock of moments over [`Instant`], which begins at 0. On Linux it stands still while the machine is suspended. If a session has
/// expired meanwhile, only a server says so.
///
/// ```
/// use dirwolleu::{Clock, Machine};
/// use std::time::{Duration, Instant};
///
/// let clock = Clock::start();
/// let mut machine = Machine::open(Duration::from_secs(10), 1, 42)?;
/// let now = clock.now();
/// let _ = machine.tick(now)?;
/// let until = clock.moment_of(Instant::now() + Duration::from_secs(5));
/// assert!(until >= now.saturating_add(Duration::from_secs(5)));
/// # Ok::<(), dirwolleu::Fault>(())
/// ```
#[derive(Clone, Copy, Debug)]
pub struct Clock {
    beginning: Instant,
}

impl Clock {
    /// A clock that begins now.
    pub fn start() -> Clock {
        Clock {
            beginning: Instant::now(),
        }
    }

    /// The present moment, without parts of a millisecond.
    pub fn now(&self) -> Moment {
        Moment::after(self.passed())
    }

    /// How long ago it began.
    #[inline]
    pub(crate) fn passed(&self) -> Duration {
        Instant::now().saturating_duration_since(self.beginning)
    }

    /// The moment at an instant, without parts of a millisecond.
    pub(crate) fn at(&self, instant: Instant) -> Moment {
        Moment::after(instant.saturating_duration_since(self.beginning))
    }

    /// The first moment that is not before an instant.
    pub fn moment_of(&self, instant: Instant) -> Moment {
        let passed = instant.saturating_duration_since(self.beginning);
        Moment(millis(passed.saturating_add(Duration::from_nanos(999_999))))
    }
}
