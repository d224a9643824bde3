//! How often a call is repeated.

use crate::error::Error;
use crate::fault::NoReply;
use crate::hosts::random;
use crate::request::Request;
use std::time::{Duration, Instant};

/// The longest pause before the first repetition. It doubles before each further one.
const FIRST_PAUSE: Duration = Duration::from_millis(100);

/// The longest pause of all.
const LONGEST_PAUSE: Duration = Duration::from_secs(1);

/// A random duration between half of this one and the whole, in milliseconds.
fn spread(longest: Duration, random: u64) -> Duration {
    let whole = u64::try_from(longest.as_millis()).unwrap_or(u64::MAX);
    let half = whole / 2;
    Duration::from_millis(half + random % (whole - half + 1))
}

/// How often a call is repeated that failed for a passing reason ([`Error::is_passing`](crate::Error::is_passing)).
///
/// Even without retries, a read that is lost with its connection is repeated within its limit. With them, a read is repeated after each
/// such error and, if the session renews itself, after an expiry. A write is repeated only if nothing has happened for sure: it was not
/// sent, or the server refused it. One that [may have happened](crate::Error::may_have_happened) is never repeated: its caller gets the
/// error.
///
/// ```
/// use dirwolleu::{Retry, SessionOptions};
/// use std::time::Duration;
///
/// let options = SessionOptions::new(Duration::from_secs(10)).retry(Retry::times(3));
/// ```
#[derive(Clone, Copy, Debug, Default, PartialEq, Eq, Hash)]
pub struct Retry {
    times: u32,
}

impl Retry {
    /// Makes each call once, which is the default.
    pub const fn never() -> Retry {
        Retry { times: 0 }
    }

    /// Repeats a call this often, after random pauses that grow up to a second.
    pub const fn times(times: u32) -> Retry {
        Retry { times }
    }

    /// The pauses before each repetition.
    pub(crate) fn pauses(self) -> impl Iterator<Item = Duration> {
        let longest = |time: u32| FIRST_PAUSE.saturating_mul(1 << time.min(8));
        (0..self.times).map(move |time| spread(longest(time).min(LONGEST_PAUSE), random()))
    }
}

/// Whether a call was not sent because the session has expired.
pub(crate) fn is_expired(error: &Error) -> bool {
    error.no_reply() == Some(NoReply::SessionExpired)
}

/// The session's default for calls that do not say otherwise.
#[derive(Clone, Copy, Default)]
pub(crate) struct Terms {
    pub(crate) retry: Retry,
    pub(crate) limit: Option<Duration>,
    /// Whether another session goes on after an expiry.
    pub(crate) renews: bool,
}

impl Terms {
    /// The tries of a call with this limit. A single try needs no look at the clock.
    pub(crate) fn tries(self, limit: Option<Duration>) -> Tries {
        let limit = limit.or(self.limit);
        let limit = limit.filter(|_| self.retry != Retry::never());
        Tries {
            renews: self.renews,
            until: limit.and_then(|limit| Instant::now().checked_add(limit)),
        }
    }
}

/// All tries of a call, within its limit.
#[derive(Clone, Copy)]
pub(crate) struct Tries {
    renews: bool,
    until: Option<Instant>,
}

impl Tries {
    /// What is left of the limit, if there is one.
    pub(crate) fn left(self) -> Option<Duration> {
        let left = |until: Instant| until.saturating_duration_since(Instant::now());
        self.until.map(left)
    }

    /// Whether to repeat a call after this error and this pause. After an expiry nothing was sent.
    pub(crate) fn goes_on<T>(self, request: &Request<T>, error: &Error, pause: Duration) -> bool {
        let is_over = self.left().is_some_and(|left| left <= pause);
        let is_safe = request.may_be_repeated(error) || self.renews && is_expired(error);
        is_safe && !is_over
    }
}

#[cfg(test)]
mod tests {
    use super::Retry;

    #[test]
    fn pauses_grow_up_to_a_second() {
        let pauses: Vec<_> = Retry::times(6).pauses().collect();
        for (pause, whole) in pauses.iter().zip([100, 200, 400, 800, 1_000, 1_000]) {
            assert!(
                (whole / 2..=whole).contains(&pause.as_millis()),
                "{pause:?}"
            );
        }
        assert_eq!((pauses.len(), Retry::never().pauses().count()), (6, 0));
    }
}
