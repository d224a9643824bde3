//! When something is due in a session.

use crate::machine::Machine;
use crate::moment::Moment;
use std::cell::Cell;
use std::time::Duration;

/// The longest time after a step in which nothing is due because of it.
const LONGEST_REST: Duration = Duration::from_millis(500);

/// The least limit of a call without one of its own: that of an attempt to connect.
const SHORTEST_PATIENCE: Duration = Duration::from_secs(1);

/// The fractions that a moment drops from an instant, and a limit from a duration: less than a millisecond each.
pub(super) const UNCOUNTED: Duration = Duration::from_nanos(1_999_999);

/// The moment that never comes.
pub(crate) const NEVER: Moment = Moment::from_millis(u64::MAX);

/// When something is due, as far as that is known. The machine is asked only if the time may have come.
#[derive(Default)]
pub(super) struct Deadline {
    /// Nothing is due before it.
    first: Cell<Moment>,
    /// Whether something is due at it.
    is_known: Cell<bool>,
    /// How long after a plain step nothing is due because of it, in milliseconds.
    rest: u64,
    /// How long a call without a limit of its own waits, in milliseconds.
    patience: u64,
}

impl Deadline {
    /// The deadline of a session with this timeout.
    pub(super) fn of(timeout: Duration) -> Deadline {
        let patience = timeout.max(SHORTEST_PATIENCE).saturating_add(UNCOUNTED);
        Deadline {
            rest: Moment::after(LONGEST_REST.min(timeout / 10)).as_millis(),
            patience: Moment::after(patience).as_millis(),
            ..Deadline::default()
        }
    }

    /// The limit of a call that is made now without one of its own: it waits for the timeout.
    pub(super) fn of_call(&self, now: Moment) -> Moment {
        Moment::from_millis(now.as_millis().saturating_add(self.patience))
    }

    /// A moment before which nothing is due. It is after `now`, unless something is due by then.
    #[inline]
    pub(super) fn at(&self, now: Moment, machine: &Machine) -> Moment {
        if self.first.get() <= now && !self.is_known.get() {
            self.learn(machine);
        }
        self.first.get()
    }

    #[cold]
    fn learn(&self, machine: &Machine) {
        self.first.set(machine.deadline().unwrap_or(NEVER));
        self.is_known.set(true);
    }

    /// Forgets all that is known, in a session with this timeout.
    #[cold]
    pub(super) fn forget(&mut self, timeout: Duration) {
        *self = Deadline::of(timeout);
    }

    /// Notes a step that led only to answers and frames: whatever these make due is due after a third of the timeout, a repeated call after
    /// a second, or later, and a call at its `limit`.
    pub(super) fn note_plain_step(&mut self, now: Moment, limit: Moment) {
        let rest = Moment::from_millis(now.as_millis().saturating_add(self.rest));
        let first = self.first.get().min(rest).min(limit);
        self.first.set(first);
        self.is_known.set(false);
    }
}

#[cfg(test)]
mod tests {
    use super::{Deadline, NEVER};
    use crate::machine::Machine;
    use crate::moment::Moment;
    use std::time::Duration;

    fn at(millis: u64) -> Moment {
        Moment::from_millis(millis)
    }

    #[test]
    fn the_machine_is_asked_where_the_moment_may_have_come() {
        let mut machine = Machine::open(Duration::from_secs(9), 1, 1).unwrap();
        let _ = machine.tick(at(1)).unwrap();
        let mut deadline = Deadline::default();
        deadline.forget(Duration::from_secs(9));
        assert_eq!(deadline.at(at(0), &machine), at(3_001)); // the attempt has a third of the timeout
        for (now, limit, first) in [
            (1, 900, 501),
            (100, NEVER.as_millis(), 501),
            (200, 400, 400),
        ] {
            deadline.note_plain_step(at(now), at(limit));
            assert_eq!(deadline.at(at(first - 1), &machine), at(first));
        }
        assert_eq!(deadline.at(at(400), &machine), at(3_001));
        deadline.forget(Duration::from_secs(1));
        assert_eq!(deadline.at(at(0), &machine), at(3_001));
        deadline.note_plain_step(at(10), NEVER);
        assert_eq!(deadline.at(at(109), &machine), at(110));
    }
}
