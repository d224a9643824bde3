//! A condition variable that counts its waiters.

use std::sync::atomic::{AtomicUsize, Ordering};
use std::sync::{Condvar, MutexGuard, PoisonError};
use std::time::Duration;

/// Wakes threads that wait for a change of what a lock guards. It makes no system call if none waits.
#[derive(Debug, Default)]
pub(crate) struct Notify {
    changed: Condvar,
    /// How many threads wait. Each counts itself before it releases the lock, so the next holder knows.
    waiting: AtomicUsize,
}

impl Notify {
    /// Releases the lock until the next `notify_all`, at most this long, or without a limit.
    pub(crate) fn wait<'a, T>(
        &self,
        guard: MutexGuard<'a, T>,
        limit: Option<Duration>,
    ) -> MutexGuard<'a, T> {
        self.waiting.fetch_add(1, Ordering::Relaxed);
        let guard = match limit {
            Some(limit) => {
                self.changed
                    .wait_timeout(guard, limit)
                    .unwrap_or_else(PoisonError::into_inner)
                    .0
            }
            None => self
                .changed
                .wait(guard)
                .unwrap_or_else(PoisonError::into_inner),
        };
        self.waiting.fetch_sub(1, Ordering::Relaxed);
        guard
    }

    /// Wakes all waiting threads. The caller has held the lock since the change.
    pub(crate) fn notify_all(&self) {
        if self.waiting.load(Ordering::Relaxed) > 0 {
            self.changed.notify_all();
        }
    }
}

#[cfg(test)]
mod tests {
    use super::Notify;
    use std::sync::atomic::Ordering;
    use std::sync::Mutex;
    use std::thread;
    use std::time::{Duration, Instant};

    /// How long a test waits for something.
    const PATIENCE: Duration = Duration::from_secs(10);

    #[test]
    fn each_that_waits_is_woken() {
        for count in [1, 2] {
            let (lock, signal) = (Mutex::new(()), Notify::default());
            thread::scope(|scope| {
                let wait = || {
                    let begun = Instant::now();
                    drop(signal.wait(lock.lock().unwrap(), Some(PATIENCE)));
                    begun.elapsed()
                };
                let waits: Vec<_> = (0..count).map(|_| scope.spawn(wait)).collect();
                while signal.waiting.load(Ordering::Relaxed) < count {
                    thread::yield_now();
                }
                drop(lock.lock().unwrap());
                signal.notify_all();
                for wait in waits {
                    assert!(wait.join().unwrap() < PATIENCE, "of {count}");
                }
            });
            assert_eq!(signal.waiting.load(Ordering::Relaxed), 0);
        }
    }

    #[test]
    fn a_wait_ends_at_its_limit() {
        let (lock, signal) = (Mutex::new(()), Notify::default());
        let begun = Instant::now();
        drop(signal.wait(lock.lock().unwrap(), Some(Duration::from_millis(1))));
        assert!(begun.elapsed() < PATIENCE);
    }
}
