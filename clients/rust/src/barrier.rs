//! A barrier. Tested, not proved.

use crate::cache::Mark;
use crate::error::Error;
use crate::fault::Code;
use crate::node::ANY_VERSION;
use crate::request::Request;
use crate::session::Session;
use std::time::{Duration, Instant};

/// A barrier, as kazoo's `Barrier`: clients wait while its node is there.
///
/// ```no_run
/// use dirwolleu::{Barrier, Session};
/// use std::time::Duration;
///
/// # fn main() -> Result<(), Box<dyn std::error::Error>> {
/// let session = Session::open("127.0.0.1:2181", Duration::from_secs(10))?;
/// let barrier = Barrier::new(&session, "/migration");
/// barrier.put_up()?;
/// // those who call `barrier.wait()` wait until this
/// barrier.remove()?;
/// # Ok(())
/// # }
/// ```
#[derive(Clone, Debug)]
pub struct Barrier<'a> {
    session: &'a Session,
    path: String,
}

impl<'a> Barrier<'a> {
    /// The barrier at this node.
    #[must_use]
    pub fn new(session: &'a Session, path: &str) -> Barrier<'a> {
        Barrier {
            session,
            path: String::from(path),
        }
    }

    /// Puts the barrier up, unless it is up. Missing parents are created.
    ///
    /// # Errors
    ///
    /// As [`Session::ensure_path`].
    pub fn put_up(&self) -> Result<(), Error> {
        self.session.ensure_path(&self.path)
    }

    /// Takes the barrier away, and returns whether it was there. If an answer was lost, it may have been.
    ///
    /// # Errors
    ///
    /// As [`Session::delete`].
    pub fn remove(&self) -> Result<bool, Error> {
        let delete = || self.session.call(Request::delete(&self.path, ANY_VERSION));
        let deleted = match delete() {
            Err(error) if error.may_have_happened() => delete(),
            deleted => deleted,
        };
        match deleted {
            Err(error) if error.code() == Some(Code::NO_NODE) => Ok(false),
            deleted => deleted.map(|()| true),
        }
    }

    /// Waits until there is no barrier. It outlives lost connections and, in a session that renews itself, expired sessions.
    ///
    /// # Errors
    ///
    /// An error of a read that trying again will not mend.
    pub fn wait(&self) -> Result<(), Error> {
        self.wait_until(None).map(drop)
    }

    /// The same, at most this long. Returns whether the barrier is gone.
    ///
    /// # Errors
    ///
    /// As [`wait`](Barrier::wait).
    pub fn wait_within(&self, limit: Duration) -> Result<bool, Error> {
        self.wait_until(Instant::now().checked_add(limit))
    }

    fn wait_until(&self, until: Option<Instant>) -> Result<bool, Error> {
        let is_past = || until.is_some_and(|until| until <= Instant::now());
        loop {
            let read = Request::exists(&self.path).watched();
            match self.session.call(read.until(until)) {
                Ok(None) => return Ok(true),
                Err(error) if !error.is_passing() && !self.session.lives_through(&error) => {
                    return Err(error)
                }
                _ if is_past() => return Ok(false),
                Ok(Some(_)) => {
                    let is_good = Ok(Some(Mark::Good));
                    let is_there = |mark| mark == is_good;
                    self.session
                        .wait_until(until, |view| is_there(view.data_mark(&self.path)));
                }
                Err(_) => {}
            }
        }
    }
}
