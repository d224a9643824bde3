//! A lock of a session without a thread: a contender of its machine, like each lock.

use crate::contention::Naming;
use crate::engine::Engine;
use crate::error::Error;
use crate::fault::NoReply;
use crate::local_session::LocalSession;
use crate::lock::LockOptions;
use crate::shared::Shared;
use crate::view::View;
use std::fmt;
use std::sync::{Arc, Weak};
use std::time::Duration;

/// A lock of a [`LocalSession`], from [`LocalSession::contend`] until it is released or lost. It does not borrow the session, and goes on
/// only within the session's functions. [`Event::LockChanged`](crate::Event::LockChanged) says when to look at it again. Otherwise it is a
/// [`Lock`](crate::Lock).
///
/// *Held* means that this lock came first at the last zxid the session has seen. Without a connection it stays so, and while the program
/// does not come to its session, although another one may hold by now. So ask [`check`](LocalLock::check) before each part of the work, and
/// pass the token with each request to the protected resource, which refuses any token below the greatest it has seen.
///
/// A lock that is lost after it was held gives up by itself, and so does one whose [`held`](LocalLock::held) fails: contend again. Dropping
/// the lock gives it up, too, without waiting: within its functions the session deletes the lock's node, on as many connections as it
/// takes, until no node is left or the session is over.
///
/// ```no_run
/// use dirwolleu::{LocalSession, LockOptions};
/// use std::time::{Duration, Instant};
///
/// # fn store(token: i64) {}
/// # fn main() -> Result<(), Box<dyn std::error::Error>> {
/// let mut session = LocalSession::open("127.0.0.1:2181", Duration::from_secs(10))?;
/// let lock = session.contend("/locks/ledger", LockOptions::new().data(b"host-1"))?;
/// loop {
///     // a part of the work, and then:
///     session.next_event(Some(Instant::now() + Duration::from_secs(3)))?;
///     match lock.held()? {
///         Some(token) if lock.check(Duration::from_secs(5)) => store(token),
///         _ => println!("another one may hold it"),
///     }
/// }
/// # }
/// ```
#[must_use = "to drop it gives it up"]
pub struct LocalLock {
    session: Weak<Shared>,
    ticket: u64,
    path: String,
}

impl LocalLock {
    /// Contends with this naming.
    pub(crate) fn by(
        naming: Naming,
        session: &Arc<Shared>,
        path: &str,
        options: LockOptions<'_>,
    ) -> Result<LocalLock, Error> {
        let joined = session.with(|engine| options.join(engine, naming, path, true));
        let ticket = joined.map_err(|kind| Error::about(Some(path), kind))?;
        Ok(LocalLock {
            session: Arc::downgrade(session),
            ticket,
            path: String::from(path),
        })
    }

    /// Looks at the engine, if its session still exists.
    fn look<R>(&self, look: impl FnOnce(&mut Engine) -> R) -> Option<R> {
        let session = self.session.upgrade()?;
        Some(session.note(look))
    }

    /// The path of the lock.
    pub fn path(&self) -> &str {
        &self.path
    }

    /// The token with which the lock is held at the [last zxid](LocalSession::last_zxid), or `None` while it waits: the zxid that created
    /// its place. Each later holder has a greater one. Sends nothing.
    ///
    /// # Errors
    ///
    /// Why it gave up: [`ErrorKind::LockLost`](crate::ErrorKind::LockLost), [`ErrorKind::MixedNames`](crate::ErrorKind::MixedNames) if a
    /// place has other names, [`ErrorKind::NumbersUsedUp`](crate::ErrorKind::NumbersUsedUp), an error of a call that trying again will not
    /// mend, and why the session is over.
    pub fn held(&self) -> Result<Option<i64>, Error> {
        let held = self.look(|engine| engine.look_for_token(self.ticket));
        let held = held.unwrap_or(Err(NoReply::SessionClosed.into()));
        held.map_err(|kind| {
            self.give_up();
            Error::about(Some(&self.path), kind)
        })
    }

    /// Whether the lock is held at the last zxid and a server was heard within this time. Sends nothing.
    #[must_use]
    pub fn check(&self, within: Duration) -> bool {
        let checked = self.look(|engine| {
            let is_heard = View::of(engine).is_heard_within(within);
            is_heard && matches!(engine.look_for_token(self.ticket), Ok(Some(_)))
        });
        checked.unwrap_or(false)
    }

    /// Whether another contender is known to be before it. Sends nothing.
    #[must_use]
    pub fn is_behind(&self) -> bool {
        self.look(|engine| engine.is_behind(self.ticket))
            .unwrap_or(false)
    }

    /// The path of its place, or `None` if that is not known. [`exists`](LocalSession::exists) of it asks a server.
    #[must_use]
    pub fn place(&self) -> Option<String> {
        self.look(|engine| engine.place(self.ticket)).flatten()
    }

    fn give_up(&self) {
        if let Some(session) = self.session.upgrade() {
            session.with(|engine| engine.give_up(self.ticket));
        }
    }

    /// Releases this session's lock, or its place in the line, and waits until its node is gone, at most twice the session's timeout.
    /// Dropping the lock does not wait.
    ///
    /// # Errors
    ///
    /// As [`Lock::release`](crate::Lock::release).
    pub fn release(self, session: &mut LocalSession) -> Result<(), Error> {
        let place = self.place();
        self.give_up();
        let is_leaving = || self.look(|engine| engine.is_leaving(self.ticket));
        session.go_on_while(session.timeout() * 2, || is_leaving() == Some(true))?;
        let fault = self.look(|engine| engine.fault_of_leaving(self.ticket));
        match fault.unwrap_or(Some(NoReply::SessionClosed.into())) {
            Some(kind) => Err(Error::about(place.as_deref(), kind)),
            None => Ok(()),
        }
    }
}

impl Drop for LocalLock {
    fn drop(&mut self) {
        self.give_up();
    }
}

impl fmt::Debug for LocalLock {
    fn fmt(&self, f: &mut fmt::Formatter<'_>) -> fmt::Result {
        f.debug_struct("LocalLock")
            .field("path", &self.path)
            .finish_non_exhaustive()
    }
}
