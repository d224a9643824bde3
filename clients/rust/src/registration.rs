//! A node that shows that a process is running. Tested, not proved.

use crate::cache::Mark;
use crate::error::Error;
use crate::fault::{Code, NoReply};
use crate::node::{Mode, ANY_VERSION};
use crate::request::Request;
use crate::session::SharedSession;
use crate::view::View;
use std::io;
use std::sync::atomic::{AtomicBool, Ordering};
use std::sync::Arc;
use std::thread::{Builder, JoinHandle};
use std::time::{Duration, Instant};

/// The pause after a refusal that may pass, before the next try.
const BETWEEN_REFUSALS: Duration = Duration::from_secs(1);

/// A registration: an ephemeral node with these data, which a thread creates, and creates again if it is gone, for example with a session
/// that has [renewed](crate::SessionOptions::renews) itself. It ends with [`end`](Registration::end), when this is dropped, or when the
/// session is over.
///
/// If a process restarts before its old session has expired, that session's node is still there: the registration waits until it is gone.
///
/// ```no_run
/// use dirwolleu::{Registration, SessionOptions};
/// use std::time::Duration;
///
/// # fn main() -> Result<(), Box<dyn std::error::Error>> {
/// let session = SessionOptions::new(Duration::from_secs(10)).renews(true).open("127.0.0.1:2181")?.shared();
/// let registration = Registration::begin(&session, "/workers/host-1", b"10.0.0.7:80")?;
/// // the node is there while this process works
/// registration.end()?;
/// # Ok(())
/// # }
/// ```
#[derive(Debug)]
#[must_use = "to drop it gives the registration up"]
pub struct Registration {
    registrar: Registrar,
    thread: Option<JoinHandle<Result<(), Error>>>,
}

/// What a registration's thread owns.
#[derive(Clone, Debug)]
struct Registrar {
    session: SharedSession,
    path: String,
    data: Vec<u8>,
    is_over: Arc<AtomicBool>,
}

impl Registration {
    /// Begins to register. The parent must exist.
    ///
    /// # Errors
    ///
    /// The system made no thread.
    pub fn begin(session: &SharedSession, path: &str, data: &[u8]) -> io::Result<Registration> {
        let registrar = Registrar {
            session: session.clone(),
            path: String::from(path),
            data: data.to_vec(),
            is_over: Arc::default(),
        };
        let kept = registrar.clone();
        let thread = Builder::new().name(String::from("dirwolleu"));
        let thread = Some(thread.spawn(move || kept.keep())?);
        Ok(Registration { registrar, thread })
    }

    /// Whether the node is there and belongs to this session, as far as the session knows.
    #[must_use]
    pub fn is_registered(&self) -> bool {
        self.registrar
            .session
            .view(|view| self.registrar.is_mine(view))
    }

    /// Ends the registration, and deletes the node if it belongs to this session.
    ///
    /// # Errors
    ///
    /// Why the node could not be kept, or not be deleted. It goes with the session at the latest.
    pub fn end(mut self) -> Result<(), Error> {
        self.registrar.stop();
        let thread = self.thread.take();
        let ended = thread.map(JoinHandle::join);
        ended.and_then(Result::ok).unwrap_or(Ok(()))
    }
}

impl Drop for Registration {
    fn drop(&mut self) {
        self.registrar.stop();
    }
}

impl Registrar {
    fn stop(&self) {
        self.is_over.store(true, Ordering::SeqCst);
        self.session.wake();
    }

    fn is_over(&self) -> bool {
        self.is_over.load(Ordering::SeqCst)
    }

    /// Whether the kept node is there and belongs to this session.
    fn is_mine(&self, view: View<'_>) -> bool {
        let is_good = matches!(view.data_mark(&self.path), Ok(Some(Mark::Good)));
        let owner = view.owner(&self.path);
        is_good && owner.is_some() && owner == view.id().ok()
    }

    /// Keeps the node there until the registration is over.
    fn keep(&self) -> Result<(), Error> {
        loop {
            let went = self.go_on();
            match went {
                _ if self.is_over() => return self.give_up(),
                Err(error) if error.no_reply() == Some(NoReply::SessionClosed) => return Ok(()),
                Err(error) if !error.is_passing() => return Err(error),
                Err(error) if error.code().is_some() => self.rest(),
                Ok(()) | Err(_) => {}
            }
        }
    }

    /// Waits a while after a refusal that may pass.
    fn rest(&self) {
        let until = Instant::now().checked_add(BETWEEN_REFUSALS);
        self.session.wait_until(until, |_| !self.is_over());
    }

    /// Creates the node if it is missing, else waits until it changes.
    fn go_on(&self) -> Result<(), Error> {
        if self.session.watch(&self.path)?.is_none() {
            let made = self.session.create(&self.path, &self.data, Mode::Ephemeral);
            return match made {
                Ok(_) => Ok(()),
                Err(error) if error.code() == Some(Code::NODE_EXISTS) => Ok(()),
                Err(error) => Err(error),
            };
        }
        let is_same = |view: View<'_>| matches!(view.data_mark(&self.path), Ok(Some(Mark::Good)));
        self.session
            .wait_until(None, |view| !self.is_over() && is_same(view));
        Ok(())
    }

    /// Deletes the node if it belongs to this session. The kept answer may be older than the node.
    fn give_up(&self) -> Result<(), Error> {
        if self.session.data_mark(&self.path)? != Some(Mark::Good) {
            match self.session.watch(&self.path) {
                Err(error) if error.is_of_end() => return Ok(()),
                Err(error) => return Err(error),
                Ok(_) => {}
            }
        }
        if !self.session.view(|view| self.is_mine(view)) {
            return Ok(());
        }
        match self.session.call(Request::delete(&self.path, ANY_VERSION)) {
            Ok(()) => Ok(()),
            Err(error) if error.code() == Some(Code::NO_NODE) => Ok(()),
            Err(error) => Err(error),
        }
    }
}
