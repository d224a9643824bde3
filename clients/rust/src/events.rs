//! The events of a session, and their stream.

use crate::engine::Engine;
use crate::fault::Fault;
use crate::machine::State;
use crate::node::{NodeEvent, Side};
use crate::output::Cause;
use crate::shared::{Poller, Shared};
use std::fmt;
use std::sync::Arc;
use std::task::{Context, Poll};

/// An event of a session: a change that no call asked for.
///
/// ```no_run
/// use dirwolleu::{Event, Session, State};
/// use std::time::Duration;
///
/// # fn main() -> Result<(), Box<dyn std::error::Error>> {
/// let session = Session::open("127.0.0.1:2181", Duration::from_secs(10))?;
/// while let Some(event) = session.next_event(None)? {
///     match event {
///         Event::State(State::Expired) => session.renew()?,
///         Event::Report { path, .. } => println!("{path} is to be read again"),
///         other => println!("{other:?}"),
///     }
/// }
/// # Ok(())
/// # }
/// ```
#[derive(Clone, Debug, PartialEq, Eq)]
#[non_exhaustive]
pub enum Event {
    /// The state has changed.
    State(State),
    /// A watch has fired: the kept answer of this side of the path is stale. Read it again, with a watch.
    Report {
        /// The path that was watched.
        path: String,
        /// The side that was watched.
        side: Side,
        /// The change.
        event: NodeEvent,
    },
    /// A server has refused the session's credentials, and the session is over: see [`SessionOptions::auth`](crate::SessionOptions::auth).
    CredentialsRefused,
    /// The session has given a connection up, and dials the next one.
    Dropped {
        /// Why.
        cause: Cause,
        /// Why, in words.
        words: String,
    },
    /// A [`LocalLock`](crate::LocalLock) has changed: look at its [`held`](crate::LocalLock::held).
    LockChanged {
        /// The path of the lock.
        path: String,
    },
    /// This many events are lost, the oldest, since at most 1,024 wait. Those that wait come next. Marks are right all the same: look up
    /// the session's state, and the kept answers of the paths that you watch.
    Missed(u64),
}

/// The events of a session, from [`Session::events`](crate::Session::events): a stream for any runtime. It keeps the waker of its last poll
/// until it is dropped.
#[must_use = "it tells nothing before it is polled"]
pub struct Events {
    shared: Arc<Shared>,
    poller: Poller,
}

impl Events {
    pub(crate) fn new(shared: &Arc<Shared>) -> Events {
        Events {
            shared: Arc::clone(shared),
            poller: shared.poller(),
        }
    }

    /// The next event, as [`Session::next_event`](crate::Session::next_event); `None` once the session has expired or is closed and no
    /// event waits. If none waits, the session's thread wakes the waker of this context when there may be one, so this works with any
    /// runtime, or with none.
    ///
    /// ```no_run
    /// use dirwolleu::{Fault, Session};
    /// use std::future::poll_fn;
    ///
    /// /// Prints what happens to a session, until it is over.
    /// async fn tell(session: &Session) -> Result<(), Fault> {
    ///     let mut events = session.events();
    ///     while let Some(event) = poll_fn(|context| events.poll_next(context)).await {
    ///         println!("{:?}", event?);
    ///     }
    ///     Ok(())
    /// }
    /// ```
    ///
    /// # Errors
    ///
    /// As [`next_event`](crate::Session::next_event).
    pub fn poll_next(&mut self, context: &mut Context<'_>) -> Poll<Option<Result<Event, Fault>>> {
        self.poller.poll(context, next_of)
    }
}

/// The next waiting event, or the end if the session is over.
fn next_of(engine: &mut Engine) -> Poll<Option<Result<Event, Fault>>> {
    if let Some(event) = engine.next_event() {
        return Poll::Ready(Some(Ok(event)));
    }
    match engine.halt() {
        Err(fault) => Poll::Ready(Some(Err(fault))),
        Ok(()) if engine.is_over() => Poll::Ready(None),
        Ok(()) => Poll::Pending,
    }
}

impl fmt::Debug for Events {
    fn fmt(&self, f: &mut fmt::Formatter<'_>) -> fmt::Result {
        let state = self.shared.look(|engine| engine.machine().state());
        f.debug_struct("Events")
            .field("state", &state)
            .finish_non_exhaustive()
    }
}
