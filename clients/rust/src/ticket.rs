//! Tickets for answers that are still to come.

use crate::answer::{Answer, Outcome};
use crate::error::{Error, ErrorKind, Search};
use crate::moment::{Clock, Moment};
use crate::notify::Notify;
use crate::request::LentCall;
use crate::stats::{CallKind, CallOutcome, Observation};
use std::borrow::Cow;
use std::fmt;
use std::future::Future;
use std::pin::Pin;
use std::sync::{Arc, Mutex, MutexGuard, PoisonError, Weak};
use std::task::{Context, Poll, Waker};
use std::time::{Duration, Instant};

/// The stage of a call.
#[derive(Debug, Default)]
struct Stage {
    /// Its outcome, from its answer until someone takes it.
    ending: Option<CallResult>,
    /// Whether the answer may be taken.
    is_told: bool,
    /// The waker of the last poll.
    waker: Option<Waker>,
}

impl Stage {
    /// Takes the answer, if that is allowed and nobody has taken it.
    fn take(&mut self) -> Option<CallResult> {
        if self.is_told {
            return self.ending.take();
        }
        None
    }
}

/// The outcome of a call.
pub(crate) type CallResult = Result<Answer, Error>;

/// What is noted of an outcome: the zxid of the answer, or why there is none.
pub(crate) type Ending<'a> = Result<i64, &'a ErrorKind>;

/// A call, with its node and its time.
#[derive(Debug)]
pub(crate) struct AskedCall<'a> {
    path: Cow<'a, str>,
    has_node: bool,
    kind: CallKind,
    clock: Clock,
    /// The clock's time when the call was made.
    at: Duration,
}

impl<'a> AskedCall<'a> {
    /// A call that is made now, at this path, by the clock of its session.
    #[inline]
    pub(crate) fn now(path: Cow<'a, str>, call: LentCall<'_>, clock: Clock) -> AskedCall<'a> {
        AskedCall {
            path,
            has_node: call.has_node(),
            kind: CallKind::of(call),
            clock,
            at: clock.passed(),
        }
    }

    /// The call's result with this outcome, after this search for a server if there was one.
    #[inline]
    pub(crate) fn ending(&self, outcome: Outcome, search: Option<&Search>) -> CallResult {
        match outcome {
            Ok(answer) => Ok(answer),
            Err(kind) => Err(self.error(kind, search)),
        }
    }

    /// The error of a call that fails like this, after that search.
    #[cold]
    pub(crate) fn error(&self, kind: ErrorKind, search: Option<&Search>) -> Error {
        let error = Error::about(self.node(), kind);
        match search {
            Some(search) => error.after(search, self.clock.passed().saturating_sub(self.at)),
            None => error,
        }
    }

    /// The kind of the call, its outcome, and the time since it was made, with the clock at `now`.
    #[inline]
    pub(crate) fn came(
        &self,
        ending: Ending<'_>,
        now: Duration,
    ) -> (CallKind, CallOutcome, Duration) {
        let outcome = match ending {
            Ok(_) => CallOutcome::Ok,
            Err(kind) => CallOutcome::of(kind),
        };
        (self.kind, outcome, now.saturating_sub(self.at))
    }

    /// The observation of the call.
    #[inline(never)]
    pub(crate) fn observed(&self, ending: Ending<'_>, now: Duration) -> Observation {
        let (kind, outcome, took) = self.came(ending, now);
        let path = self.node().map(String::from);
        let (code, zxid) = match ending {
            Ok(zxid) => (None, zxid),
            Err(ErrorKind::Server(code)) => (Some(*code), 0),
            Err(_) => (None, 0),
        };
        Observation::Answered {
            kind,
            path,
            outcome,
            code,
            zxid,
            took,
        }
    }

    pub(crate) fn path(&self) -> &str {
        &self.path
    }

    /// The path of the call's node. `None` if the call is about no node.
    fn node(&self) -> Option<&str> {
        self.has_node.then_some(self.path())
    }

    /// The clock's time when the call was made.
    pub(crate) fn at(&self) -> Duration {
        self.at
    }
}

/// The place for the answer to a call.
#[derive(Debug)]
pub(crate) struct Slot {
    call: AskedCall<'static>,
    stage: Mutex<Stage>,
    answered: Notify,
}

impl Slot {
    /// A place for the answer to a call that is made now, at this path, by the clock of its session.
    pub(crate) fn new(path: String, call: LentCall<'_>, clock: Clock) -> Arc<Slot> {
        Arc::new(Slot {
            call: AskedCall::now(path.into(), call, clock),
            stage: Mutex::default(),
            answered: Notify::default(),
        })
    }

    pub(crate) fn call(&self) -> &AskedCall<'static> {
        &self.call
    }

    fn stage(&self) -> MutexGuard<'_, Stage> {
        self.stage.lock().unwrap_or_else(PoisonError::into_inner)
    }

    /// Puts the answer there, after this search for a server if there was one. Nobody takes it before [`tell`](Slot::tell).
    pub(crate) fn put(&self, outcome: Outcome, search: Option<&Search>) {
        let ending = self.call.ending(outcome, search);
        self.stage().ending = Some(ending);
    }

    /// Looks at the answer that was put there and is not yet delivered.
    pub(crate) fn with_ending<R>(&self, look: impl FnOnce(Ending<'_>) -> R) -> Option<R> {
        let stage = self.stage();
        let ending = stage.ending.as_ref()?;
        Some(look(
            ending.as_ref().map(|found| found.zxid).map_err(Error::kind),
        ))
    }

    /// Delivers the answer: wakes whoever waits for it.
    pub(crate) fn tell(&self) {
        let mut stage = self.stage();
        stage.is_told = true;
        let waker = stage.waker.take();
        drop(stage);
        self.answered.notify_all();
        if let Some(waker) = waker {
            waker.wake();
        }
    }

    pub(crate) fn answered(&self) -> bool {
        self.stage().is_told
    }

    /// Takes the answer, if it is delivered and nobody has taken it.
    pub(crate) fn take(&self) -> Option<CallResult> {
        self.stage().take()
    }

    /// Takes the answer once it is delivered. `None` if it is not by this instant.
    pub(crate) fn wait(&self, until: Option<Instant>) -> Option<CallResult> {
        let mut stage = self.stage();
        loop {
            if let Some(ending) = stage.take() {
                return Some(ending);
            }
            let left = match until {
                Some(until) => Some(until.checked_duration_since(Instant::now())?),
                None => None,
            };
            stage = self.answered.wait(stage, left);
        }
    }

    fn poll(&self, context: &Context<'_>) -> Poll<CallResult> {
        let mut stage = self.stage();
        if let Some(ending) = stage.take() {
            return Poll::Ready(ending);
        }
        assert!(!stage.is_told, "a ticket is polled after its answer");
        stage.waker = Some(context.waker().clone());
        Poll::Pending
    }
}

/// How long to wait for a call before asking its session again, which is late to notice its limit.
const BETWEEN_LOOKS: Duration = Duration::from_millis(10);

/// Ends calls that have reached their limit.
pub(crate) trait ExpireCalls: Send + Sync {
    /// Notes that a call has reached its limit, this moment.
    fn expire_calls(&self, limit: Moment);
}

/// The moment until which a call waits, by the clock of its session.
pub(crate) struct CallLimit {
    pub(crate) moment: Moment,
    pub(crate) clock: Clock,
    pub(crate) session: Weak<dyn ExpireCalls>,
}

impl CallLimit {
    /// The limit, or a moment soon if it has come.
    fn next(&self) -> Option<Instant> {
        let now = Instant::now();
        let left = self.moment.saturating_duration_since(self.clock.at(now));
        now.checked_add(left.max(BETWEEN_LOOKS))
    }

    /// Makes the session end the calls that are late.
    fn expire(&self) {
        if let Some(session) = self.session.upgrade() {
            session.expire_calls(self.moment);
        }
    }
}

/// A ticket for the answer to a call, from [`Session::ask`](crate::Session::ask).
///
/// The call is on its way, or waits for a connection; it happens even if the ticket is dropped. Each ticket gets its answer: a reply, an
/// error, or the loss when the connection ends, as its session says.
///
/// A ticket is also a future, for any runtime: its session's thread wakes whoever awaits it. That thread may notice the limit of a call
/// late, by at most a third of the timeout and by an attempt to connect; [`wait`](Ticket::wait) does not depend on it.
///
/// ```no_run
/// use dirwolleu::{Request, Session};
/// # use std::time::Duration;
///
/// # async fn of_any_runtime() -> Result<(), Box<dyn std::error::Error>> {
/// # let session = Session::open("127.0.0.1:2181", Duration::from_secs(10))?;
/// let ticket = session.ask(Request::get("/a"));
/// let node = ticket.await?;
/// # Ok(())
/// # }
/// ```
#[must_use = "the answer comes by the ticket"]
pub struct Ticket<T> {
    slot: Arc<Slot>,
    read: fn(CallResult) -> Result<T, Error>,
    limit: CallLimit,
}

impl<T> Ticket<T> {
    pub(crate) fn new(
        slot: Arc<Slot>,
        read: fn(CallResult) -> Result<T, Error>,
        limit: CallLimit,
    ) -> Ticket<T> {
        Ticket { slot, read, limit }
    }

    /// Waits for the answer, or until the call reaches its limit.
    ///
    /// # Errors
    ///
    /// Those of [`Session::call`](crate::Session::call).
    pub fn wait(self) -> Result<T, Error> {
        let ending = self.ending(None);
        (self.read)(ending)
    }

    /// Waits for the answer, at most this long. The call itself goes on, to its own limit: [`Request::within`](crate::Request::within) sets
    /// that.
    ///
    /// # Errors
    ///
    /// As [`wait`](Ticket::wait), and [`ErrorKind::TimedOut`] if no answer has come: the call may still happen.
    pub fn wait_for(self, limit: Duration) -> Result<T, Error> {
        let ending = self.ending(Instant::now().checked_add(limit));
        (self.read)(ending)
    }

    /// The outcome of the call, or a timeout if there is none by this instant.
    fn ending(&self, until: Option<Instant>) -> CallResult {
        loop {
            if let Some(ending) = self.slot.take() {
                return ending; // without a look at the clock
            }
            let next = self.limit.next().into_iter().chain(until).min();
            if let Some(ending) = self.slot.wait(next) {
                return ending;
            }
            if until.is_some_and(|until| until <= Instant::now()) {
                return self.slot.call.ending(Err(ErrorKind::TimedOut), None);
            }
            self.limit.expire();
        }
    }

    /// Whether the answer is there, so that [`wait`](Ticket::wait) does not block.
    pub fn is_answered(&self) -> bool {
        self.slot.answered()
    }
}

impl<T> Future for Ticket<T> {
    type Output = Result<T, Error>;

    /// # Panics
    ///
    /// If polled again after its answer.
    fn poll(self: Pin<&mut Self>, context: &mut Context<'_>) -> Poll<Result<T, Error>> {
        self.slot.poll(context).map(self.read)
    }
}

impl<T> fmt::Debug for Ticket<T> {
    fn fmt(&self, f: &mut fmt::Formatter<'_>) -> fmt::Result {
        f.debug_struct("Ticket")
            .field("is_answered", &self.is_answered())
            .finish_non_exhaustive()
    }
}
