//! How to open a session.

use crate::connection::{Dial, Tcp};
use crate::credentials::Credential;
use crate::driver::Driver;
use crate::engine::{Engine, EngineOptions};
use crate::error::Error;
use crate::fault::Fault;
use crate::hosts::{DialOrder, Hosts, HostsFault};
use crate::local_session::LocalSession;
use crate::machine::Limits;
use crate::outbox::Writer;
use crate::recording::Recorder;
use crate::retry::{Retry, Terms};
use crate::sasl::{Begin, LogIn, LoggingIn};
use crate::saved::SavedSession;
use crate::session::Session;
use crate::shared::Shared;
use crate::stats::{Observation, Observer};
use std::convert::Infallible;
use std::error;
use std::fmt;
use std::io;
use std::path::PathBuf;
use std::sync::Arc;
use std::time::Duration;

/// Why a session did not open. Its `Debug` prints the same words, for a `main` that returns it.
///
/// ```
/// use dirwolleu::{OpenError, Session, SessionOptions};
/// use std::time::Duration;
///
/// let refused = Session::open("zk1:2181,", Duration::from_secs(10)).unwrap_err();
/// assert!(matches!(refused, OpenError::Hosts(_)));
/// assert_eq!(refused.to_string(), "'' is no HOST:PORT");
///
/// let hasty = SessionOptions::new(Duration::from_secs(10)).opens_within(Duration::from_secs(1));
/// let nobody = hasty.open("127.0.0.1:1").unwrap_err();
/// let told = nobody.to_string(); // after `in`, how long it has waited: `1 s`, or more on a busy machine
/// assert!(told.starts_with("no server of 127.0.0.1:1 accepted the session in "));
/// assert!(told.ends_with(" s; last: 127.0.0.1:1: connection refused"));
/// ```
#[non_exhaustive]
pub enum OpenError {
    /// The text is no list of hosts.
    Hosts(HostsFault),
    /// The library made no session: [`Fault::BadTimeout`], [`Fault::NoSuchLimits`], [`Fault::NotSaved`] or [`Fault::NoMemory`].
    Fault(Fault),
    /// The system made no thread.
    Thread(io::Error),
    /// The record's file cannot be made.
    Record(io::Error),
    /// No server accepted the session in time, or the servers refuse it: the error that a call would have had, with the last reason of each
    /// address.
    NotConnected(Error),
}

impl fmt::Display for OpenError {
    fn fmt(&self, f: &mut fmt::Formatter<'_>) -> fmt::Result {
        match self {
            OpenError::Hosts(fault) => fault.fmt(f),
            OpenError::Fault(fault) => fault.fmt(f),
            OpenError::Thread(fault) => write!(f, "no thread for the session: {fault}"),
            OpenError::Record(fault) => write!(f, "the record: {fault}"),
            OpenError::NotConnected(error) => error.fmt(f),
        }
    }
}

/// The same words, for a `main` that returns it.
impl fmt::Debug for OpenError {
    fn fmt(&self, f: &mut fmt::Formatter<'_>) -> fmt::Result {
        fmt::Display::fmt(self, f)
    }
}

impl error::Error for OpenError {}

impl From<HostsFault> for OpenError {
    fn from(fault: HostsFault) -> OpenError {
        OpenError::Hosts(fault)
    }
}

impl From<Fault> for OpenError {
    fn from(fault: Fault) -> OpenError {
        OpenError::Fault(fault)
    }
}

impl From<Infallible> for OpenError {
    fn from(never: Infallible) -> OpenError {
        match never {}
    }
}

/// Options of a session: its timeout, and whatever should differ from [`Session::open`].
///
/// ```no_run
/// use dirwolleu::{Retry, SessionOptions};
/// use std::time::Duration;
///
/// # fn main() -> Result<(), Box<dyn std::error::Error>> {
/// let session = SessionOptions::new(Duration::from_secs(10))
///     .renews(true)
///     .retry(Retry::times(3))
///     .limit(Duration::from_secs(30))
///     .open("zk1:2181,zk2:2181,zk3:2181/app")?;
/// # Ok(())
/// # }
/// ```
#[must_use = "it opens nothing by itself"]
pub struct SessionOptions {
    timeout: Duration,
    order: DialOrder,
    terms: Terms,
    limits: Limits,
    saved: Option<SavedSession>,
    credentials: Vec<Credential>,
    dial: Box<dyn Dial>,
    log_in: Option<Begin>,
    observer: Option<Observer>,
    record: Option<PathBuf>,
    opens_within: Duration,
}

/// The default of how long to wait for a first server.
const OPENS_WITHIN: Duration = Duration::from_secs(15);

impl SessionOptions {
    /// Options of a session that asks for this timeout, in whole milliseconds: 1 to 2,147,483,647.
    pub fn new(timeout: Duration) -> SessionOptions {
        SessionOptions {
            timeout,
            order: DialOrder::Shuffled,
            terms: Terms::default(),
            limits: Limits::default(),
            saved: None,
            credentials: Vec::new(),
            dial: Box::new(Tcp),
            log_in: None,
            observer: None,
            record: None,
            opens_within: OPENS_WITHIN,
        }
    }

    /// Sets whether to dial the hosts in a random order, or as the list has them. The default is random, so that many clients spread over
    /// many servers. If a name has several addresses, each is dialled in turn.
    pub fn shuffles(mut self, shuffles: bool) -> SessionOptions {
        self.order = if shuffles {
            DialOrder::Shuffled
        } else {
            DialOrder::AsListed
        };
        self
    }

    /// Sets whether a new session begins by itself after an expiry. The default is that none does. The event
    /// [`State(Expired)`](crate::Event::State) says that the ephemeral nodes and the watches of the old session are gone. Calls that wait
    /// then get [`SessionExpired`](crate::NoReply::SessionExpired), unless [`retry`](SessionOptions::retry) repeats them.
    pub fn renews(mut self, renews: bool) -> SessionOptions {
        self.terms.renews = renews;
        self
    }

    /// Sets how often calls are repeated.
    pub fn retry(mut self, retry: Retry) -> SessionOptions {
        self.terms.retry = retry;
        self
    }

    /// Sets how long a call waits at most, with all its repetitions: for a connection, for its turn and for its answer. The default is the
    /// session's timeout, at least a second, for each time that it is made. [`Request::within`](crate::Request::within) sets the limit of
    /// one call.
    pub fn limit(mut self, limit: Duration) -> SessionOptions {
        self.terms.limit = Some(limit);
        self
    }

    /// Sets the most bytes that an incoming frame may have after its length: 4,194,304, the default, to 1,073,741,823. A longer frame, such
    /// as the names of very many children, ends the connection, and its read gets [`TooLarge`](crate::NoReply::TooLarge). The servers'
    /// `jute.maxbuffer` says how long their frames may be.
    pub fn longest_answer(mut self, bytes: usize) -> SessionOptions {
        self.limits.longest_answer = bytes;
        self
    }

    /// Sets the most bytes that an outgoing frame may have after its length: 1,048,575, the default, to 1,073,741,823. A longer call gets
    /// [`TooLarge`](crate::NoReply::TooLarge). Servers take as many bytes as their `jute.maxbuffer` says: raise both.
    pub fn longest_request(mut self, bytes: usize) -> SessionOptions {
        self.limits.longest_request = bytes;
        self
    }

    /// Adds a credential, with a scheme such as `digest` and credentials such as `user:password`, which go to the server first on each
    /// connection. If a server refuses them, the session is over: [`Event::CredentialsRefused`](crate::Event::CredentialsRefused) comes,
    /// the state is [`State::Closed`](crate::State::Closed), each call fails with [`Code::AUTH_FAILED`](crate::Code::AUTH_FAILED), the
    /// session dials no more, and it forgets its credentials. Credentials cross the network as they are: use TLS.
    pub fn auth(mut self, scheme: &str, credentials: &[u8]) -> SessionOptions {
        self.credentials.push(Credential::new(scheme, credentials));
        self
    }

    /// Logs in by SASL on each connection, before any other request: `begin` makes a [`LogIn`] for each. If a step fails, or the server
    /// refuses, the session is over, as [`auth`](SessionOptions::auth) says. Tokens cross the network as they are: use TLS.
    ///
    /// ```no_run
    /// use dirwolleu::SessionOptions;
    /// use std::time::Duration;
    ///
    /// # fn main() -> Result<(), Box<dyn std::error::Error>> {
    /// let options = SessionOptions::new(Duration::from_secs(10)).log_in(|| {
    ///     |challenge: Option<&[u8]>| Ok(challenge.is_none().then(|| b"\0app\0secret".to_vec()))
    /// });
    /// let session = options.open("127.0.0.1:2181")?;
    /// # Ok(())
    /// # }
    /// ```
    pub fn log_in<F, L>(mut self, mut begin: F) -> SessionOptions
    where
        F: FnMut() -> L + Send + 'static,
        L: LogIn + 'static,
    {
        self.log_in = Some(Box::new(move || Box::new(begin())));
        self
    }

    /// Takes up a saved session.
    pub fn resume(mut self, saved: &SavedSession) -> SessionOptions {
        self.saved = Some(saved.clone());
        self
    }

    /// Sets the dialler that makes connections, instead of [`Tcp`].
    pub fn dial(mut self, dial: impl Dial + 'static) -> SessionOptions {
        self.dial = Box::new(dial);
        self
    }

    /// Sets an observer, which gets each [`Observation`] of the session, for metrics and traces. Several threads may call it at once, so
    /// keep it short; it may look at the session, but must not wait for it. If it panics, so does the thread that calls it: on the
    /// session's own thread, that ends the session. [`Session::stats`] counts without it.
    ///
    /// ```no_run
    /// use dirwolleu::{Observation, SessionOptions};
    /// use std::time::Duration;
    ///
    /// # fn main() -> Result<(), Box<dyn std::error::Error>> {
    /// let options = SessionOptions::new(Duration::from_secs(10)).observe(|seen| {
    ///     if let Observation::Answered { path, took, .. } = seen {
    ///         eprintln!("{path:?}: {took:?}");
    ///     }
    /// });
    /// let session = options.open("127.0.0.1:2181")?;
    /// # Ok(())
    /// # }
    /// ```
    pub fn observe(
        mut self,
        observer: impl Fn(&Observation) + Send + Sync + 'static,
    ) -> SessionOptions {
        self.observer = Some(Arc::new(observer));
        self
    }

    /// Writes the session's input and output into this file, from its beginning: `zk_shell` replays it, to show a fault. It has paths and
    /// data, but no password or credential. It is complete up to the last step. If writing fails, [`Observation::RecordEnded`] says so, and
    /// the session goes on.
    ///
    /// ```no_run
    /// use dirwolleu::SessionOptions;
    /// use std::time::Duration;
    ///
    /// # fn main() -> Result<(), Box<dyn std::error::Error>> {
    /// let session = SessionOptions::new(Duration::from_secs(10)).record("session.record").open("127.0.0.1:2181")?;
    /// # Ok(())
    /// # }
    /// ```
    pub fn record(mut self, file: impl Into<PathBuf>) -> SessionOptions {
        self.record = Some(file.into());
        self
    }

    /// Sets how long [`open`](SessionOptions::open) waits at most for a server that accepts the session: by default 15 seconds.
    pub fn opens_within(mut self, limit: Duration) -> SessionOptions {
        self.opens_within = limit;
        self
    }

    /// Opens a session that a thread of its own keeps alive, and waits until a server has accepted it.
    ///
    /// # Errors
    ///
    /// See [`OpenError`]: [`OpenError::NotConnected`] if no server has in time, with the last reason of each address.
    pub fn open<H>(self, hosts: H) -> Result<Session, OpenError>
    where
        H: TryInto<Hosts>,
        OpenError: From<H::Error>,
    {
        let limit = self.opens_within;
        let session = self.open_lazily(hosts)?;
        session
            .wait_for_server(limit)
            .map_err(OpenError::NotConnected)?;
        Ok(session)
    }

    /// The same without waiting: it dials at once, and its calls wait for a server. A task of a runtime opens a session like this.
    ///
    /// # Errors
    ///
    /// See [`OpenError`]; never [`OpenError::NotConnected`].
    pub fn open_lazily<H>(self, hosts: H) -> Result<Session, OpenError>
    where
        H: TryInto<Hosts>,
        OpenError: From<H::Error>,
    {
        let (driver, terms) = self.begin(hosts.try_into()?, Writer::Passing)?;
        Session::driven_by(driver, terms).map_err(OpenError::Thread)
    }

    /// Opens a session without a thread, for a loop of the program's own. It dials at the first call.
    ///
    /// # Errors
    ///
    /// See [`OpenError`].
    pub fn open_local<H>(self, hosts: H) -> Result<LocalSession, OpenError>
    where
        H: TryInto<Hosts>,
        OpenError: From<H::Error>,
    {
        let (driver, terms) = self.begin(hosts.try_into()?, Writer::Alone)?;
        Ok(LocalSession::driven_by(driver, terms))
    }

    fn begin(self, hosts: Hosts, writer: Writer) -> Result<(Driver, Terms), OpenError> {
        let saved = self.saved.clone();
        let mut engine = Engine::new(EngineOptions {
            timeout: self.timeout,
            limits: self.limits,
            hosts,
            order: self.order,
            saved: self.saved,
            renews: self.terms.renews,
            limit: self.terms.limit,
            credentials: self.credentials,
        })?;
        if let Some(file) = &self.record {
            let recorder = Recorder::create(file).map_err(OpenError::Record)?;
            engine.record(recorder, saved.as_ref());
        }
        let shared = Shared::new(engine, writer, self.observer);
        let (dial, longest) = (self.dial, self.limits.longest_answer);
        let dial = match self.log_in {
            Some(begin) => Box::new(LoggingIn {
                dial,
                begin,
                longest,
            }),
            None => dial,
        };
        Ok((Driver::new(shared, dial, self.order), self.terms))
    }
}

/// Prints nothing about the dialler.
impl fmt::Debug for SessionOptions {
    fn fmt(&self, f: &mut fmt::Formatter<'_>) -> fmt::Result {
        f.debug_struct("SessionOptions")
            .field("timeout", &self.timeout)
            .field("order", &self.order)
            .field("renews", &self.terms.renews)
            .field("retry", &self.terms.retry)
            .field("limit", &self.terms.limit)
            .field("limits", &self.limits)
            .field("saved", &self.saved)
            .finish_non_exhaustive()
    }
}
