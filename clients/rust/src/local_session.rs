//! A session without a thread.

use crate::acl::{Acl, Id};
use crate::cache::{Children, DataAnswer, Kept, Mark};
use crate::driver::Driver;
use crate::engine::{Engine, NEVER};
use crate::error::Error;
use crate::events::Event;
use crate::fault::{Code, Fault};
use crate::hosts::Hosts;
use crate::local_lock::LocalLock;
use crate::lock::{self, LockOptions};
use crate::machine::State;
use crate::multi_read::{Read, ReadAnswer};
use crate::node::{Mode, Node, Stat};
use crate::options::{OpenError, SessionOptions};
use crate::paths;
use crate::request::{LentRequest, Request};
use crate::retry::{Retry, Terms};
use crate::saved::SavedSession;
use crate::semaphore::LeaseNumber;
use crate::session_methods::{calls, look_ups, watch, Caller};
use crate::shared::Shared;
use crate::snapshot::Snapshot;
use crate::stats::Stats;
use crate::tree::{LocalTree, MOST_NODES};
use crate::tree_snapshot::TreeSnapshot;
use crate::view::View;
use std::fmt;
use std::num::NonZeroU32;
use std::time::{Duration, Instant};

/// A session without a thread, for a loop of the program's own: it reads, pings and reconnects only within its functions, and one thread
/// uses it at a time. [`Session`](crate::Session) is the same with a thread, and says how both dial and wait.
///
/// Call [`next_event`](LocalSession::next_event) at least once in a third of the timeout. A program that comes later keeps its connection
/// if the server has sent something meanwhile. What no call asked for waits as an [`Event`].
///
/// A call waits for a connection, and then for its answer, at most to its limit, like those of a [`Session`](crate::Session).
///
/// ```no_run
/// use dirwolleu::{LocalSession, Mode};
/// use std::time::{Duration, Instant};
///
/// # fn main() -> Result<(), Box<dyn std::error::Error>> {
/// let mut session = LocalSession::open("127.0.0.1:2181", Duration::from_secs(10))?;
/// session.create("/mine", b"", Mode::Ephemeral)?;
/// loop {
///     // a part of the work, and then:
///     let until = Instant::now() + Duration::from_secs(3);
///     while let Some(event) = session.next_event(Some(until))? {
///         println!("{event:?}");
///     }
/// }
/// # }
/// ```
pub struct LocalSession {
    driver: Driver,
    terms: Terms,
}

/// How a session begins and ends.
impl LocalSession {
    /// A session at these hosts that asks for this timeout. It dials at the first call. Without a host it never connects.
    /// [`SessionOptions::open_local`] has options.
    ///
    /// # Errors
    ///
    /// See [`OpenError`].
    pub fn open<H>(hosts: H, timeout: Duration) -> Result<LocalSession, OpenError>
    where
        H: TryInto<Hosts>,
        OpenError: From<H::Error>,
    {
        SessionOptions::new(timeout).open_local(hosts)
    }

    pub(crate) fn driven_by(driver: Driver, terms: Terms) -> LocalSession {
        LocalSession { driver, terms }
    }

    /// Goes on with a new machine, as [`Session::renew`](crate::Session::renew) does.
    ///
    /// # Errors
    ///
    /// [`Fault::NoMemory`]: then the session is unchanged.
    pub fn renew(&mut self) -> Result<(), Fault> {
        self.inner().with(Engine::renew)
    }

    /// Ends the session and deletes its ephemeral nodes. If the session is already over, this is no error.
    ///
    /// It waits like [`Session::close`](crate::Session::close).
    ///
    /// # Errors
    ///
    /// Why there is no reply: the session may or may not be over.
    pub fn close(mut self) -> Result<(), Error> {
        match self.call(Request::close()) {
            Err(error) if !error.is_of_end() => Err(error),
            _ => Ok(()),
        }
    }
}

/// Calls.
impl LocalSession {
    calls! { self: [&mut self] self }

    /// Makes a request, waits for its answer, and repeats it if the session's [`Retry`] says so.
    ///
    /// # Errors
    ///
    /// As [`Session::call`](crate::Session::call).
    pub fn call<T>(&mut self, mut request: Request<T>) -> Result<T, Error> {
        let tries = self.terms.tries(request.limit);
        for pause in self.terms.retry.pauses() {
            match self.call_once(&request.lend()) {
                Err(error) if tries.goes_on(&request, &error, pause) => self.pass(pause)?,
                answer => return answer,
            }
            request.limit = tries.left();
        }
        self.call_once(&request.lend())
    }

    /// The same for a request whose path and data need no copy if it is made once.
    #[inline]
    fn call_lent<T>(&mut self, request: LentRequest<'_, T>) -> Result<T, Error> {
        if self.terms.retry == Retry::never() {
            return self.call_once(&request);
        }
        self.call(request.into())
    }

    #[inline]
    fn call_once<T>(&mut self, request: &LentRequest<'_, T>) -> Result<T, Error> {
        (request.read)(self.driver.call_alone(&request.asking))
    }
}

impl Caller for LocalSession {
    fn answer<T>(&mut self, request: Request<T>) -> Result<T, Error> {
        self.call(request)
    }

    fn pass(&mut self, time: Duration) -> Result<(), Fault> {
        self.go_on_while(time, || true)
    }

    fn view<R>(&self, look: impl FnOnce(View<'_>) -> R) -> R {
        LocalSession::view(self, look)
    }
}

/// Locks, elections and semaphores.
impl LocalSession {
    /// Contends for the lock of a path without waiting: [`within`](LockOptions::within) has no effect. An election is a lock whose places
    /// say who the [`candidates`](LocalSession::candidates) are.
    ///
    /// # Errors
    ///
    /// The path is invalid, memory ran out, or the session is over.
    pub fn contend(&mut self, path: &str, options: LockOptions<'_>) -> Result<LocalLock, Error> {
        LocalLock::by(options.naming(), self.driver.shared(), path, options)
    }

    /// Contends for a [`Lease`](crate::Lease) of a [`Semaphore`](crate::Semaphore) for at most this many holders, at least one. Only the
    /// data and the ACL of the options count. It waits only until it has read the node's limit.
    ///
    /// # Errors
    ///
    /// As [`call`](LocalSession::call), and as [`Semaphore::acquire`](crate::Semaphore::acquire) if the node has another limit.
    pub fn contend_for_lease(
        &mut self,
        path: &str,
        most: u32,
        options: LockOptions<'_>,
    ) -> Result<LocalLock, Error> {
        let number = LeaseNumber {
            path,
            most: NonZeroU32::new(most).unwrap_or(NonZeroU32::MIN),
            acls: options.acls,
            until: None,
        };
        let naming = number.agree(self)?;
        LocalLock::by(naming, self.driver.shared(), path, options)
    }

    /// The data of the candidates of an [`Election`](crate::Election) at a path, the leader's first.
    ///
    /// # Errors
    ///
    /// As [`call`](LocalSession::call).
    pub fn candidates(&mut self, path: &str) -> Result<Vec<Vec<u8>>, Error> {
        lock::candidates(self, path)
    }

    /// Goes on while this holds, at most this long, unless the session ends before.
    pub(crate) fn go_on_while(
        &mut self,
        time: Duration,
        holds: impl Fn() -> bool,
    ) -> Result<(), Fault> {
        let clock = self.inner().clock();
        let until = clock.now().saturating_add(time);
        while !self.inner().look(Engine::is_over) && clock.now() < until && holds() {
            self.driver.turn(until)?;
        }
        Ok(())
    }
}

/// Events, and kept answers. Look-ups send nothing.
impl LocalSession {
    look_ups! {}

    fn inner(&self) -> &Shared {
        self.driver.shared()
    }

    /// The state. `None` if something was due on the connection and the program has not come to do it: then nobody knows whether there
    /// still is a session. Call [`next_event`](LocalSession::next_event) to find out.
    pub fn state(&self) -> Option<State> {
        self.inner().look(|engine| engine.state(Duration::ZERO))
    }

    /// Returns the next event. If none waits, it waits for one until this instant, or without a limit. `None` if none has come by then, or
    /// if the session has expired or is closed.
    ///
    /// It may wait longer by as much as an attempt to connect takes: at most a third of the timeout, or a second, and the system's look-up
    /// of a name.
    ///
    /// # Errors
    ///
    /// [`Fault::NoMemory`] and [`Fault::Halted`].
    pub fn next_event(&mut self, until: Option<Instant>) -> Result<Option<Event>, Fault> {
        let clock = self.inner().clock();
        let until = until.map_or(NEVER, |until| clock.moment_of(until));
        let mut is_past = false;
        loop {
            let (event, is_over) = self
                .inner()
                .with(|engine| (engine.next_event(), engine.is_over()));
            if event.is_some() {
                return Ok(event);
            }
            if is_past || is_over {
                return self.inner().with(|engine| engine.halt().map(|()| None));
            }
            self.driver.turn(until)?;
            is_past = until <= clock.now();
        }
    }

    /// Follows all nodes at and below a path, at most 65,536, as [`Session::tree`](crate::Session::tree) does.
    ///
    /// # Errors
    ///
    /// [`Fault::NotPath`] and [`Fault::NoMemory`].
    pub fn tree(&mut self, path: &str) -> Result<LocalTree, Fault> {
        self.bounded_tree(path, MOST_NODES)
    }

    /// The same for at most this many nodes: while there are more, that is the tree's [`trouble`](LocalTree::trouble).
    ///
    /// # Errors
    ///
    /// As [`tree`](LocalSession::tree).
    pub fn bounded_tree(&mut self, path: &str, most: usize) -> Result<LocalTree, Fault> {
        let shown = self.inner().with(|engine| engine.open_tree(path, most))?;
        Ok(LocalTree::new(shown))
    }

    /// Returns the next snapshot of a tree of this session. If there is no new one, it waits for one until this instant, or without a
    /// limit. `None` if none has come by then, or if the session is closed.
    ///
    /// # Errors
    ///
    /// The [`trouble`](LocalTree::trouble) of the tree, once, and why the session is over.
    pub fn next_snapshot(
        &mut self,
        tree: &mut LocalTree,
        until: Option<Instant>,
    ) -> Result<Option<TreeSnapshot>, Error> {
        let clock = self.inner().clock();
        self.driver.catch_up_if_late(clock.now())?;
        let until = until.map_or(NEVER, |until| clock.moment_of(until));
        let mut is_past = false;
        loop {
            if let Some(news) = tree.take_news() {
                return news.map(Some);
            }
            if self.inner().with(|engine| engine.is_over()) {
                let why = self.inner().with(|engine| engine.fault_of_end());
                return why.map_or(Ok(None), |kind| Err(Error::about(Some(tree.root()), kind)));
            }
            if is_past {
                return Ok(None);
            }
            self.driver.turn(until)?;
            is_past = until <= clock.now();
        }
    }

    /// Changes the hosts, as [`Session::change_hosts`](crate::Session::change_hosts) does.
    ///
    /// # Errors
    ///
    /// The hosts themselves, if they have another chroot.
    pub fn change_hosts(&mut self, hosts: Hosts) -> Result<(), Hosts> {
        self.inner().with(|engine| engine.change_hosts(hosts))
    }

    /// Forgets all stale answers, as [`Session::forget_stale`](crate::Session::forget_stale) does.
    pub fn forget_stale(&mut self) {
        self.inner().with(Engine::forget_stale);
    }
}

impl fmt::Debug for LocalSession {
    fn fmt(&self, f: &mut fmt::Formatter<'_>) -> fmt::Result {
        let mut shown = f.debug_struct("LocalSession");
        self.view(|view| shown.field("machine", &view).finish_non_exhaustive())
    }
}
