//! A session that a thread of its own keeps alive.

use crate::acl::{Acl, Id};
use crate::cache::{Children, DataAnswer, Kept, Mark};
use crate::driver::Driver;
use crate::engine::Engine;
use crate::error::Error;
use crate::events::Event;
use crate::events::Events;
use crate::fault::{Code, Fault};
use crate::follow::Follow;
use crate::hosts::Hosts;
use crate::machine::State;
use crate::multi_read::{Read, ReadAnswer};
use crate::node::{Mode, Node, Stat};
use crate::options::{OpenError, SessionOptions};
use crate::paths;
use crate::request::{LentRequest, Request};
use crate::retry::{is_expired, Terms};
use crate::saved::SavedSession;
use crate::session_methods::{calls, look_ups, watch, Caller};
use crate::shared::{ask, Poller, Shared};
use crate::snapshot::Snapshot;
use crate::stats::Stats;
use crate::ticket::Ticket;
use crate::transaction::Transaction;
use crate::tree::{Tree, MOST_NODES};
use crate::view::View;
use std::fmt;
use std::io;
use std::ops::Deref;
use std::sync::Arc;
use std::thread::{self, Builder};
use std::time::{Duration, Instant};

/// The fraction of the timeout by which a session's thread may be late before nobody knows the state.
const LATENESS: u32 = 6;

/// A session that lives while its program works: a thread of its own pings, reads and reconnects. The proved core decides which host to
/// dial and when, which calls wait and how long, and what becomes of them when the connection ends: a session is a
/// [`Machine`](crate::Machine) with sockets, a lock and a clock.
///
/// It dials at once: one of its [`Hosts`] after the other, in an order that is random in each session, and goes on to the next one if a
/// server is silent or the connection ends. Watches and kept answers outlive a reconnect. An attempt may take a third of the timeout, and
/// at least a second. The pause after a failed one is random, between half and all of this: 100 milliseconds, and twice as long after each
/// further one, up to a second and to a tenth of the timeout; and up to a second once there was no connection for longer than the timeout.
/// There is no pause after an answered call, after an expiry that a server reported, and after a connection that lasted for a third of the
/// timeout. At least a third of a second lies between two attempts, so a session of less than some three seconds may not outlive a lost
/// connection. After a refusal the next address is dialled at once, once round the list.
///
/// A call waits until a server has accepted the session and fewer than 1,024 calls are on their way, and then for its answer. A read that
/// is lost with its connection is repeated; a write is not, and gets [`ConnectionLoss`](crate::NoReply::ConnectionLoss). All of that takes
/// at most as long as the limit of the call: the one that its [`Request`] has, else that of [`SessionOptions::limit`], else the timeout of
/// the session, and at least a second.
///
/// If a call, a ping or the request for the session has no answer after two thirds of the timeout, and at least a second, whatever else the
/// server sends, the connection is over. That time includes the writing, so the session also leaves a server that reads slowly.
///
/// All functions take `&self`, and threads may call them at once: [`shared`](Session::shared) makes handles for them. Dropping a session
/// ends its thread and leaves the session to its timeout at the servers: [`close`](Session::close) ends it.
///
/// ```no_run
/// use dirwolleu::{Mode, Session};
/// use std::time::Duration;
///
/// # fn main() -> Result<(), Box<dyn std::error::Error>> {
/// let session = Session::open("127.0.0.1:2181", Duration::from_secs(10))?;
/// session.create("/config", b"first", Mode::Persistent)?;
/// let node = session.get("/config")?;
/// session.set("/config", b"second", node.stat.version)?;
/// session.close()?;
/// # Ok(())
/// # }
/// ```
pub struct Session {
    shared: Arc<Shared>,
    terms: Terms,
}

/// How a session begins and ends.
impl Session {
    /// Opens a session at these hosts that asks for this timeout, and waits until a server has accepted it, for 15 seconds at most.
    /// [`SessionOptions`] has options, and [`SessionOptions::open_lazily`] does not wait.
    ///
    /// # Errors
    ///
    /// See [`OpenError`].
    pub fn open<H>(hosts: H, timeout: Duration) -> Result<Session, OpenError>
    where
        H: TryInto<Hosts>,
        OpenError: From<H::Error>,
    {
        SessionOptions::new(timeout).open(hosts)
    }

    /// A session whose driver runs in a thread.
    pub(crate) fn driven_by(driver: Driver, terms: Terms) -> io::Result<Session> {
        let shared = Arc::clone(driver.shared());
        let thread = Builder::new().name(String::from("dirwolleu"));
        thread.spawn(move || driver.run())?;
        Ok(Session { shared, terms })
    }

    /// Waits until a server has accepted the session, at most this long.
    pub(crate) fn wait_for_server(&self, limit: Duration) -> Result<(), Error> {
        let begun = Instant::now();
        self.wait_while(begun.checked_add(limit), |engine| !engine.is_connected());
        let waited = begun.elapsed();
        let fault = self.shared.look(|engine| engine.fault_of_opening(waited));
        fault.map_or(Ok(()), Err)
    }

    /// Makes a handle of this session, to clone for each thread. Dropping the last one drops the session.
    pub fn shared(self) -> SharedSession {
        SharedSession {
            session: Arc::new(self),
        }
    }

    /// Goes on with a new machine, which keeps and watches nothing: of a new session if this one has expired or is closed, at servers that
    /// are not behind the greatest zxid seen; else of the same session, as after [`Fault::Halted`].
    ///
    /// # Errors
    ///
    /// [`Fault::NoMemory`]: then the session is unchanged. [`Fault::Panicked`].
    pub fn renew(&self) -> Result<(), Fault> {
        let renewed = self.shared.with(Engine::renew);
        self.shared.wake();
        renewed
    }

    /// Ends the session and deletes its ephemeral nodes. If the session is already over, this is no error.
    ///
    /// It waits for the server's answer as any call does, but at most a second if no server has accepted the session, or the connection is
    /// lost. Then it fails, and the session is left to its timeout at the servers.
    ///
    /// # Errors
    ///
    /// Why there is no reply: the session may or may not be over.
    pub fn close(self) -> Result<(), Error> {
        self.end()
    }

    fn end(&self) -> Result<(), Error> {
        match self.ask(Request::close()).wait() {
            Err(error) if !error.is_of_end() => Err(error),
            _ => Ok(()),
        }
    }
}

impl Drop for Session {
    fn drop(&mut self) {
        self.shared.with(Engine::stop);
        self.shared.wake();
    }
}

/// Calls. Each waits for its answer.
impl Session {
    calls! { self: [&self] &mut &*self }

    /// Makes a request, waits for its answer, and repeats it if the session's [`Retry`](crate::Retry) says so.
    ///
    /// # Errors
    ///
    /// [`ErrorKind::Server`](crate::ErrorKind::Server) if the server refuses it; [`ErrorKind::NoReply`](crate::ErrorKind::NoReply) with the
    /// reason why there is no reply; [`ErrorKind::TimedOut`](crate::ErrorKind::TimedOut) if it reached its limit after it was sent, so that
    /// a write may have happened, or still may; if it was not sent, and never is, [`NotConnected`](crate::NoReply::NotConnected), or
    /// [`TooManyPending`](crate::NoReply::TooManyPending) with a connection; [`ErrorKind::Fault`](crate::ErrorKind::Fault) of
    /// [`Fault::NotPath`], [`Fault::NoMemory`], [`Fault::Halted`], [`Fault::UnknownNumber`] or [`Fault::Panicked`];
    /// [`QueueFull`](crate::ErrorKind::QueueFull) if too much waits to be written.
    pub fn call<T>(&self, mut request: Request<T>) -> Result<T, Error> {
        let tries = self.terms.tries(request.limit);
        for pause in self.terms.retry.pauses() {
            match self.ask(request.clone()).wait() {
                Err(error) if tries.goes_on(&request, &error, pause) => thread::sleep(pause),
                answer => return answer,
            }
            request.limit = tries.left();
        }
        self.ask(request).wait()
    }

    fn call_lent<T>(&self, request: LentRequest<'_, T>) -> Result<T, Error> {
        self.call(request.into())
    }

    /// Whether another session goes on after this error.
    pub(crate) fn lives_through(&self, error: &Error) -> bool {
        self.terms.renews && is_expired(error)
    }

    /// Begins a transaction: operations that happen together or not at all.
    pub fn transaction(&self) -> Transaction<'_> {
        Transaction::new(self)
    }

    /// Makes a request and goes on: the answer comes by the ticket. Up to 1,024 calls are on their way at once, and answered in the order
    /// of asking; more wait in line.
    pub fn ask<T>(&self, request: Request<T>) -> Ticket<T> {
        ask(&self.shared, request)
    }
}

impl Caller for &Session {
    fn answer<T>(&mut self, request: Request<T>) -> Result<T, Error> {
        self.call(request)
    }

    fn pass(&mut self, time: Duration) -> Result<(), Fault> {
        self.wait_until(Instant::now().checked_add(time), |_| true);
        Ok(())
    }

    fn view<R>(&self, look: impl FnOnce(View<'_>) -> R) -> R {
        Session::view(self, look)
    }
}

/// Events, and kept answers. Look-ups send nothing.
impl Session {
    look_ups! {}

    /// The state. `None` if something was due on the connection for more than a sixth of the timeout and the session's thread has not come
    /// to do it, for example because the process was stopped or that thread has panicked: then nobody knows.
    pub fn state(&self) -> Option<State> {
        self.shared
            .look(|engine| engine.state(engine.machine().timeout() / LATENESS))
    }

    /// Returns the next event. If none waits, it waits for one until this instant, or without a limit. `None` if none has come by then, or
    /// if the session has expired or is closed.
    ///
    /// Each event comes once: if several threads ask, to one of them. Of events that nobody takes, the last 1,024 are kept.
    ///
    /// # Errors
    ///
    /// [`Fault::Halted`], [`Fault::UnknownNumber`] and [`Fault::Panicked`].
    pub fn next_event(&self, until: Option<Instant>) -> Result<Option<Event>, Fault> {
        self.shared.next_event(until)
    }

    /// The same for a runtime: [`Events::poll_next`] does not wait.
    pub fn events(&self) -> Events {
        Events::new(&self.shared)
    }

    /// Does something with the engine.
    pub(crate) fn change<R>(&self, act: impl FnOnce(&mut Engine) -> R) -> R {
        self.shared.with(act)
    }

    /// Waits until the subject of this ticket has an update, or the session is over.
    pub(crate) fn wait_for_update(&self, ticket: u64) {
        self.wait_while(None, |engine| !engine.has_update(ticket));
    }

    /// A new poller.
    pub(crate) fn poller(&self) -> Poller {
        self.shared.poller()
    }

    /// Follows a node: the iterator waits, and returns the node's content at first, and at each change, even if it changed without a
    /// connection. Changes in quick succession may come as one, the last. The core reads the node again after each report, on a new
    /// connection if need be, and in each new session, and returns only good content. It takes no events.
    ///
    /// If the server refuses a read for a reason that does not pass, the iterator returns that once, as an error, and reads the node again
    /// each second, and then goes on. It ends if the session is closed, or after an error that says why the session is over:
    /// [`SessionExpired`](crate::NoReply::SessionExpired) unless the session [renews](SessionOptions::renews) itself.
    ///
    /// ```no_run
    /// use dirwolleu::SessionOptions;
    /// use std::time::Duration;
    ///
    /// # fn main() -> Result<(), Box<dyn std::error::Error>> {
    /// let session = SessionOptions::new(Duration::from_secs(10)).renews(true).open("127.0.0.1:2181")?;
    /// for node in session.follow("/config") {
    ///     match node {
    ///         Ok(node) => println!("{:?}", node.map(|node| node.data)), // none if there is no node
    ///         Err(error) => eprintln!("{error}"),
    ///     }
    /// }
    /// # Ok(())
    /// # }
    /// ```
    pub fn follow(&self, path: &str) -> Follow<'_> {
        Follow::new(self, path)
    }

    /// Follows all nodes at and below a path, at most 65,536: reads them with watches, and reads again what changes, until the [`Tree`] is
    /// dropped. If there is no node at the path, it waits for its creation.
    ///
    /// ```no_run
    /// use dirwolleu::Session;
    /// use std::{thread, time::Duration};
    ///
    /// # fn main() -> Result<(), Box<dyn std::error::Error>> {
    /// let session = Session::open("127.0.0.1:2181", Duration::from_secs(10))?;
    /// let tree = session.tree("/config")?;
    /// tree.wait_for(Duration::from_secs(10))?;
    /// thread::scope(|scope| {
    ///     for _ in 0..4 {
    ///         scope.spawn(|| tree.latest().map(|snapshot| snapshot.zxid())); // it asks nobody
    ///     }
    /// });
    /// # Ok(())
    /// # }
    /// ```
    ///
    /// # Errors
    ///
    /// [`Fault::NotPath`] and [`Fault::NoMemory`].
    pub fn tree(&self, path: &str) -> Result<Tree, Fault> {
        self.bounded_tree(path, MOST_NODES)
    }

    /// The same for at most this many nodes: while there are more, that is the tree's [`trouble`](Tree::trouble).
    ///
    /// # Errors
    ///
    /// As [`tree`](Session::tree).
    pub fn bounded_tree(&self, path: &str, most: usize) -> Result<Tree, Fault> {
        let shown = self.shared.with(|engine| engine.open_tree(path, most))?;
        Ok(Tree::new(Arc::clone(&self.shared), shown))
    }

    /// Makes all waiting threads look again.
    pub(crate) fn wake(&self) {
        self.shared.wake();
    }

    /// Waits while this holds, at most until this instant, and until the session is over.
    pub(crate) fn wait_while(&self, until: Option<Instant>, holds: impl Fn(&Engine) -> bool) {
        let holds = |engine: &Engine| !engine.is_over() && holds(engine);
        self.shared.wait_while(until, holds);
    }

    /// The same for a look-up.
    pub(crate) fn wait_until(&self, until: Option<Instant>, holds: impl Fn(View<'_>) -> bool) {
        self.wait_while(until, |engine| holds(View::of(engine)));
    }

    /// Changes the hosts. If the session's host is not among the new ones, the session moves to another one, as after a cut; if there are
    /// more hosts than before, it moves with the chance by which the list has grown, as ZooKeeper's own clients do. Else it stays.
    ///
    /// # Errors
    ///
    /// The hosts themselves, if they have another chroot than the session: then nothing has changed.
    pub fn change_hosts(&self, hosts: Hosts) -> Result<(), Hosts> {
        let changed = self.shared.with(|engine| engine.change_hosts(hosts));
        self.shared.wake();
        changed
    }

    /// Forgets all stale answers. Only memory bounds the kept answers: call this now and then if you go from path to path. Followed nodes
    /// stay followed.
    pub fn forget_stale(&self) {
        self.shared.with(Engine::forget_stale);
    }

    fn inner(&self) -> &Shared {
        &self.shared
    }
}

impl fmt::Debug for Session {
    fn fmt(&self, f: &mut fmt::Formatter<'_>) -> fmt::Result {
        let mut shown = f.debug_struct("Session");
        self.view(|view| shown.field("machine", &view).finish_non_exhaustive())
    }
}

/// A handle of a [`Session`], to clone for each thread that uses it. It has everything that a session has.
///
/// ```no_run
/// use dirwolleu::Session;
/// use std::{thread, time::Duration};
///
/// # fn main() -> Result<(), Box<dyn std::error::Error>> {
/// let session = Session::open("127.0.0.1:2181", Duration::from_secs(10))?.shared();
/// for path in ["/a", "/b"] {
///     let session = session.clone();
///     thread::spawn(move || println!("{path}: {:?}", session.exists(path)));
/// }
/// # Ok(())
/// # }
/// ```
#[derive(Clone, Debug)]
pub struct SharedSession {
    session: Arc<Session>,
}

impl SharedSession {
    /// Ends the session for everyone with a handle of it; see [`Session::close`].
    ///
    /// # Errors
    ///
    /// As [`Session::close`].
    pub fn close(&self) -> Result<(), Error> {
        self.session.end()
    }
}

impl Deref for SharedSession {
    type Target = Session;

    fn deref(&self) -> &Session {
        &self.session
    }
}
