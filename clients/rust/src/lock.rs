//! Locks and elections. The session's proved machine decides who holds; this module hands requests over and waits.

use crate::acl::Acl;
use crate::contention::Naming;
use crate::engine::contenders::{Entry, Hold};
use crate::engine::Engine;
use crate::error::{Error, ErrorKind};
use crate::fault::Code;
use crate::hosts::random;
use crate::paths::child_of;
use crate::request::Request;
use crate::session::Session;
use crate::session_methods::Caller;
use crate::shared::Poller;
use crate::standing::{Contender, Markers};
use crate::view::View;
use std::fmt;
use std::future::Future;
use std::mem;
use std::pin::Pin;
use std::task::{Context, Poll};
use std::time::{Duration, Instant};

/// How much longer than the session's timeout an attempt to take a lock waits.
const PATIENCE: Duration = Duration::from_secs(1);

/// Who may hold a lock at the same time.
///
/// ```no_run
/// use dirwolleu::{LockOptions, Session, Sharing};
/// use std::time::Duration;
///
/// # fn main() -> Result<(), Box<dyn std::error::Error>> {
/// let session = Session::open("127.0.0.1:2181", Duration::from_secs(10))?;
/// let reads = LockOptions::new().sharing(Sharing::Shared).acquire(&session, "/locks/ledger")?;
/// assert!(reads.is_held());
/// # Ok(())
/// # }
/// ```
#[derive(Clone, Copy, Debug, PartialEq, Eq, Hash)]
pub enum Sharing {
    /// One holder: kazoo's `Lock`, Curator's `InterProcessMutex`.
    Exclusive,
    /// A writer, alone in a lock that readers share: kazoo's `WriteLock`, the writing half of Curator's `InterProcessReadWriteLock`.
    Writing,
    /// A reader, beside other readers: kazoo's `ReadLock`, the reading half of Curator's `InterProcessReadWriteLock`.
    Shared,
}

/// How the nodes of contenders (their places) are named. All contenders of a path must use one kind, because kazoo and Curator see only their own.
/// A lock that finds a place of another kind before it holds gives up with [`ErrorKind::MixedNames`]. Other nodes below the path make nobody wait.
///
/// ```no_run
/// use dirwolleu::{LockNames, LockOptions, Session};
/// use std::time::Duration;
///
/// # fn main() -> Result<(), Box<dyn std::error::Error>> {
/// let session = Session::open("127.0.0.1:2181", Duration::from_secs(10))?;
/// let beside_java = LockOptions::new().names(LockNames::Curator).acquire(&session, "/locks/ledger")?;
/// # Ok(())
/// # }
/// ```
#[derive(Clone, Copy, Debug, Default, PartialEq, Eq, Hash)]
pub enum LockNames {
    /// kazoo's names: the default in this library's clients for C, Rust and Python.
    #[default]
    Kazoo,
    /// Curator's names.
    Curator,
    /// The names of Curator's `LeaderLatch`, which has one holder.
    Latch,
}

impl LockNames {
    const fn naming(self, sharing: Sharing) -> Naming {
        match (self, sharing) {
            (LockNames::Kazoo, Sharing::Shared) => Naming::KazooReader,
            (LockNames::Kazoo, _) => Naming::Kazoo,
            (LockNames::Curator, Sharing::Exclusive) => Naming::CuratorLock,
            (LockNames::Curator, Sharing::Writing) => Naming::CuratorWriter,
            (LockNames::Curator, Sharing::Shared) => Naming::CuratorReader,
            (LockNames::Latch, _) => Naming::CuratorLatch,
        }
    }
}

/// A text that no other contender uses.
fn new_guid(naming: Naming) -> String {
    let (one, other) = (random(), random());
    match naming {
        Naming::Kazoo | Naming::KazooReader | Naming::Leases { .. } => {
            format!("{one:016x}{other:016x}")
        }
        _ => format!(
            "{:08x}-{:04x}-{:04x}-{:04x}-{:012x}",
            one >> 32,
            one >> 16 & 0xffff,
            one & 0xffff,
            other >> 48,
            other & 0xffff_ffff_ffff
        ),
    }
}

/// Options for taking a lock, for programs that need more than [`Lock::acquire`].
///
/// ```no_run
/// use dirwolleu::{LockNames, LockOptions, Session, Sharing};
/// use std::time::Duration;
///
/// # fn main() -> Result<(), Box<dyn std::error::Error>> {
/// let session = Session::open("127.0.0.1:2181", Duration::from_secs(10))?;
/// let options = LockOptions::new().names(LockNames::Curator).sharing(Sharing::Writing).data(b"host-1");
/// let lock = options.within(Duration::from_secs(5)).acquire(&session, "/locks/ledger")?;
/// # Ok(())
/// # }
/// ```
#[derive(Clone, Copy, Debug)]
#[must_use = "it takes nothing by itself"]
pub struct LockOptions<'d> {
    names: LockNames,
    sharing: Sharing,
    data: &'d [u8],
    pub(crate) acls: &'d [Acl],
    limit: Option<Duration>,
}

impl Default for LockOptions<'_> {
    fn default() -> Self {
        LockOptions::new()
    }
}

impl<'d> LockOptions<'d> {
    /// An exclusive lock with kazoo's names and empty data; it waits without a limit.
    pub const fn new() -> LockOptions<'d> {
        LockOptions {
            names: LockNames::Kazoo,
            sharing: Sharing::Exclusive,
            data: &[],
            acls: &[],
            limit: None,
        }
    }

    /// Sets the names, which all contenders of a path must share.
    pub const fn names(mut self, names: LockNames) -> Self {
        self.names = names;
        self
    }

    /// Sets who may hold it at the same time.
    pub const fn sharing(mut self, sharing: Sharing) -> Self {
        self.sharing = sharing;
        self
    }

    /// Sets the data of its place, by which others see who contends.
    pub const fn data(mut self, data: &'d [u8]) -> Self {
        self.data = data;
        self
    }

    /// Sets the ACL of its place and of the parents it creates. An empty list gives everybody every right.
    pub const fn acls(mut self, acls: &'d [Acl]) -> Self {
        self.acls = acls;
        self
    }

    /// Sets how long to wait at most.
    pub const fn within(mut self, limit: Duration) -> Self {
        self.limit = Some(limit);
        self
    }

    fn until(&self) -> Option<Instant> {
        self.limit
            .and_then(|limit| Instant::now().checked_add(limit))
    }

    /// Waits until the lock is held, and creates the lock's node if it is missing. If somebody deletes its place, or it went with a session that
    /// renews itself, it makes a new one and waits again.
    ///
    /// # Errors
    ///
    /// [`ErrorKind::LockTimeout`] if it is not held in time, [`ErrorKind::MixedNames`] if a place has other names,
    /// [`ErrorKind::NumbersUsedUp`], an error of a call that trying again will not mend, and why the session is over. The contender then gives up,
    /// and the session deletes its place, on a later connection if need be.
    pub fn acquire<'s>(self, session: &'s Session, path: &str) -> Result<Lock<'s>, Error> {
        let until = self.until();
        self.contend(session, path)?.wait_until(until)
    }

    /// Takes the lock if nobody is ahead; else `None`. It waits only to learn which, for at most the session's timeout and a second, whatever
    /// [`within`](LockOptions::within) says.
    ///
    /// # Errors
    ///
    /// As [`acquire`](LockOptions::acquire).
    pub fn try_acquire<'s>(
        self,
        session: &'s Session,
        path: &str,
    ) -> Result<Option<Lock<'s>>, Error> {
        let contending = self.contend(session, path)?;
        let ticket = contending.stake.ticket;
        let until = Instant::now().checked_add(session.timeout() + PATIENCE);
        session.wait_while(until, |engine| {
            engine.is_contending(ticket) && !engine.is_behind(ticket)
        });
        if session.change(|engine| engine.is_behind(ticket)) {
            return Ok(None);
        }
        contending.wait_until(Some(Instant::now())).map(Some)
    }

    /// Contends for the lock without waiting, and returns a future that any runtime can poll. Dropping the future gives up.
    /// [`within`](LockOptions::within) has no effect.
    ///
    /// ```no_run
    /// use dirwolleu::{Error, LockOptions, Session};
    ///
    /// /// Works while a lock is held.
    /// async fn work(session: &Session) -> Result<(), Error> {
    ///     let lock = LockOptions::new().contend(session, "/locks/ledger")?.await?;
    ///     println!("held with token {}", lock.token());
    ///     lock.lost().await;
    ///     Ok(())
    /// }
    /// ```
    ///
    /// # Errors
    ///
    /// The path is invalid, memory ran out, or the session is over.
    pub fn contend<'s>(self, session: &'s Session, path: &str) -> Result<Contending<'s>, Error> {
        Contending::by(self.naming(), session, path, self)
    }

    /// The naming of its place.
    pub(crate) const fn naming(&self) -> Naming {
        self.names.naming(self.sharing)
    }

    /// Joins with this naming, and returns the contender's ticket. Events are delivered only if `is_told`.
    pub(crate) fn join(
        self,
        engine: &mut Engine,
        naming: Naming,
        path: &str,
        is_told: bool,
    ) -> Result<u64, ErrorKind> {
        let entry = Entry {
            directory: engine.chroot().outer(path)?.into_owned(),
            naming,
            guid: new_guid(naming),
            data: self.data.to_vec(),
            acls: self.acls.to_vec(),
        };
        engine.contend(&entry, is_told.then_some(path))
    }
}

/// A contender of a session. Dropping it gives up.
#[derive(Debug)]
struct Stake<'s> {
    session: &'s Session,
    ticket: u64,
    is_left: bool,
}

impl<'s> Stake<'s> {
    fn leave(&mut self) {
        if !mem::replace(&mut self.is_left, true) {
            self.session.change(|engine| engine.give_up(self.ticket));
        }
    }

    /// Hands the contender over: it gives up when the new owner is dropped, and no longer when this one is.
    fn hand_on(&mut self) -> Stake<'s> {
        Stake {
            session: self.session,
            ticket: self.ticket,
            is_left: mem::replace(&mut self.is_left, true),
        }
    }
}

impl Drop for Stake<'_> {
    fn drop(&mut self) {
        self.leave();
    }
}

/// A future from [`LockOptions::contend`] that is ready once the lock is held. Dropping it gives up.
#[must_use = "to drop it gives the place up"]
pub struct Contending<'s> {
    stake: Stake<'s>,
    path: String,
    poller: Poller,
}

impl<'s> Contending<'s> {
    /// Contends with this naming.
    pub(crate) fn by(
        naming: Naming,
        session: &'s Session,
        path: &str,
        options: LockOptions<'_>,
    ) -> Result<Contending<'s>, Error> {
        let joined = session.change(|engine| options.join(engine, naming, path, false));
        let ticket = joined.map_err(|kind| Error::about(Some(path), kind))?;
        Ok(Contending {
            stake: Stake {
                session,
                ticket,
                is_left: false,
            },
            path: String::from(path),
            poller: session.poller(),
        })
    }

    /// Waits until this instant at most.
    pub(crate) fn wait_until(mut self, until: Option<Instant>) -> Result<Lock<'s>, Error> {
        let (session, ticket) = (self.stake.session, self.stake.ticket);
        loop {
            session.wait_while(until, |engine| engine.is_contending(ticket));
            match session.change(|engine| engine.take_hold(ticket)) {
                Poll::Ready(found) => return self.end(found),
                Poll::Pending if until.is_some_and(|until| until <= Instant::now()) => {
                    return self.end(Err(ErrorKind::LockTimeout));
                }
                Poll::Pending => {}
            }
        }
    }

    /// Holds the lock, or gives up for this reason.
    fn end(&mut self, found: Result<Hold, ErrorKind>) -> Result<Lock<'s>, Error> {
        let stake = self.stake.hand_on();
        match found {
            Ok(hold) => Ok(Lock::of(stake, hold)),
            Err(kind) => Err(Error::about(Some(&self.path), kind)),
        }
    }
}

impl<'s> Future for Contending<'s> {
    type Output = Result<Lock<'s>, Error>;

    /// # Panics
    ///
    /// If polled again after it was ready.
    fn poll(mut self: Pin<&mut Self>, context: &mut Context<'_>) -> Poll<Self::Output> {
        assert!(!self.stake.is_left, "a lock is polled after its end");
        let ticket = self.stake.ticket;
        let found = self.poller.poll(context, |engine| engine.take_hold(ticket));
        found.map(|found| self.end(found))
    }
}

impl fmt::Debug for Contending<'_> {
    fn fmt(&self, f: &mut fmt::Formatter<'_>) -> fmt::Result {
        f.debug_struct("Contending")
            .field("path", &self.path)
            .finish_non_exhaustive()
    }
}

/// A held lock: until it is released, somebody deletes its place, or the session expires.
///
/// *Held* means that this lock came first at the last zxid the session has seen. Without a connection it stays so, although another program may
/// hold the lock by now: [`check`](Lock::check) is false once no server was heard for as long as you allow. A program that was suspended cannot even
/// ask in time. So pass the [token](Lock::token) with each request to the protected resource, and let that refuse any token below the greatest it has
/// seen.
///
/// A lost lock gives up by itself. However a lock ends, the session deletes its node, on as many connections as it takes, until no node is left
/// or the session is over.
///
/// ```no_run
/// use dirwolleu::{Lock, Session, Sharing};
/// use std::time::Duration;
///
/// # fn store(token: i64) {}
/// # fn main() -> Result<(), Box<dyn std::error::Error>> {
/// let session = Session::open("127.0.0.1:2181", Duration::from_secs(10))?;
/// let lock = Lock::acquire(&session, "/locks/ledger", Sharing::Exclusive, b"host-1")?;
/// while lock.check(Duration::from_secs(5)) {
///     store(lock.token()); // it refuses a token below one that it has seen
/// }
/// lock.release()?;
/// # Ok(())
/// # }
/// ```
#[derive(Debug)]
#[must_use = "to drop it lets the lock go"]
pub struct Lock<'a> {
    stake: Stake<'a>,
    place: String,
    token: i64,
}

impl<'a> Lock<'a> {
    fn of(stake: Stake<'a>, (token, place): Hold) -> Lock<'a> {
        Lock {
            stake,
            place,
            token,
        }
    }

    /// Waits until the lock is held, with kazoo's names ([`LockOptions`] has other ways). Creates the lock's node if it is missing, and puts
    /// these data into its place.
    ///
    /// # Errors
    ///
    /// As [`LockOptions::acquire`].
    pub fn acquire(
        session: &'a Session,
        path: &str,
        sharing: Sharing,
        data: &[u8],
    ) -> Result<Lock<'a>, Error> {
        let options = LockOptions::new().sharing(sharing).data(data);
        options.acquire(session, path)
    }

    /// The fencing token: the zxid that created its place. Each later holder has a greater one.
    #[must_use]
    pub fn token(&self) -> i64 {
        self.token
    }

    /// The path of its place. [`exists`](Session::exists) of it asks a server.
    #[must_use]
    pub fn place(&self) -> &str {
        &self.place
    }

    /// Whether the lock is held at the [last zxid](Session::last_zxid). Sends nothing.
    #[must_use]
    pub fn is_held(&self) -> bool {
        self.stake.session.view(|view| self.is_held_in(view))
    }

    pub(crate) fn is_held_in(&self, view: View<'_>) -> bool {
        view.held(self.stake.ticket) == Some(self.token)
    }

    /// Whether the lock is held at the last zxid and a server was heard within this time. Sends nothing.
    #[must_use]
    pub fn check(&self, within: Duration) -> bool {
        let session = self.stake.session;
        session.view(|view| self.is_held_in(view) && view.is_heard_within(within))
    }

    /// Waits until the lock is known to be lost, at most this long. Returns whether it is.
    #[must_use]
    pub fn is_lost_within(&self, limit: Duration) -> bool {
        let until = Instant::now().checked_add(limit);
        let session = self.stake.session;
        session.wait_until(until, |view| self.is_held_in(view));
        !self.is_held()
    }

    /// A future, for any runtime, that is ready once the lock is known to be lost.
    pub fn lost(&self) -> impl Future<Output = ()> + '_ {
        Loss {
            lock: self,
            poller: self.stake.session.poller(),
        }
    }

    /// Releases the lock and waits until its node is gone, at most twice the session's timeout. Dropping the lock releases it without waiting.
    ///
    /// # Errors
    ///
    /// Why the node, whose path the error has, may still be there: [`ErrorKind::TimedOut`] if no server was reached, or why a server refused to
    /// delete it. The session goes on trying, and the node goes with the session at the latest.
    pub fn release(mut self) -> Result<(), Error> {
        let (session, ticket) = (self.stake.session, self.stake.ticket);
        self.stake.leave();
        let until = Instant::now().checked_add(session.timeout() * 2);
        session.wait_while(until, |engine| engine.is_leaving(ticket));
        match session.change(|engine| engine.fault_of_leaving(ticket)) {
            Some(kind) => Err(Error::about(Some(&self.place), kind)),
            None => Ok(()),
        }
    }
}

/// Waits for the loss of a lock.
struct Loss<'l> {
    lock: &'l Lock<'l>,
    poller: Poller,
}

impl Future for Loss<'_> {
    type Output = ();

    fn poll(self: Pin<&mut Self>, context: &mut Context<'_>) -> Poll<()> {
        let lock = self.lock;
        self.poller.poll(context, |engine| {
            if lock.is_held_in(View::of(engine)) {
                return Poll::Pending;
            }
            Poll::Ready(())
        })
    }
}

/// An election: each candidate leads once those before it have resigned or are gone. It is an exclusive lock whose places say who made them. All
/// candidates of a path must use the same [`LockNames`]: kazoo's work with kazoo's `Election`, Curator's with its `LeaderSelector`, and a latch's
/// with its `LeaderLatch`.
///
/// ```no_run
/// use dirwolleu::{Election, Session};
/// use std::time::Duration;
///
/// # fn main() -> Result<(), Box<dyn std::error::Error>> {
/// let session = Session::open("127.0.0.1:2181", Duration::from_secs(10))?;
/// let election = Election::new(&session, "/leader");
/// println!("{:?} leads", election.leader()?);
/// let office = election.lead(b"host-1")?; // waits
/// println!("host-1 leads, with token {}", office.token());
/// office.release()?;
/// # Ok(())
/// # }
/// ```
#[derive(Clone, Debug)]
pub struct Election<'a> {
    session: &'a Session,
    path: String,
    names: LockNames,
    acls: Vec<Acl>,
}

/// The markers of candidates' places.
const OF_CANDIDATES: Markers<'_> = Markers {
    own: "__lock__",
    against: &["__lock__", "lock-", "latch-"],
};

/// A name whose number is above that of any place.
const AFTER_ALL: &str = "__lock__9999999999";

impl<'a> Election<'a> {
    /// The election at this node, with kazoo's names. The node is created if it is missing.
    #[must_use]
    pub fn new(session: &'a Session, path: &str) -> Election<'a> {
        Election {
            session,
            path: String::from(path),
            names: LockNames::Kazoo,
            acls: Vec::new(),
        }
    }

    /// The same with these names, which all candidates must use.
    #[must_use]
    pub fn names(mut self, names: LockNames) -> Election<'a> {
        self.names = names;
        self
    }

    /// The same with this ACL for the places and for the parents it creates. An empty list gives everybody every right.
    #[must_use]
    pub fn acls(mut self, acls: &[Acl]) -> Election<'a> {
        self.acls = acls.to_vec();
        self
    }

    /// Becomes a candidate and waits until it leads. The office is a [`Lock`]: pass its token on, and release it to resign.
    ///
    /// # Errors
    ///
    /// As [`LockOptions::acquire`].
    pub fn lead(&self, data: &[u8]) -> Result<Lock<'a>, Error> {
        self.contend(data)?.wait_until(None)
    }

    /// Becomes a candidate without waiting, and returns a future as [`LockOptions::contend`] does.
    ///
    /// # Errors
    ///
    /// As [`LockOptions::contend`].
    pub fn contend(&self, data: &[u8]) -> Result<Contending<'a>, Error> {
        let options = LockOptions::new().names(self.names).data(data);
        options.acls(&self.acls).contend(self.session, &self.path)
    }

    /// The data of the candidates, the leader's first.
    ///
    /// # Errors
    ///
    /// An error of a read that trying again will not mend.
    pub fn candidates(&self) -> Result<Vec<Vec<u8>>, Error> {
        loop {
            match candidates(&mut &*self.session, &self.path) {
                Err(error) if error.is_passing() || self.session.lives_through(&error) => {}
                found => return found,
            }
        }
    }

    /// The leader's data, or `None` if there is no candidate.
    ///
    /// # Errors
    ///
    /// An error of a read that trying again will not mend.
    pub fn leader(&self) -> Result<Option<Vec<u8>>, Error> {
        Ok(self.candidates()?.into_iter().next())
    }
}

/// The data of an election's candidates, the leader's first.
pub(crate) fn candidates(session: &mut impl Caller, path: &str) -> Result<Vec<Vec<u8>>, Error> {
    let (names, listed) = match session.answer(Request::listing(path)) {
        Err(error) if error.code() == Some(Code::NO_NODE) => return Ok(Vec::new()),
        listing => listing?,
    };
    let mut candidates = Vec::new();
    for name in in_order(session, path, &names, listed)? {
        match session.answer(Request::get(&child_of(path, &name))) {
            Ok(node) => candidates.push(node.data.unwrap_or_default()),
            Err(error) if error.code() == Some(Code::NO_NODE) => {}
            Err(error) => return Err(error),
        }
    }
    Ok(candidates)
}

/// Those of these names that are candidates' places, in order. The core says which one is before each.
fn in_order(
    session: &impl Caller,
    path: &str,
    names: &[String],
    listed: i64,
) -> Result<Vec<String>, Error> {
    let mut found = vec![String::from(AFTER_ALL)];
    loop {
        let contender = Contender {
            directory: path,
            name: &found[found.len() - 1],
            names,
            listed,
            markers: OF_CANDIDATES,
        };
        match session.view(|view| view.rival(&contender))? {
            Some(rival) => found.push(rival),
            None => return Ok(found.into_iter().skip(1).rev().collect()),
        }
    }
}
