//! A semaphore: contenders of the session's machine, once the node at its path has the number of its leases, which this module reads.

use crate::acl::Acl;
use crate::contention::Naming;
use crate::error::{Error, ErrorKind};
use crate::fault::Code;
use crate::lock::{Contending, Lock, LockOptions};
use crate::paths::{child_of, ensure, parent_of};
use crate::request::Request;
use crate::session::Session;
use crate::session_methods::Caller;
use std::num::NonZeroU32;
use std::time::{Duration, Instant};

/// The node below which Curator's `InterProcessSemaphoreV2` has its leases.
const OF_CURATOR: &str = "leases";

/// A lock with several holders, each by a lease: an ephemeral node below the path. The core decides who holds, the first ones up to the limit:
/// see [`Naming::Leases`].
///
/// The node at the path has the limit as a negative number. kazoo's semaphores, which count other nodes, have a positive one there, and Curator's
/// have other nodes below it: using a path of theirs is an error, [`ErrorKind::MixedNames`].
///
/// ```no_run
/// use dirwolleu::{Semaphore, Session};
/// use std::time::Duration;
///
/// # fn main() -> Result<(), Box<dyn std::error::Error>> {
/// let session = Session::open("127.0.0.1:2181", Duration::from_secs(10))?;
/// let semaphore = Semaphore::new(&session, "/downloads", 3);
/// let lease = semaphore.acquire(b"host-1")?; // one of three
/// if lease.check(Duration::from_secs(5)) {
///     println!("it was held when a server was heard last, which is no longer ago");
/// }
/// lease.release()?;
/// # Ok(())
/// # }
/// ```
#[derive(Clone, Debug)]
pub struct Semaphore<'a> {
    session: &'a Session,
    path: String,
    most: NonZeroU32,
    acls: Vec<Acl>,
}

/// A lease of a [`Semaphore`]: a [`Lock`] beside others. Its token cannot fence, because other holders' tokens may be greater.
pub type Lease<'a> = Lock<'a>;

impl<'a> Semaphore<'a> {
    /// The semaphore at this node, for at most this many holders, at least one. The node is created if it is missing.
    #[must_use]
    pub fn new(session: &'a Session, path: &str, most: u32) -> Semaphore<'a> {
        Semaphore {
            session,
            path: String::from(path),
            most: NonZeroU32::new(most).unwrap_or(NonZeroU32::MIN),
            acls: Vec::new(),
        }
    }

    /// The same with this ACL for the leases and for the nodes at the path and above it that it creates. An empty list gives everybody every right.
    #[must_use]
    pub fn acls(mut self, acls: &[Acl]) -> Semaphore<'a> {
        self.acls = acls.to_vec();
        self
    }

    /// Waits for a lease whose node has these data.
    ///
    /// # Errors
    ///
    /// As [`LockOptions::acquire`](crate::LockOptions::acquire); [`ErrorKind::OtherNumber`] if the node has another limit, and
    /// [`ErrorKind::MixedNames`] if the node is a semaphore of kazoo's or Curator's.
    pub fn acquire(&self, data: &[u8]) -> Result<Lease<'a>, Error> {
        self.take(data, None)
    }

    /// The same, but waits at most this long.
    ///
    /// # Errors
    ///
    /// As [`acquire`](Semaphore::acquire), and [`ErrorKind::LockTimeout`].
    pub fn acquire_within(&self, data: &[u8], limit: Duration) -> Result<Lease<'a>, Error> {
        self.take(data, Instant::now().checked_add(limit))
    }

    /// Contends for a lease and returns a future, as [`LockOptions::contend`](crate::LockOptions::contend) does. It waits only until it has read the
    /// node's limit.
    ///
    /// # Errors
    ///
    /// As [`acquire`](Semaphore::acquire).
    pub fn contend(&self, data: &[u8]) -> Result<Contending<'a>, Error> {
        self.begin(data, None)
    }

    fn begin(&self, data: &[u8], until: Option<Instant>) -> Result<Contending<'a>, Error> {
        let naming = self.agree(until)?;
        let options = LockOptions::new().data(data).acls(&self.acls);
        Contending::by(naming, self.session, &self.path, options)
    }

    fn take(&self, data: &[u8], until: Option<Instant>) -> Result<Lease<'a>, Error> {
        self.begin(data, until)?.wait_until(until)
    }

    /// Makes sure that the node has the limit. It outlives lost connections and, in a session that renews itself, expired sessions.
    fn agree(&self, until: Option<Instant>) -> Result<Naming, Error> {
        let number = LeaseNumber {
            path: &self.path,
            most: self.most,
            acls: &self.acls,
            until,
        };
        loop {
            match number.agree(&mut &*self.session) {
                Err(error) if error.is_passing() || self.session.lives_through(&error) => {
                    if until.is_some_and(|until| until <= Instant::now()) {
                        return Err(number.about(ErrorKind::LockTimeout));
                    }
                }
                agreed => return agreed,
            }
        }
    }
}

/// A semaphore's limit, which the node at its path is to have.
pub(crate) struct LeaseNumber<'a> {
    pub(crate) path: &'a str,
    pub(crate) most: NonZeroU32,
    pub(crate) acls: &'a [Acl],
    /// How long its calls may wait.
    pub(crate) until: Option<Instant>,
}

impl LeaseNumber<'_> {
    /// Makes sure that the node has it, and returns the naming of the leases.
    pub(crate) fn agree(&self, session: &mut impl Caller) -> Result<Naming, Error> {
        while !self.check(session)? {}
        Ok(Naming::Leases { most: self.most })
    }

    fn about(&self, kind: ErrorKind) -> Error {
        Error::about(Some(self.path), kind)
    }

    /// Whether the node exists and has the same limit, or none, like a node with another use. A missing node is created.
    fn check(&self, session: &mut impl Caller) -> Result<bool, Error> {
        let node = match session.answer(Request::get(self.path).until(self.until)) {
            Err(error) if error.code() == Some(Code::NO_NODE) => {
                return self.make_node(session).map(|()| false)
            }
            node => node?,
        };
        let data = String::from_utf8(node.data.unwrap_or_default());
        let number = data.ok().and_then(|data| data.trim().parse::<i64>().ok());
        let of_curator = Request::exists(&child_of(self.path, OF_CURATOR));
        match number {
            Some(1..) => Err(self.about(ErrorKind::MixedNames)),
            Some(number) if number != -i64::from(self.most.get()) => {
                let number = number.saturating_neg();
                Err(self.about(ErrorKind::OtherNumber { number }))
            }
            _ if session.answer(of_curator.until(self.until))?.is_some() => {
                Err(self.about(ErrorKind::MixedNames))
            }
            _ => Ok(true),
        }
    }

    fn make_node(&self, session: &mut impl Caller) -> Result<(), Error> {
        if let Some(above) = parent_of(self.path) {
            ensure(session, above, self.acls)?;
        }
        let number = format!("-{}", self.most);
        let create = Request::persistent(self.path, number.as_bytes(), self.acls);
        match session.answer(create.until(self.until)) {
            Err(error) if error.code() == Some(Code::NODE_EXISTS) => Ok(()),
            made => made.map(drop),
        }
    }
}
