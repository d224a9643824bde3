//! Requests to the servers.

use crate::acl::{Acl, Id};
use crate::action::Actions;
use crate::answer::Answer;
use crate::credentials::Credential;
use crate::error::Error;
use crate::fault::{Code, Fault};
use crate::machine::Machine;
use crate::moment::Moment;
use crate::multi_read::{Read, ReadAnswer};
use crate::node::{Mode, Node, Stat, Watch};
use crate::raw::{Lifetime, RawCall};
use crate::ticket::CallResult;
use std::fmt;
use std::sync::Arc;
use std::time::{Duration, Instant};

/// A call of the core, without its path and data.
#[derive(Clone, Copy)]
pub(crate) enum CoreCall {
    Exists(Watch),
    Data(Watch),
    Children(Watch),
    Set { version: i32 },
    Create { mode: Mode },
    Delete { version: i32 },
    Close,
}

impl CoreCall {
    /// Makes the call on the machine, about the node at this path of the servers', with this moment as its limit.
    #[inline]
    pub(crate) fn ask<'a>(
        self,
        machine: &'a mut Machine,
        now: Moment,
        ticket: u64,
        until: Moment,
        path: &str,
        data: &[u8],
    ) -> Result<Actions<'a>, Fault> {
        let until = Some(until);
        match self {
            CoreCall::Exists(watch) => machine.exists(now, ticket, until, path, watch),
            CoreCall::Data(watch) => machine.get_data(now, ticket, until, path, watch),
            CoreCall::Children(watch) => machine.get_children(now, ticket, until, path, watch),
            CoreCall::Set { version } => {
                machine.set_data(now, ticket, until, path, Some(data), version)
            }
            CoreCall::Create { mode } => machine.create(now, ticket, until, path, Some(data), mode),
            CoreCall::Delete { version } => machine.delete(now, ticket, until, path, version),
            CoreCall::Close => machine.close_session(now, ticket, until),
        }
    }
}

/// A call without its path. It does not have the data of a core call.
#[derive(Clone)]
pub(crate) enum Call {
    Core(CoreCall),
    /// Shared with whoever parses its answer.
    Raw(Arc<RawCall>),
    Auth(Credential),
}

impl From<LentCall<'_>> for Call {
    fn from(call: LentCall<'_>) -> Call {
        match call {
            LentCall::Core(call) => Call::Core(call),
            LentCall::Raw(call) => Call::Raw(Arc::clone(call)),
            LentCall::Auth(credential) => Call::Auth(credential.clone()),
        }
    }
}

impl From<RawCall> for Call {
    fn from(call: RawCall) -> Call {
        Call::Raw(Arc::new(call))
    }
}

impl Call {
    fn lend(&self) -> LentCall<'_> {
        match self {
            Call::Core(call) => LentCall::Core(*call),
            Call::Raw(call) => LentCall::Raw(call),
            Call::Auth(credential) => LentCall::Auth(credential),
        }
    }

    /// Whether it leaves the servers unchanged.
    fn is_read(&self) -> bool {
        match self {
            Call::Core(CoreCall::Exists(_) | CoreCall::Data(_) | CoreCall::Children(_))
            | Call::Auth(_) => true,
            Call::Core(_) => false,
            Call::Raw(call) => call.is_read(),
        }
    }
}

/// A lent call.
#[derive(Clone, Copy)]
pub(crate) enum LentCall<'a> {
    Core(CoreCall),
    Raw(&'a Arc<RawCall>),
    Auth(&'a Credential),
}

impl LentCall<'_> {
    /// Whether it is about a node.
    pub(crate) fn has_node(self) -> bool {
        match self {
            LentCall::Core(call) => !matches!(call, CoreCall::Close),
            LentCall::Raw(call) => call.has_node(),
            LentCall::Auth(_) => false,
        }
    }

    pub(crate) fn is_close(self) -> bool {
        matches!(self, LentCall::Core(CoreCall::Close))
    }
}

/// A call as the engine borrows it.
#[derive(Clone, Copy)]
pub(crate) struct Asking<'a> {
    pub(crate) path: &'a str,
    /// The data of a core call.
    pub(crate) data: &'a [u8],
    pub(crate) call: LentCall<'a>,
    /// How long it waits at most, if it has a limit of its own.
    pub(crate) limit: Option<Duration>,
}

/// A request whose answer is a `T`.
///
/// [`Session::ask`](crate::Session::ask) sends it and goes on; [`Session::call`](crate::Session::call) waits for its answer. Each function
/// here has a function of the same name in a session, which makes that call.
///
/// ```no_run
/// use dirwolleu::{Request, Session};
/// # use std::time::Duration;
///
/// # fn main() -> Result<(), Box<dyn std::error::Error>> {
/// # let session = Session::open("127.0.0.1:2181", Duration::from_secs(10))?;
/// let tickets: Vec<_> = ["/a", "/b", "/c"].map(|path| session.ask(Request::get(path).watched())).into();
/// for ticket in tickets {
///     println!("{:?}", ticket.wait()?.data); // all three were on their way at once
/// }
/// # Ok(())
/// # }
/// ```
#[must_use = "it is not sent before it is asked"]
pub struct Request<T> {
    pub(crate) path: String,
    /// The data of a core call: empty for another one.
    pub(crate) data: Vec<u8>,
    pub(crate) call: Call,
    /// How long it waits at most, if it has a limit of its own.
    pub(crate) limit: Option<Duration>,
    pub(crate) read: fn(CallResult) -> Result<T, Error>,
}

impl<T> Request<T> {
    pub(crate) fn new(
        path: &str,
        call: Call,
        read: fn(CallResult) -> Result<T, Error>,
    ) -> Request<T> {
        Request {
            path: String::from(path),
            data: Vec::new(),
            call,
            limit: None,
            read,
        }
    }

    /// Sets how long it waits at most, including the time that it waits for a connection and is repeated after a lost one. At its limit it
    /// fails as [`Session::call`](crate::Session::call) says.
    ///
    /// ```no_run
    /// use dirwolleu::{Request, Session};
    /// use std::time::Duration;
    ///
    /// # fn main() -> Result<(), Box<dyn std::error::Error>> {
    /// # let session = Session::open("127.0.0.1:2181", Duration::from_secs(10))?;
    /// let node = session.call(Request::get("/a").within(Duration::from_secs(2)))?;
    /// # Ok(())
    /// # }
    /// ```
    pub fn within(mut self, limit: Duration) -> Request<T> {
        self.limit = Some(limit);
        self
    }

    /// Lends the request, which can then be repeated.
    pub(crate) fn lend(&self) -> LentRequest<'_, T> {
        let asking = Asking {
            path: &self.path,
            data: &self.data,
            call: self.call.lend(),
            limit: self.limit,
        };
        LentRequest {
            asking,
            read: self.read,
        }
    }

    /// The same, waiting at most until this instant, if there is one.
    pub(crate) fn until(self, until: Option<Instant>) -> Request<T> {
        match until {
            Some(until) => self.within(until.saturating_duration_since(Instant::now())),
            None => self,
        }
    }

    /// Whether it only reads. A read is always safe to repeat; a write is safe to repeat if it was not sent or was refused.
    pub fn is_read(&self) -> bool {
        self.call.is_read()
    }

    /// Whether it is safe, and of use, to repeat it after this error.
    pub(crate) fn may_be_repeated(&self, fault: &Error) -> bool {
        fault.is_passing() && (self.is_read() || !fault.may_have_happened())
    }
}

/// A request that borrows its path and data from its caller. A session without a thread makes it without copying either.
pub(crate) struct LentRequest<'a, T> {
    pub(crate) asking: Asking<'a>,
    pub(crate) read: fn(CallResult) -> Result<T, Error>,
}

impl<'a, T> LentRequest<'a, T> {
    fn new(
        path: &'a str,
        data: &'a [u8],
        call: CoreCall,
        read: fn(CallResult) -> Result<T, Error>,
    ) -> LentRequest<'a, T> {
        let asking = Asking {
            path,
            data,
            call: LentCall::Core(call),
            limit: None,
        };
        LentRequest { asking, read }
    }
}

impl<T> From<LentRequest<'_, T>> for Request<T> {
    fn from(lent: LentRequest<'_, T>) -> Request<T> {
        let Asking {
            path,
            data,
            call,
            limit,
        } = lent.asking;
        Request {
            path: String::from(path),
            data: data.to_vec(),
            call: call.into(),
            limit,
            read: lent.read,
        }
    }
}

impl<'a> LentRequest<'a, Option<Stat>> {
    pub(crate) fn exists(path: &'a str) -> Self {
        LentRequest::new(
            path,
            &[],
            CoreCall::Exists(Watch::No),
            |ending| match ending {
                Ok(found) => Ok(Some(found.stat)),
                Err(error) if error.code() == Some(Code::NO_NODE) => Ok(None),
                Err(error) => Err(error),
            },
        )
    }
}

impl<'a> LentRequest<'a, Node> {
    pub(crate) fn get(path: &'a str) -> Self {
        LentRequest::new(
            path,
            &[],
            CoreCall::Data(Watch::No),
            |ending| match ending {
                Ok(Answer { content, stat, .. }) => Ok(Node {
                    data: content.data(),
                    stat,
                }),
                Err(error) => Err(error),
            },
        )
    }
}

impl<'a> LentRequest<'a, (Vec<String>, Stat)> {
    pub(crate) fn children(path: &'a str) -> Self {
        LentRequest::new(path, &[], CoreCall::Children(Watch::No), |ending| {
            ending.map(|found| (found.content.names(), found.stat))
        })
    }
}

impl<'a> LentRequest<'a, Stat> {
    pub(crate) fn set(path: &'a str, data: &'a [u8], version: i32) -> Self {
        LentRequest::new(
            path,
            data,
            CoreCall::Set { version },
            |ending| match ending {
                Ok(Answer { stat, .. }) => Ok(stat),
                Err(error) => Err(error),
            },
        )
    }
}

impl<'a> LentRequest<'a, String> {
    pub(crate) fn create(path: &'a str, data: &'a [u8], mode: Mode) -> Self {
        LentRequest::new(path, data, CoreCall::Create { mode }, |ending| {
            ending
                .map(|found| found.content.path())
                .map_err(Error::of_create)
        })
    }
}

impl<'a> LentRequest<'a, ()> {
    pub(crate) fn delete(path: &'a str, version: i32) -> Self {
        LentRequest::new(path, &[], CoreCall::Delete { version }, |ending| {
            ending.map(drop)
        })
    }
}

impl Request<Option<Stat>> {
    /// Asks for the `Stat` of a node, or `None` if there is no node.
    pub fn exists(path: &str) -> Request<Option<Stat>> {
        LentRequest::exists(path).into()
    }

    /// The same, and leaves a watch, even if there is no node.
    pub fn watched(mut self) -> Request<Option<Stat>> {
        self.call = Call::Core(CoreCall::Exists(Watch::Yes));
        self
    }
}

impl Request<Node> {
    /// Asks for the data of a node. Without a node the answer is [`Code::NO_NODE`].
    pub fn get(path: &str) -> Request<Node> {
        LentRequest::get(path).into()
    }

    /// The same, and leaves a watch if there is a node.
    pub fn watched(mut self) -> Request<Node> {
        self.call = Call::Core(CoreCall::Data(Watch::Yes));
        self
    }
}

impl Request<(Vec<String>, Stat)> {
    /// Asks for the names of a node's children, in no particular order, and its `Stat`. Without a node the answer is [`Code::NO_NODE`].
    pub fn children(path: &str) -> Request<(Vec<String>, Stat)> {
        LentRequest::children(path).into()
    }

    /// The same, and leaves a watch if there is a node.
    pub fn watched(mut self) -> Request<(Vec<String>, Stat)> {
        self.call = Call::Core(CoreCall::Children(Watch::Yes));
        self
    }
}

impl Request<(Vec<String>, i64)> {
    /// The names of a node's children, and the zxid at which it has these.
    pub(crate) fn listing(path: &str) -> Request<(Vec<String>, i64)> {
        Request::new(path, Call::Core(CoreCall::Children(Watch::No)), |ending| {
            ending.map(|found| (found.content.names(), found.zxid))
        })
    }
}

impl Request<Stat> {
    /// Sets the data of a node if it has this version; [`ANY_VERSION`](crate::ANY_VERSION) matches any.
    pub fn set(path: &str, data: &[u8], version: i32) -> Request<Stat> {
        LentRequest::set(path, data, version).into()
    }

    /// Sets the ACL of a node if the ACL has this version ([`Stat::aversion`]); [`ANY_VERSION`](crate::ANY_VERSION) matches any.
    pub fn set_acls(path: &str, acls: &[Acl], version: i32) -> Request<Stat> {
        let acls = acls.to_vec();
        let call = RawCall::SetAcls { acls, version };
        Request::new(path, call.into(), |ending| ending.map(|found| found.stat))
    }
}

impl Request<(Vec<Acl>, Stat)> {
    /// Asks for the ACL and the `Stat` of a node.
    pub fn acls(path: &str) -> Request<(Vec<Acl>, Stat)> {
        Request::new(path, RawCall::Acls.into(), |ending| {
            ending.map(|found| (found.content.records().acls, found.stat))
        })
    }
}

impl Request<String> {
    /// Creates a node and returns its path, to which a sequential create appends ten digits.
    pub fn create(path: &str, data: &[u8], mode: Mode) -> Request<String> {
        LentRequest::create(path, data, mode).into()
    }

    /// The same with this ACL. It uses `create2`, which ZooKeeper has since version 3.5. The path of a sequential node may end with `/`:
    /// then its name is the number alone.
    pub fn create_with_acls(path: &str, data: &[u8], mode: Mode, acls: &[Acl]) -> Request<String> {
        Request::created(path, data, acls, Lifetime::Mode(mode))
    }

    /// Creates a persistent node. Without an ACL entry it uses `create`, which each server has.
    pub(crate) fn persistent(path: &str, data: &[u8], acls: &[Acl]) -> Request<String> {
        if acls.is_empty() {
            return Request::create(path, data, Mode::Persistent);
        }
        Request::create_with_acls(path, data, Mode::Persistent, acls)
    }

    /// Creates a container: a node that the servers delete once its last child is gone (ZooKeeper Programmer's Guide, *Container Nodes*).
    pub fn create_container(path: &str, data: &[u8], acls: &[Acl]) -> Request<String> {
        Request::created(path, data, acls, Lifetime::Container)
    }

    /// Creates a node that the servers delete once it has had no change and no children for this long, in whole milliseconds: at least 1
    /// and less than 2^40, or the answer is [`Code::BAD_ARGUMENTS`]. Servers keep such nodes only if they are configured to (Programmer's
    /// Guide, *TTL Nodes*): else the answer is [`Code::UNIMPLEMENTED`]. The mode is [`Mode::Persistent`] or [`Mode::PersistentSequential`];
    /// with another one nothing is sent, and it fails with [`Fault::EphemeralWithTtl`].
    pub fn create_with_ttl(
        path: &str,
        data: &[u8],
        mode: Mode,
        ttl: Duration,
        acls: &[Acl],
    ) -> Request<String> {
        Request::created(path, data, acls, Lifetime::Ttl { mode, ttl })
    }

    fn created(path: &str, data: &[u8], acls: &[Acl], lifetime: Lifetime) -> Request<String> {
        Request::new(path, creation(data, acls, lifetime), |ending| {
            ending
                .map(|found| found.content.path())
                .map_err(Error::of_create)
        })
    }
}

/// A create that returns the path and the `Stat` of the node.
fn creation(data: &[u8], acls: &[Acl], lifetime: Lifetime) -> Call {
    let (data, acls) = (data.to_vec(), acls.to_vec());
    let call = RawCall::Create {
        data,
        acls,
        lifetime,
    };
    call.into()
}

impl Request<(String, Stat)> {
    /// As [`create_with_acls`](Request::create_with_acls), and also returns the node's `Stat`.
    pub fn create2(path: &str, data: &[u8], mode: Mode, acls: &[Acl]) -> Request<(String, Stat)> {
        Request::new(path, creation(data, acls, Lifetime::Mode(mode)), |ending| {
            let found = ending.map_err(Error::of_create)?;
            Ok((found.content.path(), found.stat))
        })
    }
}

impl Request<Vec<Result<ReadAnswer, Code>>> {
    /// Reads several nodes at one zxid, and returns in their order each one's answer, or the code with which the server refused it.
    /// ZooKeeper has it since version 3.6. It leaves no watch.
    pub fn multi_read(reads: &[Read]) -> Request<Vec<Result<ReadAnswer, Code>>> {
        let call = RawCall::Reads(reads.to_vec());
        Request::new("/", call.into(), |ending| {
            ending.map(|found| found.content.records().answers)
        })
    }
}

impl Request<Vec<String>> {
    /// Asks for the paths of the session's ephemeral nodes that begin with this one, which need not be the path of a node: `/a` begins
    /// `/ab` too. ZooKeeper has it since version 3.6.
    pub fn ephemerals(prefix: &str) -> Request<Vec<String>> {
        Request::new(prefix, RawCall::Ephemerals.into(), |ending| {
            ending.map(|found| found.content.records().paths)
        })
    }
}

impl Request<i32> {
    /// Counts the nodes below a node, at all depths. Without a node the answer is [`Code::NO_NODE`]. ZooKeeper has it since version 3.6.
    pub fn all_children_number(path: &str) -> Request<i32> {
        Request::new(path, RawCall::AllChildrenNumber.into(), |ending| {
            ending.map(|found| found.content.records().count)
        })
    }
}

impl Request<Vec<Id>> {
    /// Asks for the identities under which the server knows the session: its address, and its credentials. ZooKeeper has it since version
    /// 3.7; before, the answer is [`Code::UNIMPLEMENTED`].
    pub fn who_am_i() -> Request<Vec<Id>> {
        Request::new("/", RawCall::WhoAmI.into(), |ending| {
            ending.map(|found| found.content.records().ids)
        })
    }
}

impl Request<()> {
    /// Deletes a node if it has this version and no children; [`ANY_VERSION`](crate::ANY_VERSION) matches any.
    pub fn delete(path: &str, version: i32) -> Request<()> {
        LentRequest::delete(path, version).into()
    }

    /// Makes the connected server catch up with the leader: a later read shows no state older than the leader's when this was asked.
    pub fn sync(path: &str) -> Request<()> {
        Request::new(path, RawCall::Sync.into(), |ending| ending.map(drop))
    }

    /// Authenticates the session, now and on each later connection.
    pub fn auth(scheme: &str, credentials: &[u8]) -> Request<()> {
        let call = Call::Auth(Credential::new(scheme, credentials));
        Request::new("/", call, |ending| ending.map(drop))
    }

    /// Ends the session.
    pub(crate) fn close() -> Request<()> {
        Request::new("/", Call::Core(CoreCall::Close), |ending| ending.map(drop))
    }
}

impl<T> Clone for Request<T> {
    fn clone(&self) -> Request<T> {
        Request {
            path: self.path.clone(),
            data: self.data.clone(),
            call: self.call.clone(),
            limit: self.limit,
            read: self.read,
        }
    }
}

/// Prints no data.
impl<T> fmt::Debug for Request<T> {
    fn fmt(&self, f: &mut fmt::Formatter<'_>) -> fmt::Result {
        f.debug_struct("Request")
            .field("path", &self.path)
            .finish_non_exhaustive()
    }
}
