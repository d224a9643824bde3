//! The methods that `Session` and `LocalSession` share.

use crate::error::Error;
use crate::fault::{Code, Fault};
use crate::node::Node;
use crate::request::Request;
use crate::view::View;
use std::time::Duration;

/// A session that asks and waits for the answer.
pub(crate) trait Caller {
    /// Asks and waits for the answer.
    fn answer<T>(&mut self, request: Request<T>) -> Result<T, Error>;

    /// Waits this long, or until the session ends.
    fn pass(&mut self, time: Duration) -> Result<(), Fault>;

    /// Looks up several things at one moment.
    fn view<R>(&self, look: impl FnOnce(View<'_>) -> R) -> R;
}

/// The pause before reading again, when a server finds a node but not its data.
const BETWEEN_READS: Duration = Duration::from_secs(1);

/// Reads a node's data and leaves a watch on its path, even if there is no node.
pub(crate) fn watch(session: &mut impl Caller, path: &str) -> Result<Option<Node>, Error> {
    loop {
        match session.answer(Request::get(path).watched()) {
            Err(error) if error.code() == Some(Code::NO_NODE) => {}
            found => return found.map(Some),
        }
        if session.answer(Request::exists(path).watched())?.is_none() {
            return Ok(None);
        }
        session.pass(BETWEEN_READS)?;
    }
}

/// The calls of a session. Each asks by `call` and waits.
macro_rules! calls {
    ($this:ident: [$($receiver:tt)+] $asks:expr) => {
        /// Returns the `Stat` of a node, or `None` if there is no node.
        ///
        /// # Errors
        ///
        /// As [`call`](Self::call).
        pub fn exists($($receiver)+, path: &str) -> Result<Option<Stat>, Error> {
            $this.call_lent(LentRequest::exists(path))
        }

        /// Returns the data and the `Stat` of a node. Without a node it fails with [`Code::NO_NODE`](crate::Code::NO_NODE).
        ///
        /// # Errors
        ///
        /// As [`call`](Self::call).
        pub fn get($($receiver)+, path: &str) -> Result<Node, Error> {
            $this.call_lent(LentRequest::get(path))
        }

        /// Returns the names of a node's children, in no particular order, and the node's `Stat`. Without a node it fails with
        /// [`Code::NO_NODE`](crate::Code::NO_NODE).
        ///
        /// # Errors
        ///
        /// As [`call`](Self::call).
        pub fn children($($receiver)+, path: &str) -> Result<(Vec<String>, Stat), Error> {
            $this.call_lent(LentRequest::children(path))
        }

        /// Returns the data of a node, or `None` if there is no node. Either way it leaves a watch on the path, so that the next change is
        /// reported, whatever it is, and the answer is kept.
        ///
        /// If the server finds the node but not its data, both are read again after a second, until they agree.
        ///
        /// # Errors
        ///
        /// As [`call`](Self::call).
        pub fn watch($($receiver)+, path: &str) -> Result<Option<Node>, Error> {
            watch($asks, path)
        }

        /// As [`children`](Self::children), but leaves a watch if there is a node, and then the answer is kept.
        ///
        /// # Errors
        ///
        /// As [`call`](Self::call).
        pub fn watch_children($($receiver)+, path: &str) -> Result<(Vec<String>, Stat), Error> {
            $this.call(Request::children(path).watched())
        }

        /// Sets the data of a node if it has this version; [`ANY_VERSION`](crate::ANY_VERSION) matches any.
        ///
        /// # Errors
        ///
        /// As [`call`](Self::call); the server refuses with [`Code::NO_NODE`](crate::Code::NO_NODE) or [`Code::BAD_VERSION`](crate::Code::BAD_VERSION).
        pub fn set($($receiver)+, path: &str, data: &[u8], version: i32) -> Result<Stat, Error> {
            $this.call_lent(LentRequest::set(path, data, version))
        }

        /// Creates a node and returns its path, to which a sequential create appends ten digits.
        ///
        /// # Errors
        ///
        /// As [`call`](Self::call); the server refuses with [`Code::NODE_EXISTS`](crate::Code::NODE_EXISTS), or with
        /// [`Code::NO_NODE`](crate::Code::NO_NODE) if the parent is missing.
        pub fn create($($receiver)+, path: &str, data: &[u8], mode: Mode) -> Result<String, Error> {
            $this.call_lent(LentRequest::create(path, data, mode))
        }

        /// Creates a node with this ACL, as [`Request::create_with_acls`] says; otherwise as [`create`](Self::create).
        ///
        /// # Errors
        ///
        /// As [`create`](Self::create), and [`Code::INVALID_ACL`](crate::Code::INVALID_ACL).
        pub fn create_with_acls(
            $($receiver)+,
            path: &str,
            data: &[u8],
            mode: Mode,
            acls: &[Acl],
        ) -> Result<String, Error> {
            $this.call(Request::create_with_acls(path, data, mode, acls))
        }

        /// The same, and also returns the new node's `Stat`.
        ///
        /// # Errors
        ///
        /// As [`create_with_acls`](Self::create_with_acls).
        pub fn create2(
            $($receiver)+,
            path: &str,
            data: &[u8],
            mode: Mode,
            acls: &[Acl],
        ) -> Result<(String, Stat), Error> {
            $this.call(Request::create2(path, data, mode, acls))
        }

        /// Creates a container: a node that the servers delete once its last child is gone.
        ///
        /// # Errors
        ///
        /// As [`create_with_acls`](Self::create_with_acls).
        pub fn create_container($($receiver)+, path: &str, data: &[u8], acls: &[Acl]) -> Result<String, Error> {
            $this.call(Request::create_container(path, data, acls))
        }

        /// Creates a node that the servers delete once it has had no change and no children for this long, as
        /// [`Request::create_with_ttl`] says.
        ///
        /// # Errors
        ///
        /// As [`create_with_acls`](Self::create_with_acls), and [`Fault::EphemeralWithTtl`]; the server may refuse with
        /// [`Code::UNIMPLEMENTED`](crate::Code::UNIMPLEMENTED) or [`Code::BAD_ARGUMENTS`](crate::Code::BAD_ARGUMENTS).
        pub fn create_with_ttl(
            $($receiver)+,
            path: &str,
            data: &[u8],
            mode: Mode,
            ttl: Duration,
            acls: &[Acl],
        ) -> Result<String, Error> {
            $this.call(Request::create_with_ttl(path, data, mode, ttl, acls))
        }

        /// Reads several nodes at one zxid, and returns in their order each one's answer, or the code with which the server refused it.
        ///
        /// # Errors
        ///
        /// As [`call`](Self::call).
        pub fn multi_read($($receiver)+, reads: &[Read]) -> Result<Vec<Result<ReadAnswer, Code>>, Error> {
            $this.call(Request::multi_read(reads))
        }

        /// Returns the paths of the session's ephemeral nodes that begin with this one, as [`Request::ephemerals`] says.
        ///
        /// # Errors
        ///
        /// As [`call`](Self::call).
        pub fn ephemerals($($receiver)+, prefix: &str) -> Result<Vec<String>, Error> {
            $this.call(Request::ephemerals(prefix))
        }

        /// Counts the nodes below a node, at all depths. Without a node it fails with [`Code::NO_NODE`](crate::Code::NO_NODE).
        ///
        /// # Errors
        ///
        /// As [`call`](Self::call).
        pub fn all_children_number($($receiver)+, path: &str) -> Result<i32, Error> {
            $this.call(Request::all_children_number(path))
        }

        /// Returns the identities under which the server knows the session: its address, and its credentials.
        ///
        /// # Errors
        ///
        /// As [`call`](Self::call); a server before version 3.7 refuses with [`Code::UNIMPLEMENTED`](crate::Code::UNIMPLEMENTED).
        pub fn who_am_i($($receiver)+) -> Result<Vec<Id>, Error> {
            $this.call(Request::who_am_i())
        }

        /// Returns the ACL and the `Stat` of a node.
        ///
        /// # Errors
        ///
        /// As [`call`](Self::call).
        pub fn acls($($receiver)+, path: &str) -> Result<(Vec<Acl>, Stat), Error> {
            $this.call(Request::acls(path))
        }

        /// Sets the ACL of a node if the ACL has this version ([`Stat::aversion`]); [`ANY_VERSION`](crate::ANY_VERSION) matches any.
        ///
        /// # Errors
        ///
        /// As [`call`](Self::call); the server refuses with [`Code::BAD_VERSION`](crate::Code::BAD_VERSION) or [`Code::INVALID_ACL`](crate::Code::INVALID_ACL).
        pub fn set_acls($($receiver)+, path: &str, acls: &[Acl], version: i32) -> Result<Stat, Error> {
            $this.call(Request::set_acls(path, acls, version))
        }

        /// Authenticates the session by a scheme and its credential, for instance `digest` and `user:password`: now, and first of all on
        /// each later connection. It returns once a server has accepted the credential.
        ///
        /// # Errors
        ///
        /// [`Code::AUTH_FAILED`](crate::Code::AUTH_FAILED) if a server refuses it: the session is over then, as
        /// [`SessionOptions::auth`](crate::SessionOptions::auth) says. Else as [`call`](Self::call).
        pub fn add_auth($($receiver)+, scheme: &str, credentials: &[u8]) -> Result<(), Error> {
            $this.call(Request::auth(scheme, credentials))
        }

        /// Makes the connected server catch up with the leader: a later read shows no state older than the leader's when this was
        /// asked.
        ///
        /// # Errors
        ///
        /// As [`call`](Self::call).
        pub fn sync($($receiver)+, path: &str) -> Result<(), Error> {
            $this.call(Request::sync(path))
        }

        /// Creates a node without data, and its parents, as far as they are missing. Calls that are lost with a connection are repeated.
        ///
        /// # Errors
        ///
        /// As [`call`](Self::call). Nodes created before the error stay.
        pub fn ensure_path($($receiver)+, path: &str) -> Result<(), Error> {
            paths::ensure($asks, path, &[])
        }

        /// As [`ensure_path`](Self::ensure_path), with this ACL for the nodes it creates.
        ///
        /// # Errors
        ///
        /// As [`ensure_path`](Self::ensure_path), and [`Code::INVALID_ACL`](crate::Code::INVALID_ACL).
        pub fn ensure_path_with_acls(
            $($receiver)+,
            path: &str,
            acls: &[Acl],
        ) -> Result<(), Error> {
            paths::ensure($asks, path, acls)
        }

        /// Deletes a node and everything below it, bottom up, and returns how many nodes it deleted; there may be none. Nodes that others
        /// create there meanwhile are deleted too. Calls that are lost with a connection are repeated.
        ///
        /// # Errors
        ///
        /// As [`call`](Self::call). Nodes deleted before the error stay deleted.
        pub fn delete_recursive($($receiver)+, path: &str) -> Result<usize, Error> {
            paths::delete_all($asks, path)
        }

        /// Deletes a node if it has this version and no children; [`ANY_VERSION`](crate::ANY_VERSION) matches any.
        ///
        /// # Errors
        ///
        /// As [`call`](Self::call); the server refuses with [`Code::NO_NODE`](crate::Code::NO_NODE),
        /// [`Code::BAD_VERSION`](crate::Code::BAD_VERSION) or [`Code::NOT_EMPTY`](crate::Code::NOT_EMPTY).
        pub fn delete($($receiver)+, path: &str, version: i32) -> Result<(), Error> {
            $this.call_lent(LentRequest::delete(path, version))
        }
    };
}

/// The look-ups of a session.
macro_rules! look_ups {
    () => {
        /// Looks up several things at one moment. The session stands still meanwhile: do not wait inside, and call none of its methods.
        pub fn view<R>(&self, look: impl FnOnce(View<'_>) -> R) -> R {
            self.inner().look(|engine| look(View::of(engine)))
        }

        /// Returns the kept data of a path that was read with a watch, with their mark; see [`View::peek`].
        ///
        /// # Errors
        ///
        /// [`Fault::NotPath`], [`Fault::NoMemory`] and [`Fault::UnknownNumber`].
        pub fn peek(&self, path: &str) -> Result<Option<Kept<DataAnswer>>, Fault> {
            self.view(|view| view.peek(path))
        }

        /// Returns the kept names of a path's children that were read with a watch, with their mark; see [`View::peek_children`].
        ///
        /// # Errors
        ///
        /// As [`peek`](Self::peek).
        pub fn peek_children(&self, path: &str) -> Result<Option<Kept<Children>>, Fault> {
            self.view(|view| view.peek_children(path))
        }

        /// Returns the mark of a path's kept data; see [`View::data_mark`].
        ///
        /// # Errors
        ///
        /// As [`peek`](Self::peek).
        pub fn data_mark(&self, path: &str) -> Result<Option<Mark>, Fault> {
            self.view(|view| view.data_mark(path))
        }

        /// Returns the mark of a path's kept children; see [`View::children_mark`].
        ///
        /// # Errors
        ///
        /// As [`peek`](Self::peek).
        pub fn children_mark(&self, path: &str) -> Result<Option<Mark>, Fault> {
            self.view(|view| view.children_mark(path))
        }

        /// Returns these nodes and the names below these parents, all of one moment, if all of them are kept and good; see
        /// [`View::snapshot`].
        ///
        /// # Errors
        ///
        /// As [`peek`](Self::peek).
        pub fn snapshot(
            &self,
            nodes: &[&str],
            parents: &[&str],
        ) -> Result<Option<Snapshot>, Fault> {
            self.view(|view| view.snapshot(nodes, parents))
        }

        /// Returns the greatest zxid seen, at least 0.
        pub fn last_zxid(&self) -> i64 {
            self.view(|view| view.last_zxid())
        }

        /// Returns what the session counted since it was opened, and what it holds now.
        pub fn stats(&self) -> Stats {
            self.inner().look(Engine::stats)
        }

        /// Returns the session's timeout: the one a server granted last, or else the one to ask for.
        pub fn timeout(&self) -> Duration {
            self.view(|view| view.timeout())
        }

        /// Returns how long ago a server was last heard, without the time for which the computer was suspended; see [`View::age`].
        pub fn age(&self) -> Option<Duration> {
            self.view(|view| view.age())
        }

        /// Returns the session's id, which owns its ephemeral nodes; see [`View::id`].
        ///
        /// # Errors
        ///
        /// Only [`Fault::NoMemory`].
        pub fn id(&self) -> Result<i64, Fault> {
            self.view(|view| view.id())
        }

        /// Returns the session, for [`SessionOptions::resume`](crate::SessionOptions::resume), perhaps in another process.
        ///
        /// # Errors
        ///
        /// Only [`Fault::NoMemory`].
        pub fn saved(&self) -> Result<SavedSession, Fault> {
            self.view(|view| view.saved())
        }
    };
}

pub(crate) use {calls, look_ups};
