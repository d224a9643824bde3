//! Why a call failed, and which node it was about.

use crate::action::Refusal;
use crate::fault::{Code, Fault, NoReply};
use crate::path_fault::Escaped;
use std::error;
use std::fmt;
use std::time::Duration;

/// The kind of an [`Error`].
///
/// ```
/// use dirwolleu::{Code, ErrorKind, NoReply};
///
/// let refused = ErrorKind::from(Code::BAD_VERSION);
/// assert!(!refused.may_have_happened() && !refused.is_passing());
/// let lost = ErrorKind::from(NoReply::ConnectionLoss);
/// assert!(lost.may_have_happened() && lost.is_passing());
/// ```
#[derive(Clone, Debug, PartialEq, Eq, Hash)]
#[non_exhaustive]
pub enum ErrorKind {
    /// The server refuses the call.
    Server(Code),
    /// There is no reply.
    NoReply(NoReply),
    /// The library has not taken the step.
    Fault(Fault),
    /// The limit of a call has come after it was sent, or that of a [`Ticket::wait_for`](crate::Ticket::wait_for). A write may have
    /// happened, or still may.
    TimedOut,
    /// More than 16 MiB wait to be written to the server, which reads slowly: the call was not sent, and never is.
    QueueFull,
    /// The caller's limit has passed before a tree was complete: some of it is unread, or changes faster than the session reads it. It goes
    /// on reading.
    NotWhole,
    /// The caller's limit has passed before the lock was held. The lock gives its place up.
    LockTimeout,
    /// A lock is no longer held, or was already given up.
    LockLost,
    /// The path of a lock has a place with other names, or that of a [`Semaphore`](crate::Semaphore) belongs to one of kazoo's or
    /// Curator's: all contenders of a path use one kind. The place is given up.
    MixedNames,
    /// The names below the path of a lock have had all 2,147,483,647 numbers.
    NumbersUsedUp,
    /// The node of a [`Counter`](crate::Counter) does not have a whole number of 64 bits, or no longer would.
    NotNumber,
    /// The node of a [`Semaphore`](crate::Semaphore) has another limit.
    OtherNumber {
        /// The limit that the node has.
        number: i64,
    },
    /// A transaction has not happened: the server refuses the operation at this index, counted from 0.
    RolledBack {
        /// The index of the operation.
        index: usize,
        /// Why it is refused.
        code: Code,
        /// The node that it is refused for.
        path: String,
    },
}

impl ErrorKind {
    /// Whether a write that failed with this may have happened all the same, or still may. With each other kind nothing has changed.
    pub fn may_have_happened(&self) -> bool {
        matches!(
            self,
            ErrorKind::TimedOut
                | ErrorKind::NoReply(NoReply::ConnectionLoss)
                | ErrorKind::Server(Code::CONNECTION_LOSS)
        )
    }

    /// Whether the same read may succeed later: [`Code::is_passing`], or the connection was lost or is missing, too much waits, or a limit
    /// has passed. An expired session does not count: renew it.
    pub fn is_passing(&self) -> bool {
        match self {
            ErrorKind::Server(code) => code.is_passing(),
            ErrorKind::NoReply(reason) => matches!(
                reason,
                NoReply::ConnectionLoss | NoReply::NotConnected | NoReply::TooManyPending
            ),
            ErrorKind::TimedOut
            | ErrorKind::QueueFull
            | ErrorKind::NotWhole
            | ErrorKind::LockTimeout => true,
            ErrorKind::Fault(_)
            | ErrorKind::LockLost
            | ErrorKind::NumbersUsedUp
            | ErrorKind::MixedNames
            | ErrorKind::NotNumber
            | ErrorKind::OtherNumber { .. }
            | ErrorKind::RolledBack { .. } => false,
        }
    }

    /// What to do. Empty if the reason says it.
    fn advice(&self) -> &'static str {
        match self {
            ErrorKind::Server(code) | ErrorKind::RolledBack { code, .. } => code.advice(),
            ErrorKind::NoReply(reason) => reason.advice(),
            ErrorKind::Fault(fault) => fault.advice(),
            ErrorKind::TimedOut => "it may still happen",
            ErrorKind::QueueFull => "call again when some of it was",
            ErrorKind::NotWhole => "it is read on",
            ErrorKind::LockTimeout | ErrorKind::NotNumber => "",
            ErrorKind::LockLost => "contend again",
            ErrorKind::NumbersUsedUp => "take another path",
            ErrorKind::OtherNumber { .. } => "take the same number everywhere",
            ErrorKind::MixedNames => "use one kind of names for all contenders",
        }
    }
}

/// The reason in words.
impl fmt::Display for ErrorKind {
    fn fmt(&self, f: &mut fmt::Formatter<'_>) -> fmt::Result {
        match self {
            ErrorKind::Server(code) => code.fmt(f),
            ErrorKind::NoReply(reason) => reason.fmt(f),
            ErrorKind::Fault(fault) => f.write_str(fault.reason()),
            ErrorKind::TimedOut => f.write_str("no answer has come in time"),
            ErrorKind::QueueFull => f.write_str("more than 16 MiB wait to be written"),
            ErrorKind::NotWhole => f.write_str("the tree was not whole in time"),
            ErrorKind::LockTimeout => f.write_str("the lock was not held in time"),
            ErrorKind::LockLost => f.write_str("the lock is lost"),
            ErrorKind::MixedNames => f.write_str("contenders by another kind of names are there"),
            ErrorKind::NumbersUsedUp => {
                f.write_str("the names below it have had all 2147483647 numbers")
            }
            ErrorKind::NotNumber => f.write_str("it is no whole number of 64 bits"),
            ErrorKind::OtherNumber { number } => {
                write!(f, "the node says that it has {number} leases")
            }
            ErrorKind::RolledBack { index, code, .. } => {
                write!(
                    f,
                    "operation {index} was refused, and nothing has happened: {code}"
                )
            }
        }
    }
}

macro_rules! kinds {
    ($($reason:ident: $kind:ident),*) => {$(
        impl From<$reason> for ErrorKind {
            fn from(reason: $reason) -> ErrorKind {
                ErrorKind::$kind(reason)
            }
        }
    )*};
}

kinds! { Code: Server, NoReply: NoReply, Fault: Fault }

impl From<Refusal> for ErrorKind {
    fn from(reason: Refusal) -> ErrorKind {
        match reason {
            Refusal::Code(code) => code.into(),
            Refusal::TooManyWatches => NoReply::TooManyWatches.into(),
            Refusal::TooLarge => NoReply::TooLarge.into(),
            Refusal::Closed => NoReply::SessionClosed.into(),
            Refusal::NumbersUsedUp => ErrorKind::NumbersUsedUp,
            Refusal::MixedNames => ErrorKind::MixedNames,
        }
    }
}

/// A search for a server that has not found one since the session was last connected.
#[derive(Clone, Debug, Default, PartialEq, Eq, Hash)]
pub(crate) struct Search {
    /// The hosts, as the program named them.
    pub(crate) hosts: String,
    /// The outcome of the last attempt at each address.
    pub(crate) last: String,
}

/// The node that a server refuses to create this one for: this one itself, or its parent.
pub(crate) fn refused_of_create(code: Code, path: &str) -> &str {
    match code {
        Code::NO_NODE | Code::NO_CHILDREN_FOR_EPHEMERALS => {
            let slash = path.rfind('/').unwrap_or_default();
            &path[..slash.max(1)]
        }
        _ => path,
    }
}

/// Why a call of a [`Session`](crate::Session) failed, and the path of the node that it was about.
///
/// It prints the reason, the path, and what to do if the reason does not say it, on one line: `no node: /nope`,
/// `/a//b is no path: an empty name`, `no server of zk1:2181 accepted the session in 3 s; last: 10.0.0.1:2181: connection refused`. Its
/// `Debug` prints the same, for a `main` that returns it.
///
/// ```no_run
/// use dirwolleu::{Code, ErrorKind, NoReply, Session};
///
/// # fn main() -> Result<(), Box<dyn std::error::Error>> {
/// # let session = Session::open("127.0.0.1:2181", std::time::Duration::from_secs(10))?;
/// match session.get("/config") {
///     Ok(node) => println!("{:?}", node.data),
///     Err(error) if error.code() == Some(Code::NO_NODE) => println!("not there yet"),
///     Err(error) if error.is_passing() => println!("later: {error}"),
///     Err(error) => match error.kind() {
///         ErrorKind::NoReply(NoReply::SessionExpired) => session.renew()?,
///         _ => return Err(error.into()),
///     },
/// }
/// # Ok(())
/// # }
/// ```
#[derive(Clone, PartialEq, Eq, Hash)]
pub struct Error {
    kind: ErrorKind,
    path: Option<String>,
    search: Option<Box<(Search, Duration)>>,
}

impl Error {
    /// The error of a call about the node of this path, as the program named it.
    pub(crate) fn about(path: Option<&str>, kind: ErrorKind) -> Error {
        let kind = match (kind, path) {
            (ErrorKind::Fault(fault), Some(path)) => ErrorKind::Fault(fault.at(path)),
            (kind, _) => kind,
        };
        let path = match &kind {
            ErrorKind::RolledBack { path, .. } => Some(path.clone()),
            _ => path.map(String::from),
        };
        Error {
            kind,
            path,
            search: None,
        }
    }

    /// The same error of a call that waited this long for a server, in this search.
    pub(crate) fn after(mut self, search: &Search, waited: Duration) -> Error {
        if self.kind == ErrorKind::NoReply(NoReply::NotConnected) {
            self.search = Some(Box::new((search.clone(), waited)));
        }
        self
    }

    /// The same error of a create: about the parent, if that is the reason.
    pub(crate) fn of_create(mut self) -> Error {
        if let (Some(code), Some(path)) = (self.code(), &self.path) {
            self.path = Some(String::from(refused_of_create(code, path)));
        }
        self
    }

    /// The kind of the error.
    pub fn kind(&self) -> &ErrorKind {
        &self.kind
    }

    /// The kind of the error, without the path.
    pub fn into_kind(self) -> ErrorKind {
        self.kind
    }

    /// The path of the node that the call was about; if its parent prevents a create, that of the parent. `None` if the call was about no
    /// node.
    pub fn path(&self) -> Option<&str> {
        self.path.as_deref()
    }

    /// The server's code, if it refused the call.
    pub fn code(&self) -> Option<Code> {
        match self.kind {
            ErrorKind::Server(code) => Some(code),
            _ => None,
        }
    }

    /// Why there is no reply, if there is none.
    pub fn no_reply(&self) -> Option<NoReply> {
        match self.kind {
            ErrorKind::NoReply(reason) => Some(reason),
            _ => None,
        }
    }

    /// Whether it says that the session is over.
    pub(crate) fn is_of_end(&self) -> bool {
        let reason = self.no_reply();
        reason.is_some_and(|reason| {
            matches!(reason, NoReply::SessionExpired | NoReply::SessionClosed)
        })
    }

    /// As [`ErrorKind::may_have_happened`].
    pub fn may_have_happened(&self) -> bool {
        self.kind.may_have_happened()
    }

    /// As [`ErrorKind::is_passing`].
    pub fn is_passing(&self) -> bool {
        self.kind.is_passing()
    }
}

impl fmt::Display for Error {
    fn fmt(&self, f: &mut fmt::Formatter<'_>) -> fmt::Result {
        if let Some(search) = &self.search {
            let (Search { hosts, last }, waited) = search.as_ref();
            let seconds = (waited.as_secs_f64() * 10.0).round() / 10.0;
            let of = if hosts.is_empty() { "" } else { " of " };
            return write!(
                f,
                "no server{of}{hosts} accepted the session in {seconds} s; last: {last}"
            );
        }
        if let ErrorKind::Fault(fault @ Fault::NotPath { .. }) = &self.kind {
            return fault.fmt(f);
        }
        write!(f, "{}", self.kind)?;
        if let Some(path) = &self.path {
            write!(f, ": {}", Escaped(path))?;
        }
        match self.kind.advice() {
            "" => Ok(()),
            advice => write!(f, "; {advice}"),
        }
    }
}

/// The same words, for a `main` that returns it.
impl fmt::Debug for Error {
    fn fmt(&self, f: &mut fmt::Formatter<'_>) -> fmt::Result {
        fmt::Display::fmt(self, f)
    }
}

impl error::Error for Error {}

impl From<Fault> for Error {
    fn from(fault: Fault) -> Error {
        Error::about(None, fault.into())
    }
}

impl From<ErrorKind> for Error {
    fn from(kind: ErrorKind) -> Error {
        Error::about(None, kind)
    }
}

#[cfg(test)]
mod tests {
    use super::{Code, Error, ErrorKind, Fault, NoReply, Search};
    use std::time::Duration;

    fn printed(kind: ErrorKind) -> String {
        Error::about(Some("/a"), kind).to_string()
    }

    #[test]
    fn each_kind_has_its_words() {
        for (kind, words) in [
            (Code::NO_NODE.into(), "no node: /a"),
            (
                Code::BAD_VERSION.into(),
                "the node has another version: /a; read it again",
            ),
            (Code(-999).into(), "the server answers -999: /a"),
            (
                NoReply::SessionExpired.into(),
                "the session has expired: /a; renew it",
            ),
            (
                Fault::NoMemory.into(),
                "out of memory: /a; hand the same in again",
            ),
            (
                ErrorKind::TimedOut,
                "no answer has come in time: /a; it may still happen",
            ),
            (
                ErrorKind::NotWhole,
                "the tree was not whole in time: /a; it is read on",
            ),
            (ErrorKind::NotNumber, "it is no whole number of 64 bits: /a"),
            (
                ErrorKind::OtherNumber { number: 3 },
                "the node says that it has 3 leases: /a; take the same number everywhere",
            ),
        ] {
            assert_eq!(printed(kind), words);
        }
        assert_eq!(
            Error::from(Fault::NoMemory).to_string(),
            "out of memory; hand the same in again"
        );
    }

    #[test]
    fn a_create_is_refused_for_its_parent() {
        let refused = |path, code: Code| {
            Error::about(Some(path), code.into())
                .of_create()
                .to_string()
        };
        assert_eq!(refused("/x/y/z", Code::NO_NODE), "no node: /x/y");
        assert_eq!(refused("/x", Code::NO_NODE), "no node: /");
        assert_eq!(
            refused("/x/y", Code::NODE_EXISTS),
            "there is a node already: /x/y"
        );
    }

    #[test]
    fn a_search_for_a_server_is_told() {
        let found_none = |hosts: &str| {
            let search = Search {
                hosts: hosts.into(),
                last: "why".into(),
            };
            let kind = NoReply::NotConnected.into();
            Error::about(Some("/a"), kind)
                .after(&search, Duration::from_millis(3_049))
                .to_string()
        };
        assert_eq!(
            found_none("a:1,b:2"),
            "no server of a:1,b:2 accepted the session in 3 s; last: why"
        );
        assert_eq!(
            found_none(""),
            "no server accepted the session in 3 s; last: why"
        );
        let lost = Error::from(ErrorKind::from(NoReply::ConnectionLoss));
        assert_eq!(lost.clone().after(&Search::default(), Duration::ZERO), lost);
    }
}
