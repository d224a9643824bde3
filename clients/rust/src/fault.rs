//! Why something did not happen: in the library, on the way to the server, or at the server.

use crate::numbers::{advice, result, words, VERSION};
use crate::path_fault::{Escaped, PathFault};
use std::error;
use std::fmt;

pub use crate::numbers::NoReply;

/// A number of the library that this crate does not know: the two have different versions.
///
/// ```
/// use dirwolleu::State;
///
/// let unknown = State::try_from(9).unwrap_err();
/// assert_eq!((unknown.what(), unknown.number()), ("state", 9));
/// ```
#[derive(Clone, Copy, Debug, PartialEq, Eq, Hash)]
pub struct UnknownNumber {
    what: &'static str,
    number: i32,
}

impl UnknownNumber {
    /// The number of a thing that has this name in the header.
    pub(crate) fn of(what: &'static str, number: i32) -> UnknownNumber {
        UnknownNumber { what, number }
    }

    /// The kind of thing: a state, an event, ..
    #[must_use]
    pub fn what(&self) -> &'static str {
        self.what
    }

    /// The number.
    #[must_use]
    pub fn number(&self) -> i32 {
        self.number
    }
}

impl fmt::Display for UnknownNumber {
    fn fmt(&self, f: &mut fmt::Formatter<'_>) -> fmt::Result {
        let UnknownNumber { what, number } = self;
        write!(f, "the library gives the {what} {number}, which this crate does not know: take both of one version")
    }
}

impl error::Error for UnknownNumber {}

/// Why a step or a look-up did not happen. Except for [`Fault::Halted`], nothing has changed. Its `Debug` prints the same words, for a
/// `main` that returns it.
///
/// ```
/// use dirwolleu::{Fault, Machine, SavedSession};
/// use std::time::Duration;
///
/// let timeout = Duration::from_secs(10);
/// assert_eq!(Machine::open(Duration::ZERO, 1, 42).unwrap_err(), Fault::BadTimeout);
/// let saved = SavedSession::from_bytes(vec![1, 2, 3]);
/// assert_eq!(Machine::resume(timeout, 1, 42, &saved).unwrap_err(), Fault::NotSaved);
/// let fault = Machine::open(timeout, 1, 42)?.data_mark("/a//b").unwrap_err();
/// assert_eq!(fault.to_string(), "/a//b is no path: an empty name");
/// # Ok::<(), Fault>(())
/// ```
#[derive(Clone, PartialEq, Eq, Hash)]
#[non_exhaustive]
pub enum Fault {
    /// Memory ran out within a step. The client is no longer of use: each later step fails the same way, and nothing is kept or watched.
    /// Its state, zxid and session still have answers: take [`saved`](crate::Machine::saved), and resume it.
    Halted,
    /// There was no memory for the input. You can hand the same in again.
    NoMemory,
    /// The text is no path of a node.
    #[non_exhaustive]
    NotPath {
        /// The text.
        path: String,
        /// The reason. `None` if this crate sees none, and the library does.
        reason: Option<PathFault>,
    },
    /// The timeout is not within 1 to 2,147,483,647 milliseconds.
    BadTimeout,
    /// The bytes are no saved session.
    NotSaved,
    /// Some of the subtree is not kept, or not good.
    NotWhole,
    /// The subtree has more nodes than you asked for.
    TooManyNodes,
    /// The scheme and the secret of a credential have more than 1,048,555 bytes.
    CredentialTooLarge,
    /// A limit of payloads is below that of every session, or above 1,073,741,823 bytes.
    NoSuchLimits,
    /// The ACL of a contender has no entry.
    NotAcl,
    /// A node with a time to live cannot be ephemeral: make it persistent, or persistent and sequential.
    EphemeralWithTtl,
    /// The linked library has another version than this crate.
    #[non_exhaustive]
    OtherVersion {
        /// The version of the library, as a number in which 1.2.3 is 1002003.
        library: u32,
    },
    /// A dialler, a reader or a writer of the session has panicked and ended the session's thread. The session is no longer of use, and the
    /// servers end it at its timeout.
    Panicked,
    /// The library gives a number that this crate does not know. The client is no longer of use, nor is one that resumes it.
    UnknownNumber(UnknownNumber),
}

impl Fault {
    pub(crate) fn not_path(path: &str) -> Fault {
        Fault::NotPath {
            path: String::from(path),
            reason: PathFault::of(path),
        }
    }

    /// The same fault of a step about the node with this path of the program's: the library saw the path with the chroot.
    pub(crate) fn at(self, path: &str) -> Fault {
        match self {
            Fault::NotPath { reason, .. } => Fault::NotPath {
                path: String::from(path),
                reason: PathFault::of(path).or(reason),
            },
            other => other,
        }
    }

    /// The library's number for it. There is none if the library has another version, or the fault is not its own.
    fn number(&self) -> Option<i32> {
        Some(match self {
            Fault::Halted => result::HALTED,
            Fault::NoMemory => result::NO_MEMORY,
            Fault::NotPath { .. } => result::NOT_PATH,
            Fault::BadTimeout => result::BAD_TIMEOUT,
            Fault::NotSaved => result::NOT_SAVED,
            Fault::NotWhole => result::NOT_WHOLE,
            Fault::TooManyNodes => result::TOO_MANY,
            Fault::CredentialTooLarge => result::CREDENTIAL_TOO_LARGE,
            Fault::NoSuchLimits => result::NO_SUCH_LIMITS,
            Fault::NotAcl => result::NOT_ACL,
            Fault::OtherVersion { .. }
            | Fault::UnknownNumber(_)
            | Fault::Panicked
            | Fault::EphemeralWithTtl => return None,
        })
    }

    pub(crate) fn reason(&self) -> &'static str {
        match (self, self.number()) {
            (_, Some(number)) => words::result(number).unwrap_or_default(),
            (Fault::Panicked, _) => "the session's thread has panicked",
            (Fault::EphemeralWithTtl, _) => "a node with a time to live cannot go with its session",
            _ => "the library is of another version than this crate",
        }
    }

    /// What to do. Empty if the reason says it.
    pub(crate) fn advice(&self) -> &'static str {
        match (self, self.number()) {
            (_, Some(number)) => advice::result(number),
            (Fault::Panicked, _) => "open another session",
            (Fault::EphemeralWithTtl, _) => "make it persistent",
            _ => "take both of one version",
        }
    }

    /// Whether the client is no longer of use.
    pub(crate) fn is_final(&self) -> bool {
        matches!(self, Fault::Halted | Fault::UnknownNumber(_))
    }
}

/// Prints the reason, the path if there is one, and what to do: `/a//b is no path: an empty name`.
impl fmt::Display for Fault {
    fn fmt(&self, f: &mut fmt::Formatter<'_>) -> fmt::Result {
        match self {
            Fault::NotPath {
                path,
                reason: Some(reason),
            } => write!(f, "{} is no path: {reason}", Escaped(path)),
            Fault::NotPath { path, reason: None } => write!(f, "{} is no path", Escaped(path)),
            Fault::OtherVersion { library } => write!(
                f,
                "the library is of version {}, and this crate of {}; {}",
                version_text(*library),
                version_text(VERSION),
                self.advice()
            ),
            Fault::UnknownNumber(unknown) => unknown.fmt(f),
            _ if self.advice().is_empty() => f.write_str(self.reason()),
            _ => write!(f, "{}; {}", self.reason(), self.advice()),
        }
    }
}

/// The same words, for a `main` that returns it.
impl fmt::Debug for Fault {
    fn fmt(&self, f: &mut fmt::Formatter<'_>) -> fmt::Result {
        fmt::Display::fmt(self, f)
    }
}

impl error::Error for Fault {}

/// A version as people write it.
fn version_text(number: u32) -> String {
    let (major, minor) = (number / 1_000_000, number / 1000 % 1000);
    format!("{major}.{minor}.{}", number % 1000)
}

impl From<UnknownNumber> for Fault {
    fn from(unknown: UnknownNumber) -> Fault {
        Fault::UnknownNumber(unknown)
    }
}

/// The result of a step or a look-up at this path, by the library's code. The header's other codes cannot come here: the handle is open,
/// texts are UTF-8, and a [`Mode`](crate::Mode) has its number.
#[inline]
pub(crate) fn done_at(path: &str, code: i32) -> Result<(), Fault> {
    if code == result::OK {
        return Ok(());
    }
    Err(fault_at(path, code))
}

/// The same without a path.
#[inline]
pub(crate) fn done(code: i32) -> Result<(), Fault> {
    done_at("", code)
}

#[cold]
fn fault_at(path: &str, code: i32) -> Fault {
    match code {
        result::HALTED => Fault::Halted,
        result::NO_MEMORY => Fault::NoMemory,
        result::NOT_PATH => Fault::not_path(path),
        result::BAD_TIMEOUT => Fault::BadTimeout,
        result::NOT_SAVED => Fault::NotSaved,
        result::NOT_WHOLE => Fault::NotWhole,
        result::TOO_MANY => Fault::TooManyNodes,
        result::CREDENTIAL_TOO_LARGE => Fault::CredentialTooLarge,
        result::NO_SUCH_LIMITS => Fault::NoSuchLimits,
        result::NOT_ACL => Fault::NotAcl,
        _ => UnknownNumber::of("result", code).into(),
    }
}

impl NoReply {
    /// What to do.
    pub(crate) fn advice(self) -> &'static str {
        advice::outcome(self.into())
    }
}

impl fmt::Display for NoReply {
    fn fmt(&self, f: &mut fmt::Formatter<'_>) -> fmt::Result {
        f.write_str(words::outcome((*self).into()).unwrap_or_default())
    }
}

impl error::Error for NoReply {}

/// A server's error for one call: the number in a reply's header. It changes no state. Each number that ZooKeeper's own library knows has a
/// name here; a server may answer with another one.
///
/// ```
/// use dirwolleu::Code;
///
/// assert_eq!(Code::NO_NODE, Code(-101));
/// assert_eq!(Code::NO_NODE.to_string(), "no node");
/// assert_eq!(Code(-999).to_string(), "the server answers -999");
/// assert!(Code::THROTTLED.is_passing());
/// ```
#[derive(Clone, Copy, Debug, PartialEq, Eq, Hash)]
pub struct Code(pub i32);

impl Code {
    /// Whether the same read may succeed after a while: the server was busy, or has lost a connection or the session.
    pub fn is_passing(self) -> bool {
        matches!(
            self,
            Code::CONNECTION_LOSS | Code::SESSION_EXPIRED | Code::SESSION_MOVED | Code::THROTTLED
        )
    }

    /// What to do. Empty if the reason says it.
    pub(crate) fn advice(self) -> &'static str {
        advice::code(self.0)
    }
}

/// The reason in words, or the number if this crate has no words for it.
impl fmt::Display for Code {
    fn fmt(&self, f: &mut fmt::Formatter<'_>) -> fmt::Result {
        match words::code(self.0) {
            Some(reason) => f.write_str(reason),
            None => write!(f, "the server answers {}", self.0),
        }
    }
}

impl error::Error for Code {}

#[cfg(test)]
mod tests {
    use super::{done_at, Code, Fault, NoReply, UnknownNumber};
    use crate::machine::State;

    #[test]
    fn each_number_of_a_function_is_told() {
        assert_eq!(done_at("/a", 0), Ok(()));
        for (number, fault) in [
            (-1, Fault::Halted),
            (-2, Fault::NoMemory),
            (-5, Fault::not_path("/a")),
            (-9, Fault::NotWhole),
            (-10, Fault::TooManyNodes),
            (-13, Fault::CredentialTooLarge),
            (-14, Fault::NoSuchLimits),
            (-15, Fault::NotAcl),
        ] {
            assert_eq!(fault.number(), Some(number));
            assert_eq!(done_at("/a", number), Err(fault));
        }
        for number in [-7, -11] {
            let unknown = UnknownNumber::of("result", number);
            assert_eq!(done_at("/a", number), Err(unknown.into()));
        }
    }

    #[test]
    fn a_number_that_nobody_knows_says_so() {
        let unknown = State::try_from(5).unwrap_err();
        assert_eq!((unknown.what(), unknown.number()), ("state", 5));
        assert_eq!(
            Fault::from(unknown).to_string(),
            "the library gives the state 5, which this crate does not know: take both of one version"
        );
        assert!(NoReply::try_from(0).is_err() && NoReply::try_from(8).is_err());
        assert_eq!(NoReply::try_from(4), Ok(NoReply::NotConnected));
        assert_eq!(i32::from(NoReply::NotConnected), 4);
    }

    #[test]
    fn a_code_without_a_name_is_told_by_its_number() {
        assert_eq!(Code(-126).to_string(), "the server answers -126");
        assert_eq!(Code::THROTTLED.to_string(), "the server has too much to do");
    }
}
