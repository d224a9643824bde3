//! The numbers of the interface, made by scripts/interface from include/interface.toml.
#![allow(dead_code)] // one table for all who take from it

use crate::fault::{Code, UnknownNumber};

/// The version, as a number in which 1.2.3 is 1002003.
pub(crate) const VERSION: u32 = 3000;

pub(crate) mod result {
    pub(crate) const OK: i32 = 0;
    pub(crate) const NONE: i32 = 1;
    pub(crate) const WAITS: i32 = 2;
    pub(crate) const HALTED: i32 = -1;
    pub(crate) const NO_MEMORY: i32 = -2;
    pub(crate) const CLOSED: i32 = -3;
    pub(crate) const NOT_TEXT: i32 = -4;
    pub(crate) const NOT_PATH: i32 = -5;
    pub(crate) const BAD_TIMEOUT: i32 = -6;
    pub(crate) const NO_SUCH_MODE: i32 = -7;
    pub(crate) const NOT_SAVED: i32 = -8;
    pub(crate) const NOT_WHOLE: i32 = -9;
    pub(crate) const TOO_MANY: i32 = -10;
    pub(crate) const NOT_TEXTS: i32 = -11;
    pub(crate) const NO_SUCH_OPERATION: i32 = -12;
    pub(crate) const CREDENTIAL_TOO_LARGE: i32 = -13;
    pub(crate) const NO_SUCH_LIMITS: i32 = -14;
    pub(crate) const NOT_ACL: i32 = -15;
}

pub(crate) mod kind {
    pub(crate) const SEND: i32 = 1;
    pub(crate) const ANSWER: i32 = 2;
    pub(crate) const REPORT: i32 = 3;
    pub(crate) const STATE: i32 = 4;
    pub(crate) const DROP: i32 = 5;
    pub(crate) const DIAL: i32 = 6;
    pub(crate) const HANG_UP: i32 = 7;
    pub(crate) const TIMED_OUT: i32 = 8;
    pub(crate) const RENEWED: i32 = 9;
    pub(crate) const SHOWN: i32 = 10;
    pub(crate) const REFUSED: i32 = 11;
    pub(crate) const MEMBER_ADDED: i32 = 12;
    pub(crate) const MEMBER_REMOVED: i32 = 13;
    pub(crate) const TREE_BOUNDED: i32 = 14;
    pub(crate) const TREE_COMPLETE: i32 = 15;
    pub(crate) const CREDENTIAL: i32 = 16;
    pub(crate) const CONTENDER_WAITS: i32 = 17;
    pub(crate) const CONTENDER_HOLDS: i32 = 18;
    pub(crate) const CONTENDER_LOST: i32 = 19;
    pub(crate) const CONTENDER_PAUSES: i32 = 20;
    pub(crate) const CONTENDER_GIVEN_UP: i32 = 21;
}

pub(crate) mod brought {
    pub(crate) const CODE: i32 = 1;
    pub(crate) const STAT: i32 = 2;
    pub(crate) const DATA: i32 = 3;
    pub(crate) const NAMES: i32 = 4;
    pub(crate) const CREATED: i32 = 5;
    pub(crate) const DONE: i32 = 6;
    pub(crate) const RAW: i32 = 7;
}

pub(crate) mod outcome {
    pub(crate) const REPLIED: i32 = 0;
}

pub(crate) mod cause {
    pub(crate) const BAD_FRAME: i32 = 1;
    pub(crate) const BAD_PAYLOAD: i32 = 2;
    pub(crate) const SILENT: i32 = 3;
    pub(crate) const BEHIND: i32 = 4;
    pub(crate) const WATCHES_REFUSED: i32 = 5;
}

pub(crate) mod refusal {
    pub(crate) const READ_CODE: i32 = 1;
    pub(crate) const READ_TOO_MANY_WATCHES: i32 = 2;
    pub(crate) const READ_TOO_LARGE: i32 = 3;
    pub(crate) const READ_CLOSED: i32 = 4;
    pub(crate) const NUMBERS_USED_UP: i32 = 5;
    pub(crate) const MIXED_NAMES: i32 = 6;
}

pub(crate) mod mode {
    pub(crate) const PERSISTENT: i32 = 0;
    pub(crate) const EPHEMERAL: i32 = 1;
    pub(crate) const SEQUENTIAL: i32 = 2;
}

pub(crate) mod operation {
    pub(crate) const GET_ACL: i32 = 6;
    pub(crate) const SET_ACL: i32 = 7;
    pub(crate) const SYNC: i32 = 9;
    pub(crate) const MULTI: i32 = 14;
    pub(crate) const CREATE2: i32 = 15;
    pub(crate) const CREATE_CONTAINER: i32 = 19;
    pub(crate) const CREATE_TTL: i32 = 21;
    pub(crate) const MULTI_READ: i32 = 22;
    pub(crate) const GET_EPHEMERALS: i32 = 103;
    pub(crate) const GET_ALL_CHILDREN_NUMBER: i32 = 104;
    pub(crate) const WHO_AM_I: i32 = 107;
}

pub(crate) mod naming {
    pub(crate) const KAZOO: i32 = 0;
    pub(crate) const KAZOO_READER: i32 = 1;
    pub(crate) const CURATOR_LOCK: i32 = 2;
    pub(crate) const CURATOR_LATCH: i32 = 3;
    pub(crate) const CURATOR_WRITER: i32 = 4;
    pub(crate) const CURATOR_READER: i32 = 5;
    pub(crate) const LEASES: i32 = 6;
}

pub(crate) mod kept {
    pub(crate) const NOTHING: i32 = 0;
    pub(crate) const ABSENT: i32 = 1;
    pub(crate) const KNOWN: i32 = 2;
    pub(crate) const FULL: i32 = 3;
}

/// The state of a session, as its client knows it.
///
/// ```
/// use dirwolleu::State;
///
/// assert_eq!(State::try_from(2), Ok(State::Connected));
/// assert!(State::Expired.is_final());
/// ```
#[derive(Clone, Copy, Debug, PartialEq, Eq, Hash)]
pub enum State {
    /// There is no connection. Kept answers stay, with their marks.
    Idle = 0,
    /// There is a connection, and the server has not accepted the session yet.
    Connecting = 1,
    /// A server has accepted the session.
    Connected = 2,
    /// The servers have given the session up. Nothing is kept or watched, and that is final.
    Expired = 3,
    /// The session was closed, as asked. Nothing is kept or watched, and that is final.
    Closed = 4,
}

/// What has happened to a node whose watch has fired.
///
/// ```
/// use dirwolleu::{Event, NodeEvent, Side};
///
/// let event = Event::Report { path: "/config".into(), side: Side::Data, event: NodeEvent::Deleted }; // of `Session::next_event`
/// match event {
///     Event::Report { path, event: NodeEvent::Deleted, .. } => assert_eq!(path, "/config"),
///     other => println!("{other:?}"),
/// }
/// assert_eq!(NodeEvent::try_from(2), Ok(NodeEvent::Deleted));
/// ```
#[derive(Clone, Copy, Debug, PartialEq, Eq, Hash)]
#[non_exhaustive]
pub enum NodeEvent {
    /// It was made.
    Created = 1,
    /// It was deleted.
    Deleted = 2,
    /// Its data were changed.
    DataChanged = 3,
    /// The set of its children was changed.
    ChildrenChanged = 4,
}

/// What may be watched of a path.
///
/// ```
/// use dirwolleu::{Machine, Moment, Side};
/// use std::time::Duration;
///
/// let now = Moment::from_millis(1);
/// let mut machine = Machine::open(Duration::from_secs(9), 1, 42)?;
/// let _ = machine.follow(now, 1, "/config", Side::Data)?;
/// let _ = machine.follow(now, 2, "/workers", Side::Children)?;
/// # Ok::<(), dirwolleu::Fault>(())
/// ```
#[derive(Clone, Copy, Debug, PartialEq, Eq, Hash)]
#[non_exhaustive]
pub enum Side {
    /// Whether there is a node, and its data.
    Data = 1,
    /// The names of its children.
    Children = 2,
}

/// Why a call has no reply. Except with [`NoReply::ConnectionLoss`] nothing has changed, and nothing was sent but a read whose answer is too long.
///
/// ```
/// use dirwolleu::NoReply;
///
/// assert_eq!(NoReply::try_from(6), Ok(NoReply::TooLarge));
/// assert_eq!(NoReply::TooLarge.to_string(), "the request or its answer is longer than the session allows");
/// ```
#[derive(Clone, Copy, Debug, PartialEq, Eq, Hash)]
#[non_exhaustive]
pub enum NoReply {
    /// The connection ended before the reply: the call may or may not have happened.
    ConnectionLoss = 1,
    /// The session has expired.
    SessionExpired = 2,
    /// The session is closed, or about to be.
    SessionClosed = 3,
    /// There is no connection on which a server has accepted the session.
    NotConnected = 4,
    /// 65,536 paths of this side are watched.
    TooManyWatches = 5,
    /// The request would be longer than the session may send, 1,048,575 bytes, or the answer to a read is longer than 4,194,304: or as its options say. It is not asked again.
    TooLarge = 6,
    /// 1,024 calls wait for their reply.
    TooManyPending = 7,
}

/// Whether a report has ended a kept answer. A mark is about a zxid, and not about a time.
///
/// ```
/// use dirwolleu::{Machine, Mark, Moment, Watch};
/// # use std::time::Duration;
/// # let now = Moment::from_millis(1);
/// # let mut machine = Machine::open(Duration::from_secs(9), 1, 1)?;
/// # let _ = machine.tick(now)?;
/// # let _ = machine.opened(now)?;
/// # let admitted = [&[0, 0, 0, 37, 0, 0, 0, 0, 0, 0, 35, 40, 0, 0, 0, 0, 0, 0, 0, 1, 0, 0, 0, 16][..], &[0; 17]].concat();
/// # let _ = machine.bytes(now, &admitted)?;
///
/// let _ = machine.exists(now, 7, None, "/a", Watch::Yes)?;
/// # let from_server = [0, 0, 0, 16, 0, 0, 0, 1, 0, 0, 0, 0, 0, 0, 0, 5, 255, 255, 255, 155];
/// let _ = machine.bytes(now, &from_server)?; // there is no node
/// assert_eq!(machine.data_mark("/a")?, Some(Mark::Good));
/// # let head = [&[0, 0, 0, 30][..], &[255; 12], &[0; 4]].concat();
/// # let report = [&head[..], &[0, 0, 0, 1, 0, 0, 0, 3, 0, 0, 0, 2], b"/a"].concat();
/// let _ = machine.bytes(now, &report)?; // it was made
/// assert_eq!(machine.data_mark("/a")?, Some(Mark::Stale));
/// # Ok::<(), dirwolleu::Fault>(())
/// ```
#[derive(Clone, Copy, Debug, PartialEq, Eq, Hash)]
pub enum Mark {
    /// ZooKeeper held this at the greatest zxid seen, and no report has ended it.
    Good = 1,
    /// A change was reported since, and the path was not read again.
    Stale = 2,
}

/// Enums whose variants have the numbers of the header, each with its name there.
#[rustfmt::skip]
macro_rules! numbered {
    ($($name:ident, $what:literal: $($variant:ident),*;)*) => {$(
        /// By its number in the header.
        impl TryFrom<i32> for $name {
            type Error = UnknownNumber;

            fn try_from(number: i32) -> Result<$name, UnknownNumber> {
                let found = [$($name::$variant),*].into_iter().find(|one| *one as i32 == number);
                found.ok_or(UnknownNumber::of($what, number))
            }
        }

        /// Its number in the header.
        impl From<$name> for i32 {
            fn from(one: $name) -> i32 {
                one as i32
            }
        }
    )*};
}

numbered! {
    State, "state": Idle, Connecting, Connected, Expired, Closed;
    NodeEvent, "event": Created, Deleted, DataChanged, ChildrenChanged;
    Side, "side": Data, Children;
    NoReply, "outcome": ConnectionLoss, SessionExpired, SessionClosed, NotConnected, TooManyWatches, TooLarge, TooManyPending;
    Mark, "mark": Good, Stale;
}

/// The codes of servers.
impl Code {
    /// The connection was lost within the servers: the call may or may not have happened.
    pub const CONNECTION_LOSS: Code = Code(-4);
    /// The server does not know the request.
    pub const UNIMPLEMENTED: Code = Code(-6);
    /// The server refuses the path, the mode or the data.
    pub const BAD_ARGUMENTS: Code = Code(-8);
    /// There is no node; for a create, no parent.
    pub const NO_NODE: Code = Code(-101);
    /// The node's ACL does not admit this client with the credentials that it has.
    pub const NO_AUTH: Code = Code(-102);
    /// The node has another version than the call says.
    pub const BAD_VERSION: Code = Code(-103);
    /// The parent is an ephemeral node.
    pub const NO_CHILDREN_FOR_EPHEMERALS: Code = Code(-108);
    /// There is a node already.
    pub const NODE_EXISTS: Code = Code(-110);
    /// The node has children.
    pub const NOT_EMPTY: Code = Code(-111);
    /// The session has expired, according to this reply; the client's state shows it on the next connection.
    pub const SESSION_EXPIRED: Code = Code(-112);
    /// The server does not take this ACL.
    pub const INVALID_ACL: Code = Code(-114);
    /// The session was taken up over another connection.
    pub const SESSION_MOVED: Code = Code(-118);
    /// The server has failed, and says no more.
    pub const SYSTEM_ERROR: Code = Code(-1);
    /// The server has found itself inconsistent.
    pub const RUNTIME_INCONSISTENCY: Code = Code(-2);
    /// The server has found its data inconsistent.
    pub const DATA_INCONSISTENCY: Code = Code(-3);
    /// The server cannot read the request.
    pub const MARSHALLING_ERROR: Code = Code(-5);
    /// The server has not done it in time.
    pub const OPERATION_TIMEOUT: Code = Code(-7);
    /// The server does not know the session.
    pub const UNKNOWN_SESSION: Code = Code(-12);
    /// No quorum of the new configuration is connected.
    pub const NEW_CONFIG_NO_QUORUM: Code = Code(-13);
    /// The configuration of the servers is being changed already.
    pub const RECONFIG_IN_PROGRESS: Code = Code(-14);
    /// The server refuses the request.
    pub const API_ERROR: Code = Code(-100);
    /// A callback is refused. Servers do not answer it to this client.
    pub const INVALID_CALLBACK: Code = Code(-113);
    /// The server does not take these credentials, or does not know their scheme.
    pub const AUTH_FAILED: Code = Code(-115);
    /// The server is read-only, and was asked to write.
    pub const NOT_READ_ONLY: Code = Code(-119);
    /// A local session makes no ephemeral nodes.
    pub const EPHEMERAL_ON_LOCAL_SESSION: Code = Code(-120);
    /// There is no watch to remove.
    pub const NO_WATCHER: Code = Code(-121);
    /// The leader has not answered the server in time.
    pub const REQUEST_TIMEOUT: Code = Code(-122);
    /// Clients may not change the configuration of the servers.
    pub const RECONFIG_DISABLED: Code = Code(-123);
    /// The server admits clients by SASL alone, and has closed the session.
    pub const SESSION_CLOSED_REQUIRE_SASL_AUTH: Code = Code(-124);
    /// The quota of a node above would be exceeded.
    pub const QUOTA_EXCEEDED: Code = Code(-125);
    /// The server has more requests to do than it admits at a time.
    pub const THROTTLED: Code = Code(-127);
}

/// The reason in words. None where there are none for a number.
#[rustfmt::skip]
#[allow(clippy::match_same_arms)] // a line for each number
pub(crate) mod words {
    pub(crate) fn result(number: i32) -> Option<&'static str> {
        Some(match number {
            0 => "done",
            1 => "there is none",
            2 => "another session stands before this one",
            -1 => "out of memory within a step",
            -2 => "out of memory",
            -3 => "the handle holds no session",
            -4 => "the path is no UTF-8",
            -5 => "the text is no path",
            -6 => "the timeout is not 1 to 2147483647 milliseconds",
            -7 => "the mode is no sum of DW_MODE_EPHEMERAL and DW_MODE_SEQUENTIAL, or the naming none of enum dw_naming",
            -8 => "the bytes are no saved session",
            -9 => "some of what is asked for is not kept, or not good",
            -10 => "the subtree has more nodes than were asked for",
            -11 => "the bytes are no texts, each after its length",
            -12 => "no operation that a caller may spell has the number",
            -13 => "the scheme and the secret have more than 1048555 bytes",
            -14 => "a limit of payloads is below that of every session, or above 1073741823 bytes",
            -15 => "the bytes spell no ACL of one entry or more",
            _ => return None,
        })
    }

    pub(crate) fn outcome(number: i32) -> Option<&'static str> {
        Some(match number {
            0 => "there is a reply",
            1 => "the connection ended before the reply",
            2 => "the session has expired",
            3 => "the session is closed",
            4 => "no server has accepted the session",
            5 => "65536 paths are watched",
            6 => "the request or its answer is longer than the session allows",
            7 => "1024 calls wait for their reply",
            _ => return None,
        })
    }

    pub(crate) fn code(number: i32) -> Option<&'static str> {
        Some(match number {
            -4 => "the servers have lost the connection",
            -6 => "the server does not know the request",
            -8 => "the server refuses the path, the mode or the data",
            -101 => "no node",
            -102 => "the node's ACL does not admit this client",
            -103 => "the node has another version",
            -108 => "an ephemeral node has no children",
            -110 => "there is a node already",
            -111 => "the node has children",
            -112 => "the session has expired, the server says",
            -114 => "the server does not take this ACL",
            -118 => "the session was taken up over another connection",
            -1 => "the server has failed",
            -2 => "the server has found itself inconsistent",
            -3 => "the server has found its data inconsistent",
            -5 => "the server can not read the request",
            -7 => "the server has not done it in time",
            -12 => "the server does not know the session",
            -13 => "no quorum of the new servers is connected",
            -14 => "the servers are being changed",
            -100 => "the server refuses the request",
            -113 => "the callback is refused",
            -115 => "the server does not take these credentials",
            -119 => "the server is read-only",
            -120 => "a local session makes no ephemeral nodes",
            -121 => "no such watch is set",
            -122 => "the leader has not answered the server in time",
            -123 => "the servers are not to be changed by clients",
            -124 => "the server wants SASL, and has closed the session",
            -125 => "the quota would be exceeded",
            -127 => "the server has too much to do",
            _ => return None,
        })
    }
}

/// What to do, where the reason does not say it.
#[rustfmt::skip]
#[allow(clippy::match_same_arms)] // a line for each number
pub(crate) mod advice {
    pub(crate) fn result(number: i32) -> &'static str {
        match number {
            -1 => "take the saved session, and resume it",
            -2 => "hand the same in again",
            -3 => "open one",
            -8 => "take all of those that a client has saved",
            -9 => "read what is lacking, with a watch",
            -10 => "ask for more, or for a path below",
            _ => "",
        }
    }

    pub(crate) fn outcome(number: i32) -> &'static str {
        match number {
            1 => "it may or may not have happened: read again",
            2 => "renew it",
            3 => "open another one",
            4 => "call again later",
            5 => "read without a watch, or in another session",
            6 => "send or read less, or raise longest_request or longest_answer",
            7 => "call again when one was answered",
            _ => "",
        }
    }

    pub(crate) fn code(number: i32) -> &'static str {
        match number {
            -4 => "it may or may not have happened: read again",
            -103 => "read it again",
            -111 => "delete them first",
            -112 => "call again",
            -118 => "have one program use it",
            -14 => "call again later",
            -127 => "call again later",
            _ => "",
        }
    }
}
