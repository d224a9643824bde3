//! What a machine's actions bring: bytes, texts and names, which stay in the library until you copy them.

use crate::buffer::{copy_whole, copy_whole_in, text_of, TextList};
use crate::fault::{Code, Fault, NoReply, UnknownNumber};
use crate::ffi::{self, Handle};
use crate::node::Stat;
use crate::numbers::{brought, cause, outcome};
use std::convert::Infallible;
use std::fmt;

/// The reply of a server.
///
/// ```
/// use dirwolleu::{ANY_VERSION, Action, Brought, Machine, Moment, Reply};
/// # use std::time::Duration;
/// # let now = Moment::from_millis(1);
/// # let mut machine = Machine::open(Duration::from_secs(9), 1, 42)?;
/// # let _ = machine.tick(now)?;
/// # let _ = machine.opened(now)?;
/// # let admitted = [&[0, 0, 0, 37, 0, 0, 0, 0, 0, 0, 35, 40, 0, 0, 0, 0, 0, 0, 0, 1, 0, 0, 0, 16][..], &[0; 17]].concat();
/// # let _ = machine.bytes(now, &admitted)?;
///
/// let _ = machine.delete(now, 7, None, "/a", ANY_VERSION)?;
/// # let from_server = [0, 0, 0, 16, 0, 0, 0, 1, 0, 0, 0, 0, 0, 0, 0, 5, 0, 0, 0, 0];
/// let mut actions = machine.bytes(now, &from_server)?;
/// let Some(Action::Answer { ticket: 7, outcome: Ok(Reply { zxid, result }) }) = actions.next()? else { panic!("it is answered") };
/// assert_eq!(zxid, 5);
/// assert!(matches!(result, Ok(Brought::Done)));
/// # Ok::<(), dirwolleu::Fault>(())
/// ```
#[derive(Debug)]
pub struct Reply<'a> {
    /// The zxid at which it holds, without meaning if the server answers with an error.
    pub zxid: i64,
    /// The result, or the server's error.
    pub result: Result<Brought<'a>, Code>,
}

impl<'a> Reply<'a> {
    /// The reply, or why there is none.
    pub(crate) fn of(
        handle: &'a Handle,
        flat: &ffi::Output,
        bytes: Bytes<'a>,
    ) -> Result<Result<Reply<'a>, NoReply>, UnknownNumber> {
        if flat.detail != outcome::REPLIED {
            return NoReply::try_from(flat.detail).map(Err);
        }
        Ok(Ok(Reply {
            zxid: flat.zxid,
            result: Brought::of(handle, flat, bytes)?,
        }))
    }
}

/// The result in a reply.
///
/// ```
/// use dirwolleu::{Action, Brought, Machine, Moment, Watch};
/// # use std::time::Duration;
/// # let now = Moment::from_millis(1);
/// # let mut machine = Machine::open(Duration::from_secs(9), 1, 42)?;
/// # let _ = machine.tick(now)?;
/// # let _ = machine.opened(now)?;
/// # let admitted = [&[0, 0, 0, 37, 0, 0, 0, 0, 0, 0, 35, 40, 0, 0, 0, 0, 0, 0, 0, 1, 0, 0, 0, 16][..], &[0; 17]].concat();
/// # let _ = machine.bytes(now, &admitted)?;
///
/// let _ = machine.get_data(now, 7, None, "/a", Watch::No)?;
/// # let head = [0, 0, 0, 91, 0, 0, 0, 1, 0, 0, 0, 0, 0, 0, 0, 5, 0, 0, 0, 0, 0, 0, 0, 3];
/// # let from_server = [&head[..], b"one", &[0; 68]].concat();
/// let mut actions = machine.bytes(now, &from_server)?;
/// let Some(Action::Answer { outcome: Ok(reply), .. }) = actions.next()? else { panic!("it is answered") };
/// match reply.result {
///     Ok(Brought::Data { data, stat }) => {
///         assert_eq!(data.map(|bytes| bytes.to_vec()), Some(b"one".to_vec()));
///         assert_eq!(stat.version, 0); // for the next set
///     }
///     other => panic!("it brings data, and not {other:?}"),
/// }
/// # Ok::<(), dirwolleu::Fault>(())
/// ```
#[derive(Debug)]
#[non_exhaustive]
pub enum Brought<'a> {
    /// To [`exists`](crate::Machine::exists) and [`set_data`](crate::Machine::set_data): the node's `Stat`.
    Stat(Stat),
    /// To [`get_data`](crate::Machine::get_data).
    Data {
        /// The data: `None` if they are null, which differs from no bytes.
        data: Option<Bytes<'a>>,
        /// The node's `Stat`.
        stat: Stat,
    },
    /// To [`get_children`](crate::Machine::get_children).
    Names {
        /// The names, in the server's order, which has no meaning.
        names: Names<'a>,
        /// The node's `Stat`.
        stat: Stat,
    },
    /// To [`create`](crate::Machine::create): the node's path, to which a sequential create appends ten digits.
    Created(Text<'a>),
    /// To [`delete`](crate::Machine::delete) and [`close_session`](crate::Machine::close_session): done.
    Done,
    /// To [`raw`](crate::Machine::raw): everything after the header of the reply. The core has read none of it.
    Raw(Bytes<'a>),
}

impl<'a> Brought<'a> {
    /// The result, or the server's error.
    pub(crate) fn of(
        handle: &'a Handle,
        flat: &ffi::Output,
        bytes: Bytes<'a>,
    ) -> Result<Result<Brought<'a>, Code>, UnknownNumber> {
        let stat = flat.stat;
        Ok(match flat.result {
            brought::CODE => Err(Code(flat.code)),
            brought::STAT => Ok(Brought::Stat(stat)),
            brought::DATA => Ok(Brought::Data {
                data: (!flat.is_null).then_some(bytes),
                stat,
            }),
            brought::NAMES => Ok(Brought::Names {
                names: Names {
                    handle,
                    count: flat.names,
                },
                stat,
            }),
            brought::CREATED => Ok(Brought::Created(Text { bytes })),
            brought::DONE => Ok(Brought::Done),
            brought::RAW => Ok(Brought::Raw(bytes)),
            other => return Err(UnknownNumber::of("result of a reply", other)),
        })
    }
}

/// The bytes of a frame or of data, which stay in the library until you copy them.
///
/// ```
/// use dirwolleu::{Action, Machine, Moment};
/// use std::time::Duration;
///
/// let mut machine = Machine::open(Duration::from_secs(9), 1, 42)?;
/// let now = Moment::from_millis(1);
/// let _ = machine.tick(now)?; // a connection is asked for
/// let mut actions = machine.opened(now)?;
/// let Some(Action::Send(frame)) = actions.next()? else { panic!("a connection begins with a frame") };
/// let mut to_server = Vec::new();
/// frame.append_to(&mut to_server);
/// assert_eq!(to_server.len(), frame.len());
/// let mut start = [0; 4];
/// assert_eq!(frame.copy_to(0, &mut start), 4);
/// assert_eq!(start, [0, 0, 0, 45]); // the length of what comes after it
/// # Ok::<(), dirwolleu::Fault>(())
/// ```
#[derive(Clone, Copy)]
pub struct Bytes<'a> {
    handle: &'a Handle,
    length: usize,
}

impl<'a> Bytes<'a> {
    /// The bytes of the last output.
    pub(crate) fn of(handle: &'a Handle, flat: &ffi::Output) -> Bytes<'a> {
        let length = flat.length;
        Bytes { handle, length }
    }
}

impl Bytes<'_> {
    /// How many there are.
    pub fn len(&self) -> usize {
        self.length
    }

    /// Whether there are none.
    pub fn is_empty(&self) -> bool {
        self.length == 0
    }

    /// Copies the bytes from this place on, as many as there is room for, and returns how many it copied.
    pub fn copy_to(&self, from: usize, room: &mut [u8]) -> usize {
        self.handle.copy(from, room).min(room.len())
    }

    /// Appends them to a vector.
    pub fn append_to(&self, bytes: &mut Vec<u8>) {
        self.handle.append(self.length, bytes);
    }

    /// A copy of them.
    pub fn to_vec(&self) -> Vec<u8> {
        let mut bytes = Vec::with_capacity(self.length);
        self.append_to(&mut bytes);
        bytes
    }
}

/// Prints how many there are, and not which: a frame may have a password.
impl fmt::Debug for Bytes<'_> {
    fn fmt(&self, f: &mut fmt::Formatter<'_>) -> fmt::Result {
        write!(f, "Bytes({})", self.length)
    }
}

/// A path or a code, which stays in the library until you copy it.
///
/// ```
/// use dirwolleu::{Action, Brought, Machine, Mode, Moment};
/// # use std::time::Duration;
/// # let now = Moment::from_millis(1);
/// # let mut machine = Machine::open(Duration::from_secs(9), 1, 42)?;
/// # let _ = machine.tick(now)?;
/// # let _ = machine.opened(now)?;
/// # let admitted = [&[0, 0, 0, 37, 0, 0, 0, 0, 0, 0, 35, 40, 0, 0, 0, 0, 0, 0, 0, 1, 0, 0, 0, 16][..], &[0; 17]].concat();
/// # let _ = machine.bytes(now, &admitted)?;
///
/// let _ = machine.create(now, 7, None, "/queue/job-", None, Mode::PersistentSequential)?;
/// # let head = [0, 0, 0, 41, 0, 0, 0, 1, 0, 0, 0, 0, 0, 0, 0, 5, 0, 0, 0, 0, 0, 0, 0, 21];
/// # let from_server = [&head[..], b"/queue/job-0000000003"].concat();
/// let mut actions = machine.bytes(now, &from_server)?;
/// let Some(Action::Answer { outcome: Ok(reply), .. }) = actions.next()? else { panic!("it is answered") };
/// let Ok(Brought::Created(path)) = reply.result else { panic!("a node was made") };
/// assert_eq!(path.len(), 21);
/// assert_eq!(String::from(path), "/queue/job-0000000003");
/// # Ok::<(), dirwolleu::Fault>(())
/// ```
#[derive(Clone, Copy)]
pub struct Text<'a> {
    bytes: Bytes<'a>,
}

impl<'a> Text<'a> {
    /// The text of these bytes.
    pub(crate) fn of(bytes: Bytes<'a>) -> Text<'a> {
        Text { bytes }
    }
}

impl Text<'_> {
    /// How many bytes it has.
    pub fn len(&self) -> usize {
        self.bytes.len()
    }

    /// Whether it has none.
    pub fn is_empty(&self) -> bool {
        self.bytes.is_empty()
    }
}

impl From<Text<'_>> for String {
    fn from(text: Text<'_>) -> String {
        text_of(text.bytes.to_vec())
    }
}

impl fmt::Display for Text<'_> {
    fn fmt(&self, f: &mut fmt::Formatter<'_>) -> fmt::Result {
        f.pad(&String::from(*self))
    }
}

impl fmt::Debug for Text<'_> {
    fn fmt(&self, f: &mut fmt::Formatter<'_>) -> fmt::Result {
        fmt::Debug::fmt(&String::from(*self), f)
    }
}

/// The least room for each of many names, with its length, before their length is known.
const ROOM_OF_NAME: usize = 32;

/// Names of children, which stay in the library until you copy them.
///
/// ```
/// use dirwolleu::{Action, Brought, Machine, Moment, Watch};
/// # use std::time::Duration;
/// # let now = Moment::from_millis(1);
/// # let mut machine = Machine::open(Duration::from_secs(9), 1, 42)?;
/// # let _ = machine.tick(now)?;
/// # let _ = machine.opened(now)?;
/// # let admitted = [&[0, 0, 0, 37, 0, 0, 0, 0, 0, 0, 35, 40, 0, 0, 0, 0, 0, 0, 0, 1, 0, 0, 0, 16][..], &[0; 17]].concat();
/// # let _ = machine.bytes(now, &admitted)?;
///
/// let _ = machine.get_children(now, 7, None, "/a", Watch::No)?;
/// # let head = [0, 0, 0, 101, 0, 0, 0, 1, 0, 0, 0, 0, 0, 0, 0, 5, 0, 0, 0, 0, 0, 0, 0, 2];
/// # let names = b"\0\0\0\x04port\0\0\0\x01b";
/// # let from_server = [&head[..], names, &[0; 68]].concat();
/// let mut actions = machine.bytes(now, &from_server)?;
/// let Some(Action::Answer { outcome: Ok(reply), .. }) = actions.next()? else { panic!("it is answered") };
/// let Ok(Brought::Names { names, .. }) = reply.result else { panic!("it brings names") };
/// assert_eq!(names.len(), 2);
/// assert_eq!(names.to_vec()?, ["port", "b"]);
/// assert!(names.iter().any(|name| name == "b"));
/// # Ok::<(), dirwolleu::Fault>(())
/// ```
#[derive(Clone, Copy)]
pub struct Names<'a> {
    handle: &'a Handle,
    count: usize,
}

impl<'a> Names<'a> {
    /// How many there are.
    pub fn len(&self) -> usize {
        self.count
    }

    /// Whether there are none.
    pub fn is_empty(&self) -> bool {
        self.count == 0
    }

    /// Copies all of them, in the order of the reply, by one call of the library.
    ///
    /// # Errors
    ///
    /// [`Fault::NoMemory`] if the library has no memory for them.
    pub fn to_vec(&self) -> Result<Vec<String>, Fault> {
        Ok(self.spelled()?.texts())
    }

    /// The same before they are parsed. The session waits meanwhile, so there is only one copy: the names of a lock are as long as the
    /// first.
    pub(crate) fn spelled(&self) -> Result<TextList, Fault> {
        let of_first = self.handle.name(0, &mut []) + 4;
        let room = self.count * of_first.max(ROOM_OF_NAME);
        let bytes = copy_whole_in(room, |room| self.handle.names(room))?;
        let count = self.count;
        Ok(TextList { count, bytes })
    }

    /// Copies each of them, in the order of the reply, by a call for each.
    pub fn iter(&self) -> impl Iterator<Item = String> + 'a {
        let handle = self.handle;
        (0..self.count).map(move |index| {
            let name = copy_whole(|room| Ok::<usize, Infallible>(handle.name(index, room)));
            text_of(name.unwrap_or_else(|never| match never {}))
        })
    }
}

impl fmt::Debug for Names<'_> {
    fn fmt(&self, f: &mut fmt::Formatter<'_>) -> fmt::Result {
        f.debug_list().entries(self.iter()).finish()
    }
}

/// Why a machine gives its connection up.
///
/// ```
/// use dirwolleu::{Action, Cause, Machine, Moment};
/// use std::time::Duration;
///
/// let mut machine = Machine::open(Duration::from_secs(9), 1, 42)?;
/// let _ = machine.tick(Moment::from_millis(1_000))?;
/// let _ = machine.opened(Moment::from_millis(1_000))?;
/// let mut actions = machine.tick(Moment::from_millis(7_000))?; // the server has said nothing
/// let Some(Action::Drop(given_up)) = actions.next()? else { panic!("the connection is given up") };
/// assert_eq!(given_up.cause, Cause::Silence);
/// # Ok::<(), dirwolleu::Fault>(())
/// ```
#[derive(Clone, Copy, Debug, PartialEq, Eq, Hash)]
#[non_exhaustive]
pub enum Cause {
    /// The length of a frame is out of its range.
    Frame,
    /// The payload of a frame does not parse, or nobody asked for it.
    Payload,
    /// Nothing was heard for two thirds of the timeout.
    Silence,
    /// The reply to a watched read is behind the greatest zxid seen.
    Behind {
        /// The zxid of the reply.
        zxid: i64,
    },
    /// The server refused to set the watches again.
    WatchesRefused {
        /// The server's code.
        code: Code,
    },
}

impl Cause {
    pub(crate) fn of(flat: &ffi::Output) -> Result<Cause, UnknownNumber> {
        Ok(match flat.detail {
            cause::BAD_FRAME => Cause::Frame,
            cause::BAD_PAYLOAD => Cause::Payload,
            cause::SILENT => Cause::Silence,
            cause::BEHIND => Cause::Behind { zxid: flat.zxid },
            cause::WATCHES_REFUSED => Cause::WatchesRefused {
                code: Code(flat.code),
            },
            other => return Err(UnknownNumber::of("cause", other)),
        })
    }
}

/// The end of a connection that a machine gives up.
///
/// ```
/// use dirwolleu::{Action, Cause, Machine, Moment};
/// use std::time::Duration;
///
/// let now = Moment::from_millis(1);
/// let mut machine = Machine::open(Duration::from_secs(9), 1, 42)?;
/// let _ = machine.tick(now)?;
/// let _ = machine.opened(now)?;
/// let mut actions = machine.bytes(now, &[255; 4])?; // no length of a frame
/// let Some(Action::Drop(given_up)) = actions.next()? else { panic!("the connection is given up") };
/// assert_eq!(given_up.cause, Cause::Frame);
/// assert_eq!(given_up.code.to_string(), "F1");
/// println!("{}", given_up.words()?); // for a log
/// # Ok::<(), dirwolleu::Fault>(())
/// ```
#[derive(Clone, Copy, Debug)]
pub struct GivenUp<'a> {
    /// The reason.
    pub cause: Cause,
    /// The code of the fault, such as `D1`.
    pub code: Text<'a>,
}

impl GivenUp<'_> {
    /// The reason in words.
    ///
    /// # Errors
    ///
    /// [`Fault::NoMemory`] if there is no memory for them.
    pub fn words(&self) -> Result<String, Fault> {
        let handle = self.code.bytes.handle;
        copy_whole(|room| handle.words(room)).map(text_of)
    }
}
