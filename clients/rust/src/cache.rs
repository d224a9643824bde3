//! What a client keeps of paths that it read with a watch.

use crate::fault::UnknownNumber;
use crate::ffi;
use crate::node::DataStat;
use crate::numbers::kept;

pub use crate::numbers::Mark;

/// The mark with this number, or `None` if nothing is kept.
pub(crate) fn mark_of(number: i32) -> Result<Option<Mark>, UnknownNumber> {
    (number != 0).then(|| Mark::try_from(number)).transpose()
}

/// A kept answer and its mark.
///
/// ```no_run
/// use dirwolleu::{DataAnswer, Kept, Mark, Session};
/// use std::time::Duration;
///
/// # fn main() -> Result<(), Box<dyn std::error::Error>> {
/// let session = Session::open("127.0.0.1:2181", Duration::from_secs(10))?;
/// session.watch("/config")?;
/// match session.peek("/config")? {
///     Some(Kept { answer: DataAnswer::Full { data, .. }, mark: Mark::Good }) => println!("{data:?} at zxid {}", session.last_zxid()),
///     Some(Kept { mark: Mark::Stale, .. }) => println!("a change was told"),
///     _ => println!("no node, or nothing is known"),
/// }
/// # Ok(())
/// # }
/// ```
#[derive(Clone, Debug, PartialEq, Eq)]
pub struct Kept<T> {
    /// The answer.
    pub answer: T,
    /// Whether it is good.
    pub mark: Mark,
}

/// The kept data of a path.
///
/// ```
/// use dirwolleu::{DataAnswer, Machine, Moment, Watch};
/// # use std::time::Duration;
/// # let now = Moment::from_millis(1);
/// # let mut machine = Machine::open(Duration::from_secs(9), 1, 42)?;
/// # let _ = machine.tick(now)?;
/// # let _ = machine.opened(now)?;
/// # let admitted = [&[0, 0, 0, 37, 0, 0, 0, 0, 0, 0, 35, 40, 0, 0, 0, 0, 0, 0, 0, 1, 0, 0, 0, 16][..], &[0; 17]].concat();
/// # let _ = machine.bytes(now, &admitted)?;
///
/// let _ = machine.exists(now, 7, None, "/a", Watch::Yes)?;
/// # let from_server = [0, 0, 0, 16, 0, 0, 0, 1, 0, 0, 0, 0, 0, 0, 0, 5, 255, 255, 255, 155];
/// let _ = machine.bytes(now, &from_server)?;
/// match machine.peek_data("/a")?.map(|kept| kept.answer) {
///     Some(DataAnswer::Absent) => println!("there is no node"),
///     other => panic!("that is kept, and not {other:?}"),
/// }
/// # Ok::<(), dirwolleu::Fault>(())
/// ```
#[derive(Clone, Debug, PartialEq, Eq)]
pub enum DataAnswer {
    /// There is no node.
    Absent,
    /// There is a node; its data were not read.
    Known(DataStat),
    /// There is a node with these data.
    Full {
        /// The data: `None` if they are null, which differs from no bytes.
        data: Option<Vec<u8>>,
        /// The node's other kept fields.
        stat: DataStat,
    },
}

/// The kept children of a path.
///
/// ```
/// use dirwolleu::{Children, Machine, Moment, Watch};
/// # use std::time::Duration;
/// # let now = Moment::from_millis(1);
/// # let mut machine = Machine::open(Duration::from_secs(9), 1, 42)?;
/// # let _ = machine.tick(now)?;
/// # let _ = machine.opened(now)?;
/// # let admitted = [&[0, 0, 0, 37, 0, 0, 0, 0, 0, 0, 35, 40, 0, 0, 0, 0, 0, 0, 0, 1, 0, 0, 0, 16][..], &[0; 17]].concat();
/// # let _ = machine.bytes(now, &admitted)?;
///
/// let _ = machine.get_children(now, 7, None, "/a", Watch::Yes)?;
/// # let head = [0, 0, 0, 101, 0, 0, 0, 1, 0, 0, 0, 0, 0, 0, 0, 5, 0, 0, 0, 0, 0, 0, 0, 2];
/// # let names = b"\0\0\0\x04port\0\0\0\x01b";
/// # let from_server = [&head[..], names, &[0; 68]].concat();
/// let _ = machine.bytes(now, &from_server)?;
/// let Some(kept) = machine.peek_children("/a")? else { panic!("they are kept") };
/// let Children { names, pzxid } = kept.answer;
/// assert_eq!(names, ["b", "port"]);
/// println!("as of zxid {pzxid}");
/// # Ok::<(), dirwolleu::Fault>(())
/// ```
#[derive(Clone, Debug, PartialEq, Eq)]
pub struct Children {
    /// Their names, in byte order.
    pub names: Vec<String>,
    /// The zxid of the last change to this set.
    pub pzxid: i64,
}

impl Kept<DataAnswer> {
    pub(crate) fn of_data(
        found: &ffi::KeptData,
        data: Vec<u8>,
    ) -> Result<Option<Kept<DataAnswer>>, UnknownNumber> {
        let Some(mark) = mark_of(found.mark)? else {
            return Ok(None);
        };
        let answer = match found.kind {
            kept::ABSENT => DataAnswer::Absent,
            kept::KNOWN => DataAnswer::Known(found.stat),
            kept::FULL => DataAnswer::Full {
                data: (!found.is_null).then_some(data),
                stat: found.stat,
            },
            other => return Err(UnknownNumber::of("kind of what is kept", other)),
        };
        Ok(Some(Kept { answer, mark }))
    }
}
