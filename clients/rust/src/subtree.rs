//! All nodes at and below a path, of one moment, and the reads that are still missing before they are known.

use crate::chroot::Chroot;
use crate::jute::Reader;
use crate::node::{DataStat, Side};

/// A node of a [`Subtree`].
///
/// ```
/// use dirwolleu::{DataStat, SubtreeNode};
///
/// let stat = DataStat { version: 3, ..DataStat::default() };
/// let node = SubtreeNode { path: "/config/host".into(), data: Some(b"alpha".to_vec()), stat, pzxid: 5 };
/// assert_eq!(node.name(), "host");
/// assert_eq!(node.stat.version, 3); // for the next set
/// ```
#[derive(Clone, Debug, PartialEq, Eq)]
pub struct SubtreeNode {
    /// Its path.
    pub path: String,
    /// The data: `None` if they are null, which differs from no bytes.
    pub data: Option<Vec<u8>>,
    /// The node's kept fields.
    pub stat: DataStat,
    /// The zxid of the transaction that last changed the set of its children.
    pub pzxid: i64,
}

impl SubtreeNode {
    /// The last name of its path, which is empty for `/`.
    #[must_use]
    pub fn name(&self) -> &str {
        let slash = self.path.rfind('/');
        slash.map_or("", |slash| &self.path[slash + 1..])
    }
}

/// All nodes at and below a path, as the servers' history has them at one zxid: from [`Machine::subtree`](crate::Machine::subtree).
///
/// ```
/// use dirwolleu::{Fault, Machine, Moment, Side, Subtree, Watch};
///
/// /// The nodes at and below a path, or `None` if some of them are still asked for.
/// fn look(machine: &mut Machine, now: Moment, path: &str) -> Result<Option<Subtree>, Fault> {
///     for (ticket, read) in (0..).zip(machine.lacking(path, 1_000)?) {
///         let actions = match read.side {
///             Side::Data => machine.get_data(now, ticket, None, &read.path, Watch::Yes)?,
///             _ => machine.get_children(now, ticket, None, &read.path, Watch::Yes)?,
///         };
///         drop(actions); // a program does what they say
///     }
///     machine.subtree(path, 1_000)
/// }
/// ```
#[derive(Clone, Debug, PartialEq, Eq)]
pub struct Subtree {
    /// That zxid.
    pub zxid: i64,
    /// The nodes, each after its parent: the root first. No other node was there.
    pub nodes: Vec<SubtreeNode>,
}

impl Subtree {
    /// The same with the program's paths.
    pub(crate) fn below(mut self, chroot: &Chroot) -> Subtree {
        for node in &mut self.nodes {
            node.path = chroot.inner(std::mem::take(&mut node.path));
        }
        self
    }
}

/// A read, with a watch, that is still missing before there is a subtree.
///
/// ```
/// use dirwolleu::{Lacking, Machine, Side};
/// use std::time::Duration;
///
/// let machine = Machine::open(Duration::from_secs(10), 1, 42)?;
/// let lacking = machine.lacking("/config", 1_000)?; // nothing was read yet
/// assert!(lacking.contains(&Lacking { path: "/config".into(), side: Side::Data }));
/// # Ok::<(), dirwolleu::Fault>(())
/// ```
#[derive(Clone, Debug, PartialEq, Eq, Hash)]
pub struct Lacking {
    /// The path to read.
    pub path: String,
    /// The data, for [`get_data`](crate::Machine::get_data), or the children, for [`get_children`](crate::Machine::get_children).
    pub side: Side,
}

/// Everything that a reader finds, one after the other.
fn all<T>(spelled: &[u8], mut read: impl FnMut(&mut Reader<'_>) -> Option<T>) -> Vec<T> {
    let mut reader = Reader::new(spelled);
    let mut found = Vec::new();
    while !reader.is_empty() {
        found.push(read(&mut reader).expect("the library spells whole records"));
    }
    found
}

/// Data: `None` if they are null.
pub(crate) type Data = Option<Vec<u8>>;

/// Bytes after their length.
pub(crate) fn buffer(reader: &mut Reader<'_>) -> Option<Data> {
    match usize::try_from(reader.int()?) {
        Ok(length) => reader.bytes(length).map(Some),
        Err(_) => Some(None),
    }
}

/// A node's kept fields, in the order of a `Stat`.
pub(crate) fn data_stat(reader: &mut Reader<'_>) -> Option<DataStat> {
    Some(DataStat {
        czxid: reader.long()?,
        mzxid: reader.long()?,
        ctime: reader.long()?,
        mtime: reader.long()?,
        version: reader.int()?,
        ephemeral_owner: reader.long()?,
        data_length: reader.int()?,
    })
}

fn node(reader: &mut Reader<'_>) -> Option<SubtreeNode> {
    Some(SubtreeNode {
        path: reader.text()?,
        data: buffer(reader)?,
        stat: data_stat(reader)?,
        pzxid: reader.long()?,
    })
}

/// The nodes that the library spelled.
pub(crate) fn nodes_in(spelled: &[u8]) -> Vec<SubtreeNode> {
    all(spelled, node)
}

/// The reads that the library spelled.
pub(crate) fn lacking_in(spelled: &[u8]) -> Vec<Lacking> {
    all(spelled, |reader| {
        Some(Lacking {
            path: reader.text()?,
            side: Side::try_from(reader.int()?).ok()?,
        })
    })
}
