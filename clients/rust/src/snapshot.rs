//! The kept answers of several paths, all of one moment.

use crate::buffer::texts_in;
use crate::cache::{Children, DataAnswer};
use crate::fault::UnknownNumber;
use crate::jute::Reader;
use crate::numbers::kept;
use crate::subtree::{buffer, data_stat};

/// The kept answers of several paths, as the servers' history has them at one zxid: from [`Machine::snapshot`](crate::Machine::snapshot)
/// and [`Session::snapshot`](crate::Session::snapshot).
///
/// ```no_run
/// use dirwolleu::{DataAnswer, Session};
/// # use std::time::Duration;
///
/// # fn main() -> Result<(), Box<dyn std::error::Error>> {
/// # let session = Session::open("127.0.0.1:2181", Duration::from_secs(10))?;
/// session.watch("/host")?;
/// session.watch("/port")?;
/// session.watch_children("/workers")?;
/// if let Some(found) = session.snapshot(&["/host", "/port"], &["/workers"])? {
///     if let [DataAnswer::Full { data: host, .. }, DataAnswer::Full { data: port, .. }] = &found.nodes[..] {
///         println!("{host:?}:{port:?} at zxid {}", found.zxid);
///     }
///     println!("{:?}", found.children[0].names);
/// }
/// # Ok(())
/// # }
/// ```
#[derive(Clone, Debug, PartialEq, Eq)]
pub struct Snapshot {
    /// That zxid.
    pub zxid: i64,
    /// The kept data of the nodes, in the order of their paths.
    pub nodes: Vec<DataAnswer>,
    /// The names below the parents, in the order of their paths.
    pub children: Vec<Children>,
}

/// A node as the library spelled it.
fn answer(reader: &mut Reader<'_>) -> Option<Result<DataAnswer, UnknownNumber>> {
    let _path = reader.text()?;
    let kind = reader.int()?;
    let (data, stat) = (buffer(reader)?, data_stat(reader)?);
    Some(match kind {
        kept::ABSENT => Ok(DataAnswer::Absent),
        kept::KNOWN => Ok(DataAnswer::Known(stat)),
        kept::FULL => Ok(DataAnswer::Full { data, stat }),
        other => Err(UnknownNumber::of("kind of what is kept", other)),
    })
}

/// The same for the names below a parent.
fn children(reader: &mut Reader<'_>) -> Option<Children> {
    let _path = reader.text()?;
    let names = buffer(reader)??;
    Some(Children {
        names: texts_in(0, &names),
        pzxid: reader.long()?,
    })
}

/// Everything that the library spelled, for this many nodes.
pub(crate) fn snapshot_in(
    zxid: i64,
    nodes: usize,
    spelled: &[u8],
) -> Result<Snapshot, UnknownNumber> {
    let mut reader = Reader::new(spelled);
    let mut snapshot = Snapshot {
        zxid,
        nodes: Vec::with_capacity(nodes),
        children: Vec::new(),
    };
    for _ in 0..nodes {
        let node = answer(&mut reader).expect("the library spells whole records");
        snapshot.nodes.push(node?);
    }
    while !reader.is_empty() {
        let names = children(&mut reader).expect("the library spells whole records");
        snapshot.children.push(names);
    }
    Ok(snapshot)
}
