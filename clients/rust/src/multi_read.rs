//! Reads of several nodes at one zxid.

use crate::chroot::Chroot;
use crate::fault::{Code, Fault};
use crate::jute::{Reader, Writer};
use crate::node::Node;

/// Numbers of operations, as `zookeeper.jute` has them.
const GET_DATA: i32 = 4;
const GET_CHILDREN: i32 = 8;

/// A read of one node for [`Request::multi_read`](crate::Request::multi_read).
///
/// ```
/// use dirwolleu::{Read, Request};
///
/// let reads = [Read::Data("/config".into()), Read::Children("/workers".into())];
/// let request = Request::multi_read(&reads); // for `Session::ask`
/// ```
#[derive(Clone, Debug, PartialEq, Eq, Hash)]
#[non_exhaustive]
pub enum Read {
    /// The data of the node at this path, and its `Stat`.
    Data(String),
    /// The names of the children of the node at this path.
    Children(String),
}

/// The answer to a [`Read`].
///
/// ```
/// use dirwolleu::{Code, ReadAnswer};
///
/// let answers = [Ok(ReadAnswer::Children(vec!["a".into()])), Err(Code::NO_NODE)]; // as `Session::multi_read` brings them
/// for answer in answers {
///     match answer {
///         Ok(ReadAnswer::Data(node)) => println!("version {}", node.stat.version),
///         Ok(ReadAnswer::Children(names)) => assert_eq!(names, ["a"]),
///         Ok(other) => println!("{other:?}"),
///         Err(code) => assert_eq!(code, Code::NO_NODE),
///     }
/// }
/// ```
#[derive(Clone, Debug, PartialEq, Eq)]
#[non_exhaustive]
pub enum ReadAnswer {
    /// To [`Read::Data`].
    Data(Node),
    /// To [`Read::Children`], in no particular order.
    Children(Vec<String>),
}

impl Read {
    fn number(&self) -> i32 {
        match self {
            Read::Data(_) => GET_DATA,
            Read::Children(_) => GET_CHILDREN,
        }
    }

    fn read(&self, reply: &mut Reader<'_>) -> Option<ReadAnswer> {
        Some(match self {
            Read::Data(_) => ReadAnswer::Data(reply.node()?),
            Read::Children(_) => ReadAnswer::Children(reply.vector(Reader::text)?),
        })
    }
}

/// The records of these reads, none of which leaves a watch.
pub(crate) fn spell(reads: &[Read], spelled: &mut Writer, root: &Chroot) -> Result<(), Fault> {
    for read in reads {
        let (Read::Data(path) | Read::Children(path)) = read;
        spelled.multi_header(read.number());
        spelled.text(&root.checked(path)?).boolean(false);
    }
    spelled.multi_end();
    Ok(())
}

/// The answer to each read, or the code that refuses it. `None` if the bytes do not parse.
pub(crate) fn read(
    reads: &[Read],
    reply: &mut Reader<'_>,
) -> Option<Vec<Result<ReadAnswer, Code>>> {
    let answers = reads
        .iter()
        .map(|read| reply.multi_result(read.number(), |reply| read.read(reply)));
    let answers = answers.collect::<Option<Vec<_>>>()?;
    reply.multi_end()?;
    Some(answers)
}
