//! Nodes: their fields, modes and watches.

use crate::numbers::mode;

pub use crate::numbers::{NodeEvent, Side};

/// A node's `Stat`, as the protocol has it.
///
/// ```
/// use dirwolleu::{Node, Stat};
///
/// let node = Node { data: Some(b"one".to_vec()), stat: Stat { version: 3, ..Stat::default() } };
/// assert_eq!(node.stat.version, 3); // for the next set
/// assert_eq!(node.stat.ephemeral_owner, 0); // it stays
/// ```
#[repr(C)]
#[derive(Clone, Copy, Debug, Default, PartialEq, Eq)]
pub struct Stat {
    /// The zxid of the transaction that created the node.
    pub czxid: i64,
    /// The zxid of the transaction that last changed its data.
    pub mzxid: i64,
    /// When it was created, in milliseconds since 1970, by the server's clock.
    pub ctime: i64,
    /// When its data last changed, in milliseconds since 1970, by the server's clock.
    pub mtime: i64,
    /// The session that owns the node, or 0 if it is not ephemeral.
    pub ephemeral_owner: i64,
    /// The zxid of the transaction that last changed the set of its children.
    pub pzxid: i64,
    /// How often its data have changed.
    pub version: i32,
    /// How often the set of its children has changed.
    pub cversion: i32,
    /// How often its ACL has changed.
    pub aversion: i32,
    /// The length of its data in bytes.
    pub data_length: i32,
    /// The number of its children.
    pub num_children: i32,
}

/// The fields of a [`Stat`] that change only if a watch on the data fires. A client keeps these.
///
/// ```
/// use dirwolleu::{DataAnswer, DataStat};
///
/// let stat = DataStat { version: 3, ephemeral_owner: 0x1234, ..DataStat::default() };
/// let answer = DataAnswer::Full { data: Some(b"one".to_vec()), stat }; // as it is kept
/// if let DataAnswer::Full { stat, .. } | DataAnswer::Known(stat) = answer {
///     assert_eq!(stat.version, 3); // for the next set
///     assert_ne!(stat.ephemeral_owner, 0); // it goes with a session
/// }
/// ```
#[repr(C)]
#[derive(Clone, Copy, Debug, Default, PartialEq, Eq)]
pub struct DataStat {
    /// The zxid of the transaction that created the node.
    pub czxid: i64,
    /// The zxid of the transaction that last changed its data.
    pub mzxid: i64,
    /// When it was created, in milliseconds since 1970, by the server's clock.
    pub ctime: i64,
    /// When its data last changed, in milliseconds since 1970, by the server's clock.
    pub mtime: i64,
    /// The session that owns the node, or 0 if it is not ephemeral.
    pub ephemeral_owner: i64,
    /// How often its data have changed.
    pub version: i32,
    /// The length of its data in bytes.
    pub data_length: i32,
}

/// The data and the `Stat` of a node.
///
/// ```
/// use dirwolleu::{Node, Stat};
///
/// let node = Node { data: Some(b"alpha".to_vec()), stat: Stat::default() }; // as `Session::get` brings it
/// match &node.data {
///     Some(bytes) => assert_eq!(bytes, b"alpha"),
///     None => println!("its data are null"),
/// }
/// ```
#[derive(Clone, Debug, PartialEq, Eq)]
pub struct Node {
    /// The data: `None` if they are null, which differs from no bytes.
    pub data: Option<Vec<u8>>,
    /// The node's `Stat`.
    pub stat: Stat,
}

/// The version that matches any version of a node, for a set or a delete.
pub const ANY_VERSION: i32 = -1;

/// Whether a read leaves a watch on its path. The client keeps the answer of one that does.
///
/// ```
/// use dirwolleu::{Action, Machine, Moment, Watch};
/// # use std::time::Duration;
/// # let now = Moment::from_millis(1);
/// # let mut machine = Machine::open(Duration::from_secs(9), 1, 42)?;
/// # let _ = machine.tick(now)?;
/// # let _ = machine.opened(now)?;
/// # let admitted = [&[0, 0, 0, 37, 0, 0, 0, 0, 0, 0, 35, 40, 0, 0, 0, 0, 0, 0, 0, 1, 0, 0, 0, 16][..], &[0; 17]].concat();
/// # let _ = machine.bytes(now, &admitted)?;
///
/// let mut actions = machine.get_data(now, 7, None, "/config", Watch::Yes)?;
/// let Some(Action::Send(frame)) = actions.next()? else { panic!("it is asked") };
/// assert_eq!(frame.to_vec().last(), Some(&1)); // the server is to tell the next change
/// # Ok::<(), dirwolleu::Fault>(())
/// ```
#[derive(Clone, Copy, Debug, PartialEq, Eq, Hash)]
pub enum Watch {
    /// It leaves a watch.
    Yes,
    /// It leaves no watch, and nothing is kept.
    No,
}

impl Watch {
    pub(crate) fn is_left(self) -> bool {
        self == Watch::Yes
    }
}

/// The kind of a node to create.
///
/// ```
/// use dirwolleu::{Action, Machine, Mode, Moment};
/// # use std::time::Duration;
/// # let now = Moment::from_millis(1);
/// # let mut machine = Machine::open(Duration::from_secs(9), 1, 42)?;
/// # let _ = machine.tick(now)?;
/// # let _ = machine.opened(now)?;
/// # let admitted = [&[0, 0, 0, 37, 0, 0, 0, 0, 0, 0, 35, 40, 0, 0, 0, 0, 0, 0, 0, 1, 0, 0, 0, 16][..], &[0; 17]].concat();
/// # let _ = machine.bytes(now, &admitted)?;
///
/// let mut actions = machine.create(now, 7, None, "/queue/job-", Some(b"one"), Mode::PersistentSequential)?;
/// let Some(Action::Send(frame)) = actions.next()? else { panic!("it is asked") };
/// assert_eq!(frame.to_vec().last(), Some(&2)); // a number is added to the name
/// # Ok::<(), dirwolleu::Fault>(())
/// ```
#[derive(Clone, Copy, Debug, PartialEq, Eq, Hash)]
#[non_exhaustive]
pub enum Mode {
    /// It stays until it is deleted.
    Persistent,
    /// It ends with the session that creates it.
    Ephemeral,
    /// It stays, and the server adds a number of ten digits to its name.
    PersistentSequential,
    /// It ends with the session, and the server adds a number of ten digits to its name.
    EphemeralSequential,
}

impl Mode {
    /// The flags of a create, as the protocol has them.
    pub(crate) fn flags(self) -> i32 {
        match self {
            Mode::Persistent => mode::PERSISTENT,
            Mode::Ephemeral => mode::EPHEMERAL,
            Mode::PersistentSequential => mode::SEQUENTIAL,
            Mode::EphemeralSequential => mode::EPHEMERAL | mode::SEQUENTIAL,
        }
    }

    /// The same, as the library takes them.
    pub(crate) fn number(self) -> u32 {
        self.flags().unsigned_abs()
    }

    /// Whether the server adds a number to the name.
    pub(crate) fn is_sequential(self) -> bool {
        self.flags() & mode::SEQUENTIAL != 0
    }
}
