//! How a contender for a lock or an election joins.

use crate::acl::Acl;
use crate::numbers::naming;
use std::num::NonZeroU32;

/// How a contender's place is named: a prefix, the guid, a marker and ten digits. Each contender waits for every other one, but a reader
/// only for locks and writers. All contenders of one lock use names of one family: kazoo's, those of Curator's locks, or those of its
/// latches. Beside a name of another family a contender [pauses](crate::Refusal::MixedNames), and never holds.
///
/// ```
/// use dirwolleu::{Contention, Machine, Moment, Naming};
/// use std::time::Duration;
///
/// let mut machine = Machine::open(Duration::from_secs(9), 1, 42)?;
/// let guid = "00112233445566778899aabbccddeeff"; // take a random one
/// let reader = Contention { naming: Naming::KazooReader, ..Contention::new("/locks/job", guid) };
/// let _ = machine.contend(Moment::from_millis(1), 7, &reader)?;
/// # Ok::<(), dirwolleu::Fault>(())
/// ```
#[derive(Clone, Copy, Debug, Default, PartialEq, Eq, Hash)]
#[non_exhaustive]
pub enum Naming {
    /// kazoo's, the guid and `__lock__`: a lock, an election, a writer.
    #[default]
    Kazoo,
    /// kazoo's, the guid and `__rlock__`.
    KazooReader,
    /// Curator's, `_c_`, the guid and `-lock-`.
    CuratorLock,
    /// Curator's, `_c_`, the guid and `-latch-`.
    CuratorLatch,
    /// Curator's, `_c_`, the guid and `-__WRIT__`.
    CuratorWriter,
    /// Curator's, `_c_`, the guid and `-__READ__`.
    CuratorReader,
    /// The guid and `__lease__`: a lease, which holds while fewer than `most` are before it. All leases of one directory have the same
    /// number. Do not use a directory of kazoo's or Curator's semaphores, which count their leases otherwise.
    Leases {
        /// How many hold at once.
        most: NonZeroU32,
    },
}

impl Naming {
    /// The library's number for it.
    pub(crate) fn number(self) -> u32 {
        let number = match self {
            Naming::Kazoo => naming::KAZOO,
            Naming::KazooReader => naming::KAZOO_READER,
            Naming::CuratorLock => naming::CURATOR_LOCK,
            Naming::CuratorLatch => naming::CURATOR_LATCH,
            Naming::CuratorWriter => naming::CURATOR_WRITER,
            Naming::CuratorReader => naming::CURATOR_READER,
            Naming::Leases { .. } => naming::LEASES,
        };
        let most = match self {
            Naming::Leases { most } => most.get(),
            _ => 0,
        };
        number.unsigned_abs().saturating_add(most)
    }
}

/// A contender that joins by [`Machine::contend`](crate::Machine::contend).
///
/// ```
/// use dirwolleu::{Contention, Naming};
///
/// let lock = Contention { data: Some(b"host-1"), ..Contention::new("/locks/job", "00112233445566778899aabbccddeeff") };
/// assert_eq!((lock.naming, lock.may_be_there), (Naming::Kazoo, false));
/// ```
#[derive(Clone, Copy, Debug, PartialEq, Eq)]
pub struct Contention<'a> {
    /// The directory of the places. It is created if it is missing.
    pub directory: &'a str,
    /// How its place is named.
    pub naming: Naming,
    /// A text that no other contender uses: 32 hexadecimal digits for kazoo's names, a UUID for Curator's.
    pub guid: &'a str,
    /// The data of its place: `None` is null data.
    pub data: Option<&'a [u8]>,
    /// The ACL of its place, and of the directory and nodes above it that it creates. An empty list gives everybody every right.
    pub acls: &'a [Acl],
    /// Whether this session may already have created a place with this guid, as after [`Machine::resume`](crate::Machine::resume): then the
    /// machine looks for that place first.
    pub may_be_there: bool,
}

impl<'a> Contention<'a> {
    /// A contender for a lock with kazoo's names. Its place has no data, is open to everybody, and was not created before.
    pub fn new(directory: &'a str, guid: &'a str) -> Contention<'a> {
        Contention {
            directory,
            naming: Naming::default(),
            guid,
            data: Some(&[]),
            acls: &[],
            may_be_there: false,
        }
    }
}
