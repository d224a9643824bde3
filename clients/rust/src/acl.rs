//! Who may do what to a node.

use std::fmt;
use std::ops::BitOr;

/// What an ACL entry lets a client do to a node. Join several with `|`.
///
/// ```
/// use dirwolleu::Permissions;
///
/// let writer = Permissions::READ | Permissions::WRITE;
/// assert!(writer.contains(Permissions::READ) && !writer.contains(Permissions::ADMIN));
/// ```
#[derive(Clone, Copy, Default, PartialEq, Eq, Hash)]
pub struct Permissions(i32);

impl Permissions {
    /// To read the data and the names of the children.
    pub const READ: Permissions = Permissions(1);
    /// To set the data.
    pub const WRITE: Permissions = Permissions(2);
    /// To create children.
    pub const CREATE: Permissions = Permissions(4);
    /// To delete children.
    pub const DELETE: Permissions = Permissions(8);
    /// To set the ACL.
    pub const ADMIN: Permissions = Permissions(16);
    /// All five.
    pub const ALL: Permissions = Permissions(31);

    /// Whether it contains all of these.
    pub fn contains(self, others: Permissions) -> bool {
        self.0 & others.0 == others.0
    }

    pub(crate) fn of(number: i32) -> Permissions {
        Permissions(number)
    }

    pub(crate) fn number(self) -> i32 {
        self.0
    }
}

impl BitOr for Permissions {
    type Output = Permissions;

    fn bitor(self, others: Permissions) -> Permissions {
        Permissions(self.0 | others.0)
    }
}

impl fmt::Debug for Permissions {
    fn fmt(&self, f: &mut fmt::Formatter<'_>) -> fmt::Result {
        let all = ["READ", "WRITE", "CREATE", "DELETE", "ADMIN"];
        let names = all.iter().enumerate();
        let names = names.filter(|(place, _)| self.0 & (1 << place) != 0);
        let names: Vec<_> = names.map(|(_, name)| *name).collect();
        write!(f, "Permissions({})", names.join(" | "))
    }
}

/// An entry of a node's ACL: who may do what.
///
/// ```
/// use dirwolleu::{Acl, Permissions};
///
/// let mine_alone = [Acl::creator(Permissions::ALL)];
/// let read_by_all = [Acl::creator(Permissions::ALL), Acl::anyone(Permissions::READ)];
/// assert_eq!(read_by_all[1].scheme, "world");
/// ```
#[derive(Clone, Debug, PartialEq, Eq, Hash)]
pub struct Acl {
    /// What they may do.
    pub permissions: Permissions,
    /// Who: a scheme, such as `world`, `auth`, `digest` or `ip`.
    pub scheme: String,
    /// Who, in the words of the scheme.
    pub id: String,
}

impl Acl {
    /// An entry of this scheme.
    pub fn new(permissions: Permissions, scheme: &str, id: &str) -> Acl {
        Acl {
            permissions,
            scheme: String::from(scheme),
            id: String::from(id),
        }
    }

    /// An entry for everybody. A node created without an ACL has this one, with [`Permissions::ALL`].
    pub fn anyone(permissions: Permissions) -> Acl {
        Acl::new(permissions, "world", "anyone")
    }

    /// An entry for whoever has the credentials of the session that sets it.
    pub fn creator(permissions: Permissions) -> Acl {
        Acl::new(permissions, "auth", "")
    }
}

/// An identity under which a server knows a client, from [`Request::who_am_i`](crate::Request::who_am_i).
///
/// ```
/// use dirwolleu::Id;
///
/// let ann = Id { scheme: String::from("digest"), id: String::from("ann") };
/// assert_eq!(ann.to_string(), "digest:ann");
/// ```
#[derive(Clone, Debug, PartialEq, Eq, Hash)]
pub struct Id {
    /// The scheme, such as `ip`, `digest` or `x509`.
    pub scheme: String,
    /// Who, in the words of the scheme, without the secret.
    pub id: String,
}

/// As ZooKeeper's own tools print it: `SCHEME:ID`.
impl fmt::Display for Id {
    fn fmt(&self, f: &mut fmt::Formatter<'_>) -> fmt::Result {
        write!(f, "{}:{}", self.scheme, self.id)
    }
}
