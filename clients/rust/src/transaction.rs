//! Changes that happen together or not at all.

use crate::acl::{Acl, Permissions};
use crate::chroot::Chroot;
use crate::error::{refused_of_create, Error, ErrorKind};
use crate::fault::{Code, Fault};
use crate::jute::{Reader, Writer};
use crate::node::{Mode, Stat};
use crate::raw::RawCall;
use crate::request::{Call, Request};
use crate::session::Session;
use crate::ticket::Ticket;
use std::fmt;

/// Numbers of operations, as `zookeeper.jute` has them.
const CREATE: i32 = 1;
const DELETE: i32 = 2;
const SET_DATA: i32 = 5;
const CHECK: i32 = 13;

/// The result of an operation of a transaction.
///
/// ```
/// use dirwolleu::Change;
///
/// let changes = [Change::Checked, Change::Created("/config/log-0000000007".into())]; // of `Transaction::commit`
/// for change in &changes {
///     match change {
///         Change::Created(path) => assert_eq!(path, "/config/log-0000000007"),
///         Change::Set(stat) => println!("version {}", stat.version),
///         other => println!("{other:?}"),
///     }
/// }
/// ```
#[derive(Clone, Debug, PartialEq, Eq)]
#[non_exhaustive]
pub enum Change {
    /// A node was created at this path, to which a sequential create appends ten digits.
    Created(String),
    /// The data of a node were set; this is its `Stat`.
    Set(Stat),
    /// A node was deleted.
    Deleted,
    /// A node has the version that the check asked for.
    Checked,
}

/// Appends an operation, by `with`.
macro_rules! operations {
    () => {
        /// Checks that a node has this version; [`ANY_VERSION`](crate::ANY_VERSION) only checks that it exists.
        pub fn check(self, path: &str, version: i32) -> Self {
            let path = String::from(path);
            self.with(Operation::Check { path, version })
        }

        /// Sets the data of a node if it has this version; [`ANY_VERSION`](crate::ANY_VERSION) matches any.
        pub fn set(self, path: &str, data: &[u8], version: i32) -> Self {
            let (path, data) = (String::from(path), data.to_vec());
            self.with(Operation::Set {
                path,
                data,
                version,
            })
        }

        /// Creates a node that is open to everybody.
        pub fn create(self, path: &str, data: &[u8], mode: Mode) -> Self {
            self.create_with_acls(path, data, mode, &[Acl::anyone(Permissions::ALL)])
        }

        /// Creates a node with this ACL.
        pub fn create_with_acls(self, path: &str, data: &[u8], mode: Mode, acls: &[Acl]) -> Self {
            let (path, data, acls) = (String::from(path), data.to_vec(), acls.to_vec());
            self.with(Operation::Create {
                path,
                data,
                mode,
                acls,
            })
        }

        /// Deletes a node if it has this version and no children; [`ANY_VERSION`](crate::ANY_VERSION) matches any.
        pub fn delete(self, path: &str, version: i32) -> Self {
            let path = String::from(path);
            self.with(Operation::Delete { path, version })
        }
    };
}

/// Operations that happen together or not at all: from [`Session::transaction`].
///
/// ```no_run
/// use dirwolleu::{ErrorKind, Mode, Session};
/// # use std::time::Duration;
///
/// # fn main() -> Result<(), Box<dyn std::error::Error>> {
/// # let session = Session::open("127.0.0.1:2181", Duration::from_secs(10))?;
/// let outcome = session
///     .transaction()
///     .check("/config", 3)
///     .set("/config/host", b"beta", 7)
///     .create("/config/log-", b"host was changed", Mode::PersistentSequential)
///     .commit();
/// match outcome {
///     Ok(changes) => println!("{changes:?}"),
///     Err(error) => match error.kind() {
///         ErrorKind::RolledBack { index, code, .. } => println!("operation {index} was refused: {code}"),
///         _ => return Err(error.into()),
///     },
/// }
/// # Ok(())
/// # }
/// ```
#[must_use = "nothing is asked before it is committed"]
pub struct Transaction<'a> {
    session: &'a Session,
    operations: Operations,
}

impl<'a> Transaction<'a> {
    pub(crate) fn new(session: &'a Session) -> Transaction<'a> {
        Transaction {
            session,
            operations: Operations::new(),
        }
    }

    fn with(mut self, operation: Operation) -> Transaction<'a> {
        self.operations = self.operations.with(operation);
        self
    }

    operations! {}

    /// Asks for all of it, waits, and returns the result of each operation, in their order.
    ///
    /// # Errors
    ///
    /// [`ErrorKind::RolledBack`](crate::ErrorKind::RolledBack) if an operation was refused, and then nothing has happened; and the errors
    /// of any call. If it [may have happened](Error::may_have_happened), it has as a whole or not at all.
    pub fn commit(self) -> Result<Vec<Change>, Error> {
        self.session.call(Request::transaction(self.operations))
    }

    /// Asks for all of it, and goes on: the answer comes by the ticket.
    pub fn ask(self) -> Ticket<Vec<Change>> {
        self.session.ask(Request::transaction(self.operations))
    }
}

impl fmt::Debug for Transaction<'_> {
    fn fmt(&self, f: &mut fmt::Formatter<'_>) -> fmt::Result {
        f.debug_struct("Transaction")
            .field("operations", &self.operations)
            .finish_non_exhaustive()
    }
}

/// Operations that happen together or not at all, for [`Request::transaction`]. [`Session::transaction`] does the same in one step.
///
/// ```
/// use dirwolleu::{Operations, Request};
///
/// let operations = Operations::new().check("/config", 3).set("/config/host", b"beta", 7);
/// let request = Request::transaction(operations); // for `Session::ask`
/// ```
#[derive(Clone, Default)]
#[must_use = "nothing is asked before it is a request"]
pub struct Operations {
    list: Vec<Operation>,
}

impl Operations {
    /// No operations.
    pub fn new() -> Operations {
        Operations::default()
    }

    fn with(mut self, operation: Operation) -> Operations {
        self.list.push(operation);
        self
    }

    operations! {}
}

/// Prints no data.
impl fmt::Debug for Operations {
    fn fmt(&self, f: &mut fmt::Formatter<'_>) -> fmt::Result {
        f.debug_struct("Operations")
            .field("count", &self.list.len())
            .finish_non_exhaustive()
    }
}

impl Request<Vec<Change>> {
    /// Makes operations together or not at all. Returns the result of each, in their order, or fails with
    /// [`ErrorKind::RolledBack`](crate::ErrorKind::RolledBack).
    pub fn transaction(operations: Operations) -> Request<Vec<Change>> {
        let call = Call::from(RawCall::Transaction(operations.list));
        Request::new("/", call, |ending| {
            ending.map(|found| found.content.records().changes)
        })
    }
}

/// An operation of a transaction.
#[derive(Clone, PartialEq, Eq)]
pub(crate) enum Operation {
    Check {
        path: String,
        version: i32,
    },
    Set {
        path: String,
        data: Vec<u8>,
        version: i32,
    },
    Create {
        path: String,
        data: Vec<u8>,
        mode: Mode,
        acls: Vec<Acl>,
    },
    Delete {
        path: String,
        version: i32,
    },
}

impl Operation {
    fn number(&self) -> i32 {
        match self {
            Operation::Check { .. } => CHECK,
            Operation::Set { .. } => SET_DATA,
            Operation::Create { .. } => CREATE,
            Operation::Delete { .. } => DELETE,
        }
    }

    /// The error of a transaction in which the operation at this index is refused.
    fn refusal(&self, index: usize, code: Code) -> ErrorKind {
        let path = match self {
            Operation::Create { path, .. } => refused_of_create(code, path),
            Operation::Check { path, .. }
            | Operation::Set { path, .. }
            | Operation::Delete { path, .. } => path,
        };
        let path = String::from(path);
        ErrorKind::RolledBack { index, code, path }
    }

    /// Its record.
    fn spell(&self, spelled: &mut Writer, root: &Chroot) -> Result<(), Fault> {
        match self {
            Operation::Check { path, version } | Operation::Delete { path, version } => {
                spelled.text(&root.checked(path)?).int(*version);
            }
            Operation::Set {
                path,
                data,
                version,
            } => {
                let path = root.checked(path)?;
                spelled.text(&path).buffer(data).int(*version);
            }
            Operation::Create {
                path,
                data,
                mode,
                acls,
            } => {
                let path = root.checked_create(path, mode.is_sequential())?;
                spelled.text(&path).buffer(data).acls(acls);
                spelled.int(mode.flags());
            }
        }
        Ok(())
    }

    /// Its result. `None` if the bytes do not parse.
    fn read(&self, reply: &mut Reader<'_>, root: &Chroot) -> Option<Change> {
        Some(match self {
            Operation::Check { .. } => Change::Checked,
            Operation::Delete { .. } => Change::Deleted,
            Operation::Set { .. } => Change::Set(reply.stat()?),
            Operation::Create { .. } => Change::Created(root.inner(reply.text()?)),
        })
    }
}

/// The records of these operations.
pub(crate) fn spell(
    operations: &[Operation],
    spelled: &mut Writer,
    root: &Chroot,
) -> Result<(), Fault> {
    for operation in operations {
        spelled.multi_header(operation.number());
        operation.spell(spelled, root)?;
    }
    spelled.multi_end();
    Ok(())
}

/// The result of each operation, or which was refused: the first whose code is not 0, because those before it have code 0. `None` if the
/// bytes do not parse.
pub(crate) fn read(
    operations: &[Operation],
    reply: &mut Reader<'_>,
    root: &Chroot,
) -> Option<Result<Vec<Change>, ErrorKind>> {
    let mut changes = Vec::with_capacity(operations.len());
    let mut refused = None;
    for (index, operation) in operations.iter().enumerate() {
        let number = operation.number();
        match reply.multi_result(number, |reply| operation.read(reply, root))? {
            Ok(change) => changes.push(change),
            Err(Code(0)) => {}
            Err(code) => {
                refused.get_or_insert((index, code));
            }
        }
    }
    reply.multi_end()?;
    Some(match refused {
        Some((index, code)) => Err(operations[index].refusal(index, code)),
        None => Ok(changes),
    })
}

#[cfg(test)]
mod tests {
    use super::{read, spell, Change, Operation};
    use crate::chroot::Chroot;
    use crate::error::ErrorKind;
    use crate::fault::{Code, Fault};
    use crate::jute::{Reader, Writer};

    fn set(path: &str) -> Operation {
        let (path, data, version) = (String::from(path), b"x".to_vec(), 3);
        Operation::Set {
            path,
            data,
            version,
        }
    }

    fn check(path: &str) -> Operation {
        let (path, version) = (String::from(path), 3);
        Operation::Check { path, version }
    }

    /// The outcome of these operations with this body of a reply.
    fn told(operations: &[Operation], body: &[u8]) -> Option<Result<Vec<Change>, ErrorKind>> {
        read(operations, &mut Reader::new(body), &Chroot::default())
    }

    /// The answer of version 3.8.0 to a transaction whose check is refused. It also has the operations before and after.
    #[test]
    fn the_operation_that_was_refused_is_told() {
        let mut body = Vec::new();
        for code in [0_i32, -103, -2] {
            body.extend((-1_i32).to_be_bytes());
            body.push(0);
            body.extend(code.to_be_bytes());
            body.extend(code.to_be_bytes());
        }
        body.extend([255, 255, 255, 255, 1, 255, 255, 255, 255]);
        let outcome = told(&[check("/a"), check("/b"), set("/c")], &body).unwrap();
        let code = Code::BAD_VERSION;
        let path = String::from("/b");
        let refused = ErrorKind::RolledBack {
            index: 1,
            code,
            path,
        };
        assert_eq!(outcome.unwrap_err(), refused);
    }

    #[test]
    fn what_each_operation_has_brought_is_told() {
        let body = [
            0, 0, 0, 13, 0, 0, 0, 0, 0, 255, 255, 255, 255, 1, 255, 255, 255, 255,
        ];
        let outcome = told(&[check("/a")], &body).unwrap();
        assert_eq!(outcome.unwrap(), [Change::Checked]);
    }

    #[test]
    fn an_answer_that_does_not_read_is_none() {
        let other_type = [
            0, 0, 0, 2, 0, 0, 0, 0, 0, 255, 255, 255, 255, 1, 255, 255, 255, 255,
        ];
        for body in [&other_type[..], &other_type[..9], b""] {
            assert_eq!(told(&[check("/a")], body), None);
        }
    }

    #[test]
    fn what_is_no_path_is_refused() {
        let mut spelled = Writer::default();
        let refused = spell(&[check("/a/")], &mut spelled, &Chroot::default());
        assert_eq!(refused, Err(Fault::not_path("/a/")));
    }
}
