//! Whether a session is first in a directory: for locks and elections.

/// How contenders are named: a name counts if it ends in a marker and ten digits, like that of a sequential node.
///
/// ```
/// use dirwolleu::Markers;
///
/// let exclusive = Markers { own: "-write-", against: &["-write-", "-read-"] };
/// let shared = Markers { own: "-read-", against: &["-write-"] }; // it waits for no other that shares it
/// assert!(exclusive.against.contains(&shared.own));
/// ```
#[derive(Clone, Copy, Debug, PartialEq, Eq)]
pub struct Markers<'a> {
    /// The marker of the session's name.
    pub own: &'a str,
    /// The markers of rivals' names: the session waits for those.
    pub against: &'a [&'a str],
}

/// A session's node in a directory, and the names listed there.
///
/// ```
/// use dirwolleu::{Contender, Machine, Markers, Standing};
/// use std::time::Duration;
///
/// let machine = Machine::open(Duration::from_secs(10), 1, 42)?;
/// let names = ["lock-0000000004".into(), "lock-0000000007".into()];
/// let markers = Markers { own: "lock-", against: &["lock-"] };
/// let contender = Contender { directory: "/lock", name: "lock-0000000007", names: &names, listed: 9, markers };
/// assert_eq!(machine.standing(&contender)?, Standing::After { rival: "lock-0000000004".into() });
/// # Ok::<(), dirwolleu::Fault>(())
/// ```
#[derive(Clone, Copy, Debug, PartialEq, Eq)]
pub struct Contender<'a> {
    /// The path of the directory.
    pub directory: &'a str,
    /// The name of its node there.
    pub name: &'a str,
    /// The names from a [`get_children`](crate::Machine::get_children) of the directory that was asked after the node was created.
    pub names: &'a [String],
    /// The zxid of that reply.
    pub listed: i64,
    /// How contenders are named.
    pub markers: Markers<'a>,
}

/// Whether a session comes first in a directory, from [`Machine::standing`](crate::Machine::standing).
///
/// ```
/// use dirwolleu::{Contender, Fault, Machine, Markers, Standing};
///
/// /// Where a session stands by its node of this name, and the names that were listed at this zxid.
/// fn tell(machine: &Machine, name: &str, names: &[String], listed: i64) -> Result<(), Fault> {
///     let markers = Markers { own: "lock-", against: &["lock-"] };
///     match machine.standing(&Contender { directory: "/lock", name, names, listed, markers })? {
///         Standing::First { token } => println!("held, with token {token}"),
///         Standing::After { rival } => println!("after {rival}, which is to be watched"),
///         Standing::Unsure => println!("to be listed again"),
///     }
///     Ok(())
/// }
/// ```
#[derive(Clone, Debug, PartialEq, Eq, Hash)]
pub enum Standing {
    /// First, with this token: the zxid of the transaction that created its node.
    First {
        /// The token. Whatever the lock protects refuses a token below one that it has seen.
        token: i64,
    },
    /// After others: the last rival before it has this name. Watch only that node, and list again when it is gone.
    After {
        /// The name.
        rival: String,
    },
    /// Neither is known: read the session's node with a watch, or list again.
    Unsure,
}
