//! Look-ups at one moment.

use crate::cache::{Children, DataAnswer, Kept, Mark};
use crate::engine::Engine;
use crate::fault::Fault;
use crate::machine::Machine;
use crate::saved::SavedSession;
use crate::snapshot::Snapshot;
use crate::standing::{Contender, Standing};
use std::borrow::Cow;
use std::fmt;
use std::time::Duration;

/// A session's knowledge at one moment: nothing happens between two look-ups of one view. So answers that are all good are what the
/// servers' history has at one zxid, that of [`last_zxid`](View::last_zxid).
///
/// ```no_run
/// use dirwolleu::{DataAnswer, Fault, Kept, Mark, Session};
/// # use std::time::Duration;
///
/// # fn main() -> Result<(), Box<dyn std::error::Error>> {
/// # let session = Session::open("127.0.0.1:2181", Duration::from_secs(10))?;
/// session.watch("/host")?;
/// session.watch("/port")?;
/// let of_one_zxid = session.view(|view| {
///     let are_good = [view.data_mark("/host")?, view.data_mark("/port")?] == [Some(Mark::Good); 2];
///     Ok::<_, Fault>(are_good.then_some((view.peek("/host")?, view.peek("/port")?, view.last_zxid())))
/// })?;
/// # Ok(())
/// # }
/// ```
#[derive(Clone, Copy)]
pub struct View<'a> {
    engine: &'a Engine,
}

impl<'a> View<'a> {
    pub(crate) fn of(engine: &'a Engine) -> View<'a> {
        View { engine }
    }

    /// Looks up one of the program's paths. If the session is over nothing is kept, even if the machine does not know it.
    fn at<T>(
        self,
        path: &str,
        look: impl FnOnce(&Machine, &str) -> Result<Option<T>, Fault>,
    ) -> Result<Option<T>, Fault> {
        let outer = self.engine.chroot().outer(path)?;
        let found = look(self.engine.machine(), &outer).map_err(|fault| fault.at(path))?;
        Ok(found.filter(|_| !self.engine.is_over()))
    }
}

/// Look-ups send nothing. Those of a path fail with [`Fault::NotPath`] and [`Fault::NoMemory`].
impl View<'_> {
    /// Returns the greatest zxid seen, at least 0, also in a transaction's reply. Good answers are what the servers' history has at it.
    pub fn last_zxid(&self) -> i64 {
        self.engine.machine().last_zxid()
    }

    /// Returns the session's timeout: the one a server granted last, or else the one to ask for.
    pub fn timeout(&self) -> Duration {
        self.engine.machine().timeout()
    }

    /// Returns how long ago a server was last heard, on any connection, or `None` if it was not heard yet. Good answers were true at the
    /// server when it sent that, or later. The clock is [`Instant`](std::time::Instant), which on Linux stands still while the computer is
    /// suspended: that time does not count.
    pub fn age(&self) -> Option<Duration> {
        self.engine.age()
    }

    /// Whether a server was heard within this time.
    pub(crate) fn is_heard_within(self, within: Duration) -> bool {
        self.age().is_some_and(|age| age <= within)
    }

    /// Returns the session's id, which owns its ephemeral nodes: 0 until a server has admitted it.
    ///
    /// # Errors
    ///
    /// Only [`Fault::NoMemory`].
    pub fn id(&self) -> Result<i64, Fault> {
        Ok(self.saved()?.id().unwrap_or_default())
    }

    /// Returns the session, for another one to take up.
    ///
    /// # Errors
    ///
    /// Only [`Fault::NoMemory`].
    pub fn saved(&self) -> Result<SavedSession, Fault> {
        self.engine.machine().saved()
    }

    /// Returns the kept data of a path that was read with a watch, with their mark, or `None` if nothing is kept. It copies the data.
    ///
    /// # Errors
    ///
    /// [`Fault::NotPath`], [`Fault::NoMemory`] and [`Fault::UnknownNumber`].
    pub fn peek(&self, path: &str) -> Result<Option<Kept<DataAnswer>>, Fault> {
        self.at(path, Machine::peek_data)
    }

    /// The session that owns a kept node, if there is one.
    pub(crate) fn owner(self, path: &str) -> Option<i64> {
        match self.peek(path).ok()??.answer {
            DataAnswer::Known(stat) | DataAnswer::Full { stat, .. } => Some(stat.ephemeral_owner),
            DataAnswer::Absent => None,
        }
    }

    /// The token with which the contender of this ticket holds.
    pub(crate) fn held(self, ticket: u64) -> Option<i64> {
        self.engine.held(ticket)
    }

    /// The last rival before a contender, if there is one. The names alone decide that, even if the session is over.
    pub(crate) fn rival(self, contender: &Contender<'_>) -> Result<Option<String>, Fault> {
        let outer = self.engine.chroot().outer(contender.directory)?;
        let contender = Contender {
            directory: &outer,
            ..*contender
        };
        Ok(match self.engine.machine().standing(&contender)? {
            Standing::After { rival } => Some(rival),
            Standing::First { .. } | Standing::Unsure => None,
        })
    }

    /// Returns the mark of a path's kept data, or `None` if nothing is kept. It copies no data.
    ///
    /// # Errors
    ///
    /// As [`peek`](View::peek).
    pub fn data_mark(&self, path: &str) -> Result<Option<Mark>, Fault> {
        self.at(path, Machine::data_mark)
    }

    /// Returns the kept names of a path's children that were read with a watch, with their mark, or `None` if nothing is kept. It copies
    /// the names.
    ///
    /// # Errors
    ///
    /// As [`peek`](View::peek).
    pub fn peek_children(&self, path: &str) -> Result<Option<Kept<Children>>, Fault> {
        self.at(path, Machine::peek_children)
    }

    /// Returns the mark of a path's kept children, or `None` if nothing is kept. It copies no names.
    ///
    /// # Errors
    ///
    /// As [`peek`](View::peek).
    pub fn children_mark(&self, path: &str) -> Result<Option<Mark>, Fault> {
        self.at(path, Machine::children_mark)
    }

    /// Returns these nodes and the names below these parents, all of one moment, or `None` if some of them are not kept, or not good: then
    /// read those again, with a watch. For a node that does not exist, [`watch`](crate::Session::watch) keeps its absence.
    ///
    /// # Errors
    ///
    /// As [`peek`](View::peek), for the first of them that is no path.
    pub fn snapshot(&self, nodes: &[&str], parents: &[&str]) -> Result<Option<Snapshot>, Fault> {
        let chroot = self.engine.chroot();
        let outer = |paths: &[&str]| -> Result<Vec<String>, Fault> {
            let outer = paths.iter().map(|path| chroot.outer(path));
            outer.map(|path| path.map(Cow::into_owned)).collect()
        };
        let (nodes, parents) = (outer(nodes)?, outer(parents)?);
        let [nodes, parents] =
            [&nodes, &parents].map(|paths| paths.iter().map(String::as_str).collect::<Vec<_>>());
        let found = self.engine.machine().snapshot(&nodes, &parents);
        let found = found.map_err(|fault| match &fault {
            Fault::NotPath { path, .. } => {
                let inner = chroot.inner(path.clone());
                fault.at(&inner)
            }
            _ => fault,
        })?;
        Ok(found.filter(|_| !self.engine.is_over()))
    }
}

impl fmt::Debug for View<'_> {
    fn fmt(&self, f: &mut fmt::Formatter<'_>) -> fmt::Result {
        fmt::Debug::fmt(self.engine.machine(), f)
    }
}
