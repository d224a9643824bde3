//! Followed trees.

use crate::engine::Engine;
use crate::error::{Error, ErrorKind};
use crate::fault::NoReply;
use crate::shared::{Poller, Shared};
use crate::tree_snapshot::TreeSnapshot;
use crate::tree_view::TreeView;
use std::fmt;
use std::iter::FusedIterator;
use std::sync::Arc;
use std::task::{Context, Poll};
use std::time::{Duration, Instant};

/// The default of the most nodes of a tree: as many as the core watches.
pub(crate) const MOST_NODES: usize = 65_536;

/// News of a tree: a snapshot, or why there is no newer one.
pub(crate) type SnapshotResult = Result<TreeSnapshot, Error>;

/// All nodes at and below a path, kept as the servers have them: from [`Session::tree`](crate::Session::tree). The session reads them with
/// watches, and reads again what changes, through lost connections and, if it [renews](crate::SessionOptions::renews) itself, new sessions.
///
/// Each [`TreeSnapshot`] is of one moment: a transaction that changes several nodes is in it whole or not at all, and no node is left out.
/// The proved core decides which nodes to read, and judges whether they are of one moment; when a snapshot is shown is tested. If nodes
/// change faster than the session reads them, there is no new snapshot, and [`current`](Tree::current) is `None` until the tree settles.
///
/// Threads may look at a tree at once. Dropping the tree stops following it; the answers that were read stay kept. A look at a large tree
/// takes a while, so the next one waits ten times as long.
///
/// At most 960 of its reads are on their way at a time, so that calls find room beside them. Each step of a session takes time that grows
/// with the number of nodes of its trees: give a large tree a session of its own.
///
/// ```no_run
/// use dirwolleu::SessionOptions;
/// use std::time::Duration;
///
/// # fn main() -> Result<(), Box<dyn std::error::Error>> {
/// let session = SessionOptions::new(Duration::from_secs(10)).renews(true).open("127.0.0.1:2181")?;
/// let tree = session.tree("/config")?;
/// let mut before = None;
/// for snapshot in tree.snapshots() {
///     match snapshot {
///         Ok(snapshot) => {
///             println!("{} nodes at zxid {}", snapshot.len(), snapshot.zxid());
///             println!("{:?}", snapshot.changes_since(before.as_ref()));
///             before = Some(snapshot);
///         }
///         Err(trouble) => println!("{trouble}"), // as `no node: /config`; what comes next is told all the same
///     }
/// }
/// # Ok(())
/// # }
/// ```
pub struct Tree {
    session: Arc<Shared>,
    shown: Arc<TreeView>,
}

/// Look-ups of the shown tree. They send nothing, and do not wait for the session.
macro_rules! shown_of {
    () => {
        /// The path of the tree.
        pub fn root(&self) -> &str {
            self.shown.root()
        }

        /// The newest snapshot, or `None` before the first.
        pub fn latest(&self) -> Option<TreeSnapshot> {
            self.shown.latest()
        }

        /// The newest snapshot, unless a later notice has ended it: so it is also the servers' tree at the greatest zxid seen.
        pub fn current(&self) -> Option<TreeSnapshot> {
            self.shown.current()
        }

        /// Why there is no newer snapshot, or `None` if reads are merely under way.
        ///
        /// [`Code::NO_NODE`](crate::Code::NO_NODE): there is no root; the session waits for its creation. Another code: a server refused a
        /// read, which is made again each second. [`Fault::TooManyNodes`](crate::Fault::TooManyNodes): there are more nodes than the tree
        /// may have.
        pub fn trouble(&self) -> Option<Error> {
            self.shown.trouble()
        }
    };
}

/// Look-ups send nothing, and do not wait for the session.
impl Tree {
    pub(crate) fn new(session: Arc<Shared>, shown: Arc<TreeView>) -> Tree {
        Tree { session, shown }
    }

    shown_of! {}

    /// Waits for the first snapshot. If there already is one, returns the newest.
    ///
    /// # Errors
    ///
    /// The [`trouble`](Tree::trouble) that prevents a snapshot, and why the session is over.
    pub fn wait(&self) -> Result<TreeSnapshot, Error> {
        self.wait_until(None)
    }

    /// The same, at most this long.
    ///
    /// # Errors
    ///
    /// As [`wait`](Tree::wait), and [`ErrorKind::NotWhole`] if the limit has passed: the session goes on reading.
    pub fn wait_for(&self, limit: Duration) -> Result<TreeSnapshot, Error> {
        self.wait_until(Instant::now().checked_add(limit))
    }

    fn wait_until(&self, until: Option<Instant>) -> Result<TreeSnapshot, Error> {
        if let Some(latest) = self.latest() {
            return Ok(latest);
        }
        let mut snapshots = self.snapshots();
        let news = snapshots.next_until(until);
        news.unwrap_or_else(|| Err(self.about(NoReply::SessionClosed.into())))
    }

    /// An iterator that waits: the newest snapshot, and each newer one. Of several between two steps of the program it returns the last. It
    /// returns a [`trouble`](Tree::trouble) once, and then goes on. It ends if the session is closed, or after an error that says why the
    /// session is over.
    pub fn snapshots(&self) -> Snapshots<'_> {
        Snapshots {
            tree: self,
            told: 0,
            poller: None,
            is_over: false,
        }
    }

    fn about(&self, kind: ErrorKind) -> Error {
        Error::about(Some(self.root()), kind)
    }
}

impl fmt::Debug for Tree {
    fn fmt(&self, f: &mut fmt::Formatter<'_>) -> fmt::Result {
        self.shown.fmt_as("Tree", f)
    }
}

/// The snapshots of a tree as they come, from [`Tree::snapshots`]: a blocking iterator and, by [`poll_next`](Snapshots::poll_next), a
/// stream for any runtime.
///
/// ```no_run
/// use dirwolleu::Session;
/// # use std::time::Duration;
///
/// # fn main() -> Result<(), Box<dyn std::error::Error>> {
/// # let session = Session::open("127.0.0.1:2181", Duration::from_secs(10))?;
/// let tree = session.tree("/config")?;
/// let mut snapshots = tree.snapshots();
/// if let Some(first) = snapshots.next() {
///     println!("{} nodes", first?.len());
/// }
/// # Ok(())
/// # }
/// ```
#[must_use = "it waits for nothing before it is asked for the next"]
pub struct Snapshots<'a> {
    tree: &'a Tree,
    told: u64,
    poller: Option<Poller>,
    is_over: bool,
}

impl Snapshots<'_> {
    /// The news, if there are any; why the session is over, or `None` if it is closed.
    fn take(&mut self, engine: &Engine) -> Poll<Option<SnapshotResult>> {
        if let Some((number, news)) = self.tree.shown.news_after(self.told) {
            self.told = number;
            return Poll::Ready(Some(news));
        }
        if !engine.is_over() {
            return Poll::Pending;
        }
        self.is_over = true;
        let why = engine.fault_of_end();
        Poll::Ready(why.map(|kind| Err(self.tree.about(kind))))
    }

    /// Waits for the next snapshot, at most this long.
    ///
    /// ```no_run
    /// use dirwolleu::{ErrorKind, Session};
    /// use std::time::Duration;
    ///
    /// # fn main() -> Result<(), Box<dyn std::error::Error>> {
    /// let session = Session::open("127.0.0.1:2181", Duration::from_secs(10))?;
    /// let tree = session.tree("/config")?;
    /// let mut snapshots = tree.snapshots();
    /// while let Some(news) = snapshots.next_within(Duration::from_secs(60)) {
    ///     match news {
    ///         Ok(snapshot) => println!("{} nodes", snapshot.len()),
    ///         Err(error) if *error.kind() == ErrorKind::NotWhole => println!("nothing new"),
    ///         Err(trouble) => println!("{trouble}"),
    ///     }
    /// }
    /// # Ok(())
    /// # }
    /// ```
    ///
    /// # Errors
    ///
    /// Those of the iterator, and [`ErrorKind::NotWhole`] if the limit has passed.
    pub fn next_within(&mut self, limit: Duration) -> Option<SnapshotResult> {
        self.next_until(Instant::now().checked_add(limit))
    }

    fn next_until(&mut self, until: Option<Instant>) -> Option<SnapshotResult> {
        if self.is_over {
            return None;
        }
        let (session, shown, told) = (&self.tree.session, &self.tree.shown, self.told);
        session.wait_while(until, |engine| {
            !engine.is_over() && shown.news_after(told).is_none()
        });
        match session.look(|engine| self.take(engine)) {
            Poll::Ready(news) => news,
            Poll::Pending => Some(Err(self.tree.about(ErrorKind::NotWhole))),
        }
    }

    /// The next snapshot, if there is one. Otherwise the session's thread wakes the waker of this context when it is time to poll again, so
    /// this works with any runtime, or with none.
    ///
    /// ```no_run
    /// use dirwolleu::{Session, Tree};
    /// use std::future::poll_fn;
    ///
    /// /// Prints how many nodes a tree has, at first and at each change.
    /// async fn count(tree: &Tree) {
    ///     let mut snapshots = tree.snapshots();
    ///     while let Some(news) = poll_fn(|context| snapshots.poll_next(context)).await {
    ///         println!("{:?}", news.map(|snapshot| snapshot.len()));
    ///     }
    /// }
    /// ```
    ///
    /// # Errors
    ///
    /// Those of the iterator: see [`Tree::snapshots`].
    pub fn poll_next(&mut self, context: &mut Context<'_>) -> Poll<Option<SnapshotResult>> {
        if self.is_over {
            return Poll::Ready(None);
        }
        let poller = self.poller.take();
        let poller = poller.unwrap_or_else(|| self.tree.session.poller());
        let news = poller.poll(context, |engine| self.take(engine));
        self.poller = Some(poller);
        news
    }
}

impl fmt::Debug for Snapshots<'_> {
    fn fmt(&self, f: &mut fmt::Formatter<'_>) -> fmt::Result {
        f.debug_struct("Snapshots")
            .field("tree", &self.tree)
            .field("is_over", &self.is_over)
            .finish_non_exhaustive()
    }
}

impl Iterator for Snapshots<'_> {
    type Item = SnapshotResult;

    fn next(&mut self) -> Option<SnapshotResult> {
        self.next_until(None)
    }
}

impl FusedIterator for Snapshots<'_> {}

/// All nodes at and below a path, kept as the servers have them, for a session without a thread: from
/// [`LocalSession::tree`](crate::LocalSession::tree). It goes on only within its session's functions, and
/// [`next_snapshot`](crate::LocalSession::next_snapshot) waits for it. Otherwise it is a [`Tree`].
///
/// ```no_run
/// use dirwolleu::LocalSession;
/// use std::time::{Duration, Instant};
///
/// # fn main() -> Result<(), Box<dyn std::error::Error>> {
/// let mut session = LocalSession::open("127.0.0.1:2181", Duration::from_secs(10))?;
/// let mut tree = session.tree("/config")?;
/// loop {
///     // a part of the work, and then:
///     let until = Instant::now() + Duration::from_secs(3);
///     if let Some(snapshot) = session.next_snapshot(&mut tree, Some(until))? {
///         println!("{} nodes at zxid {}", snapshot.len(), snapshot.zxid());
///     }
/// }
/// # }
/// ```
pub struct LocalTree {
    shown: Arc<TreeView>,
    told: u64,
}

/// Look-ups send nothing, and do not wait for the session.
impl LocalTree {
    pub(crate) fn new(shown: Arc<TreeView>) -> LocalTree {
        LocalTree { shown, told: 0 }
    }

    shown_of! {}

    /// The news since the last call of this.
    pub(crate) fn take_news(&mut self) -> Option<SnapshotResult> {
        let (number, news) = self.shown.news_after(self.told)?;
        self.told = number;
        Some(news)
    }
}

impl fmt::Debug for LocalTree {
    fn fmt(&self, f: &mut fmt::Formatter<'_>) -> fmt::Result {
        self.shown.fmt_as("LocalTree", f)
    }
}
