//! A followed node.

use crate::engine::Engine;
use crate::error::Error;
use crate::node::DataStat;
use crate::session::Session;
use crate::shared::Poller;
use std::fmt;
use std::iter::FusedIterator;
use std::task::{Context, Poll};

/// The kept content of a followed node.
///
/// ```no_run
/// use dirwolleu::{KeptNode, Session};
/// use std::time::Duration;
///
/// # fn main() -> Result<(), Box<dyn std::error::Error>> {
/// let session = Session::open("127.0.0.1:2181", Duration::from_secs(10))?;
/// for node in session.follow("/config") {
///     if let Some(KeptNode { data, stat }) = node? {
///         println!("version {}: {data:?}", stat.version);
///     }
/// }
/// # Ok(())
/// # }
/// ```
#[derive(Clone, Debug, PartialEq, Eq)]
pub struct KeptNode {
    /// The data: `None` if they are null, which differs from no bytes.
    pub data: Option<Vec<u8>>,
    /// The fields of the node's `Stat` that change only with its data.
    pub stat: DataStat,
}

/// An event of a node.
type FollowedNode = Result<Option<KeptNode>, Error>;

/// The content of a node, first as it is and then at each change; `None` if there is no node. From [`Session::follow`]. It is a blocking
/// iterator and, by [`poll_next`](Follow::poll_next), a stream for any runtime. Dropping it stops following the node.
///
/// ```no_run
/// use dirwolleu::Session;
/// # use std::time::Duration;
///
/// # fn main() -> Result<(), Box<dyn std::error::Error>> {
/// # let session = Session::open("127.0.0.1:2181", Duration::from_secs(10))?;
/// let mut nodes = session.follow("/config"); // nothing is read yet
/// if let Some(first) = nodes.next() {
///     println!("{:?}", first?.map(|node| node.data));
/// }
/// drop(nodes); // it is followed no more
/// # Ok(())
/// # }
/// ```
#[must_use = "it reads nothing before it is asked for the next"]
pub struct Follow<'a> {
    session: &'a Session,
    path: String,
    ticket: Option<u64>,
    poller: Option<Poller>,
    is_over: bool,
}

impl<'a> Follow<'a> {
    pub(crate) fn new(session: &'a Session, path: &str) -> Follow<'a> {
        Follow {
            session,
            path: String::from(path),
            ticket: None,
            poller: None,
            is_over: false,
        }
    }

    /// The ticket that follows the node; the first call begins to follow it. If that fails, the iterator is over.
    fn begin(&mut self) -> Result<u64, Error> {
        if let Some(ticket) = self.ticket {
            return Ok(ticket);
        }
        let followed = self.session.change(|engine| engine.follow(&self.path));
        self.ticket = followed.as_ref().ok().copied();
        self.is_over = followed.is_err();
        followed.map_err(|fault| Error::about(Some(&self.path), fault.into()))
    }

    /// The node's next content, if there is one; why the session is over, or `None` if it is closed.
    fn take(&mut self, ticket: u64, engine: &mut Engine) -> Poll<Option<FollowedNode>> {
        let about = |kind| Error::about(Some(&self.path), kind);
        if let Some(found) = engine.take_update(ticket) {
            return Poll::Ready(Some(found.map_err(about)));
        }
        if !engine.is_over() {
            return Poll::Pending;
        }
        self.is_over = true;
        Poll::Ready(engine.fault_of_end().map(|kind| Err(about(kind))))
    }

    /// The node's content if it changed; `None` if the session is closed. Otherwise the session's thread wakes the waker of this context when
    /// it is time to poll again, so this works with any runtime, or with none.
    ///
    /// ```no_run
    /// use dirwolleu::{Error, Session};
    /// use std::future::poll_fn;
    ///
    /// /// Prints what a node holds, at first and at each change.
    /// async fn follow(session: &Session, path: &str) -> Result<(), Error> {
    ///     let mut nodes = session.follow(path);
    ///     while let Some(node) = poll_fn(|context| nodes.poll_next(context)).await {
    ///         println!("{:?}", node?.map(|node| node.data));
    ///     }
    ///     Ok(())
    /// }
    /// ```
    ///
    /// # Errors
    ///
    /// Those of the iterator: see [`Session::follow`].
    pub fn poll_next(&mut self, context: &mut Context<'_>) -> Poll<Option<FollowedNode>> {
        if self.is_over {
            return Poll::Ready(None);
        }
        let ticket = match self.begin() {
            Ok(ticket) => ticket,
            Err(error) => return Poll::Ready(Some(Err(error))),
        };
        let poller = self.poller.take();
        let poller = poller.unwrap_or_else(|| self.session.poller());
        let found = poller.poll(context, |engine| self.take(ticket, engine));
        self.poller = Some(poller);
        found
    }
}

impl Drop for Follow<'_> {
    fn drop(&mut self) {
        if let Some(ticket) = self.ticket {
            self.session.change(|engine| engine.unfollow(ticket));
        }
    }
}

impl fmt::Debug for Follow<'_> {
    fn fmt(&self, f: &mut fmt::Formatter<'_>) -> fmt::Result {
        f.debug_struct("Follow")
            .field("path", &self.path)
            .field("is_over", &self.is_over)
            .finish_non_exhaustive()
    }
}

impl Iterator for Follow<'_> {
    type Item = FollowedNode;

    fn next(&mut self) -> Option<FollowedNode> {
        if self.is_over {
            return None;
        }
        let ticket = match self.begin() {
            Ok(ticket) => ticket,
            Err(error) => return Some(Err(error)),
        };
        let session = self.session;
        loop {
            session.wait_for_update(ticket);
            if let Poll::Ready(found) = session.change(|engine| self.take(ticket, engine)) {
                return found;
            }
        }
    }
}

impl FusedIterator for Follow<'_> {}
