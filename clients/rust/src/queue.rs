//! A queue: each entry goes to one taker. Tested, not proved.

use crate::cache::Mark;
use crate::error::Error;
use crate::fault::Code;
use crate::hosts::random;
use crate::node::Mode;
use crate::paths::child_of;
use crate::request::Request;
use crate::session::Session;
use std::time::{Duration, Instant};

/// The default priority of an entry.
const USUAL_PRIORITY: u16 = 100;

/// The greatest priority, which is taken last.
const LAST_PRIORITY: u16 = 999;

/// How many digits the server adds to a name.
const DIGITS: usize = 10;

/// A queue: entries leave by priority, and then in the order of their creation, each to one taker. Its nodes have the names of kazoo's `Queue`, plus
/// a tag.
///
/// An entry that was put is there once, even if an answer was lost. It is deleted before it is worked on: if its taker crashes then, nobody works
/// on it.
///
/// ```no_run
/// use dirwolleu::{Queue, Session};
/// use std::time::Duration;
///
/// # fn main() -> Result<(), Box<dyn std::error::Error>> {
/// let session = Session::open("127.0.0.1:2181", Duration::from_secs(10))?;
/// let queue = Queue::new(&session, "/jobs");
/// queue.put(b"one")?;
/// while let Some(job) = queue.take_within(Duration::from_secs(10))? {
///     println!("{}", String::from_utf8_lossy(&job));
/// }
/// # Ok(())
/// # }
/// ```
#[derive(Clone, Debug)]
pub struct Queue<'a> {
    session: &'a Session,
    path: String,
}

/// The priority and the number of an entry, if this is the name of one.
fn order_of(name: &str) -> Option<(u16, &str)> {
    let rest = name.strip_prefix("entry-")?;
    let (priority, rest) = (rest.get(..3)?, rest.get(3..)?);
    let number = rest.get(rest.len().checked_sub(DIGITS)?..)?;
    let are_digits =
        [priority, number].map(|text| text.bytes().all(|digit| digit.is_ascii_digit()));
    let is_parted = rest.starts_with('-') && rest[..rest.len() - DIGITS].ends_with('-');
    (are_digits == [true; 2] && is_parted).then_some((priority.parse().ok()?, number))
}

/// The names of the entries, in the order of taking.
fn in_turn(mut names: Vec<String>) -> Vec<String> {
    names.retain(|name| order_of(name).is_some());
    names.sort_by(|one, other| order_of(one).cmp(&order_of(other)));
    names
}

impl<'a> Queue<'a> {
    /// The queue at this node, which is created if it is missing.
    #[must_use]
    pub fn new(session: &'a Session, path: &str) -> Queue<'a> {
        Queue {
            session,
            path: String::from(path),
        }
    }

    /// Adds an entry and returns the path of its node.
    ///
    /// # Errors
    ///
    /// Those of a call. If it [may have happened](Error::may_have_happened), the entry may be there.
    pub fn put(&self, data: &[u8]) -> Result<String, Error> {
        self.put_with_priority(data, USUAL_PRIORITY)
    }

    /// The same with a priority from 0, which is taken first, to 999; a greater one counts as 999. The default is 100.
    ///
    /// # Errors
    ///
    /// As [`put`](Queue::put).
    pub fn put_with_priority(&self, data: &[u8], priority: u16) -> Result<String, Error> {
        let (one, other) = (random(), random());
        let priority = priority.min(LAST_PRIORITY);
        let tag = format!("entry-{priority:03}-{one:016x}{other:016x}-");
        let place = child_of(&self.path, &tag);
        loop {
            match self
                .session
                .create(&place, data, Mode::PersistentSequential)
            {
                Err(error) if error.code() == Some(Code::NO_NODE) => {
                    self.session.ensure_path(&self.path)?;
                }
                Err(lost) if lost.may_have_happened() => match self.find(&tag) {
                    Ok(None) => {}
                    found => return found.ok().flatten().ok_or(lost),
                },
                made => return made,
            }
        }
    }

    /// The entry with this tag, once its create has happened or cannot happen any more.
    fn find(&self, tag: &str) -> Result<Option<String>, Error> {
        self.session.sync(&self.path)?;
        let (names, _) = self.session.children(&self.path)?;
        let found = names.iter().find(|name| name.starts_with(tag));
        Ok(found.map(|name| child_of(&self.path, name)))
    }

    /// Takes the first entry and returns its data; waits until there is one. `None` once the session is closed.
    ///
    /// # Errors
    ///
    /// Those of a call. If it [may have happened](Error::may_have_happened), the entry at the error's path may be gone.
    pub fn take(&self) -> Result<Option<Vec<u8>>, Error> {
        self.take_until(None)
    }

    /// The same, but waits at most this long: `None` if there was no entry. A limit of zero tries once. The answer to an entry's delete is
    /// awaited regardless, as that of any call.
    ///
    /// # Errors
    ///
    /// As [`take`](Queue::take).
    pub fn take_within(&self, limit: Duration) -> Result<Option<Vec<u8>>, Error> {
        self.take_until(Instant::now().checked_add(limit))
    }

    fn take_until(&self, until: Option<Instant>) -> Result<Option<Vec<u8>>, Error> {
        loop {
            let names = match self.session.watch_children(&self.path) {
                Err(error) if error.code() == Some(Code::NO_NODE) => {
                    self.session.ensure_path(&self.path)?;
                    continue;
                }
                Err(error) if error.is_of_end() => return Ok(None),
                listed => listed?.0,
            };
            for name in in_turn(names) {
                if let Some(data) = self.claim(&child_of(&self.path, &name))? {
                    return Ok(Some(data));
                }
            }
            if until.is_some_and(|until| until <= Instant::now()) {
                return Ok(None);
            }
            let is_good = Ok(Some(Mark::Good));
            self.session
                .wait_until(until, |view| view.children_mark(&self.path) == is_good);
        }
    }

    /// Deletes an entry and returns its data, or `None` if another client was faster.
    fn claim(&self, path: &str) -> Result<Option<Vec<u8>>, Error> {
        let is_gone =
            |error: &Error| matches!(error.code(), Some(Code::NO_NODE | Code::BAD_VERSION));
        let node = match self.session.get(path) {
            Err(error) if is_gone(&error) => return Ok(None),
            node => node?,
        };
        match self.session.call(Request::delete(path, node.stat.version)) {
            Err(error) if is_gone(&error) => Ok(None),
            deleted => deleted.map(|()| Some(node.data.unwrap_or_default())),
        }
    }

    /// Returns how many entries there are.
    ///
    /// # Errors
    ///
    /// Those of a read.
    pub fn len(&self) -> Result<usize, Error> {
        match self.session.children(&self.path) {
            Err(error) if error.code() == Some(Code::NO_NODE) => Ok(0),
            listed => Ok(in_turn(listed?.0).len()),
        }
    }

    /// Whether there is no entry.
    ///
    /// # Errors
    ///
    /// As [`len`](Queue::len).
    pub fn is_empty(&self) -> Result<bool, Error> {
        Ok(self.len()? == 0)
    }
}

#[cfg(test)]
mod tests {
    use super::in_turn;

    #[test]
    fn entries_are_taken_by_priority_and_then_by_number() {
        let names = [
            "entry-100-0000000003", // of kazoo
            "entry-001-tag-0000000007",
            "entry-100-tag-0000000001",
            "other",
            "entry-1-0000000001",
            "entry-100-tag0000000001",
            "entry-é",
        ];
        let expected = [
            "entry-001-tag-0000000007",
            "entry-100-tag-0000000001",
            "entry-100-0000000003",
        ];
        assert_eq!(in_turn(names.map(String::from).into()), expected);
    }
}
