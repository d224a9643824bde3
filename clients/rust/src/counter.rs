//! A number that clients change together. Tested, not proved.

use crate::error::{Error, ErrorKind};
use crate::fault::Code;
use crate::request::Request;
use crate::session::Session;

/// A whole number, changed by compare and set, in the node of kazoo's `Counter`, which is created if it is missing.
///
/// Each change happens once, whoever else changes the number. If an answer is lost, the counter finds out whether the change happened, and
/// makes it again if not; if it cannot find out, the error [may have happened](Error::may_have_happened).
///
/// ```no_run
/// use dirwolleu::{Counter, Session};
/// use std::time::Duration;
///
/// # fn main() -> Result<(), Box<dyn std::error::Error>> {
/// let session = Session::open("127.0.0.1:2181", Duration::from_secs(10))?;
/// let counter = Counter::new(&session, "/jobs");
/// let before = counter.get()?;
/// println!("{} jobs, and {} more", before, counter.add(5)? - before);
/// counter.change(|jobs| jobs * 2)?;
/// # Ok(())
/// # }
/// ```
#[derive(Clone, Debug)]
pub struct Counter<'a> {
    session: &'a Session,
    path: String,
}

impl<'a> Counter<'a> {
    /// The counter at this node.
    #[must_use]
    pub fn new(session: &'a Session, path: &str) -> Counter<'a> {
        Counter {
            session,
            path: String::from(path),
        }
    }

    /// Returns the number: 0 if the node has no data or is missing.
    ///
    /// # Errors
    ///
    /// Those of a read, and [`ErrorKind::NotNumber`].
    pub fn get(&self) -> Result<i64, Error> {
        Ok(self.read()?.0)
    }

    /// Adds a number and returns the sum.
    ///
    /// # Errors
    ///
    /// As [`change`](Counter::change); also [`ErrorKind::NotNumber`] if the sum does not fit: nothing is changed then.
    pub fn add(&self, number: i64) -> Result<i64, Error> {
        self.change_to(|before| before.checked_add(number))
    }

    /// Sets the number to what a function makes of it, and returns that. If another client was first, the function is called again.
    ///
    /// # Errors
    ///
    /// Those of calls, and [`ErrorKind::NotNumber`].
    pub fn change(&self, change: impl Fn(i64) -> i64) -> Result<i64, Error> {
        self.change_to(|before| Some(change(before)))
    }

    fn not_number(&self) -> Error {
        Error::about(Some(&self.path), ErrorKind::NotNumber)
    }

    /// The number and the node's version. A missing node is created.
    fn read(&self) -> Result<(i64, i32), Error> {
        loop {
            let node = match self.session.get(&self.path) {
                Err(error) if error.code() == Some(Code::NO_NODE) => {
                    self.session.ensure_path(&self.path)?;
                    continue;
                }
                node => node?,
            };
            let data = node.data.unwrap_or_default();
            let text = std::str::from_utf8(&data).ok();
            let number = match text {
                Some("") => Some(0),
                text => text.and_then(|text| text.parse().ok()),
            };
            return Ok((number.ok_or_else(|| self.not_number())?, node.stat.version));
        }
    }

    fn change_to(&self, change: impl Fn(i64) -> Option<i64>) -> Result<i64, Error> {
        loop {
            let (before, version) = self.read()?;
            let after = change(before).ok_or_else(|| self.not_number())?;
            if self.is_set(&after.to_string(), version)? {
                return Ok(after);
            }
        }
    }

    /// Sets the data at this version. Returns whether it did.
    fn is_set(&self, data: &str, version: i32) -> Result<bool, Error> {
        let set = Request::set(&self.path, data.as_bytes(), version);
        match self.session.call(set) {
            Ok(_) => Ok(true),
            Err(error) if matches!(error.code(), Some(Code::BAD_VERSION | Code::NO_NODE)) => {
                Ok(false)
            }
            Err(lost) if lost.may_have_happened() => match self.is_open(data, version) {
                Ok(false) => Ok(false),
                Ok(true) | Err(_) => Err(lost),
            },
            Err(error) => Err(error),
        }
    }

    /// Whether a set whose answer was lost may have happened. After a `sync` it can no longer happen.
    fn is_open(&self, data: &str, version: i32) -> Result<bool, Error> {
        self.session.sync(&self.path)?;
        let found = match self.session.get(&self.path) {
            Err(error) if error.code() == Some(Code::NO_NODE) => return Ok(true),
            found => found?,
        };
        let is_of_another = found.stat.version == version.wrapping_add(1)
            && found.data.as_deref() != Some(data.as_bytes());
        Ok(found.stat.version != version && !is_of_another)
    }
}
