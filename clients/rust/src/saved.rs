//! Saved sessions.

use std::fmt;

/// A session that was put away by [`Machine::saved`](crate::Machine::saved), for [`Machine::resume`](crate::Machine::resume) to take up,
/// maybe in another process: its id, its password and the greatest zxid seen.
///
/// Its bytes are a secret: whoever has them has the session. They are never printed.
///
/// ```
/// use dirwolleu::{Machine, SavedSession};
/// use std::time::Duration;
///
/// let machine = Machine::open(Duration::from_secs(10), 1, 42)?;
/// let bytes = machine.saved()?.as_bytes().to_vec(); // to a file that nobody else reads
/// let saved = SavedSession::from_bytes(bytes);
/// assert_eq!(saved.id(), Some(0)); // no server has admitted it yet
/// let again = Machine::resume(Duration::from_secs(10), 1, 42, &saved)?;
/// assert_eq!(again.last_zxid(), machine.last_zxid());
/// # Ok::<(), dirwolleu::Fault>(())
/// ```
#[derive(Clone, PartialEq, Eq)]
pub struct SavedSession {
    bytes: Vec<u8>,
}

impl SavedSession {
    /// A session of these bytes. Only a resume checks them.
    pub fn from_bytes(bytes: Vec<u8>) -> SavedSession {
        SavedSession { bytes }
    }

    /// The id of the session, which owns its ephemeral nodes: 0 until a server has admitted it. `None` if the bytes are no session.
    pub fn id(&self) -> Option<i64> {
        let number = self.bytes.get(..8)?.try_into().ok()?;
        Some(i64::from_be_bytes(number))
    }

    /// Its bytes: a secret.
    pub fn as_bytes(&self) -> &[u8] {
        &self.bytes
    }

    /// The beginning of the session after it, as the core renews one: no session, a password of 16 zeros, and the greatest zxid seen, so
    /// that no server that is behind it admits the session.
    pub(crate) fn for_another(&self) -> SavedSession {
        let zxid = &self.bytes[self.bytes.len() - 8..];
        let none = [&[0; 8][..], &[0, 0, 0, 16], &[0; 16], zxid];
        SavedSession::from_bytes(none.concat())
    }
}

impl fmt::Debug for SavedSession {
    fn fmt(&self, f: &mut fmt::Formatter<'_>) -> fmt::Result {
        f.debug_struct("SavedSession").finish_non_exhaustive()
    }
}

#[cfg(test)]
mod tests {
    use super::SavedSession;

    #[test]
    fn another_session_keeps_the_zxid_alone() {
        let old = [
            &[1; 8][..],
            &[0, 0, 0, 3],
            &[2; 3],
            &[0, 0, 0, 0, 0, 0, 1, 5],
        ]
        .concat();
        let new = SavedSession::from_bytes(old).for_another();
        let wanted = [
            &[0; 8][..],
            &[0, 0, 0, 16],
            &[0; 16],
            &[0, 0, 0, 0, 0, 0, 1, 5],
        ]
        .concat();
        assert_eq!(new.as_bytes(), wanted);
        assert_eq!(new.id(), Some(0));
    }
}
