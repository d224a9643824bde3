//! The credentials of a session, and the calls that wait for a server's answer to one.

use crate::moment::Moment;
use std::hint::black_box;
use std::mem;

/// The moment that never comes.
const FOREVER: Moment = Moment::from_millis(u64::MAX);

/// A scheme and its secret, which is overwritten on drop.
#[derive(Clone, PartialEq, Eq)]
pub(crate) struct Credential {
    pub(crate) scheme: String,
    pub(crate) secret: Vec<u8>,
}

impl Credential {
    pub(crate) fn new(scheme: &str, secret: &[u8]) -> Credential {
        Credential {
            scheme: String::from(scheme),
            secret: secret.to_vec(),
        }
    }
}

impl Drop for Credential {
    fn drop(&mut self) {
        self.secret.fill(0);
        black_box(&self.secret); // so that it is overwritten, though nobody reads it again
    }
}

/// A credential, and the calls that wait for the first answer to it, each up to a moment.
struct CredentialEntry {
    credential: Credential,
    is_accepted: bool,
    calls: Vec<(u64, Moment)>,
}

/// The credentials of a session, each at its place in the machine, kept for the next machine.
#[derive(Default)]
pub(crate) struct Credentials {
    all: Vec<CredentialEntry>,
}

impl Credentials {
    /// Credentials that are still to be handed in.
    pub(crate) fn of(all: Vec<Credential>) -> Credentials {
        let mut credentials = Credentials::default();
        for credential in all {
            credentials.add(credential);
        }
        credentials
    }

    pub(crate) fn is_empty(&self) -> bool {
        self.all.is_empty()
    }

    /// The place of a credential that was handed in before.
    pub(crate) fn place_of(&self, credential: &Credential) -> Option<usize> {
        self.all.iter().position(|it| it.credential == *credential)
    }

    /// Notes that a credential was handed in, and returns its place.
    pub(crate) fn add(&mut self, credential: Credential) -> usize {
        self.all.push(CredentialEntry {
            credential,
            is_accepted: false,
            calls: Vec::new(),
        });
        self.all.len() - 1
    }

    /// All of them, in the order of their places.
    pub(crate) fn all(&self) -> Vec<Credential> {
        self.all.iter().map(|it| it.credential.clone()).collect()
    }

    /// Lets a call wait for a server's answer to the credential at this place. Returns `true` if one has already accepted it.
    pub(crate) fn wait(&mut self, place: usize, ticket: u64, until: Moment) -> bool {
        let entry = &mut self.all[place];
        if !entry.is_accepted {
            entry.calls.push((ticket, until));
        }
        entry.is_accepted
    }

    /// A server has accepted the credential at this place. Returns the tickets of the calls that waited for it.
    pub(crate) fn accept(&mut self, place: usize) -> Vec<u64> {
        let Some(entry) = self.all.get_mut(place) else {
            return Vec::new();
        };
        entry.is_accepted = true;
        let calls = mem::take(&mut entry.calls).into_iter();
        calls.map(|(ticket, _)| ticket).collect()
    }

    /// The first moment at which a call reaches its limit.
    pub(crate) fn deadline(&self) -> Moment {
        let calls = self.all.iter().flat_map(|it| &it.calls);
        calls.map(|(_, until)| *until).min().unwrap_or(FOREVER)
    }

    /// Removes the calls that have reached their limit, and returns their tickets.
    pub(crate) fn take_late(&mut self, now: Moment) -> Vec<u64> {
        let mut late = Vec::new();
        for entry in &mut self.all {
            entry.calls.retain(|(ticket, until)| {
                let is_late = *until <= now;
                late.extend(is_late.then_some(*ticket));
                !is_late
            });
        }
        late
    }

    /// Forgets all credentials.
    pub(crate) fn clear(&mut self) {
        self.all.clear();
    }
}
