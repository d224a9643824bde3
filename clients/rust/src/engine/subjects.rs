//! Followed nodes, as subjects of the machine.

use super::Engine;
use crate::cache::{DataAnswer, Kept, Mark};
use crate::dispatch::SubjectUpdate;
use crate::error::ErrorKind;
use crate::fault::Fault;
use crate::follow::KeptNode;
use crate::node::Side;
use std::collections::BTreeMap;
use std::mem;

/// A followed node, by its path at the servers.
struct Subject {
    path: String,
    update: Option<SubjectUpdate>,
}

/// All followed nodes, by their tickets.
#[derive(Default)]
pub(crate) struct Subjects {
    subjects: BTreeMap<u64, Subject>,
    has_updates: bool,
}

impl Subjects {
    /// Adds a node, by this ticket.
    pub(crate) fn begin(&mut self, ticket: u64, path: String) {
        self.subjects.insert(ticket, Subject { path, update: None });
    }

    /// Removes the node of this ticket. Returns whether there was one.
    pub(crate) fn end(&mut self, ticket: u64) -> bool {
        self.subjects.remove(&ticket).is_some()
    }

    /// All, with their tickets and paths.
    pub(crate) fn all(&self) -> Vec<(u64, String)> {
        let subjects = self.subjects.iter();
        subjects
            .map(|(ticket, subject)| (*ticket, subject.path.clone()))
            .collect()
    }

    pub(crate) fn path(&self, ticket: u64) -> Option<&str> {
        let subject = self.subjects.get(&ticket)?;
        Some(subject.path.as_str())
    }

    /// Records an update of a subject, which replaces the one before.
    pub(crate) fn update(&mut self, ticket: u64, update: SubjectUpdate) {
        if let Some(subject) = self.subjects.get_mut(&ticket) {
            subject.update = Some(update);
            self.has_updates = true;
        }
    }

    /// Whether there were updates since the last call of `takes_updates`.
    pub(crate) fn has_updates(&self) -> bool {
        self.has_updates
    }

    /// Whether there were updates since the last call of this.
    pub(crate) fn takes_updates(&mut self) -> bool {
        mem::take(&mut self.has_updates)
    }

    pub(crate) fn has_update(&self, ticket: u64) -> bool {
        let subject = self.subjects.get(&ticket);
        subject.is_some_and(|subject| subject.update.is_some())
    }

    pub(crate) fn take_update(&mut self, ticket: u64) -> Option<SubjectUpdate> {
        self.subjects.get_mut(&ticket)?.update.take()
    }
}

/// The content of a followed node, or `None` if there is no node.
pub(crate) type FollowedNode = Result<Option<KeptNode>, ErrorKind>;

impl Engine {
    /// Follows the data of a node. Returns the ticket of its updates.
    pub(crate) fn follow(&mut self, path: &str) -> Result<u64, Fault> {
        let outer = self.chroot.outer(path)?.into_owned();
        let looked = self.machine.data_mark(&outer);
        looked.map_err(|fault| fault.at(path))?;
        let ticket = self.calls.next_ticket();
        self.subjects.begin(ticket, outer.clone());
        if !self.is_over() {
            let followed = self.step(self.now(), |machine, now| {
                machine.follow(now, ticket, &outer, Side::Data)
            });
            if let Err(fault) = followed {
                self.subjects.end(ticket);
                return Err(fault.at(path));
            }
        }
        Ok(ticket)
    }

    /// Stops following the subject of this ticket.
    pub(crate) fn unfollow(&mut self, ticket: u64) {
        if self.subjects.end(ticket) && !self.is_over() {
            // If the machine halts, the next caller gets the fault.
            let _ = self.step(self.now(), |machine, now| machine.unfollow(now, ticket));
        }
    }

    /// The number of followed nodes, and the bytes of their paths and kept data.
    pub(super) fn followed_bytes(&self) -> (usize, usize) {
        let followed = self.subjects.all();
        let bytes = followed.iter().map(|(_, path)| {
            let kept = self.machine.peek_data(path).ok().flatten();
            let data = match kept.map(|kept| kept.answer) {
                Some(DataAnswer::Full { data, .. }) => data.map_or(0, |data| data.len()),
                _ => 0,
            };
            self.chroot.inner(path.clone()).len() + data
        });
        (followed.len(), bytes.sum())
    }

    /// Another machine follows the subjects of the one before.
    pub(super) fn follow_again(&mut self) {
        for (ticket, path) in self.subjects.all() {
            // If the machine halts, the next caller gets the fault.
            let _ = self.step(self.now(), |machine, now| {
                machine.follow(now, ticket, &path, Side::Data)
            });
        }
    }

    /// Whether a subject has an update.
    pub(crate) fn has_update(&self, ticket: u64) -> bool {
        self.subjects.has_update(ticket)
    }

    /// Takes the update of a subject. `None` if there is none, or it has passed.
    pub(crate) fn take_update(&mut self, ticket: u64) -> Option<FollowedNode> {
        match self.subjects.take_update(ticket)? {
            SubjectUpdate::Good => self.good_node(ticket),
            SubjectUpdate::Refused(reason) => {
                let kind = ErrorKind::from(reason);
                (!kind.is_passing()).then_some(Err(kind))
            }
        }
    }

    /// The good content of a subject. `None` if it is no longer good: the machine reads it again, and the next update has it.
    fn good_node(&self, ticket: u64) -> Option<FollowedNode> {
        let kept = self.machine.peek_data(self.subjects.path(ticket)?);
        match kept {
            Ok(Some(Kept {
                answer,
                mark: Mark::Good,
            })) => match answer {
                DataAnswer::Absent => Some(Ok(None)),
                DataAnswer::Full { data, stat } => Some(Ok(Some(KeptNode { data, stat }))),
                DataAnswer::Known(_) => None,
            },
            Ok(_) => None,
            Err(fault) => Some(Err(fault.into())),
        }
    }
}
