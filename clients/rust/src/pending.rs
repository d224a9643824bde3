//! The pending calls of a session, and the answered ones until their answers are delivered.

use crate::answer::{Answer, Outcome};
use crate::chroot::Chroot;
use crate::error::{ErrorKind, Search};
use crate::fault::NoReply;
use crate::raw::RawCall;
use crate::ticket::{AskedCall, CallResult, Ending, Slot};
use std::collections::HashMap;
use std::hash::{BuildHasherDefault, Hasher};
use std::mem;
use std::sync::Arc;

/// A waiting call.
struct PendingCall {
    /// Where its answer goes.
    slot: Arc<Slot>,
    /// The call that reads the answer, if the core does not.
    raw: Option<Arc<RawCall>>,
}

/// The call of a session without a thread, which makes one at a time: it takes no place in a table, and its answer is kept here.
struct CallAlone {
    /// Its ticket, while it waits.
    ticket: Option<u64>,
    raw: Option<Arc<RawCall>>,
    /// Its outcome, once it no longer waits.
    outcome: Outcome,
}

impl Default for CallAlone {
    fn default() -> CallAlone {
        CallAlone {
            ticket: None,
            raw: None,
            outcome: Ok(Answer::default()),
        }
    }
}

impl CallAlone {
    fn waits(&self, ticket: u64) -> bool {
        self.ticket == Some(ticket)
    }
}

/// The answer to a call that the core does not read, and whether it parses: if not, the call may have happened.
fn read(call: &RawCall, outcome: Outcome, root: &Chroot) -> (Outcome, bool) {
    let Ok(found) = &outcome else {
        return (outcome, true);
    };
    let read = call.read(found.content.body(), root);
    let parses = read.is_some();
    let lost = || Err(NoReply::ConnectionLoss.into());
    (read.unwrap_or_else(lost), parses)
}

/// A hash for tickets. Nobody outside chooses them.
#[derive(Default)]
struct TicketHasher(u64);

impl Hasher for TicketHasher {
    fn finish(&self) -> u64 {
        self.0
    }

    fn write(&mut self, bytes: &[u8]) {
        for byte in bytes {
            self.0 = self.0.rotate_left(8) ^ u64::from(*byte);
        }
    }

    fn write_u64(&mut self, ticket: u64) {
        self.0 = ticket.wrapping_mul(0x9e37_79b9_7f4a_7c15); // the highest bits count too
    }
}

/// The waiting calls, by their tickets. A call that began while no other waited is kept apart, so that it takes no place in a table.
#[derive(Default)]
struct Waiting {
    first: Option<(u64, PendingCall)>,
    others: HashMap<u64, PendingCall, BuildHasherDefault<TicketHasher>>,
}

impl Waiting {
    fn insert(&mut self, ticket: u64, call: PendingCall) {
        if self.first.is_none() && self.others.is_empty() {
            self.first = Some((ticket, call));
        } else {
            self.others.insert(ticket, call);
        }
    }

    fn is_first(&self, ticket: u64) -> bool {
        matches!(self.first, Some((first, _)) if first == ticket)
    }

    fn has(&self, ticket: u64) -> bool {
        self.is_first(ticket) || self.others.contains_key(&ticket)
    }

    fn get_mut(&mut self, ticket: u64) -> Option<&mut PendingCall> {
        match &mut self.first {
            Some((first, call)) if *first == ticket => Some(call),
            _ => self.others.get_mut(&ticket),
        }
    }

    fn remove(&mut self, ticket: u64) -> Option<PendingCall> {
        if self.is_first(ticket) {
            return self.first.take().map(|(_, call)| call);
        }
        self.others.remove(&ticket)
    }

    fn into_calls(self) -> impl Iterator<Item = PendingCall> {
        let first = self.first.into_iter().map(|(_, call)| call);
        first.chain(self.others.into_values())
    }
}

/// The calls of a session, which wait in its machine, and those whose answers are not yet delivered.
#[derive(Default)]
pub(crate) struct PendingCalls {
    last_ticket: u64,
    waiting: Waiting,
    search: Option<Search>,
    answered: Vec<Arc<Slot>>,
    alone: CallAlone,
}

impl PendingCalls {
    /// Sets why calls wait for a connection: this search for a server, if there is one.
    pub(crate) fn wait_for(&mut self, search: Option<Search>) {
        self.search = search;
    }

    /// The search for a server, if calls wait for one.
    pub(crate) fn search(&self) -> Option<&Search> {
        self.search.as_ref()
    }

    /// A new ticket, for a subject or for a call that nobody waits for. Each is greater than those before.
    pub(crate) fn next_ticket(&mut self) -> u64 {
        self.last_ticket += 1;
        self.last_ticket
    }

    /// The ticket of a new call.
    pub(crate) fn begin(&mut self, slot: Arc<Slot>) -> u64 {
        let ticket = self.next_ticket();
        self.waiting.insert(ticket, PendingCall { slot, raw: None });
        ticket
    }

    /// The same for a session that makes one call at a time. From now on the last call's answer belongs to nobody.
    #[inline]
    pub(crate) fn begin_alone(&mut self) -> u64 {
        let ticket = self.next_ticket();
        self.alone.ticket = Some(ticket);
        self.alone.raw = None;
        ticket
    }

    /// Lets this call read the answer to the one with this ticket.
    pub(crate) fn is_read_by(&mut self, ticket: u64, call: Arc<RawCall>) {
        if self.alone.waits(ticket) {
            self.alone.raw = Some(call);
        } else if let Some(waiting) = self.waiting.get_mut(ticket) {
            waiting.raw = Some(call);
        }
    }

    /// Whether the call of this ticket is still unanswered.
    pub(crate) fn waits(&self, ticket: u64) -> bool {
        self.alone.waits(ticket) || self.waiting.has(ticket)
    }

    /// Ends the call of this ticket if its session makes one at a time and the core has read its answer. Returns the place for the answer,
    /// which goes there at once.
    #[inline]
    pub(crate) fn end_alone(&mut self, ticket: u64) -> Option<&mut Outcome> {
        if !self.alone.waits(ticket) || self.alone.raw.is_some() {
            return None;
        }
        self.alone.ticket = None;
        Some(&mut self.alone.outcome)
    }

    /// Answers a call. If the core has not read the answer, the call does. Returns whether it parses: if not, the call may have happened.
    pub(crate) fn read(&mut self, ticket: u64, outcome: Outcome, root: &Chroot) -> bool {
        let raw = if self.alone.waits(ticket) {
            self.alone.raw.take()
        } else {
            self.waiting.get_mut(ticket).and_then(|it| it.raw.take())
        };
        let (outcome, parses) = match raw {
            Some(call) => read(&call, outcome, root),
            None => (outcome, true),
        };
        self.end(ticket, outcome);
        parses
    }

    /// Ends a call with this outcome.
    pub(crate) fn end(&mut self, ticket: u64, outcome: Outcome) {
        if self.alone.waits(ticket) {
            self.alone.ticket = None;
            self.alone.outcome = outcome;
        } else if let Some(waiting) = self.waiting.remove(ticket) {
            self.put(waiting.slot, outcome);
        }
    }

    fn put(&mut self, slot: Arc<Slot>, outcome: Outcome) {
        slot.put(outcome, self.search.as_ref());
        self.answered.push(slot);
    }

    /// Ends all calls with this error, also those that are not yet sent.
    pub(crate) fn end_all(&mut self, kind: &ErrorKind) {
        if let Some(ticket) = self.alone.ticket {
            self.end(ticket, Err(kind.clone()));
        }
        for waiting in mem::take(&mut self.waiting).into_calls() {
            self.put(waiting.slot, Err(kind.clone()));
        }
    }

    /// Whether the call of a session that makes one at a time has ended.
    #[inline]
    pub(crate) fn has_ended_alone(&self) -> bool {
        self.alone.ticket.is_none()
    }

    /// How that call ended, as it is noted.
    #[inline]
    pub(crate) fn ending_alone(&self) -> Ending<'_> {
        self.alone.outcome.as_ref().map(|found| found.zxid)
    }

    /// Takes the outcome of that call, once.
    #[inline]
    pub(crate) fn take_alone(&mut self, call: &AskedCall<'_>) -> CallResult {
        match &mut self.alone.outcome {
            Ok(answer) => Ok(answer.take()),
            Err(kind) => Err(call.error(kind.clone(), self.search.as_ref())),
        }
    }

    /// Whether there are answers to deliver.
    pub(crate) fn has_answered(&self) -> bool {
        !self.answered.is_empty()
    }

    /// Takes the calls whose answers are to be delivered.
    pub(crate) fn take_answered(&mut self) -> Vec<Arc<Slot>> {
        mem::take(&mut self.answered)
    }
}

#[cfg(test)]
mod tests {
    use super::PendingCalls;
    use crate::answer::Answer;
    use crate::chroot::Chroot;
    use crate::moment::Clock;
    use crate::request::Request;
    use crate::ticket::{AskedCall, Slot};
    use std::sync::Arc;

    fn answer(zxid: i64) -> Answer {
        Answer {
            zxid,
            ..Answer::default()
        }
    }

    #[test]
    fn each_call_has_the_answer_of_its_ticket() {
        let (mut calls, root) = (PendingCalls::default(), Chroot::default());
        let request = Request::get("/a");
        let clock = Clock::start();
        let slots =
            [(); 3].map(|()| Slot::new(String::from("/a"), request.lend().asking.call, clock));
        let tickets = slots.clone().map(|slot| calls.begin(slot));
        for (zxid, ticket) in [(3, tickets[2]), (1, tickets[0]), (2, tickets[1])] {
            assert!(calls.waits(ticket) && calls.read(ticket, Ok(answer(zxid)), &root));
            assert!(!calls.waits(ticket));
        }
        let told = calls.take_answered();
        assert!(told.len() == 3 && Arc::ptr_eq(&told[0], &slots[2]));
        let zxids = slots.map(|slot| slot.with_ending(|found| found.unwrap()));
        assert_eq!(zxids, [Some(1), Some(2), Some(3)]);
    }

    #[test]
    fn an_answer_to_a_call_that_was_left_is_none_of_the_next_one() {
        let (mut calls, root) = (PendingCalls::default(), Chroot::default());
        let (path, clock) = ("/a".into(), Clock::start());
        let asked = AskedCall::now(path, Request::get("/a").lend().asking.call, clock);
        let (left, next) = (calls.begin_alone(), calls.begin_alone());
        calls.read(left, Ok(answer(1)), &root);
        assert!(calls.end_alone(left).is_none() && !calls.has_ended_alone());
        calls.read(next, Ok(answer(2)), &root);
        assert!(calls.end_alone(next).is_none() && calls.has_ended_alone());
        assert_eq!(calls.take_alone(&asked).unwrap().zxid, 2);
    }
}
