//! The contenders of a session, which its machine has. The machine decides everything about them; this module notes its reports.

use super::Engine;
use crate::acl::Acl;
use crate::contention::{Contention, Naming};
use crate::dispatch::ContenderUpdate;
use crate::error::ErrorKind;
use crate::fault::{Fault, NoReply};
use std::collections::BTreeMap;
use std::mem;
use std::task::Poll;

/// A contender as the machine gets it, and any later machine.
#[derive(Clone, Debug)]
pub(crate) struct Entry {
    /// The directory, as the servers know it.
    pub(crate) directory: String,
    pub(crate) naming: Naming,
    pub(crate) guid: String,
    pub(crate) data: Vec<u8>,
    pub(crate) acls: Vec<Acl>,
}

impl Entry {
    fn contention(&self, may_be_there: bool) -> Contention<'_> {
        Contention {
            directory: &self.directory,
            naming: self.naming,
            guid: &self.guid,
            data: Some(&self.data),
            acls: &self.acls,
            may_be_there,
        }
    }
}

/// A contender that has joined, and the last report of it.
struct Joined {
    entry: Entry,
    /// The path for its events, if it has any.
    told_as: Option<String>,
    update: Option<ContenderUpdate>,
    /// The token on which someone relies. If it no longer holds with this one, it gives up.
    token: Option<i64>,
    /// Why the machine that took the session up did not take it.
    fault: Option<Fault>,
    is_given_up: bool,
}

impl Joined {
    /// The token with which it holds, by the last report.
    fn holds(&self) -> Option<i64> {
        match self.update {
            Some(ContenderUpdate::Holds(token)) if !self.is_given_up => Some(token),
            _ => None,
        }
    }

    /// Why it cannot get on, for a reason that does not pass.
    fn refusal(&self) -> Option<ErrorKind> {
        match (&self.fault, self.update) {
            (Some(fault), _) => Some(fault.clone().into()),
            (None, Some(ContenderUpdate::Pauses(reason))) => {
                Some(ErrorKind::from(reason)).filter(|kind| !kind.is_passing())
            }
            _ => None,
        }
    }

    /// Whether someone relies on a token with which it no longer holds.
    fn is_lost(&self) -> bool {
        self.token.is_some() && self.holds() != self.token && !self.is_given_up
    }
}

/// All contenders, by their tickets.
#[derive(Default)]
pub(crate) struct Contenders {
    all: BTreeMap<u64, Joined>,
    is_news: bool,
}

impl Contenders {
    /// Whether there was a report since the last call of `takes_news`.
    pub(crate) fn is_news(&self) -> bool {
        self.is_news
    }

    /// Whether there was a report since the last call of this.
    pub(crate) fn takes_news(&mut self) -> bool {
        mem::take(&mut self.is_news)
    }

    pub(crate) fn is_empty(&self) -> bool {
        self.all.is_empty()
    }

    /// Notes a report of the contender with this ticket. Returns the path for its event, if there is to be one.
    pub(crate) fn update(&mut self, ticket: u64, update: ContenderUpdate) -> Option<String> {
        self.is_news = true;
        if matches!(update, ContenderUpdate::GivenUp) {
            self.all.remove(&ticket);
            return None;
        }
        let one = self.all.get_mut(&ticket)?;
        let is_other = one.update.replace(update) != Some(update);
        let told_as = one.told_as.clone();
        told_as.filter(|_| is_other && !one.is_given_up)
    }

    /// Forgets all, because the session is over, and its places with it.
    pub(crate) fn clear(&mut self) {
        self.is_news |= !self.all.is_empty();
        self.all.clear();
    }

    /// Notes that the machine has none of them: none holds.
    pub(crate) fn begin_again(&mut self) {
        self.is_news |= !self.all.is_empty();
        self.all.values_mut().for_each(|one| one.update = None);
    }

    /// Those on whose token someone relies in vain.
    fn lost(&self) -> Vec<u64> {
        let lost = self.all.iter().filter(|(_, one)| one.is_lost());
        lost.map(|(ticket, _)| *ticket).collect()
    }
}

/// How a contender holds: its token, and the path of its place as the program knows it.
pub(crate) type Hold = (i64, String);

impl Engine {
    /// Contends, with events for this path, if there are to be any. Returns the contender's ticket.
    pub(crate) fn contend(
        &mut self,
        entry: &Entry,
        told_as: Option<&str>,
    ) -> Result<u64, ErrorKind> {
        if let Some(refusal) = self.refusal_of_all() {
            return Err(refusal);
        }
        let ticket = self.calls.next_ticket();
        self.contenders.all.insert(
            ticket,
            Joined {
                entry: entry.clone(),
                told_as: told_as.map(String::from),
                update: None,
                token: None,
                fault: None,
                is_given_up: false,
            },
        );
        if let Err(fault) = self.join(ticket, entry, false) {
            self.contenders.all.remove(&ticket); // nobody has it, and it has sent no request
            return Err(fault.into());
        }
        Ok(ticket)
    }

    /// Hands a contender to the machine.
    fn join(&mut self, ticket: u64, entry: &Entry, may_be_there: bool) -> Result<(), Fault> {
        self.step(self.now(), |machine, now| {
            machine.contend(now, ticket, &entry.contention(may_be_there))
        })
    }

    /// Hands the contenders of the last machine to another one. Their places may exist. Each step gives up those that are lost, even before
    /// the machine has them.
    pub(super) fn contend_again(&mut self) {
        let all = self.contenders.all.iter();
        let all: Vec<_> = all
            .map(|(ticket, one)| (*ticket, one.entry.clone()))
            .collect();
        for (ticket, entry) in all {
            let joined = self.join(ticket, &entry, true);
            let Some(one) = self.contenders.all.get_mut(&ticket) else {
                continue;
            };
            // If the machine halts, the next caller gets the fault.
            one.fault = joined.err().filter(|fault| !fault.is_final());
            if one.is_given_up {
                self.leave(ticket);
            }
        }
    }

    /// Gives the contender of this ticket up. Its place is deleted, however long that takes.
    pub(crate) fn give_up(&mut self, ticket: u64) {
        let one = self.contenders.all.get_mut(&ticket);
        if let Some(one) = one.filter(|one| !one.is_given_up) {
            (one.is_given_up, one.update) = (true, None);
            self.contenders.is_news = true;
            self.leave(ticket);
        }
    }

    fn leave(&mut self, ticket: u64) {
        if !self.is_over() {
            // If the machine halts, the next caller gets the fault.
            let _ = self.step(self.now(), |machine, now| machine.give_up(now, ticket));
        }
    }

    /// Gives up those on whose token someone relies in vain: nobody would hear that they hold again.
    pub(super) fn give_up_lost(&mut self) {
        for ticket in self.contenders.lost() {
            self.give_up(ticket);
        }
    }

    /// Whether a contender has neither the lock nor a refusal yet.
    pub(crate) fn is_contending(&self, ticket: u64) -> bool {
        let one = self.contenders.all.get(&ticket);
        one.is_some_and(|one| one.holds().is_none() && one.refusal().is_none())
    }

    /// Whether another contender is before the one with this ticket.
    pub(crate) fn is_behind(&self, ticket: u64) -> bool {
        let one = self.contenders.all.get(&ticket);
        one.is_some_and(|one| one.update == Some(ContenderUpdate::Waits))
    }

    /// The token with which the contender of this ticket holds, or why it does not. From then on the caller relies on it.
    fn take_token(&mut self, ticket: u64) -> Poll<Result<i64, ErrorKind>> {
        if self.is_over() {
            let closed = NoReply::SessionClosed.into();
            return Poll::Ready(Err(self.refusal_of_all().unwrap_or(closed)));
        }
        let one = self.contenders.all.get_mut(&ticket);
        let Some(one) = one.filter(|one| !one.is_lost() && !one.is_given_up) else {
            return Poll::Ready(Err(ErrorKind::LockLost));
        };
        if let Some(refusal) = one.refusal() {
            return Poll::Ready(Err(refusal));
        }
        let Some(token) = one.holds() else {
            return Poll::Pending;
        };
        one.token = Some(token);
        Poll::Ready(Ok(token))
    }

    /// The same with the path of its place.
    pub(crate) fn take_hold(&mut self, ticket: u64) -> Poll<Result<Hold, ErrorKind>> {
        let taken = self.take_token(ticket);
        taken.map_ok(|token| (token, self.place(ticket).unwrap_or_default()))
    }

    /// The same for a caller that polls: the token at the last zxid, or `None` while it waits.
    pub(crate) fn look_for_token(&mut self, ticket: u64) -> Result<Option<i64>, ErrorKind> {
        match self.take_token(ticket) {
            Poll::Ready(token) => token.map(|token| self.held(ticket).filter(|it| *it == token)),
            Poll::Pending => Ok(None),
        }
    }

    /// The path of the place of the contender of this ticket, as the program knows it.
    pub(crate) fn place(&self, ticket: u64) -> Option<String> {
        let place = self.machine.place(ticket)?;
        Some(self.chroot.inner(place))
    }

    /// The token with which the contender of this ticket holds at the last zxid.
    pub(crate) fn held(&self, ticket: u64) -> Option<i64> {
        let held = self.machine.held(ticket);
        held.filter(|_| !self.is_over())
    }

    /// Whether a contender that gave up still has a place, and nothing is known of its end yet.
    pub(crate) fn is_leaving(&self, ticket: u64) -> bool {
        let one = self.contenders.all.get(&ticket);
        one.is_some_and(|one| one.refusal().is_none())
    }

    /// Why the place of a contender that gave up is left. `None` if it is gone.
    pub(crate) fn fault_of_leaving(&self, ticket: u64) -> Option<ErrorKind> {
        let one = self.contenders.all.get(&ticket)?;
        let fault = one.refusal().or_else(|| self.fault_of_end());
        Some(fault.unwrap_or(ErrorKind::TimedOut))
    }
}

#[cfg(test)]
mod tests {
    use super::Entry;
    use crate::contention::Naming;
    use crate::dispatch::ContenderUpdate;
    use crate::engine::tests::{connected, open, response};
    use crate::engine::{Engine, NEVER};
    use crate::fault::Fault;

    /// Two contenders that hold, each with its token, in a session whose machine then halts.
    fn lost() -> (Engine, [u64; 2]) {
        let mut engine = connected();
        let entry = Entry {
            directory: String::from("/l"),
            naming: Naming::Kazoo,
            guid: String::from("00112233445566778899aabbccddeeff"),
            data: Vec::new(),
            acls: Vec::new(),
        };
        let tickets = [5, 6].map(|token| {
            let ticket = engine.contend(&entry, None).unwrap();
            let holds = ContenderUpdate::Holds(token);
            engine.contenders.update(ticket, holds);
            assert!(engine.take_hold(ticket).is_ready());
            ticket
        });
        engine.settle(NEVER, Err(Fault::Halted)).unwrap_err();
        (engine, tickets)
    }

    /// The step in which the next machine gets the first contender gives the second one up, before the machine has it.
    #[test]
    fn none_that_is_lost_contends_on_by_the_next_machine() {
        let (mut engine, tickets) = lost();
        engine.renew().unwrap();
        engine.tick().unwrap();
        open(&mut engine);
        engine.hand_in(engine.clock.now(), &response(0, 0)).unwrap(); // it has expired, and so have its places
        assert_eq!(tickets.map(|ticket| engine.is_leaving(ticket)), [false; 2]);
    }

    #[test]
    fn one_that_the_next_machine_does_not_take_says_why() {
        let (mut engine, tickets) = lost();
        let [one, other] = tickets;
        for ticket in tickets {
            engine.contenders.all.get_mut(&ticket).unwrap().token = None; // both wait
        }
        let refused = engine.contenders.all.get_mut(&one).unwrap();
        refused.entry.directory = String::from("l");
        engine.renew().unwrap();
        assert_eq!(
            [one, other].map(|ticket| engine.is_contending(ticket)),
            [false, true]
        );
        assert!(engine.take_hold(one).is_ready() && engine.take_hold(other).is_pending());
    }
}
