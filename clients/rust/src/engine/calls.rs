//! New calls: their limits, and the refusals before the machine gets them.

use super::deadline::UNCOUNTED;
use super::Engine;
use crate::error::ErrorKind;
use crate::moment::Moment;
use crate::raw::RawCall;
use crate::request::{Asking, LentCall};
use crate::ticket::Slot;
use std::sync::Arc;
use std::time::Duration;

/// The longest wait of a close for a server that accepts the session. Without one the session ends by its timeout.
const LONGEST_CLOSE: Duration = Duration::from_secs(1);

/// The most unwritten bytes of a connection with which it takes a new call.
const MOST_UNWRITTEN: usize = 16 * 1_048_576;

/// The limit of a call, and whether the driver has to wake.
#[derive(Clone, Copy, Debug)]
pub(crate) struct Wait {
    /// The moment until which it waits.
    pub(crate) until: Moment,
    /// Whether the driver rests, and has to look again.
    pub(crate) is_to_wake: bool,
}

impl Engine {
    /// Makes a call, at the moment at which its slot was made. The answer goes there.
    pub(crate) fn ask(&mut self, now: Moment, asking: &Asking<'_>, slot: &Arc<Slot>) -> Wait {
        let ticket = self.calls.begin(Arc::clone(slot));
        let is_to_wake = self.outbox.is_none();
        let until = self.ask_by(now, ticket, asking);
        Wait { until, is_to_wake }
    }

    /// The same for a session that makes one call at a time. Its answer waits for its caller.
    pub(crate) fn ask_alone(&mut self, now: Moment, asking: &Asking<'_>) {
        let ticket = self.calls.begin_alone();
        self.ask_by(now, ticket, asking);
    }

    /// Makes a call with this ticket. Returns the moment until which it waits.
    fn ask_by(&mut self, now: Moment, ticket: u64, asking: &Asking<'_>) -> Moment {
        let until = self.limit_of(asking, now);
        let put = match self.refusal(asking.call) {
            Some(refusal) => Err(refusal),
            None => self.put(self.before_due(now), ticket, until, asking),
        };
        if let Err(kind) = put {
            self.calls.end(ticket, Err(kind));
        }
        until
    }

    /// Why this call is refused. Mostly `None`, without a look at the reasons.
    #[inline]
    fn refusal(&self, call: LentCall<'_>) -> Option<ErrorKind> {
        if !self.is_over() && self.most_unwritten <= MOST_UNWRITTEN {
            return None;
        }
        let of_backlog = || self.refusal_of_backlog(call);
        self.refusal_of_all().or_else(of_backlog)
    }

    /// Why no call is taken while a server reads slowly. A call that ends the session always is.
    #[cold]
    fn refusal_of_backlog(&self, call: LentCall<'_>) -> Option<ErrorKind> {
        let waiting = self.outbox.as_ref().map_or(0, |outbox| outbox.waiting());
        let is_refused = waiting > MOST_UNWRITTEN && !call.is_close();
        is_refused.then_some(ErrorKind::QueueFull)
    }

    /// The limit of a call: its own, else the session's, else the timeout. A close waits at most a second while no server has accepted the
    /// session.
    fn limit_of(&self, asking: &Asking<'_>, now: Moment) -> Moment {
        let after = |limit: Duration| now.saturating_add(limit.saturating_add(UNCOUNTED));
        let limit = asking.limit.or(self.limit);
        let until = limit.map_or_else(|| self.deadline.of_call(now), after);
        if asking.call.is_close() && !self.is_connected() {
            return until.min(after(LONGEST_CLOSE));
        }
        until
    }

    fn put(
        &mut self,
        now: Moment,
        ticket: u64,
        until: Moment,
        asking: &Asking<'_>,
    ) -> Result<(), ErrorKind> {
        let Asking { path, data, .. } = *asking;
        let call = match asking.call {
            LentCall::Core(call) => call,
            LentCall::Raw(raw) => return self.put_raw(now, ticket, until, path, raw),
            LentCall::Auth(credential) => return self.put_auth(ticket, until, credential.clone()),
        };
        let path = self.chroot.outer(path)?;
        if asking.call.is_close() {
            self.closing = Some(ticket);
        }
        self.plain_step(now, until, |machine, now| {
            call.ask(machine, now, ticket, until, &path, data)
        })?;
        Ok(())
    }

    #[inline(never)]
    fn put_raw(
        &mut self,
        now: Moment,
        ticket: u64,
        until: Moment,
        path: &str,
        call: &Arc<RawCall>,
    ) -> Result<(), ErrorKind> {
        let body = call.spell(path, &self.chroot)?;
        let operation = call.operation();
        self.calls.is_read_by(ticket, Arc::clone(call));
        self.plain_step(now, until, |machine, now| {
            machine.raw(now, ticket, Some(until), operation, &body)
        })?;
        Ok(())
    }

    /// Whether a call that closes the session is waiting.
    pub(super) fn is_closing(&self) -> bool {
        self.closing.is_some_and(|ticket| self.calls.waits(ticket))
    }
}
