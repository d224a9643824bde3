//! Steps of the machine.

use super::{Attempt, Engine, Phase};
use crate::action::Actions;
use crate::dispatch::SessionUpdate;
use crate::events::Event;
use crate::fault::Fault;
use crate::machine::{Machine, State};
use crate::moment::Moment;
use crate::outbox::Outbox;
use crate::recording::Recorder;
use crate::stats::{ConnectionEnd, Observation};
use crate::tree_view::FollowedTree;
use std::sync::Arc;

impl Engine {
    /// The moment for a step of a caller that has not read all bytes of the connection.
    pub(super) fn now(&self) -> Moment {
        self.before_due(self.clock.now())
    }

    /// The same for this moment. If something is due by then, it is the last moment before: the server's answer may be there, unread.
    pub(super) fn before_due(&self, now: Moment) -> Moment {
        if self.outbox.is_some() {
            return now.min(self.deadline.at(now, &self.machine).before());
        }
        now
    }

    /// Takes a step, and does what the machine says.
    pub(super) fn step<F>(&mut self, now: Moment, step: F) -> Result<(), Fault>
    where
        F: for<'a> FnOnce(&'a mut Machine, Moment) -> Result<Actions<'a>, Fault>,
    {
        let taken = self.sort(now, step);
        self.deadline.forget(self.machine.timeout());
        self.settle(now, taken)
    }

    /// The same for a call that waits until this moment at most, or for bytes.
    #[inline]
    pub(super) fn plain_step<F>(&mut self, now: Moment, until: Moment, step: F) -> Result<(), Fault>
    where
        F: for<'a> FnOnce(&'a mut Machine, Moment) -> Result<Actions<'a>, Fault>,
    {
        let taken = self.sort(now, step);
        self.note_plain_step(now, until);
        if taken.is_ok() && self.is_plain() {
            return self.settle_plain();
        }
        self.settle(now, taken)
    }

    /// Takes a step, and sorts the machine's actions.
    #[inline]
    pub(super) fn sort<F>(&mut self, now: Moment, step: F) -> Result<(), Fault>
    where
        F: for<'a> FnOnce(&'a mut Machine, Moment) -> Result<Actions<'a>, Fault>,
    {
        let actions = step(&mut self.machine, now)?;
        self.dispatcher.dispatch(actions, &mut self.calls)
    }

    /// Notes that the machine has taken bytes, or a call that waits until this moment at most.
    #[inline]
    pub(super) fn note_plain_step(&mut self, now: Moment, until: Moment) {
        if self.dispatcher.update.is_some() {
            return self.deadline.forget(self.machine.timeout());
        }
        self.deadline.note_plain_step(now, until);
    }

    /// Whether a step succeeded and led only to answers and frames, and nobody else looks at those.
    #[inline]
    pub(super) fn is_plain(&self) -> bool {
        let is_told = self.dispatcher.update.is_none() && self.recorder.is_none();
        is_told && self.contenders.is_empty() && !self.is_over()
    }

    /// Does what the machine says at such a step.
    #[inline]
    pub(super) fn settle_plain(&mut self) -> Result<(), Fault> {
        self.send();
        self.hand_out_answers()
    }

    /// Does what the machine says at any step, in its order. Closes the connection if the machine says so, or has halted.
    #[cold]
    pub(super) fn settle(&mut self, now: Moment, taken: Result<(), Fault>) -> Result<(), Fault> {
        if let Some(recorder) = &mut self.recorder {
            recorder.at(now);
        }
        let mut update = self.dispatcher.update.take();
        let end = update.as_deref().and_then(SessionUpdate::end);
        self.ending = end.or(self.ending);
        if let Some(fault) = taken.as_ref().err().filter(|fault| fault.is_final()) {
            self.ending = Some(ConnectionEnd::Dropped);
            self.finish(Phase::Halted(fault.clone()));
        }
        if let Some(update) = &mut update {
            self.take_on(now, update);
        }
        self.send();
        self.hand_out_answers()?;
        for (place, code) in update.map_or_else(Vec::new, |update| update.credentials) {
            self.credential_answered(place, code);
        }
        if self.is_over() {
            self.end_calls();
        }
        self.give_up_lost();
        self.flush_record();
        taken
    }

    /// Does what the machine says about its session.
    fn take_on(&mut self, now: Moment, update: &mut SessionUpdate) {
        if update.is_left {
            self.note_unanswered();
        }
        if update.hangs_up || self.is_over() {
            self.hang_up();
        }
        self.note_followed(update);
        self.note(now, update);
    }

    /// Ends all calls, because no answer can come any more.
    fn end_calls(&mut self) {
        if let Some(reason) = self.reason_of_end() {
            self.calls.end_all(&reason);
        }
    }

    /// Records ticket-to-node assignments first, then the updates that use them.
    fn note_followed(&mut self, update: &mut SessionUpdate) {
        for (tree, news) in update.trees.drain(..) {
            self.update_tree(tree, news);
        }
        for path in update.reported.drain(..) {
            self.trees
                .values_mut()
                .for_each(|tree| tree.note_report(&path));
        }
        for (ticket, shows) in update.shown.drain(..) {
            self.subjects.update(ticket, shows);
            self.update_tree_members(ticket, shows);
        }
        for (ticket, stands) in update.contenders.drain(..) {
            if let Some(path) = self.contenders.update(ticket, stands) {
                self.dispatcher.push_event(Event::LockChanged { path });
            }
        }
    }

    /// Records the new state of the session, and the attempt that the machine asks for.
    fn note(&mut self, now: Moment, update: &SessionUpdate) {
        if update.state == Some(State::Connected) {
            self.forget_attempts();
            self.note_admission();
        }
        if update.is_expired {
            self.tally.note(Observation::SessionLost);
            self.record_renewal();
            self.trees.values_mut().for_each(FollowedTree::invalidate);
            if !self.renews {
                self.contenders.clear();
                self.finish(Phase::Ended(State::Expired));
            }
        }
        if update.state == Some(State::Closed) {
            self.contenders.clear();
            self.finish(Phase::Ended(State::Closed));
        }
        if let Some((place, within)) = update.dial.filter(|_| !self.is_over()) {
            let host = self.places.host(&self.hosts, place);
            self.attempts += 1;
            self.wanted = host.map(|host| Attempt {
                number: self.attempts,
                host,
                until: now.saturating_add(within),
            });
        }
    }

    /// Records that the machine begins another session.
    fn record_renewal(&mut self) {
        if let (Some(recorder), Ok(saved)) = (&mut self.recorder, self.machine.saved()) {
            recorder.begin(self.asked_timeout, Some(saved.for_another().as_bytes()));
        }
    }

    /// Writes what was recorded. If that fails, the record ends, and the session goes on.
    pub(super) fn flush_record(&mut self) {
        let flushed = self.recorder.as_mut().map_or(Ok(()), Recorder::flush);
        if let Err(fault) = flushed {
            self.recorder = None;
            let why = fault.to_string();
            self.tally.note(Observation::RecordEnded { why });
        }
    }

    /// Ends the session in this phase, unless it has ended before.
    fn finish(&mut self, phase: Phase) {
        if !self.is_over() {
            self.phase = phase;
            self.hang_up();
        }
    }

    /// Hands out answers, and ends the connection if one does not parse.
    #[inline]
    fn hand_out_answers(&mut self) -> Result<(), Fault> {
        if !self.dispatcher.answers.is_empty() && self.end_answered() {
            self.ending = Some(ConnectionEnd::Unreadable);
            return self.end();
        }
        Ok(())
    }

    /// Hands out answers. Returns whether one does not parse, so that the connection has to end: its call may have happened.
    #[inline(never)]
    fn end_answered(&mut self) -> bool {
        let mut is_end = false;
        while let Some((ticket, outcome)) = self.dispatcher.answers.pop_front() {
            is_end |= !self.calls.read(ticket, outcome, &self.chroot);
        }
        is_end
    }

    /// Sends the frames of the machine, if there is a connection.
    #[inline]
    fn send(&mut self) {
        if !self.dispatcher.frames.is_empty() {
            self.send_frames();
        }
    }

    #[inline(never)]
    fn send_frames(&mut self) {
        let frames = &mut self.dispatcher.frames;
        if let Some(outbox) = &self.outbox {
            if let Some(recorder) = &mut self.recorder {
                recorder.sent(frames);
            }
            self.tally.note_bytes_out(frames.len());
            self.most_unwritten = outbox.put(frames);
            self.to_write = Some(Arc::clone(outbox));
        }
        self.dispatcher.frames.clear();
    }

    /// Notes that a write to this connection has failed.
    pub(crate) fn is_broken(&mut self, broken: &Arc<Outbox>) {
        if self
            .outbox
            .as_ref()
            .is_some_and(|outbox| Arc::ptr_eq(outbox, broken))
        {
            // If the machine halts, the next caller gets the fault.
            let _ = self.end();
        }
    }
}
