//! The connection: attempts to make one, its bytes, and its end.

use super::{Attempt, Engine, Phase, NEVER};
use crate::connection::Outgoing;
use crate::fault::Fault;
use crate::machine::Machine;
use crate::moment::Moment;
use crate::outbox::Outbox;
use crate::stats::{ConnectionEnd, Observation};
use std::io;
use std::mem;
use std::net::SocketAddr;

impl Engine {
    /// Takes the attempt to connect that the driver begins now.
    pub(crate) fn begin_attempt(&mut self) -> Option<Attempt> {
        let attempt = self.wanted.take()?;
        self.dialling = Some(attempt.number);
        self.server = Some(attempt.host.clone());
        Some(attempt)
    }

    /// Ends this attempt, and returns whether the machine still wants it.
    fn takes_attempt(&mut self, number: u64) -> bool {
        let is_wanted = self.dialling == Some(number) && !self.is_over();
        self.dialling = self.dialling.filter(|dialling| *dialling != number);
        is_wanted
    }

    /// Notes that the attempt of this number has failed.
    pub(crate) fn has_failed(&mut self, number: u64, fault: &io::Error) -> Result<(), Fault> {
        self.note_attempt(fault.to_string());
        let why = fault.to_string();
        self.tally.note(Observation::AttemptFailed { why });
        if self.takes_attempt(number) {
            self.step(self.clock.now(), Machine::failed)?;
        }
        Ok(())
    }

    /// Notes that the attempt of this number has made a connection to this address. It is closed if the machine has given the attempt up.
    pub(crate) fn opened(
        &mut self,
        number: u64,
        address: SocketAddr,
        outgoing: Box<dyn Outgoing>,
    ) -> Result<(), Fault> {
        let outbox = Outbox::new(outgoing);
        if !self.takes_attempt(number) {
            outbox.end();
            self.to_write = Some(outbox);
            return Ok(());
        }
        self.note_attempt(format!(
            "{address}: connected, and it has not accepted the session"
        ));
        self.outbox = Some(outbox);
        self.address = Some(address);
        let now = self.clock.now();
        if let Some(recorder) = &mut self.recorder {
            recorder.at(now);
            recorder.opened();
        }
        self.step(now, Machine::opened)
    }

    /// Hands in bytes that came from the server by now, after those that found no memory.
    #[inline]
    pub(crate) fn hand_in(&mut self, now: Moment, bytes: &[u8]) -> Result<(), Fault> {
        if !bytes.is_empty() {
            self.tally.note_bytes_in(bytes.len());
        }
        if self.inbox.is_empty() {
            return self.hand_in_all(now, bytes);
        }
        let mut all = mem::take(&mut self.inbox);
        all.extend(bytes);
        self.hand_in_all(now, &all)
    }

    fn hand_in_all(&mut self, now: Moment, bytes: &[u8]) -> Result<(), Fault> {
        let now = self.before_due(now);
        let taken = self.sort(now, |machine, now| machine.bytes(now, bytes));
        self.note_plain_step(now, NEVER);
        if taken.is_ok() && self.is_plain() {
            return self.settle_plain();
        }
        // Nothing is due at this moment, so the machine does not leave for a missing answer.
        self.dispatcher.lacks_no_answer();
        if taken.is_err() {
            self.inbox = bytes.to_vec();
        } else if let Some(recorder) = &mut self.recorder {
            recorder.at(now);
            recorder.bytes(bytes);
        }
        self.settle(now, taken)
    }

    /// Notes that a server has accepted the session.
    pub(super) fn note_admission(&mut self) {
        let server = self.address.map_or_else(String::new, |it| it.to_string());
        let session = match self.machine.saved() {
            Ok(saved) if self.tally.is_observed => saved.id().unwrap_or_default(),
            _ => 0,
        };
        self.tally.note(Observation::Connected { server, session });
    }

    /// Notes why a connection with an accepted session is given up.
    pub(super) fn note_unanswered(&mut self) {
        if let Some(address) = self.address {
            self.note_attempt(format!("{address}: an answer did not come"));
        }
    }

    /// Ends the connection, if there is one.
    pub(crate) fn end(&mut self) -> Result<(), Fault> {
        if self.outbox.is_none() {
            return Ok(());
        }
        let now = self.clock.now();
        if let Some(recorder) = &mut self.recorder {
            recorder.at(now);
        }
        self.hang_up();
        if matches!(self.phase, Phase::Ended(_) | Phase::Halted(_)) {
            return Ok(());
        }
        self.step(now, Machine::cut)
    }

    /// Closes the connection, if there is one, and gives up the attempt that the machine asked for.
    pub(super) fn hang_up(&mut self) {
        self.wanted = None;
        self.dialling = None;
        self.inbox.clear();
        self.dispatcher.frames.clear();
        let ending = self.ending.take();
        if let Some(outbox) = self.outbox.take() {
            let end = ending.unwrap_or(ConnectionEnd::Ended);
            self.tally.note(Observation::ConnectionEnded(end));
            outbox.end();
            self.to_write = Some(outbox);
        }
        if let Some(recorder) = &mut self.recorder {
            recorder.cut();
        }
        self.flush_record();
    }
}
