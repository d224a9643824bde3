//! The credentials of a session, and the servers' answers to them.

use super::{Engine, Phase};
use crate::answer::Answer;
use crate::credentials::Credential;
use crate::error::ErrorKind;
use crate::events::Event;
use crate::fault::{Code, Fault, NoReply};
use crate::moment::Moment;
use crate::sasl::LogInFault;
use crate::stats::ConnectionEnd;

impl Engine {
    /// Sends a credential to the server, now and on each later connection. The call ends with the first answer.
    #[cold]
    pub(super) fn put_auth(
        &mut self,
        ticket: u64,
        until: Moment,
        credential: Credential,
    ) -> Result<(), ErrorKind> {
        let place = if let Some(place) = self.credentials.place_of(&credential) {
            place
        } else {
            self.send_credential(&credential)?;
            self.credentials.add(credential)
        };
        if self.credentials.wait(place, ticket, until) {
            self.calls.end(ticket, Ok(Answer::default()));
        }
        Ok(())
    }

    fn send_credential(&mut self, credential: &Credential) -> Result<(), Fault> {
        let Credential { scheme, secret } = credential;
        self.step(self.now(), |machine, now| {
            machine.credential(now, scheme, secret)
        })
    }

    /// Hands all credentials to another machine.
    pub(super) fn send_credentials_again(&mut self) -> Result<(), Fault> {
        let mut all = self.credentials.all().into_iter();
        all.try_for_each(|credential| self.send_credential(&credential))
    }

    /// Notes that a server has answered the credential at this place.
    pub(super) fn credential_answered(&mut self, place: usize, code: Code) {
        if code != Code(0) {
            self.bar();
            return;
        }
        for ticket in self.credentials.accept(place) {
            self.calls.end(ticket, Ok(Answer::default()));
        }
    }

    /// Notes that the log-in by SASL on this connection has failed. A refusal ends the session.
    pub(crate) fn log_in_failed(&mut self, fault: &LogInFault) {
        if let Some(address) = self.address {
            self.note_attempt(format!("{address}: {fault}"));
        }
        if fault.is_refusal {
            self.bar();
        }
    }

    /// Ends the session because a server refused a credential: it dials nobody any more, and forgets its credentials.
    fn bar(&mut self) {
        if self.is_over() {
            return;
        }
        self.ending = Some(ConnectionEnd::CredentialsRefused);
        self.hang_up();
        self.phase = Phase::Unauthorized;
        self.credentials.clear();
        self.contenders.clear();
        let saved = self.machine.saved();
        if let Ok(other) = saved.and_then(|saved| self.machine_of(&saved)) {
            self.machine = other; // this frees the one before, with all that it knows of the session
            self.deadline.forget(self.machine.timeout());
        }
        self.dispatcher.push_event(Event::CredentialsRefused);
    }

    /// Ends the calls that have reached their limit and that the machine does not know.
    pub(super) fn expire_credential_calls(&mut self, now: Moment) {
        let late = if self.is_open() {
            ErrorKind::TimedOut
        } else {
            NoReply::NotConnected.into()
        };
        for ticket in self.credentials.take_late(now) {
            self.calls.end(ticket, Err(late.clone()));
        }
    }
}
