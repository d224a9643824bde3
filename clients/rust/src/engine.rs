//! A session without its reader and timer: a machine, the write half of its connection, and the callers that wait. The machine decides; the
//! engine does what it says.

mod calls;
mod connection;
pub(crate) mod contenders;
mod credentials;
mod deadline;
mod steps;
mod subjects;
mod trees;

pub(crate) use self::deadline::NEVER;

use self::contenders::Contenders;
use self::deadline::Deadline;
use self::subjects::Subjects;
use crate::chroot::Chroot;
use crate::credentials::{Credential, Credentials};
use crate::dispatch::Dispatcher;
use crate::error::{Error, ErrorKind, Search};
use crate::events::Event;
use crate::fault::{Code, Fault, NoReply};
use crate::hosts::{random, DialOrder, Host, Hosts, Places};
use crate::machine::{Limits, Machine, State};
use crate::moment::{Clock, Moment};
use crate::outbox::Outbox;
use crate::pending::PendingCalls;
use crate::recording::Recorder;
use crate::saved::SavedSession;
use crate::stats::{ConnectionEnd, Observation, Stats, Tally};
use crate::ticket::{AskedCall, CallResult, Slot};
use crate::tree_view::{FollowedTree, TreeCopy};
use std::collections::BTreeMap;
use std::mem;
use std::net::SocketAddr;
use std::sync::Arc;
use std::time::Duration;

/// How long to wait at a time for a session's admission: a call made meanwhile may have a limit.
const LOOK_ROUND: Duration = Duration::from_millis(250);

/// The most reasons that the message about an unfound server has.
const MOST_REASONS: usize = 16;

/// The driver's next task.
#[derive(Clone, Copy, Debug, PartialEq, Eq)]
pub(crate) enum Plan {
    /// Nothing, ever.
    Stop,
    /// Nothing, until this moment or the next change.
    Rest(Moment),
    /// To hand in the moment.
    Tick,
    /// To dial.
    Dial,
    /// To read the connection, until this moment.
    Listen(Moment),
    /// To hand in again the bytes that found no memory.
    HandIn,
}

/// Whether a session is running, or how it has ended.
#[derive(Clone, Debug, PartialEq, Eq)]
enum Phase {
    Running,
    /// It has expired and does not renew itself, or it is closed. The engine asks the machine for nothing more.
    Ended(State),
    /// The machine has halted: memory ran out within a step, or the library has another version.
    Halted(Fault),
    /// A server has refused the session's credentials.
    Unauthorized,
    /// Its program has dropped it.
    Stopped,
    /// Its dialler or its connection has panicked.
    Panicked,
}

/// An attempt to connect that the machine asked for.
pub(crate) struct Attempt {
    /// A number that no other attempt has.
    pub(crate) number: u64,
    pub(crate) host: Host,
    /// When the machine gives it up.
    pub(crate) until: Moment,
}

/// The options of a session.
pub(crate) struct EngineOptions {
    pub(crate) timeout: Duration,
    pub(crate) limits: Limits,
    pub(crate) hosts: Hosts,
    pub(crate) order: DialOrder,
    pub(crate) saved: Option<SavedSession>,
    pub(crate) renews: bool,
    pub(crate) limit: Option<Duration>,
    pub(crate) credentials: Vec<Credential>,
}

impl EngineOptions {
    /// The first machine of the session, which takes up the saved session if there is one.
    fn machine(&self) -> Result<Machine, Fault> {
        let (timeout, count, limits) = (self.timeout, self.hosts.len(), self.limits);
        match &self.saved {
            Some(saved) => Machine::resume_with_limits(timeout, count, random(), saved, limits),
            None => Machine::open_with_limits(timeout, count, random(), limits),
        }
    }
}

/// What goes out once the lock of an engine is released.
pub(crate) struct News {
    /// The calls whose answers are to be delivered.
    pub(crate) answered: Vec<Arc<Slot>>,
    /// Whether whoever waits for events or updates has something new to look at.
    pub(crate) wakes_all: bool,
    /// The copies of trees to read and show.
    pub(crate) tree_copies: Vec<TreeCopy>,
    /// The observations for the observer.
    pub(crate) seen: Vec<Observation>,
}

/// A machine, its connection, and the calls that wait.
pub(crate) struct Engine {
    machine: Machine,
    deadline: Deadline,
    asked_timeout: Duration,
    limits: Limits,
    renews: bool,
    limit: Option<Duration>,
    clock: Clock,
    hosts: Hosts,
    places: Places,
    chroot: Chroot,
    calls: PendingCalls,
    dispatcher: Dispatcher,
    subjects: Subjects,
    /// The followed trees, by the machine's tickets for them.
    trees: BTreeMap<u64, FollowedTree>,
    tree_copies: Vec<TreeCopy>,
    /// The number of attempts that the machine asked for, and the attempt that is next or under way.
    attempts: u64,
    wanted: Option<Attempt>,
    dialling: Option<u64>,
    /// The host that was dialled last.
    server: Option<Host>,
    outbox: Option<Arc<Outbox>>,
    /// The outbox that has frames to write, or has ended: it is written without the lock.
    to_write: Option<Arc<Outbox>>,
    /// The most bytes that may wait to be written.
    most_unwritten: usize,
    /// The server of the last connection.
    address: Option<SocketAddr>,
    /// Why no server was found since the last accepted session: the last reason of each address.
    reasons: Vec<String>,
    /// Bytes of the server that found no memory.
    inbox: Vec<u8>,
    credentials: Credentials,
    contenders: Contenders,
    tally: Tally,
    recorder: Option<Recorder>,
    /// Why the connection is about to close, if that is known.
    ending: Option<ConnectionEnd>,
    /// The ticket of the call that closes the session, if there is one.
    closing: Option<u64>,
    phase: Phase,
}

/// Begin, renewal and end.
impl Engine {
    pub(crate) fn new(options: EngineOptions) -> Result<Engine, Fault> {
        let machine = options.machine()?;
        let chroot = options.hosts.root().clone();
        let mut engine = Engine {
            deadline: Deadline::of(machine.timeout()),
            machine,
            asked_timeout: options.timeout,
            limits: options.limits,
            renews: options.renews,
            limit: options.limit,
            clock: Clock::start(),
            places: Places::new(options.order),
            hosts: options.hosts,
            dispatcher: Dispatcher::new(chroot.clone()),
            chroot,
            calls: PendingCalls::default(),
            subjects: Subjects::default(),
            trees: BTreeMap::new(),
            tree_copies: Vec::new(),
            attempts: 0,
            wanted: None,
            dialling: None,
            server: None,
            outbox: None,
            to_write: None,
            most_unwritten: 0,
            address: None,
            reasons: Vec::new(),
            inbox: Vec::new(),
            credentials: Credentials::of(options.credentials),
            contenders: Contenders::default(),
            tally: Tally::default(),
            recorder: None,
            ending: None,
            closing: None,
            phase: Phase::Running,
        };
        engine.note_hosts();
        engine.send_credentials_again()?;
        Ok(engine)
    }

    /// Writes a record from now on, of a new session, unless it takes up a saved one.
    pub(crate) fn record(&mut self, mut recorder: Recorder, saved: Option<&SavedSession>) {
        recorder.begin(self.asked_timeout, saved.map(SavedSession::as_bytes));
        self.recorder = Some(recorder);
    }

    /// Goes on with a new machine: of a new session if this one is over, else of the same session.
    pub(crate) fn renew(&mut self) -> Result<(), Fault> {
        if self.phase == Phase::Panicked {
            return Err(Fault::Panicked);
        }
        let saved = self.saved_for_renewal()?;
        let renewed = self.machine_of(&saved)?;
        // A machine that has halted answers nothing.
        let _ = self.end();
        self.hang_up();
        self.calls.end_all(&NoReply::ConnectionLoss.into());
        self.machine = renewed;
        if let Some(recorder) = &mut self.recorder {
            recorder.begin(self.asked_timeout, Some(saved.as_bytes()));
        }
        self.deadline.forget(self.machine.timeout());
        self.places.begin_again();
        if matches!(self.phase, Phase::Ended(_) | Phase::Unauthorized) {
            self.contenders.clear();
        }
        self.contenders.begin_again();
        self.trees.values_mut().for_each(FollowedTree::begin_again);
        if self.phase != Phase::Stopped {
            self.phase = Phase::Running;
            self.send_credentials_again()?;
            self.follow_again();
            self.follow_trees_again();
            self.contend_again();
        }
        Ok(())
    }

    /// Another machine, which takes up this session.
    fn machine_of(&self, saved: &SavedSession) -> Result<Machine, Fault> {
        let (timeout, count) = (self.asked_timeout, self.hosts.len());
        Machine::resume_with_limits(timeout, count, random(), saved, self.limits)
    }

    /// The session that the next machine takes up. After a close or refused credentials it is another session, which begins at the greatest
    /// zxid seen; after an expiry the machine already has it.
    fn saved_for_renewal(&self) -> Result<SavedSession, Fault> {
        let saved = self.machine.saved()?;
        if !matches!(
            self.phase,
            Phase::Ended(State::Closed) | Phase::Unauthorized
        ) {
            return Ok(saved);
        }
        Ok(saved.for_another())
    }

    /// Forgets all stale answers.
    pub(crate) fn forget_stale(&mut self) {
        self.machine.forget_stale();
        self.deadline.forget(self.machine.timeout());
    }

    /// Changes the hosts. Hands hosts with another chroot back.
    pub(crate) fn change_hosts(&mut self, hosts: Hosts) -> Result<(), Hosts> {
        if *hosts.root() != self.chroot {
            return Err(hosts);
        }
        let kept = self.places.change(&self.hosts, &hosts);
        let server = self.wanted.as_ref().map(|attempt| &attempt.host);
        let server = server.or(self.server.as_ref());
        let is_listed = server.map_or(true, |host| hosts.has(host));
        self.hosts = hosts;
        self.forget_attempts();
        self.note_hosts();
        if !self.is_over() {
            // If the machine halts, the next caller gets the fault.
            let _ = self.tell_hosts(kept, is_listed);
        }
        Ok(())
    }

    fn tell_hosts(&mut self, kept: usize, is_listed: bool) -> Result<(), Fault> {
        let (now, added) = (self.now(), self.hosts.len() - kept);
        let taken = self.sort(now, |machine, now| {
            machine.set_addresses(now, kept, added, is_listed)
        });
        self.deadline.forget(self.machine.timeout());
        // A session that moves leaves no server for a missing answer.
        self.dispatcher.lacks_no_answer();
        self.settle(now, taken)
    }

    /// A session without hosts searches for nothing.
    fn note_hosts(&mut self) {
        if self.hosts.len() == 0 {
            self.note_attempt(String::from("the session has no host"));
        }
    }

    /// Ends everything, and answers each call. An earlier panic is still reported.
    pub(crate) fn stop(&mut self) {
        if self.phase != Phase::Panicked {
            self.shut_down(Phase::Stopped);
        }
    }

    /// The same after the dialler or the connection has panicked.
    pub(crate) fn panicked(&mut self) {
        if self.phase != Phase::Stopped {
            self.shut_down(Phase::Panicked);
        }
    }

    fn shut_down(&mut self, phase: Phase) {
        self.ending = Some(ConnectionEnd::Dropped);
        let reason = match phase {
            _ if self.machine.state() == State::Connected => NoReply::ConnectionLoss.into(),
            Phase::Panicked => Fault::Panicked.into(),
            _ => NoReply::NotConnected.into(),
        };
        // If memory ran out, calls are left without an answer.
        let _ = self.end();
        self.hang_up();
        self.phase = phase;
        self.calls.end_all(&reason);
    }
}

/// Look-ups.
impl Engine {
    pub(crate) fn machine(&self) -> &Machine {
        &self.machine
    }

    pub(crate) fn chroot(&self) -> &Chroot {
        &self.chroot
    }

    pub(crate) fn clock(&self) -> Clock {
        self.clock
    }

    /// The state, or `None` if a task is overdue by more than this: then nobody knows.
    pub(crate) fn state(&self, lateness: Duration) -> Option<State> {
        match self.phase {
            Phase::Ended(state) => return Some(state),
            Phase::Unauthorized => return Some(State::Closed),
            Phase::Panicked => return None,
            _ => {}
        }
        let now = self.clock.now();
        let is_served = self.outbox.is_none() || now < self.due(now).saturating_add(lateness);
        is_served.then(|| self.machine.state())
    }

    /// How long ago the server sent something, if it ever did.
    pub(crate) fn age(&self) -> Option<Duration> {
        let heard_at = self.machine.heard_at()?;
        Some(self.clock.now().saturating_duration_since(heard_at))
    }

    /// Whether nothing more happens until the session is renewed.
    pub(crate) fn is_over(&self) -> bool {
        !matches!(self.phase, Phase::Running)
    }

    /// Whether a server has accepted the session, so that calls go out.
    pub(crate) fn is_connected(&self) -> bool {
        self.machine.state() == State::Connected && !self.is_over()
    }

    /// Why no server has accepted the session after this wait. `None` if one has.
    pub(crate) fn fault_of_opening(&self, waited: Duration) -> Option<Error> {
        if self.is_connected() {
            return None;
        }
        let kind = self.refusal_of_all();
        let error = Error::from(kind.unwrap_or(NoReply::NotConnected.into()));
        Some(match self.calls.search() {
            Some(search) => error.after(search, waited),
            None => error,
        })
    }

    /// Why the session is over, unless it was closed.
    pub(crate) fn fault_of_end(&self) -> Option<ErrorKind> {
        match &self.phase {
            Phase::Ended(State::Closed) | Phase::Stopped => None,
            _ => self.refusal_of_all(),
        }
    }

    /// Why new calls are refused.
    fn refusal_of_all(&self) -> Option<ErrorKind> {
        Some(match &self.phase {
            Phase::Running => return None,
            Phase::Ended(State::Closed) => NoReply::SessionClosed.into(),
            Phase::Ended(_) => NoReply::SessionExpired.into(),
            Phase::Halted(fault) => fault.clone().into(),
            Phase::Unauthorized => ErrorKind::Server(Code::AUTH_FAILED),
            Phase::Stopped => NoReply::NotConnected.into(),
            Phase::Panicked => Fault::Panicked.into(),
        })
    }

    /// Why pending calls get no answer at the end of the session. After a halt, those that were sent may have happened.
    fn reason_of_end(&self) -> Option<ErrorKind> {
        match &self.phase {
            Phase::Halted(_) => Some(NoReply::ConnectionLoss.into()),
            _ => self.refusal_of_all(),
        }
    }

    /// Fails if the machine has halted, or the dialler or the connection has panicked.
    pub(crate) fn halt(&self) -> Result<(), Fault> {
        match &self.phase {
            Phase::Halted(fault) => Err(fault.clone()),
            Phase::Panicked => Err(Fault::Panicked),
            _ => Ok(()),
        }
    }

    pub(crate) fn next_event(&mut self) -> Option<Event> {
        self.dispatcher.next_event()
    }

    /// Whether something may have to go out without the lock.
    #[inline]
    pub(crate) fn may_have_news(&self) -> bool {
        let is_followed = !self.trees.is_empty() || self.subjects.has_updates();
        let is_told = self.contenders.is_news() || self.dispatcher.is_news() || self.is_over();
        let is_answered = self.calls.has_answered() || self.tally.has_seen();
        is_followed || is_told || is_answered || !self.tree_copies.is_empty()
    }

    /// Takes what has to go out without the lock.
    pub(crate) fn take_news(&mut self) -> News {
        News {
            wakes_all: self.wakes_all(),
            answered: self.take_answered(),
            tree_copies: mem::take(&mut self.tree_copies),
            seen: self.tally.take_seen(),
        }
    }

    /// Whether whoever waits for events or updates has something new to look at.
    fn wakes_all(&mut self) -> bool {
        let is_news = self.takes_tree_news() | self.subjects.takes_updates();
        let is_news = self.contenders.takes_news() | is_news;
        self.dispatcher.takes_news() | is_news | self.is_over()
    }

    /// Takes the calls whose answers are to be delivered.
    fn take_answered(&mut self) -> Vec<Arc<Slot>> {
        let answered = self.calls.take_answered();
        if !answered.is_empty() {
            let now = self.clock.passed();
            for slot in &answered {
                slot.with_ending(|ending| self.tally.note_call(slot.call(), ending, now));
            }
        }
        answered
    }

    /// Whether the call of a session without a thread has ended.
    #[inline]
    pub(crate) fn has_ended_alone(&self) -> bool {
        self.calls.has_ended_alone()
    }

    /// Notes that this call has ended by now.
    #[inline]
    pub(crate) fn note_alone(&mut self, call: &AskedCall<'_>, now: Duration) {
        self.tally.note_call(call, self.calls.ending_alone(), now);
    }

    /// Takes the outcome of that call, once.
    #[inline]
    pub(crate) fn take_alone(&mut self, call: &AskedCall<'_>) -> CallResult {
        self.calls.take_alone(call)
    }

    /// Notes that the session has an observer.
    pub(crate) fn is_observed(&mut self) {
        self.tally.is_observed = true;
    }

    /// The session's counts, and what it holds.
    pub(crate) fn stats(&self) -> Stats {
        let mut stats = self.tally.stats.clone();
        let trees = self.trees.values().filter_map(FollowedTree::latest);
        stats.age = self.age();
        stats.trees = self.trees.len();
        (stats.nodes, stats.kept_bytes) = self.followed_bytes();
        stats.kept_bytes += trees.map(|tree| tree.bytes()).sum::<usize>();
        stats
    }

    /// A moment before which nothing is due. It is after `now`, unless something is due by then.
    #[inline]
    fn due(&self, now: Moment) -> Moment {
        let due = self.deadline.at(now, &self.machine);
        if self.credentials.is_empty() {
            return due;
        }
        due.min(self.credentials.deadline())
    }

    /// Whether something is already due on the connection.
    pub(crate) fn is_late(&self, now: Moment) -> bool {
        self.outbox.is_some() && self.due(now) <= now
    }

    /// Whether there is a connection.
    pub(crate) fn is_open(&self) -> bool {
        self.outbox.is_some()
    }

    /// The connection, if something waits to be written to it.
    pub(crate) fn unwritten(&self) -> Option<Arc<Outbox>> {
        let outbox = self.outbox.as_ref()?;
        (outbox.waiting() > 0).then(|| Arc::clone(outbox))
    }

    /// Takes the outbox that has frames to write, or has ended.
    pub(crate) fn take_to_write(&mut self) -> Option<Arc<Outbox>> {
        self.to_write.take()
    }

    /// Notes how the last attempt to find a server ended, for the errors of calls that wait for one: the last reason of each address.
    fn note_attempt(&mut self, last: String) {
        let place = |reason: &str| reason.split_once(": ").map(|it| String::from(it.0));
        let of = place(&last);
        self.reasons.retain(|reason| place(reason) != of);
        self.reasons.push(last);
        let surplus = self.reasons.len().saturating_sub(MOST_REASONS);
        self.reasons.drain(..surplus);
        let (hosts, last) = (self.hosts.to_string(), self.reasons.join("; "));
        self.calls.wait_for(Some(Search { hosts, last }));
    }

    /// Forgets how attempts ended: a server was found, or another search begins.
    fn forget_attempts(&mut self) {
        self.reasons.clear();
        self.calls.wait_for(None);
    }
}

/// Tasks and moments.
impl Engine {
    /// The driver's next task at this moment, which lasts at most until another one.
    #[inline]
    pub(crate) fn plan(&self, now: Moment, until: Moment) -> Plan {
        if self.is_over() {
            return self.plan_of_end(until);
        }
        if self.wanted.is_some() {
            return Plan::Dial;
        }
        let due = self.due(now);
        match &self.outbox {
            Some(_) if !self.inbox.is_empty() => Plan::HandIn,
            Some(_) => Plan::Listen(self.listens_until(now, until.min(due))),
            None if due <= now => Plan::Tick,
            None => Plan::Rest(until.min(due)),
        }
    }

    #[cold]
    fn plan_of_end(&self, until: Moment) -> Plan {
        match self.phase {
            Phase::Stopped | Phase::Panicked => Plan::Stop,
            _ => Plan::Rest(until),
        }
    }

    /// The moment until which to read the connection, before something else needs a look.
    #[inline]
    fn listens_until(&self, now: Moment, until: Moment) -> Moment {
        let until = until.min(self.tree_deadline());
        if self.machine.state() == State::Connected {
            return until;
        }
        until.min(now.saturating_add(LOOK_ROUND))
    }

    /// Hands in the present moment.
    pub(crate) fn tick(&mut self) -> Result<(), Fault> {
        self.tick_at(self.clock.now())
    }

    /// Hands in a moment. All bytes up to it are already handed in.
    pub(crate) fn tick_at(&mut self, now: Moment) -> Result<(), Fault> {
        self.step(now, Machine::tick)?;
        self.expire_credential_calls(now);
        Ok(())
    }

    /// The limit of a call has come. The machine gets it, unless something was due on the connection before: then the reader comes first.
    pub(crate) fn expire_calls(&mut self, limit: Moment) {
        let now = self.clock.now();
        if self.is_over() || now < limit {
            return;
        }
        let now = if self.outbox.is_none() { now } else { limit };
        if self.outbox.is_none() || limit <= self.due(limit) {
            // A machine that halts answers each call.
            let _ = self.tick_at(now);
        }
    }
}

#[cfg(test)]
pub(crate) mod tests;
