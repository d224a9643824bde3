//! Sorts the actions of a machine: frames to send, answers to calls, events, and the update of its session.

use crate::action::{Action, Actions, Refusal};
use crate::answer::{content_of, Answer, Outcome};
use crate::chroot::Chroot;
use crate::error::ErrorKind;
use crate::events::Event;
use crate::fault::{Code, Fault, NoReply, UnknownNumber};
use crate::ffi::{self, Handle};
use crate::machine::State;
use crate::node::{NodeEvent, Side};
use crate::numbers::kind;
use crate::output::{GivenUp, Text};
use crate::pending::PendingCalls;
use crate::stats::ConnectionEnd;
use std::collections::VecDeque;
use std::mem;
use std::time::Duration;

/// The most events that wait for the caller.
const MOST_EVENTS: usize = 1_024;

/// A change of a followed subject.
#[derive(Clone, Copy, Debug, PartialEq, Eq)]
pub(crate) enum SubjectUpdate {
    /// Its kept answer is good.
    Good,
    /// A read of it was refused.
    Refused(Refusal),
}

/// A change of a followed tree.
#[derive(Debug)]
pub(crate) enum TreeUpdate {
    /// The machine follows one more side of a node, by this ticket. The path is the program's.
    MemberAdded { ticket: u64, path: String },
    /// The machine no longer follows the side of this ticket.
    MemberRemoved { ticket: u64 },
    /// The tree has more nodes than its bound, or fits again.
    BoundReached { is_bounded: bool },
    /// All of it is kept and good: it can be copied.
    Complete,
}

/// A change of a contender.
#[derive(Clone, Copy, Debug, PartialEq, Eq)]
pub(crate) enum ContenderUpdate {
    /// Another contender is before it.
    Waits,
    /// It holds, by this token.
    Holds(i64),
    /// It no longer holds.
    Lost,
    /// It cannot get on, for this reason, and asks again after a second.
    Pauses(Refusal),
    /// It has given up, and has no node left.
    GivenUp,
}

/// The actions of a machine, sorted, until the engine takes them.
#[derive(Default)]
pub(crate) struct Dispatcher {
    /// Frames for the server.
    pub(crate) frames: Vec<u8>,
    /// The answers to calls, by their tickets.
    pub(crate) answers: VecDeque<(u64, Outcome)>,
    /// The update of the session since the engine took the last one, if there is one: most steps answer calls and send frames alone.
    pub(crate) update: Option<Box<SessionUpdate>>,
    state: Option<State>,
    chroot: Chroot,
    events: VecDeque<Event>,
    missed: u64,
    is_news: bool,
}

/// What one step of a machine changes in its session and asks for.
#[derive(Default)]
pub(crate) struct SessionUpdate {
    /// The new state, if it has changed.
    pub(crate) state: Option<State>,
    /// Whether the session has expired.
    pub(crate) is_expired: bool,
    /// Whether to close the connection, or give the attempt up.
    pub(crate) hangs_up: bool,
    /// Why the machine gives the connection up, if it says so.
    pub(crate) cause: Option<ConnectionEnd>,
    /// Whether it leaves an accepted session without a reason: an answer is missing, or a server says that the session is elsewhere.
    pub(crate) is_left: bool,
    /// The place of the host to dial, and the time to do it in.
    pub(crate) dial: Option<(usize, Duration)>,
    /// The paths with something good that has ended, as the servers know them.
    pub(crate) reported: Vec<String>,
    /// The servers' answers to credentials, by their places.
    pub(crate) credentials: Vec<(usize, Code)>,
    /// Updates of subjects, and of members of trees, by their tickets.
    pub(crate) shown: Vec<(u64, SubjectUpdate)>,
    /// Updates of trees, by their tickets. They come before those of subjects.
    pub(crate) trees: Vec<(u64, TreeUpdate)>,
    /// Updates of contenders, by their tickets.
    pub(crate) contenders: Vec<(u64, ContenderUpdate)>,
}

impl SessionUpdate {
    /// Why the connection ends now, if the machine says so.
    pub(crate) fn end(&self) -> Option<ConnectionEnd> {
        match self.state {
            _ if self.is_expired => Some(ConnectionEnd::Expired),
            Some(State::Closed) => Some(ConnectionEnd::Closed),
            _ if self.is_left => self.cause.or(Some(ConnectionEnd::Silent)),
            _ => self.cause,
        }
    }
}

/// The event of a connection that was given up. It has the code instead if there is no memory for the words.
fn dropped(given_up: &GivenUp<'_>) -> Event {
    let words = given_up.words();
    Event::Dropped {
        cause: given_up.cause,
        words: words.unwrap_or_else(|_| given_up.code.into()),
    }
}

impl Dispatcher {
    /// The dispatcher of a session with this chroot.
    pub(crate) fn new(chroot: Chroot) -> Dispatcher {
        Dispatcher {
            chroot,
            ..Dispatcher::default()
        }
    }

    /// Sorts the actions of a step. The answer to a session that asks one call at a time goes to where that call waits.
    pub(crate) fn dispatch(
        &mut self,
        actions: Actions<'_>,
        calls: &mut PendingCalls,
    ) -> Result<(), Fault> {
        actions.for_each_flat(|handle, flat| {
            match flat.kind {
                kind::SEND => handle.append(flat.length, &mut self.frames),
                kind::ANSWER => self.dispatch_answer(handle, flat, calls)?,
                _ => self.dispatch_one(&Action::of(handle, flat)?),
            }
            Ok(())
        })
    }

    #[inline(never)]
    fn dispatch_answer(
        &mut self,
        handle: &Handle,
        flat: &ffi::Output,
        calls: &mut PendingCalls,
    ) -> Result<(), UnknownNumber> {
        let content = content_of(handle, flat, &self.chroot)?;
        let (zxid, stat) = (flat.zxid, flat.stat);
        let outcome = content.map(|content| Answer {
            zxid,
            stat,
            content,
        });
        match calls.end_alone(flat.ticket) {
            Some(place) => *place = outcome,
            None => self.answer(flat.ticket, outcome),
        }
        Ok(())
    }

    #[cold]
    fn dispatch_one(&mut self, action: &Action<'_>) {
        match *action {
            Action::TimedOut { ticket, was_sent } => {
                self.answer(ticket, Err(self.reason_of_timeout(was_sent)));
            }
            Action::Report { path, side, event } => self.report(path, side, event),
            Action::State(state) => self.change_state(state),
            Action::Drop(ref given_up) => {
                self.update().cause = Some(ConnectionEnd::of(&given_up.cause));
                self.push_event(dropped(given_up));
            }
            Action::Dial { place, within } => self.update().dial = Some((place, within)),
            Action::HangUp => self.hang_up(),
            // `dispatch` takes the first two.
            Action::Send(_) | Action::Answer { .. } | Action::Renewed => {}
            Action::Shown { ticket } => self.update_subject(ticket, SubjectUpdate::Good),
            Action::Refused { ticket, reason } => {
                self.update_subject(ticket, SubjectUpdate::Refused(reason));
            }
            Action::MemberAdded {
                tree, ticket, path, ..
            } => {
                let path = self.chroot.inner(String::from(path));
                self.update_tree(tree, TreeUpdate::MemberAdded { ticket, path });
            }
            Action::MemberRemoved { tree, ticket } => {
                self.update_tree(tree, TreeUpdate::MemberRemoved { ticket });
            }
            Action::TreeBounded { tree, is_bounded } => {
                self.update_tree(tree, TreeUpdate::BoundReached { is_bounded });
            }
            Action::TreeComplete { tree } => self.update_tree(tree, TreeUpdate::Complete),
            Action::Waits { ticket } => self.update_contender(ticket, ContenderUpdate::Waits),
            Action::Holds { ticket, token } => {
                self.update_contender(ticket, ContenderUpdate::Holds(token));
            }
            Action::Lost { ticket } => self.update_contender(ticket, ContenderUpdate::Lost),
            Action::Pauses { ticket, reason } => {
                self.update_contender(ticket, ContenderUpdate::Pauses(reason));
            }
            Action::GivenUp { ticket } => self.update_contender(ticket, ContenderUpdate::GivenUp),
            Action::Credential { place, code } => self.update().credentials.push((place, code)),
        }
    }

    /// The update of the session at this step.
    pub(crate) fn update(&mut self) -> &mut SessionUpdate {
        self.update.get_or_insert_with(Box::default)
    }

    /// Notes that the machine leaves no server for a missing answer at this step.
    pub(crate) fn lacks_no_answer(&mut self) {
        if let Some(update) = &mut self.update {
            update.is_left = false;
        }
    }

    fn answer(&mut self, ticket: u64, outcome: Outcome) {
        self.answers.push_back((ticket, outcome));
    }

    /// Why a call ends that has reached its limit.
    fn reason_of_timeout(&self, was_sent: bool) -> ErrorKind {
        match self.state {
            _ if was_sent => ErrorKind::TimedOut,
            Some(State::Connected) => NoReply::TooManyPending.into(),
            _ => NoReply::NotConnected.into(),
        }
    }

    /// Closes the connection. Frames that are not yet written are dropped.
    fn hang_up(&mut self) {
        let is_left = self.state == Some(State::Connected);
        self.frames.clear();
        let update = self.update();
        (update.is_left, update.hangs_up, update.dial) = (is_left, true, None);
    }

    fn report(&mut self, path: Text<'_>, side: Side, event: NodeEvent) {
        let outer = String::from(path);
        self.update().reported.push(outer.clone());
        let path = self.chroot.inner(outer);
        self.push_event(Event::Report { path, side, event });
    }

    fn update_subject(&mut self, ticket: u64, update: SubjectUpdate) {
        self.update().shown.push((ticket, update));
    }

    fn update_tree(&mut self, tree: u64, update: TreeUpdate) {
        self.update().trees.push((tree, update));
    }

    fn update_contender(&mut self, ticket: u64, update: ContenderUpdate) {
        self.update().contenders.push((ticket, update));
    }

    fn change_state(&mut self, state: State) {
        self.state = Some(state);
        let update = self.update();
        update.state = Some(state);
        update.is_expired |= state == State::Expired;
        self.push_event(Event::State(state));
    }

    /// Keeps an event for the caller. If there are too many, the oldest is lost.
    pub(crate) fn push_event(&mut self, event: Event) {
        if self.events.len() == MOST_EVENTS {
            self.events.pop_front();
            self.missed += 1;
        }
        self.events.push_back(event);
        self.is_news = true;
    }

    /// Whether an event came since the last call of `takes_news`.
    pub(crate) fn is_news(&self) -> bool {
        self.is_news
    }

    /// Whether an event came since the last call of this.
    pub(crate) fn takes_news(&mut self) -> bool {
        mem::take(&mut self.is_news)
    }

    /// The next event for the caller.
    pub(crate) fn next_event(&mut self) -> Option<Event> {
        match mem::take(&mut self.missed) {
            0 => self.events.pop_front(),
            missed => Some(Event::Missed(missed)),
        }
    }
}
