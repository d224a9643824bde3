//! The actions of a machine: what it asks of its program, and what it reports.

use crate::error::ErrorKind;
use crate::fault::{Code, Fault, NoReply, UnknownNumber};
use crate::ffi::{self, Handle};
use crate::machine::Machine;
use crate::node::{NodeEvent, Side};
use crate::numbers::{kind, refusal};
use crate::output::{Bytes, Cause, GivenUp, Reply, Text};
use crate::State;
use std::fmt;
use std::time::Duration;

/// The actions of a machine's last step. Do all of them, in their order, before the next step, which forgets those that were not taken.
///
/// It lends: the bytes of an action stay in the library until you copy them, and taking the next action ends the one before. It also
/// borrows the machine, so no step can happen while you read:
///
/// ```compile_fail,E0499
/// # use dirwolleu::{Machine, Moment};
/// # use std::time::Duration;
/// let mut machine = Machine::open(Duration::from_secs(10), 1, 42).unwrap();
/// let mut actions = machine.tick(Moment::from_millis(1)).unwrap();
/// machine.cut(Moment::from_millis(2)).unwrap(); // `machine` is borrowed still
/// actions.next();
/// ```
///
/// ```
/// use dirwolleu::{Machine, Moment, State};
/// use std::time::Duration;
///
/// let mut machine = Machine::open(Duration::from_secs(9), 3, 42)?;
/// let mut actions = machine.tick(Moment::from_millis(1))?;
/// while let Some(action) = actions.next()? {
///     println!("{action:?}"); // a program does what it says
/// }
/// assert_eq!(actions.machine().state(), State::Idle);
/// # Ok::<(), dirwolleu::Fault>(())
/// ```
#[derive(Debug)]
#[must_use = "frames that are not written never reach the server"]
pub struct Actions<'a> {
    machine: &'a mut Machine,
}

impl<'a> Actions<'a> {
    pub(crate) fn of(machine: &'a mut Machine) -> Actions<'a> {
        Actions { machine }
    }

    /// Returns the next action, or `None` after the last one.
    ///
    /// # Errors
    ///
    /// Only [`Fault::UnknownNumber`], if the library has another version than this crate.
    #[allow(clippy::should_implement_trait)] // an iterator can't lend
    pub fn next(&mut self) -> Result<Option<Action<'_>>, Fault> {
        let Machine { handle, told, .. } = &mut *self.machine;
        if !handle.next(told)? {
            return Ok(None);
        }
        Ok(Some(Action::of(handle, told)?))
    }

    /// Passes each action to this function as the library spells it.
    #[inline]
    pub(crate) fn for_each_flat(
        self,
        mut take: impl FnMut(&Handle, &ffi::Output) -> Result<(), UnknownNumber>,
    ) -> Result<(), Fault> {
        let Machine { handle, told, .. } = self.machine;
        while handle.next(told)? {
            take(handle, told)?;
        }
        Ok(())
    }

    /// The machine, for look-ups between two actions.
    pub fn machine(&self) -> &Machine {
        self.machine
    }
}

/// An action of a machine: a request to its program, or a report.
///
/// ```
/// use dirwolleu::{Action, Machine, Moment};
/// use std::time::Duration;
///
/// let addresses = ["10.0.0.1:2181", "10.0.0.2:2181"];
/// let mut machine = Machine::open(Duration::from_secs(9), addresses.len(), 42)?;
/// let mut to_server = Vec::new();
/// let mut actions = machine.tick(Moment::from_millis(1))?;
/// while let Some(action) = actions.next()? {
///     match action {
///         Action::Dial { place, within } => println!("connect to {} within {within:?}", addresses[place]),
///         Action::HangUp => to_server.clear(), // and close the connection
///         Action::Send(frame) => frame.append_to(&mut to_server),
///         other => println!("{other:?}"),
///     }
/// }
/// # Ok::<(), dirwolleu::Fault>(())
/// ```
#[derive(Debug)]
#[non_exhaustive]
pub enum Action<'a> {
    /// Connect to the address at this place of the program's list. Then hand in [`opened`](Machine::opened), or
    /// [`failed`](Machine::failed).
    Dial {
        /// The place, from 0 on.
        place: usize,
        /// The time after which the machine gives the attempt up.
        within: Duration,
    },
    /// Close the connection, or give the attempt up. Drop the frames that are not yet written, and hand in nothing.
    HangUp,
    /// One frame: write all of it to the server.
    Send(Bytes<'a>),
    /// The call with this ticket is over.
    Answer {
        /// The call's ticket.
        ticket: u64,
        /// The reply of the server, or why there is none.
        outcome: Result<Reply<'a>, NoReply>,
    },
    /// The limit of the call with this ticket has come. It no longer waits.
    TimedOut {
        /// The call's ticket.
        ticket: u64,
        /// Whether it was sent: then it may have happened, or still may.
        was_sent: bool,
    },
    /// A watch has fired: the kept answer of this side of the path is stale.
    Report {
        /// The path that was watched.
        path: Text<'a>,
        /// The side that was watched.
        side: Side,
        /// The change.
        event: NodeEvent,
    },
    /// The state has changed. Only [`HangUp`](Action::HangUp) asks you to close a connection.
    State(State),
    /// The machine gives the connection up, for this reason.
    Drop(GivenUp<'a>),
    /// The session has expired, with its ephemeral nodes, and another one begins. The machine reads followed nodes again.
    Renewed,
    /// The kept answer of the subject with this ticket is good: look it up. Either it was not good before, or its path was reported since,
    /// or the servers held an election, and the subject was read again.
    Shown {
        /// The subject's ticket.
        ticket: u64,
    },
    /// A read of the subject with this ticket was refused. The machine reads it again after a second; with [`Refusal::TooLarge`], each
    /// further read comes after a minute. This comes once for each new reason.
    Refused {
        /// The subject's ticket.
        ticket: u64,
        /// Why.
        reason: Refusal,
    },
    /// The machine follows a side of a node for a tree.
    MemberAdded {
        /// The tree's ticket.
        tree: u64,
        /// The ticket that follows it: that of the tree, or one from 2^63 on.
        ticket: u64,
        /// The side.
        side: Side,
        /// The path of the node.
        path: Text<'a>,
    },
    /// The machine no longer follows this for a tree: the node is gone, or the tree is no longer followed.
    MemberRemoved {
        /// The tree's ticket.
        tree: u64,
        /// The ticket that followed it.
        ticket: u64,
    },
    /// A tree has come to exceed its bound, or no longer exceeds it.
    TreeBounded {
        /// The tree's ticket.
        tree: u64,
        /// Whether it exceeds it: then the machine follows no more of it.
        is_bounded: bool,
    },
    /// A tree is complete again and may have changed since the last such action: look it up by [`subtree`](Machine::subtree), which judges
    /// whether it is of one moment.
    TreeComplete {
        /// The tree's ticket.
        tree: u64,
    },
    /// Another contender is before the one with this ticket, which watches it. This action and those of contenders below come after all
    /// others of a step, and once for each change.
    Waits {
        /// The contender's ticket.
        ticket: u64,
    },
    /// The contender holds.
    Holds {
        /// The contender's ticket.
        ticket: u64,
        /// The zxid that created its place. Whatever the lock protects refuses a token below one that it has seen.
        token: i64,
    },
    /// The contender no longer holds: its place is gone, or the session has expired, and it goes on contending with another place; or it
    /// gave up.
    Lost {
        /// The contender's ticket.
        ticket: u64,
    },
    /// A call of the contender was refused, or a listing shows an obstacle. The machine asks again after a second.
    Pauses {
        /// The contender's ticket.
        ticket: u64,
        /// Why.
        reason: Refusal,
    },
    /// The contender has given up, or the session is closed, and it has no node left. This is its last action.
    GivenUp {
        /// The contender's ticket.
        ticket: u64,
    },
    /// The server has answered a credential. This comes after all other actions of a step but frames of credentials and
    /// [`Dial`](Action::Dial). A refusal ends the connection: drop the machine, since it would send the credential again on each later one.
    Credential {
        /// Its place among the credentials that were handed in, from 0 on.
        place: usize,
        /// 0 if the server accepts the credential.
        code: Code,
    },
}

/// Why a followed subject's read or a contender's call was refused, and why else a contender pauses.
///
/// ```
/// use dirwolleu::{Code, Refusal};
///
/// assert_eq!(Refusal::Code(Code::NO_AUTH).to_string(), Code::NO_AUTH.to_string());
/// assert_eq!(Refusal::TooManyWatches.to_string(), "65536 paths are watched");
/// ```
#[derive(Clone, Copy, Debug, PartialEq, Eq, Hash)]
#[non_exhaustive]
pub enum Refusal {
    /// The server refuses it, with this code.
    Code(Code),
    /// 65,536 paths of the side are watched.
    TooManyWatches,
    /// The answer is longer than the session's [`longest_answer`](crate::SessionOptions::longest_answer), which ends the connection. The
    /// machine reads again after a second, and from then on after a minute.
    TooLarge,
    /// The session is being closed.
    Closed,
    /// Of a contender: the names in the directory have had all 2,147,483,647 numbers.
    NumbersUsedUp,
    /// Of a contender: a name of another family is in the directory. It never holds beside one: [give it up](Machine::give_up).
    MixedNames,
}

impl Refusal {
    fn of(flat: &ffi::Output) -> Result<Refusal, UnknownNumber> {
        Ok(match flat.detail {
            refusal::READ_CODE => Refusal::Code(Code(flat.code)),
            refusal::READ_TOO_MANY_WATCHES => Refusal::TooManyWatches,
            refusal::READ_TOO_LARGE => Refusal::TooLarge,
            refusal::READ_CLOSED => Refusal::Closed,
            refusal::NUMBERS_USED_UP => Refusal::NumbersUsedUp,
            refusal::MIXED_NAMES => Refusal::MixedNames,
            other => return Err(UnknownNumber::of("refusal", other)),
        })
    }
}

/// The reason in words.
impl fmt::Display for Refusal {
    fn fmt(&self, f: &mut fmt::Formatter<'_>) -> fmt::Result {
        match self {
            Refusal::Code(code) => code.fmt(f),
            Refusal::TooManyWatches => NoReply::TooManyWatches.fmt(f),
            Refusal::TooLarge => NoReply::TooLarge.fmt(f),
            Refusal::Closed => NoReply::SessionClosed.fmt(f),
            Refusal::NumbersUsedUp => ErrorKind::NumbersUsedUp.fmt(f),
            Refusal::MixedNames => ErrorKind::MixedNames.fmt(f),
        }
    }
}

impl<'a> Action<'a> {
    pub(crate) fn of(handle: &'a Handle, flat: &ffi::Output) -> Result<Action<'a>, UnknownNumber> {
        let ticket = flat.ticket;
        let bytes = Bytes::of(handle, flat);
        Ok(match flat.kind {
            kind::SEND => Action::Send(bytes),
            kind::ANSWER => Action::Answer {
                ticket,
                outcome: Reply::of(handle, flat, bytes)?,
            },
            kind::REPORT => Action::Report {
                path: Text::of(bytes),
                side: Side::try_from(flat.result)?,
                event: NodeEvent::try_from(flat.detail)?,
            },
            kind::STATE => Action::State(State::try_from(flat.detail)?),
            kind::DROP => Action::Drop(GivenUp {
                cause: Cause::of(flat)?,
                code: Text::of(bytes),
            }),
            kind::DIAL => Action::Dial {
                place: flat.names,
                within: Duration::from_millis(ticket),
            },
            kind::HANG_UP => Action::HangUp,
            kind::TIMED_OUT => Action::TimedOut {
                ticket,
                was_sent: flat.is_null,
            },
            kind::RENEWED => Action::Renewed,
            kind::SHOWN => Action::Shown { ticket },
            kind::REFUSED => Action::Refused {
                ticket,
                reason: Refusal::of(flat)?,
            },
            kind::CREDENTIAL => Action::Credential {
                place: flat.names,
                code: Code(flat.code),
            },
            _ => return Action::of_tree(flat, bytes),
        })
    }

    /// An action of a tree.
    fn of_tree(flat: &ffi::Output, bytes: Bytes<'a>) -> Result<Action<'a>, UnknownNumber> {
        let ticket = flat.ticket;
        Ok(match flat.kind {
            kind::MEMBER_ADDED => Action::MemberAdded {
                tree: flat.names as u64,
                ticket,
                side: Side::try_from(flat.result)?,
                path: Text::of(bytes),
            },
            kind::MEMBER_REMOVED => Action::MemberRemoved {
                tree: flat.names as u64,
                ticket,
            },
            kind::TREE_BOUNDED => Action::TreeBounded {
                tree: ticket,
                is_bounded: flat.is_null,
            },
            kind::TREE_COMPLETE => Action::TreeComplete { tree: ticket },
            _ => return Action::of_contender(flat),
        })
    }

    /// An action of a contender.
    fn of_contender(flat: &ffi::Output) -> Result<Action<'a>, UnknownNumber> {
        let ticket = flat.ticket;
        Ok(match flat.kind {
            kind::CONTENDER_WAITS => Action::Waits { ticket },
            kind::CONTENDER_HOLDS => Action::Holds {
                ticket,
                token: flat.zxid,
            },
            kind::CONTENDER_LOST => Action::Lost { ticket },
            kind::CONTENDER_PAUSES => Action::Pauses {
                ticket,
                reason: Refusal::of(flat)?,
            },
            kind::CONTENDER_GIVEN_UP => Action::GivenUp { ticket },
            other => return Err(UnknownNumber::of("output", other)),
        })
    }
}

#[cfg(test)]
mod tests {
    use super::Action;
    use crate::ffi::{self, Handle, Settings};

    fn handle() -> Handle {
        Handle::open(Settings {
            timeout_ms: 1_000,
            addresses: 1,
            seed: 1,
            longest_answer: 4_194_304,
            longest_request: 1_048_575,
        })
        .unwrap()
    }

    fn flat(kind: i32) -> ffi::Output {
        ffi::Output {
            kind,
            ..ffi::Output::default()
        }
    }

    /// The text of these actions, which has each of their fields.
    fn printed<const N: usize>(flats: [ffi::Output; N]) -> [String; N] {
        let handle = handle();
        flats.map(|flat| format!("{:?}", Action::of(&handle, &flat).unwrap()))
    }

    #[test]
    fn each_field_of_an_action_has_its_place() {
        let (mut dial, mut late, mut refused, mut credential) =
            (flat(6), flat(8), flat(11), flat(16));
        (dial.ticket, dial.names) = (1_500, 2);
        (late.ticket, late.is_null) = (7, true);
        (refused.ticket, refused.detail, refused.code) = (9, 1, -102);
        (credential.names, credential.code) = (2, -115);
        let told = [
            "Dial { place: 2, within: 1.5s }",
            "TimedOut { ticket: 7, was_sent: true }",
            "Refused { ticket: 9, reason: Code(Code(-102)) }",
            "Credential { place: 2, code: Code(-115) }",
        ];
        assert_eq!(printed([dial, late, refused, credential]), told);
    }

    #[test]
    fn each_field_of_what_is_told_of_a_tree_has_its_place() {
        let of_tree = |kind| ffi::Output {
            result: 2,
            ticket: 9,
            names: 7,
            is_null: true,
            ..flat(kind)
        };
        let told = [
            r#"MemberAdded { tree: 7, ticket: 9, side: Children, path: "" }"#,
            "MemberRemoved { tree: 7, ticket: 9 }",
            "TreeBounded { tree: 9, is_bounded: true }",
            "TreeComplete { tree: 9 }",
        ];
        assert_eq!(printed([12, 13, 14, 15].map(of_tree)), told);
    }

    #[test]
    fn each_field_of_what_is_told_of_a_contender_has_its_place() {
        let of_contender = |kind| ffi::Output {
            detail: 5,
            ticket: 9,
            zxid: 7,
            ..flat(kind)
        };
        let told = [
            "Waits { ticket: 9 }",
            "Holds { ticket: 9, token: 7 }",
            "Lost { ticket: 9 }",
            "Pauses { ticket: 9, reason: NumbersUsedUp }",
            "GivenUp { ticket: 9 }",
        ];
        assert_eq!(printed([17, 18, 19, 20, 21].map(of_contender)), told);
    }

    #[test]
    fn a_number_that_nobody_knows_is_a_fault() {
        let handle = handle();
        for (numbers, what) in [
            ((0, 0, 0), "output"),
            ((22, 0, 0), "output"),
            ((2, 0, 0), "result of a reply"),
            ((2, 0, 8), "result of a reply"),
            ((2, 8, 0), "outcome"),
            ((3, 1, 3), "side"),
            ((3, 5, 1), "event"),
            ((4, 5, 0), "state"),
            ((5, 6, 0), "cause"),
            ((11, 7, 0), "refusal"),
            ((20, 0, 0), "refusal"),
        ] {
            let (kind, detail, result) = numbers;
            let flat = ffi::Output {
                detail,
                result,
                ..flat(kind)
            };
            let unknown = Action::of(&handle, &flat).unwrap_err();
            assert_eq!(unknown.what(), what, "{numbers:?}");
        }
    }
}
