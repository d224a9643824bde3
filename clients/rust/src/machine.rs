//! A session as a machine, without I/O.

mod look_ups;

use crate::action::Actions;
use crate::contention::Contention;
use crate::fault::Fault;
use crate::ffi::{Call, Handle, Output, Settings};
use crate::moment::Moment;
use crate::node::{Mode, Side, Watch};
use crate::raw::RawOperation;
use crate::saved::SavedSession;
use std::fmt;
use std::time::Duration;

pub use crate::numbers::State;

impl State {
    /// Whether this is the session's last state.
    pub fn is_final(self) -> bool {
        matches!(self, State::Expired | State::Closed)
    }
}

/// A session as a machine: bytes, moments and calls go in, and [`Actions`] come out. It says which server to dial and when, lets calls wait
/// for a connection, repeats reads that were lost, keeps followed nodes good, and begins another session after an expiry. The core decides
/// all of that, and is proved.
///
/// It opens no socket, reads no clock and starts no thread, and none of its functions waits. A program has connections, a clock and a list
/// of addresses, and decides nothing: it hands in what happened, does what the [`Actions`] say, and wakes at the latest at the
/// [`deadline`](Machine::deadline). [`Session`](crate::Session) is such a program.
///
/// It gives a connection up after two thirds of the timeout without a byte, and if a call or a ping has no answer for that long, and at
/// least a second, whatever else the server sends.
///
/// Each step forgets the actions of the step before. A step fails with [`Fault::Halted`] if memory ran out within it: then
/// [`resume`](Machine::resume) what the machine has [`saved`](Machine::saved). It fails with [`Fault::UnknownNumber`] if the library has
/// another version than this crate. The other faults that a step names leave the machine as it was.
///
/// You may move a machine, and send it to another thread. One thread uses it at a time:
///
/// ```compile_fail,E0277
/// fn is_sync<T: Sync>() {}
/// is_sync::<dirwolleu::Machine>();
/// ```
///
/// Dropping a machine ends no session at the servers: [`close_session`](Machine::close_session) does. After [`State::Closed`] ignore
/// whatever it asks for.
///
/// ```
/// use dirwolleu::{Action, Machine, Moment, Side, State};
/// use std::time::Duration;
///
/// # fn main() -> Result<(), dirwolleu::Fault> {
/// let now = Moment::from_millis(1_000);
/// let mut machine = Machine::open(Duration::from_secs(9), 3, 42)?; // three addresses, by a seed
/// let mut actions = machine.follow(now, 1, "/config", Side::Data)?;
/// let Some(Action::Dial { place, within }) = actions.next()? else { panic!("a session begins with a connection") };
/// assert!(place < 3);
/// assert_eq!(within, Duration::from_secs(3));
/// let mut actions = machine.opened(now)?;
/// assert!(matches!(actions.next()?, Some(Action::Send(frame)) if frame.len() == 4 + 45));
/// assert!(matches!(actions.next()?, Some(Action::State(State::Connecting))));
/// assert!(actions.next()?.is_none());
/// assert_eq!(machine.deadline(), Some(Moment::from_millis(7_000))); // the server has two thirds of the timeout
/// # Ok(())
/// # }
/// ```
pub struct Machine {
    pub(crate) handle: Handle,
    state: State,
    /// The last output: each one is written here.
    pub(crate) told: Output,
}

/// The most bytes in the payload of a frame. Raise both together with the servers' `jute.maxbuffer`.
///
/// ```
/// use dirwolleu::{Fault, Limits, Machine};
/// use std::time::Duration;
///
/// let timeout = Duration::from_secs(9);
/// let limits = Limits { longest_answer: 16 << 20, ..Limits::default() };
/// assert!(Machine::open_with_limits(timeout, 3, 42, limits).is_ok());
/// let less = Limits { longest_request: 1_000_000, ..limits };
/// assert_eq!(Machine::open_with_limits(timeout, 3, 42, less).unwrap_err(), Fault::NoSuchLimits);
/// ```
#[derive(Clone, Copy, Debug, PartialEq, Eq)]
pub struct Limits {
    /// For incoming frames: 4,194,304 to 1,073,741,823, by default the least. A longer frame ends the connection, and the read that it
    /// answers gets [`TooLarge`](crate::NoReply::TooLarge).
    pub longest_answer: usize,
    /// For outgoing frames: 1,048,575 to 1,073,741,823, by default the least. A longer call gets [`TooLarge`](crate::NoReply::TooLarge).
    pub longest_request: usize,
}

impl Default for Limits {
    fn default() -> Limits {
        Limits {
            longest_answer: 4_194_304,
            longest_request: 1_048_575,
        }
    }
}

/// How a machine begins.
impl Machine {
    /// A machine without a session, which asks for this timeout, in whole milliseconds: 1 to 2,147,483,647. It has this many addresses to
    /// dial. The seed determines their order and the pauses between attempts: take a random one from the system. The first step asks for a
    /// connection.
    ///
    /// # Errors
    ///
    /// [`Fault::BadTimeout`], [`Fault::NoMemory`], [`Fault::UnknownNumber`], and [`Fault::OtherVersion`] if the linked library is not this
    /// crate's.
    pub fn open(timeout: Duration, addresses: usize, seed: u64) -> Result<Machine, Fault> {
        Machine::open_with_limits(timeout, addresses, seed, Limits::default())
    }

    /// The same with these limits.
    ///
    /// # Errors
    ///
    /// As [`open`](Machine::open), and [`Fault::NoSuchLimits`].
    pub fn open_with_limits(
        timeout: Duration,
        addresses: usize,
        seed: u64,
        limits: Limits,
    ) -> Result<Machine, Fault> {
        let settings = settings(timeout, addresses, seed, limits)?;
        Machine::of(Handle::open(settings)?)
    }

    /// A machine that takes up the saved session first.
    ///
    /// # Errors
    ///
    /// As [`open`](Machine::open), and [`Fault::NotSaved`].
    pub fn resume(
        timeout: Duration,
        addresses: usize,
        seed: u64,
        saved: &SavedSession,
    ) -> Result<Machine, Fault> {
        Machine::resume_with_limits(timeout, addresses, seed, saved, Limits::default())
    }

    /// The same with these limits.
    ///
    /// # Errors
    ///
    /// As [`resume`](Machine::resume), and [`Fault::NoSuchLimits`].
    pub fn resume_with_limits(
        timeout: Duration,
        addresses: usize,
        seed: u64,
        saved: &SavedSession,
        limits: Limits,
    ) -> Result<Machine, Fault> {
        let settings = settings(timeout, addresses, seed, limits)?;
        Machine::of(Handle::resume(settings, saved.as_bytes())?)
    }
}

/// A timeout in whole milliseconds.
fn timeout_ms(timeout: Duration) -> Result<i32, Fault> {
    i32::try_from(timeout.as_millis()).map_err(|_| Fault::BadTimeout)
}

/// The library's settings of a machine.
fn settings(
    timeout: Duration,
    addresses: usize,
    seed: u64,
    limits: Limits,
) -> Result<Settings, Fault> {
    Ok(Settings {
        timeout_ms: timeout_ms(timeout)?,
        addresses,
        seed,
        longest_answer: limits.longest_answer,
        longest_request: limits.longest_request,
    })
}

/// Steps: what happened, by the moment at which the program noticed it.
impl Machine {
    /// The connection that it asked for is open. One that it did not ask for, or no longer wants, is hung up.
    ///
    /// # Errors
    ///
    /// [`Fault::Halted`] and [`Fault::UnknownNumber`].
    pub fn opened(&mut self, now: Moment) -> Result<Actions<'_>, Fault> {
        self.step(|handle| handle.opened(now))
    }

    /// The connection that it asked for could not be made.
    ///
    /// # Errors
    ///
    /// [`Fault::Halted`] and [`Fault::UnknownNumber`].
    pub fn failed(&mut self, now: Moment) -> Result<Actions<'_>, Fault> {
        self.step(|handle| handle.failed(now))
    }

    /// The connection is over: the server closed it, or a read or a write failed.
    ///
    /// # Errors
    ///
    /// [`Fault::Halted`] and [`Fault::UnknownNumber`].
    pub fn cut(&mut self, now: Moment) -> Result<Actions<'_>, Fault> {
        self.step(|handle| handle.cut(now))
    }

    fn of(handle: Handle) -> Result<Machine, Fault> {
        let (state, told) = (State::try_from(handle.state())?, Output::default());
        Ok(Machine {
            handle,
            state,
            told,
        })
    }

    /// Takes a step, and notes the state even if the step failed.
    #[inline]
    fn step(
        &mut self,
        step: impl FnOnce(&mut Handle) -> Result<(), Fault>,
    ) -> Result<Actions<'_>, Fault> {
        let done = step(&mut self.handle);
        self.state = State::try_from(self.handle.state())?;
        done?;
        Ok(Actions::of(self))
    }

    /// A moment and nothing else: hand one in at the latest at the [`deadline`](Self::deadline).
    ///
    /// # Errors
    ///
    /// [`Fault::Halted`] and [`Fault::UnknownNumber`].
    pub fn tick(&mut self, now: Moment) -> Result<Actions<'_>, Fault> {
        self.step(|handle| handle.moment(now))
    }

    /// Bytes came from the server, in any pieces.
    ///
    /// # Errors
    ///
    /// [`Fault::Halted`], [`Fault::UnknownNumber`], and [`Fault::NoMemory`]: then you can hand the same bytes in again.
    pub fn bytes(&mut self, now: Moment, bytes: &[u8]) -> Result<Actions<'_>, Fault> {
        self.step(|handle| handle.bytes(now, bytes))
    }

    /// Changes the list of addresses: first come those that were in the last list, as many as `kept`, and then those that were not, as many
    /// as `added`. `is_listed` says whether the list has the address of the connection or of the attempt, or else the one that was dialled
    /// last; it is true before the first.
    ///
    /// The machine dials them in a new order, and may move the session, as ZooKeeper's own clients do: always if `is_listed` is false; else
    /// with the chance by which the list has grown, and never if it has not. It moves by a [`HangUp`](crate::Action::HangUp).
    ///
    /// # Errors
    ///
    /// [`Fault::Halted`] and [`Fault::UnknownNumber`].
    pub fn set_addresses(
        &mut self,
        now: Moment,
        kept: usize,
        added: usize,
        is_listed: bool,
    ) -> Result<Actions<'_>, Fault> {
        self.step(|handle| handle.addresses(now, kept, added, is_listed))
    }

    /// Follows the data of a node, or the names of its children, even if there is no such node yet: reads it with a watch, and again after
    /// each report, on each new connection and in each new session. No other call or subject may have, or have had, the ticket.
    ///
    /// # Errors
    ///
    /// [`Fault::NotPath`] and [`Fault::NoMemory`], which change nothing; [`Fault::Halted`] and [`Fault::UnknownNumber`].
    pub fn follow(
        &mut self,
        now: Moment,
        ticket: u64,
        path: &str,
        side: Side,
    ) -> Result<Actions<'_>, Fault> {
        let call = call(now, ticket, None, path);
        self.step(|handle| handle.follow(call, side))
    }

    /// Stops following the subject of this ticket.
    ///
    /// # Errors
    ///
    /// [`Fault::Halted`] and [`Fault::UnknownNumber`].
    pub fn unfollow(&mut self, now: Moment, ticket: u64) -> Result<Actions<'_>, Fault> {
        self.step(|handle| handle.unfollow(now, ticket))
    }

    /// Follows all nodes at and below a path, and takes on no more of them once there are more than `most`. The data of the root have the
    /// ticket; everything else has tickets from 2^63 on, which must have no other use. [`Action::MemberAdded`](crate::Action::MemberAdded)
    /// and those after it report the changes. If there is no root, the machine [shows](crate::Action::Shown) that, and waits for its
    /// creation.
    ///
    /// # Errors
    ///
    /// As [`follow`](Machine::follow).
    pub fn follow_tree(
        &mut self,
        now: Moment,
        ticket: u64,
        path: &str,
        most: usize,
    ) -> Result<Actions<'_>, Fault> {
        let call = call(now, ticket, None, path);
        self.step(|handle| handle.follow_tree(call, most))
    }

    /// Stops following the tree of this ticket, and each node that was taken on for it. If there is no such tree, only the moment counts.
    ///
    /// # Errors
    ///
    /// [`Fault::Halted`] and [`Fault::UnknownNumber`].
    pub fn unfollow_tree(&mut self, now: Moment, ticket: u64) -> Result<Actions<'_>, Fault> {
        self.step(|handle| handle.unfollow_tree(now, ticket))
    }

    /// Adds a contender for a lock or an election. It creates its place, watches only the last rival before it, and reports its standing by
    /// [`Action::Waits`](crate::Action::Waits) and those after it. It looks for a place whose create was lost, and in each new session it
    /// contends with another place. No other call, subject, tree or contender may have, or have had, the ticket.
    ///
    /// ```
    /// use dirwolleu::{Action, Contention, Machine, Moment};
    ///
    /// /// Does what a step says of contenders.
    /// fn tell(action: &Action<'_>) {
    ///     match action {
    ///         Action::Holds { token, .. } => println!("held: each write takes {token} along"),
    ///         Action::Lost { .. } => println!("another one may hold; this one contends on"),
    ///         Action::GivenUp { .. } => println!("no node of it is there"),
    ///         _ => {}
    ///     }
    /// }
    /// ```
    ///
    /// # Errors
    ///
    /// [`Fault::NotPath`], also if no place in the directory has a path, and [`Fault::NoMemory`], which change nothing; [`Fault::Halted`]
    /// and [`Fault::UnknownNumber`].
    pub fn contend(
        &mut self,
        now: Moment,
        ticket: u64,
        contention: &Contention<'_>,
    ) -> Result<Actions<'_>, Fault> {
        self.step(|handle| handle.contend(now, ticket, contention))
    }

    /// Makes the contender of this ticket give up: the machine deletes its places, over any number of connections, and reports
    /// [`Action::GivenUp`](crate::Action::GivenUp) once none is left. If there is no such contender, only the moment counts.
    ///
    /// # Errors
    ///
    /// [`Fault::Halted`] and [`Fault::UnknownNumber`].
    pub fn give_up(&mut self, now: Moment, ticket: u64) -> Result<Actions<'_>, Fault> {
        self.step(|handle| handle.give_up(now, ticket))
    }

    /// Adds a credential, with a scheme such as `digest` and a secret such as `user:password`. It goes out at once if there is a
    /// connection, and on each later one right after the request that opens it, in the order of these calls.
    /// [`Action::Credential`](crate::Action::Credential) reports the server's answer. Two equal credentials are two. The machine keeps the
    /// secret for as long as it lives, and overwrites it then; the frames to send also have it.
    ///
    /// # Errors
    ///
    /// [`Fault::CredentialTooLarge`] and [`Fault::NoMemory`], which change nothing; [`Fault::Halted`] and [`Fault::UnknownNumber`].
    pub fn credential(
        &mut self,
        now: Moment,
        scheme: &str,
        secret: &[u8],
    ) -> Result<Actions<'_>, Fault> {
        self.step(|handle| handle.credential(now, scheme, secret))
    }

    /// Forgets all stale answers. Only memory bounds the kept answers: call this now and then if you go from path to path. It is no step,
    /// and followed nodes stay followed.
    pub fn forget_stale(&mut self) {
        self.handle.forget();
    }
}

/// A call. Without a limit it waits until the last moment of all.
fn call(now: Moment, ticket: u64, until: Option<Moment>, path: &str) -> Call<'_> {
    let until = until.unwrap_or(Moment::from_millis(u64::MAX));
    Call {
        now,
        ticket,
        until,
        path,
    }
}

/// Calls about a node, each by the handle's function of the same name.
macro_rules! calls {
    ($($(#[$doc:meta])* $name:ident($($word:ident: $kind:ty),*);)*) => {$(
        $(#[$doc])*
        ///
        /// # Errors
        ///
        /// [`Fault::NotPath`] and [`Fault::NoMemory`], which change nothing; [`Fault::Halted`] and [`Fault::UnknownNumber`].
        #[inline]
        pub fn $name(
            &mut self,
            now: Moment,
            ticket: u64,
            until: Option<Moment>,
            path: &str,
            $($word: $kind),*
        ) -> Result<Actions<'_>, Fault> {
            let call = call(now, ticket, until, path);
            self.step(|handle| handle.$name(call, $($word),*))
        }
    )*};
}

/// Steps: calls. Each waits in one line until a server has accepted the connection and fewer than 1,024 are on their way, at most until a
/// moment, if there is one. It is answered once, or times out once. A read that is lost with its connection is repeated, in its place; a
/// write gets [`ConnectionLoss`](crate::NoReply::ConnectionLoss). No other call or subject may have, or have had, the ticket. To keep a
/// node good, [follow](Machine::follow) it.
impl Machine {
    calls! {
        /// Asks whether there is a node, and for its `Stat`.
        exists(watch: Watch);

        /// Asks for the data of a node. Without a node it leaves no watch: [`exists`](Self::exists) does.
        get_data(watch: Watch);

        /// Asks for the names of a node's children. Without a node it leaves no watch.
        get_children(watch: Watch);

        /// Asks to set the data of a node; `None` is null data. The version is the one that the node must have, or
        /// [`ANY_VERSION`](crate::ANY_VERSION).
        set_data(data: Option<&[u8]>, version: i32);

        /// Asks to create a node with these data; `None` is null data.
        create(data: Option<&[u8]>, mode: Mode);

        /// Asks to delete a node. The version is that of [`set_data`](Self::set_data).
        delete(version: i32);
    }

    /// Asks for another operation. The body is what follows the header of its request, as `zookeeper.jute` spells its record. The core adds
    /// the header, and reads none of these bytes: at most 8 less than [`Limits::longest_request`], else the call gets
    /// [`TooLarge`](crate::NoReply::TooLarge). A reply without an error brings [`Brought::Raw`](crate::Brought::Raw).
    ///
    /// # Errors
    ///
    /// [`Fault::NoMemory`], which changes nothing; [`Fault::Halted`] and [`Fault::UnknownNumber`].
    pub fn raw(
        &mut self,
        now: Moment,
        ticket: u64,
        until: Option<Moment>,
        operation: RawOperation,
        body: &[u8],
    ) -> Result<Actions<'_>, Fault> {
        let call = call(now, ticket, until, "");
        self.step(|handle| handle.raw(call, operation.number(), body))
    }

    /// Asks to end the session.
    ///
    /// # Errors
    ///
    /// [`Fault::Halted`] and [`Fault::UnknownNumber`].
    pub fn close_session(
        &mut self,
        now: Moment,
        ticket: u64,
        until: Option<Moment>,
    ) -> Result<Actions<'_>, Fault> {
        let call = call(now, ticket, until, "");
        self.step(|handle| handle.close_session(call))
    }
}

impl fmt::Debug for Machine {
    fn fmt(&self, f: &mut fmt::Formatter<'_>) -> fmt::Result {
        f.debug_struct("Machine")
            .field("state", &self.state())
            .field("last_zxid", &self.last_zxid())
            .finish_non_exhaustive()
    }
}
