//! Observations and counts of a session. Tested, not proved.

use crate::error::ErrorKind;
use crate::fault::{Code, NoReply};
use crate::output::Cause;
use crate::raw::RawCall;
use crate::request::{CoreCall, LentCall};
use crate::ticket::{AskedCall, Ending};
use std::fmt::{self, Write as _};
use std::mem;
use std::sync::Arc;
use std::time::Duration;

/// Defines an enum whose variants have names in metrics.
macro_rules! named {
    ($(#[$doc:meta])* $type:ident: $($(#[$of:meta])* $variant:ident $name:literal,)*) => {
        $(#[$doc])*
        #[derive(Clone, Copy, Debug, PartialEq, Eq, Hash)]
        #[non_exhaustive]
        pub enum $type {
            $($(#[$of])* $variant,)*
        }

        impl $type {
            const ALL: &'static [$type] = &[$($type::$variant),*];

            /// Its name in metrics, which is the same in each language of this library.
            #[must_use]
            pub const fn name(self) -> &'static str {
                match self {
                    $($type::$variant => $name,)*
                }
            }
        }
    };
}

named! {
    /// Why a connection ended.
    ConnectionEnd:
    /// The server or the network ended it.
    Ended "ended",
    /// Nothing came in time, or the answer did not.
    Silent "silent",
    /// The bytes did not parse.
    Unreadable "unreadable",
    /// The server is behind the greatest zxid seen.
    Behind "server_behind",
    /// The server refused to set the watches again.
    WatchesRefused "watches_refused",
    /// The session has expired.
    Expired "expired",
    /// The session was closed.
    Closed "closed",
    /// The server refused the session's credentials.
    CredentialsRefused "credentials_refused",
    /// It was given up for another reason: memory ran out, or the session was dropped.
    Dropped "dropped",
}

named! {
    /// The kind of a call.
    CallKind:
    /// Asks whether there is a node.
    Exists "exists",
    /// Reads the data of a node.
    Get "get",
    /// Reads the names of children.
    Children "children",
    /// Sets data.
    Set "set",
    /// Creates a node.
    Create "create",
    /// Deletes a node.
    Delete "delete",
    /// A transaction.
    Transaction "transaction",
    /// A sync.
    Sync "sync",
    /// Reads or sets an ACL.
    Acl "acl",
    /// Any other call.
    Other "other",
    /// Ends the session.
    Close "close",
}

named! {
    /// The outcome of a call.
    CallOutcome:
    /// A reply.
    Ok "ok",
    /// The server refused it, with a code.
    Refused "refused",
    /// It was lost with its connection: it may have happened.
    Lost "lost",
    /// The session has expired.
    Expired "expired",
    /// The session is closed.
    Closed "closed",
    /// Its limit came before it was sent.
    NotConnected "not_connected",
    /// Its limit came after it was sent.
    Late "late",
    /// It was refused before it was sent, for example because a text is no path; or its answer is too long.
    NotAsked "not_asked",
}

impl CallKind {
    pub(crate) fn of(call: LentCall<'_>) -> CallKind {
        match call {
            LentCall::Core(CoreCall::Exists(_)) => CallKind::Exists,
            LentCall::Core(CoreCall::Data(_)) => CallKind::Get,
            LentCall::Core(CoreCall::Children(_)) => CallKind::Children,
            LentCall::Core(CoreCall::Set { .. }) => CallKind::Set,
            LentCall::Core(CoreCall::Create { .. }) => CallKind::Create,
            LentCall::Core(CoreCall::Delete { .. }) => CallKind::Delete,
            LentCall::Core(CoreCall::Close) => CallKind::Close,
            LentCall::Raw(call) => CallKind::of_raw(call),
            LentCall::Auth(_) => CallKind::Other,
        }
    }

    fn of_raw(call: &RawCall) -> CallKind {
        match call {
            RawCall::Create { .. } => CallKind::Create,
            RawCall::Transaction(_) => CallKind::Transaction,
            RawCall::Sync => CallKind::Sync,
            RawCall::Acls | RawCall::SetAcls { .. } => CallKind::Acl,
            _ => CallKind::Other,
        }
    }
}

impl CallOutcome {
    /// The outcome of a call with this error.
    pub(crate) fn of(kind: &ErrorKind) -> CallOutcome {
        match kind {
            ErrorKind::Server(_) | ErrorKind::RolledBack { .. } => CallOutcome::Refused,
            ErrorKind::TimedOut => CallOutcome::Late,
            ErrorKind::NoReply(reason) => match reason {
                NoReply::ConnectionLoss => CallOutcome::Lost,
                NoReply::SessionExpired => CallOutcome::Expired,
                NoReply::SessionClosed => CallOutcome::Closed,
                NoReply::NotConnected | NoReply::TooManyPending => CallOutcome::NotConnected,
                _ => CallOutcome::NotAsked,
            },
            _ => CallOutcome::NotAsked,
        }
    }
}

impl ConnectionEnd {
    /// The end of a connection that the machine gives up for this cause.
    pub(crate) fn of(cause: &Cause) -> ConnectionEnd {
        match cause {
            Cause::Frame | Cause::Payload => ConnectionEnd::Unreadable,
            Cause::Silence => ConnectionEnd::Silent,
            Cause::Behind { .. } => ConnectionEnd::Behind,
            Cause::WatchesRefused { .. } => ConnectionEnd::WatchesRefused,
        }
    }
}

/// An observation of a session, for metrics and traces: see [`SessionOptions::observe`](crate::SessionOptions::observe).
#[derive(Clone, Debug, PartialEq, Eq)]
#[non_exhaustive]
pub enum Observation {
    /// An attempt to connect has failed.
    AttemptFailed {
        /// The reason, with the address.
        why: String,
    },
    /// A server has accepted the session.
    Connected {
        /// Its address.
        server: String,
        /// The id of the session.
        session: i64,
    },
    /// A connection is over.
    ConnectionEnded(ConnectionEnd),
    /// The session has expired.
    SessionLost,
    /// A call has its answer, or will never have one.
    Answered {
        /// The kind of the call.
        kind: CallKind,
        /// The path of its node.
        path: Option<String>,
        /// Its outcome.
        outcome: CallOutcome,
        /// The server's code, if it was refused.
        code: Option<Code>,
        /// The zxid of its reply: 0 if there is none.
        zxid: i64,
        /// The time since the call was made.
        took: Duration,
    },
    /// This many bytes came from the server.
    BytesIn(usize),
    /// This many bytes went to the connection.
    BytesOut(usize),
    /// The record of the session ends, because it cannot be written any further. The session goes on.
    RecordEnded {
        /// The reason.
        why: String,
    },
}

/// Gets each observation.
pub(crate) type Observer = Arc<dyn Fn(&Observation) + Send + Sync>;

/// The bounds of how long calls take, with their names.
const BOUNDS: [(Duration, &str); 13] = [
    (Duration::from_millis(1), "0.001"),
    (Duration::from_millis(2), "0.002"),
    (Duration::from_millis(5), "0.005"),
    (Duration::from_millis(10), "0.01"),
    (Duration::from_millis(20), "0.02"),
    (Duration::from_millis(50), "0.05"),
    (Duration::from_millis(100), "0.1"),
    (Duration::from_millis(200), "0.2"),
    (Duration::from_millis(500), "0.5"),
    (Duration::from_secs(1), "1"),
    (Duration::from_secs(2), "2"),
    (Duration::from_secs(5), "5"),
    (Duration::from_secs(10), "10"),
];

/// The place of the least bound that a time does not exceed. Most times do not exceed the first.
#[inline]
fn place_of(took: Duration) -> usize {
    if took <= BOUNDS[0].0 {
        return 0;
    }
    later_place_of(took)
}

#[cold]
fn later_place_of(took: Duration) -> usize {
    let place = BOUNDS.iter().position(|(bound, _)| took <= *bound);
    place.unwrap_or(BOUNDS.len())
}

/// How long calls took.
#[derive(Clone, Copy, Debug, Default, PartialEq, Eq)]
pub struct Histogram {
    /// The calls within each bound and above the one before; the last has no bound.
    within: [u64; BOUNDS.len() + 1],
    sum: Duration,
}

impl Histogram {
    #[inline]
    fn note(&mut self, took: Duration) {
        self.within[place_of(took)] += 1;
        self.sum += took;
    }

    /// The number of calls.
    #[must_use]
    pub fn count(&self) -> u64 {
        self.within.iter().sum()
    }

    /// The time that all of them took.
    #[must_use]
    pub fn sum(&self) -> Duration {
        self.sum
    }

    /// The bounds, from 1 millisecond to 10 seconds, and how many calls took no longer than each.
    pub fn within(&self) -> impl Iterator<Item = (Duration, u64)> + '_ {
        let mut sum = 0;
        BOUNDS.iter().zip(self.within).map(move |((bound, _), of)| {
            sum += of;
            (*bound, sum)
        })
    }
}

/// The counts of a session since it was opened, and what it holds: from [`Session::stats`](crate::Session::stats).
///
/// ```no_run
/// use dirwolleu::{CallKind, CallOutcome, Session};
/// use std::time::Duration;
///
/// # fn main() -> Result<(), Box<dyn std::error::Error>> {
/// let session = Session::open("127.0.0.1:2181", Duration::from_secs(10))?;
/// session.exists("/config")?;
/// let stats = session.stats();
/// println!("{} connections, {} reads lost", stats.connections, stats.calls(CallKind::Get, CallOutcome::Lost));
/// println!("{}", stats.prometheus());
/// # Ok(())
/// # }
/// ```
#[derive(Clone, Debug, Default, PartialEq, Eq)]
#[non_exhaustive]
pub struct Stats {
    /// How often a server has accepted the session.
    pub connections: u64,
    /// Attempts that led to no connection.
    pub attempts_failed: u64,
    /// Sessions that have expired.
    pub sessions_lost: u64,
    /// Bytes that came from servers.
    pub bytes_in: u64,
    /// Bytes that went to connections.
    pub bytes_out: u64,
    /// How long ago a server was heard, which bounds how old good answers of followed nodes may be. `None` before the first byte.
    pub age: Option<Duration>,
    /// The number of followed nodes.
    pub nodes: usize,
    /// The number of followed trees.
    pub trees: usize,
    /// The bytes of the paths and kept data of followed nodes.
    pub kept_bytes: usize,
    ends: [u64; ConnectionEnd::ALL.len()],
    calls: [[u64; CallOutcome::ALL.len()]; CallKind::ALL.len()],
    times: [Histogram; CallKind::ALL.len()],
}

impl Stats {
    /// The number of connections that ended for this reason.
    #[must_use]
    pub fn ends(&self, end: ConnectionEnd) -> u64 {
        self.ends[end as usize]
    }

    /// The number of calls of this kind with this outcome.
    #[must_use]
    pub fn calls(&self, kind: CallKind, outcome: CallOutcome) -> u64 {
        self.calls[kind as usize][outcome as usize]
    }

    /// How long calls of this kind took, from the request to the answer.
    #[must_use]
    pub fn times(&self, kind: CallKind) -> &Histogram {
        &self.times[kind as usize]
    }

    fn note(&mut self, seen: &Observation) {
        match seen {
            Observation::AttemptFailed { .. } => self.attempts_failed += 1,
            Observation::Connected { .. } => self.connections += 1,
            Observation::ConnectionEnded(end) => self.ends[*end as usize] += 1,
            Observation::SessionLost => self.sessions_lost += 1,
            // The first three have functions of their own.
            Observation::Answered { .. }
            | Observation::BytesIn(_)
            | Observation::BytesOut(_)
            | Observation::RecordEnded { .. } => {}
        }
    }

    #[inline]
    fn note_answer(&mut self, kind: CallKind, outcome: CallOutcome, took: Duration) {
        self.calls[kind as usize][outcome as usize] += 1;
        if outcome != CallOutcome::NotAsked {
            self.times[kind as usize].note(took);
        }
    }

    /// The counts in the text format of Prometheus, with the names that each language of this library uses.
    #[must_use]
    pub fn prometheus(&self) -> String {
        let mut page = String::new();
        // A String takes everything.
        let _ = self.write_counters(&mut page);
        let _ = self.write_times(&mut page);
        let _ = self.write_rest(&mut page);
        page
    }

    fn write_counters(&self, page: &mut String) -> fmt::Result {
        number(page, "connections_total", CONNECTIONS, self.connections)?;
        number(
            page,
            "attempts_failed_total",
            ATTEMPTS_FAILED,
            self.attempts_failed,
        )?;
        series(page, "connection_ends_total", "counter", CONNECTION_ENDS)?;
        for end in ConnectionEnd::ALL {
            let (name, count) = (end.name(), self.ends(*end));
            if count > 0 {
                writeln!(
                    page,
                    "dirwolleu_connection_ends_total{{reason=\"{name}\"}} {count}"
                )?;
            }
        }
        number(
            page,
            "sessions_lost_total",
            SESSIONS_LOST,
            self.sessions_lost,
        )?;
        series(page, "calls_total", "counter", CALLS)?;
        for kind in CallKind::ALL {
            for outcome in CallOutcome::ALL {
                let (name, of, count) = (kind.name(), outcome.name(), self.calls(*kind, *outcome));
                if count > 0 {
                    writeln!(
                        page,
                        "dirwolleu_calls_total{{kind=\"{name}\",outcome=\"{of}\"}} {count}"
                    )?;
                }
            }
        }
        Ok(())
    }

    fn write_times(&self, page: &mut String) -> fmt::Result {
        series(page, "call_seconds", "histogram", TIMES)?;
        for kind in CallKind::ALL {
            let (times, kind) = (self.times(*kind), kind.name());
            let count = times.count();
            if count == 0 {
                continue;
            }
            let bounds = BOUNDS.iter().map(|(_, name)| *name);
            let within = times.within().map(|(_, within)| within);
            for (bound, within) in bounds.zip(within).chain([("+Inf", count)]) {
                writeln!(
                    page,
                    "dirwolleu_call_seconds_bucket{{kind=\"{kind}\",le=\"{bound}\"}} {within}"
                )?;
            }
            let sum = times.sum().as_secs_f64();
            writeln!(
                page,
                "dirwolleu_call_seconds_sum{{kind=\"{kind}\"}} {sum:.6}"
            )?;
            writeln!(
                page,
                "dirwolleu_call_seconds_count{{kind=\"{kind}\"}} {count}"
            )?;
        }
        Ok(())
    }

    fn write_rest(&self, page: &mut String) -> fmt::Result {
        series(page, "bytes_total", "counter", BYTES)?;
        for (direction, count) in [("in", self.bytes_in), ("out", self.bytes_out)] {
            writeln!(
                page,
                "dirwolleu_bytes_total{{direction=\"{direction}\"}} {count}"
            )?;
        }
        if let Some(age) = self.age {
            series(page, "age_seconds", "gauge", AGE)?;
            writeln!(page, "dirwolleu_age_seconds {:.3}", age.as_secs_f64())?;
        }
        series(page, "followed", "gauge", FOLLOWED)?;
        for (kind, count) in [("node", self.nodes), ("children", 0), ("tree", self.trees)] {
            writeln!(page, "dirwolleu_followed{{kind=\"{kind}\"}} {count}")?;
        }
        series(page, "kept_bytes", "gauge", KEPT)?;
        writeln!(page, "dirwolleu_kept_bytes {}", self.kept_bytes)
    }
}

const CONNECTIONS: &str = "Servers have accepted the session so often.";
const ATTEMPTS_FAILED: &str = "Attempts to connect of which no connection came.";
const CONNECTION_ENDS: &str = "Connections that are over.";
const SESSIONS_LOST: &str = "Sessions that have expired.";
const CALLS: &str = "Calls that were answered, or will not be.";
const TIMES: &str = "From the question to the answer.";
const BYTES: &str = "Bytes of connections.";
const AGE: &str = "Since a server was heard.";
const FOLLOWED: &str = "What is followed.";
const KEPT: &str = "Bytes that are kept of what is followed.";

fn series(page: &mut String, name: &str, of: &str, help: &str) -> fmt::Result {
    writeln!(
        page,
        "# HELP dirwolleu_{name} {help}\n# TYPE dirwolleu_{name} {of}"
    )
}

fn number(page: &mut String, name: &str, help: &str, number: u64) -> fmt::Result {
    series(page, name, "counter", help)?;
    writeln!(page, "dirwolleu_{name} {number}")
}

/// The stats of a session, and the observations that its observer gets once the lock is free.
#[derive(Debug, Default)]
pub(crate) struct Tally {
    pub(crate) stats: Stats,
    pub(crate) is_observed: bool,
    seen: Vec<Observation>,
}

impl Tally {
    pub(crate) fn note(&mut self, seen: Observation) {
        self.stats.note(&seen);
        if self.is_observed {
            self.tell(seen);
        }
    }

    /// Counts bytes that came.
    pub(crate) fn note_bytes_in(&mut self, count: usize) {
        self.stats.bytes_in += count as u64;
        if self.is_observed {
            self.tell(Observation::BytesIn(count));
        }
    }

    /// Counts bytes that go to the connection.
    pub(crate) fn note_bytes_out(&mut self, count: usize) {
        self.stats.bytes_out += count as u64;
        if self.is_observed {
            self.tell(Observation::BytesOut(count));
        }
    }

    /// Notes how a call ended by now.
    #[inline]
    pub(crate) fn note_call(&mut self, call: &AskedCall<'_>, ending: Ending<'_>, now: Duration) {
        let (kind, outcome, took) = call.came(ending, now);
        self.stats.note_answer(kind, outcome, took);
        if self.is_observed {
            self.tell(call.observed(ending, now));
        }
    }

    /// Keeps an observation for the observer.
    #[cold]
    fn tell(&mut self, seen: Observation) {
        self.seen.push(seen);
    }

    /// Whether the observer has something to get.
    pub(crate) fn has_seen(&self) -> bool {
        !self.seen.is_empty()
    }

    /// Takes the observations for the observer.
    pub(crate) fn take_seen(&mut self) -> Vec<Observation> {
        mem::take(&mut self.seen)
    }
}

#[cfg(test)]
mod tests {
    use super::{CallKind, CallOutcome, Histogram, Stats};
    use std::time::Duration;

    #[test]
    fn a_call_is_within_its_bound_and_all_above() {
        let mut times = Histogram::default();
        for micros in [1_000, 1_001, 11_000_000] {
            times.note(Duration::from_micros(micros));
        }
        let within: Vec<_> = times.within().map(|(_, within)| within).collect();
        assert_eq!(within, [1, 2, 2, 2, 2, 2, 2, 2, 2, 2, 2, 2, 2]);
        assert_eq!(
            (times.count(), times.sum()),
            (3, Duration::from_micros(11_002_001))
        );
    }

    #[test]
    fn a_page_has_the_lines_of_prometheus() {
        let mut stats = Stats::default();
        stats.note_answer(CallKind::Get, CallOutcome::Ok, Duration::from_millis(3));
        let page = stats.prometheus();
        for line in [
            "# TYPE dirwolleu_call_seconds histogram",
            "dirwolleu_connections_total 0",
            "dirwolleu_calls_total{kind=\"get\",outcome=\"ok\"} 1",
            "dirwolleu_call_seconds_bucket{kind=\"get\",le=\"0.002\"} 0",
            "dirwolleu_call_seconds_bucket{kind=\"get\",le=\"0.005\"} 1",
            "dirwolleu_call_seconds_bucket{kind=\"get\",le=\"+Inf\"} 1",
            "dirwolleu_call_seconds_sum{kind=\"get\"} 0.003000",
            "dirwolleu_followed{kind=\"tree\"} 0",
        ] {
            assert!(page.lines().any(|found| found == line), "{line}\n{page}");
        }
    }
}
