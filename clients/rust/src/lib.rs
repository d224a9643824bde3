//! A client of [Apache ZooKeeper](https://zookeeper.apache.org) over a proved core: each answer that it keeps and marks
//! [`Good`](Mark::Good) is what the servers' history has at the greatest zxid seen, each watch is reported at most once, a reply goes to
//! the call that has waited longest, and once a session has expired or is closed nothing is kept. The core's header, `include/dirwolleu.h`,
//! has the premises.
//!
//! ```no_run
//! use dirwolleu::SessionOptions;
//! use std::time::Duration;
//!
//! # fn main() -> Result<(), Box<dyn std::error::Error>> {
//! let session = SessionOptions::new(Duration::from_secs(10)).renews(true).open("127.0.0.1:2181")?;
//! for node in session.follow("/config") {
//!     match node {
//!         Ok(node) => println!("{:?}", node.map(|node| node.data)), // none if there is no node
//!         Err(error) => eprintln!("{error}"),                       // it is read again
//!     }
//! }
//! # Ok(())
//! # }
//! ```
//!
//! There are three ways to use it:
//!
//! - [`Session`] is a session that a thread of its own keeps alive. Its calls wait for their answers, or return a [`Ticket`], which is also
//!   a future. [`SessionOptions`] has other ways to open one.
//! - [`LocalSession`] is the same without a thread, for a loop of your own.
//! - [`Machine`] is the core of both, without socket and clock, for an event loop: it decides about the whole session.
//!
//! **Proved** is the core: what each function of its header says. That includes which host is dialled and when, which calls wait, when they
//! are late, which are repeated after a lost connection, and when followed nodes are read. **Tested** is everything above it, in this
//! crate: connections, tickets, retries, chroots, the addresses of hosts, records that the core does not read, when a [`Tree`] is read and
//! shown, and [`Registration`]. A [`Lock`], a [`LocalLock`] and an [`Election`] are contenders of the core, whose header says at
//! `dw_session_held` what is proved of them. The core also says which nodes a [`TreeSnapshot`] and a [`Snapshot`] have, and that all of
//! them are of one moment.
//!
//! Transactions, ACLs, `sync` and other [operations](RawOperation) go through the core, which numbers, sends, answers and loses them like
//! any call, and reads none of their bytes: their spelling, and the reading of their answers, is tested. To the core, their changes are
//! those of another client, so answers that a transaction made stale are stale when its caller goes on. The zxid of each reply counts: a
//! server that is behind it does not admit the session.
//!
//! Enums that a later version may add to are `non_exhaustive`. [`State`], [`Mark`], [`Sharing`] and [`Watch`] are complete.
//!
//! The core takes its memory from `malloc`. Do not use a client in the forked child of a process with threads.
#![deny(missing_docs, unsafe_op_in_unsafe_fn, unsafe_code)]
#![warn(clippy::pedantic)]
// Dropping the value of a look-up does no harm, and an attribute at each would hide those that matter.
#![allow(clippy::must_use_candidate)]

mod acl;
mod action;
mod answer;
mod barrier;
mod buffer;
mod cache;
mod chroot;
mod connection;
mod contention;
mod counter;
mod credentials;
mod dispatch;
mod driver;
mod engine;
mod error;
mod events;
mod fault;
#[allow(unsafe_code)]
mod ffi;
mod follow;
mod hosts;
mod jute;
mod local_lock;
mod local_session;
mod lock;
mod machine;
mod moment;
mod multi_read;
mod node;
mod notify;
mod numbers;
mod options;
mod outbox;
mod output;
mod path_fault;
mod paths;
mod pending;
mod queue;
mod raw;
mod recording;
mod registration;
mod request;
mod retry;
mod sasl;
mod saved;
mod semaphore;
mod session;
mod session_methods;
mod shared;
mod snapshot;
mod standing;
mod stats;
mod subtree;
#[cfg(feature = "testing")]
#[allow(unsafe_code)]
pub mod testing;
mod ticket;
mod transaction;
mod tree;
mod tree_snapshot;
mod tree_view;
mod view;

pub use acl::{Acl, Id, Permissions};
pub use action::{Action, Actions, Refusal};
pub use barrier::Barrier;
pub use cache::{Children, DataAnswer, Kept, Mark};
pub use connection::{Connection, Dial, Incoming, Outgoing, Server, Tcp};
pub use contention::{Contention, Naming};
pub use counter::Counter;
pub use error::{Error, ErrorKind};
pub use events::{Event, Events};
pub use fault::{Code, Fault, NoReply, UnknownNumber};
pub use follow::{Follow, KeptNode};
pub use hosts::{Hosts, HostsFault};
pub use local_lock::LocalLock;
pub use local_session::LocalSession;
pub use lock::{Contending, Election, Lock, LockNames, LockOptions, Sharing};
pub use machine::{Limits, Machine, State};
pub use moment::{Clock, Moment};
pub use multi_read::{Read, ReadAnswer};
pub use node::{DataStat, Mode, Node, NodeEvent, Side, Stat, Watch, ANY_VERSION};
pub use options::{OpenError, SessionOptions};
pub use output::{Brought, Bytes, Cause, GivenUp, Names, Reply, Text};
pub use path_fault::PathFault;
pub use queue::Queue;
pub use raw::RawOperation;
pub use registration::Registration;
pub use request::Request;
pub use retry::Retry;
pub use sasl::LogIn;
pub use saved::SavedSession;
pub use semaphore::{Lease, Semaphore};
pub use session::{Session, SharedSession};
pub use snapshot::Snapshot;
pub use standing::{Contender, Markers, Standing};
pub use stats::{CallKind, CallOutcome, ConnectionEnd, Histogram, Observation, Stats};
pub use subtree::{Lacking, Subtree, SubtreeNode};
pub use ticket::Ticket;
pub use transaction::{Change, Operations, Transaction};
pub use tree::{LocalTree, Snapshots, Tree};
pub use tree_snapshot::{TreeChanges, TreeSnapshot};
pub use view::View;

/// Compiles the README's code as a test.
#[cfg(doctest)]
#[doc = include_str!("../README.md")]
struct Readme;
