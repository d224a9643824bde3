//! The tests of machines, of sessions and of servers in memory, as one program, which is built once. They mostly wait, so run them on many
//! threads.

#[cfg(dirwolleu_bench)]
#[path = "../../src/testing/bench.rs"]
mod bench;
#[path = "../example/mod.rs"]
mod example;
#[path = "../jute/mod.rs"]
mod jute;
#[path = "../memory/mod.rs"]
mod memory;
#[path = "../partner/mod.rs"]
mod partner;
#[path = "../runtime/mod.rs"]
mod runtime;
#[path = "../server/mod.rs"]
mod server;

use dirwolleu::{Error, ErrorKind, KeptNode, Session, SessionOptions};
use std::fmt::Debug;
use std::thread::sleep;
use std::time::{Duration, Instant};

/// The longest that a test waits for anything.
const PATIENCE: Duration = Duration::from_secs(120);

/// How late a program on a busy machine may act.
const SLACK: Duration = Duration::from_secs(15);

/// The default timeout of a session.
const TIMEOUT: Duration = Duration::from_secs(10);

fn millis(count: u64) -> Duration {
    Duration::from_millis(count)
}

/// The kind of error with which a call failed.
fn kind_of<T: Debug>(ending: Result<T, Error>) -> ErrorKind {
    ending.unwrap_err().kind().clone()
}

/// The server in memory, or none if there is no python3; the test then says so and passes.
fn started() -> Option<server::Server> {
    server::Server::start(&[])
}

fn wait_until(what: &str, is_so: impl Fn() -> bool) {
    let until = Instant::now() + PATIENCE;
    while !is_so() {
        assert!(Instant::now() < until, "{what}");
        sleep(Duration::from_millis(5));
    }
}

/// A session that is renewed when it has expired.
fn renewing(server: &server::Server) -> Session {
    let options = SessionOptions::new(TIMEOUT).renews(true);
    options.open(server.address).unwrap()
}

/// Makes the node `/a`, changes it while there is no connection, ends the session, and deletes the node. `next` is what the session shows next.
fn tells_each_change(server: &mut server::Server, mut next: impl FnMut() -> Option<String>) {
    assert_eq!(next(), None);
    server.tell("create /a one");
    assert_eq!(next().as_deref(), Some("one"));
    server.tell("down");
    server.tell("set /a two");
    server.tell("up");
    assert_eq!(next().as_deref(), Some("two"));
    server.tell("expire");
    assert_eq!(next().as_deref(), Some("two"));
    server.tell("delete /a");
    assert_eq!(next(), None);
}

fn text(node: Option<KeptNode>) -> Option<String> {
    node.map(|node| String::from_utf8(node.data.unwrap()).unwrap())
}

#[cfg(dirwolleu_bench)]
mod benches;
mod bytes;
mod credentials;
#[cfg(dirwolleu_bench)]
mod cuts;
mod limits;
mod local_locks;
mod lock_cuts;
mod locks;
mod logins;
mod machine;
mod machines;
mod messages;
mod observed;
mod outages;
mod polls;
mod raw;
mod recipes;
mod reconnects;
mod registrations;
mod sessions;
mod threads;
mod tree_reads;
mod trees;
mod writes;
