//! A session's counts and observations, at the server in memory. Without python3 each test says so and passes.

use crate::{started, wait_until, PATIENCE};
use dirwolleu::{
    CallKind, CallOutcome, ConnectionEnd, Observation, Request, Session, SessionOptions,
    SharedSession,
};
use std::mem;
use std::sync::{Arc, Mutex, OnceLock};
use std::time::Duration;

/// A timeout without a ping during a test.
const LONG: Duration = Duration::from_secs(600);

/// By the protocol a ConnectRequest has 49 bytes, its answer 40 if the server has no read-only mode; a request without a body 12, a path
/// and a watch 4 + 2 + 1 more; a header of a reply 20 bytes, a Stat 68, data 4 more than they have.
#[test]
fn bytes_and_calls_are_counted() {
    let Some(mut server) = started() else { return };
    server.tell("create /a one");
    let session = Session::open(server.address, LONG).unwrap();
    session.get("/a").unwrap();
    assert_eq!(session.exists("/b"), Ok(None));
    session.get("a").unwrap_err();
    let stats = session.stats();
    assert_eq!((stats.connections, stats.sessions_lost), (1, 0));
    assert_eq!(
        (stats.bytes_out, stats.bytes_in),
        (49 + 19 + 19, 40 + 20 + 7 + 68 + 20)
    );
    assert_eq!(stats.calls(CallKind::Get, CallOutcome::Ok), 1);
    assert_eq!(stats.calls(CallKind::Get, CallOutcome::NotAsked), 1);
    assert_eq!(stats.calls(CallKind::Exists, CallOutcome::Refused), 1);
    assert_eq!(stats.times(CallKind::Get).count(), 1);
    let page = stats.prometheus();
    for line in [
        "dirwolleu_bytes_total{direction=\"out\"} 87",
        "dirwolleu_call_seconds_count{kind=\"get\"} 1",
    ] {
        assert!(page.lines().any(|found| found == line), "{line}\n{page}");
    }
}

#[test]
fn ends_of_connections_and_what_is_kept_are_counted() {
    let Some(mut server) = started() else { return };
    server.tell("create /a one");
    server.tell("create /t two");
    server.tell("create /t/u three");
    let session = SessionOptions::new(LONG)
        .renews(true)
        .open(server.address)
        .unwrap();
    let mut node = session.follow("/a");
    assert!(node.next().unwrap().unwrap().is_some());
    let tree = session.tree("/t").unwrap();
    tree.wait_for(PATIENCE).unwrap();
    let stats = session.stats();
    assert_eq!((stats.nodes, stats.trees), (1, 1));
    assert_eq!(stats.kept_bytes, (2 + 3) + (2 + 3) + (4 + 5)); // each path and its data
    assert!(stats.age < Some(PATIENCE));
    server.tell("drop");
    wait_until("another connection", || session.stats().connections == 2);
    server.tell("expire");
    wait_until("another session", || {
        session.stats().connections == 4 || session.stats().sessions_lost == 1
    });
    wait_until("it is connected", || session.exists("/a").is_ok());
    let stats = session.stats();
    assert_eq!(stats.sessions_lost, 1);
    assert_eq!(stats.ends(ConnectionEnd::Expired), 1);
    assert_eq!(stats.ends(ConnectionEnd::Ended), 2);
    assert_eq!(stats.connections, 3);
}

/// An observation, except bytes.
fn shown(seen: &Observation) -> Option<String> {
    match seen {
        Observation::BytesIn(_) | Observation::BytesOut(_) => None,
        Observation::Connected { server, session } => {
            Some(format!("connected to {server} as {session}"))
        }
        Observation::ConnectionEnded(end) => Some(format!("{end:?}")),
        Observation::Answered {
            kind,
            path,
            outcome,
            code,
            ..
        } => {
            let path = path.as_deref().unwrap_or_default();
            Some(format!("{kind:?} of {path}: {outcome:?} {code:?}"))
        }
        other => Some(format!("{other:?}")),
    }
}

#[test]
fn an_observer_is_told_in_order_and_may_look() {
    let Some(server) = started() else { return };
    let told: Arc<Mutex<Vec<Observation>>> = Arc::default();
    let looked: Arc<OnceLock<SharedSession>> = Arc::default();
    let (heard, look) = (Arc::clone(&told), Arc::clone(&looked));
    let options = SessionOptions::new(LONG).observe(move |seen| {
        heard.lock().unwrap().push(seen.clone());
        let _ = look.get().map(|session| session.stats());
    });
    let session = options.open(server.address).unwrap().shared();
    looked.set(session.clone()).unwrap();
    let id = session.id().unwrap();
    session.set("/none", b"", 3).unwrap_err();
    session.call(Request::sync("/")).unwrap();
    session.close().unwrap();
    let told = mem::take(&mut *told.lock().unwrap());
    let told: Vec<_> = told.iter().filter_map(shown).collect();
    let connected = format!("connected to {} as {id}", server.address);
    let set = "Set of /none: Refused Some(Code(-101))";
    assert_eq!(told[..3], [&connected, set, "Sync of /: Ok None"]);
    let mut rest = told[3..].to_vec();
    rest.sort_unstable();
    assert_eq!(rest, ["Close of : Ok None", "Closed"]);
}

#[test]
fn attempts_that_fail_are_counted() {
    let session = SessionOptions::new(LONG)
        .open_lazily("127.0.0.1:1")
        .unwrap();
    wait_until("an attempt has failed", || {
        session.stats().attempts_failed > 0
    });
    assert_eq!(session.stats().connections, 0);
    assert_eq!(session.stats().age, None);
}
