//! Registrations, at the server in memory. Without python3 each test says so and passes.

use crate::server::Server;
use crate::{started, wait_until, TIMEOUT};
use dirwolleu::{NoReply, Registration, Session, SharedSession};
use std::thread::sleep;
use std::time::Duration;

fn renewing(server: &Server) -> SharedSession {
    crate::renewing(server).shared()
}

/// The session that owns the node.
fn owner(session: &Session) -> Option<i64> {
    Some(session.exists("/host").ok()??.ephemeral_owner)
}

/// A registration whose node exists.
fn registered(session: &SharedSession) -> Registration {
    let registration = Registration::begin(session, "/host", b"one").unwrap();
    wait_until("it is registered", || registration.is_registered());
    registration
}

#[test]
fn a_node_is_there_until_the_registration_ends() {
    let Some(mut server) = started() else { return };
    let (session, other) = (renewing(&server), renewing(&server));
    let registration = registered(&session);
    assert_eq!(owner(&other), Some(session.id().unwrap()));
    server.tell("delete /host");
    wait_until("it is made again", || owner(&other).is_some());
    wait_until("it is registered again", || registration.is_registered());
    assert_eq!(registration.end(), Ok(()));
    assert_eq!(other.exists("/host"), Ok(None));
}

#[test]
fn a_node_is_made_again_by_the_next_session() {
    let Some(mut server) = started() else { return };
    let (session, other) = (renewing(&server), renewing(&server));
    let registration = registered(&session);
    let before = session.id().unwrap();
    server.tell("expire");
    wait_until("another session registers", || {
        owner(&other).is_some_and(|owner| owner != before)
    });
    drop(registration);
    wait_until("it is given up", || other.exists("/host") == Ok(None));
}

#[test]
fn a_registration_that_ends_at_once_leaves_no_node() {
    let Some(server) = started() else { return };
    let session = renewing(&server);
    for _ in 0..50 {
        let registration = Registration::begin(&session, "/host", b"one").unwrap();
        assert_eq!(registration.end(), Ok(()));
        assert_eq!(session.exists("/host"), Ok(None));
    }
}

#[test]
fn the_node_of_an_older_session_is_waited_for() {
    let Some(server) = started() else { return };
    let (first, second) = (renewing(&server), renewing(&server));
    let older = registered(&first);
    let newer = Registration::begin(&second, "/host", b"two").unwrap();
    sleep(Duration::from_millis(300));
    assert!(older.is_registered() && !newer.is_registered());
    assert_eq!(older.end(), Ok(()));
    wait_until("the newer one is registered", || newer.is_registered());
    assert_eq!(owner(&first), Some(second.id().unwrap()));
}

#[test]
fn a_session_that_is_over_ends_it() {
    let Some(mut server) = started() else { return };
    let session = Session::open(server.address, TIMEOUT).unwrap().shared();
    let registration = registered(&session);
    server.tell("expire");
    wait_until(
        "the session has expired",
        || matches!(session.exists("/host"), Err(error) if error.no_reply() == Some(NoReply::SessionExpired)),
    );
    assert!(!registration.is_registered());
    let ended = registration.end();
    assert!(
        ended.is_ok()
            || matches!(&ended, Err(error) if error.no_reply() == Some(NoReply::SessionExpired)),
        "{ended:?}"
    );
}
