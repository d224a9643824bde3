//! Locks, elections and leases of sessions without a thread, at the server in memory. Without python3 each test says so and passes.

use crate::server::Server;
use crate::{kind_of, millis, started, PATIENCE, TIMEOUT};
use dirwolleu::{
    Error, ErrorKind, Event, LocalLock, LocalSession, LockNames, LockOptions, NoReply, Semaphore,
    Session, SessionOptions, Sharing, ANY_VERSION,
};
use std::time::Instant;

const PATH: &str = "/locks/a";

fn local(server: &Server) -> LocalSession {
    LocalSession::open(server.address, TIMEOUT).unwrap()
}

fn contend(session: &mut LocalSession) -> LocalLock {
    session.contend(PATH, LockOptions::new()).unwrap()
}

/// Runs the loop of a session until this is so.
fn turn_until(session: &mut LocalSession, what: &str, is_so: impl Fn() -> bool) {
    let until = Instant::now() + PATIENCE;
    while !is_so() {
        assert!(Instant::now() < until, "{what}");
        session
            .next_event(Some(Instant::now() + millis(5)))
            .unwrap();
    }
}

/// The token, once the lock is held.
fn hold(session: &mut LocalSession, lock: &LocalLock) -> i64 {
    turn_until(session, "it is held", || lock.held() != Ok(None));
    lock.held().unwrap().unwrap()
}

/// Why it gave up. Each change comes with an event.
fn end(session: &mut LocalSession, lock: &LocalLock) -> Error {
    loop {
        if let Err(error) = lock.held() {
            return error;
        }
        let event = session.next_event(Some(Instant::now() + PATIENCE));
        event.unwrap().expect("it is told");
    }
}

fn session_at(server: &Server) -> Session {
    Session::open(server.address, TIMEOUT).unwrap()
}

/// How many places there are.
fn places(session: &mut LocalSession) -> usize {
    session.children(PATH).unwrap().0.len()
}

fn is_changed(event: &Event) -> bool {
    matches!(event, Event::LockChanged { path } if path == PATH)
}

#[test]
fn one_at_a_time_holds_a_lock_and_is_told_so() {
    let Some(server) = started() else { return };
    let (mut first, mut second) = (local(&server), local(&server));
    let lock = contend(&mut first);
    assert_eq!((lock.held(), lock.check(PATIENCE)), (Ok(None), false));
    assert_eq!((lock.path(), lock.place()), (PATH, None));
    let token = hold(&mut first, &lock);
    assert!(lock.check(PATIENCE) && !lock.is_behind());
    let stat = first.exists(&lock.place().unwrap()).unwrap().unwrap();
    assert_eq!(stat.czxid, token);
    let next = contend(&mut second);
    turn_until(&mut second, "it waits", || next.is_behind());
    assert_eq!((next.held(), next.check(PATIENCE)), (Ok(None), false));
    while second.next_event(Some(Instant::now())).unwrap().is_some() {}
    assert_eq!(lock.release(&mut first), Ok(()));
    while next.held() == Ok(None) {
        let until = Some(Instant::now() + PATIENCE);
        let event = second.next_event(until).unwrap().expect("it is told");
        assert!(is_changed(&event) || matches!(event, Event::Report { .. }));
    }
    assert!(next.held().unwrap() > Some(token) && !next.is_behind());
}

#[test]
fn one_that_is_given_up_leaves_no_place() {
    let Some(server) = started() else { return };
    let (mut first, mut second) = (local(&server), local(&server));
    let lock = contend(&mut first);
    let token = hold(&mut first, &lock);
    let waits = contend(&mut second);
    turn_until(&mut second, "it waits", || waits.is_behind());
    assert_eq!(waits.release(&mut second), Ok(()));
    assert_eq!(places(&mut first), 1);
    drop(lock);
    assert_eq!(places(&mut first), 0, "it is deleted before the call");
    drop(contend(&mut second)); // it has asked for a place, and does not know of one yet
    for _ in 0..2 {
        second.exists("/").unwrap(); // the first is answered after the place is created, and the second is asked after it is deleted
    }
    assert_eq!(places(&mut first), 0);
    let next = contend(&mut first);
    assert!(hold(&mut first, &next) > token);
}

/// It works beside those of sessions with a thread.
#[test]
fn one_whose_place_is_taken_away_is_lost() {
    let Some(server) = started() else { return };
    let mut session = local(&server);
    let other = session_at(&server);
    let lock = contend(&mut session);
    hold(&mut session, &lock);
    other.delete(&lock.place().unwrap(), ANY_VERSION).unwrap();
    let lost = end(&mut session, &lock);
    assert_eq!(
        lost.to_string(),
        "the lock is lost: /locks/a; contend again"
    );
    assert!(!lock.check(PATIENCE) && !lost.is_passing());
    let taken = || LockOptions::new().try_acquire(&other, PATH).unwrap();
    turn_until(&mut session, "another one holds it", || taken().is_some());
    assert_eq!(kind_of(lock.held()), ErrorKind::LockLost);
    assert_eq!(lock.release(&mut session), Ok(()));
}

/// Nobody relies on a token that never came: it goes on contending, with another place.
#[test]
fn a_place_that_is_taken_away_before_its_token_is_told_is_made_anew() {
    let Some(server) = started() else { return };
    let mut session = local(&server);
    let other = session_at(&server);
    let lock = contend(&mut session);
    turn_until(&mut session, "it has a place", || lock.place().is_some());
    let place = lock.place().unwrap();
    other.delete(&place, ANY_VERSION).unwrap();
    turn_until(&mut session, "it has another place", || {
        lock.place().is_some_and(|other| other != place)
    });
    hold(&mut session, &lock);
}

#[test]
fn a_cut_is_no_loss_and_is_seen_by_the_age() {
    let Some(mut server) = started() else { return };
    let mut session = local(&server);
    let lock = contend(&mut session);
    let token = hold(&mut session, &lock);
    server.tell("down");
    turn_until(&mut session, "nothing is heard", || !lock.check(millis(20)));
    assert_eq!((lock.held(), lock.check(PATIENCE)), (Ok(Some(token)), true));
    server.tell("up");
    turn_until(&mut session, "it is heard again", || lock.check(millis(20)));
    assert_eq!(lock.held(), Ok(Some(token)));
}

#[test]
fn one_that_is_dropped_without_a_connection_is_given_up_by_the_next() {
    let Some(mut server) = started() else { return };
    let mut session = local(&server);
    let lock = contend(&mut session);
    hold(&mut session, &lock);
    server.tell("drop");
    drop(lock);
    let other = session_at(&server);
    turn_until(&mut session, "it has no place", || {
        other.children(PATH).unwrap().0.is_empty()
    });
}

#[test]
fn a_lock_goes_with_its_session() {
    let Some(mut server) = started() else { return };
    let mut session = local(&server);
    let (lock, waits) = (contend(&mut session), contend(&mut session));
    hold(&mut session, &lock);
    server.tell("expire");
    end(&mut session, &lock);
    for lock in [&lock, &waits] {
        assert_eq!(kind_of(lock.held()), NoReply::SessionExpired.into());
    }
    let refused = session.contend(PATH, LockOptions::new()).map(drop);
    assert_eq!(kind_of(refused), NoReply::SessionExpired.into());
    session.renew().unwrap();
    assert_eq!(kind_of(lock.held()), ErrorKind::LockLost);
    assert_eq!(kind_of(waits.held()), ErrorKind::LockLost);
    let again = contend(&mut session);
    hold(&mut session, &again);
    assert_eq!(lock.release(&mut session), Ok(()));
    assert_eq!(session.close(), Ok(()));
    assert_eq!(kind_of(again.held()), NoReply::SessionClosed.into());
    assert!(!again.check(PATIENCE) && again.place().is_none());
}

/// Of two that expire together, the one that waits goes on contending by itself, and the one that held is lost.
#[test]
fn a_session_that_is_renewed_contends_anew() {
    let Some(mut server) = started() else { return };
    let options = SessionOptions::new(TIMEOUT).renews(true);
    let mut session = options.open_local(server.address).unwrap();
    let lock = contend(&mut session);
    let token = hold(&mut session, &lock);
    let waits = contend(&mut session);
    turn_until(&mut session, "it waits", || waits.is_behind());
    server.tell("expire");
    assert!(hold(&mut session, &waits) > token);
    assert_eq!(kind_of(lock.held()), ErrorKind::LockLost);
    let other = session_at(&server);
    turn_until(&mut session, "the other one has no place", || {
        other.children(PATH).unwrap().0.len() == 1
    });
}

#[test]
fn those_that_share_hold_together() {
    let Some(server) = started() else { return };
    let mut session = local(&server);
    let shared = LockOptions::new().sharing(Sharing::Shared);
    let [one, other] = [(); 2].map(|()| session.contend(PATH, shared).unwrap());
    assert_ne!(hold(&mut session, &one), hold(&mut session, &other));
    let alone = contend(&mut session);
    turn_until(&mut session, "it waits", || alone.is_behind());
    drop((one, other));
    hold(&mut session, &alone);
}

/// An error ends it, whether it is dropped or not.
#[test]
fn one_that_finds_names_of_another_kind_is_given_up() {
    let Some(server) = started() else { return };
    let mut session = local(&server);
    let lock = contend(&mut session);
    hold(&mut session, &lock);
    let options = LockOptions::new().names(LockNames::Curator);
    let mixed = session.contend(PATH, options).unwrap();
    let refused = end(&mut session, &mixed);
    assert_eq!(refused.kind(), &ErrorKind::MixedNames);
    assert_eq!(kind_of(mixed.held()), ErrorKind::LockLost);
    assert_eq!(places(&mut session), 1);
    let none = session.contend("locks", options).unwrap_err();
    assert_eq!(
        none.to_string(),
        "locks is no path: no slash at its beginning"
    );
}

#[test]
fn so_many_hold_a_lease_as_a_semaphore_says() {
    let Some(server) = started() else { return };
    let mut session = local(&server);
    let options = LockOptions::new().data(b"host-1");
    let mut lease = || session.contend_for_lease("/d/one", 2, options).unwrap();
    let (one, other, third) = (lease(), lease(), lease());
    hold(&mut session, &one);
    hold(&mut session, &other);
    turn_until(&mut session, "it waits", || third.is_behind());
    let threaded = session_at(&server);
    let late = Semaphore::new(&threaded, "/d/one", 2).acquire_within(b"", millis(50));
    assert_eq!(kind_of(late.map(drop)), ErrorKind::LockTimeout);
    drop(one);
    hold(&mut session, &third);
    let refused = session.contend_for_lease("/d/one", 3, options).map(drop);
    let number = 2;
    assert_eq!(kind_of(refused), ErrorKind::OtherNumber { number });
}

#[test]
fn candidates_are_told_in_their_order() {
    let Some(server) = started() else { return };
    let below = format!("{}/app", server.address);
    let mut session = LocalSession::open(below, TIMEOUT).unwrap();
    assert_eq!(session.candidates("/leader"), Ok(Vec::new()));
    let [first, second] = ["one", "other"].map(|name| {
        let options = LockOptions::new().data(name.as_bytes());
        session.contend("/leader", options).unwrap()
    });
    hold(&mut session, &first);
    turn_until(&mut session, "it waits", || second.is_behind());
    let names = ["one", "other"].map(|name| name.as_bytes().to_vec());
    assert_eq!(session.candidates("/leader"), Ok(names.to_vec()));
    assert!(first.place().unwrap().starts_with("/leader/"));
    first.release(&mut session).unwrap();
    assert_eq!(session.candidates("/leader"), Ok(names[1..].to_vec()));
}

#[test]
fn a_release_without_a_server_says_what_is_left() {
    let Some(mut server) = started() else { return };
    let mut session = LocalSession::open(server.address, millis(2_000)).unwrap();
    let lock = contend(&mut session);
    hold(&mut session, &lock);
    let place = lock.place();
    server.tell("down");
    let left = lock.release(&mut session).unwrap_err();
    assert_eq!(
        (left.kind(), left.path()),
        (&ErrorKind::TimedOut, place.as_deref())
    );
}
