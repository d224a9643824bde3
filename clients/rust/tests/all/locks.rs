//! Locks and elections, at the server in memory. Without python3 each test says so and passes.

use crate::runtime::block_on;
use crate::server::Server;
use crate::{kind_of, millis, renewing, started, wait_until, PATIENCE, TIMEOUT};
use dirwolleu::{
    Code, Election, ErrorKind, Fault, Lock, LockNames, LockOptions, Mark, Mode, NoReply, Request,
    Session, SessionOptions, Sharing, ANY_VERSION,
};
use std::sync::atomic::{AtomicBool, Ordering};
use std::sync::{mpsc, Arc};
use std::thread;
use std::time::Duration;

/// How long a test makes sure that something does not happen.
const A_WHILE: Duration = Duration::from_millis(300);

fn session_at(server: &Server) -> Session {
    Session::open(server.address, TIMEOUT).unwrap()
}

/// How many places there are.
fn places(session: &Session) -> usize {
    session.children("/locks/a").unwrap().0.len()
}

fn exclusive(session: &Session) -> Lock<'_> {
    Lock::acquire(session, "/locks/a", Sharing::Exclusive, b"").unwrap()
}

#[test]
fn one_at_a_time_holds_a_lock_and_tokens_rise() {
    let Some(server) = started() else { return };
    let first = session_at(&server);
    let lock = exclusive(&first);
    let token = lock.token();
    assert!(lock.is_held() && lock.check(PATIENCE));
    wait_until("nothing is heard", || !lock.check(millis(20)));
    assert!(lock.is_held() && !lock.is_lost_within(Duration::ZERO));
    let second = session_at(&server);
    let (sender, held) = mpsc::channel();
    thread::scope(|scope| {
        scope.spawn(|| {
            let lock = exclusive(&second);
            sender.send(lock.token()).unwrap();
        });
        assert!(held.recv_timeout(A_WHILE).is_err(), "the lock is held");
        lock.release().unwrap();
        let next = held.recv_timeout(PATIENCE).unwrap();
        assert!(next > token, "{next} after {token}");
    });
    assert!(
        exclusive(&first).token() > token,
        "a lock that is dropped is let go"
    );
}

#[test]
fn a_limit_gives_the_place_up() {
    let Some(server) = started() else { return };
    let (first, second) = (session_at(&server), session_at(&server));
    let lock = exclusive(&first);
    let late = LockOptions::new().within(A_WHILE);
    let late = late.acquire(&second, "/locks/a").map(drop).unwrap_err();
    assert_eq!(late.kind(), &ErrorKind::LockTimeout);
    assert!(!late.may_have_happened());
    assert_eq!(late.to_string(), "the lock was not held in time: /locks/a");
    lock.release().unwrap();
    let next = LockOptions::new().within(PATIENCE);
    let next = next.acquire(&first, "/locks/a");
    next.unwrap().release().unwrap();
}

#[test]
fn one_that_only_tries_leaves_no_place() {
    let Some(server) = started() else { return };
    let (first, second) = (session_at(&server), session_at(&server));
    let tries = |session| LockOptions::new().try_acquire(session, "/locks/a").unwrap();
    let lock = tries(&first).unwrap();
    assert!(tries(&second).is_none());
    wait_until("it has no place", || places(&first) == 1);
    lock.release().unwrap();
    assert!(tries(&second).is_some());
}

#[test]
fn those_that_share_hold_together_and_wait_for_who_does_not() {
    let Some(server) = started() else { return };
    let session = session_at(&server);
    let shared = LockOptions::new().sharing(Sharing::Shared);
    let shared = |limit| shared.within(limit).acquire(&session, "/locks/a");
    let (one, other) = (shared(PATIENCE).unwrap(), shared(PATIENCE).unwrap());
    thread::scope(|scope| {
        let waits = scope.spawn(|| exclusive(&session));
        while session.children("/locks/a").unwrap().0.len() < 3 {
            thread::sleep(Duration::from_millis(5));
        }
        let late = shared(A_WHILE);
        let why = "an exclusive one is before it";
        assert_eq!(kind_of(late), ErrorKind::LockTimeout, "{why}");
        one.release().unwrap();
        other.release().unwrap();
        waits.join().unwrap().release().unwrap();
    });
    assert!(shared(PATIENCE).is_ok());
}

#[test]
fn a_lock_goes_with_its_session() {
    let Some(mut server) = started() else { return };
    let session = session_at(&server);
    let lock = exclusive(&session);
    server.tell("expire");
    assert!(lock.is_lost_within(PATIENCE) && !lock.check(PATIENCE));
    block_on(lock.lost());
    let over = LockOptions::new().acquire(&session, "/locks/a").map(drop);
    assert_eq!(kind_of(over), NoReply::SessionExpired.into());
    session.renew().unwrap();
    assert!(!lock.is_held());
    let again = exclusive(&session);
    assert!(again.token() > lock.token());
    assert_eq!((lock.release(), again.is_held()), (Ok(()), true));
}

#[test]
fn a_lock_goes_with_a_session_that_is_closed() {
    let Some(server) = started() else { return };
    let [first, second] = [(); 2].map(|()| session_at(&server).shared());
    let lock = exclusive(&first);
    let options = LockOptions::new();
    thread::scope(|scope| {
        let waits = scope.spawn(|| options.acquire(&second, "/locks/a").map(drop));
        wait_until("it waits", || places(&first) == 2);
        second.close().unwrap();
        let over = waits.join().unwrap();
        assert_eq!(kind_of(over), NoReply::SessionClosed.into());
    });
    first.close().unwrap();
    block_on(lock.lost());
    assert_eq!((lock.is_held(), lock.release()), (false, Ok(())));
}

/// An observer that panics each time ends its session, and nobody waits any longer.
#[test]
fn a_lock_goes_with_a_session_whose_thread_panics() {
    let Some(server) = started() else { return };
    let panics = Arc::new(AtomicBool::new(false));
    let is_time = Arc::clone(&panics);
    let options = SessionOptions::new(TIMEOUT).observe(move |_| {
        let is_own = thread::current().name() == Some("dirwolleu");
        assert!(
            !is_own || !is_time.load(Ordering::SeqCst),
            "as the test has it"
        );
    });
    let session = options.open(server.address).unwrap();
    let lock = exclusive(&session);
    panics.store(true, Ordering::SeqCst);
    let read = session.ask(Request::get("/locks/a"));
    block_on(lock.lost());
    assert!(!lock.is_held());
    assert_eq!(kind_of(lock.release()), Fault::Panicked.into());
    assert!(read.wait_for(PATIENCE).is_ok(), "the answer had come");
}

/// Of two that expire together, the one that waits goes on contending by itself, and the one that held no longer has a place.
#[test]
fn a_session_that_is_renewed_contends_anew() {
    let Some(mut server) = started() else { return };
    let (first, second) = (renewing(&server), renewing(&server));
    let lock = exclusive(&first);
    thread::scope(|scope| {
        let waits = scope.spawn(|| exclusive(&second));
        wait_until("it waits", || places(&first) == 2);
        server.tell("expire");
        let next = waits.join().unwrap();
        assert!(next.token() > lock.token() && !lock.is_held());
        wait_until("the other one has no place", || places(&second) == 1);
        assert_eq!((lock.release(), next.is_held()), (Ok(()), true));
    });
}

/// A holder whose place somebody deletes hears of it, and does not go on contending: nobody would hear that it holds again.
#[test]
fn a_lock_whose_place_is_taken_away_is_lost() {
    let Some(server) = started() else { return };
    let (first, second) = (session_at(&server), session_at(&server));
    let lock = exclusive(&first);
    second.delete(lock.place(), ANY_VERSION).unwrap();
    block_on(lock.lost());
    assert!(!lock.is_held());
    wait_until("no place is left", || places(&second) == 0);
    exclusive(&second).release().unwrap();
    lock.release().unwrap();
}

#[test]
fn a_lock_is_awaited() {
    let Some(server) = started() else { return };
    let (first, second) = (session_at(&server), session_at(&server));
    let contends = |session| LockOptions::new().contend(session, "/locks/a").unwrap();
    let lock = block_on(contends(&first)).unwrap();
    drop(contends(&second)); // it gives up
    let next = contends(&second);
    wait_until("it waits", || places(&first) == 2);
    let token = lock.token();
    lock.release().unwrap();
    assert!(block_on(next).unwrap().token() > token);
    let none = LockOptions::new().contend(&first, "locks").map(drop);
    let why = "locks is no path: no slash at its beginning";
    assert_eq!(none.unwrap_err().to_string(), why);
}

#[test]
fn a_place_that_is_taken_away_is_made_anew() {
    let Some(server) = started() else { return };
    let (first, second) = (session_at(&server), session_at(&server));
    let lock = exclusive(&first);
    let held = first.children("/locks/a").unwrap().0;
    let before = format!("/locks/a/{}", held[0]);
    thread::scope(|scope| {
        let waits = scope.spawn(|| exclusive(&second).release());
        while second.data_mark(&before) != Ok(Some(Mark::Good)) {
            thread::sleep(Duration::from_millis(5));
        }
        let mut names = first.children("/locks/a").unwrap().0;
        names.sort_by_key(|name| name[name.len() - 10..].to_owned());
        first
            .delete(&format!("/locks/a/{}", names[1]), ANY_VERSION)
            .unwrap();
        wait_until("it has another place", || places(&first) == 2);
        lock.release().unwrap();
        assert_eq!(waits.join().unwrap(), Ok(()));
    });
}

#[test]
fn one_leads_at_a_time() {
    let Some(server) = started() else { return };
    let (first, second) = (session_at(&server), session_at(&server));
    let (one, other) = (
        Election::new(&first, "/leader"),
        Election::new(&second, "/leader"),
    );
    assert_eq!(one.leader(), Ok(None));
    let office = block_on(one.contend(b"one").unwrap()).unwrap();
    thread::scope(|scope| {
        let waits = scope.spawn(|| other.lead(b"other"));
        while one.candidates().unwrap().len() < 2 {
            thread::sleep(Duration::from_millis(5));
        }
        assert_eq!(other.leader(), Ok(Some(b"one".to_vec())));
        office.release().unwrap();
        let office = waits.join().unwrap().unwrap();
        assert_eq!(one.candidates(), Ok(vec![b"other".to_vec()]));
        office.release().unwrap();
    });
}

#[test]
fn a_lock_below_an_ephemeral_node_is_refused() {
    let Some(server) = started() else { return };
    let session = session_at(&server);
    session.create("/mine", b"", Mode::Ephemeral).unwrap();
    let refused = Lock::acquire(&session, "/mine", Sharing::Exclusive, b"").map(drop);
    assert_eq!(kind_of(refused), Code::NO_CHILDREN_FOR_EPHEMERALS.into());
}

#[test]
fn a_node_that_is_no_place_counts_for_nothing() {
    let Some(server) = started() else { return };
    let session = session_at(&server);
    session.create("/locks", b"", Mode::Persistent).unwrap();
    session.create("/locks/a", b"", Mode::Persistent).unwrap();
    for name in ["note-", "locks-", "x"] {
        let path = format!("/locks/a/{name}");
        let made = session.create(&path, b"", Mode::PersistentSequential);
        made.unwrap();
    }
    for names in [LockNames::Kazoo, LockNames::Curator, LockNames::Latch] {
        let options = LockOptions::new().names(names).within(PATIENCE);
        let lock = options.acquire(&session, "/locks/a").unwrap();
        lock.release().unwrap();
    }
}

const MIXED: &str = "contenders by another kind of names are there: /locks/a; \
                     use one kind of names for all contenders";

/// Each kind of contender by each kind of names.
fn contenders() -> impl Iterator<Item = (LockNames, Sharing)> {
    let names = [LockNames::Kazoo, LockNames::Curator, LockNames::Latch];
    let kinds = [Sharing::Exclusive, Sharing::Writing, Sharing::Shared];
    let all = names.into_iter();
    all.flat_map(move |names| kinds.map(|sharing| (names, sharing)))
}

/// A latch is never shared, and a contender with other names gives up.
#[test]
fn those_of_one_path_never_hold_together() {
    let Some(server) = started() else { return };
    let (first, second) = (session_at(&server), session_at(&server));
    let can_share = |(names, sharing)| names != LockNames::Latch && sharing == Sharing::Shared;
    for (one, other) in contenders().flat_map(|one| contenders().map(move |other| (one, other))) {
        let is_shared = can_share(one) && can_share(other);
        let is_mixed = one.0 != other.0;
        let [held, next] = [one, other].map(|(names, sharing)| {
            let options = LockOptions::new().names(names).sharing(sharing);
            options.within(PATIENCE)
        });
        let held = held.acquire(&first, "/locks/a").unwrap();
        thread::scope(|scope| {
            let next = scope.spawn(|| next.acquire(&second, "/locks/a"));
            if is_mixed {
                let mixed = next.join().unwrap().map(drop).unwrap_err();
                assert_eq!(mixed.to_string(), MIXED);
                wait_until("it leaves no place", || places(&first) == 1);
                held.release().unwrap();
            } else if is_shared {
                next.join().unwrap().unwrap().release().unwrap();
                held.release().unwrap();
            } else {
                wait_until("it waits", || places(&first) == 2);
                assert!(!next.is_finished(), "{one:?} {other:?}");
                let token = held.token();
                held.release().unwrap();
                let next = next.join().unwrap().unwrap();
                assert!(next.token() > token);
                next.release().unwrap();
            }
        });
    }
}
