//! Paths, counters, queues, barriers and semaphores, at the server in memory. Without python3 each test says so and passes.

use crate::runtime::block_on;
use crate::server::Server;
use crate::{kind_of, renewing, started, wait_until, PATIENCE, TIMEOUT};
use dirwolleu::{
    Barrier, Code, Counter, ErrorKind, LocalSession, Mode, Queue, Semaphore, Session, ANY_VERSION,
};
use std::sync::Mutex;
use std::thread::{scope, sleep};
use std::time::{Duration, Instant};

/// How often the connection ends at another place, and after how many bytes each time.
const PLACES: std::ops::Range<usize> = 0..14;

/// Makes the connection end after some of the bytes that the server sends, or that it hears.
fn cut(server: &mut Server, place: usize, step: usize) {
    let side = ["sent", "heard"][place % 2];
    server.tell(&format!("cut {side} {}", 1 + place * step));
}

/// Stops cutting.
fn spare(session: &Session, server: &mut Server) {
    server.tell("cut sent 1"); // so there is one to be spared, and it is told so
    let _ = session.exists("/");
    let _ = session.exists("/");
    assert_eq!(session.exists("/").map(|stat| stat.is_some()), Ok(true));
}

#[test]
fn a_path_is_made_with_all_above_it() {
    let Some(server) = started() else { return };
    let session = renewing(&server);
    for path in ["/a/b/c", "/a/b/d", "/a/b/d", "/"] {
        assert_eq!(session.ensure_path(path), Ok(()));
        assert!(session.exists(path).unwrap().is_some());
    }
    let below = Session::open(format!("{}/app", server.address).as_str(), TIMEOUT).unwrap();
    assert_eq!(below.ensure_path("/x"), Ok(())); // with the chroot, which did not exist
    assert!(session.exists("/app/x").unwrap().is_some());
    session.create("/mine", b"", Mode::Ephemeral).unwrap();
    let refused = session.ensure_path("/mine/x").unwrap_err();
    let why = "an ephemeral node has no children: /mine";
    assert_eq!(refused.to_string(), why);
    let refused = session.ensure_path("/a//b").unwrap_err();
    assert_eq!(refused.to_string(), "/a//b is no path: an empty name");
    let mut local = LocalSession::open(server.address, TIMEOUT).unwrap();
    assert_eq!(local.ensure_path("/l/m"), Ok(()));
    assert_eq!(local.delete_recursive("/l"), Ok(2));
}

#[test]
fn a_tree_is_deleted_from_below() {
    let Some(server) = started() else { return };
    let session = renewing(&server);
    for path in ["/a/b/c", "/a/b/d", "/a/e"] {
        session.ensure_path(path).unwrap();
    }
    assert_eq!(session.delete_recursive("/a"), Ok(5));
    assert_eq!(session.exists("/a"), Ok(None));
    assert_eq!(session.delete_recursive("/a"), Ok(0));
}

#[test]
fn paths_are_made_and_deleted_wherever_connections_end() {
    let Some(mut server) = started() else { return };
    let session = renewing(&server);
    for place in PLACES {
        cut(&mut server, place, 17);
        assert_eq!(session.ensure_path("/a/b/c"), Ok(()), "{place}");
        assert!(session.exists("/a/b/c").unwrap().is_some());
        session.delete_recursive("/a").unwrap();
        assert_eq!(session.exists("/a"), Ok(None));
        spare(&session, &mut server);
    }
}

#[test]
fn a_counter_counts_what_all_add() {
    let Some(mut server) = started() else { return };
    let (session, other) = (renewing(&server), renewing(&server));
    let counter = Counter::new(&session, "/jobs/count");
    assert_eq!(counter.get(), Ok(0));
    assert_eq!(counter.add(5), Ok(5));
    assert_eq!(counter.change(|number| number * -3), Ok(-15));
    scope(|scope| {
        for session in [&session, &other] {
            scope.spawn(|| {
                let counter = Counter::new(session, "/jobs/count");
                for _ in 0..50 {
                    counter.add(1).unwrap();
                }
            });
        }
    });
    assert_eq!(counter.get(), Ok(85));
    server.tell("set /jobs/count many");
    assert_eq!(kind_of(counter.add(1)), ErrorKind::NotNumber);
    server.tell(&format!("set /jobs/count {}", i64::MAX));
    assert_eq!(kind_of(counter.add(1)), ErrorKind::NotNumber);
    assert_eq!(counter.get(), Ok(i64::MAX));
}

#[test]
fn a_change_of_a_counter_happens_once_or_may_have_happened() {
    let Some(mut server) = started() else { return };
    let session = renewing(&server);
    let counter = Counter::new(&session, "/count");
    let mut before = counter.get().unwrap();
    for place in PLACES {
        cut(&mut server, place, 9);
        let added = counter.add(1);
        let is_unsure = matches!(&added, Err(error) if error.may_have_happened());
        spare(&session, &mut server);
        let after = counter.get().unwrap();
        match added {
            Ok(sum) => assert_eq!((sum, after), (before + 1, before + 1)),
            Err(_) => assert!(is_unsure && after - before <= 1),
        }
        before = after;
    }
}

#[test]
fn a_queue_gives_each_entry_to_one() {
    let Some(mut server) = started() else { return };
    let (session, other) = (renewing(&server), renewing(&server));
    let queue = Queue::new(&session, "/queue");
    assert_eq!(queue.take_within(Duration::ZERO), Ok(None));
    for (data, priority) in [("c", 100), ("d", 2000), ("a", 5), ("b", 100)] {
        queue.put_with_priority(data.as_bytes(), priority).unwrap();
    }
    server.tell("create /queue/entry-050-0000000009 kazoo"); // as kazoo names them
    server.tell("create /queue/note none");
    assert_eq!(queue.len(), Ok(5));
    for data in ["a", "kazoo", "c", "b", "d"] {
        assert_eq!(queue.take(), Ok(Some(data.into())));
    }
    assert_eq!(queue.is_empty(), Ok(true));
    let taken = Mutex::new(Vec::new());
    let until = Instant::now() + PATIENCE;
    scope(|scope| {
        for session in [&session, &other] {
            let taken = &taken;
            scope.spawn(move || {
                let queue = Queue::new(session, "/queue");
                while taken.lock().unwrap().len() < 40 && Instant::now() < until {
                    let entry = queue.take_within(Duration::from_millis(50)).unwrap();
                    taken.lock().unwrap().extend(entry);
                }
            });
        }
        (0..40).for_each(|number| drop(queue.put(&[number]).unwrap()));
    });
    let mut taken = taken.into_inner().unwrap();
    taken.sort_unstable();
    let all: Vec<_> = (0..40).map(|number| vec![number]).collect();
    assert_eq!(taken, all);
    assert_eq!(queue.is_empty(), Ok(true));
}

#[test]
fn an_entry_is_put_once_wherever_connections_end() {
    let Some(mut server) = started() else { return };
    let session = renewing(&server);
    let queue = Queue::new(&session, "/queue");
    queue.put(b"first").unwrap();
    for place in PLACES {
        cut(&mut server, place, 13);
        queue.put(b"one").unwrap();
        spare(&session, &mut server);
        assert_eq!(queue.len(), Ok(place + 2));
    }
}

#[test]
fn a_barrier_holds_back_until_it_is_removed() {
    let Some(mut server) = started() else { return };
    let (session, other) = (renewing(&server), renewing(&server));
    let (barrier, same) = (
        Barrier::new(&session, "/step/one"),
        Barrier::new(&other, "/step/one"),
    );
    assert_eq!(barrier.wait(), Ok(()));
    assert_eq!(barrier.put_up(), Ok(()));
    assert_eq!(barrier.put_up(), Ok(()));
    assert_eq!(same.wait_within(Duration::from_millis(50)), Ok(false));
    scope(|scope| {
        let waiting = scope.spawn(|| same.wait_within(PATIENCE));
        server.tell("drop");
        sleep(Duration::from_millis(20));
        server.tell("expire"); // both are lived through
        sleep(Duration::from_millis(20));
        assert!(!waiting.is_finished());
        while barrier.remove() != Ok(true) {}
        assert_eq!(waiting.join().unwrap(), Ok(true));
    });
    assert_eq!(barrier.remove(), Ok(false));
}

/// How many leases of the semaphore are held or waited for.
fn leases(session: &Session) -> usize {
    session.children("/s/two").unwrap().0.len()
}

#[test]
fn so_many_hold_a_semaphore_as_it_says() {
    let Some(mut server) = started() else { return };
    let (session, other) = (renewing(&server), renewing(&server));
    let semaphore = Semaphore::new(&session, "/s/two", 2);
    let same = Semaphore::new(&other, "/s/two", 2);
    let first = semaphore.acquire(b"one").unwrap();
    let second = same.acquire(b"two").unwrap();
    assert!(first.token() < second.token());
    let late = same.acquire_within(b"three", Duration::from_millis(100));
    assert_eq!(kind_of(late), ErrorKind::LockTimeout);
    wait_until("no place of it is left", || leases(&session) == 2);
    scope(|scope| {
        let third = scope.spawn(|| same.acquire_within(b"three", PATIENCE));
        wait_until("it waits", || leases(&session) == 3);
        assert!(!third.is_finished());
        assert_eq!(first.release(), Ok(()));
        assert!(third.join().unwrap().unwrap().check(PATIENCE));
    });
    let other_number = Semaphore::new(&session, "/s/two", 3).acquire(b"");
    let why = "the node says that it has 2 leases: /s/two; take the same number everywhere";
    assert_eq!(other_number.unwrap_err().to_string(), why);
    server.tell("expire");
    block_on(second.lost());
    assert!(!second.is_held() && !second.check(PATIENCE));
    drop(block_on(same.contend(b"two").unwrap()).unwrap());
    wait_until("no lease is left", || leases(&session) == 0);
    server.tell("create /s/two/leases -");
    server.tell("create /s/kazoo 2");
    let kazoos = Semaphore::new(&session, "/s/kazoo", 2);
    for mixed in [semaphore, kazoos] {
        assert_eq!(kind_of(mixed.acquire(b"")), ErrorKind::MixedNames);
    }
}

#[test]
fn no_lease_is_left_wherever_connections_end() {
    let Some(mut server) = started() else { return };
    let (session, other) = (renewing(&server), renewing(&server));
    for place in PLACES {
        cut(&mut server, place, 83);
        let semaphore = Semaphore::new(&session, "/s/one", 1);
        let lease = semaphore.acquire(b"one").unwrap();
        assert!(other.children("/s/one").unwrap().0.len() == 1, "{place}");
        assert_eq!(lease.release(), Ok(()));
        spare(&session, &mut server);
        wait_until("nothing is left", || {
            other.children("/s/one").unwrap().0.is_empty()
        });
    }
    let full = session.delete("/s", ANY_VERSION);
    assert_eq!(kind_of(full), Code::NOT_EMPTY.into());
}
