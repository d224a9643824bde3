//! Sessions at a real server, whose address is in `DIRWOLLEU_SERVER`: `scripts/clients` starts one. Without it each test says `skipped`.

use dirwolleu::{
    Acl, Change, Code, Election, Error, ErrorKind, Event, LocalSession, Lock, LockOptions, Mode,
    Operations, Permissions, Read, ReadAnswer, Request, Session, SessionOptions, Sharing, State,
    ANY_VERSION,
};
use std::env;
use std::fmt::Debug;
use std::io::{BufRead, BufReader};
use std::process::{Command, Stdio};
use std::thread::{self, sleep};
use std::time::{Duration, Instant};

const TIMEOUT: Duration = Duration::from_secs(10);

/// How long a test waits for something.
const PATIENCE: Duration = Duration::from_secs(30);

/// Creates a chroot for the test. Returns the server's address with it.
fn place(name: &str) -> Option<String> {
    let Ok(server) = env::var("DIRWOLLEU_SERVER") else {
        println!("skipped: DIRWOLLEU_SERVER names no server");
        return None;
    };
    let place = format!("{server}/{name}");
    let session = Session::open(&place, TIMEOUT).unwrap();
    session.create("/", b"", Mode::Persistent).unwrap();
    Some(place)
}

#[test]
fn an_ephemeral_node_is_there_after_nine_seconds_of_work() {
    let Some(place) = place("work") else { return };
    let timeout = Duration::from_secs(4);
    let session = Session::open(&place, timeout).unwrap();
    let mut local = LocalSession::open(&place, timeout).unwrap();
    session.create("/mine", b"", Mode::Ephemeral).unwrap();
    local.create("/locals", b"", Mode::Ephemeral).unwrap();
    assert_eq!((session.timeout(), local.timeout()), (timeout, timeout));
    sleep(Duration::from_secs(9));
    assert_eq!(
        (session.state(), local.state()),
        (Some(State::Connected), None)
    );
    let other = Session::open(&place, TIMEOUT).unwrap();
    let stat = other.exists("/mine").unwrap().expect("the node is there");
    assert_eq!(stat.ephemeral_owner, session.id().unwrap());
    assert_eq!(other.exists("/locals"), Ok(None));
}

#[test]
fn a_tree_has_all_nodes_of_one_moment() {
    let Some(place) = place("tree") else { return };
    let options = SessionOptions::new(TIMEOUT).renews(true);
    let (session, writer) = (
        options.open(&place).unwrap(),
        Session::open(&place, TIMEOUT).unwrap(),
    );
    let tree = session.tree("/").unwrap();
    let mut snapshots = tree.snapshots();
    let mut next = || snapshots.next_within(PATIENCE).unwrap().unwrap();
    assert_eq!(next().len(), 1);
    let begin = writer.transaction().create("/a", b"0", Mode::Persistent);
    let begun = begin.create("/b", b"0", Mode::Persistent).commit();
    begun.unwrap();
    thread::scope(|scope| {
        scope.spawn(|| {
            for number in 1..=200 {
                let word = number.to_string();
                let both = writer.transaction().set("/a", word.as_bytes(), -1);
                both.set("/b", word.as_bytes(), -1).commit().unwrap();
            }
        });
        loop {
            let snapshot = next();
            let data = ["/a", "/b"].map(|path| snapshot.get(path).map(|node| node.data.clone()));
            assert_eq!(data[0], data[1], "{snapshot:?}");
            if data[0] == Some(Some(b"200".to_vec())) {
                break;
            }
        }
    });
    writer.create("/a/mine", b"", Mode::Ephemeral).unwrap();
    while next().get("/a/mine").is_none() {}
    writer.close().unwrap();
    while next().get("/a/mine").is_some() {}
    assert_eq!(tree.latest().unwrap().len(), 3);
}

/// The kind of a call's error.
fn kind_of<T: Debug>(ending: Result<T, Error>) -> ErrorKind {
    ending.unwrap_err().into_kind()
}

fn rolled_back(index: usize, code: Code, path: &str) -> ErrorKind {
    let path = String::from(path);
    ErrorKind::RolledBack { index, code, path }
}

#[test]
fn a_transaction_happens_as_a_whole_or_not_at_all() {
    let Some(place) = place("transaction") else {
        return;
    };
    let session = Session::open(&place, TIMEOUT).unwrap();
    session.create("/a", b"one", Mode::Persistent).unwrap();
    let transaction = session.transaction().check("/a", 0).set("/a", b"two", 0);
    let transaction = transaction.create("/b-", b"", Mode::PersistentSequential);
    let changes = transaction
        .create("/c", b"", Mode::Ephemeral)
        .delete("/c", 0)
        .commit()
        .unwrap();
    let [Change::Checked, Change::Set(stat), Change::Created(path), Change::Created(other), Change::Deleted] =
        &changes[..]
    else {
        panic!("{changes:?}");
    };
    assert_eq!((path.as_str(), other.as_str()), ("/b-0000000001", "/c"));
    assert_eq!(stat.version, 1);
    assert_eq!(session.get("/a").unwrap().data, Some(b"two".to_vec()));
    assert!(session.last_zxid() >= stat.mzxid);
    let refused = session.transaction().set("/a", b"three", 1);
    let refused = refused.check("/a", 7).delete("/a", 2);
    let of_check = rolled_back(1, Code::BAD_VERSION, "/a");
    assert_eq!(kind_of(refused.commit()), of_check);
    assert_eq!(session.get("/a").unwrap().stat.version, 1);
    assert_eq!(session.transaction().commit(), Ok(Vec::new()));
    let nowhere = session.transaction().delete("/nowhere", ANY_VERSION);
    let of_delete = rolled_back(0, Code::NO_NODE, "/nowhere");
    assert_eq!(kind_of(nowhere.commit()), of_delete);
}

#[test]
fn the_last_zxid_rises_to_that_of_a_transaction() {
    let Some(place) = place("zxid") else { return };
    let mut session = LocalSession::open(&place, TIMEOUT).unwrap();
    session.create("/a", b"", Mode::Persistent).unwrap();
    let operations = Operations::new().set("/a", b"x", ANY_VERSION);
    let changes = session.call(Request::transaction(operations)).unwrap();
    let [Change::Set(stat)] = changes[..] else {
        panic!("{changes:?}");
    };
    assert_eq!(session.last_zxid(), stat.mzxid);
}

#[test]
fn a_node_of_ones_own_is_read_with_credentials_alone() {
    let Some(place) = place("acls") else { return };
    let options = SessionOptions::new(TIMEOUT).auth("digest", b"ann:secret");
    let session = options.open(&place).unwrap();
    let mine = [Acl::creator(Permissions::ALL)];
    session
        .create_with_acls("/mine", b"one", Mode::Persistent, &mine)
        .unwrap();
    let (acls, stat) = session.acls("/mine").unwrap();
    assert_eq!(
        (acls[0].scheme.as_str(), acls[0].permissions),
        ("digest", Permissions::ALL)
    );
    let other = Session::open(&place, TIMEOUT).unwrap();
    assert_eq!(kind_of(other.get("/mine")), Code::NO_AUTH.into());
    other.add_auth("digest", b"ann:secret").unwrap();
    assert!(other.get("/mine").is_ok());
    let open = [acls[0].clone(), Acl::anyone(Permissions::READ)];
    let set = session.set_acls("/mine", &open, stat.aversion);
    assert_eq!(set.unwrap().aversion, 1);
    let late = session.set_acls("/mine", &open, stat.aversion);
    assert_eq!(kind_of(late), Code::BAD_VERSION.into());
    let stranger = Session::open(&place, TIMEOUT).unwrap();
    assert!(stranger.get("/mine").is_ok());
    let refused = stranger.set("/mine", b"two", ANY_VERSION);
    assert_eq!(kind_of(refused), Code::NO_AUTH.into());
    let nobody = [Acl::new(Permissions::ALL, "digest", "no hash")];
    let invalid = stranger.create_with_acls("/other", b"", Mode::Persistent, &nobody);
    assert_eq!(kind_of(invalid), Code::INVALID_ACL.into());
}

#[test]
fn nodes_are_made_that_go_by_themselves_or_have_a_number_for_their_name() {
    let Some(place) = place("kinds") else { return };
    let session = Session::open(&place, TIMEOUT).unwrap();
    let acls = [Acl::anyone(Permissions::ALL)];
    let mode = Mode::PersistentSequential;
    let made = session.create2("/a", b"one", Mode::Ephemeral, &acls);
    let (path, stat) = made.unwrap();
    assert_eq!((path.as_str(), stat.data_length), ("/a", 3));
    assert_eq!(stat.ephemeral_owner, session.id().unwrap());
    assert_eq!(stat.czxid, session.last_zxid());
    let made = session.create_container("/folder", b"", &acls).unwrap();
    assert_eq!(made, "/folder");
    let numbered = session.create_with_acls("/folder/", b"", mode, &acls);
    assert_eq!(numbered.as_deref(), Ok("/folder/0000000000"));
    let numbered = session.create2("/", b"", mode, &acls).unwrap();
    assert_eq!(numbered.0, "/0000000002");
    let changed = session.transaction().create("/folder/", b"", mode).commit();
    let made = Change::Created(String::from("/folder/0000000001"));
    assert_eq!(changed, Ok(vec![made]));
    let gone = session.create_with_acls("/none/a", b"", Mode::Persistent, &acls);
    assert_eq!(gone.unwrap_err().to_string(), "no node: /none");
}

#[test]
fn a_node_with_a_time_to_live_is_made() {
    let Some(place) = place("lives") else { return };
    let session = Session::open(&place, TIMEOUT).unwrap();
    let acls = [Acl::anyone(Permissions::ALL)];
    let make = |path, mode, ttl| session.create_with_ttl(path, b"", mode, ttl, &acls);
    let hour = Duration::from_secs(3_600);
    let made = make("/a", Mode::Persistent, hour);
    if made.as_ref().err().and_then(Error::code) == Some(Code::UNIMPLEMENTED) {
        println!("skipped: the server has no extendedTypesEnabled");
        return;
    }
    assert_eq!(made.as_deref(), Ok("/a"));
    let stat = session.exists("/a").unwrap().unwrap();
    assert_eq!(stat.ephemeral_owner, 0, "it goes with no session");
    let numbered = make("/", Mode::PersistentSequential, hour);
    assert_eq!(numbered.as_deref(), Ok("/0000000001"));
    for ttl in [
        Duration::ZERO,
        Duration::from_millis(1 << 40),
        Duration::MAX,
    ] {
        let refused = make("/b", Mode::Persistent, ttl).unwrap_err();
        assert_eq!(refused.code(), Some(Code::BAD_ARGUMENTS), "{ttl:?}");
    }
    assert!(make("/b", Mode::Persistent, Duration::from_millis((1 << 40) - 1)).is_ok());
}

#[test]
fn several_nodes_are_read_at_one_zxid() {
    let Some(place) = place("reads") else { return };
    let session = Session::open(&place, TIMEOUT).unwrap();
    session.create("/a", b"one", Mode::Persistent).unwrap();
    session.create("/a/b", b"", Mode::Persistent).unwrap();
    let reads = [
        Read::Data(String::from("/a")),
        Read::Children(String::from("/a")),
        Read::Children(String::from("/none")),
        Read::Data(String::from("/none")),
    ];
    let answers = session.multi_read(&reads).unwrap();
    let [Ok(ReadAnswer::Data(node)), Ok(names), Err(Code::NO_NODE), Err(Code::NO_NODE)] =
        &answers[..]
    else {
        panic!("{answers:?}");
    };
    assert_eq!(node, &session.get("/a").unwrap());
    assert_eq!(names, &ReadAnswer::Children(vec![String::from("b")]));
    assert_eq!(session.multi_read(&[]), Ok(Vec::new()));
}

#[test]
fn a_session_is_told_what_it_has_and_who_it_is() {
    let Some(place) = place("who") else { return };
    let options = SessionOptions::new(TIMEOUT).auth("digest", b"ann:secret");
    let session = options.open(&place).unwrap();
    let whole = Session::open(place.strip_suffix("/who").unwrap(), TIMEOUT).unwrap();
    whole.create("/whole", b"", Mode::Ephemeral).unwrap();
    session.create("/a", b"", Mode::Persistent).unwrap();
    for path in ["/a/b", "/a/c", "/ab", "/d"] {
        session.create(path, b"", Mode::Ephemeral).unwrap();
    }
    let below = |prefix| {
        let mut paths = session.ephemerals(prefix).unwrap();
        paths.sort();
        paths
    };
    assert_eq!(below("/"), ["/a/b", "/a/c", "/ab", "/d"]);
    assert_eq!(below("/a"), ["/a/b", "/a/c", "/ab"]);
    assert_eq!(below("/none"), [""; 0]);
    assert_eq!(session.all_children_number("/"), Ok(5));
    assert_eq!(session.all_children_number("/a"), Ok(2));
    let gone = session.all_children_number("/none").unwrap_err();
    assert_eq!(gone.code(), Some(Code::NO_NODE));
    let ids = session.who_am_i().unwrap();
    let ids: Vec<_> = ids.iter().map(ToString::to_string).collect();
    assert!(ids.contains(&String::from("ip:127.0.0.1")), "{ids:?}");
    assert!(ids.contains(&String::from("digest:ann")), "{ids:?}");
}

#[test]
fn a_scheme_that_is_not_there_is_refused() {
    let Some(place) = place("schemes") else {
        return;
    };
    let session = Session::open(&place, TIMEOUT).unwrap();
    session.create("/mine", b"", Mode::Ephemeral).unwrap();
    let refused = session.add_auth("nobody", b"knows");
    assert_eq!(kind_of(refused), Code::AUTH_FAILED.into());
    assert_eq!(kind_of(session.exists("/mine")), Code::AUTH_FAILED.into());
    assert_eq!(session.state(), Some(State::Closed));
    session.renew().unwrap();
    assert!(session.call(Request::exists("/").within(PATIENCE)).is_ok());
    let barred = SessionOptions::new(TIMEOUT)
        .auth("nobody", b"knows")
        .open_lazily(&place)
        .unwrap();
    let until = Some(Instant::now() + PATIENCE);
    while barred.next_event(until).unwrap() != Some(Event::CredentialsRefused) {}
    assert_eq!(kind_of(barred.get("/")), Code::AUTH_FAILED.into());
}

#[test]
fn a_lock_is_held_by_one_at_a_time() {
    let Some(place) = place("locks") else { return };
    let (first, second) = (
        Session::open(&place, TIMEOUT).unwrap(),
        Session::open(&place, TIMEOUT).unwrap(),
    );
    let lock = Lock::acquire(&first, "/lock/a", Sharing::Exclusive, b"first").unwrap();
    assert!(lock.is_held() && lock.check(TIMEOUT));
    let limit = Duration::from_millis(300);
    let late = LockOptions::new().sharing(Sharing::Shared).within(limit);
    let late = late.acquire(&second, "/lock/a");
    assert_eq!(kind_of(late.map(drop)), ErrorKind::LockTimeout);
    let token = lock.token();
    thread::scope(|scope| {
        let waits =
            scope.spawn(|| Lock::acquire(&second, "/lock/a", Sharing::Exclusive, b"second"));
        sleep(limit);
        lock.release().unwrap();
        let next = waits.join().unwrap().unwrap();
        assert!(next.token() > token);
        assert_eq!(
            Election::new(&first, "/lock/a").leader(),
            Ok(Some(b"second".to_vec()))
        );
    });
}

/// kazoo's own locks at the same node.
const KAZOO: &str = "
import sys
from kazoo.client import KazooClient

client = KazooClient(sys.argv[1])
client.start()
lock = client.Lock('/lock/b', 'kazoo')
lock.acquire()
print('held', flush=True)
sys.stdin.readline()
lock.release()
print('released', flush=True)
client.stop()
";

#[test]
fn a_lock_goes_with_those_of_kazoo() {
    let Some(place) = place("kazoo") else { return };
    let session = Session::open(&place, TIMEOUT).unwrap();
    let mut command = Command::new("/usr/bin/python3");
    command
        .args(["-c", KAZOO, &place])
        .stdin(Stdio::piped())
        .stdout(Stdio::piped());
    let mut kazoo = command.spawn().unwrap();
    let mut lines = BufReader::new(kazoo.stdout.take().unwrap()).lines();
    if lines.next().is_none() {
        println!("skipped: there is no kazoo");
        kazoo.wait().unwrap();
        return;
    }
    let limit = Duration::from_millis(300);
    let late = LockOptions::new().within(limit);
    let late = late.acquire(&session, "/lock/b");
    assert_eq!(
        late.map(drop).map_err(Error::into_kind),
        Err(ErrorKind::LockTimeout),
        "kazoo has it"
    );
    thread::scope(|scope| {
        let waits = scope.spawn(|| Lock::acquire(&session, "/lock/b", Sharing::Exclusive, b""));
        drop(kazoo.stdin.take()); // and kazoo releases it
        assert!(waits.join().unwrap().is_ok());
    });
    kazoo.wait().unwrap();
}

#[test]
fn a_sync_is_answered_in_order() {
    let Some(place) = place("sync") else { return };
    let session = Session::open(&place, TIMEOUT).unwrap();
    session.create("/a", b"", Mode::Persistent).unwrap();
    let tickets: Vec<_> = (0..100)
        .map(|_| {
            (
                session.ask(Request::set("/a", b"x", ANY_VERSION)),
                session.ask(Request::sync("/a")),
            )
        })
        .collect();
    for (number, (set, sync)) in (1..).zip(tickets) {
        assert_eq!(set.wait_for(PATIENCE).map(|stat| stat.version), Ok(number));
        assert_eq!(sync.wait_for(PATIENCE), Ok(()));
    }
    assert_eq!(session.sync("/nowhere"), Ok(()));
}
