//! `dirwolleu::testing`: how a program's own tests can use the server in memory.

use dirwolleu::testing::Server;
use dirwolleu::{
    Acl, Code, Error, Lock, Mark, Mode, PathFault, Permissions, Request, Session, SessionOptions,
    Sharing, ANY_VERSION,
};
use std::io::{ErrorKind, Read};
use std::net::TcpStream;
use std::process;
use std::thread;
use std::time::{Duration, Instant};

/// Long, so that even a busy machine ends no session's connection.
const TIMEOUT: Duration = Duration::from_secs(60);

/// How long a test waits for something.
const PATIENCE: Duration = Duration::from_secs(120);

fn session_at(server: &Server) -> Session {
    let options = SessionOptions::new(TIMEOUT).renews(true);
    options.open(&*server.hosts()).unwrap()
}

/// Waits until this is so.
fn until(what: &str, is_so: impl Fn() -> bool) {
    let last = Instant::now() + PATIENCE;
    while !is_so() {
        assert!(Instant::now() < last, "not in time: {what}");
        thread::sleep(Duration::from_millis(5));
    }
}

/// The data of a node. A call that was lost is made again.
fn data(session: &Session, path: &str) -> Vec<u8> {
    let last = Instant::now() + PATIENCE;
    loop {
        match session.get(path) {
            Ok(node) => return node.data.unwrap_or_default(),
            Err(error) => assert!(Instant::now() < last, "{error}"),
        }
    }
}

/// The data of a node, by one call.
fn now(session: &Session, path: &str) -> Vec<u8> {
    session.get(path).unwrap().data.unwrap_or_default()
}

fn code<T: std::fmt::Debug>(answer: Result<T, Error>) -> Option<Code> {
    answer.unwrap_err().code()
}

#[test]
fn a_follower_sees_what_another_client_does() {
    let server = Server::start().unwrap();
    let session = session_at(&server);
    let mut seen = session.follow("/config");
    let mut next = || seen.next().unwrap().unwrap().and_then(|node| node.data);
    assert_eq!(next(), None);
    assert_eq!(server.create("/config", b"one").unwrap(), 1);
    assert_eq!(next().as_deref(), Some(&b"one"[..]));
    assert_eq!(server.set("/config", b"two").unwrap(), server.zxid());
    assert_eq!(next().as_deref(), Some(&b"two"[..]));
    assert_eq!(server.delete("/config").unwrap(), 3);
    assert_eq!(next(), None);
}

#[test]
fn what_the_tree_does_not_admit_says_why() {
    let server = Server::start().unwrap();
    let session = session_at(&server);
    session.create("/e", b"", Mode::Ephemeral).unwrap();
    server.create("/a", b"").unwrap();
    server.create("/a/b", b"").unwrap();
    assert_eq!(code(server.create("/a", b"")), Some(Code::NODE_EXISTS));
    assert_eq!(code(server.set("/b", b"")), Some(Code::NO_NODE));
    assert_eq!(code(server.delete("/a")), Some(Code::NOT_EMPTY));
    let refused = server.create("/e/c", b"").unwrap_err();
    assert_eq!(refused.code(), Some(Code::NO_CHILDREN_FOR_EPHEMERALS));
    assert_eq!(refused.path(), Some("/e"));
    let refused = server.create("/b/c", b"").unwrap_err();
    assert_eq!(refused.to_string(), "no node: /b");
    let refused = server.create("a", b"").unwrap_err();
    assert!(refused
        .to_string()
        .contains(&PathFault::NoSlashFirst.to_string()));
}

#[test]
fn a_node_is_longer_than_servers_take_by_default() {
    let server = Server::start().unwrap();
    let options = SessionOptions::new(TIMEOUT).longest_request(4 << 20);
    let session = options.open(&*server.hosts()).unwrap();
    let long = vec![7; 3 << 20];
    session.create("/long", &long, Mode::Persistent).unwrap();
    assert_eq!(now(&session, "/long"), long);
}

#[test]
fn one_session_expires_and_the_others_stay() {
    let server = Server::start().unwrap();
    let (one, other) = (session_at(&server), session_at(&server));
    one.create("/one", b"", Mode::Ephemeral).unwrap();
    other.create("/other", b"", Mode::Ephemeral).unwrap();
    let number = one.id().unwrap();
    assert_eq!(server.sessions().len(), 2);
    server.expire(number).unwrap();
    assert_eq!(other.children("/").unwrap().0, ["other"]);
    assert_eq!(code(server.expire(number)), Some(Code::SESSION_EXPIRED));
    until("the next session", || server.sessions().len() == 2);
    until("its number", || one.id().unwrap() != number);
    server.expire(None).unwrap();
    until("no node is left", || other.exists("/other") == Ok(None));
}

#[test]
fn connections_are_dropped_and_sessions_stay() {
    let server = Server::start().unwrap();
    let (one, other) = (session_at(&server), session_at(&server));
    one.create("/one", b"", Mode::Ephemeral).unwrap();
    other.exists("/one").unwrap();
    let (number, before) = (one.id().unwrap(), server.connections());
    server.drop_connection(number).unwrap();
    until("one comes again", || server.connections() == before + 1);
    server.drop_connection(None).unwrap();
    until("both come again", || server.connections() == before + 3);
    assert_eq!(data(&one, "/one"), b"");
    assert_eq!(one.id().unwrap(), number);
}

#[test]
fn a_server_lags_for_reads_alone() {
    let server = Server::start().unwrap();
    server.create("/a", b"one").unwrap();
    let (slow, other) = (session_at(&server), session_at(&server));
    slow.watch("/a").unwrap();
    {
        let _lag = server.lag(slow.id().unwrap()).unwrap();
        other.set("/a", b"two", ANY_VERSION).unwrap();
        assert_eq!(now(&slow, "/a"), b"one");
        assert_eq!(slow.data_mark("/a"), Ok(Some(Mark::Good)));
        slow.sync("/a").unwrap();
        assert_eq!(slow.data_mark("/a"), Ok(Some(Mark::Stale)));
        assert_eq!(now(&slow, "/a"), b"two");
        server.set("/a", b"three").unwrap();
        assert_eq!(now(&slow, "/a"), b"two");
        slow.create("/c", b"", Mode::Persistent).unwrap();
        assert_eq!(now(&slow, "/a"), b"three");
        slow.watch("/a").unwrap();
        server.set("/a", b"four").unwrap();
        assert_eq!(now(&slow, "/a"), b"three");
    }
    until("it is told", || {
        slow.data_mark("/a") == Ok(Some(Mark::Stale))
    });
    assert_eq!(now(&slow, "/a"), b"four");
}

#[test]
fn a_server_stops_and_comes_again() {
    let server = Server::start().unwrap();
    let session = session_at(&server);
    session.create("/e", b"mine", Mode::Ephemeral).unwrap();
    let number = session.id().unwrap();
    server.stop();
    server.set("/e", b"meanwhile").unwrap();
    let mut refused = TcpStream::connect(server.hosts()).unwrap();
    let heard = refused.read(&mut [0; 8]);
    assert!(heard
        .as_ref()
        .map_or_else(|it| it.kind() == ErrorKind::ConnectionReset, |it| *it == 0));
    server.restart();
    assert_eq!(data(&session, "/e"), b"meanwhile");
    server.restart();
    assert_eq!(data(&session, "/e"), b"meanwhile");
    assert_eq!(session.id().unwrap(), number);
}

#[test]
fn what_the_model_has_not_is_answered() {
    let server = Server::start().unwrap();
    let session = session_at(&server);
    server.create("/a", b"x").unwrap();
    let part = session.transaction().create("/b", b"y", Mode::Persistent);
    let refused = part.delete("/a", ANY_VERSION).check("/none", 0).commit();
    let refused = refused.unwrap_err();
    let reason = "operation 2 was refused, and nothing has happened: no node: /none";
    assert_eq!(refused.to_string(), reason);
    assert_eq!(session.exists("/b"), Ok(None));
    session.watch("/a").unwrap();
    let part = session.transaction().create("/b", b"y", Mode::Ephemeral);
    part.check("/b", 0)
        .set("/b", b"z", 0)
        .delete("/a", 0)
        .commit()
        .unwrap();
    assert_eq!(session.data_mark("/a"), Ok(Some(Mark::Stale)));
    assert_eq!(now(&session, "/b"), b"z");
    let anyone = [Acl::anyone(Permissions::ALL)];
    assert_eq!(session.acls("/b").unwrap().0, anyone);
    let mine = [Acl::creator(Permissions::READ)];
    session.add_auth("digest", b"bob:secret").unwrap();
    assert_eq!(session.set_acls("/b", &mine, 0).unwrap().aversion, 1);
    let late = session.set_acls("/b", &mine, 0);
    assert_eq!(code(late), Some(Code::BAD_VERSION));
    assert_eq!(session.acls("/b").unwrap().0, mine);
    session.sync("/b").unwrap();
    let made = session.create_with_acls("/c", b"", Mode::Persistent, &mine);
    made.unwrap();
    assert_eq!(session.acls("/c").unwrap().0, mine);
    server.expire(session.id().unwrap()).unwrap();
    until("the ephemeral node of the transaction goes", || {
        session.exists("/b") == Ok(None)
    });
}

#[test]
fn a_lock_goes_to_the_next_session() {
    let server = Server::start().unwrap();
    let (one, other) = (session_at(&server), session_at(&server));
    let held = Lock::acquire(&one, "/lock", Sharing::Exclusive, b"").unwrap();
    thread::scope(|scope| {
        let next = scope.spawn(|| {
            Lock::acquire(&other, "/lock", Sharing::Exclusive, b"")
                .unwrap()
                .token()
        });
        until("it waits", || {
            other.children("/lock").unwrap_or_default().0.len() == 2
        });
        server.expire(one.id().unwrap()).unwrap();
        assert!(next.join().unwrap() > held.token());
    });
}

#[test]
fn a_port_that_is_taken_is_told() {
    // below the ports that a system gives to clients, so that nobody takes it in between
    let own = 20_000 + u16::try_from(process::id() % 10_000).unwrap();
    let mut ports = (own..30_000).chain(20_000..own);
    let server = ports.find_map(|port| Server::start_at(port).ok()).unwrap();
    let taken = Server::start_at(server.port()).unwrap_err();
    assert_eq!(taken.kind(), ErrorKind::AddrInUse);
    let port = server.port();
    drop(server);
    assert_eq!(Server::start_at(port).unwrap().port(), port);
}

#[test]
fn a_session_moves_where_its_host_is_listed_no_more() {
    let server = Server::start().unwrap();
    let session = Session::open(server.hosts(), TIMEOUT).unwrap();
    session.create("/a", b"0", Mode::Ephemeral).unwrap();
    let (id, came) = (session.id().unwrap(), server.connections());
    let same = server.hosts().parse().unwrap();
    assert_eq!(session.change_hosts(same), Ok(()));
    assert!(session.get("/a").is_ok());
    assert_eq!(server.connections(), came);
    for (moves, name) in (1..).zip(["localhost", "127.0.0.1", "localhost"]) {
        let read = session.ask(Request::get("/a"));
        let other = format!("{name}:{}", server.port()).parse().unwrap();
        assert_eq!(session.change_hosts(other), Ok(()));
        assert!(read.wait().is_ok());
        assert!(session.get("/a").is_ok());
        assert_eq!(
            (session.id().unwrap(), server.connections()),
            (id, came + moves)
        );
    }
}
