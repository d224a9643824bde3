//! Sessions over TCP, at the server in memory. Without python3 each test says so and passes.

use crate::example;
use crate::server::Server;
use crate::{kind_of, renewing, started, tells_each_change, text, PATIENCE};
use dirwolleu::{
    Cause, Code, DataAnswer, ErrorKind, Event, Fault, Mark, Mode, NoReply, NodeEvent, Request,
    Session, SessionOptions, Side, State, ANY_VERSION,
};
use std::io::{BufRead, BufReader};
use std::process::{Command, Stdio};
use std::sync::mpsc::channel;
use std::thread;
use std::time::{Duration, Instant};

fn session_at(server: &Server, timeout_ms: u64) -> Session {
    Session::open([server.address], Duration::from_millis(timeout_ms)).unwrap()
}

/// The first event of this kind. Earlier ones are skipped.
pub fn wait_for(session: &Session, is_awaited: impl Fn(&Event) -> bool) -> Event {
    let until = Instant::now() + PATIENCE;
    loop {
        let event = session.next_event(Some(until)).unwrap();
        let event = event.expect("an event comes in time");
        if is_awaited(&event) {
            return event;
        }
    }
}

/// Takes the waiting events.
fn take_events(session: &Session) {
    while session.next_event(Some(Instant::now())).unwrap().is_some() {}
}

pub fn wait_for_state(session: &Session, state: State) {
    wait_for(session, |event| *event == Event::State(state));
}

fn report(path: &str, side: Side, event: NodeEvent) -> Event {
    let path = String::from(path);
    Event::Report { path, side, event }
}

/// The kept data of a path.
fn kept(session: &Session, path: &str) -> Option<(Vec<u8>, Mark)> {
    let kept = session.peek(path).unwrap()?;
    match kept.answer {
        DataAnswer::Full { data, .. } => Some((data?, kept.mark)),
        _ => None,
    }
}

/// Each call, as the Programmer's Guide has it, and the errors of the server.
fn try_calls(session: Session) {
    let missing = session.get("/a");
    assert_eq!(kind_of(missing), Code::NO_NODE.into());
    assert_eq!(session.exists("/a"), Ok(None));
    let made = session.create("/a", b"one", Mode::Persistent);
    assert_eq!(made.as_deref(), Ok("/a"));
    let again = session.create("/a", b"two", Mode::Persistent);
    assert_eq!(kind_of(again), Code::NODE_EXISTS.into());
    let node = session.get("/a").unwrap();
    assert_eq!(node.data.as_deref(), Some(b"one".as_slice()));
    assert_eq!((node.stat.version, node.stat.data_length), (0, 3));
    assert_eq!(session.set("/a", b"three", 0).unwrap().version, 1);
    let late = session.set("/a", b"four", 0);
    assert_eq!(kind_of(late), Code::BAD_VERSION.into());
    let first = session
        .create("/a/s-", b"", Mode::EphemeralSequential)
        .unwrap();
    assert_eq!(first, "/a/s-0000000000");
    let stat = session.exists(&first).unwrap().unwrap();
    assert_ne!(stat.ephemeral_owner, 0);
    let below = session.create(&format!("{first}/b"), b"", Mode::Persistent);
    assert_eq!(kind_of(below), Code::NO_CHILDREN_FOR_EPHEMERALS.into());
    let (names, stat) = session.children("/a").unwrap();
    assert_eq!(
        (names.as_slice(), stat.num_children),
        (["s-0000000000".to_string()].as_slice(), 1)
    );
    let full = session.delete("/a", ANY_VERSION);
    assert_eq!(kind_of(full), Code::NOT_EMPTY.into());
    assert_eq!(session.delete(&first, 0), Ok(()));
    assert_eq!(session.delete("/a", ANY_VERSION), Ok(()));
    let no_path = session.get("a");
    assert!(matches!(
        kind_of(no_path),
        ErrorKind::Fault(Fault::NotPath { .. })
    ));
    let large = session.set("/a", &vec![0; 1 << 20], ANY_VERSION);
    assert_eq!(kind_of(large), NoReply::TooLarge.into());
    assert_eq!(session.close(), Ok(()));
}

#[test]
fn calls_are_answered() {
    let Some(server) = started() else { return };
    try_calls(session_at(&server, 60_000));
}

#[test]
fn calls_are_answered_byte_by_byte() {
    let Some(server) = Server::start(&["--piece", "1"]) else {
        return;
    };
    try_calls(session_at(&server, 60_000));
}

#[test]
fn a_change_is_reported() {
    let Some(mut server) = started() else { return };
    server.tell("create /a one");
    let session = session_at(&server, 10_000);
    session.watch("/a").unwrap().expect("there is a node");
    assert_eq!(kept(&session, "/a"), Some((b"one".to_vec(), Mark::Good)));
    session.watch_children("/a").unwrap();
    server.tell("set /a two");
    let changed = report("/a", Side::Data, NodeEvent::DataChanged);
    wait_for(&session, |event| *event == changed);
    assert_eq!(kept(&session, "/a"), Some((b"one".to_vec(), Mark::Stale)));
    session.call(Request::get("/a").watched()).unwrap();
    assert_eq!(kept(&session, "/a"), Some((b"two".to_vec(), Mark::Good)));
    server.tell("create /a/b x");
    let more = report("/a", Side::Children, NodeEvent::ChildrenChanged);
    wait_for(&session, |event| *event == more);
    let names = session.peek_children("/a").unwrap().unwrap();
    assert_eq!((names.answer.names.len(), names.mark), (0, Mark::Stale));
    assert_eq!(kept(&session, "/a"), Some((b"two".to_vec(), Mark::Good)));
}

#[test]
fn a_node_that_is_not_there_is_watched() {
    let Some(mut server) = started() else { return };
    let session = session_at(&server, 10_000);
    assert_eq!(session.watch("/a"), Ok(None));
    let absent = session.peek("/a").unwrap().unwrap();
    assert_eq!(
        (absent.answer, absent.mark),
        (DataAnswer::Absent, Mark::Good)
    );
    server.tell("create /a one");
    let made = report("/a", Side::Data, NodeEvent::Created);
    wait_for(&session, |event| *event == made);
}

#[test]
fn no_event_is_no_wait() {
    let Some(server) = started() else { return };
    let session = session_at(&server, 10_000);
    session.exists("/").unwrap();
    take_events(&session);
    let begun = Instant::now();
    let until = begun + Duration::from_millis(50);
    assert_eq!(session.next_event(Some(until)), Ok(None));
    assert!(begun.elapsed() >= Duration::from_millis(50));
}

#[test]
fn a_connection_that_is_dropped_begins_again() {
    let Some(mut server) = started() else { return };
    for node in ["create /a one", "create /b one"] {
        server.tell(node);
    }
    let session = session_at(&server, 10_000);
    session.watch("/a").unwrap();
    session.watch("/b").unwrap();
    server.tell("down");
    server.tell("set /a two");
    wait_for_state(&session, State::Idle);
    assert_eq!(kept(&session, "/a"), Some((b"one".to_vec(), Mark::Good)));
    server.tell("up");
    wait_for_state(&session, State::Connected);
    let changed = report("/a", Side::Data, NodeEvent::DataChanged);
    wait_for(&session, |event| *event == changed);
    assert_eq!(kept(&session, "/b"), Some((b"one".to_vec(), Mark::Good)));
    let node = session.watch("/a").unwrap().unwrap();
    assert_eq!(node.data.as_deref(), Some(b"two".as_slice()));
}

#[test]
fn a_silent_server_is_left_after_two_thirds_of_the_timeout() {
    let Some(mut silent) = started() else { return };
    let Some(mut other) = started() else { return };
    other.tell("create /ahead x");
    other.tell("set /ahead y");
    let timeout = Duration::from_millis(12_000); // so that a busy server is not left
    let session = SessionOptions::new(timeout)
        .shuffles(false)
        .open([silent.address, other.address])
        .unwrap();
    let heard = Instant::now(); // or later
    session.exists("/").unwrap();
    silent.tell("mute");
    wait_for(&session, |event| {
        matches!(
            event,
            Event::Dropped {
                cause: Cause::Silence,
                ..
            }
        )
    });
    let slack = Duration::from_millis(10);
    assert!(
        heard.elapsed() + slack >= timeout * 2 / 3,
        "{:?}",
        heard.elapsed()
    );
    wait_for_state(&session, State::Expired); // the other one has never heard of the session
}

#[test]
fn a_write_is_lost_with_its_connection() {
    let Some(mut server) = started() else { return };
    let session = session_at(&server, 9_000);
    session.exists("/").unwrap();
    server.tell("mute");
    let read = session.ask(Request::exists("/"));
    let lost = session.delete("/", ANY_VERSION);
    assert_eq!(kind_of(lost), NoReply::ConnectionLoss.into());
    let nobody = session.exists("/");
    assert_eq!(kind_of(nobody), NoReply::NotConnected.into());
    let read = read.wait(); // it waits for another connection
    assert_eq!(kind_of(read), NoReply::NotConnected.into());
    server.tell("unmute");
    wait_for_state(&session, State::Connected);
}

#[test]
fn an_idle_session_goes_on_by_pings() {
    let Some(server) = started() else { return };
    let session = session_at(&server, 18_000); // without pings its silence would end it after two thirds of that: a busy server may take a third
    session.watch("/").unwrap();
    take_events(&session);
    let until = Instant::now() + Duration::from_millis(13_000);
    let event = session.next_event(Some(until)).unwrap();
    assert_eq!(event, None, "the connection goes on");
}

#[test]
fn an_expired_session_is_renewed() {
    let Some(mut server) = started() else { return };
    server.tell("create /a one");
    let session = session_at(&server, 10_000);
    session.watch("/a").unwrap();
    session.create("/mine", b"", Mode::Ephemeral).unwrap();
    server.tell("expire");
    wait_for_state(&session, State::Expired);
    assert_eq!(session.next_event(None), Ok(None));
    assert_eq!(session.peek("/a").unwrap(), None);
    let expired = session.get("/a");
    assert_eq!(kind_of(expired), NoReply::SessionExpired.into());
    let seen = session.last_zxid();
    session.renew().unwrap();
    assert_eq!(session.exists("/mine"), Ok(None));
    assert!(session.last_zxid() >= seen);
}

#[test]
fn a_session_is_taken_up_by_another() {
    let Some(server) = started() else { return };
    let first = session_at(&server, 10_000);
    first.create("/mine", b"", Mode::Ephemeral).unwrap();
    let saved = first.saved().unwrap();
    drop(first);
    let timeout = Duration::from_secs(10);
    let second = SessionOptions::new(timeout)
        .resume(&saved)
        .open(server.address)
        .unwrap();
    assert!(second.exists("/mine").unwrap().is_some());
    second.close().unwrap();
    let third = session_at(&server, 10_000);
    assert_eq!(third.exists("/mine"), Ok(None));
}

#[test]
fn nobody_answers_where_there_is_no_server() {
    let options = SessionOptions::new(Duration::from_millis(100));
    let session = options.open_lazily([]).unwrap();
    let nobody = session.get("/a");
    assert_eq!(kind_of(nobody), NoReply::NotConnected.into());
}

/// Asks a server that answers with random bytes. The timeout is short, because calls wait for it, and long enough for a busy server to
/// admit a session.
fn try_hostile(seed: &str) {
    let Some(server) = Server::start(&["--hostile", seed]) else {
        return;
    };
    let session = session_at(&server, 1_000);
    for _ in 0..2 {
        let begun = Instant::now();
        let _ = session.call(Request::get("/a").watched());
        let _ = session.watch_children("/a");
        assert!(begun.elapsed() < PATIENCE, "seed {seed}");
    }
}

#[test]
fn each_call_returns_whatever_a_server_sends() {
    thread::scope(|scope| {
        for seed in ["1", "2", "3", "4"] {
            scope.spawn(move || try_hostile(seed));
        }
    });
}

#[test]
fn all_paths_are_below_the_chroot() {
    let Some(mut server) = started() else { return };
    let below = format!("{}/app", server.address);
    let session = Session::open(below, Duration::from_secs(10)).unwrap();
    for (path, made) in [("/", "/"), ("/a", "/a")] {
        let path = session.create(path, b"one", Mode::Persistent);
        assert_eq!(path.as_deref(), Ok(made));
    }
    let numbered = session.create("/a/s-", b"", Mode::PersistentSequential);
    assert_eq!(numbered.as_deref(), Ok("/a/s-0000000000"));
    session.watch("/a").unwrap();
    session.watch_children("/").unwrap();
    assert_eq!(kept(&session, "/a"), Some((b"one".to_vec(), Mark::Good)));
    let names = session.peek_children("/").unwrap().unwrap().answer.names;
    assert_eq!(names, ["a"]);
    server.tell("set /app/a two");
    let changed = report("/a", Side::Data, NodeEvent::DataChanged);
    wait_for(&session, |event| *event == changed);
    server.tell("create /app/b x");
    let more = report("/", Side::Children, NodeEvent::ChildrenChanged);
    wait_for(&session, |event| *event == more);
    for text in ["", "a"] {
        let kind = kind_of(session.get(text));
        assert!(matches!(kind, ErrorKind::Fault(Fault::NotPath { .. })));
    }
    let whole = session_at(&server, 10_000);
    let node = whole.get("/app/a").unwrap();
    assert_eq!(node.data.as_deref(), Some(b"two".as_slice()));
}

#[test]
fn a_node_is_followed_through_all() {
    let Some(mut server) = started() else { return };
    let session = renewing(&server);
    let mut nodes = session.follow("/a");
    tells_each_change(&mut server, || {
        text(nodes.next().expect("the session lives").unwrap())
    });
    let shared = session.ask(dirwolleu::Request::create("/b", b"", Mode::Persistent));
    assert_eq!(shared.wait().as_deref(), Ok("/b"));
}

#[test]
fn the_example_follows_a_node_through_a_restart() {
    let Some(mut server) = started() else { return };
    server.tell("create /config first");
    let mut command = Command::new(example::follow());
    command.arg(server.address.to_string()).arg("/config");
    let mut child = command.stdout(Stdio::piped()).spawn().unwrap();
    let output = BufReader::new(child.stdout.take().unwrap());
    let (sender, lines) = channel();
    thread::spawn(move || {
        output
            .lines()
            .map_while(Result::ok)
            .try_for_each(|line| sender.send(line))
    });
    let line = || lines.recv_timeout(PATIENCE);
    let first = line();
    server.tell("down");
    server.tell("set /config second");
    server.tell("up");
    let second = line();
    server.tell("expire");
    let third = line();
    server.tell("delete /config");
    let fourth = line();
    child.kill().unwrap();
    child.wait().unwrap();
    assert_eq!(first.as_deref(), Ok("/config version 0: first"));
    assert_eq!(second.as_deref(), Ok("/config version 1: second"));
    assert_eq!(third.as_deref(), Ok("/config version 1: second"));
    assert_eq!(fourth.as_deref(), Ok("/config is not there"));
}
