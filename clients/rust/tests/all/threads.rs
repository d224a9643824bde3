//! Sessions with a thread of their own, and calls that are on their way at once.

use crate::jute::{GET_DATA, PING, SET_DATA};
use crate::memory;
use crate::partner::{Line, Partner};
use crate::runtime::block_on;
use crate::{kind_of, millis, wait_until, PATIENCE};
use dirwolleu::{
    Code, ErrorKind, Event, Fault, Hosts, LocalSession, Mode, NoReply, Request, Retry, Session,
    SessionOptions, State, Ticket, ANY_VERSION,
};
use std::io;
use std::net::{TcpListener, TcpStream};
use std::panic::resume_unwind;
use std::sync::atomic::{AtomicUsize, Ordering};
use std::sync::{mpsc, Arc, Mutex};
use std::thread::{self, sleep};
use std::time::{Duration, Instant};

fn session_at(partner: &Partner, timeout: u64) -> Session {
    Session::open(partner.address, millis(timeout)).unwrap()
}

/// The counts of a server.
#[derive(Clone, Default)]
struct Counts {
    expiries: Arc<AtomicUsize>,
    pings: Arc<AtomicUsize>,
}

/// A server that gives up a session from which it heard nothing for its timeout, and then says so to each client that asks for it.
fn expiring(timeout: Duration) -> (TcpListener, Counts) {
    let listener = TcpListener::bind("127.0.0.1:0").unwrap();
    let accepting = listener.try_clone().unwrap();
    let counts = Counts::default();
    let counted = counts.clone();
    thread::spawn(move || {
        for stream in accepting.incoming().map_while(Result::ok) {
            serve_or_expire(stream, timeout, &counted);
        }
    });
    (listener, counts)
}

fn serve_or_expire(stream: TcpStream, timeout: Duration, counts: &Counts) {
    let begun = Instant::now();
    stream.set_nodelay(true).unwrap();
    stream.set_read_timeout(Some(timeout)).unwrap();
    let mut line = Line::over(stream);
    let granted = i32::try_from(timeout.as_millis()).unwrap();
    if counts.expiries.load(Ordering::SeqCst) > 0 {
        line.expire();
        return;
    }
    line.admit(granted);
    line.each(|line, request| {
        let is_ping = request.kind == PING;
        counts.pings.fetch_add(is_ping.into(), Ordering::SeqCst);
        line.answer(&request);
    });
    if begun.elapsed() >= timeout {
        counts.expiries.fetch_add(1, Ordering::SeqCst);
    }
}

/// The program works for as long as the session takes for two pings, which is two thirds of the timeout. So a busy machine may delay it, or
/// the server, by as much as a third.
#[test]
fn a_session_lives_while_its_program_works() {
    let (listener, counts) = expiring(millis(18_000));
    let address = listener.local_addr().unwrap();
    let session = Session::open(address, millis(18_000)).unwrap();
    session.create("/mine", b"", Mode::Ephemeral).unwrap();
    wait_until("it pings", || counts.pings.load(Ordering::SeqCst) >= 2);
    assert_eq!(session.state(), Some(State::Connected));
    let expiries = counts.expiries.load(Ordering::SeqCst);
    assert_eq!(expiries, 0, "the servers have the session");
    assert!(session.exists("/mine").unwrap().is_some());
}

#[test]
fn without_a_thread_the_state_is_not_known_after_work() {
    let (listener, counts) = expiring(millis(9_000));
    let address = listener.local_addr().unwrap();
    let mut session = LocalSession::open(address, millis(9_000)).unwrap();
    session.create("/mine", b"", Mode::Ephemeral).unwrap();
    assert_eq!(session.state(), Some(State::Connected));
    let has_expired = || counts.expiries.load(Ordering::SeqCst) == 1;
    wait_until("the servers have given it up", has_expired);
    assert_eq!(session.state(), None);
    assert_eq!(counts.pings.load(Ordering::SeqCst), 0);
    let (until, expired) = (Instant::now() + PATIENCE, Event::State(State::Expired));
    while session.next_event(Some(until)).unwrap().unwrap() != expired {}
    assert_eq!(session.state(), Some(State::Expired));
}

#[test]
fn calls_are_on_their_way_at_once() {
    let partner = Partner::start(|_, mut line| {
        line.admit(60_000);
        let requests: Vec<_> = (0..3).map_while(|_| line.request()).collect();
        for request in requests {
            line.tell_data(request.xid);
        }
        line.serve();
    });
    let session = session_at(&partner, 10_000);
    let tickets = ["/a", "/b", "/c"].map(|path| session.ask(Request::get(path)));
    for ticket in tickets {
        let node = ticket.wait_for(PATIENCE).unwrap();
        assert_eq!(node.data.as_deref(), Some(b"one".as_slice()));
    }
}

#[test]
fn a_ticket_is_awaited_by_any_runtime() {
    let partner = Partner::serving();
    let session = session_at(&partner, 10_000);
    let stat = block_on(async {
        let first = session.ask(Request::get("/a"));
        let second = session.ask(Request::set("/a", b"two", ANY_VERSION));
        first.await?;
        second.await
    });
    assert_eq!(stat.map(|stat| stat.data_length), Ok(3));
}

#[test]
fn a_limit_says_whether_a_call_may_still_happen() {
    let (sender, requests) = mpsc::channel();
    let partner = Partner::answering(move |_, request| {
        sender.send(request.kind).unwrap();
    });
    let session = session_at(&partner, 10_000);
    let ticket = session.ask(Request::set("/a", b"one", 0));
    assert_eq!(requests.recv_timeout(PATIENCE), Ok(SET_DATA));
    let late = ticket.wait_for(millis(100)).unwrap_err();
    assert_eq!(late.kind(), &ErrorKind::TimedOut);
    assert!(late.may_have_happened());
    let nowhere = SessionOptions::new(millis(10_000))
        .limit(millis(100))
        .open_lazily(Hosts::default())
        .unwrap();
    let not_sent = nowhere.set("/a", b"one", 0).unwrap_err();
    assert_eq!(not_sent.no_reply(), Some(NoReply::NotConnected));
    assert!(!not_sent.may_have_happened());
}

#[test]
fn a_call_waits_for_a_connection_as_long_as_the_timeout() {
    let options = SessionOptions::new(millis(1_500));
    let session = options.open_lazily(Hosts::default()).unwrap();
    let begun = Instant::now();
    let nobody = session.get("/a");
    assert_eq!(kind_of(nobody), NoReply::NotConnected.into());
    let took = begun.elapsed();
    assert!(took >= millis(1_490) && took < PATIENCE, "{took:?}");
}

/// Also with a longer limit.
#[test]
fn a_close_waits_a_second_for_a_connection() {
    let options = || SessionOptions::new(PATIENCE).limit(PATIENCE);
    let session = options().open_lazily(Hosts::default()).unwrap().shared();
    let local = options().open_local(Hosts::default()).unwrap();
    let begun = Instant::now();
    for closed in [session.close(), local.close()] {
        assert_eq!(kind_of(closed), NoReply::NotConnected.into());
    }
    let took = begun.elapsed();
    assert!(took >= millis(1_990) && took < PATIENCE / 2, "{took:?}");
}

/// A server that ends the connection at the first request of a kind, and counts those that come.
fn losing(kind: i32) -> (Partner, Arc<AtomicUsize>) {
    let count = Arc::new(AtomicUsize::new(0));
    let counted = Arc::clone(&count);
    let partner = Partner::start(move |_, mut line| {
        line.admit(60_000);
        while let Some(request) = line.request() {
            let is_first = request.kind == kind && counted.fetch_add(1, Ordering::SeqCst) == 0;
            if is_first {
                return;
            }
            line.answer(&request);
        }
    });
    (partner, count)
}

fn retrying(partner: &Partner) -> Session {
    let options = SessionOptions::new(millis(10_000)).retry(Retry::times(3));
    options.open(partner.address).unwrap()
}

#[test]
fn a_read_is_asked_again_after_a_lost_connection() {
    let (partner, count) = losing(GET_DATA);
    assert!(session_at(&partner, 60_000).get("/a").is_ok());
    assert_eq!(count.load(Ordering::SeqCst), 2);
}

#[test]
fn a_write_that_may_have_happened_is_not_asked_again() {
    let (partner, count) = losing(SET_DATA);
    let session = retrying(&partner);
    let lost = session.set("/a", b"one", ANY_VERSION);
    assert_eq!(kind_of(lost), NoReply::ConnectionLoss.into());
    assert!(session.get("/a").is_ok());
    assert_eq!(count.load(Ordering::SeqCst), 1);
}

/// A server that refuses the first two writes for a while.
fn throttling() -> Partner {
    let mut refusals = 2;
    Partner::answering(move |line, request| {
        if request.kind == SET_DATA && refusals > 0 {
            refusals -= 1;
            line.refuse(request.xid, Code::THROTTLED.0);
        } else {
            line.tell_stat(request.xid);
        }
    })
}

#[test]
fn a_write_that_was_refused_for_a_while_is_asked_again() {
    let partner = throttling();
    assert!(retrying(&partner).set("/a", b"one", ANY_VERSION).is_ok());
    let partner = throttling();
    let options = SessionOptions::new(millis(10_000)).retry(Retry::times(2));
    let mut local = options.open_local(partner.address).unwrap();
    assert!(local.set("/a", b"one", ANY_VERSION).is_ok());
    let partner = throttling();
    let options = SessionOptions::new(millis(10_000)).retry(Retry::times(1));
    let mut local = options.open_local(partner.address).unwrap();
    let refused = local.set("/a", b"one", ANY_VERSION);
    assert_eq!(kind_of(refused), Code::THROTTLED.into());
}

#[test]
fn each_ticket_is_answered_where_the_session_is_let_go() {
    let (sender, requests) = mpsc::channel();
    let partner = Partner::answering(move |_, request| {
        let _ = sender.send(request.kind);
    });
    let session = session_at(&partner, 10_000);
    let sent = session.ask(Request::get("/a"));
    assert_eq!(requests.recv_timeout(PATIENCE), Ok(GET_DATA));
    drop(session);
    let lost = kind_of(sent.wait_for(PATIENCE));
    assert_eq!(lost, NoReply::ConnectionLoss.into());
    let options = SessionOptions::new(millis(10_000));
    let nowhere = options.open_lazily(Hosts::default()).unwrap();
    let not_sent = nowhere.ask(Request::get("/a"));
    drop(nowhere);
    let nobody = kind_of(not_sent.wait_for(PATIENCE));
    assert_eq!(nobody, NoReply::NotConnected.into());
}

/// The panic calls no hook, because a backtrace may take as long to print as a call waits. This call waits longer than its test, because on
/// a busy machine a thread ends later.
#[test]
fn a_dial_that_panics_leaves_nobody_waiting() {
    let panics = |_: &dirwolleu::Server<'_>, _: Duration| -> io::Result<dirwolleu::Connection> {
        resume_unwind(Box::new("as the test has it"))
    };
    let options = SessionOptions::new(10 * PATIENCE).dial(panics);
    let session = options.open_lazily("127.0.0.1:1").unwrap();
    let answer: Ticket<_> = session.ask(Request::get("/a"));
    assert_eq!(kind_of(answer.wait_for(PATIENCE)), Fault::Panicked.into());
    assert_eq!(session.next_event(None), Err(Fault::Panicked));
    assert_eq!(session.renew(), Err(Fault::Panicked));
    assert_eq!(session.state(), None);
    assert_eq!(
        session.get("/a").unwrap_err().to_string(),
        "the session's thread has panicked: /a; open another session"
    );
}

#[test]
fn threads_share_a_session() {
    let partner = Partner::serving();
    let session = session_at(&partner, 10_000).shared();
    let threads: Vec<_> = (0..8)
        .map(|number| {
            let session = session.clone();
            thread::spawn(move || (0..50).all(|_| session.get(&format!("/{number}")).is_ok()))
        })
        .collect();
    for thread in threads {
        assert!(thread.join().unwrap());
    }
}

#[test]
fn a_session_needs_no_network() {
    let (sender, dials) = mpsc::channel();
    let dial = move |server: &dirwolleu::Server<'_>, _: Duration| {
        let (connection, end) = memory::connection();
        let _ = sender.send((server.name.to_owned(), server.address));
        thread::spawn(move || {
            let mut line = Line::over(end);
            line.admit(60_000);
            let request = line.request()?;
            line.tell_data(request.xid);
            Some(()) // and the connection is over
        });
        Ok(connection)
    };
    let options = SessionOptions::new(millis(10_000))
        .dial(dial)
        .shuffles(false);
    let session = options.open("10.1.2.3,[2001:db8::1]:7/app").unwrap();
    for _ in 0..2 {
        assert!(session.get("/a").is_ok());
        while session.state() == Some(State::Connected) {
            sleep(millis(5));
        }
    }
    let first = (String::from("10.1.2.3"), "10.1.2.3:2181".parse().unwrap());
    let second = (
        String::from("2001:db8::1"),
        "[2001:db8::1]:7".parse().unwrap(),
    );
    assert_eq!(dials.recv_timeout(PATIENCE), Ok(first));
    assert_eq!(dials.recv_timeout(PATIENCE), Ok(second));
}

#[test]
fn a_name_is_looked_up_and_each_of_its_addresses_dialled() {
    let partner = Partner::serving();
    let hosts = format!("localhost:{}", partner.address.port());
    let session = Session::open(hosts, millis(10_000)).unwrap();
    assert!(session.get("/a").is_ok());
}

#[test]
fn hosts_are_changed_while_the_session_lives() {
    let partner = Partner::serving();
    let options = SessionOptions::new(millis(10_000));
    let session = options.open_lazily(Hosts::default()).unwrap();
    let ticket = session.ask(Request::get("/a"));
    let other_root: Hosts = "127.0.0.1:1/app".parse().unwrap();
    assert_eq!(session.change_hosts(other_root.clone()), Err(other_root));
    assert_eq!(session.change_hosts(partner.address.into()), Ok(()));
    assert!(ticket.wait_for(PATIENCE).is_ok());
}

#[test]
fn an_expired_session_renews_itself_where_it_is_told_to() {
    let is_expired = Arc::new(Mutex::new(true));
    let partner = Partner::start(move |number, mut line| {
        if number == 1 && std::mem::take(&mut *is_expired.lock().unwrap()) {
            line.expire();
            return;
        }
        line.admit(60_000);
        if number == 0 {
            line.request();
            return;
        }
        line.serve();
    });
    let options = SessionOptions::new(millis(10_000)).renews(true);
    let session = options.open(partner.address).unwrap();
    assert_eq!(kind_of(session.get("/a")), NoReply::SessionExpired.into());
    assert!(session.get("/a").is_ok());
    let mut states = Vec::new();
    while let Some(event) = session.next_event(Some(Instant::now())).unwrap() {
        if let Event::State(state) = event {
            states.push(state);
        }
    }
    let (connecting, connected) = (State::Connecting, State::Connected);
    let expected = [
        connecting,
        connected,
        State::Idle,
        connecting,
        State::Expired,
        connecting,
        connected,
    ];
    assert_eq!(states, expected);
}
