//! The machine's decisions about a session: which calls wait and how long, what becomes of them at a cut, which nodes are followed.

use crate::jute::{self, EXISTS, GET_DATA, PING, SYNC};
use crate::partner::{Line, Partner};
use crate::{kind_of, millis, PATIENCE, SLACK, TIMEOUT};
use dirwolleu::{
    Code, ErrorKind, Hosts, LocalSession, Mode, NoReply, Request, Session, SessionOptions, State,
};
use std::sync::mpsc;
use std::thread::{self, sleep};
use std::time::{Duration, Instant};

/// The limit of a call that is sent and not answered: even a busy machine sends it sooner.
const LIMIT: Duration = Duration::from_secs(6);

/// A server that admits the session and answers nothing.
fn silent() -> Partner {
    Partner::start(|_, mut line| {
        line.admit(60_000);
        while line.request().is_some() {}
    })
}

#[test]
fn a_call_waits_to_a_limit_of_its_own() {
    let partner = silent();
    let session = Session::open(partner.address, TIMEOUT).unwrap();
    while session.state() != Some(State::Connected) {
        sleep(millis(5));
    }
    let begun = Instant::now();
    let write = Request::set("/a", b"one", 0).within(LIMIT);
    let late = session.call(write).unwrap_err();
    let took = begun.elapsed();
    assert_eq!(late.kind(), &ErrorKind::TimedOut);
    assert!(late.may_have_happened());
    assert!(took >= LIMIT && took < LIMIT + SLACK, "{took:?}");
    let mut local = LocalSession::open(partner.address, TIMEOUT).unwrap();
    let waits = Request::get("/a").within(millis(300));
    let late = local.call(waits).unwrap_err();
    assert_eq!(late.kind(), &ErrorKind::NoReply(NoReply::NotConnected)); // the partner serves one after the other
}

#[test]
fn a_limit_comes_while_a_server_is_dialled() {
    let (over, is_over) = mpsc::channel::<()>();
    let dial = move |_: &dirwolleu::Server<'_>, within: Duration| {
        let _ = is_over.recv_timeout(within);
        Err(std::io::ErrorKind::TimedOut.into())
    };
    let options = SessionOptions::new(10 * SLACK).dial(dial); // a third of it is more than the slack
    let session = options.open_lazily("127.0.0.1:1").unwrap();
    let begun = Instant::now();
    let late = session.call(Request::get("/a").within(millis(300)));
    let took = begun.elapsed();
    drop(over);
    let reason = late.unwrap_err().no_reply();
    assert_eq!(reason, Some(NoReply::NotConnected));
    assert!(
        took >= millis(300) && took < millis(300) + SLACK,
        "{took:?}"
    );
}

#[test]
fn more_calls_than_may_be_on_their_way_wait_in_line() {
    let partner = Partner::serving();
    let session = Session::open(partner.address, TIMEOUT).unwrap();
    let tickets: Vec<_> = (0..3_000)
        .map(|_| session.ask(Request::get("/a")))
        .collect();
    for ticket in tickets {
        assert!(ticket.wait_for(PATIENCE).is_ok());
    }
}

#[test]
fn calls_that_wait_for_a_connection_are_sent_in_their_order() {
    let (sender, asked) = mpsc::channel();
    let partner = Partner::answering(move |line, request| {
        sender.send(request.kind).unwrap();
        line.answer(&request);
    });
    let options = SessionOptions::new(TIMEOUT);
    let session = options.open_lazily(Hosts::default()).unwrap();
    let first = session.ask(Request::get("/a"));
    let second = session.ask(Request::sync("/"));
    let third = session.ask(Request::exists("/a"));
    session.change_hosts(partner.address.into()).unwrap();
    assert!(first.wait_for(PATIENCE).is_ok());
    assert!(second.wait_for(PATIENCE).is_ok());
    assert!(third.wait_for(PATIENCE).is_ok());
    let kinds: Vec<i32> = asked.try_iter().filter(|kind| *kind != PING).collect();
    assert_eq!(kinds, [GET_DATA, SYNC, EXISTS]);
}

#[test]
fn a_raw_call_waits_to_its_limit_too() {
    let options = SessionOptions::new(TIMEOUT);
    let nowhere = options.open_lazily(Hosts::default()).unwrap();
    let waits = Request::sync("/").within(millis(200));
    let late = nowhere.call(waits).unwrap_err();
    assert_eq!(late.no_reply(), Some(NoReply::NotConnected));
    let partner = silent();
    let session = Session::open(partner.address, TIMEOUT).unwrap();
    while session.state() != Some(State::Connected) {
        sleep(millis(5));
    }
    let late = session.call(Request::sync("/").within(LIMIT));
    assert_eq!(kind_of(late), ErrorKind::TimedOut);
}

/// Admits a session, and sends to the test which one the client asked for.
fn admit_and_tell(line: &mut Line, asked: &mpsc::Sender<Vec<u8>>) {
    let request = line.frame().unwrap();
    asked.send(request[16..24].to_vec()).unwrap();
    line.send(&jute::Record::accepted(60_000, 0x1234));
}

#[test]
fn a_session_that_is_closed_is_asked_nothing_and_is_renewed() {
    let (sender, sessions) = mpsc::channel();
    let partner = Partner::start(move |_, mut line| {
        admit_and_tell(&mut line, &sender);
        line.serve();
    });
    let session = Session::open(partner.address, TIMEOUT).unwrap().shared();
    session.get("/a").unwrap();
    session.close().unwrap();
    assert_eq!(session.state(), Some(State::Closed));
    let closed = session.get("/a").unwrap_err();
    assert_eq!(closed.no_reply(), Some(NoReply::SessionClosed));
    sleep(millis(1_000));
    assert_eq!(partner.dials(), 1, "it dials no more");
    session.renew().unwrap();
    assert!(session.get("/a").is_ok());
    let asked: Vec<Vec<u8>> = sessions.try_iter().collect();
    assert_eq!(asked, [vec![0; 8], vec![0; 8]], "each is a new session");
}

#[test]
fn a_session_that_lives_goes_on_with_another_machine() {
    let (sender, sessions) = mpsc::channel();
    let partner = Partner::start(move |number, mut line| {
        admit_and_tell(&mut line, &sender);
        if number == 0 {
            let request = line.request().unwrap();
            line.tell_data(request.xid);
            while line.request().is_some() {}
        }
        line.serve();
    });
    let session = Session::open(partner.address, TIMEOUT).unwrap();
    session.call(Request::get("/a").watched()).unwrap();
    let waits = session.ask(Request::get("/a"));
    session.renew().unwrap();
    let lost = waits.wait_for(PATIENCE).unwrap_err();
    assert_eq!(lost.no_reply(), Some(NoReply::ConnectionLoss));
    assert_eq!(session.peek("/a"), Ok(None), "it keeps nothing");
    assert!(session.get("/a").is_ok());
    let asked: Vec<Vec<u8>> = sessions.try_iter().collect();
    let same = 0x1234_i64.to_be_bytes().to_vec();
    assert_eq!(asked, [vec![0; 8], same]);
}

/// A server that refuses this many reads of data with this code, and then answers them.
fn refuse_reads(code: Code, mut refusals: i32) -> Partner {
    Partner::answering(move |line, request| {
        if request.kind == GET_DATA && refusals > 0 {
            refusals -= 1;
            line.refuse(request.xid, code.0);
        } else {
            line.answer(&request);
        }
    })
}

/// The same holds if nobody knows the code.
#[test]
fn a_refused_read_of_what_is_followed_is_told_once_and_made_again() {
    for code in [Code::NO_AUTH, Code(-999)] {
        let partner = refuse_reads(code, 2);
        let session = Session::open(partner.address, TIMEOUT).unwrap();
        let begun = Instant::now();
        let mut nodes = session.follow("/a");
        let refused = nodes.next().unwrap().unwrap_err();
        assert_eq!((refused.code(), refused.path()), (Some(code), Some("/a")));
        let node = nodes.next().unwrap().unwrap().unwrap();
        assert_eq!(node.data.as_deref(), Some(b"one".as_slice()));
        let took = begun.elapsed();
        assert!(took >= millis(1_998), "{took:?}"); // two pauses of a second
    }
}

/// A server that answers one request, waits until the test says that it has seen the answer, then says that the session has expired, and
/// serves the next one.
fn expiring() -> (Partner, mpsc::Sender<()>) {
    let (seen, is_seen) = mpsc::channel();
    let partner = Partner::start(move |number, mut line| {
        if number == 1 {
            line.expire();
        } else if line.admit(60_000) {
            let request = line.request().unwrap();
            line.answer(&request);
            if number == 0 {
                let _ = is_seen.recv(); // it fails if the test has failed
            } else {
                line.serve();
            }
        }
    });
    (partner, seen)
}

#[test]
fn what_follows_ends_with_its_session() {
    let (partner, seen) = expiring();
    let session = Session::open(partner.address, TIMEOUT).unwrap();
    let mut nodes = session.follow("/a");
    assert!(nodes.next().unwrap().is_ok());
    seen.send(()).unwrap();
    let ended = nodes.next().unwrap().unwrap_err();
    assert_eq!(ended.no_reply(), Some(NoReply::SessionExpired));
    assert!(nodes.next().is_none());
    assert_eq!(session.state(), Some(State::Expired));
    let expired = session.get("/a").unwrap_err();
    assert_eq!(expired.no_reply(), Some(NoReply::SessionExpired));
    assert_eq!(session.peek("/a"), Ok(None));
    sleep(millis(1_000));
    assert_eq!(partner.dials(), 2, "it dials no more");
    let no_path = session.follow("a").next().unwrap().unwrap_err();
    let why = "a is no path: no slash at its beginning";
    assert_eq!(no_path.to_string(), why);
}

#[test]
fn what_is_followed_goes_on_with_a_renewed_session() {
    let (partner, seen) = expiring();
    let session = Session::open(partner.address, TIMEOUT).unwrap().shared();
    let follower = session.clone();
    let (sender, told) = mpsc::channel();
    thread::spawn(move || {
        for node in follower.follow("/a") {
            sender.send(node.map(drop)).unwrap();
        }
    });
    assert_eq!(told.recv_timeout(PATIENCE), Ok(Ok(())));
    seen.send(()).unwrap();
    assert!(told.recv_timeout(PATIENCE).unwrap().is_err());
    session.renew().unwrap();
    assert!(session.create("/mine", b"", Mode::Ephemeral).is_ok());
    assert!(session.follow("/a").next().unwrap().is_ok());
}

#[test]
fn how_old_an_answer_may_be_is_told() {
    let partner = Partner::serving();
    let mut session = LocalSession::open(partner.address, TIMEOUT).unwrap();
    assert_eq!(session.age(), None);
    session.watch("/a").unwrap();
    sleep(millis(300));
    let age = session.age().unwrap();
    assert!(age >= millis(299) && age < millis(300) + SLACK, "{age:?}");
    let asked = Instant::now();
    session.exists("/a").unwrap();
    let age = session.age().unwrap();
    assert!(age <= asked.elapsed() + millis(1), "{age:?}"); // moments are whole milliseconds
}
