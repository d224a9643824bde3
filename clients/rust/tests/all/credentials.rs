//! A session's credentials and servers' answers to them. The server does what each test says, frame by frame.

use crate::jute::{Record, CLOSE_SESSION, GET_CHILDREN_2, GET_DATA};
use crate::partner::{Partner, Request};
use crate::{kind_of, PATIENCE, TIMEOUT};
use dirwolleu::{
    Code, ErrorKind, Event, Mark, NoReply, Request as Asked, Session, SessionOptions, State,
};
use std::sync::mpsc;
use std::time::{Duration, Instant};

/// The type of a request with credentials, and the xid of it and its answer.
const AUTH: i32 = 100;
const AUTH_XID: i32 = -4;

/// A server that accepts each credential and closes each session, unless the connection ends: at a request of this type on the first one.
/// It sends the number of the connection and the request to the test.
fn taking(ends_at: Option<i32>) -> (Partner, mpsc::Receiver<(usize, Request)>) {
    let (sender, told) = mpsc::channel();
    let partner = Partner::start(move |number, mut line| {
        line.admit(60_000);
        while let Some(request) = line.request() {
            sender.send((number, request.clone())).unwrap();
            match request.kind {
                kind if number == 0 && Some(kind) == ends_at => return,
                AUTH => line.refuse(AUTH_XID, 0),
                CLOSE_SESSION => line.refuse(request.xid, 0),
                _ => line.tell_data(request.xid),
            };
        }
    });
    (partner, told)
}

#[test]
fn credentials_are_told_first_on_each_connection() {
    let (partner, told) = taking(Some(GET_DATA));
    let options = SessionOptions::new(TIMEOUT).auth("digest", b"ann:secret");
    let session = options.open(partner.address).unwrap();
    assert!(session.get("/a").is_ok());
    assert_eq!(session.add_auth("digest", b"bob:secret"), Ok(()));
    let spelled = |secret: &[u8]| {
        let record = Record::new().int(0).text("digest").buffer(secret);
        record.framed()[4..].to_vec()
    };
    let is_credential = |number, secret| {
        let (of, request) = told.recv_timeout(PATIENCE).unwrap();
        assert_eq!(
            (of, request.xid, request.kind, request.rest),
            (number, AUTH_XID, AUTH, spelled(secret))
        );
    };
    for number in [0, 1] {
        is_credential(number, b"ann:secret");
        assert_eq!(told.recv_timeout(PATIENCE).unwrap().1.kind, GET_DATA);
    }
    is_credential(1, b"bob:secret");
}

#[test]
fn credentials_that_are_refused_end_all_calls() {
    let partner = Partner::start(|_, mut line| {
        line.admit(60_000);
        line.request();
        line.refuse(AUTH_XID, Code::AUTH_FAILED.0);
    });
    let options = SessionOptions::new(TIMEOUT).auth("nobody", b"knows");
    let session = options.open_lazily(partner.address).unwrap();
    let refused = Some(Code::AUTH_FAILED);
    while session.next_event(Some(Instant::now() + PATIENCE)).unwrap()
        != Some(Event::CredentialsRefused)
    {}
    for _ in 0..2 {
        assert_eq!(session.get("/a").unwrap_err().code(), refused);
    }
    assert_eq!(session.state(), Some(State::Closed));
    std::thread::sleep(Duration::from_secs(1));
    assert_eq!(partner.dials(), 1, "it dials no more");
}

#[test]
fn credentials_that_are_refused_end_what_is_good() {
    let partner = Partner::answering(|line, request| {
        let reply = Record::reply(request.xid, 5, 0);
        match request.kind {
            AUTH => true,
            GET_DATA => line.tell_data(request.xid),
            GET_CHILDREN_2 => line.send(&reply.texts(&[]).stat(5, 0, 3, 0).framed()),
            _ => line.refuse(AUTH_XID, Code::AUTH_FAILED.0),
        };
    });
    let options = SessionOptions::new(TIMEOUT).auth("nobody", b"knows");
    let session = options.open(partner.address).unwrap();
    let tree = session.tree("/a").unwrap();
    tree.wait_for(PATIENCE).unwrap();
    assert_eq!(session.data_mark("/a"), Ok(Some(Mark::Good)));
    assert!(tree.current().is_some());
    let refused = session.exists("/b").unwrap_err();
    assert_eq!(refused.code(), Some(Code::AUTH_FAILED));
    assert_eq!(session.data_mark("/a"), Ok(None));
    assert_eq!(session.peek_children("/a"), Ok(None));
    let snapshot = session.snapshot(&["/a"], &["/a"]).unwrap();
    assert!(snapshot.is_none());
    assert_eq!((tree.current(), tree.latest().is_some()), (None, true));
    session.renew().unwrap();
    tree.wait_for(PATIENCE).unwrap();
}

/// The session is over then, as with credentials that it was opened with.
#[test]
fn credentials_that_are_added_and_refused_are_told_to_their_caller() {
    let partner = Partner::start(|_, mut line| {
        line.admit(60_000);
        while let Some(request) = line.request() {
            match request.kind {
                AUTH => {
                    line.refuse(AUTH_XID, Code::AUTH_FAILED.0);
                    return;
                }
                _ => line.tell_data(request.xid),
            };
        }
    });
    let session = Session::open(partner.address, TIMEOUT).unwrap();
    let refused = session.add_auth("nobody", b"knows");
    assert_eq!(kind_of(refused), Code::AUTH_FAILED.into());
    assert_eq!(kind_of(session.get("/a")), Code::AUTH_FAILED.into());
    assert_eq!(session.state(), Some(State::Closed));
    assert_eq!(partner.dials(), 1);
}

#[test]
fn credentials_wait_for_a_connection_and_go_first() {
    let (partner, told) = taking(Some(AUTH));
    let options = SessionOptions::new(TIMEOUT);
    let session = options.open_lazily(partner.address).unwrap();
    let node = session.ask(Asked::get("/a"));
    let added = session.ask(Asked::auth("digest", b"ann:secret"));
    assert_eq!(added.wait_for(PATIENCE), Ok(()));
    assert!(node.wait_for(PATIENCE).is_ok());
    assert_eq!(session.add_auth("digest", b"ann:secret"), Ok(()));
    let told = told.try_iter().filter(|(_, asked)| asked.kind == AUTH);
    let numbers: Vec<_> = told.map(|(number, _)| number).collect();
    assert_eq!(numbers, [0, 1], "each connection once");
}

#[test]
fn a_call_whose_credentials_have_no_answer_ends_at_its_limit() {
    let partner = Partner::answering(|line, request| {
        if request.kind != AUTH {
            line.tell_data(request.xid);
        }
    });
    let session = Session::open(partner.address, TIMEOUT).unwrap();
    let limited = Asked::auth("digest", b"ann:secret").within(Duration::from_secs(1));
    assert_eq!(kind_of(session.call(limited)), ErrorKind::TimedOut);
    let nobody = SessionOptions::new(TIMEOUT).open_lazily("127.0.0.1:1");
    let limited = Asked::auth("digest", b"ann:secret").within(Duration::from_secs(1));
    let late = nobody.unwrap().call(limited).unwrap_err();
    assert_eq!(late.no_reply(), Some(NoReply::NotConnected));
}

#[test]
fn a_session_that_is_renewed_introduces_itself_again() {
    let (partner, told) = taking(None);
    let options = SessionOptions::new(TIMEOUT).auth("digest", b"ann:secret");
    let session = options.open(partner.address).unwrap().shared();
    assert_eq!(session.add_auth("digest", b"bob:secret"), Ok(()));
    session.close().unwrap();
    session.renew().unwrap();
    assert!(session.call(Asked::get("/a").within(PATIENCE)).is_ok());
    let told = told.try_iter();
    let kinds: Vec<_> = told.map(|(number, asked)| (number, asked.kind)).collect();
    let first = [(0, AUTH), (0, AUTH), (0, CLOSE_SESSION)];
    assert_eq!(kinds[..3], first);
    assert_eq!(kinds[3..], [(1, AUTH), (1, AUTH), (1, GET_DATA)]);
}
