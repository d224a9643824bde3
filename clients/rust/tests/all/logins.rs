//! The log-in by SASL. The server does what each test says, frame by frame.

use crate::jute::{Record, GET_DATA};
use crate::partner::{Line, Partner};
use crate::{PATIENCE, TIMEOUT};
use dirwolleu::{Code, Event, Session, SessionOptions, State};
use std::error::Error;
use std::sync::mpsc;
use std::time::{Duration, Instant};

const LOG_IN: i32 = 102;
const FIRST_XID: i32 = -1001;

/// Sends nothing, then its name, and expects the server to say that it knows it.
fn step(challenge: Option<&[u8]>) -> Result<Option<Vec<u8>>, Box<dyn Error + Send + Sync>> {
    match challenge {
        None => Ok(Some(Vec::new())),
        Some(b"who?") => Ok(Some(b"app".to_vec())),
        Some(b"known") => Ok(None),
        Some(_) => Err("the server does not know me".into()),
    }
}

fn options() -> SessionOptions {
    SessionOptions::new(TIMEOUT).log_in(|| step)
}

/// Expects a token as the next request, with this xid.
fn expect_token(line: &mut Line, xid: i32, token: &[u8]) {
    let request = line.request().unwrap();
    assert_eq!((request.xid, request.kind), (xid, LOG_IN));
    assert_eq!(request.rest, Record::new().buffer(token).framed()[4..]);
}

fn challenge(xid: i32, bytes: &[u8]) -> Vec<u8> {
    Record::reply(xid, 0, 0).buffer(bytes).framed()
}

fn admit_by_log_in(line: &mut Line) {
    line.admit(60_000);
    expect_token(line, FIRST_XID, b"");
    line.send(&challenge(FIRST_XID, b"who?"));
    expect_token(line, FIRST_XID - 1, b"app");
    line.send(&challenge(FIRST_XID - 1, b"known"));
}

#[test]
fn nothing_is_asked_before_the_log_in_is_over_on_each_connection() {
    let (sender, told) = mpsc::channel();
    let partner = Partner::start(move |number, mut line| {
        admit_by_log_in(&mut line);
        while let Some(request) = line.request() {
            sender.send((number, request.kind)).unwrap();
            if number == 0 && request.kind == GET_DATA {
                return;
            }
            line.tell_data(request.xid);
        }
    });
    let session = options().open(partner.address).unwrap();
    assert!(session.get("/a").is_ok());
    for number in [0, 1] {
        assert_eq!(told.recv_timeout(PATIENCE).unwrap(), (number, GET_DATA));
    }
}

#[test]
fn the_log_in_comes_in_pieces_of_a_byte() {
    let partner = Partner::start(|_, mut line| {
        let dribble = |line: &mut Line, bytes: &[u8]| {
            for byte in bytes {
                line.send(&[*byte]);
            }
        };
        line.frame();
        dribble(&mut line, &Record::accepted(60_000, 0x1234));
        expect_token(&mut line, FIRST_XID, b"");
        dribble(&mut line, &challenge(FIRST_XID, b"who?"));
        expect_token(&mut line, FIRST_XID - 1, b"app");
        dribble(&mut line, &challenge(FIRST_XID - 1, b"known"));
        while let Some(request) = line.request() {
            line.tell_data(request.xid);
        }
    });
    let session = options().open(partner.address).unwrap();
    assert!(session.get("/a").is_ok());
}

fn expect_refused(session: &Session, partner: &Partner, words: &str) {
    while session.next_event(Some(Instant::now() + PATIENCE)).unwrap()
        != Some(Event::CredentialsRefused)
    {}
    let refused = session.get("/a").unwrap_err();
    assert_eq!(refused.code(), Some(Code::AUTH_FAILED), "{words}");
    assert_eq!(session.state(), Some(State::Closed));
    std::thread::sleep(Duration::from_millis(500));
    assert_eq!(partner.dials(), 1, "it dials no more");
}

#[test]
fn who_is_not_taken_has_no_session() {
    for code in [-115, -124] {
        let partner = Partner::start(move |_, mut line| {
            line.admit(60_000);
            expect_token(&mut line, FIRST_XID, b"");
            line.refuse(FIRST_XID, code);
            line.frame();
        });
        let session = options().open_lazily(partner.address).unwrap();
        expect_refused(&session, &partner, "a code");
    }
    let partner = Partner::start(|_, mut line| {
        line.admit(60_000);
        expect_token(&mut line, FIRST_XID, b"");
        line.send(&challenge(FIRST_XID, b"others"));
        line.frame();
    });
    let session = options().open_lazily(partner.address).unwrap();
    expect_refused(&session, &partner, "a step that fails");
}

#[test]
fn what_is_no_refusal_is_tried_again() {
    for first in [
        Record::reply(FIRST_XID, 0, -4).framed(),
        Record::reply(FIRST_XID, 0, 0).int(7).framed(),
        vec![255; 8],
    ] {
        let partner = Partner::start(move |number, mut line| {
            if number == 0 {
                line.admit(60_000);
                expect_token(&mut line, FIRST_XID, b"");
                line.send(&first);
                line.frame();
                return;
            }
            admit_by_log_in(&mut line);
            while let Some(request) = line.request() {
                line.tell_data(request.xid);
            }
        });
        let session = options().open(partner.address).unwrap();
        assert!(session.get("/a").is_ok());
        assert_eq!(partner.dials(), 2);
    }
}

#[test]
fn a_session_without_a_thread_logs_in() {
    let partner = Partner::start(|_, mut line| {
        admit_by_log_in(&mut line);
        while let Some(request) = line.request() {
            line.tell_data(request.xid);
        }
    });
    let mut session = options().open_local(partner.address).unwrap();
    assert!(session.get("/a").is_ok());
}
