//! How long the frames of a session may be.

use crate::jute::{Record, GET_DATA, PING, PONG};
use crate::partner::{Line, Partner};
use crate::{kind_of, PATIENCE, TIMEOUT};
use dirwolleu::{Fault, NoReply, OpenError, SessionOptions, ANY_VERSION};
use std::sync::mpsc::{channel, Sender};

/// How many bytes a frame has besides its length and the data: the answer to a get, and a set of `/a`.
const OF_ANSWER: usize = 16 + 4 + 68;
const OF_SET: usize = 8 + 6 + 4 + 4;

const RAISED: usize = 5_000_000;
const HIGHEST: usize = 1_073_741_823;

fn options() -> SessionOptions {
    SessionOptions::new(TIMEOUT).limit(PATIENCE)
}

/// Admits a session, and answers each get with a frame of this many bytes after its length, and any other request with a `Stat`. It sends
/// the lengths of the other requests to the test.
fn serve(mut line: Line, size: usize, lengths: &Sender<usize>) {
    line.admit(60_000);
    line.each(|line, request| {
        match request.kind {
            PING => line.refuse(PONG, 0),
            GET_DATA => {
                let reply = Record::reply(request.xid, 5, 0).buffer(&vec![7; size - OF_ANSWER]);
                line.send(&reply.stat(5, 0, 3, 0).framed())
            }
            _ => {
                let _ = lengths.send(8 + request.rest.len());
                line.tell_stat(request.xid)
            }
        };
    });
}

#[test]
fn an_answer_is_as_long_as_it_may_be() {
    let raised = || options().longest_answer(RAISED);
    let rows = [
        (options(), 4_194_304, true),
        (options(), 4_194_305, false),
        (raised(), RAISED, true),
        (raised(), RAISED + 1, false),
    ];
    for (options, size, is_taken) in rows {
        let lengths = channel().0;
        let partner = Partner::start(move |number, line| {
            serve(line, if number == 0 { size } else { 100 }, &lengths);
        });
        let session = options.open(partner.address).unwrap();
        if !is_taken {
            assert_eq!(kind_of(session.get("/a")), NoReply::TooLarge.into());
        }
        let data = session.get("/a").unwrap().data.unwrap();
        let (length, dials) = if is_taken { (size, 1) } else { (100, 2) };
        assert_eq!((data.len(), partner.dials()), (length - OF_ANSWER, dials));
    }
}

#[test]
fn a_request_is_as_long_as_it_may_be() {
    let rows = [
        (options(), 1_048_575),
        (options().longest_request(RAISED), RAISED),
    ];
    for (options, longest) in rows {
        let (sender, lengths) = channel();
        let partner = Partner::start(move |_, line| serve(line, 100, &sender));
        let session = options.open(partner.address).unwrap();
        let mut data = vec![7; longest - OF_SET];
        assert!(session.set("/a", &data, ANY_VERSION).is_ok());
        assert_eq!(lengths.try_recv(), Ok(longest));
        data.push(7);
        let refused = session.set("/a", &data, ANY_VERSION);
        assert_eq!(kind_of(refused), NoReply::TooLarge.into());
        assert!(session.set("/a", b"", ANY_VERSION).is_ok());
        assert_eq!(lengths.try_recv(), Ok(OF_SET), "nothing was sent before it");
    }
}

/// A server that cuts the first connection once something was asked on it, and on the second says that the session has expired.
fn expiring() -> Partner {
    let lengths = channel().0;
    Partner::start(move |number, mut line| match number {
        0 => drop((line.admit(60_000), line.frame())),
        1 => drop((line.frame(), line.send(&Record::expired()))),
        _ => serve(line, RAISED, &lengths),
    })
}

#[test]
fn limits_stand_in_a_session_that_begins_after_another() {
    for renews in [true, false] {
        let partner = expiring();
        let raised = options().longest_answer(RAISED).renews(renews);
        let session = raised.open(partner.address).unwrap();
        let mut got = session.get("/a");
        while got.is_err() {
            assert_eq!(kind_of(got), NoReply::SessionExpired.into());
            if !renews {
                session.renew().unwrap();
            }
            got = session.get("/a");
        }
        let data = got.unwrap().data.unwrap();
        assert_eq!((data.len(), partner.dials()), (RAISED - OF_ANSWER, 3));
    }
}

#[test]
fn limits_that_no_session_may_have_are_refused() {
    let rows = [
        options().longest_answer(4_194_303),
        options().longest_request(1_048_574),
        options().longest_answer(HIGHEST + 1),
        options().longest_request(HIGHEST + 1),
        options().longest_answer(0),
    ];
    let wanted = Fault::NoSuchLimits.to_string();
    for options in rows {
        let refused = options.open("127.0.0.1:1").unwrap_err();
        assert!(matches!(refused, OpenError::Fault(Fault::NoSuchLimits)));
        assert_eq!(refused.to_string(), wanted);
    }
    let highest = options().longest_answer(HIGHEST).longest_request(HIGHEST);
    assert!(highest.open_local("127.0.0.1:1").is_ok());
}
