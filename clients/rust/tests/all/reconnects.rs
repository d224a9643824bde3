//! How a session behaves when servers go, refuse, or hold it up. The server does what each test says.

use crate::example;
use crate::jute::{self, GET_DATA, PING};
use crate::partner::{Line, Partner};
use crate::runtime::block_on;
use crate::{kind_of, millis, PATIENCE, SLACK};
use dirwolleu::{
    Code, Error, Event, LocalSession, Mark, NoReply, Request, Session, State, ANY_VERSION,
};
use std::fmt::Debug;
use std::fs::OpenOptions;
use std::io::{BufRead, BufReader};
use std::mem;
use std::process::{Command, Stdio};
use std::sync::mpsc::channel;
use std::thread::{self, sleep};
use std::time::{Duration, Instant};

fn session_at(partner: &Partner, timeout: Duration) -> LocalSession {
    LocalSession::open([partner.address], timeout).unwrap()
}

/// Goes on until the partner is dialled. Returns when.
fn next_dial(session: &mut LocalSession, partner: &Partner) -> Instant {
    let until = Instant::now() + PATIENCE;
    loop {
        if let Some(dial) = partner.dial_so_far() {
            return dial;
        }
        assert!(Instant::now() < until, "it is not dialled");
        go_on(session, millis(20));
    }
}

/// Goes on for this long.
fn go_on(session: &mut LocalSession, time: Duration) {
    let until = Instant::now() + time;
    while session.next_event(Some(until)).unwrap().is_some() {}
}

/// Sends these bytes again and again, from a thread, until the client ends the connection.
fn dribble(mut line: Line, bytes: Vec<u8>) {
    thread::spawn(move || {
        while line.send(&bytes) {
            sleep(millis(50));
        }
    });
}

#[test]
fn a_session_that_may_live_is_not_left_alone_for_long() {
    let partner = Partner::start(|number, mut line| {
        if number == 0 && line.admit(6_000) {
            let request = line.request().unwrap();
            line.tell_stat(request.xid);
        }
    });
    let mut session = session_at(&partner, millis(6_000));
    session.exists("/").unwrap();
    let dials: Vec<Instant> = (0..7).map(|_| next_dial(&mut session, &partner)).collect();
    for pair in dials[1..].windows(2) {
        let pause = pair[1] - pair[0];
        assert!(pause < millis(600) + SLACK, "{pause:?}");
    }
}

#[test]
fn a_server_that_admits_and_closes_is_dialled_three_times_a_second_at_most() {
    let partner = Partner::start(|_, mut line| {
        line.admit(60_000);
    });
    let begun = Instant::now();
    let mut session = session_at(&partner, millis(10_000));
    let last = [(); 7].map(|()| next_dial(&mut session, &partner))[6];
    let took = last - begun;
    assert!(took > millis(2_000), "7 attempts in {took:?}"); // a row of failures, with pauses up to a second
}

#[test]
fn an_answer_is_no_reason_to_dial_at_once() {
    let partner = Partner::start(|_, mut line| {
        if line.admit(60_000) {
            let request = line.request();
            request.map(|request| line.tell_stat(request.xid));
        }
    });
    let mut session = session_at(&partner, millis(10_000));
    let (begun, mut dials) = (Instant::now(), 0);
    while dials < 7 {
        assert!(begun.elapsed() < PATIENCE, "it dials no more");
        let _ = session.exists("/");
        dials += partner.dials();
    }
    let took = begun.elapsed();
    assert!(took > millis(1_800), "{dials} attempts in {took:?}");
}

#[test]
fn a_timeout_of_a_millisecond_does_not_lock_the_client_out() {
    let partner = Partner::start(|number, mut line| {
        if number == 0 {
            line.admit(1);
            return;
        }
        line.frame();
        sleep(millis(200));
        line.send(&jute::Record::accepted(60_000, 0x1234));
        line.serve();
    });
    let mut session = session_at(&partner, millis(10_000));
    let until = Instant::now() + PATIENCE;
    while session.exists("/").is_err() {
        assert!(Instant::now() < until, "the client is locked out");
    }
}

#[test]
fn a_program_that_was_stopped_keeps_a_server_that_has_sent_something() {
    let (stop, stopped) = channel();
    let (note, told) = channel();
    let partner = Partner::start(move |_, mut line| {
        line.admit(12_000);
        let request = line.request().unwrap();
        line.tell_data(request.xid);
        stopped.recv_timeout(PATIENCE).unwrap();
        line.send(&jute::Record::notice(3, "/a"));
        note.send(()).unwrap();
        line.serve();
    });
    let mut session = session_at(&partner, millis(12_000));
    session.watch("/a").unwrap();
    stop.send(()).unwrap();
    sleep(millis(8_300));
    told.recv_timeout(PATIENCE).unwrap();
    let answer = session.call(Request::exists("/").within(PATIENCE));
    assert!(answer.unwrap().is_some());
    let mark = session.data_mark("/a");
    assert_eq!(mark, Ok(Some(Mark::Stale)));
    assert_eq!(partner.dials(), 1, "the connection goes on");
}

#[test]
fn events_that_nobody_takes_are_bounded() {
    const CHANGES: u64 = 1_500;
    let partner = Partner::start(|_, mut line| {
        line.admit(60_000);
        while let Some(request) = line.request() {
            line.tell_data(request.xid);
            line.send(&jute::Record::notice(3, "/a"));
        }
    });
    let mut session = session_at(&partner, millis(60_000));
    for _ in 0..CHANGES {
        session.call(Request::get("/a").watched()).unwrap();
    }
    session.exists("/").unwrap();
    let missed = session.next_event(None).unwrap();
    let most = 1_024;
    assert_eq!(missed, Some(Event::Missed(CHANGES + 2 - most))); // Connecting and Connected are events too
    let rest = (0..most).map(|_| session.next_event(None).unwrap());
    assert!(rest
        .into_iter()
        .all(|event| matches!(event, Some(Event::Report { .. }))));
    assert_eq!(session.next_event(Some(Instant::now())), Ok(None));
}

#[test]
fn the_example_goes_on_where_a_read_is_refused() {
    let mut codes = vec![-127, -118, -112, -4];
    let partner = Partner::answering(move |line, request| {
        if request.kind != GET_DATA {
            line.refuse(request.xid, 0); // a ping, which takes no code away
        } else if let Some(code) = codes.pop() {
            line.refuse(request.xid, code);
        } else {
            line.tell_data(request.xid);
        }
    });
    let begun = Instant::now();
    let mut command = Command::new(example::follow());
    command.arg(partner.address.to_string()).arg("/config");
    let mut child = command.stdout(Stdio::piped()).spawn().unwrap();
    let mut line = String::new();
    let mut output = BufReader::new(child.stdout.take().unwrap());
    output.read_line(&mut line).unwrap();
    child.kill().unwrap();
    child.wait().unwrap();
    assert_eq!(line, "/config version 0: one\n");
    let took = begun.elapsed();
    assert!(
        took >= millis(2_000),
        "two of four refusals leave the connection, and the read is made again after a second each: {took:?}"
    );
}

/// Answers the first read with a code that nobody knows.
fn refuse_once(mut line: Line) {
    line.admit(60_000);
    let mut is_refused = false;
    while let Some(request) = line.request() {
        match request.kind {
            GET_DATA if !is_refused => {
                is_refused = true;
                line.refuse(request.xid, -999)
            }
            GET_DATA => line.tell_data(request.xid),
            _ => line.refuse(request.xid, 0),
        };
    }
}

#[test]
fn the_example_tells_a_code_that_nobody_knows_and_goes_on() {
    let partner = Partner::start(|_, line| refuse_once(line));
    let mut command = Command::new(example::follow());
    command.arg(partner.address.to_string()).arg("/config");
    command.stdout(Stdio::piped()).stderr(Stdio::piped());
    let mut child = command.spawn().unwrap();
    let mut output = BufReader::new(child.stdout.take().unwrap());
    let mut said = BufReader::new(child.stderr.take().unwrap());
    let (mut line, mut error) = (String::new(), String::new());
    output.read_line(&mut line).unwrap();
    said.read_line(&mut error).unwrap();
    child.kill().unwrap();
    child.wait().unwrap();
    assert_eq!(line, "/config version 0: one\n");
    assert_eq!(error, "the server answers -999: /config\n");
}

#[test]
fn the_example_says_why_it_cannot_print() {
    let partner = Partner::start(|_, line| refuse_once(line));
    let full = OpenOptions::new().write(true).open("/dev/full").unwrap();
    let mut command = Command::new(example::follow());
    command.arg(partner.address.to_string()).arg("/config");
    let ended = command.stdout(full).output().unwrap();
    let said = String::from_utf8(ended.stderr).unwrap();
    assert_eq!(ended.status.code(), Some(1), "{said}");
    let last = said.lines().last().unwrap();
    assert!(
        last.starts_with("follow: No space left on device"),
        "{said}"
    );
}

#[test]
fn data_that_are_denied_of_a_node_are_read_again_after_a_second() {
    let mut denials = 2;
    let partner = Partner::answering(move |line, request| {
        match request.kind {
            GET_DATA if denials > 0 => {
                denials -= 1;
                line.refuse(request.xid, Code::NO_NODE.0)
            }
            GET_DATA => line.tell_data(request.xid),
            _ => line.tell_stat(request.xid),
        };
    });
    let mut session = session_at(&partner, millis(10_000));
    let begun = Instant::now();
    assert!(session.watch("/a").unwrap().is_some());
    let took = begun.elapsed();
    assert!(took >= millis(2_000), "two reads are denied: {took:?}");
}

#[test]
fn a_server_that_dribbles_is_left_while_it_connects() {
    let partner = Partner::start(|number, mut line| {
        if number == 0 {
            line.send(&[0, 32, 0, 0]); // a frame of two million bytes
            dribble(line, vec![0]);
        }
    });
    let begun = Instant::now();
    let mut session = session_at(&partner, millis(1_500));
    let second = [(); 2].map(|()| next_dial(&mut session, &partner))[1];
    let took = second - begun;
    let least = millis(999); // two thirds of the timeout
    assert!(took >= least && took < least + SLACK, "{took:?}");
}

/// A server that repeats these bytes instead of answering the first call, and is well on the next connection. A ping is no call: one comes
/// before it if the machine is busy.
fn distracted(bytes: Vec<u8>) -> Partner {
    let mut is_well = false;
    Partner::start(move |_, mut line| {
        line.admit(9_000);
        while let Some(request) = line.request() {
            if request.kind != PING && !mem::replace(&mut is_well, true) {
                dribble(line, bytes.clone());
                return;
            }
            line.answer(&request);
        }
    })
}

/// A write that may wait for long.
fn patient() -> Request<()> {
    Request::delete("/a", ANY_VERSION).within(millis(30_000))
}

/// Checks that a call is lost after two thirds of the timeout of nine seconds. If the server is held up that long, a ping loses it earlier.
fn is_lost_in_time<T: Debug>(call: impl FnOnce() -> Result<T, Error>) {
    let begun = Instant::now();
    let lost = call();
    let took = begun.elapsed();
    assert_eq!(kind_of(lost), NoReply::ConnectionLoss.into());
    assert!(
        took >= millis(5_990) && took < millis(6_000) + SLACK,
        "{took:?}"
    );
}

#[test]
fn a_call_that_is_not_answered_is_lost_whatever_else_comes() {
    let opened = |partner: &Partner| Session::open(partner.address, millis(9_000)).unwrap();
    thread::scope(|scope| {
        scope.spawn(|| {
            let partner = distracted(jute::Record::notice(3, "/a"));
            let mut session = session_at(&partner, millis(9_000));
            is_lost_in_time(|| session.call(patient()));
        });
        scope.spawn(|| {
            let partner = distracted(jute::Record::notice(3, "/a"));
            let session = opened(&partner);
            is_lost_in_time(|| session.call(patient()));
        });
        let partner = distracted(jute::Record::notice(3, "/a"));
        let session = opened(&partner);
        is_lost_in_time(|| block_on(session.ask(patient())));
    });
}

#[test]
fn a_raw_call_that_is_not_answered_is_lost_too() {
    let partner = distracted(jute::Record::notice(3, "/a"));
    let session = Session::open(partner.address, millis(9_000)).unwrap();
    let write = Request::set_acls("/", &[], ANY_VERSION);
    is_lost_in_time(|| session.call(write.within(millis(30_000))));
}

#[test]
fn a_read_that_is_not_answered_is_asked_of_another_server() {
    let partner = distracted(jute::Record::notice(3, "/a"));
    let mut session = session_at(&partner, millis(9_000));
    let read = Request::exists("/a").within(millis(30_000));
    assert!(session.call(read).unwrap().is_some());
    assert!(partner.dials() >= 2);
    let partner = distracted(jute::Record::notice(3, "/a"));
    let mut session = session_at(&partner, millis(9_000));
    let sync = Request::sync("/").within(millis(30_000));
    assert_eq!(session.call(sync), Ok(()));
    assert!(partner.dials() >= 2);
}

/// The ping goes out after a third of the timeout, and may take two thirds. On a machine so busy that the server is silent for as long, its
/// silence ends the connection, which is sooner.
#[test]
fn a_ping_that_is_not_answered_ends_the_connection() {
    let partner = Partner::start(|_, mut line| {
        line.admit(3_000);
        dribble(line, jute::Record::notice(3, "/a"));
    });
    let begun = Instant::now();
    let mut session = session_at(&partner, millis(3_000));
    while session.next_event(None).unwrap() != Some(Event::State(State::Connected)) {}
    while session.next_event(None).unwrap() != Some(Event::State(State::Idle)) {}
    let (age, took) = (session.age().unwrap(), begun.elapsed());
    let is_silent = age > millis(1_000);
    assert!(is_silent || took >= millis(2_990), "{took:?}, {age:?}");
    assert!(took < 10 * millis(3_000), "{took:?}");
}

#[test]
fn a_program_that_was_stopped_keeps_a_server_that_has_answered() {
    let (note_ping, pinged) = channel();
    let (stop, stopped) = channel();
    let (note_answer, answered) = channel();
    let partner = Partner::start(move |_, mut line| {
        line.admit(12_000);
        let ping = line.request().unwrap();
        note_ping.send(()).unwrap();
        stopped.recv_timeout(PATIENCE).unwrap();
        line.refuse(ping.xid, 0);
        note_answer.send(()).unwrap();
        line.serve();
    });
    let mut session = session_at(&partner, millis(12_000));
    while pinged.try_recv().is_err() {
        go_on(&mut session, millis(20));
    }
    stop.send(()).unwrap();
    sleep(millis(8_300));
    answered.recv_timeout(PATIENCE).unwrap();
    assert_eq!(session.state(), None);
    let answer = session.call(Request::exists("/").within(PATIENCE));
    assert!(answer.unwrap().is_some());
    assert_eq!(partner.dials(), 1, "the connection goes on");
}
