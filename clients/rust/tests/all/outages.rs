//! Servers that are behind, that never answer, and that stay away; and when a session that asks nothing hears something.

use crate::jute::{Record, GET_DATA, PING, PONG, SET_WATCHES, WATCHES_SET};
use crate::partner::{Line, Partner, Request};
use crate::sessions::{wait_for, wait_for_state};
use crate::{millis, PATIENCE, SLACK};
use dirwolleu::{
    Cause, Error, Event, Mark, NoReply, Request as Call, Server, Session, SessionOptions, State,
    Tcp,
};
use std::net::{SocketAddr, TcpListener};
use std::sync::atomic::{AtomicUsize, Ordering};
use std::sync::{mpsc, Arc};
use std::thread::{self, sleep};
use std::time::{Duration, Instant};

/// The mark of the kept data of `/a`.
fn mark(session: &Session) -> Option<Mark> {
    session.data_mark("/a").unwrap()
}

/// The contents of a `ConnectRequest`: the greatest zxid that the client has seen, and its session.
fn asked(connect_request: &[u8]) -> (i64, i64) {
    let long = |at: usize| i64::from_be_bytes(connect_request[at..at + 8].try_into().unwrap());
    (long(4), long(16))
}

/// Answers as a server that holds the transactions up to this zxid, until the client ends the connection.
fn serve_at(line: &mut Line, zxid: i64) {
    while let Some(request) = line.request() {
        serve_one_at(line, &request, zxid);
    }
}

fn serve_one_at(line: &mut Line, request: &Request, zxid: i64) -> bool {
    let reply = |xid| Record::reply(xid, zxid, 0);
    let frame = match request.kind {
        PING => reply(PONG),
        SET_WATCHES => reply(WATCHES_SET),
        GET_DATA => reply(request.xid).buffer(b"one").stat(zxid, 0, 3, 0),
        _ => reply(request.xid).stat(zxid, 0, 3, 0),
    };
    line.send(&frame.framed())
}

/// The servers of an ensemble in the order in which they are dialled: one that holds zxid 9 and goes, one that refuses a client that has
/// seen more than it holds, one that admits all the same, and one that has caught up.
fn serve_behind(number: usize, mut line: Line, requests: &mpsc::Sender<Vec<u8>>) {
    let request = line.frame().unwrap();
    requests.send(request).unwrap();
    if number == 1 {
        return;
    }
    line.send(&Record::accepted(60_000, 0x1234));
    match number {
        0 => {
            let request = line.request().unwrap();
            serve_one_at(&mut line, &request, 9);
        }
        2 => serve_at(&mut line, 5),
        _ => serve_at(&mut line, 10),
    }
}

#[test]
fn a_server_that_is_behind_is_not_believed() {
    let (sender, requests) = mpsc::channel();
    let partner = Partner::start(move |number, line| serve_behind(number, line, &sender));
    let session = Session::open(partner.address, millis(10_000)).unwrap();
    let watched = || session.call(Call::get("/a").watched());
    assert_eq!(watched().unwrap().stat.mzxid, 9);
    wait_for_state(&session, State::Idle);
    wait_for_state(&session, State::Connected);
    assert_eq!(mark(&session), Some(Mark::Good));
    assert_eq!(watched().unwrap().stat.mzxid, 10); // by the next server
    let dropped = wait_for(&session, |event| matches!(event, Event::Dropped { .. }));
    let Event::Dropped { cause, .. } = dropped else {
        unreachable!()
    };
    assert_eq!(cause, Cause::Behind { zxid: 5 });
    assert_eq!(
        (session.last_zxid(), mark(&session)),
        (10, Some(Mark::Good))
    );
    let asked: Vec<_> = requests.try_iter().map(|request| asked(&request)).collect();
    assert_eq!(asked, [(0, 0), (9, 0x1234), (9, 0x1234), (9, 0x1234)]);
}

#[test]
fn a_server_that_accepts_and_never_answers_is_left() {
    let mut silent = None;
    let partner = Partner::start(move |number, mut line| {
        if number == 0 {
            silent = Some(line);
        } else if line.admit(6_000) {
            serve_at(&mut line, 5);
        }
        assert!(silent.is_some(), "it is held open");
    });
    let begun = Instant::now();
    let session = Session::open(partner.address, millis(6_000)).unwrap();
    let answer = session.call(Call::exists("/a").within(PATIENCE));
    assert!(answer.unwrap().is_some());
    partner.dial();
    let took = partner.dial() - begun;
    let least = millis(3_999); // two thirds of the timeout
    assert!(took >= least && took < least + SLACK, "{took:?}");
}

/// A listener at an address that only this process and this test use: nobody else gets its port while it is gone.
fn own_listener(test: u8) -> TcpListener {
    let [.., high, low] = std::process::id().to_be_bytes();
    TcpListener::bind(SocketAddr::from(([127, test, high, low], 0))).expect("a port is free")
}

/// A session at this address, and how often it has dialled.
fn counting(address: SocketAddr, timeout: Duration) -> (Session, Arc<AtomicUsize>) {
    let dials = Arc::new(AtomicUsize::new(0));
    let counted = Arc::clone(&dials);
    let dial = move |server: &Server<'_>, within: Duration| {
        counted.fetch_add(1, Ordering::SeqCst);
        dirwolleu::Dial::dial(&mut Tcp, server, within)
    };
    let options = SessionOptions::new(timeout).dial(dial);
    (options.open_lazily(address).unwrap(), dials)
}

#[test]
fn a_server_that_stays_away_is_dialled_until_it_comes() {
    let listener = own_listener(1);
    let address = listener.local_addr().unwrap();
    drop(listener);
    let begun = Instant::now();
    let (session, dials) = counting(address, millis(6_000));
    let so_far = Arc::clone(&dials);
    let comes = thread::spawn(move || {
        while begun.elapsed() < millis(3_000) || so_far.load(Ordering::SeqCst) < 3 {
            sleep(millis(5));
        }
        let listener = TcpListener::bind(address).unwrap();
        let mut line = Line::over(listener.accept().unwrap().0);
        line.admit(6_000);
        serve_at(&mut line, 5);
    });
    let answer = session.call(Call::exists("/a").within(PATIENCE));
    assert!(answer.unwrap().is_some());
    let (dials, took) = (dials.load(Ordering::SeqCst), begun.elapsed());
    let most = 4.0 * took.as_secs_f64();
    assert!(dials as f64 <= most, "{dials} attempts in {took:?}");
    drop(session);
    comes.join().unwrap();
}

/// A server that admits a session for this long, answers its first call, and goes.
fn serve_and_go(listener: TcpListener, timeout: i32) {
    let mut line = Line::over(listener.accept().unwrap().0);
    drop(listener);
    line.admit(timeout);
    let request = line.request().unwrap();
    serve_one_at(&mut line, &request, 9);
}

#[test]
fn what_was_read_stays_good_while_a_server_stays_away_and_ends_with_the_session() {
    let listener = own_listener(2);
    let address = listener.local_addr().unwrap();
    let goes = thread::spawn(move || serve_and_go(listener, 3_000));
    let session = Session::open(address, millis(3_000)).unwrap();
    session.call(Call::get("/a").watched()).unwrap();
    goes.join().unwrap();
    wait_for_state(&session, State::Idle);
    let nobody = session.get("/a").as_ref().map_err(Error::no_reply).err();
    assert_eq!(nobody, Some(Some(NoReply::NotConnected)));
    sleep(millis(500));
    assert_eq!(
        (session.state(), mark(&session)),
        (Some(State::Idle), Some(Mark::Good))
    );
    let listener = TcpListener::bind(address).unwrap();
    let (sender, requests) = mpsc::channel();
    thread::spawn(move || {
        for stream in listener.incoming().map_while(Result::ok) {
            let mut line = Line::over(stream); // on a busy machine a session that hears it too late asks again
            if let Some(request) = line.frame() {
                let _ = sender.send(request);
                line.send(&Record::expired());
            }
        }
    });
    let request = requests.recv_timeout(PATIENCE).unwrap();
    assert_eq!(asked(&request), (9, 0x1234));
    wait_for_state(&session, State::Expired);
    assert_eq!(mark(&session), None);
}

#[test]
fn the_first_ping_comes_a_third_of_the_timeout_after_the_last_frame() {
    let (sender, heard) = mpsc::channel();
    let partner = Partner::start(move |_, mut line| {
        line.frame();
        sleep(millis(8_000));
        sender.send((Instant::now(), 0)).unwrap();
        line.send(&Record::accepted(27_000, 0x1234));
        while let Some(request) = line.request() {
            sender.send((Instant::now(), request.kind)).unwrap();
            serve_one_at(&mut line, &request, 5);
        }
    });
    let begun = Instant::now();
    let session = Session::open(partner.address, millis(30_000)).unwrap();
    let [(accepted, _), (first, kind)] = [(); 2].map(|()| heard.recv_timeout(PATIENCE).unwrap());
    let (took, later) = (first - begun, first - accepted);
    assert_eq!(kind, PING);
    assert!(took >= millis(8_999), "{took:?} after its own frame");
    assert!(later < millis(9_000), "{later:?} after the server's"); // eight of which are for a busy machine
    assert_eq!(session.state(), Some(State::Connected));
}
