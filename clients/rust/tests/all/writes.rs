//! Writes to a server that reads slowly, and a program's own writers.

use crate::memory::connection;
use crate::partner::{Line, Partner};
use crate::PATIENCE;
use dirwolleu::{
    Connection, ErrorKind, Event, Fault, LocalSession, Outgoing, Request, Server, Session,
    SessionOptions, SharedSession,
};
use std::io;
use std::sync::mpsc::{channel, Sender};
use std::sync::{Arc, OnceLock};
use std::thread::{self, sleep};
use std::time::{Duration, Instant};

const TIMEOUT: Duration = Duration::from_secs(90);

/// More than the buffers of the system take, and as much as may wait besides.
const MANY: usize = 60;
const LARGE: usize = 1_000_000;

/// How long a server that reads a byte a second may hold a program up: a write used to wait for a third of the timeout and more.
const AT_ONCE: Duration = Duration::from_secs(20);

/// Reads a byte a second, until the client ends the connection.
fn read_slowly(mut line: Line) {
    while line.byte().is_some() {
        sleep(Duration::from_secs(1));
    }
}

#[test]
fn a_server_that_reads_a_byte_a_second_holds_nobody_up() {
    let partner = Partner::start(|_, mut line| {
        line.admit(90_000);
        read_slowly(line);
    });
    let session = Session::open(partner.address, TIMEOUT).unwrap();
    let data = vec![7; LARGE];
    let begun = Instant::now();
    let mut tickets = Vec::new();
    for _ in 0..MANY {
        tickets.push(session.ask(Request::set("/a", &data, -1)));
        assert!(session.state().is_some());
        assert!(begun.elapsed() < AT_ONCE, "{:?}", begun.elapsed());
    }
    let last = tickets.pop().unwrap();
    assert!(last.is_answered(), "what waits is bounded");
    let full = last.wait().unwrap_err();
    assert_eq!(full.kind(), &ErrorKind::QueueFull);
    assert!(full.is_passing() && !full.may_have_happened());
    assert!(!tickets[0].is_answered(), "what was taken waits still");
}

#[test]
fn a_connection_on_which_a_frame_is_not_written_in_time_is_left() {
    let partner = Partner::start(|number, mut line| {
        line.admit(9_000);
        if number == 0 {
            thread::spawn(move || read_slowly(line));
        } else {
            line.serve();
        }
    });
    let session = Session::open(partner.address, Duration::from_secs(9)).unwrap();
    partner.dial();
    let data = vec![7; LARGE];
    let asked = (0..MANY).map(|_| session.ask(Request::set("/a", &data, -1)));
    let asked: Vec<_> = asked.collect();
    partner.dial();
    for (number, ticket) in asked.into_iter().enumerate() {
        // A slow machine asks for some after it has left the connection: the next one answers them.
        let Err(error) = ticket.wait_for(PATIENCE) else {
            assert!(number > 0, "the first one was on its way");
            continue;
        };
        let kind = error.into_kind();
        let is_lost = kind.may_have_happened() || kind == ErrorKind::QueueFull;
        assert!(is_lost, "each is told: {kind:?}");
    }
    assert!(session.call(Request::get("/a").within(PATIENCE)).is_ok());
}

/// A program's own writer: it does this before each write, and every other time has room for this many bytes.
struct Own<F> {
    inner: Box<dyn Outgoing>,
    before: F,
    room: usize,
    is_full: bool,
}

impl<F: FnMut(&[u8]) + Send> Outgoing for Own<F> {
    fn write(&mut self, bytes: &[u8], wait: Duration) -> io::Result<usize> {
        (self.before)(bytes);
        self.is_full = !self.is_full;
        if self.is_full && self.room < bytes.len() {
            return Err(io::ErrorKind::WouldBlock.into());
        }
        self.inner.write(&bytes[..self.room.min(bytes.len())], wait)
    }

    fn close(&mut self) {
        self.inner.close();
    }
}

/// Options of a session at a server in memory, with this writer.
fn options<F>(before: F, room: usize) -> SessionOptions
where
    F: FnMut(&[u8]) + Clone + Send + 'static,
{
    SessionOptions::new(TIMEOUT).dial(
        move |_: &Server<'_>, _: Duration| -> io::Result<Connection> {
            let (mut made, end) = connection();
            thread::spawn(move || {
                let mut line = Line::over(end);
                line.admit(90_000);
                line.serve();
            });
            made.outgoing = Box::new(Own {
                inner: made.outgoing,
                before: before.clone(),
                room,
                is_full: false,
            });
            Ok(made)
        },
    )
}

#[test]
fn what_there_is_little_room_for_is_written_piece_by_piece() {
    let nothing = |_: &[u8]| {};
    let session = options(nothing, 3).open("127.0.0.1:1").unwrap();
    let tickets: Vec<_> = (0..20).map(|_| session.ask(Request::get("/a"))).collect();
    for ticket in tickets {
        assert!(ticket.wait_for(PATIENCE).is_ok());
    }
    let mut local: LocalSession = options(nothing, 3).open_local("127.0.0.1:1").unwrap();
    assert!(local.call(Request::get("/a").within(PATIENCE)).is_ok());
}

#[test]
fn a_writer_may_look_at_its_session_and_ask_it() {
    let place: Arc<OnceLock<SharedSession>> = Arc::default();
    let (own, asked) = (Arc::clone(&place), Arc::new(OnceLock::new()));
    let looks = move |_: &[u8]| {
        if let Some(session) = own.get() {
            assert!(session.state().is_some());
            asked.get_or_init(|| drop(session.ask(Request::get("/b"))));
        }
    };
    let session = options(looks, usize::MAX).open("127.0.0.1:1").unwrap();
    let session = place.get_or_init(|| session.shared()).clone();
    assert!(session.call(Request::get("/a").within(PATIENCE)).is_ok());
    assert!(session.close().is_ok());
}

/// Makes a writer panic at a read of this node.
fn panic_at_a(sender: Sender<()>) -> impl FnMut(&[u8]) + Clone + Send {
    move |bytes| {
        if bytes.windows(2).any(|word| word == b"/a") {
            let _ = sender.send(());
            panic!("as the test has it");
        }
    }
}

#[test]
fn a_session_whose_writer_panics_says_so() {
    let (sender, panicked) = channel();
    let options = options(panic_at_a(sender), 64);
    let session = options.open("127.0.0.1:1").unwrap().shared();
    assert!(session.call(Request::get("/b").within(PATIENCE)).is_ok());
    let other = session.clone();
    let asks = thread::spawn(move || drop(other.ask(Request::get("/a"))));
    panicked.recv_timeout(PATIENCE).unwrap();
    drop(asks.join());
    let told = loop {
        match session.next_event(Some(Instant::now() + PATIENCE)) {
            Ok(Some(Event::State(_))) => {}
            other => break other,
        }
    };
    assert_eq!(told, Err(Fault::Panicked));
    let refused = session.get("/b").unwrap_err();
    assert_eq!(refused.kind(), &ErrorKind::Fault(Fault::Panicked));
    assert_eq!(session.renew(), Err(Fault::Panicked));
    assert_eq!(session.state(), None);
}
