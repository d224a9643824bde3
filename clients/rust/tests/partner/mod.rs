//! A server that does what a test says, frame by frame: on 127.0.0.1, or at the end of a connection in memory.
#![allow(dead_code)] // each test takes what it needs

use crate::jute::{self, Record, PING, PONG};
use std::io::{Read, Write};
use std::net::{SocketAddr, TcpListener};
use std::sync::mpsc::{channel, Receiver};
use std::thread;
use std::time::{Duration, Instant};

/// How long an attempt to connect may take to come.
const PATIENCE: Duration = Duration::from_secs(120);

/// The stream under a connection.
trait Stream: Read + Write + Send {}

impl<T: Read + Write + Send> Stream for T {}

/// One connection.
pub struct Line {
    stream: Box<dyn Stream>,
}

/// A request: its xid, its type, and the rest.
#[derive(Clone)]
pub struct Request {
    pub xid: i32,
    pub kind: i32,
    pub rest: Vec<u8>,
}

impl Line {
    pub fn over(stream: impl Read + Write + Send + 'static) -> Line {
        let stream = Box::new(stream);
        Line { stream }
    }

    /// The next frame without its length, or `None` if the client has ended the connection.
    pub fn frame(&mut self) -> Option<Vec<u8>> {
        let mut length = [0; 4];
        self.stream.read_exact(&mut length).ok()?;
        let mut frame = vec![0; u32::from_be_bytes(length) as usize];
        self.stream.read_exact(&mut frame).ok()?;
        Some(frame)
    }

    /// The next byte, or `None` if the client has ended the connection.
    pub fn byte(&mut self) -> Option<u8> {
        let mut byte = [0];
        self.stream.read_exact(&mut byte).ok()?;
        Some(byte[0])
    }

    /// Sends bytes. Returns whether the client still has the connection.
    pub fn send(&mut self, bytes: &[u8]) -> bool {
        self.stream.write_all(bytes).is_ok()
    }

    /// Admits the session, with this timeout in milliseconds.
    pub fn admit(&mut self, timeout: i32) -> bool {
        self.frame().is_some() && self.send(&Record::accepted(timeout, 0x1234))
    }

    /// Says that the session is over.
    pub fn expire(&mut self) -> bool {
        self.frame().is_some() && self.send(&Record::expired())
    }

    /// The next request.
    pub fn request(&mut self) -> Option<Request> {
        let frame = self.frame()?;
        let int = |at: usize| i32::from_be_bytes(frame[at..at + 4].try_into().expect("four bytes"));
        Some(Request {
            xid: int(0),
            kind: int(4),
            rest: frame[8..].to_vec(),
        })
    }

    /// Answers with a code.
    pub fn refuse(&mut self, xid: i32, code: i32) -> bool {
        self.send(&Record::reply(xid, 5, code).framed())
    }

    /// Answers with a path.
    pub fn tell_path(&mut self, xid: i32, path: &str) -> bool {
        self.send(&Record::reply(xid, 5, 0).text(path).framed())
    }

    /// Answers with a Stat.
    pub fn tell_stat(&mut self, xid: i32) -> bool {
        self.send(&Record::reply(xid, 5, 0).stat(5, 0, 3, 0).framed())
    }

    /// Answers with the bytes `one`, and a Stat.
    pub fn tell_data(&mut self, xid: i32) -> bool {
        let reply = Record::reply(xid, 5, 0).buffer(b"one");
        self.send(&reply.stat(5, 0, 3, 0).framed())
    }
}

/// A server whose nodes all have the bytes `one`.
impl Line {
    /// Answers a request of the core.
    pub fn answer(&mut self, request: &Request) -> bool {
        match request.kind {
            PING => self.refuse(PONG, 0),
            jute::CREATE => self.tell_path(request.xid, "/mine"),
            jute::SYNC => self.tell_path(request.xid, "/"),
            jute::EXISTS | jute::SET_DATA => self.tell_stat(request.xid),
            jute::CLOSE_SESSION => self.refuse(request.xid, 0),
            _ => self.tell_data(request.xid),
        }
    }

    /// Answers each request, until the client ends the connection.
    pub fn each(&mut self, mut answer: impl FnMut(&mut Line, Request)) {
        while let Some(request) = self.request() {
            answer(self, request);
        }
    }

    /// Answers everything, until the client ends the connection.
    pub fn serve(&mut self) {
        while let Some(request) = self.request() {
            self.answer(&request);
        }
    }
}

/// The server. Each connection is served before the next one.
pub struct Partner {
    pub address: SocketAddr,
    dials: Receiver<Instant>,
}

impl Partner {
    /// A server that serves the connections in turn, from number 0 on.
    pub fn start(mut serve: impl FnMut(usize, Line) + Send + 'static) -> Partner {
        let listener = TcpListener::bind("127.0.0.1:0").expect("a port is free");
        let address = listener.local_addr().expect("it listens");
        let (sender, dials) = channel();
        thread::spawn(move || {
            for (number, stream) in listener.incoming().map_while(Result::ok).enumerate() {
                let _ = sender.send(Instant::now());
                stream.set_nodelay(true).expect("it is open");
                serve(number, Line::over(stream));
            }
        });
        Partner { address, dials }
    }

    /// A server that admits each session, and answers each request with this. The timeout is a minute, so no ping comes between the calls
    /// of a test, even on a busy machine.
    pub fn answering(mut answer: impl FnMut(&mut Line, Request) + Send + 'static) -> Partner {
        Partner::start(move |_, mut line| {
            line.admit(60_000);
            line.each(&mut answer);
        })
    }

    /// A server that admits each session, with a timeout of a minute, and answers everything.
    pub fn serving() -> Partner {
        Partner::start(|_, mut line| {
            line.admit(60_000);
            line.serve();
        })
    }

    /// When the next attempt to connect comes.
    pub fn dial(&self) -> Instant {
        self.dials.recv_timeout(PATIENCE).expect("it is dialled")
    }

    /// The same if one has come.
    pub fn dial_so_far(&self) -> Option<Instant> {
        self.dials.try_recv().ok()
    }

    /// How many attempts have come that no test asked for yet.
    pub fn dials(&self) -> usize {
        self.dials.try_iter().count()
    }
}
