//! Connections over TLS, for sessions to dial.

use dirwolleu::{Connection, Dial, Incoming, Outgoing, Server};
use rustls::{ClientConfig, ClientConnection, ServerName};
use std::error::Error;
use std::fmt;
use std::io::{self, ErrorKind, Read, Write};
use std::mem;
use std::net::{Shutdown, TcpStream};
use std::sync::{Arc, Mutex, MutexGuard, PoisonError};
use std::time::{Duration, Instant};

/// The system's shortest bound on a wait.
const SHORTEST_WAIT: Duration = Duration::from_millis(1);

/// How long the end of a connection waits for room in which to tell the server.
const WAIT_AT_END: Duration = Duration::from_millis(20);

/// The most bytes to seal at a time.
const PIECE: usize = 65_536;

/// Makes connections over TLS.
#[derive(Clone)]
pub struct Tls {
    config: Arc<ClientConfig>,
}

impl Tls {
    /// Connections with this configuration: the trusted certificates, and maybe one of the client's own.
    #[must_use]
    pub fn new(config: Arc<ClientConfig>) -> Tls {
        Tls { config }
    }
}

impl fmt::Debug for Tls {
    fn fmt(&self, f: &mut fmt::Formatter<'_>) -> fmt::Result {
        f.debug_struct("Tls").finish_non_exhaustive()
    }
}

impl Dial for Tls {
    fn dial(&mut self, server: &Server<'_>, within: Duration) -> io::Result<Connection> {
        let until = Instant::now() + within;
        let name = ServerName::try_from(server.name).map_err(broken)?;
        let config = Arc::clone(&self.config);
        let mut tls = ClientConnection::new(config, name).map_err(broken)?;
        let mut stream = TcpStream::connect_timeout(&server.address, within)?;
        stream.set_nodelay(true)?;
        while tls.is_handshaking() {
            shake_hands(&mut tls, &mut stream, until)?;
        }
        flush(&mut tls, &mut stream, until)?;
        let tls = Arc::new(Mutex::new(tls));
        let incoming = Reads {
            tls: Arc::clone(&tls),
            stream: stream.try_clone()?,
        };
        Ok(Connection {
            incoming: Box::new(incoming),
            outgoing: Box::new(Writes::new(tls, stream)),
        })
    }
}

/// The error of a connection that TLS has broken.
fn broken(fault: impl Error + Send + Sync + 'static) -> io::Error {
    io::Error::new(ErrorKind::Other, fault)
}

/// The time until an instant. Fails if that has passed.
fn left(until: Instant) -> io::Result<Duration> {
    let left = until.checked_duration_since(Instant::now());
    let left = left.filter(|left| !left.is_zero());
    left.ok_or_else(|| ErrorKind::TimedOut.into())
}

/// Sends what TLS has for the server, and takes what comes next.
fn shake_hands(
    tls: &mut ClientConnection,
    stream: &mut TcpStream,
    until: Instant,
) -> io::Result<()> {
    flush(tls, stream, until)?;
    stream.set_read_timeout(Some(left(until)?))?;
    if tls.read_tls(stream)? == 0 {
        return Err(ErrorKind::UnexpectedEof.into());
    }
    let state = tls.process_new_packets();
    state.map(drop).map_err(|fault| {
        // The message to a server whose bytes do not parse may not reach it.
        let _ = flush(tls, stream, until);
        broken(fault)
    })
}

/// Writes what TLS has for the server.
fn flush(tls: &mut ClientConnection, stream: &mut TcpStream, until: Instant) -> io::Result<()> {
    while tls.wants_write() {
        stream.set_write_timeout(Some(left(until)?))?;
        tls.write_tls(stream)?;
    }
    Ok(())
}

fn lock(tls: &Mutex<ClientConnection>) -> MutexGuard<'_, ClientConnection> {
    tls.lock().unwrap_or_else(PoisonError::into_inner)
}

/// The read half. Both halves share the one state of TLS, which neither holds while it waits.
struct Reads {
    tls: Arc<Mutex<ClientConnection>>,
    stream: TcpStream,
}

impl Reads {
    /// Waits until the stream has bytes, or its end.
    fn wait(&mut self, until: Instant) -> io::Result<()> {
        let wait = until.saturating_duration_since(Instant::now());
        self.stream
            .set_read_timeout(Some(wait.max(SHORTEST_WAIT)))?;
        self.stream.peek(&mut [0]).map(drop)
    }

    /// Takes what the stream has, which is at least something. TLS's own messages go out with the next write.
    fn take(&mut self) -> io::Result<()> {
        let mut tls = lock(&self.tls);
        tls.read_tls(&mut self.stream)?;
        tls.process_new_packets().map(drop).map_err(broken)
    }
}

impl Incoming for Reads {
    fn read(&mut self, room: &mut [u8], wait: Duration) -> io::Result<usize> {
        let until = Instant::now() + wait;
        loop {
            let plain = lock(&self.tls).reader().read(room);
            match plain {
                Err(fault) if fault.kind() == ErrorKind::WouldBlock => {}
                plain => return plain,
            }
            self.wait(until)?;
            self.take()?;
        }
    }
}

/// The write half. Only it writes to the stream.
struct Writes {
    tls: Arc<Mutex<ClientConnection>>,
    stream: TcpStream,
    /// The sealed bytes, how many of them are written, and how many plain bytes they hold.
    sealed: Vec<u8>,
    written: usize,
    said: usize,
}

impl Writes {
    fn new(tls: Arc<Mutex<ClientConnection>>, stream: TcpStream) -> Writes {
        Writes {
            tls,
            stream,
            sealed: Vec::new(),
            written: 0,
            said: 0,
        }
    }

    /// Seals these bytes.
    fn seal(&mut self, bytes: &[u8]) -> io::Result<usize> {
        let mut tls = lock(&self.tls);
        let count = tls.writer().write(bytes)?;
        while tls.wants_write() {
            tls.write_tls(&mut self.sealed)?;
        }
        Ok(count)
    }

    /// Writes the sealed bytes. Fails if there is not room for all of them by this instant.
    fn flush(&mut self, until: Instant) -> io::Result<()> {
        while self.written < self.sealed.len() {
            let wait = until.saturating_duration_since(Instant::now());
            let rest = &self.sealed[self.written..];
            self.written += Outgoing::write(&mut self.stream, rest, wait)?;
            if self.written < self.sealed.len() {
                left(until)?;
            }
        }
        self.sealed.clear();
        self.written = 0;
        Ok(())
    }
}

impl Outgoing for Writes {
    fn write(&mut self, bytes: &[u8], wait: Duration) -> io::Result<usize> {
        let until = Instant::now() + wait;
        if self.said == 0 {
            self.said = self.seal(&bytes[..bytes.len().min(PIECE)])?;
        }
        self.flush(until)?;
        Ok(mem::take(&mut self.said))
    }

    fn close(&mut self) {
        lock(&self.tls).send_close_notify();
        // A server that is gone, or that does not read, does not hear of it.
        let _ = self.seal(&[]);
        let _ = self.flush(Instant::now() + WAIT_AT_END);
        let _ = self.stream.shutdown(Shutdown::Both);
    }
}
