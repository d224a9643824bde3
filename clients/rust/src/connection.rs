//! Connections: the dialler, the two halves of a connection, and TCP.

use std::fmt::Display;
use std::io::{self, ErrorKind, Read, Write};
use std::net::{Shutdown, SocketAddr, TcpStream};
use std::ops::RangeInclusive;
use std::time::Duration;

/// The shortest timeout that the system takes.
const SHORTEST_WAIT: Duration = Duration::from_millis(1);

/// The server to dial.
///
/// ```
/// use dirwolleu::{Connection, Dial, Server, SessionOptions, Tcp};
/// use std::{io, time::Duration};
///
/// fn dial(server: &Server<'_>, within: Duration) -> io::Result<Connection> {
///     println!("{} at {}", server.name, server.address);
///     Tcp.dial(server, within)
/// }
/// let options = SessionOptions::new(Duration::from_secs(10)).dial(dial);
/// ```
#[derive(Clone, Copy, Debug, PartialEq, Eq)]
#[non_exhaustive]
pub struct Server<'a> {
    /// Its name, as the list of hosts has it, without the port: the name that its certificate has to show.
    pub name: &'a str,
    /// One of the addresses that the name has now.
    pub address: SocketAddr,
}

impl<'a> Server<'a> {
    pub(crate) fn new(name: &'a str, address: SocketAddr) -> Server<'a> {
        Server { name, address }
    }
}

/// The read half of a connection. One thread uses it.
///
/// ```
/// use dirwolleu::Incoming;
/// use std::{io::{self, Read}, time::Duration};
///
/// /// What a server once said, for a test.
/// struct Recorded(io::Cursor<Vec<u8>>);
///
/// impl Incoming for Recorded {
///     fn read(&mut self, room: &mut [u8], _: Duration) -> io::Result<usize> {
///         self.0.read(room)
///     }
/// }
///
/// let mut recorded = Recorded(io::Cursor::new(b"one".to_vec()));
/// assert_eq!(recorded.read(&mut [0; 8], Duration::from_secs(1))?, 3);
/// assert_eq!(recorded.read(&mut [0; 8], Duration::from_secs(1))?, 0); // the stream has ended
/// # Ok::<(), io::Error>(())
/// ```
pub trait Incoming: Send {
    /// Waits for bytes, at most this long, and reads as many as are there and fit. `Ok(0)` means that the stream has ended.
    ///
    /// # Errors
    ///
    /// [`ErrorKind::WouldBlock`], [`ErrorKind::TimedOut`] or [`ErrorKind::Interrupted`] if nothing came in time; any other kind ends the
    /// connection.
    fn read(&mut self, room: &mut [u8], wait: Duration) -> io::Result<usize>;
}

/// The write half of a connection. Any thread writes to it, one at a time, while another one reads. The session holds no lock meanwhile, so
/// a writer may look at its session, and make calls.
///
/// ```
/// use dirwolleu::Outgoing;
/// use std::{io, time::Duration};
///
/// /// Keeps what is said to a server, for a test.
/// struct Kept(Vec<u8>);
///
/// impl Outgoing for Kept {
///     fn write(&mut self, bytes: &[u8], _: Duration) -> io::Result<usize> {
///         self.0.extend(bytes);
///         Ok(bytes.len())
///     }
///
///     fn close(&mut self) {}
/// }
///
/// let mut kept = Kept(Vec::new());
/// assert_eq!(kept.write(b"one", Duration::ZERO)?, 3);
/// assert_eq!(kept.0, b"one");
/// # Ok::<(), io::Error>(())
/// ```
pub trait Outgoing: Send {
    /// Waits for room, at most this long, and writes as many bytes as fit. The session hands the rest in again, or the same bytes if there
    /// was no room in time.
    ///
    /// # Errors
    ///
    /// [`ErrorKind::WouldBlock`], [`ErrorKind::TimedOut`] or [`ErrorKind::Interrupted`] if there was no room in time; any other kind, and
    /// `Ok(0)`, ends the connection.
    fn write(&mut self, bytes: &[u8], wait: Duration) -> io::Result<usize>;

    /// Ends the connection: a read that waits at the other half ends soon.
    fn close(&mut self);
}

/// A connection to a server.
///
/// ```
/// use dirwolleu::{Connection, Incoming, Outgoing};
/// use std::{io, time::Duration};
///
/// /// A server that has gone, for a test.
/// struct Gone;
///
/// impl Incoming for Gone {
///     fn read(&mut self, _: &mut [u8], _: Duration) -> io::Result<usize> {
///         Ok(0)
///     }
/// }
///
/// impl Outgoing for Gone {
///     fn write(&mut self, _: &[u8], _: Duration) -> io::Result<usize> {
///         Err(io::ErrorKind::BrokenPipe.into())
///     }
///
///     fn close(&mut self) {}
/// }
///
/// let connection = Connection { incoming: Box::new(Gone), outgoing: Box::new(Gone) };
/// ```
pub struct Connection {
    /// The half that reads from the server.
    pub incoming: Box<dyn Incoming>,
    /// The half that writes to it.
    pub outgoing: Box<dyn Outgoing>,
}

/// Makes connections: [`Tcp`] does, and so does any function of this signature.
///
/// A program brings its own for TLS, for a proxy, and for tests without a network:
///
/// ```
/// use dirwolleu::{Connection, Dial, Server, SessionOptions, Tcp};
/// use std::{io, time::Duration};
///
/// # fn main() -> Result<(), Box<dyn std::error::Error>> {
/// let guarded = |server: &Server<'_>, within: Duration| -> io::Result<Connection> {
///     if !server.address.ip().is_loopback() {
///         return Err(io::ErrorKind::PermissionDenied.into());
///     }
///     Tcp.dial(server, within)
/// };
/// let session = SessionOptions::new(Duration::from_secs(10)).dial(guarded).open_lazily("10.0.0.1:2181")?;
/// # Ok(())
/// # }
/// ```
pub trait Dial: Send {
    /// Connects to a server within this time.
    ///
    /// # Errors
    ///
    /// Any: after a pause the session dials the next address.
    fn dial(&mut self, server: &Server<'_>, within: Duration) -> io::Result<Connection>;
}

impl<F> Dial for F
where
    F: FnMut(&Server<'_>, Duration) -> io::Result<Connection> + Send,
{
    fn dial(&mut self, server: &Server<'_>, within: Duration) -> io::Result<Connection> {
        self(server, within)
    }
}

/// Connections over TCP. Each frame is sent at once.
///
/// ```
/// use dirwolleu::{Dial, Server, SessionOptions, Tcp};
/// use std::time::Duration;
///
/// let hasty = |server: &Server<'_>, within: Duration| Tcp.dial(server, within.min(Duration::from_secs(1)));
/// let options = SessionOptions::new(Duration::from_secs(10)).dial(hasty);
/// ```
#[derive(Clone, Copy, Debug, Default)]
pub struct Tcp;

impl Dial for Tcp {
    fn dial(&mut self, server: &Server<'_>, within: Duration) -> io::Result<Connection> {
        let stream = TcpStream::connect_timeout(&server.address, within)?;
        stream.set_nodelay(true)?;
        Ok(Connection {
            incoming: Box::new(TimedStream::new(stream.try_clone()?)),
            outgoing: Box::new(TimedStream::new(stream)),
        })
    }
}

impl Incoming for TcpStream {
    fn read(&mut self, room: &mut [u8], wait: Duration) -> io::Result<usize> {
        self.set_read_timeout(Some(wait.max(SHORTEST_WAIT)))?;
        Read::read(self, room)
    }
}

/// Sets a timeout of a socket.
type SetTimeout = fn(&TcpStream, Option<Duration>) -> io::Result<()>;

/// A stream, and its socket's timeout, which serves waits from this long to four times as long. A wait that comes nearer to its end with
/// each read is served for a while, so most reads and writes leave the timeout as it is.
struct TimedStream {
    stream: TcpStream,
    timeout: Duration,
    /// The waits that the timeout serves. The shortest one serves all shorter waits.
    serves: RangeInclusive<Duration>,
}

impl TimedStream {
    fn new(stream: TcpStream) -> TimedStream {
        TimedStream {
            stream,
            timeout: Duration::ZERO,
            serves: Duration::MAX..=Duration::ZERO,
        }
    }

    /// Bounds the next wait: at most this long, and at least a quarter of it. This function sets the socket's timeout.
    #[inline]
    fn set_timeout(&mut self, wait: Duration, tell: SetTimeout) -> io::Result<()> {
        if self.serves.contains(&wait) {
            return Ok(());
        }
        self.set_other_timeout(wait, tell)
    }

    #[cold]
    fn set_other_timeout(&mut self, wait: Duration, tell: SetTimeout) -> io::Result<()> {
        let timeout = (wait / 2).max(SHORTEST_WAIT);
        tell(&self.stream, Some(timeout))?;
        let is_shortest = timeout == SHORTEST_WAIT;
        let least = if is_shortest { Duration::ZERO } else { timeout };
        self.timeout = timeout;
        self.serves = least..=timeout.saturating_mul(4);
        Ok(())
    }
}

impl Incoming for TimedStream {
    fn read(&mut self, room: &mut [u8], wait: Duration) -> io::Result<usize> {
        let mut left = wait;
        loop {
            self.set_timeout(left, TcpStream::set_read_timeout)?;
            match Read::read(&mut self.stream, room) {
                Err(fault) if is_past(&fault) && self.timeout < left => {
                    left = left.saturating_sub(self.timeout);
                }
                read => return read,
            }
        }
    }
}

impl Outgoing for TcpStream {
    fn write(&mut self, bytes: &[u8], wait: Duration) -> io::Result<usize> {
        self.set_write_timeout(Some(wait.max(SHORTEST_WAIT)))?;
        Write::write(self, bytes)
    }

    fn close(&mut self) {
        // This fails if the server has already closed it.
        let _ = self.shutdown(Shutdown::Both);
    }
}

impl Outgoing for TimedStream {
    fn write(&mut self, bytes: &[u8], wait: Duration) -> io::Result<usize> {
        self.set_timeout(wait, TcpStream::set_write_timeout)?;
        Write::write(&mut self.stream, bytes)
    }

    fn close(&mut self) {
        self.stream.close();
    }
}

/// The error of an attempt to reach a place: it names the place, and leaves out the system's number.
pub(crate) fn fault_of(place: &dyn Display, fault: &io::Error) -> io::Error {
    let said = fault.to_string();
    let words = said.split(" (os error").next().unwrap_or_default();
    let mut characters = words.chars();
    let first = characters.next().map(|first| first.to_ascii_lowercase());
    let words: String = first.into_iter().chain(characters).collect();
    io::Error::new(fault.kind(), format!("{place}: {words}"))
}

/// Whether a read or a write may succeed later, because it timed out or was interrupted.
pub(crate) fn is_late(fault: &io::Error) -> bool {
    is_past(fault) || fault.kind() == ErrorKind::Interrupted
}

/// Whether a read or a write has timed out.
fn is_past(fault: &io::Error) -> bool {
    matches!(fault.kind(), ErrorKind::WouldBlock | ErrorKind::TimedOut)
}

#[cfg(test)]
mod tests {
    use super::{is_past, Incoming, TimedStream};
    use std::io::Write;
    use std::net::{TcpListener, TcpStream};
    use std::time::{Duration, Instant};

    /// A stream to read from, and its other end.
    fn connected() -> (TimedStream, TcpStream) {
        let listener = TcpListener::bind("127.0.0.1:0").unwrap();
        let stream = TcpStream::connect(listener.local_addr().unwrap()).unwrap();
        (TimedStream::new(stream), listener.accept().unwrap().0)
    }

    #[test]
    fn a_bound_that_serves_is_told_once() {
        let (mut incoming, mut server) = connected();
        for (wait, told) in [(100, 50), (50, 50), (200, 50), (202, 101), (100, 50)] {
            server.write_all(b"one").unwrap();
            let read = incoming.read(&mut [0; 8], Duration::from_secs(wait));
            assert_eq!(read.unwrap(), 3);
            assert_eq!(incoming.timeout.as_secs(), told, "{wait}");
            let known = incoming.stream.read_timeout().unwrap();
            assert_eq!(known, Some(incoming.timeout));
        }
    }

    #[test]
    fn a_read_waits_for_as_long_as_it_is_told() {
        let (mut incoming, _server) = connected();
        for wait in [50, 90, 40, 0] {
            let begun = Instant::now();
            let wait = Duration::from_millis(wait);
            let late = incoming.read(&mut [0; 8], wait).unwrap_err();
            let taken = begun.elapsed();
            assert!(is_past(&late), "{late}");
            // A system that counts in ticks ends a wait some milliseconds early.
            assert!(
                taken >= wait / 2 && taken < wait + Duration::from_secs(5),
                "{taken:?}"
            );
        }
    }
}
