//! Connections without a network: two pipes in memory.

use dirwolleu::{Connection, Incoming, Outgoing};
use std::collections::VecDeque;
use std::io::{self, ErrorKind, Read, Write};
use std::sync::{Arc, Condvar, Mutex};
use std::time::{Duration, Instant};

/// How long a server waits for bytes of a session.
const PATIENCE: Duration = Duration::from_secs(120);

#[derive(Default)]
struct Held {
    bytes: VecDeque<u8>,
    is_over: bool,
}

/// One way of a connection.
#[derive(Clone, Default)]
struct Pipe {
    held: Arc<(Mutex<Held>, Condvar)>,
}

impl Pipe {
    fn put(&self, bytes: &[u8]) -> io::Result<()> {
        let (held, changed) = &*self.held;
        let mut held = held.lock().unwrap();
        if held.is_over {
            return Err(ErrorKind::BrokenPipe.into());
        }
        held.bytes.extend(bytes);
        changed.notify_all();
        Ok(())
    }

    fn take(&self, room: &mut [u8], wait: Duration) -> io::Result<usize> {
        let (held, changed) = &*self.held;
        let until = Instant::now() + wait;
        let mut held = held.lock().unwrap();
        while held.bytes.is_empty() && !held.is_over {
            let left = until.saturating_duration_since(Instant::now());
            if left.is_zero() {
                return Err(ErrorKind::TimedOut.into());
            }
            held = changed.wait_timeout(held, left).unwrap().0;
        }
        held.bytes.read(room)
    }

    fn end(&self) {
        let (held, changed) = &*self.held;
        held.lock().unwrap().is_over = true;
        changed.notify_all();
    }
}

/// A session's end of a connection.
struct Half {
    from_server: Pipe,
    to_server: Pipe,
}

impl Incoming for Half {
    fn read(&mut self, room: &mut [u8], wait: Duration) -> io::Result<usize> {
        self.from_server.take(room, wait)
    }
}

impl Outgoing for Half {
    fn write(&mut self, bytes: &[u8], _: Duration) -> io::Result<usize> {
        self.to_server.put(bytes)?;
        Ok(bytes.len())
    }

    fn close(&mut self) {
        self.from_server.end();
        self.to_server.end();
    }
}

/// The server's end. Dropping it ends the connection.
pub struct End {
    from_client: Pipe,
    to_client: Pipe,
}

impl Read for End {
    fn read(&mut self, room: &mut [u8]) -> io::Result<usize> {
        self.from_client.take(room, PATIENCE)
    }
}

impl Write for End {
    fn write(&mut self, bytes: &[u8]) -> io::Result<usize> {
        self.to_client.put(bytes)?;
        Ok(bytes.len())
    }

    fn flush(&mut self) -> io::Result<()> {
        Ok(())
    }
}

impl Drop for End {
    fn drop(&mut self) {
        self.from_client.end();
        self.to_client.end();
    }
}

/// A connection, and the server's end of it.
pub fn connection() -> (Connection, End) {
    let (from_client, to_client) = (Pipe::default(), Pipe::default());
    let half = || {
        Box::new(Half {
            from_server: to_client.clone(),
            to_server: from_client.clone(),
        })
    };
    let connection = Connection {
        incoming: half(),
        outgoing: half(),
    };
    let end = End {
        from_client,
        to_client,
    };
    (connection, end)
}
