//! A ZooKeeper server in memory, for the tests of programs that use ZooKeeper. The feature `testing` has it:
//!
//! ```toml
//! [dev-dependencies]
//! dirwolleu = { path = "dirwolleu/clients/rust", features = ["testing"] }
//! ```
//!
//! ```
//! use dirwolleu::testing::Server;
//! use dirwolleu::{Mode, SessionOptions};
//! use std::time::Duration;
//!
//! # fn main() -> Result<(), Box<dyn std::error::Error>> {
//! let server = Server::start()?;
//! let session = SessionOptions::new(Duration::from_secs(10)).renews(true).open(&server.hosts())?;
//! session.create("/config", b"one", Mode::Persistent)?;
//! server.expire(session.id()?)?;
//! server.set("/config", b"two")?; // as another client does
//! assert!(session.follow("/config").any(|node| node.unwrap().unwrap().data.unwrap() == b"two"));
//! # Ok(())
//! # }
//! ```
//!
//! It listens at a port of 127.0.0.1, so any client of ZooKeeper can use it. Each answer to a request of the core comes from a server that
//! is proved to follow the model; the loop around it, and the answers to transactions, ACLs, credentials, `sync` and `create2`, are tested.
//!
//! It does not have a disk, TLS, SASL, access control (ACLs are kept, and admit everybody), containers, persistent watches, or time: a
//! session ends when it is closed or by [`Server::expire`], however long its client is silent. A transaction takes a zxid for each of its
//! changes. An incoming frame may have 4,194,304 bytes after its length; servers by default take 1,048,575.

#[cfg(not(dirwolleu_bench))]
compile_error!("the feature `testing` wants libdirwolleu_bench.a beside libdirwolleu.a: run scripts/client_libraries");

#[path = "testing/bench.rs"]
mod bench;
mod ensemble;
mod raw;
mod records;

use crate::error::{refused_of_create, Error};
use crate::fault::{Code, Fault};
use bench::Change;
use ensemble::{Ensemble, Link};
use records::{length_in, LONGEST};
use std::fmt;
use std::io::{self, Read, Write};
use std::net::{Ipv4Addr, Shutdown, TcpListener, TcpStream};
use std::sync::mpsc::{channel, Receiver};
use std::sync::{Arc, Mutex, MutexGuard, PoisonError};
use std::thread::{Builder, JoinHandle};

/// How many bytes to read at a time.
const ROOM: usize = 1 << 16;

/// The servers, which all threads share.
struct Servers {
    ensemble: Mutex<Ensemble>,
}

impl Servers {
    fn lock(&self) -> MutexGuard<'_, Ensemble> {
        self.ensemble.lock().unwrap_or_else(PoisonError::into_inner)
    }
}

/// A ZooKeeper server in memory, at a port of 127.0.0.1. Dropping it ends it, with its sessions and nodes.
///
/// It has threads of its own, and any thread may call it: no function waits for a client. When a function returns, its change is done, and
/// clients have been sent their notices.
///
/// Each session has a server of its own, and all servers learn each change at once, except in a [`lag`](Server::lag). A session ends when
/// its client closes it and by [`expire`](Server::expire), never by silence. The clock of its nodes is that of the system.
///
/// A function that takes a session takes its id, [`Session::id`](crate::Session::id), or `None` for all sessions; it fails with
/// [`Code::SESSION_EXPIRED`] if there is no such session.
pub struct Server {
    servers: Arc<Servers>,
    port: u16,
    accepts: Option<JoinHandle<()>>,
}

impl Server {
    /// Starts a server at a free port.
    ///
    /// # Errors
    ///
    /// The system has no port or no thread.
    pub fn start() -> io::Result<Server> {
        Server::start_at(0)
    }

    /// Starts a server at this port, or at a free one for 0.
    ///
    /// # Errors
    ///
    /// An error of the system, for example because the port is taken.
    pub fn start_at(port: u16) -> io::Result<Server> {
        let listener = TcpListener::bind((Ipv4Addr::LOCALHOST, port))?;
        let port = listener.local_addr()?.port();
        let ensemble = Mutex::new(Ensemble::new());
        let servers = Arc::new(Servers { ensemble });
        let shared = Arc::clone(&servers);
        let accepts = named_thread("accepts", move || accept(&listener, &shared))?;
        Ok(Server {
            servers,
            port,
            accepts: Some(accepts),
        })
    }

    /// The port it listens at.
    pub fn port(&self) -> u16 {
        self.port
    }

    /// The hosts for a session: `127.0.0.1:PORT`.
    pub fn hosts(&self) -> String {
        format!("127.0.0.1:{}", self.port)
    }

    /// The zxid of the last change.
    pub fn zxid(&self) -> i64 {
        self.servers.lock().zxid()
    }

    /// The ids of the sessions that have not ended, in the order of their beginning.
    pub fn sessions(&self) -> Vec<i64> {
        self.servers.lock().numbers()
    }

    /// How many connections it has accepted.
    pub fn connections(&self) -> u64 {
        self.servers.lock().came
    }

    /// Creates a node, as another client does. Returns the zxid.
    ///
    /// # Errors
    ///
    /// [`Code::NODE_EXISTS`]; for the parent [`Code::NO_NODE`] and [`Code::NO_CHILDREN_FOR_EPHEMERALS`]; [`Fault::NotPath`].
    pub fn create(&self, path: &str, data: &[u8]) -> Result<i64, Error> {
        self.change(path, &Change::Make(data))
    }

    /// Sets the data of a node, as another client does. Returns the zxid.
    ///
    /// # Errors
    ///
    /// [`Code::NO_NODE`], [`Fault::NotPath`].
    pub fn set(&self, path: &str, data: &[u8]) -> Result<i64, Error> {
        self.change(path, &Change::Write(data))
    }

    /// Deletes a node, as another client does. Returns the zxid.
    ///
    /// # Errors
    ///
    /// [`Code::NO_NODE`], [`Code::NOT_EMPTY`], [`Fault::NotPath`].
    pub fn delete(&self, path: &str) -> Result<i64, Error> {
        self.change(path, &Change::Delete)
    }

    /// Closes the connection of a session, or each connection. Sessions and nodes stay.
    ///
    /// # Errors
    ///
    /// [`Code::SESSION_EXPIRED`].
    pub fn drop_connection(&self, session: impl Into<Option<i64>>) -> Result<(), Error> {
        let mut ensemble = self.servers.lock();
        match session.into() {
            None => ensemble.drop_all(),
            number => named(&ensemble, number)?
                .into_iter()
                .for_each(|it| ensemble.drop_session(it)),
        }
        Ok(())
    }

    /// Ends a session, or all: deletes its ephemeral nodes and closes its connection. Its client learns of it at the next connection.
    ///
    /// # Errors
    ///
    /// [`Code::SESSION_EXPIRED`].
    pub fn expire(&self, session: impl Into<Option<i64>>) -> Result<(), Error> {
        let mut ensemble = self.servers.lock();
        for number in named(&ensemble, session.into())? {
            ensemble.expire(number);
        }
        Ok(())
    }

    /// Until the result is dropped, the server of a session, or of each session that there is, learns nothing of other clients' changes.
    ///
    /// It answers reads from what it knows. If its client asks for a change or for `sync`, it learns everything first, as any server of
    /// ZooKeeper does, and its client gets the notices before the answer.
    ///
    /// # Errors
    ///
    /// [`Code::SESSION_EXPIRED`].
    pub fn lag(&self, session: impl Into<Option<i64>>) -> Result<Lag<'_>, Error> {
        let mut ensemble = self.servers.lock();
        let sessions = named(&ensemble, session.into())?;
        ensemble.lag(&sessions, true);
        Ok(Lag {
            server: self,
            sessions,
        })
    }

    /// Closes each connection, and until [`restart`](Server::restart) each new one at once, without a byte. Sessions and nodes stay.
    pub fn stop(&self) {
        let mut ensemble = self.servers.lock();
        ensemble.is_stopped = true;
        ensemble.drop_all();
    }

    /// Accepts connections again. A server that was not stopped closes all connections.
    pub fn restart(&self) {
        self.stop();
        self.servers.lock().is_stopped = false;
    }

    fn change(&self, path: &str, change: &Change<'_>) -> Result<i64, Error> {
        let changed = self.servers.lock().change(path, change);
        changed.map_err(|number| match (number, change) {
            (bench::NOT_PATH, _) => Error::about(Some(path), Fault::not_path(path).into()),
            (number, Change::Make(_)) => {
                let code = Code(number);
                Error::about(Some(refused_of_create(code, path)), code.into())
            }
            (number, _) => Error::about(Some(path), Code(number).into()),
        })
    }
}

impl fmt::Debug for Server {
    fn fmt(&self, f: &mut fmt::Formatter<'_>) -> fmt::Result {
        let mut shown = f.debug_struct("Server");
        shown.field("hosts", &self.hosts()).finish_non_exhaustive()
    }
}

impl Drop for Server {
    fn drop(&mut self) {
        {
            let mut ensemble = self.servers.lock();
            ensemble.is_over = true;
            ensemble.drop_all();
        }
        let woken = TcpStream::connect((Ipv4Addr::LOCALHOST, self.port));
        if let Some(accepts) = self.accepts.take().filter(|_| woken.is_ok()) {
            let _ = accepts.join();
        }
    }
}

/// Keeps servers of sessions from learning anything until it is dropped: see [`Server::lag`].
#[must_use = "where it is dropped, the servers learn all"]
pub struct Lag<'a> {
    server: &'a Server,
    sessions: Vec<i64>,
}

impl fmt::Debug for Lag<'_> {
    fn fmt(&self, f: &mut fmt::Formatter<'_>) -> fmt::Result {
        f.debug_tuple("Lag").field(&self.sessions).finish()
    }
}

impl Drop for Lag<'_> {
    fn drop(&mut self) {
        self.server.servers.lock().lag(&self.sessions, false);
    }
}

/// The sessions with this id, or all.
fn named(ensemble: &Ensemble, session: Option<i64>) -> Result<Vec<i64>, Error> {
    let found = ensemble.named(session);
    found.ok_or_else(|| Error::about(None, Code::SESSION_EXPIRED.into()))
}

fn named_thread(name: &str, run: impl FnOnce() + Send + 'static) -> io::Result<JoinHandle<()>> {
    Builder::new().name(format!("testing {name}")).spawn(run)
}

/// Accepts connections until the server is over.
fn accept(listener: &TcpListener, servers: &Arc<Servers>) {
    for stream in listener.incoming() {
        if servers.lock().is_over {
            return;
        }
        if let Ok(stream) = stream {
            let _ = begin(stream, servers); // if the system fails, only this connection ends
        }
    }
}

/// Begins a connection, with a thread that reads and one that writes.
fn begin(stream: TcpStream, servers: &Arc<Servers>) -> io::Result<()> {
    stream.set_nodelay(true)?;
    let (reads, writes) = (stream.try_clone()?, stream.try_clone()?);
    let (out, wanted) = channel();
    let link = Link {
        stream,
        out,
        session: None,
    };
    let mut ensemble = servers.lock();
    if ensemble.is_stopped || ensemble.is_over {
        return Ok(());
    }
    let number = ensemble.open(link);
    drop(ensemble);
    let shared = Arc::clone(servers);
    let begun = named_thread("writes", move || write(writes, &wanted))
        .and_then(|_| named_thread("reads", move || read(reads, number, &shared)));
    if begun.is_err() {
        servers.lock().abort(number);
    }
    begun.map(|_| ())
}

/// Writes all bytes that are wanted, and ends the stream after that.
fn write(mut stream: TcpStream, wanted: &Receiver<Vec<u8>>) {
    for bytes in wanted {
        if stream.write_all(&bytes).is_err() {
            break;
        }
    }
    let _ = stream.shutdown(Shutdown::Both);
}

/// Hands in each whole frame that comes, until the connection is over.
fn read(mut stream: TcpStream, number: u64, servers: &Servers) {
    let (mut came, mut room) = (Vec::new(), vec![0; ROOM]);
    while let Ok(count @ 1..) = stream.read(&mut room) {
        came.extend_from_slice(&room[..count]);
        while let Some(length) = length_in(&came).filter(|length| *length <= came.len()) {
            let frame: Vec<u8> = came.drain(..length).collect();
            servers.lock().hear(number, &frame);
        }
        if length_in(&came).is_some_and(|length| length > 4 + LONGEST) {
            break;
        }
    }
    servers.lock().close(number);
}
