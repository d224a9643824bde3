//! The servers in memory at one port: a proved one for each session. They learn each other's writes. Their answers are proved. This module,
//! which is tested, decides whose session a connection takes up, when servers learn and when a session ends.

use super::bench::{Bench, Change};
use super::raw::{self, Asking, Listed, Stop};
use super::records::{buffer, number, password_in, put_reply, split, Reply};
use crate::jute::{Reader, Writer};
use std::collections::{BTreeMap, HashMap};
use std::net::{Shutdown, TcpStream};
use std::sync::mpsc::Sender;
use std::time::{SystemTime, UNIX_EPOCH};

/// The number of the first session.
const FIRST: i64 = 0x1000_0000_0000_0001;
/// How many bytes to take from a server at a time.
const ROOM: usize = 1 << 16;
/// The flag of a create of an ephemeral node.
const EPHEMERAL: i32 = 1;

fn now_ms() -> u64 {
    let since = SystemTime::now().duration_since(UNIX_EPOCH);
    since.map_or(0, |since| {
        u64::try_from(since.as_millis()).unwrap_or(u64::MAX)
    })
}

/// What is known besides the proved servers.
#[derive(Clone, Default)]
pub(super) struct Notes {
    /// The ACLs of nodes, by path.
    pub(super) acls: HashMap<String, Listed>,
    /// The sessions of ephemeral nodes, by path.
    owners: BTreeMap<String, i64>,
}

impl Notes {
    /// Notes ephemeral nodes and ACLs, by a request that was answered without an error.
    pub(super) fn note(&mut self, session: i64, kind: i32, body: &[u8], reply: &[u8]) {
        let mut fields = Reader::new(body);
        match (kind, fields.text()) {
            (number::DELETE, Some(path)) => self.forget(&path),
            (number::CREATE, Some(_)) => {
                let _ = self.note_made(session, &mut fields, reply);
            }
            _ => {}
        }
    }

    fn note_made(&mut self, session: i64, fields: &mut Reader<'_>, reply: &[u8]) -> Option<()> {
        buffer(fields)?;
        let (path, lines) = (Reader::new(reply).text()?, fields.acls()?);
        let listed = Listed { lines, version: 0 };
        self.acls.insert(path.clone(), listed);
        if fields.int()? & EPHEMERAL != 0 {
            self.owners.insert(path, session);
        }
        Some(())
    }

    /// Forgets a node that is gone.
    fn forget(&mut self, path: &str) {
        self.acls.remove(path);
        self.owners.remove(path);
    }
}

/// A session: its server, which has the common history. It lasts until it is closed or expires, however long its client is silent.
pub(super) struct Session {
    pub(super) number: i64,
    bench: Bench,
    /// Whether the server has the connection.
    is_open: bool,
    password: Vec<u8>,
    link: Option<u64>,
    /// Whether its server learns nothing until the client asks for a change, or to catch up.
    is_lagging: bool,
}

impl Session {
    fn new(number: i64, log: &mut Bench) -> Session {
        let mut session = Session {
            number,
            bench: Bench::new(number),
            is_open: false,
            password: Vec::new(),
            link: None,
            is_lagging: false,
        };
        session.learn(log);
        session
    }

    /// Takes over what another server has and this one does not, with the notices for watches.
    fn learn(&mut self, other: &mut Bench) {
        while self.bench.learn(other) {
            self.bench.take(1);
        }
    }

    /// Makes a new connection to its server.
    fn connect(&mut self) {
        self.is_open = self.bench.connect(1).is_ok();
    }

    /// Hands in a request, and returns what the server sends.
    pub(super) fn answer(&mut self, frame: &[u8]) -> Vec<u8> {
        self.bench.now_ms = now_ms();
        self.bench.hear(frame);
        self.bench.process();
        self.say()
    }

    /// Takes all that the server sent.
    fn say(&mut self) -> Vec<u8> {
        let mut said = Vec::new();
        loop {
            let (bytes, is_open) = self.bench.say(ROOM);
            self.is_open = is_open;
            said.extend(&bytes);
            if bytes.len() < ROOM {
                return said;
            }
        }
    }
}

/// A connection of a client.
pub(super) struct Link {
    pub(super) stream: TcpStream,
    /// The bytes to write. If it is dropped, the stream ends after them.
    pub(super) out: Sender<Vec<u8>>,
    pub(super) session: Option<i64>,
}

impl Link {
    fn send(&self, bytes: Vec<u8>) {
        if !bytes.is_empty() {
            let _ = self.out.send(bytes); // it fails once the connection is over
        }
    }
}

/// The servers: the sessions, their connections, and the history of `log`, which all have in common.
pub(super) struct Ensemble {
    log: Bench,
    notes: Notes,
    sessions: BTreeMap<i64, Session>,
    links: HashMap<u64, Link>,
    next: i64,
    pub(super) came: u64,
    pub(super) is_stopped: bool,
    pub(super) is_over: bool,
}

impl Ensemble {
    pub(super) fn new() -> Ensemble {
        Ensemble {
            log: Bench::new(0),
            notes: Notes::default(),
            sessions: BTreeMap::new(),
            links: HashMap::new(),
            next: FIRST,
            came: 0,
            is_stopped: false,
            is_over: false,
        }
    }

    pub(super) fn zxid(&mut self) -> i64 {
        self.log.zxid()
    }

    pub(super) fn numbers(&self) -> Vec<i64> {
        self.sessions.keys().copied().collect()
    }

    /// Adds a connection, and returns its number.
    pub(super) fn open(&mut self, link: Link) -> u64 {
        self.came += 1;
        self.links.insert(self.came, link);
        self.came
    }

    /// Closes a connection at once. Bytes that are not yet written are lost.
    pub(super) fn abort(&mut self, link: u64) {
        if let Some(link) = self.close(link) {
            let _ = link.stream.shutdown(Shutdown::Both);
        }
    }

    /// Drops a connection, which ends after the bytes that were sent.
    pub(super) fn close(&mut self, number: u64) -> Option<Link> {
        let link = self.links.remove(&number)?;
        let session = link.session.and_then(|it| self.sessions.get_mut(&it));
        if let Some(session) = session.filter(|session| session.link == Some(number)) {
            session.link = None;
            session.bench.cut();
        }
        Some(link)
    }

    fn send(&self, link: Option<u64>, bytes: Vec<u8>) {
        if let Some(link) = link.and_then(|link| self.links.get(&link)) {
            link.send(bytes);
        }
    }

    /// Takes a whole frame from a connection.
    pub(super) fn hear(&mut self, link: u64, frame: &[u8]) {
        let Some(session) = self.links.get(&link).map(|link| link.session) else {
            return;
        };
        let heard = match session {
            None => self.connect(link, frame),
            Some(session) => self.request(link, session, frame),
        };
        if heard.is_none() {
            self.close(link);
        }
    }

    /// A new session for id 0, else the one with this id and password. An unknown one has expired.
    fn session_of(&mut self, number: i64, password: &[u8]) -> Session {
        if let Some(link) = self.sessions.get(&number).and_then(|known| known.link) {
            if self.sessions[&number].password == password {
                self.abort(link);
            }
        }
        match self.sessions.remove(&number) {
            Some(known) if known.password == password => return known,
            Some(known) => drop(self.sessions.insert(number, known)),
            None => {}
        }
        let own = if number == 0 { self.next } else { number };
        self.next += i64::from(number == 0);
        let mut session = Session::new(own, &mut self.log);
        session.bench.expire(number != 0);
        session
    }

    /// Takes a request to connect. The server admits the client, or says why not, or ends the connection. `None` if the request does not
    /// parse.
    fn connect(&mut self, link: u64, frame: &[u8]) -> Option<()> {
        let mut fields = Reader::new(frame.get(4..)?);
        fields.bytes(16)?; // the version of the protocol, a zxid and the timeout
        let (number, password) = (fields.long()?, buffer(&mut fields)?);
        let mut session = self.session_of(number, &password);
        let is_known = !session.password.is_empty();
        session.connect();
        let said = session.answer(frame);
        let is_open = session.is_open;
        if is_open {
            session.password = password_in(&said)?;
            session.link = Some(link);
            self.links.get_mut(&link)?.session = Some(session.number);
        }
        if is_open || is_known {
            self.sessions.insert(session.number, session);
        }
        self.send(Some(link), said);
        is_open.then_some(())
    }

    /// Takes a later request. `None` if the connection ends after the bytes that were sent.
    fn request(&mut self, link: u64, number: i64, frame: &[u8]) -> Option<()> {
        let mut fields = Reader::new(frame.get(4..)?);
        let (xid, kind) = (fields.int()?, fields.int()?);
        let mut session = self.sessions.remove(&number)?;
        if session.is_lagging && !number::READS.contains(&kind) {
            session.learn(&mut self.log);
            self.send(Some(link), session.say());
        }
        if kind == number::CLOSE_SESSION {
            self.end(&mut session);
        }
        let goes_on = if raw::knows(kind) {
            self.answer_beside(&mut session, xid, kind, fields.rest())
        } else {
            self.answer(&mut session, kind, frame, fields.rest())
        };
        let is_open = session.is_open;
        let is_learned = self.learn(&mut session.bench);
        if kind != number::CLOSE_SESSION {
            self.sessions.insert(number, session);
        }
        if is_learned {
            self.spread();
        }
        (goes_on && is_open).then_some(())
    }

    /// Lets the proved server answer.
    fn answer(&mut self, session: &mut Session, kind: i32, frame: &[u8], body: &[u8]) -> bool {
        let said = session.answer(frame);
        let reply = split(&said).last().and_then(|last| Reply::of(last));
        if let Some(reply) = reply.filter(|reply| reply.code == raw::OK) {
            self.notes.note(session.number, kind, body, &reply.body);
        }
        self.send(session.link, said);
        true
    }

    /// Answers what the model does not have. Returns whether the connection goes on: it ends if credentials are refused.
    fn answer_beside(&mut self, session: &mut Session, xid: i32, kind: i32, body: &[u8]) -> bool {
        let trial = self.trial_of(session.number);
        let mut asking = Asking {
            session,
            notes: &mut self.notes,
            notices: Vec::new(),
        };
        let (body, code) = match asking.answer(kind, body, trial) {
            Ok(body) => (body, raw::OK),
            Err(Stop::Refused(code)) => (Vec::new(), code),
            Err(Stop::Malformed) => return false,
        };
        let mut said = asking.notices;
        said.extend(put_reply(xid, session.bench.zxid(), code, &body));
        self.send(session.link, said);
        kind != number::AUTH || code == raw::OK
    }

    /// A session on which to try changes: it knows what all know, and nobody learns from it.
    fn trial_of(&mut self, number: i64) -> Session {
        let mut trial = Session::new(number, &mut self.log);
        trial.connect();
        let mut connect = Writer::default();
        connect.int(0).int(0).int(0).int(10_000).int(0).int(0);
        connect.buffer(&[0; 16]).boolean(false);
        trial.answer(&super::records::framed(&connect.into_bytes()));
        trial
    }

    /// Lets the log learn what a server has and the log does not. Returns whether that is something.
    fn learn(&mut self, source: &mut Bench) -> bool {
        let before = self.log.zxid();
        while self.log.learn(source) {}
        self.log.zxid() != before
    }

    /// Lets all servers learn the log's changes, and sends clients their notices.
    fn spread(&mut self) {
        for session in self.sessions.values_mut() {
            if !session.is_lagging {
                session.learn(&mut self.log);
                let said = session.say_to_client();
                if let Some(link) = session.link.and_then(|link| self.links.get(&link)) {
                    link.send(said);
                }
            }
        }
    }

    /// Changes a node, as a session outside of these would. Returns the zxid, or why the change is not admitted.
    pub(super) fn change(&mut self, path: &str, change: &Change<'_>) -> Result<i64, i32> {
        self.log.now_ms = now_ms();
        self.log.change(path, change)?;
        if matches!(change, Change::Delete) {
            self.notes.forget(path);
        }
        self.spread();
        Ok(self.log.zxid())
    }

    /// Ends a session: deletes its ephemeral nodes, each in a transaction of its own.
    fn end(&mut self, session: &mut Session) {
        let owned = self.notes.owners.iter();
        let owned = owned.filter(|(_, owner)| **owner == session.number);
        let mut paths: Vec<String> = owned.map(|(path, _)| path.clone()).collect();
        paths.reverse();
        self.log.now_ms = now_ms();
        for path in paths {
            if self.log.change(&path, &Change::Delete).is_ok() {
                self.notes.forget(&path);
            }
        }
        session.learn(&mut self.log);
        self.spread();
    }

    /// The sessions with this id, or all. `None` if there is none with this id.
    pub(super) fn named(&self, session: Option<i64>) -> Option<Vec<i64>> {
        match session {
            None => Some(self.numbers()),
            Some(number) => self.sessions.contains_key(&number).then(|| vec![number]),
        }
    }

    /// Ends a session, as if its client had been silent for its timeout.
    pub(super) fn expire(&mut self, number: i64) {
        self.drop_session(number);
        if let Some(mut session) = self.sessions.remove(&number) {
            self.end(&mut session);
        }
    }

    /// Closes the connection of a session, if it has one.
    pub(super) fn drop_session(&mut self, number: i64) {
        if let Some(link) = self.sessions.get(&number).and_then(|session| session.link) {
            self.abort(link);
        }
    }

    /// Closes all connections.
    pub(super) fn drop_all(&mut self) {
        let links: Vec<u64> = self.links.keys().copied().collect();
        for link in links {
            self.abort(link);
        }
    }

    /// From now on the servers of these sessions learn nothing, or everything.
    pub(super) fn lag(&mut self, sessions: &[i64], is_lagging: bool) {
        for number in sessions {
            if let Some(session) = self.sessions.get_mut(number) {
                session.is_lagging = is_lagging;
            }
        }
        self.spread();
    }
}

impl Session {
    /// The bytes that its server sent, if it has a connection.
    fn say_to_client(&mut self) -> Vec<u8> {
        if self.link.is_some() {
            self.say()
        } else {
            Vec::new()
        }
    }
}
