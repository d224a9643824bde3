//! An ordinary client in Rust: owned values, the collections of std, and the checks that a client has to make of what it is given. Nothing of it is
//! proved.
#![forbid(unsafe_code)]

use std::collections::{BTreeMap, BTreeSet, HashMap, VecDeque};
use std::{mem, str};

const NOTICE_XID: i32 = -1;
const PING_XID: i32 = -2;
const SET_WATCHES_XID: i32 = -8;
const PING: i32 = 11;
const SET_WATCHES: i32 = 101;

const CONNECTION_LOSS: Code = Code(-4);
const NO_NODE: Code = Code(-101);

const LENGTH: usize = 4;
const LONGEST_PATH: usize = 4_096;
const LONGEST_FRAME: usize = 4_194_304;
const MOST_PENDING: usize = 1_024;
const MOST_WEIGHT: usize = 131_072;

/// What happens to a client.
pub enum Input<'a> {
    /// A connection begins.
    Opened,
    /// The connection is over.
    Cut,
    /// A moment, and nothing else.
    Moment,
    /// Bytes came from the server, in any pieces.
    Bytes(&'a [u8]),
    /// A call, with the caller's own number for its answer.
    Call(u64, Call),
}

/// A read of a path, which may leave a watch on it.
pub struct Call {
    pub kind: Kind,
    pub path: String,
    pub watch: bool,
}

impl Call {
    /// Whether this answer leaves a watch. That of exists does so of a node that is not there, too.
    fn leaves_watch(&self, answer: &Answer) -> bool {
        let is_absent = self.kind == Kind::Exists && matches!(answer, Err(NO_NODE));
        self.watch && (answer.is_ok() || is_absent)
    }
}

#[derive(Clone, Copy, Debug, PartialEq, Eq)]
pub enum Kind {
    Exists = 3,
    GetData = 4,
    GetChildren = 12,
}

/// What a client says.
#[derive(Debug)]
pub enum Output {
    /// A frame for the server.
    Send(Vec<u8>),
    /// The answer to the call with this number.
    Answer(u64, Answer),
    /// What was known of this side of the path has ended.
    Report(String, Side, Event),
    State(State),
    /// The connection is given up, and is to be closed.
    Drop(Fault),
}

pub type Answer = Result<Reply, Code>;

#[derive(Debug)]
pub enum Reply {
    Stat(Stat),
    Data(Vec<u8>, Stat),
    Names(Vec<String>, Stat),
}

/// An error, as the server numbers them.
#[derive(Clone, Copy, Debug, PartialEq, Eq)]
pub struct Code(pub i32);

#[derive(Clone, Copy, Debug, Default, PartialEq, Eq)]
pub enum State {
    #[default]
    Idle,
    Connecting,
    Connected,
    Expired,
}

#[derive(Clone, Copy, Debug, PartialEq, Eq)]
pub enum Side {
    Data,
    Children,
}

#[derive(Clone, Copy, Debug, PartialEq, Eq)]
pub enum Event {
    Created,
    Deleted,
    DataChanged,
    ChildrenChanged,
}

impl Event {
    fn new(number: i32) -> Option<Event> {
        match number {
            1 => Some(Event::Created),
            2 => Some(Event::Deleted),
            3 => Some(Event::DataChanged),
            4 => Some(Event::ChildrenChanged),
            _ => None,
        }
    }

    fn concerns(self, side: Side) -> bool {
        match side {
            Side::Data => self != Event::ChildrenChanged,
            Side::Children => matches!(self, Event::Deleted | Event::ChildrenChanged),
        }
    }
}

/// Why an input is not taken, or why a connection is given up.
#[derive(Clone, Copy, Debug, PartialEq, Eq)]
pub enum Fault {
    NotPath,
    NotIdle,
    NotConnected,
    TooManyPending,
    /// A record ends before its last field.
    Short,
    /// A length is below -1, or that of a frame which is too long.
    BadLength(i32),
    NotText,
    /// The reply with this xid is not the next one.
    NotAwaited(i32),
    /// The reply to a watched read has a zxid before the last one that was seen.
    Behind(i64),
    WatchesRefused(Code),
    /// Nothing was heard for two thirds of the timeout.
    Silent,
}

/// What is known of a node, in the order of the protocol.
#[derive(Clone, Copy, Debug, PartialEq, Eq)]
pub struct Stat {
    pub czxid: i64,
    pub mzxid: i64,
    pub ctime: i64,
    pub mtime: i64,
    pub version: i32,
    pub cversion: i32,
    pub aversion: i32,
    pub ephemeral_owner: i64,
    pub data_length: i32,
    pub num_children: i32,
    pub pzxid: i64,
}

/// Whether a text is a path's: `/` alone, or a `/` before each name.
fn is_path(text: &str) -> bool {
    let Some(names) = text.strip_prefix('/') else {
        return false;
    };
    let is_name = |name| !matches!(name, "" | "." | "..");
    text.len() <= LONGEST_PATH
        && !text.chars().any(is_refused)
        && (names.is_empty() || names.split('/').all(is_name))
}

fn is_refused(c: char) -> bool {
    c.is_control() || matches!(c, '\u{e000}'..='\u{f8ff}' | '\u{fff0}'..)
}

/// What payloads begin with, once the server has accepted the session.
struct Header {
    xid: i32,
    zxid: i64,
    code: Code,
}

/// Bytes of the server that were not yet read.
struct Reader<'a>(&'a [u8]);

impl<'a> Reader<'a> {
    /// The payload of the next frame, where that is whole.
    fn payload(&mut self) -> Result<Option<Reader<'a>>, Fault> {
        let Some((length, rest)) = self.0.split_first_chunk() else {
            return Ok(None);
        };
        let length = i32::from_be_bytes(*length);
        let count = usize::try_from(length).unwrap_or(usize::MAX);
        if count > LONGEST_FRAME {
            return Err(Fault::BadLength(length));
        }
        let Some((payload, rest)) = rest.split_at_checked(count) else {
            return Ok(None);
        };
        self.0 = rest;
        Ok(Some(Reader(payload)))
    }

    fn array<const COUNT: usize>(&mut self) -> Result<[u8; COUNT], Fault> {
        let (array, rest) = self.0.split_first_chunk().ok_or(Fault::Short)?;
        self.0 = rest;
        Ok(*array)
    }

    fn int(&mut self) -> Result<i32, Fault> {
        self.array().map(i32::from_be_bytes)
    }

    fn long(&mut self) -> Result<i64, Fault> {
        self.array().map(i64::from_be_bytes)
    }

    /// A length or a count. What is null has -1, and is read as empty.
    fn length(&mut self) -> Result<usize, Fault> {
        match self.int()? {
            -1 => Ok(0),
            length => usize::try_from(length).map_err(|_| Fault::BadLength(length)),
        }
    }

    fn buffer(&mut self) -> Result<&'a [u8], Fault> {
        let length = self.length()?;
        let (bytes, rest) = self.0.split_at_checked(length).ok_or(Fault::Short)?;
        self.0 = rest;
        Ok(bytes)
    }

    fn text(&mut self) -> Result<&'a str, Fault> {
        str::from_utf8(self.buffer()?).map_err(|_| Fault::NotText)
    }

    fn names(&mut self) -> Result<Vec<String>, Fault> {
        let count = self.length()?;
        (0..count).map(|_| self.text().map(str::to_owned)).collect()
    }

    fn stat(&mut self) -> Result<Stat, Fault> {
        Ok(Stat {
            czxid: self.long()?,
            mzxid: self.long()?,
            ctime: self.long()?,
            mtime: self.long()?,
            version: self.int()?,
            cversion: self.int()?,
            aversion: self.int()?,
            ephemeral_owner: self.long()?,
            data_length: self.int()?,
            num_children: self.int()?,
            pzxid: self.long()?,
        })
    }

    fn header(&mut self) -> Result<Header, Fault> {
        Ok(Header {
            xid: self.int()?,
            zxid: self.long()?,
            code: Code(self.int()?),
        })
    }

    /// What the reply to a call brings. One with the code of an error is its header alone.
    fn answer(&mut self, kind: Kind, code: Code) -> Result<Answer, Fault> {
        if code != Code(0) {
            return Ok(Err(code));
        }
        Ok(Ok(match kind {
            Kind::Exists => Reply::Stat(self.stat()?),
            Kind::GetData => Reply::Data(self.buffer()?.to_vec(), self.stat()?),
            Kind::GetChildren => Reply::Names(self.names()?, self.stat()?),
        }))
    }
}

/// A frame that is being written.
struct Frame(Vec<u8>);

impl Frame {
    /// Begins a frame, with room for a payload of this many bytes.
    fn with_room(room: usize) -> Frame {
        let mut bytes = Vec::with_capacity(LENGTH + room);
        bytes.extend_from_slice(&[0; LENGTH]);
        Frame(bytes)
    }

    fn int(&mut self, number: i32) {
        self.0.extend_from_slice(&number.to_be_bytes());
    }

    fn long(&mut self, number: i64) {
        self.0.extend_from_slice(&number.to_be_bytes());
    }

    fn flag(&mut self, flag: bool) {
        self.0.push(u8::from(flag));
    }

    /// A length or a count. None is near 2,147,483,647.
    fn length(&mut self, length: usize) {
        self.int(length as i32);
    }

    fn buffer(&mut self, bytes: &[u8]) {
        self.length(bytes.len());
        self.0.extend_from_slice(bytes);
    }

    fn texts(&mut self, texts: &[&str]) {
        self.length(texts.len());
        for text in texts {
            self.buffer(text.as_bytes());
        }
    }

    /// Ends the frame: its length stands before it.
    fn finish(mut self) -> Vec<u8> {
        let length = (self.0.len() - LENGTH) as i32;
        self.0[..LENGTH].copy_from_slice(&length.to_be_bytes());
        self.0
    }
}

/// A watch: its list, and its number there.
#[derive(Clone, Copy)]
struct Watch {
    list: List,
    number: u64,
}

#[derive(Clone, Copy, PartialEq, Eq)]
enum List {
    Data,
    Exist,
    Children,
}

/// The watched paths of each list, in the order in which they were registered.
#[derive(Default)]
struct Watches {
    next: u64,
    lists: [BTreeMap<u64, String>; 3],
}

impl Watches {
    /// Registers a path in a list. Where it is there already, that watch stays; where it is in another one, it goes there.
    fn register(&mut self, list: List, path: String, before: Option<Watch>) -> Watch {
        match before {
            Some(watch) if watch.list == list => return watch,
            Some(watch) => drop(self.remove(watch)),
            None => {}
        }
        let number = self.next;
        self.next += 1;
        self.lists[list as usize].insert(number, path);
        Watch { list, number }
    }

    fn remove(&mut self, watch: Watch) -> Option<String> {
        self.lists[watch.list as usize].remove(&watch.number)
    }

    /// The requests that set all watches again, in as few parts as `MOST_WEIGHT` allows.
    fn requests(&self, last_zxid: i64) -> Vec<Frame> {
        let mut requests = Vec::new();
        let mut part = Part::default();
        for (list, paths) in self.lists.iter().enumerate() {
            for path in paths.values() {
                let weight = LENGTH + path.len();
                if part.weight + weight > MOST_WEIGHT {
                    requests.push(mem::take(&mut part).request(last_zxid));
                }
                part.weight += weight;
                part.lists[list].push(path);
            }
        }
        if part.weight > 0 {
            requests.push(part.request(last_zxid));
        }
        requests
    }
}

/// A part of the lists, for a request.
#[derive(Default)]
struct Part<'a> {
    weight: usize,
    lists: [Vec<&'a str>; 3],
}

impl Part<'_> {
    fn request(&self, last_zxid: i64) -> Frame {
        let mut frame = Frame::with_room(28 + self.weight);
        frame.int(SET_WATCHES_XID);
        frame.int(SET_WATCHES);
        frame.long(last_zxid);
        self.lists.iter().for_each(|list| frame.texts(list));
        frame
    }
}

/// What is kept. It is good while it has the watch that it was left with, and stale after.
struct Kept<T> {
    value: T,
    watch: Option<Watch>,
}

impl<T> Kept<T> {
    fn good(&self) -> Option<&T> {
        self.watch.is_some().then_some(&self.value)
    }
}

/// What is kept of a path.
#[derive(Default)]
struct Node {
    content: Option<Kept<Content>>,
    names: Option<Kept<BTreeSet<String>>>,
}

/// What a read has told of a node.
pub enum Content {
    Absent,
    Known(Stat),
    Full(Vec<u8>, Stat),
}

impl Node {
    fn take_watch(&mut self, side: Side) -> Option<Watch> {
        match side {
            Side::Data => self.content.as_mut()?.watch.take(),
            Side::Children => self.names.as_mut()?.watch.take(),
        }
    }
}

/// A call whose reply has not come.
struct Pending {
    xid: i32,
    ticket: u64,
    call: Call,
}

/// A client of one session, from connection to connection. Moments are milliseconds of a clock that does not go back.
#[derive(Default)]
pub struct Client {
    state: State,
    asked_ms: i32,
    timeout_ms: u64,
    session: i64,
    password: Vec<u8>,
    last_xid: i32,
    last_zxid: i64,
    now_ms: u64,
    heard_ms: u64,
    sent_ms: u64,
    inbox: Vec<u8>,
    pending: VecDeque<Pending>,
    pending_parts: usize,
    watches: Watches,
    nodes: HashMap<String, Node>,
    outputs: Vec<Output>,
}

impl Client {
    /// A client of no session yet, which will ask for this timeout.
    pub fn new(timeout_ms: i32) -> Client {
        Client {
            asked_ms: timeout_ms,
            timeout_ms: u64::from(timeout_ms.unsigned_abs()),
            password: vec![0; 16],
            ..Client::default()
        }
    }

    /// Takes what has happened at this moment, and answers what is to be done, in order.
    pub fn step(&mut self, now_ms: u64, input: Input<'_>) -> Result<Vec<Output>, Fault> {
        self.now_ms = self.now_ms.max(now_ms);
        match input {
            Input::Opened => self.open()?,
            Input::Cut => self.lose(),
            Input::Moment => self.take_moment(),
            Input::Bytes(bytes) => self
                .take_bytes(bytes)
                .unwrap_or_else(|fault| self.give_up(fault)),
            Input::Call(ticket, call) => self.ask(ticket, call)?,
        }
        Ok(mem::take(&mut self.outputs))
    }

    /// What is kept of the node with this path, where that is good.
    pub fn content(&self, path: &str) -> Option<&Content> {
        self.nodes.get(path)?.content.as_ref()?.good()
    }

    /// The names of its children, where they are good.
    pub fn names(&self, path: &str) -> Option<&BTreeSet<String>> {
        self.nodes.get(path)?.names.as_ref()?.good()
    }

    fn is_open(&self) -> bool {
        matches!(self.state, State::Connecting | State::Connected)
    }

    fn enter(&mut self, state: State) {
        self.state = state;
        self.outputs.push(Output::State(state));
    }

    fn send(&mut self, frame: Frame) {
        self.sent_ms = self.now_ms;
        self.outputs.push(Output::Send(frame.finish()));
    }

    fn open(&mut self) -> Result<(), Fault> {
        if self.state != State::Idle {
            return Err(Fault::NotIdle);
        }
        let mut frame = Frame::with_room(29 + self.password.len());
        frame.int(0);
        frame.long(self.last_zxid);
        frame.int(self.asked_ms);
        frame.long(self.session);
        frame.buffer(&self.password);
        frame.flag(false);
        self.send(frame);
        self.heard_ms = self.now_ms;
        self.enter(State::Connecting);
        Ok(())
    }

    /// The connection is over. No call that waits has a reply any more.
    fn lose(&mut self) {
        if !self.is_open() {
            return;
        }
        self.inbox.clear();
        self.pending_parts = 0;
        for Pending { ticket, .. } in self.pending.drain(..) {
            let lost = Output::Answer(ticket, Err(CONNECTION_LOSS));
            self.outputs.push(lost);
        }
        self.enter(State::Idle);
    }

    fn give_up(&mut self, fault: Fault) {
        self.outputs.push(Output::Drop(fault));
        self.lose();
    }

    /// The session has expired. Nothing is kept of it.
    fn expire(&mut self) {
        self.watches = Watches::default();
        self.nodes.clear();
        self.enter(State::Expired);
    }

    fn take_moment(&mut self) {
        let third = self.timeout_ms / 3;
        if self.is_open() && self.now_ms - self.heard_ms >= 2 * third {
            self.give_up(Fault::Silent);
        } else if self.state == State::Connected && self.now_ms - self.sent_ms >= third {
            let mut frame = Frame::with_room(8);
            frame.int(PING_XID);
            frame.int(PING);
            self.send(frame);
        }
    }

    fn ask(&mut self, ticket: u64, call: Call) -> Result<(), Fault> {
        if !is_path(&call.path) {
            return Err(Fault::NotPath);
        }
        if self.state != State::Connected {
            return Err(Fault::NotConnected);
        }
        if self.pending.len() >= MOST_PENDING {
            return Err(Fault::TooManyPending);
        }
        let xid = self.last_xid.checked_add(1).unwrap_or(1);
        let mut frame = Frame::with_room(13 + call.path.len());
        frame.int(xid);
        frame.int(call.kind as i32);
        frame.buffer(call.path.as_bytes());
        frame.flag(call.watch);
        self.last_xid = xid;
        self.pending.push_back(Pending { xid, ticket, call });
        self.send(frame);
        Ok(())
    }

    fn take_bytes(&mut self, bytes: &[u8]) -> Result<(), Fault> {
        if !self.is_open() {
            return Ok(());
        }
        self.heard_ms = self.now_ms;
        let mut inbox = mem::take(&mut self.inbox);
        inbox.extend_from_slice(bytes);
        let taken = self.take_frames(&inbox)?;
        inbox.drain(..taken);
        self.inbox = inbox;
        Ok(())
    }

    /// Takes the frames that are whole, and answers how many bytes they have.
    fn take_frames(&mut self, bytes: &[u8]) -> Result<usize, Fault> {
        let mut reader = Reader(bytes);
        while let Some(payload) = reader.payload()? {
            self.take_payload(payload)?;
        }
        Ok(bytes.len() - reader.0.len())
    }

    fn take_payload(&mut self, mut reader: Reader<'_>) -> Result<(), Fault> {
        match self.state {
            State::Connecting => return self.take_greeting(reader),
            State::Connected => {}
            State::Idle | State::Expired => return Ok(()),
        }
        let header = reader.header()?;
        match header.xid {
            NOTICE_XID => self.take_notice(reader),
            PING_XID => Ok(()),
            SET_WATCHES_XID => self.take_watches_set(header.code),
            _ => self.take_reply(&header, reader),
        }
    }

    /// A timeout of 0 or less says that the session has expired.
    fn take_greeting(&mut self, mut reader: Reader<'_>) -> Result<(), Fault> {
        let _version = reader.int()?;
        let timeout_ms = u64::try_from(reader.int()?).unwrap_or(0);
        let session = reader.long()?;
        let password = reader.buffer()?;
        if timeout_ms == 0 {
            self.expire();
            return Ok(());
        }
        self.timeout_ms = timeout_ms;
        self.session = session;
        self.password = password.to_vec();
        self.enter(State::Connected);
        for request in self.watches.requests(self.last_zxid) {
            self.pending_parts += 1;
            self.send(request);
        }
        Ok(())
    }

    /// The zxid of a part is passed over: watches of later parts may have to fire yet.
    fn take_watches_set(&mut self, code: Code) -> Result<(), Fault> {
        if code != Code(0) {
            return Err(Fault::WatchesRefused(code));
        }
        let others = self.pending_parts.checked_sub(1);
        self.pending_parts = others.ok_or(Fault::NotAwaited(SET_WATCHES_XID))?;
        Ok(())
    }

    /// A notice of an event that has no name here is passed over.
    fn take_notice(&mut self, mut reader: Reader<'_>) -> Result<(), Fault> {
        let event = Event::new(reader.int()?);
        let _state = reader.int()?;
        let path = reader.text()?;
        let Some(event) = event else {
            return Ok(());
        };
        for side in [Side::Data, Side::Children] {
            if event.concerns(side) {
                self.fire(path, side, event);
            }
        }
        Ok(())
    }

    /// Takes the watch from a side of a path, and reports it where there was one.
    fn fire(&mut self, path: &str, side: Side, event: Event) {
        let node = self.nodes.get_mut(path);
        let watch = node.and_then(|node| node.take_watch(side));
        if let Some(path) = watch.and_then(|watch| self.watches.remove(watch)) {
            self.outputs.push(Output::Report(path, side, event));
        }
    }

    /// The reply to the call that has waited longest. Where it has a fault, that call still waits.
    fn take_reply(&mut self, header: &Header, mut reader: Reader<'_>) -> Result<(), Fault> {
        let oldest = match self.pending.front() {
            Some(oldest) if oldest.xid == header.xid && self.pending_parts == 0 => oldest,
            _ => return Err(Fault::NotAwaited(header.xid)),
        };
        let answer = reader.answer(oldest.call.kind, header.code)?;
        let leaves_watch = oldest.call.leaves_watch(&answer);
        if leaves_watch && header.zxid < self.last_zxid {
            return Err(Fault::Behind(header.zxid));
        }
        self.last_zxid = self.last_zxid.max(header.zxid);
        if let Some(Pending { ticket, call, .. }) = self.pending.pop_front() {
            if leaves_watch {
                self.keep(call.path, &answer);
            }
            self.outputs.push(Output::Answer(ticket, answer));
        }
        Ok(())
    }

    /// Keeps what an answer says of a path, with the watch that it leaves.
    fn keep(&mut self, path: String, answer: &Answer) {
        match answer {
            Ok(Reply::Names(names, _)) => self.keep_names(path, names),
            Ok(Reply::Data(data, stat)) => {
                self.keep_content(path, List::Data, Content::Full(data.clone(), *stat));
            }
            Ok(Reply::Stat(stat)) => self.keep_content(path, List::Data, Content::Known(*stat)),
            Err(_) => self.keep_content(path, List::Exist, Content::Absent),
        }
    }

    fn keep_content(&mut self, path: String, list: List, value: Content) {
        let node = self.nodes.entry(path.clone()).or_default();
        let before = node.content.as_ref().and_then(|kept| kept.watch);
        let watch = Some(self.watches.register(list, path, before));
        node.content = Some(Kept { value, watch });
    }

    fn keep_names(&mut self, path: String, names: &[String]) {
        let node = self.nodes.entry(path.clone()).or_default();
        let before = node.names.as_ref().and_then(|kept| kept.watch);
        let watch = Some(self.watches.register(List::Children, path, before));
        let value = names.iter().cloned().collect();
        node.names = Some(Kept { value, watch });
    }
}
