//! Frames as `zookeeper.jute` spells them, of which each test takes what it needs.
#![allow(dead_code)]
// The texts of tests have a few bytes.
#![allow(clippy::cast_possible_truncation, clippy::cast_possible_wrap)]

/// Types of requests.
pub const CREATE: i32 = 1;
pub const DELETE: i32 = 2;
pub const EXISTS: i32 = 3;
pub const GET_DATA: i32 = 4;
pub const SET_DATA: i32 = 5;
pub const SYNC: i32 = 9;
pub const PING: i32 = 11;
pub const GET_CHILDREN_2: i32 = 12;
pub const SET_WATCHES: i32 = 101;
pub const CLOSE_SESSION: i32 = -11;

/// Xids of messages that answer no call.
pub const NOTICE: i32 = -1;
pub const PONG: i32 = -2;
pub const WATCHES_SET: i32 = -8;

/// Fields of records, one after the other.
#[derive(Default)]
pub struct Record {
    bytes: Vec<u8>,
}

impl Record {
    pub fn new() -> Record {
        Record::default()
    }

    pub fn int(mut self, number: i32) -> Record {
        self.bytes.extend(number.to_be_bytes());
        self
    }

    pub fn long(mut self, number: i64) -> Record {
        self.bytes.extend(number.to_be_bytes());
        self
    }

    pub fn boolean(mut self, flag: bool) -> Record {
        self.bytes.push(u8::from(flag));
        self
    }

    pub fn buffer(mut self, bytes: &[u8]) -> Record {
        self = self.int(bytes.len() as i32);
        self.bytes.extend(bytes);
        self
    }

    pub fn text(self, text: &str) -> Record {
        self.buffer(text.as_bytes())
    }

    pub fn texts(self, texts: &[&str]) -> Record {
        let counted = self.int(texts.len() as i32);
        texts.iter().fold(counted, |record, text| record.text(text))
    }

    /// `ReplyHeader`.
    pub fn reply(xid: i32, zxid: i64, code: i32) -> Record {
        Record::new().int(xid).long(zxid).int(code)
    }

    /// `Stat`, of a node that was made and changed at this zxid.
    pub fn stat(self, zxid: i64, version: i32, data_length: i32, num_children: i32) -> Record {
        let times = self.long(zxid).long(zxid).long(1_000).long(2_000);
        let versions = times.int(version).int(num_children).int(0).long(0);
        versions.int(data_length).int(num_children).long(zxid)
    }

    /// A `ConnectResponse` for this session, with the bytes 0 to 15 as its password.
    pub fn accepted(timeout: i32, session: i64) -> Vec<u8> {
        let password: Vec<u8> = (0..16).collect();
        let fields = Record::new().int(0).int(timeout).long(session);
        fields.buffer(&password).boolean(false).framed()
    }

    /// A `ConnectResponse` that says that the session has expired.
    pub fn expired() -> Vec<u8> {
        let fields = Record::new().int(0).int(0).long(0);
        fields.buffer(&[0; 16]).boolean(false).framed()
    }

    /// A `WatcherEvent` while connected.
    pub fn notice(event: i32, path: &str) -> Vec<u8> {
        let header = Record::reply(NOTICE, -1, 0);
        header.int(event).int(3).text(path).framed()
    }

    /// Its bytes after their length.
    pub fn framed(self) -> Vec<u8> {
        let mut frame = (self.bytes.len() as i32).to_be_bytes().to_vec();
        frame.extend(self.bytes);
        frame
    }
}
