//! Frames of the protocol as `zookeeper.jute` spells them, as far as the loop has to look at them.

use crate::jute::{Reader, Writer};

/// The greatest length of a frame that it takes: more than real servers take by default, which is 1,048,575.
pub(super) const LONGEST: usize = 4 << 20;

/// The types of requests, and of the end of a transaction.
pub(super) mod number {
    pub(crate) const ERROR: i32 = -1;
    pub(crate) const CREATE: i32 = 1;
    pub(crate) const DELETE: i32 = 2;
    pub(crate) const EXISTS: i32 = 3;
    pub(crate) const GET_DATA: i32 = 4;
    pub(crate) const SET_DATA: i32 = 5;
    pub(crate) const GET_ACL: i32 = 6;
    pub(crate) const SET_ACL: i32 = 7;
    pub(crate) const GET_CHILDREN: i32 = 8;
    pub(crate) const SYNC: i32 = 9;
    pub(crate) const PING: i32 = 11;
    pub(crate) const GET_CHILDREN2: i32 = 12;
    pub(crate) const CHECK: i32 = 13;
    pub(crate) const MULTI: i32 = 14;
    pub(crate) const CREATE2: i32 = 15;
    pub(crate) const AUTH: i32 = 100;
    pub(crate) const SET_WATCHES: i32 = 101;
    pub(crate) const CLOSE_SESSION: i32 = -11;

    /// The requests that a server answers from what it knows, however far that is from what the others know.
    pub(crate) const READS: [i32; 8] = [
        EXISTS,
        GET_DATA,
        GET_ACL,
        GET_CHILDREN,
        GET_CHILDREN2,
        PING,
        AUTH,
        SET_WATCHES,
    ];
}

/// A reply, without its xid.
pub(super) struct Reply {
    pub(super) code: i32,
    pub(super) body: Vec<u8>,
}

impl Reply {
    /// The fields of a frame, or `None` if it is too short.
    pub(super) fn of(frame: &[u8]) -> Option<Reply> {
        let mut fields = Reader::new(frame.get(4..)?);
        fields.int()?;
        fields.long()?;
        Some(Reply {
            code: fields.int()?,
            body: fields.rest().to_vec(),
        })
    }
}

/// A payload after its length.
pub(super) fn framed(payload: &[u8]) -> Vec<u8> {
    let mut frame = Writer::default();
    frame.buffer(payload);
    frame.into_bytes()
}

pub(super) fn put_reply(xid: i32, zxid: i64, code: i32, body: &[u8]) -> Vec<u8> {
    let mut head = Writer::default();
    head.int(xid);
    let head = [&head.into_bytes()[..], &zxid.to_be_bytes()].concat();
    framed(&[&head, &code.to_be_bytes()[..], body].concat())
}

/// Bytes after their length, or nothing for null ones. `None` if they do not parse.
pub(super) fn buffer(fields: &mut Reader<'_>) -> Option<Vec<u8>> {
    match fields.int()? {
        -1 => Some(Vec::new()),
        length => fields.bytes(usize::try_from(length).ok()?),
    }
}

/// The header of an operation of a transaction: its type, whether it is the last one, and a code.
pub(super) fn header(fields: &mut Reader<'_>) -> Option<(i32, bool, i32)> {
    Some((fields.int()?, fields.boolean()?, fields.int()?))
}

/// The length of the first frame of these bytes, including the length itself, if it is there.
pub(super) fn length_in(bytes: &[u8]) -> Option<usize> {
    let length = u32::from_be_bytes(bytes.get(..4)?.try_into().ok()?);
    Some(4 + usize::try_from(length).unwrap_or(usize::MAX - 4))
}

/// The frames in a server's bytes, each with its length.
pub(super) fn split(mut said: &[u8]) -> Vec<Vec<u8>> {
    let mut frames = Vec::new();
    while let Some(length) = length_in(said).filter(|length| *length <= said.len()) {
        frames.push(said[..length].to_vec());
        said = &said[length..];
    }
    frames
}

/// The password in the answer to a request to connect.
pub(super) fn password_in(frame: &[u8]) -> Option<Vec<u8>> {
    let mut fields = Reader::new(frame.get(4..)?);
    fields.bytes(16)?;
    buffer(&mut fields)
}
