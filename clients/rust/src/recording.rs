//! The record of a session: the input and output of its machine, as lines that `zk_shell` replays and shows.
//!
//! It has no secret: the passwords in the request for a session and in its answer are written as zeros, and so is all of a credential. A
//! log-in by SASL is over before the machine gets anything.

use crate::moment::Moment;
use std::fs::{File, OpenOptions};
use std::io::{self, Write};
use std::mem;
use std::ops::Range;
use std::path::Path;
use std::time::{Duration, SystemTime, UNIX_EPOCH};

/// The places in a frame of the xid, the type and the record of a request, and of the passwords in the request for a session and in its
/// answer, each after its length.
const AT_XID: usize = 4;
const AT_TYPE: usize = 8;
const AT_RECORD: usize = 12;
const AT_SENT_PASSWORD: usize = 32;
const AT_CAME_PASSWORD: usize = 24;

/// The xid of a credential.
const AUTH: i32 = -4;

/// The number at a place in a frame. A machine sends whole frames.
fn int(frame: &[u8], at: usize) -> i32 {
    let spelled = frame.get(at..at + 4).and_then(|it| it.try_into().ok());
    i32::from_be_bytes(spelled.unwrap_or_default())
}

/// How many bytes follow a length.
fn length(frame: &[u8], at: usize) -> usize {
    usize::try_from(int(frame, at)).unwrap_or(0)
}

/// Appends bytes as hexadecimal digits, with zeros for those of a range.
fn push_hex(line: &mut Vec<u8>, bytes: &[u8], hidden: &Range<usize>) {
    const DIGITS: &[u8; 16] = b"0123456789abcdef";
    line.reserve(2 * bytes.len() + 1);
    for (at, byte) in bytes.iter().enumerate() {
        let byte = if hidden.contains(&at) { 0 } else { *byte };
        line.extend([
            DIGITS[usize::from(byte >> 4)],
            DIGITS[usize::from(byte & 15)],
        ]);
    }
}

fn push_data(line: &mut Vec<u8>, bytes: &[u8]) {
    match bytes {
        [] => line.extend(b"\\e"),
        _ => push_hex(line, bytes, &(0..0)),
    }
}

fn push_path(line: &mut Vec<u8>, path: &[u8]) {
    for byte in path {
        match byte {
            b'\\' | 0..=b' ' | 0x7f.. => line.extend(format!("\\x{byte:02x}").bytes()),
            _ => line.push(*byte),
        }
    }
}

/// The name of a call in a record, by the type of its request, if the machine reads any of it.
fn name_of(kind: i32) -> Option<&'static str> {
    Some(match kind {
        1 => "create",
        2 => "delete",
        3 => "exists",
        4 => "getdata",
        5 => "setdata",
        12 => "getchildren",
        -11 => "close",
        _ => return None,
    })
}

/// Appends the call that made the machine send this request.
fn push_call(line: &mut Vec<u8>, frame: &[u8]) {
    let (kind, record) = (int(frame, AT_TYPE), &frame[AT_RECORD..]);
    line.extend(format!("call {} ", int(frame, AT_XID)).bytes());
    let Some(name) = name_of(kind) else {
        line.extend(format!("raw {kind} ").bytes());
        push_data(line, record);
        return;
    };
    line.extend(name.bytes());
    if record.is_empty() {
        return;
    }
    let (path, after) = record[4..].split_at(length(record, 0));
    line.push(b' ');
    push_path(line, path);
    if matches!(name, "create" | "setdata") {
        line.push(b' ');
        match int(after, 0) {
            -1 => line.extend(b"\\0"),
            _ => push_data(line, &after[4..4 + length(after, 0)]),
        }
    }
    let last = match name {
        "exists" | "getdata" | "getchildren" => i32::from(record[record.len() - 1]),
        _ => int(record, record.len() - 4),
    };
    line.extend(format!(" {last}").bytes());
}

/// Writes the record of a session into a file.
pub(crate) struct Recorder {
    file: File,
    lines: Vec<u8>,
    /// The line that begins a session, to go before the next line.
    machine: Vec<u8>,
    now: u64,
    /// The first moment, and that of the last line.
    begun: Option<u64>,
    told: Option<u64>,
    /// Whether there is a connection, and whether its first frame was sent.
    is_open: bool,
    has_sent: bool,
    /// How many bytes of the connection came, and the length of the password in them.
    came: usize,
    password: u32,
}

impl Recorder {
    /// Creates the file, or truncates it.
    pub(crate) fn create(path: &Path) -> io::Result<Recorder> {
        let mut options = OpenOptions::new();
        options.write(true).create(true).truncate(true);
        std::os::unix::fs::OpenOptionsExt::mode(&mut options, 0o600);
        let version = env!("CARGO_PKG_VERSION");
        let begun = SystemTime::now().duration_since(UNIX_EPOCH);
        let begun = begun.map_or(0, |since| since.as_millis());
        Ok(Recorder {
            file: options.open(path)?,
            lines: format!("# dirwolleu {version} record 1 of {begun}\n").into_bytes(),
            machine: Vec::new(),
            now: 0,
            begun: None,
            told: None,
            is_open: false,
            has_sent: false,
            came: 0,
            password: 0,
        })
    }

    /// Records that another session begins, or is taken up.
    pub(crate) fn begin(&mut self, timeout: Duration, saved: Option<&[u8]>) {
        let timeout = timeout.as_millis();
        self.machine.clear();
        let Some(saved) = saved else {
            self.machine = format!("timeout {timeout}").into_bytes();
            return;
        };
        let long = |at: usize| {
            let spelled = saved.get(at..at + 8).and_then(|it| it.try_into().ok());
            i64::from_be_bytes(spelled.unwrap_or_default())
        };
        let zxid = long(saved.len().saturating_sub(8));
        self.machine = format!("resume {timeout} {} ", long(0)).into_bytes();
        push_data(&mut self.machine, &vec![0; length(saved, 8)]);
        self.machine.extend(format!(" {zxid}").bytes());
    }

    /// Sets the moment of a step. One below an earlier one counts as that, as it does for the machine.
    pub(crate) fn at(&mut self, now: Moment) {
        self.now = self.now.max(now.as_millis());
    }

    /// Records that the machine got a connection.
    pub(crate) fn opened(&mut self) {
        (self.is_open, self.has_sent, self.came, self.password) = (true, false, 0, 0);
        self.add(|line| line.extend(b"opened"));
    }

    /// Records that the connection, if there was one, is over. It belonged to the session before a new one.
    pub(crate) fn cut(&mut self) {
        if mem::take(&mut self.is_open) {
            let machine = mem::take(&mut self.machine);
            self.add(|line| line.extend(b"cut"));
            self.machine = machine;
        }
    }

    /// Records bytes that the machine got from the server.
    pub(crate) fn bytes(&mut self, bytes: &[u8]) {
        let left = AT_CAME_PASSWORD.saturating_sub(self.came);
        for byte in bytes.iter().take(left) {
            self.password = (self.password << 8) | u32::from(*byte); // the last four
        }
        let end = (AT_CAME_PASSWORD + self.password as usize).saturating_sub(self.came);
        self.came += bytes.len();
        self.add(|line| {
            line.extend(b"bytes ");
            push_hex(line, bytes, &(left..end));
        });
    }

    /// Records frames that the machine sent.
    pub(crate) fn sent(&mut self, frames: &[u8]) {
        let mut left = frames;
        while left.len() > AT_XID {
            let (frame, rest) = left.split_at(left.len().min(AT_XID + length(left, 0)));
            self.sent_one(frame);
            left = rest;
        }
    }

    fn sent_one(&mut self, frame: &[u8]) {
        let (xid, is_first) = (int(frame, AT_XID), !mem::replace(&mut self.has_sent, true));
        let hidden = match xid {
            _ if is_first => {
                AT_SENT_PASSWORD..AT_SENT_PASSWORD + length(frame, AT_SENT_PASSWORD - 4)
            }
            AUTH => AT_RECORD..frame.len(),
            _ => 0..0,
        };
        if !is_first && xid >= 0 {
            self.add(|line| push_call(line, frame));
        }
        self.add(|line| {
            line.extend(b"> ");
            push_hex(line, frame, &hidden);
        });
    }

    /// Adds a line, and the moment before it if that has changed.
    fn add(&mut self, push: impl FnOnce(&mut Vec<u8>)) {
        if !self.machine.is_empty() {
            self.lines.append(&mut self.machine);
            self.lines.push(b'\n');
        }
        let begun = *self.begun.get_or_insert(self.now);
        if self.told.replace(self.now) != Some(self.now) {
            let moment = self.now.saturating_sub(begun);
            self.lines.extend(format!("now {moment}\n").bytes());
        }
        push(&mut self.lines);
        self.lines.push(b'\n');
    }

    /// Writes the recorded lines.
    pub(crate) fn flush(&mut self) -> io::Result<()> {
        if !self.lines.is_empty() {
            self.file.write_all(&self.lines)?;
            self.lines.clear();
        }
        Ok(())
    }
}

#[cfg(test)]
mod tests {
    use super::push_path;

    #[test]
    fn a_path_is_one_word() {
        let mut word = Vec::new();
        push_path(&mut word, "/a b\\~\u{7f}\u{e4}".as_bytes());
        assert_eq!(word, b"/a\\x20b\\x5c~\\x7f\\xc3\\xa4");
    }
}
