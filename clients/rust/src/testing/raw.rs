//! Six requests that the model of a server does not have, and at which the proved server would end the connection: sync, create2, ACLs,
//! credentials and transactions. The proved server does as much of them as the model has: each change, whether a node exists, and its
//! `Stat`. The rest is tested, not proved: a transaction is tried on another server that has learned everything, and then made by one
//! change after the other, so each has a zxid of its own; ACLs are kept and admit everybody; `digest` takes any credentials; and sync
//! answers at once.

use super::ensemble::{Notes, Session};
use super::records::{buffer, framed, header, number, split, Reply};
use crate::acl::{Acl, Permissions};
use crate::jute::{Reader, Writer};

pub(super) const OK: i32 = 0;
const RUNTIME_INCONSISTENCY: i32 = -2;
const BAD_VERSION: i32 = -103;
const AUTH_FAILED: i32 = -115;
const ANY_VERSION: i32 = -1;

/// The ACL of a node, by default the open one, and its version.
#[derive(Clone)]
pub(super) struct Listed {
    pub(super) lines: Vec<Acl>,
    pub(super) version: i32,
}

impl Default for Listed {
    fn default() -> Listed {
        Listed {
            lines: vec![Acl::anyone(Permissions::ALL)],
            version: 0,
        }
    }
}

/// Why an answer to a request has no body.
pub(super) enum Stop {
    /// The answer is an error code.
    Refused(i32),
    /// The request does not parse.
    Malformed,
}

type Body = Result<Vec<u8>, Stop>;

/// A field, which has to be there.
fn read<T>(field: Option<T>) -> Result<T, Stop> {
    field.ok_or(Stop::Malformed)
}

/// An operation of a transaction.
struct Part {
    kind: i32,
    bytes: Vec<u8>,
}

/// A session with a request, what is known besides its server, and the notices before the answer.
pub(super) struct Asking<'a> {
    pub(super) session: &'a mut Session,
    pub(super) notes: &'a mut Notes,
    pub(super) notices: Vec<u8>,
}

/// Whether a request is one of these six.
pub(super) fn knows(kind: i32) -> bool {
    use number::{AUTH, CREATE2, GET_ACL, MULTI, SET_ACL, SYNC};
    matches!(kind, SYNC | CREATE2 | GET_ACL | SET_ACL | MULTI | AUTH)
}

impl Asking<'_> {
    /// The body of the answer to a request. A transaction is tried with this other session.
    pub(super) fn answer(&mut self, kind: i32, body: &[u8], trial: Session) -> Body {
        let mut fields = Reader::new(body);
        match kind {
            number::SYNC => sync(&mut fields),
            number::CREATE2 => self.create2(body),
            number::GET_ACL => self.get_acl(&mut fields),
            number::SET_ACL => self.set_acl(&mut fields),
            number::MULTI => self.transact(&mut fields, trial),
            _ => send_credential(&mut fields),
        }
    }

    /// Asks the proved server. Whatever else it sends goes to the notices.
    fn ask(&mut self, kind: i32, body: &[u8]) -> Body {
        let mut request = Writer::default();
        request.int(1).int(kind);
        let said = self
            .session
            .answer(&framed(&[&request.into_bytes(), body].concat()));
        let frames = split(&said);
        let (last, before) = frames.split_last().ok_or(Stop::Malformed)?;
        self.notices.extend(before.concat());
        let reply = read(Reply::of(last))?;
        if reply.code == OK {
            Ok(reply.body)
        } else {
            Err(Stop::Refused(reply.code))
        }
    }

    /// The `Stat` of an existing node.
    fn stat(&mut self, path: &str) -> Body {
        let mut body = Writer::default();
        body.text(path).boolean(false);
        self.ask(number::EXISTS, &body.into_bytes())
    }

    fn listed(&self, path: &str) -> Listed {
        self.notes.acls.get(path).cloned().unwrap_or_default()
    }

    fn create2(&mut self, body: &[u8]) -> Body {
        let mut made = self.change(number::CREATE, body)?;
        let path = read(Reader::new(&made).text())?;
        made.extend(self.stat(&path)?);
        Ok(made)
    }

    fn change(&mut self, kind: i32, body: &[u8]) -> Body {
        let reply = self.ask(kind, body)?;
        self.notes.note(self.session.number, kind, body, &reply);
        Ok(reply)
    }

    fn get_acl(&mut self, fields: &mut Reader<'_>) -> Body {
        let path = read(fields.text())?;
        let (stat, listed) = (self.stat(&path)?, self.listed(&path));
        let mut body = Writer::default();
        body.acls(&listed.lines);
        let mut body = body.into_bytes();
        body.extend(with_version(stat, listed.version));
        Ok(body)
    }

    fn set_acl(&mut self, fields: &mut Reader<'_>) -> Body {
        let (path, lines) = (read(fields.text())?, read(fields.acls())?);
        let version = read(fields.int())?;
        let (stat, listed) = (self.stat(&path)?, self.listed(&path));
        if version != ANY_VERSION && version != listed.version {
            return Err(Stop::Refused(BAD_VERSION));
        }
        let version = listed.version + 1;
        self.notes.acls.insert(path, Listed { lines, version });
        Ok(with_version(stat, version))
    }

    fn check(&mut self, body: &[u8]) -> Body {
        let mut fields = Reader::new(body);
        let (path, version) = (read(fields.text())?, read(fields.int())?);
        let stat = self.stat(&path)?;
        let found = read(Reader::new(&stat).stat())?.version;
        if version == ANY_VERSION || version == found {
            Ok(Vec::new())
        } else {
            Err(Stop::Refused(BAD_VERSION))
        }
    }

    /// Does an operation of a transaction, and returns its result.
    fn operate(&mut self, part: &Part) -> Body {
        match part.kind {
            number::CREATE2 => self.create2(&part.bytes),
            number::CHECK => self.check(&part.bytes),
            kind => self.change(kind, &part.bytes),
        }
    }

    /// Does all operations, or none.
    fn transact(&mut self, fields: &mut Reader<'_>, mut trial: Session) -> Body {
        let parts = take_parts(fields)?;
        let mut notes = self.notes.clone();
        let mut tried = Asking {
            session: &mut trial,
            notes: &mut notes,
            notices: Vec::new(),
        };
        if let Some((place, code)) = tried.first_refused(&parts)? {
            return Ok(refused_at(place, code, parts.len()));
        }
        let mut body = Vec::new();
        for part in &parts {
            body.extend(put_header(part.kind, OK, false));
            body.extend(self.operate(part)?);
        }
        body.extend(put_header(number::ERROR, -1, true));
        Ok(body)
    }

    /// The index of the first operation that is not admitted after those before it, and its code.
    fn first_refused(&mut self, parts: &[Part]) -> Result<Option<(usize, i32)>, Stop> {
        for (place, part) in parts.iter().enumerate() {
            match self.operate(part) {
                Ok(_) => {}
                Err(Stop::Refused(code)) => return Ok(Some((place, code))),
                Err(Stop::Malformed) => return Err(Stop::Malformed),
            }
        }
        Ok(None)
    }
}

fn sync(fields: &mut Reader<'_>) -> Body {
    let mut body = Writer::default();
    body.text(&read(fields.text())?);
    Ok(body.into_bytes())
}

/// Takes credentials.
fn send_credential(fields: &mut Reader<'_>) -> Body {
    read(fields.int())?;
    if read(fields.text())? == "digest" {
        Ok(Vec::new())
    } else {
        Err(Stop::Refused(AUTH_FAILED))
    }
}

/// A `Stat` with this version of the ACL, which follows four numbers of eight bytes and two of four.
fn with_version(mut stat: Vec<u8>, version: i32) -> Vec<u8> {
    stat[40..44].copy_from_slice(&version.to_be_bytes());
    stat
}

/// The header of an operation's result.
fn put_header(kind: i32, code: i32, is_last: bool) -> Vec<u8> {
    let mut header = Writer::default();
    header.int(kind).boolean(is_last).int(code);
    header.into_bytes()
}

/// The results of a transaction that was refused at this index.
fn refused_at(place: usize, code: i32, count: usize) -> Vec<u8> {
    let mut body = Vec::new();
    for one in 0..count {
        let code = match one.cmp(&place) {
            std::cmp::Ordering::Less => OK,
            std::cmp::Ordering::Equal => code,
            std::cmp::Ordering::Greater => RUNTIME_INCONSISTENCY,
        };
        body.extend(put_header(number::ERROR, code, false));
        body.extend(code.to_be_bytes());
    }
    body.extend(put_header(number::ERROR, -1, true));
    body
}

/// The operations of a transaction.
fn take_parts(fields: &mut Reader<'_>) -> Result<Vec<Part>, Stop> {
    let mut parts = Vec::new();
    loop {
        let (kind, _, _) = read(header(fields))?;
        if kind == number::ERROR {
            return Ok(parts);
        }
        let before = fields.rest();
        read(skip_part(fields, kind))?;
        let bytes = before[..before.len() - fields.rest().len()].to_vec();
        parts.push(Part { kind, bytes });
    }
}

/// Skips an operation of a transaction. `None` if it does not parse.
fn skip_part(fields: &mut Reader<'_>, kind: i32) -> Option<()> {
    fields.text()?;
    match kind {
        number::CREATE | number::CREATE2 => {
            buffer(fields)?;
            fields.acls()?;
        }
        number::SET_DATA => {
            buffer(fields)?;
        }
        number::DELETE | number::CHECK => {}
        _ => return None,
    }
    fields.int().map(|_| ())
}
