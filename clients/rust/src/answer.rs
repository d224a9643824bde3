//! The answers to calls, as they come out of the library.

use crate::acl::{Acl, Id};
use crate::buffer::TextList;
use crate::chroot::Chroot;
use crate::error::ErrorKind;
use crate::fault::{Code, NoReply, UnknownNumber};
use crate::ffi::{self, Handle};
use crate::multi_read::ReadAnswer;
use crate::node::Stat;
use crate::numbers::{brought, outcome};
use crate::output::{Brought, Bytes};
use crate::transaction::Change;
use std::mem;

/// The answer to a call. It is small, because it moves from hand to hand.
#[derive(Debug, Default, PartialEq)]
pub(crate) struct Answer {
    /// The zxid at which it holds.
    pub(crate) zxid: i64,
    /// The node's `Stat`: zeros if the call does not ask for it.
    pub(crate) stat: Stat,
    pub(crate) content: Content,
}

impl Answer {
    /// Takes the answer, and leaves one without content.
    #[inline]
    pub(crate) fn take(&mut self) -> Answer {
        Answer {
            zxid: self.zxid,
            stat: self.stat,
            content: mem::take(&mut self.content),
        }
    }
}

/// The rest of an answer.
#[derive(Debug, Default, PartialEq)]
pub(crate) enum Content {
    #[default]
    Nothing,
    /// The data of a node, or the body of a reply that the core does not read.
    Data(Vec<u8>),
    /// The path of a created node.
    Path(String),
    /// The names of children.
    Names(TextList),
    /// The records of a body that the core does not read.
    Records(Box<RawAnswer>),
}

/// The records of such a body.
#[derive(Debug, Default, PartialEq)]
pub(crate) struct RawAnswer {
    pub(crate) acls: Vec<Acl>,
    pub(crate) changes: Vec<Change>,
    pub(crate) answers: Vec<Result<ReadAnswer, Code>>,
    pub(crate) count: i32,
    pub(crate) paths: Vec<String>,
    pub(crate) ids: Vec<Id>,
}

/// The outcome of a call. The error has no path yet.
pub(crate) type Outcome = Result<Answer, ErrorKind>;

impl Content {
    fn of(brought: &Brought<'_>, chroot: &Chroot) -> Content {
        match brought {
            Brought::Data { data, .. } => {
                data.map_or(Content::Nothing, |data| Content::Data(data.to_vec()))
            }
            Brought::Names { names, .. } => {
                let one_by_one = |_| TextList::of(&names.iter().collect::<Vec<_>>());
                Content::Names(names.spelled().unwrap_or_else(one_by_one))
            }
            Brought::Created(path) => Content::Path(chroot.inner(String::from(*path))),
            Brought::Stat(_) | Brought::Done => Content::Nothing,
            Brought::Raw(body) => Content::Data(body.to_vec()),
        }
    }

    /// The data, or `None` if they are null.
    pub(crate) fn data(self) -> Option<Vec<u8>> {
        match self {
            Content::Data(data) => Some(data),
            _ => None,
        }
    }

    /// The body of a reply that the core does not read.
    pub(crate) fn body(&self) -> &[u8] {
        match self {
            Content::Data(body) => body,
            _ => &[],
        }
    }

    pub(crate) fn path(self) -> String {
        match self {
            Content::Path(path) => path,
            _ => String::new(),
        }
    }

    pub(crate) fn names(self) -> Vec<String> {
        match self {
            Content::Names(names) => names.texts(),
            _ => Vec::new(),
        }
    }

    pub(crate) fn records(self) -> RawAnswer {
        match self {
            Content::Records(records) => *records,
            _ => RawAnswer::default(),
        }
    }
}

/// The content of an answer as the library spells it, besides its `Stat`; or why there is none.
#[inline]
pub(crate) fn content_of(
    handle: &Handle,
    flat: &ffi::Output,
    chroot: &Chroot,
) -> Result<Result<Content, ErrorKind>, UnknownNumber> {
    let bytes = Bytes::of(handle, flat);
    match flat.result {
        // most answers, by the short way
        _ if flat.detail != outcome::REPLIED => {
            NoReply::try_from(flat.detail).map(|reason| Err(reason.into()))
        }
        brought::STAT => Ok(Ok(Content::Nothing)),
        brought::DATA if !flat.is_null => Ok(Ok(Content::Data(bytes.to_vec()))),
        _ => {
            let brought = Brought::of(handle, flat, bytes)?;
            let content = brought.map(|brought| Content::of(&brought, chroot));
            Ok(content.map_err(ErrorKind::from))
        }
    }
}
