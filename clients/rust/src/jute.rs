//! Fields and records of `zookeeper.jute`.

use crate::acl::{Acl, Id, Permissions};
use crate::fault::Code;
use crate::node::{Node, Stat};

/// The number in a `MultiHeader` of a refused operation, and in the last one.
const MULTI_END: i32 = -1;

/// Writes fields, one after the other.
#[derive(Default)]
pub(crate) struct Writer {
    bytes: Vec<u8>,
}

impl Writer {
    pub(crate) fn into_bytes(self) -> Vec<u8> {
        self.bytes
    }

    /// An ACL for new nodes, by itself. An empty list has no bytes.
    pub(crate) fn acl(acls: &[Acl]) -> Vec<u8> {
        let mut writer = Writer::default();
        if !acls.is_empty() {
            writer.acls(acls);
        }
        writer.into_bytes()
    }

    pub(crate) fn int(&mut self, number: i32) -> &mut Writer {
        self.bytes.extend(number.to_be_bytes());
        self
    }

    pub(crate) fn long(&mut self, number: i64) -> &mut Writer {
        self.bytes.extend(number.to_be_bytes());
        self
    }

    pub(crate) fn boolean(&mut self, flag: bool) -> &mut Writer {
        self.bytes.push(u8::from(flag));
        self
    }

    /// Writes a length that no frame admits as the longest: the frame is refused for its own length.
    fn length(&mut self, length: usize) -> &mut Writer {
        self.int(i32::try_from(length).unwrap_or(i32::MAX))
    }

    pub(crate) fn buffer(&mut self, bytes: &[u8]) -> &mut Writer {
        self.length(bytes.len());
        self.bytes.extend(bytes);
        self
    }

    pub(crate) fn text(&mut self, text: &str) -> &mut Writer {
        self.buffer(text.as_bytes())
    }

    pub(crate) fn acls(&mut self, acls: &[Acl]) -> &mut Writer {
        self.length(acls.len());
        for acl in acls {
            self.int(acl.permissions.number());
            self.text(&acl.scheme).text(&acl.id);
        }
        self
    }

    /// `MultiHeader` of an operation with this number.
    pub(crate) fn multi_header(&mut self, number: i32) -> &mut Writer {
        self.int(number).boolean(false).int(-1)
    }

    /// The `MultiHeader` that ends operations.
    pub(crate) fn multi_end(&mut self) -> &mut Writer {
        self.int(MULTI_END).boolean(true).int(-1)
    }
}

/// Reads fields, one after the other. `None` if there is no such field.
pub(crate) struct Reader<'a> {
    bytes: &'a [u8],
}

impl<'a> Reader<'a> {
    pub(crate) fn new(bytes: &'a [u8]) -> Reader<'a> {
        Reader { bytes }
    }

    fn take(&mut self, count: usize) -> Option<&'a [u8]> {
        let taken = self.bytes.get(..count)?;
        self.bytes = &self.bytes[count..];
        Some(taken)
    }

    /// The bytes of the unread fields.
    #[cfg(feature = "testing")]
    pub(crate) fn rest(&self) -> &'a [u8] {
        self.bytes
    }

    pub(crate) fn is_empty(&self) -> bool {
        self.bytes.is_empty()
    }

    pub(crate) fn int(&mut self) -> Option<i32> {
        Some(i32::from_be_bytes(self.take(4)?.try_into().ok()?))
    }

    pub(crate) fn long(&mut self) -> Option<i64> {
        Some(i64::from_be_bytes(self.take(8)?.try_into().ok()?))
    }

    pub(crate) fn boolean(&mut self) -> Option<bool> {
        Some(self.take(1)? != [0])
    }

    pub(crate) fn bytes(&mut self, count: usize) -> Option<Vec<u8>> {
        self.take(count).map(<[u8]>::to_vec)
    }

    pub(crate) fn text(&mut self) -> Option<String> {
        let length = usize::try_from(self.int()?).ok()?;
        String::from_utf8(self.take(length)?.to_vec()).ok()
    }

    /// `GetDataResponse`. The length of null data is -1.
    pub(crate) fn node(&mut self) -> Option<Node> {
        let data = match self.int()? {
            -1 => None,
            length => Some(self.bytes(usize::try_from(length).ok()?)?),
        };
        let stat = self.stat()?;
        Some(Node { data, stat })
    }

    /// A vector. `one` reads each element.
    pub(crate) fn vector<T>(&mut self, one: fn(&mut Reader<'a>) -> Option<T>) -> Option<Vec<T>> {
        let count = self.int()?;
        (0..count).map(|_| one(self)).collect()
    }

    pub(crate) fn acls(&mut self) -> Option<Vec<Acl>> {
        self.vector(Reader::acl)
    }

    fn acl(&mut self) -> Option<Acl> {
        let permissions = Permissions::of(self.int()?);
        let Id { scheme, id } = self.id()?;
        Some(Acl {
            permissions,
            scheme,
            id,
        })
    }

    /// `Id`, which has the spelling of `ClientInfo` too.
    pub(crate) fn id(&mut self) -> Option<Id> {
        Some(Id {
            scheme: self.text()?,
            id: self.text()?,
        })
    }

    /// The result of an operation: what `read` reads if the number in its `MultiHeader` is this one, or the code with which it was refused.
    pub(crate) fn multi_result<T>(
        &mut self,
        number: i32,
        read: impl FnOnce(&mut Reader<'a>) -> Option<T>,
    ) -> Option<Result<T, Code>> {
        let found = self.int()?;
        self.boolean()?;
        self.int()?;
        match found {
            MULTI_END => self.int().map(|code| Err(Code(code))),
            _ if found == number => read(self).map(Ok),
            _ => None,
        }
    }

    /// The `MultiHeader` that ends results.
    pub(crate) fn multi_end(&mut self) -> Option<()> {
        let (number, is_end, _) = (self.int()?, self.boolean()?, self.int()?);
        (number == MULTI_END && is_end).then_some(())
    }

    pub(crate) fn stat(&mut self) -> Option<Stat> {
        Some(Stat {
            czxid: self.long()?,
            mzxid: self.long()?,
            ctime: self.long()?,
            mtime: self.long()?,
            version: self.int()?,
            cversion: self.int()?,
            aversion: self.int()?,
            ephemeral_owner: self.long()?,
            data_length: self.int()?,
            num_children: self.int()?,
            pzxid: self.long()?,
        })
    }
}
