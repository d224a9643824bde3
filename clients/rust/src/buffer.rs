//! Buffers that the library fills, and the texts in them.

/// The first room for a text of unknown length.
const FIRST_ROOM: usize = 256;

/// Copies all bytes of a look-up. The function copies as many as there is room for, and returns how many there are.
pub(crate) fn copy_whole<E>(
    mut copy: impl FnMut(&mut [u8]) -> Result<usize, E>,
) -> Result<Vec<u8>, E> {
    let mut room = [0; FIRST_ROOM];
    let length = copy(&mut room)?;
    if let Some(bytes) = room.get(..length) {
        return Ok(bytes.to_vec());
    }
    let mut bytes = vec![0; length];
    copy(&mut bytes)?;
    Ok(bytes)
}

/// The same, with this room at first.
pub(crate) fn copy_whole_in<E>(
    room: usize,
    mut copy: impl FnMut(&mut [u8]) -> Result<usize, E>,
) -> Result<Vec<u8>, E> {
    let mut bytes = vec![0; room];
    let length = copy(&mut bytes)?;
    if length > room {
        bytes.resize(length, 0);
        copy(&mut bytes)?;
    }
    bytes.truncate(length);
    Ok(bytes)
}

/// The text of these bytes, which the library has validated.
pub(crate) fn text_of(bytes: Vec<u8>) -> String {
    String::from_utf8(bytes).expect("the library gives UTF-8")
}

/// Texts as the library spells them. The caller reads them without the session's lock, since a large directory takes a while.
#[derive(Debug, Default, PartialEq)]
pub(crate) struct TextList {
    pub(crate) count: usize,
    pub(crate) bytes: Vec<u8>,
}

impl TextList {
    pub(crate) fn of<T: AsRef<str>>(texts: &[T]) -> TextList {
        let (count, texts) = (texts.len(), texts.iter().map(AsRef::as_ref));
        let bytes = spelled(texts);
        TextList { count, bytes }
    }

    pub(crate) fn texts(&self) -> Vec<String> {
        texts_in(self.count, &self.bytes)
    }
}

/// Texts, each after its length in four bytes.
pub(crate) fn spelled<'a>(texts: impl Iterator<Item = &'a str>) -> Vec<u8> {
    let mut bytes = Vec::new();
    for text in texts {
        let length = u32::try_from(text.len()).unwrap_or(u32::MAX);
        bytes.extend(length.to_be_bytes());
        bytes.extend(text.as_bytes());
    }
    bytes
}

/// This many texts, which follow one another, each after its length in four bytes.
pub(crate) fn texts_in(count: usize, mut spelled: &[u8]) -> Vec<String> {
    let mut texts = Vec::with_capacity(count);
    while let [a, b, c, d, rest @ ..] = spelled {
        let (text, rest) = rest.split_at(u32::from_be_bytes([*a, *b, *c, *d]) as usize);
        texts.push(text_of(text.to_vec()));
        spelled = rest;
    }
    texts
}
