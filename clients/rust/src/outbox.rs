//! Frames that wait to be written to a server. One thread at a time writes them, without the lock of the session.

use crate::connection::{is_late, Outgoing};
use std::io;
use std::mem;
use std::sync::{Arc, Mutex, MutexGuard, PoisonError};
use std::time::Duration;

/// The most pieces that a passing thread writes: meanwhile others may put more frames there.
const MOST_PIECES: usize = 16;

/// The write half of a connection, and the bytes taken for it, the first of which are written.
struct Line {
    outgoing: Box<dyn Outgoing>,
    taken: Vec<u8>,
    written: usize,
}

impl Line {
    fn left(&self) -> usize {
        self.taken.len() - self.written
    }

    /// Writes some of the bytes taken.
    fn write(&mut self, wait: Duration) -> io::Result<()> {
        match self.outgoing.write(&self.taken[self.written..], wait)? {
            0 => Err(io::ErrorKind::WriteZero.into()),
            count => {
                self.written += count.min(self.left());
                Ok(())
            }
        }
    }
}

/// What the lock of an outbox guards. No thread holds it while it writes.
struct Held {
    /// `None` while a thread writes, and once it is closed.
    line: Option<Box<Line>>,
    /// How many bytes of the line are unwritten.
    left: usize,
    /// Whole frames, after those bytes.
    frames: Vec<u8>,
    /// Whether a helper writes: then no other thread does.
    is_helped: bool,
    is_over: bool,
}

impl Held {
    /// How many bytes wait.
    fn waiting(&self) -> usize {
        self.left + self.frames.len()
    }

    /// Whether there is nothing to write or close.
    fn is_done(&self) -> bool {
        self.waiting() == 0 && !self.is_over
    }

    /// How the writes ended, if something is left to do, unless this thread goes on writing.
    #[cold]
    fn written(&mut self, writer: Writer, done: io::Result<()>, is_last: bool) -> Option<Written> {
        let is_full = done.is_err() || self.left > 0 || is_last;
        let has_failed = done.is_err_and(|fault| !is_late(&fault));
        let written = match writer {
            _ if has_failed => Written::Failed,
            _ if !is_full => return None,
            Writer::Passing => Written::WantsHelper,
            Writer::Alone | Writer::Helper => Written::Some,
        };
        match written {
            Written::Failed => self.is_helped = false,
            Written::WantsHelper => self.is_helped = true,
            Written::All | Written::Some => {}
        }
        Some(written)
    }
}

/// The kind of thread that writes.
#[derive(Clone, Copy, Debug, PartialEq, Eq)]
pub(crate) enum Writer {
    /// A thread with something else to do: a helper writes what finds no room.
    Passing,
    /// The same in a session without helpers.
    Alone,
    /// A thread that does nothing but write.
    Helper,
}

/// How a write ended.
#[derive(Clone, Copy, Debug, PartialEq, Eq)]
pub(crate) enum Written {
    /// Nothing waits, or another thread writes it.
    All,
    /// There was no room in time, and something waits.
    Some,
    /// The same, and a helper has to start.
    WantsHelper,
    /// The write failed: the connection is over.
    Failed,
}

/// The frames that go to a server on one connection.
pub(crate) struct Outbox {
    held: Mutex<Held>,
}

impl Outbox {
    pub(crate) fn new(outgoing: Box<dyn Outgoing>) -> Arc<Outbox> {
        let line = Line {
            outgoing,
            taken: Vec::new(),
            written: 0,
        };
        Arc::new(Outbox {
            held: Mutex::new(Held {
                line: Some(Box::new(line)),
                left: 0,
                frames: Vec::new(),
                is_helped: false,
                is_over: false,
            }),
        })
    }

    fn held(&self) -> MutexGuard<'_, Held> {
        self.held.lock().unwrap_or_else(PoisonError::into_inner)
    }

    /// Adds these frames after those that wait, and copies them only if some do. Returns how many bytes wait then.
    #[inline]
    pub(crate) fn put(&self, frames: &mut Vec<u8>) -> usize {
        let mut held = self.held();
        if held.frames.is_empty() {
            mem::swap(&mut held.frames, frames);
        } else {
            held.frames.append(frames);
        }
        held.waiting()
    }

    /// How many bytes wait.
    pub(crate) fn waiting(&self) -> usize {
        self.held().waiting()
    }

    /// Notes that the connection is over: the next writer closes it.
    pub(crate) fn end(&self) {
        self.held().is_over = true;
    }

    /// Writes what waits, and closes what is over. It waits for room once, at most this long.
    pub(crate) fn write(&self, writer: Writer, wait: Duration) -> Written {
        let mut pieces = 0;
        loop {
            let Some(mut line) = self.begin(writer) else {
                return Written::All;
            };
            let done = line.write(wait);
            pieces += 1;
            let written = self.put_back(line, writer, done, pieces == MOST_PIECES);
            if let Some(written) = written {
                return written;
            }
        }
    }

    /// Takes what is to be written, unless another thread writes.
    fn begin(&self, writer: Writer) -> Option<Box<Line>> {
        let mut held = self.held();
        if held.is_helped && writer != Writer::Helper {
            return None;
        }
        if held.is_done() {
            held.is_helped = false;
            return None;
        }
        let mut line = held.line.take()?;
        if held.is_over {
            drop(held);
            line.outgoing.close();
            return None;
        }
        if held.left == 0 {
            line.taken.clear();
            line.written = 0;
            mem::swap(&mut line.taken, &mut held.frames);
            held.left = line.left();
        }
        Some(line)
    }

    /// Lets another thread write. Returns how the writes ended, unless this thread goes on writing.
    fn put_back(
        &self,
        line: Box<Line>,
        writer: Writer,
        done: io::Result<()>,
        is_last: bool,
    ) -> Option<Written> {
        let mut held = self.held();
        held.left = line.left();
        held.line = Some(line);
        if done.is_ok() && held.is_done() && !is_last {
            held.is_helped = false;
            return Some(Written::All);
        }
        held.written(writer, done, is_last)
    }

    /// Notes that the helper has stopped.
    pub(crate) fn is_unhelped(&self) {
        self.held().is_helped = false;
    }
}

#[cfg(test)]
mod tests {
    use super::{Outbox, Writer, Written};
    use crate::connection::Outgoing;
    use std::io::{self, ErrorKind};
    use std::sync::{Arc, Mutex};
    use std::time::Duration;

    /// The bytes that a line got, and whether it was closed.
    #[derive(Default)]
    struct Seen {
        bytes: Vec<u8>,
        is_closed: bool,
    }

    /// A line that does these things in turn, and then takes everything.
    struct Scripted {
        turns: Vec<Result<usize, ErrorKind>>,
        seen: Arc<Mutex<Seen>>,
    }

    impl Outgoing for Scripted {
        fn write(&mut self, bytes: &[u8], _: Duration) -> io::Result<usize> {
            let turn = self.turns.pop().unwrap_or(Ok(bytes.len()));
            let count = turn.map_err(io::Error::from)?;
            self.seen.lock().unwrap().bytes.extend(&bytes[..count]);
            Ok(count)
        }

        fn close(&mut self) {
            self.seen.lock().unwrap().is_closed = true;
        }
    }

    fn scripted(turns: &[Result<usize, ErrorKind>]) -> (Arc<Outbox>, Arc<Mutex<Seen>>) {
        let (turns, seen) = (turns.iter().rev().copied().collect(), Arc::default());
        let line = Scripted {
            turns,
            seen: Arc::clone(&seen),
        };
        (Outbox::new(Box::new(line)), seen)
    }

    fn write(outbox: &Outbox, writer: Writer) -> Written {
        outbox.write(writer, Duration::ZERO)
    }

    #[test]
    fn a_helper_writes_what_there_was_no_room_for() {
        let (outbox, seen) = scripted(&[Ok(2), Err(ErrorKind::WouldBlock), Ok(1)]);
        outbox.put(&mut b"first".to_vec());
        assert_eq!(write(&outbox, Writer::Passing), Written::WantsHelper);
        outbox.put(&mut b" second".to_vec());
        assert_eq!(outbox.waiting(), 10);
        assert_eq!(write(&outbox, Writer::Passing), Written::All);
        assert_eq!(write(&outbox, Writer::Helper), Written::Some);
        assert_eq!(write(&outbox, Writer::Helper), Written::Some);
        assert_eq!(write(&outbox, Writer::Helper), Written::All);
        outbox.put(&mut b" third".to_vec());
        assert_eq!(write(&outbox, Writer::Passing), Written::All);
        assert_eq!(seen.lock().unwrap().bytes, b"first second third");
    }

    #[test]
    fn what_a_helper_cannot_write_ends_the_line() {
        let (outbox, seen) = scripted(&[Err(ErrorKind::TimedOut), Err(ErrorKind::BrokenPipe)]);
        outbox.put(&mut b"first".to_vec());
        assert_eq!(write(&outbox, Writer::Passing), Written::WantsHelper);
        assert_eq!(write(&outbox, Writer::Helper), Written::Failed);
        outbox.end();
        assert_eq!(write(&outbox, Writer::Passing), Written::All);
        let seen = seen.lock().unwrap();
        assert!(seen.is_closed && seen.bytes.is_empty());
    }

    #[test]
    fn a_line_that_is_over_is_closed_by_the_helper_that_has_it() {
        let (outbox, seen) = scripted(&[Err(ErrorKind::TimedOut)]);
        outbox.put(&mut b"first".to_vec());
        assert_eq!(write(&outbox, Writer::Passing), Written::WantsHelper);
        outbox.end();
        assert_eq!(write(&outbox, Writer::Passing), Written::All);
        assert!(!seen.lock().unwrap().is_closed);
        assert_eq!(write(&outbox, Writer::Helper), Written::All);
        assert!(seen.lock().unwrap().is_closed);
    }
}
