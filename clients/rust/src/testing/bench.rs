//! The server in memory, which is proved to follow the model: `libdirwolleu_bench.a`, for tests.

mod ffi;

#[allow(unused_imports)] // one list for everyone who uses it
pub use ffi::{BAD_ARGUMENTS, NODE_EXISTS, NOT_EMPTY, NOT_PATH, NO_NODE, NO_SUCH_SERVER};

use ffi::{Raw, DELETED, MADE, NONE, OK, WRITTEN};
use std::ptr;

/// Another session's change of a node.
pub enum Change<'a> {
    /// Creates it with these data, for no session.
    Make(&'a [u8]),
    /// Sets its data.
    Write(&'a [u8]),
    Delete,
}

/// A server in memory for one session. A function does what it says, or returns a number that says why not.
pub struct Bench {
    raw: Raw,
    /// The time of writes, in milliseconds since 1970.
    pub now_ms: u64,
}

/// Whether something was done, if the only other answer is that there was nothing to do.
fn is_done(result: i32) -> bool {
    assert!(
        result == OK || result == NONE,
        "the server in memory answers {result}"
    );
    result == OK
}

fn done(result: i32) -> Result<(), i32> {
    if result == OK {
        Ok(())
    } else {
        Err(result)
    }
}

impl Bench {
    /// A server of the session with this id, which has only the root.
    pub fn new(session: i64) -> Bench {
        let mut raw = Raw {
            is_open: false,
            at: ptr::null_mut(),
        };
        // SAFETY: the handle is all zeros, and belongs to this bench.
        assert!(is_done(unsafe { ffi::dw_bench_open(&mut raw, session) }));
        Bench { raw, now_ms: 1 }
    }

    /// Changes a node as another session. No server has taken the change yet.
    pub fn change(&mut self, path: &str, change: &Change<'_>) -> Result<(), i32> {
        let (kind, data): (i32, &[u8]) = match change {
            Change::Make(data) => (MADE, data),
            Change::Write(data) => (WRITTEN, data),
            Change::Delete => (DELETED, &[]),
        };
        let (text, bytes) = (path.as_ptr(), data.as_ptr());
        // SAFETY: the handle is open, and the pointers are of slices with these lengths.
        done(unsafe {
            ffi::dw_bench_change(
                &mut self.raw,
                self.now_ms,
                kind,
                0,
                text,
                path.len(),
                bytes,
                data.len(),
            )
        })
    }

    /// Takes over the next transaction that the other server has and this one does not. Returns whether there is one.
    pub fn learn(&mut self, other: &mut Bench) -> bool {
        // SAFETY: both handles are open.
        is_done(unsafe { ffi::dw_bench_learn(&mut self.raw, &mut other.raw) })
    }

    /// The zxid of the last transaction.
    pub fn zxid(&mut self) -> i64 {
        // SAFETY: the handle is open.
        unsafe { ffi::dw_bench_zxid(&mut self.raw) }
    }

    /// Makes a new connection to a server, 1 to 8.
    pub fn connect(&mut self, number: i32) -> Result<(), i32> {
        // SAFETY: the handle is open.
        done(unsafe { ffi::dw_bench_connect(&mut self.raw, number) })
    }

    pub fn cut(&mut self) {
        // SAFETY: the handle is open.
        assert!(is_done(unsafe { ffi::dw_bench_cut(&mut self.raw) }));
    }

    /// Hands in bytes that the client sent.
    pub fn hear(&mut self, bytes: &[u8]) {
        // SAFETY: the handle is open, and the pointer is of a slice with this length.
        assert!(is_done(unsafe {
            ffi::dw_bench_hear(&mut self.raw, bytes.as_ptr(), bytes.len())
        }));
    }

    /// Lets the connected server process the next whole request. Returns whether there is one.
    pub fn process(&mut self) -> bool {
        // SAFETY: the handle is open.
        is_done(unsafe { ffi::dw_bench_process(&mut self.raw, self.now_ms) })
    }

    /// Lets a server take the next transaction, if there is one.
    pub fn take(&mut self, number: i32) {
        // SAFETY: the handle is open.
        assert!(is_done(unsafe {
            ffi::dw_bench_take(&mut self.raw, number)
        }));
    }

    /// Takes the first bytes that the server sent. Also returns whether it has the connection.
    pub fn say(&mut self, most: usize) -> (Vec<u8>, bool) {
        let (mut room, mut count) = (vec![0; most], 0);
        // SAFETY: the handle is open, and the pointers are of a slice with this length and of a number.
        let is_open = is_done(unsafe {
            ffi::dw_bench_say(&mut self.raw, room.as_mut_ptr(), most, &mut count)
        });
        room.truncate(count);
        (room, is_open)
    }

    /// Makes the server answer that the session has expired, or admit clients again.
    pub fn expire(&mut self, is_expired: bool) {
        // SAFETY: the handle is open.
        assert!(is_done(unsafe {
            ffi::dw_bench_expire(&mut self.raw, is_expired)
        }));
    }
}

// SAFETY: the handle belongs to this bench, and the library keeps nothing per thread.
unsafe impl Send for Bench {}

impl Drop for Bench {
    fn drop(&mut self) {
        // SAFETY: the handle belongs to this bench.
        unsafe { ffi::dw_bench_close(&mut self.raw) }
    }
}
