//! The C interface, `include/dirwolleu.h`, and a [`Handle`] that keeps what the header asks of its callers. All `unsafe` code of this crate
//! is here.
#![deny(clippy::undocumented_unsafe_blocks)]

use crate::contention::Contention;
use crate::fault::{done, done_at, Fault};
use crate::jute::Writer;
use crate::moment::Moment;
use crate::node::{DataStat, Mode, Side, Stat, Watch};
use crate::numbers::{result, VERSION};
use crate::standing::Contender;
use std::cell::UnsafeCell;
use std::ptr;

// made by scripts/interface from include/interface.toml
/// `dw_session`.
#[repr(C)]
struct Raw {
    is_open: bool,
    slot: Slot,
}

#[repr(C)]
struct Slot {
    at: *mut u8,
}

/// `dw_output`.
#[repr(C)]
#[derive(Default)]
#[allow(dead_code)]
pub(crate) struct Output {
    pub(crate) kind: i32,
    pub(crate) detail: i32,
    pub(crate) result: i32,
    pub(crate) code: i32,
    pub(crate) ticket: u64,
    pub(crate) zxid: i64,
    pub(crate) length: usize,
    pub(crate) names: usize,
    pub(crate) is_null: bool,
    pub(crate) has_stat: bool,
    pub(crate) stat: Stat,
}

/// `dw_kept_data`.
#[repr(C)]
#[derive(Default)]
#[allow(dead_code)]
pub(crate) struct KeptData {
    pub(crate) kind: i32,
    pub(crate) mark: i32,
    pub(crate) length: usize,
    pub(crate) is_null: bool,
    pub(crate) stat: DataStat,
}

/// `dw_kept_names`.
#[repr(C)]
#[derive(Default)]
#[allow(dead_code)]
pub(crate) struct KeptNames {
    pub(crate) mark: i32,
    pub(crate) count: usize,
    pub(crate) pzxid: i64,
}

#[rustfmt::skip]
#[allow(dead_code)]
extern "C" {
    fn dw_version() -> u32;
    fn dw_session_open(handle: *mut Raw, timeout_ms: i32, addresses: usize, seed: u64) -> i32;
    fn dw_session_resume(handle: *mut Raw, timeout_ms: i32, addresses: usize, seed: u64, saved: *const u8, saved_length: usize) -> i32;
    fn dw_session_open_with_limits(handle: *mut Raw, timeout_ms: i32, addresses: usize, seed: u64, incoming: usize, outgoing: usize) -> i32;
    fn dw_session_resume_with_limits(handle: *mut Raw, timeout_ms: i32, addresses: usize, seed: u64, incoming: usize, outgoing: usize, saved: *const u8, saved_length: usize) -> i32;
    fn dw_session_free(handle: *mut Raw);
    fn dw_session_opened(handle: *mut Raw, now_ms: u64) -> i32;
    fn dw_session_failed(handle: *mut Raw, now_ms: u64) -> i32;
    fn dw_session_bytes(handle: *mut Raw, now_ms: u64, bytes: *const u8, length: usize) -> i32;
    fn dw_session_cut(handle: *mut Raw, now_ms: u64) -> i32;
    fn dw_session_moment(handle: *mut Raw, now_ms: u64) -> i32;
    fn dw_session_addresses(handle: *mut Raw, now_ms: u64, kept: usize, added: usize, is_listed: bool) -> i32;
    fn dw_session_exists(handle: *mut Raw, now_ms: u64, ticket: u64, until_ms: u64, path: *const u8, path_length: usize, watch: bool) -> i32;
    fn dw_session_get_data(handle: *mut Raw, now_ms: u64, ticket: u64, until_ms: u64, path: *const u8, path_length: usize, watch: bool) -> i32;
    fn dw_session_get_children(handle: *mut Raw, now_ms: u64, ticket: u64, until_ms: u64, path: *const u8, path_length: usize, watch: bool) -> i32;
    fn dw_session_set_data(handle: *mut Raw, now_ms: u64, ticket: u64, until_ms: u64, path: *const u8, path_length: usize, bytes: *const u8, length: usize, is_null: bool, version: i32) -> i32;
    fn dw_session_create(handle: *mut Raw, now_ms: u64, ticket: u64, until_ms: u64, path: *const u8, path_length: usize, bytes: *const u8, length: usize, is_null: bool, mode: u32) -> i32;
    fn dw_session_delete(handle: *mut Raw, now_ms: u64, ticket: u64, until_ms: u64, path: *const u8, path_length: usize, version: i32) -> i32;
    fn dw_session_raw(handle: *mut Raw, now_ms: u64, ticket: u64, until_ms: u64, operation: i32, bytes: *const u8, length: usize) -> i32;
    fn dw_session_credential(handle: *mut Raw, now_ms: u64, scheme: *const u8, scheme_length: usize, secret: *const u8, secret_length: usize) -> i32;
    fn dw_session_close(handle: *mut Raw, now_ms: u64, ticket: u64, until_ms: u64) -> i32;
    fn dw_session_follow_data(handle: *mut Raw, now_ms: u64, ticket: u64, path: *const u8, path_length: usize) -> i32;
    fn dw_session_follow_names(handle: *mut Raw, now_ms: u64, ticket: u64, path: *const u8, path_length: usize) -> i32;
    fn dw_session_unfollow(handle: *mut Raw, now_ms: u64, ticket: u64) -> i32;
    fn dw_session_follow_tree(handle: *mut Raw, now_ms: u64, ticket: u64, path: *const u8, path_length: usize, most: usize) -> i32;
    fn dw_session_unfollow_tree(handle: *mut Raw, now_ms: u64, ticket: u64) -> i32;
    fn dw_session_contend(handle: *mut Raw, now_ms: u64, ticket: u64, directory: *const u8, directory_length: usize, naming: u32, guid: *const u8, guid_length: usize, bytes: *const u8, length: usize, is_null: bool, may_be_there: bool, acl: *const u8, acl_length: usize) -> i32;
    fn dw_session_give_up(handle: *mut Raw, now_ms: u64, ticket: u64) -> i32;
    fn dw_session_next(handle: *mut Raw, out: *mut Output) -> i32;
    fn dw_session_copy(handle: *mut Raw, from: usize, out: *mut u8, room: usize) -> usize;
    fn dw_session_name(handle: *mut Raw, index: usize, out: *mut u8, room: usize) -> usize;
    fn dw_session_names(handle: *mut Raw, out: *mut u8, room: usize, count: *mut usize) -> i32;
    fn dw_session_words(handle: *mut Raw, out: *mut u8, room: usize, count: *mut usize) -> i32;
    fn dw_session_outputs(handle: *mut Raw, out: *mut u8, room: usize, count: *mut usize) -> i32;
    fn dw_session_state(handle: *mut Raw) -> i32;
    fn dw_session_revision(handle: *mut Raw) -> u64;
    fn dw_session_last_zxid(handle: *mut Raw) -> i64;
    fn dw_session_timeout_ms(handle: *mut Raw) -> i64;
    fn dw_session_deadline(handle: *mut Raw, first_ms: *mut u64) -> i32;
    fn dw_session_heard_at(handle: *mut Raw, moment_ms: *mut u64) -> i32;
    fn dw_session_saved(handle: *mut Raw, out: *mut u8, room: usize, count: *mut usize) -> i32;
    fn dw_session_peek_data(handle: *mut Raw, path: *const u8, path_length: usize, kept: *mut KeptData, out: *mut u8, room: usize) -> i32;
    fn dw_session_peek_children(handle: *mut Raw, path: *const u8, path_length: usize, kept: *mut KeptNames) -> i32;
    fn dw_session_peek_name(handle: *mut Raw, path: *const u8, path_length: usize, index: usize, out: *mut u8, room: usize, count: *mut usize) -> i32;
    fn dw_session_peek_names(handle: *mut Raw, path: *const u8, path_length: usize, out: *mut u8, room: usize, count: *mut usize) -> i32;
    fn dw_session_subtree(handle: *mut Raw, path: *const u8, path_length: usize, most: usize, out: *mut u8, room: usize, count: *mut usize) -> i32;
    fn dw_session_lacking(handle: *mut Raw, path: *const u8, path_length: usize, most: usize, out: *mut u8, room: usize, count: *mut usize) -> i32;
    fn dw_session_snapshot(handle: *mut Raw, nodes: *const u8, nodes_length: usize, parents: *const u8, parents_length: usize, out: *mut u8, room: usize, count: *mut usize) -> i32;
    fn dw_session_standing(handle: *mut Raw, directory: *const u8, directory_length: usize, name: *const u8, name_length: usize, names: *const u8, names_length: usize, listed: i64, markers: *const u8, markers_length: usize, token: *mut i64, out: *mut u8, room: usize, count: *mut usize) -> i32;
    fn dw_session_holder(handle: *mut Raw, directory: *const u8, directory_length: usize, prefix: *const u8, prefix_length: usize, path: *const u8, path_length: usize, token: *mut i64) -> i32;
    fn dw_session_held(handle: *mut Raw, ticket: u64, token: *mut i64) -> i32;
    fn dw_session_place(handle: *mut Raw, ticket: u64, out: *mut u8, room: usize, count: *mut usize) -> i32;
    fn dw_session_forget(handle: *mut Raw) -> i32;
}
// end of what is made

/// A look-up of bytes without a path.
type CopyAll = unsafe extern "C" fn(*mut Raw, *mut u8, usize, *mut usize) -> i32;

/// A look-up that copies the nodes at and below a path, or the missing reads, with the most nodes that it may have.
type Collect =
    unsafe extern "C" fn(*mut Raw, *const u8, usize, usize, *mut u8, usize, *mut usize) -> i32;

/// A look-up of a moment.
type LookOut = unsafe extern "C" fn(*mut Raw, *mut u64) -> i32;

/// A call that reads a node, and one that takes its data and a version or a mode.
type Read = unsafe extern "C" fn(*mut Raw, u64, u64, u64, *const u8, usize, bool) -> i32;
#[rustfmt::skip]
type Write<N> =
    unsafe extern "C" fn(*mut Raw, u64, u64, u64, *const u8, usize, *const u8, usize, bool, N) -> i32;

/// What each call has: its moment, the ticket for its answer, its limit, and the path of its node.
#[derive(Clone, Copy)]
pub(crate) struct Call<'a> {
    pub(crate) now: Moment,
    pub(crate) ticket: u64,
    pub(crate) until: Moment,
    pub(crate) path: &'a str,
}

/// An open session. It keeps what the header asks of a caller and nothing checks:
///
/// - the raw handle begins as zeros; only the library writes it; it may be moved, and is never copied;
/// - one call at a time uses it: a step has it by `&mut`, and look-ups, which also write to the handle, by `&` of a type that is not
///   `Sync`; no function of the library calls back;
/// - pointers come from references and slices, so none is null; lengths are those of the slices; what a call writes is borrowed mutably, so
///   it overlaps with nothing.
///
/// The layouts above are those of the header that comes with the library.
pub(crate) struct Handle {
    raw: UnsafeCell<Raw>,
}

// SAFETY: the library binds a handle to no thread, and allows another thread between two calls. Rust orders the two.
unsafe impl Send for Handle {}

impl Drop for Handle {
    fn drop(&mut self) {
        // SAFETY: as `Handle` says. Nothing uses the handle after this.
        unsafe { dw_session_free(self.raw.get_mut()) }
    }
}

/// Fails if the library has another version than the one that this crate was written for.
fn check_version() -> Result<(), Fault> {
    // SAFETY: it has no argument, and returns a constant.
    let library = unsafe { dw_version() };
    if library == VERSION {
        return Ok(());
    }
    Err(Fault::OtherVersion { library })
}

impl Handle {
    /// A handle that holds nothing.
    fn closed() -> Result<Handle, Fault> {
        check_version()?;
        let at = ptr::null_mut();
        let (is_open, slot) = (false, Slot { at });
        let raw = UnsafeCell::new(Raw { is_open, slot });
        Ok(Handle { raw })
    }

    /// The pointer to it, for a function of the library.
    fn pointer(&self) -> *mut Raw {
        self.raw.get()
    }

    pub(crate) fn opened(&mut self, now: Moment) -> Result<(), Fault> {
        // SAFETY: as `Handle` says.
        done(unsafe { dw_session_opened(self.pointer(), now.as_millis()) })
    }

    pub(crate) fn cut(&mut self, now: Moment) -> Result<(), Fault> {
        // SAFETY: as `Handle` says.
        done(unsafe { dw_session_cut(self.pointer(), now.as_millis()) })
    }

    pub(crate) fn moment(&mut self, now: Moment) -> Result<(), Fault> {
        // SAFETY: as `Handle` says.
        done(unsafe { dw_session_moment(self.pointer(), now.as_millis()) })
    }

    pub(crate) fn bytes(&mut self, now: Moment, bytes: &[u8]) -> Result<(), Fault> {
        let (raw, now) = (self.pointer(), now.as_millis());
        // SAFETY: as `Handle` says.
        done(unsafe { dw_session_bytes(raw, now, bytes.as_ptr(), bytes.len()) })
    }

    /// Reads by this function of the library.
    fn read(&mut self, read: Read, call: Call<'_>, watch: Watch) -> Result<(), Fault> {
        let (now, until) = (call.now.as_millis(), call.until.as_millis());
        let (raw, path, length) = (self.pointer(), call.path.as_ptr(), call.path.len());
        // SAFETY: as `Handle` says.
        let code = unsafe { read(raw, now, call.ticket, until, path, length, watch.is_left()) };
        done_at(call.path, code)
    }

    pub(crate) fn exists(&mut self, call: Call<'_>, watch: Watch) -> Result<(), Fault> {
        self.read(dw_session_exists, call, watch)
    }

    pub(crate) fn get_data(&mut self, call: Call<'_>, watch: Watch) -> Result<(), Fault> {
        self.read(dw_session_get_data, call, watch)
    }

    pub(crate) fn get_children(&mut self, call: Call<'_>, watch: Watch) -> Result<(), Fault> {
        self.read(dw_session_get_children, call, watch)
    }

    /// Writes by this function of the library, which takes one more number. It ignores the bytes of null data.
    fn write<N>(
        &mut self,
        write: Write<N>,
        call: Call<'_>,
        data: Option<&[u8]>,
        number: N,
    ) -> Result<(), Fault> {
        let (now, until) = (call.now.as_millis(), call.until.as_millis());
        let (raw, path, length) = (self.pointer(), call.path.as_ptr(), call.path.len());
        let (bytes, is_null) = (data.unwrap_or_default(), data.is_none());
        let (at, count) = (bytes.as_ptr(), bytes.len());
        // SAFETY: as `Handle` says.
        let code = unsafe {
            write(
                raw,
                now,
                call.ticket,
                until,
                path,
                length,
                at,
                count,
                is_null,
                number,
            )
        };
        done_at(call.path, code)
    }

    pub(crate) fn set_data(
        &mut self,
        call: Call<'_>,
        data: Option<&[u8]>,
        version: i32,
    ) -> Result<(), Fault> {
        self.write(dw_session_set_data, call, data, version)
    }

    pub(crate) fn create(
        &mut self,
        call: Call<'_>,
        data: Option<&[u8]>,
        mode: Mode,
    ) -> Result<(), Fault> {
        self.write(dw_session_create, call, data, mode.number())
    }

    pub(crate) fn delete(&mut self, call: Call<'_>, version: i32) -> Result<(), Fault> {
        let (now, until) = (call.now.as_millis(), call.until.as_millis());
        let (raw, path, length) = (self.pointer(), call.path.as_ptr(), call.path.len());
        let ticket = call.ticket;
        // SAFETY: as `Handle` says.
        let code = unsafe { dw_session_delete(raw, now, ticket, until, path, length, version) };
        done_at(call.path, code)
    }

    /// Ends the session. The call is about no node.
    pub(crate) fn close_session(&mut self, call: Call<'_>) -> Result<(), Fault> {
        let (now, until) = (call.now.as_millis(), call.until.as_millis());
        // SAFETY: as `Handle` says.
        done(unsafe { dw_session_close(self.pointer(), now, call.ticket, until) })
    }

    /// Writes the next output of the last step there. Returns whether there was one: `false` after the last.
    pub(crate) fn next(&mut self, output: &mut Output) -> Result<bool, Fault> {
        // SAFETY: as `Handle` says.
        let code = unsafe { dw_session_next(self.pointer(), output) };
        if code == result::NONE {
            return Ok(false);
        }
        done(code).map(|()| true)
    }

    /// Copies the text of the last output, and returns how many bytes it has from that place on.
    pub(crate) fn copy(&self, from: usize, room: &mut [u8]) -> usize {
        // SAFETY: as `Handle` says.
        unsafe { dw_session_copy(self.pointer(), from, room.as_mut_ptr(), room.len()) }
    }

    /// Appends the text of the last output, which has this length.
    #[inline]
    pub(crate) fn append(&self, length: usize, bytes: &mut Vec<u8>) {
        bytes.reserve(length);
        let (from, room) = (bytes.len(), bytes.spare_capacity_mut());
        // SAFETY: as `Handle` says. It only writes to the room, which has the length that it gets.
        let count = unsafe { dw_session_copy(self.pointer(), 0, room.as_mut_ptr().cast(), length) };
        // SAFETY: it has written that many bytes, and there is room for them.
        unsafe { bytes.set_len(from + count.min(length)) };
    }

    /// Copies a name of the last listing, and returns how many bytes it has.
    pub(crate) fn name(&self, index: usize, room: &mut [u8]) -> usize {
        // SAFETY: as `Handle` says.
        unsafe { dw_session_name(self.pointer(), index, room.as_mut_ptr(), room.len()) }
    }

    /// Copies what this function of the library has, and returns how many bytes that is.
    fn copy_all(&self, copy: CopyAll, room: &mut [u8]) -> Result<usize, Fault> {
        let mut count = 0;
        // SAFETY: as `Handle` says.
        done(unsafe { copy(self.pointer(), room.as_mut_ptr(), room.len(), &mut count) })?;
        Ok(count)
    }

    /// Copies all names of the last listing, each after its length in four bytes.
    pub(crate) fn names(&self, room: &mut [u8]) -> Result<usize, Fault> {
        self.copy_all(dw_session_names, room)
    }

    /// Copies the words of the last drop.
    pub(crate) fn words(&self, room: &mut [u8]) -> Result<usize, Fault> {
        self.copy_all(dw_session_words, room)
    }

    /// The saved session.
    pub(crate) fn saved(&self, room: &mut [u8]) -> Result<usize, Fault> {
        self.copy_all(dw_session_saved, room)
    }

    pub(crate) fn state(&self) -> i32 {
        // SAFETY: as `Handle` says.
        unsafe { dw_session_state(self.pointer()) }
    }

    pub(crate) fn revision(&self) -> u64 {
        // SAFETY: as `Handle` says.
        unsafe { dw_session_revision(self.pointer()) }
    }

    pub(crate) fn last_zxid(&self) -> i64 {
        // SAFETY: as `Handle` says.
        unsafe { dw_session_last_zxid(self.pointer()) }
    }

    pub(crate) fn timeout_ms(&self) -> i64 {
        // SAFETY: as `Handle` says.
        unsafe { dw_session_timeout_ms(self.pointer()) }
    }

    /// Forgets stale answers. With an open session this always succeeds.
    pub(crate) fn forget(&mut self) {
        // SAFETY: as `Handle` says.
        unsafe { dw_session_forget(self.pointer()) };
    }

    /// The moment from this function of the library, if there is one.
    fn moment_by(&self, look: LookOut) -> Option<Moment> {
        let mut millis = 0;
        // SAFETY: as `Handle` says.
        let code = unsafe { look(self.pointer(), &mut millis) };
        (code == result::OK).then(|| Moment::from_millis(millis))
    }

    pub(crate) fn deadline(&self) -> Option<Moment> {
        self.moment_by(dw_session_deadline)
    }

    /// The kept data of a path. Copies as many bytes as there is room for.
    pub(crate) fn peek_data(&self, path: &str, room: &mut [u8]) -> Result<KeptData, Fault> {
        let mut kept = KeptData::default();
        let (text, length) = (path.as_ptr(), path.len());
        let (out, room) = (room.as_mut_ptr(), room.len());
        // SAFETY: as `Handle` says.
        let code =
            unsafe { dw_session_peek_data(self.pointer(), text, length, &mut kept, out, room) };
        done_at(path, code).map(|()| kept)
    }

    pub(crate) fn peek_children(&self, path: &str) -> Result<KeptNames, Fault> {
        let mut kept = KeptNames::default();
        let (text, length) = (path.as_ptr(), path.len());
        // SAFETY: as `Handle` says.
        let code = unsafe { dw_session_peek_children(self.pointer(), text, length, &mut kept) };
        done_at(path, code).map(|()| kept)
    }

    /// Copies the kept names of a path, each after its length in four bytes, and returns how many bytes there are.
    pub(crate) fn peek_names(&self, path: &str, room: &mut [u8]) -> Result<usize, Fault> {
        let mut count = 0;
        let (text, length) = (path.as_ptr(), path.len());
        let (out, room) = (room.as_mut_ptr(), room.len());
        // SAFETY: as `Handle` says.
        let code =
            unsafe { dw_session_peek_names(self.pointer(), text, length, out, room, &mut count) };
        done_at(path, code).map(|()| count)
    }

    /// Copies what this function of the library finds at and below a path, and returns how many bytes there are.
    fn collect(
        &self,
        collect: Collect,
        path: &str,
        most: usize,
        room: &mut [u8],
    ) -> Result<usize, Fault> {
        let mut count = 0;
        let (text, length) = (path.as_ptr(), path.len());
        let (out, room) = (room.as_mut_ptr(), room.len());
        // SAFETY: as `Handle` says.
        let code = unsafe { collect(self.pointer(), text, length, most, out, room, &mut count) };
        done_at(path, code).map(|()| count)
    }

    /// Copies all nodes at and below a path, as the header spells them.
    pub(crate) fn subtree(&self, path: &str, most: usize, room: &mut [u8]) -> Result<usize, Fault> {
        self.collect(dw_session_subtree, path, most, room)
    }

    /// Copies the reads that are still missing before there is a subtree, as the header spells them.
    pub(crate) fn lacking(&self, path: &str, most: usize, room: &mut [u8]) -> Result<usize, Fault> {
        self.collect(dw_session_lacking, path, most, room)
    }

    /// The library's answer about a snapshot of these spelled paths: its code, and how many bytes the kept answers have. Copies as many as
    /// there is room for.
    pub(crate) fn snapshot(&self, nodes: &[u8], parents: &[u8], room: &mut [u8]) -> (i32, usize) {
        let mut count = 0;
        let (first, length) = (nodes.as_ptr(), nodes.len());
        let (second, width) = (parents.as_ptr(), parents.len());
        let (out, room) = (room.as_mut_ptr(), room.len());
        let raw = self.pointer();
        // SAFETY: as `Handle` says.
        let code = unsafe {
            dw_session_snapshot(raw, first, length, second, width, out, room, &mut count)
        };
        (code, count)
    }

    /// The library's answer about whether the session holds: its code, and the token.
    pub(crate) fn holder(&self, directory: &str, prefix: &str, path: &str) -> (i32, i64) {
        let mut token = 0;
        // SAFETY: as `Handle` says.
        let code = unsafe {
            dw_session_holder(
                self.pointer(),
                directory.as_ptr(),
                directory.len(),
                prefix.as_ptr(),
                prefix.len(),
                path.as_ptr(),
                path.len(),
                &mut token,
            )
        };
        (code, token)
    }

    /// The library's answer about a session's place among these spelled names and markers: its code, the token, and how many bytes the
    /// rival's name has. Copies as many as there is room for.
    pub(crate) fn standing(
        &self,
        contender: &Contender<'_>,
        names: &[u8],
        markers: &[u8],
        room: &mut [u8],
    ) -> Result<(i32, i64, usize), Fault> {
        let (mut token, mut count) = (0, 0);
        let (directory, name) = (contender.directory, contender.name);
        // SAFETY: as `Handle` says.
        let code = unsafe {
            dw_session_standing(
                self.pointer(),
                directory.as_ptr(),
                directory.len(),
                name.as_ptr(),
                name.len(),
                names.as_ptr(),
                names.len(),
                contender.listed,
                markers.as_ptr(),
                markers.len(),
                &mut token,
                room.as_mut_ptr(),
                room.len(),
                &mut count,
            )
        };
        if !matches!(code, result::WAITS | result::NONE) {
            done_at(directory, code)?;
        }
        Ok((code, token, count))
    }
}

/// How a session begins, besides what it takes up.
#[derive(Clone, Copy)]
pub(crate) struct Settings {
    pub(crate) timeout_ms: i32,
    pub(crate) addresses: usize,
    pub(crate) seed: u64,
    pub(crate) longest_answer: usize,
    pub(crate) longest_request: usize,
}

impl Handle {
    pub(crate) fn open(of: Settings) -> Result<Handle, Fault> {
        let handle = Handle::closed()?;
        let raw = handle.pointer();
        let (answer, request) = (of.longest_answer, of.longest_request);
        // SAFETY: as `Handle` says.
        done(unsafe {
            dw_session_open_with_limits(raw, of.timeout_ms, of.addresses, of.seed, answer, request)
        })?;
        Ok(handle)
    }

    pub(crate) fn resume(of: Settings, saved: &[u8]) -> Result<Handle, Fault> {
        let handle = Handle::closed()?;
        let (raw, at, length) = (handle.pointer(), saved.as_ptr(), saved.len());
        let (answer, request) = (of.longest_answer, of.longest_request);
        // SAFETY: as `Handle` says.
        done(unsafe {
            dw_session_resume_with_limits(
                raw,
                of.timeout_ms,
                of.addresses,
                of.seed,
                answer,
                request,
                at,
                length,
            )
        })?;
        Ok(handle)
    }

    pub(crate) fn failed(&mut self, now: Moment) -> Result<(), Fault> {
        // SAFETY: as `Handle` says.
        done(unsafe { dw_session_failed(self.pointer(), now.as_millis()) })
    }

    pub(crate) fn addresses(
        &mut self,
        now: Moment,
        kept: usize,
        added: usize,
        is_listed: bool,
    ) -> Result<(), Fault> {
        let (handle, now) = (self.pointer(), now.as_millis());
        // SAFETY: as `Handle` says.
        done(unsafe { dw_session_addresses(handle, now, kept, added, is_listed) })
    }

    /// Follows a side of a path, without a limit.
    pub(crate) fn follow(&mut self, call: Call<'_>, side: Side) -> Result<(), Fault> {
        let follow = match side {
            Side::Data => dw_session_follow_data,
            Side::Children => dw_session_follow_names,
        };
        let (raw, now) = (self.pointer(), call.now.as_millis());
        let (path, length) = (call.path.as_ptr(), call.path.len());
        // SAFETY: as `Handle` says.
        let code = unsafe { follow(raw, now, call.ticket, path, length) };
        done_at(call.path, code)
    }

    pub(crate) fn unfollow(&mut self, now: Moment, ticket: u64) -> Result<(), Fault> {
        // SAFETY: as `Handle` says.
        done(unsafe { dw_session_unfollow(self.pointer(), now.as_millis(), ticket) })
    }

    pub(crate) fn follow_tree(&mut self, call: Call<'_>, most: usize) -> Result<(), Fault> {
        let (raw, now) = (self.pointer(), call.now.as_millis());
        let (path, length) = (call.path.as_ptr(), call.path.len());
        // SAFETY: as `Handle` says.
        let code = unsafe { dw_session_follow_tree(raw, now, call.ticket, path, length, most) };
        done_at(call.path, code)
    }

    pub(crate) fn unfollow_tree(&mut self, now: Moment, ticket: u64) -> Result<(), Fault> {
        // SAFETY: as `Handle` says.
        done(unsafe { dw_session_unfollow_tree(self.pointer(), now.as_millis(), ticket) })
    }

    /// Adds a contender with this ticket.
    pub(crate) fn contend(
        &mut self,
        now: Moment,
        ticket: u64,
        contention: &Contention<'_>,
    ) -> Result<(), Fault> {
        let (directory, guid) = (contention.directory, contention.guid);
        let (bytes, is_null) = (
            contention.data.unwrap_or_default(),
            contention.data.is_none(),
        );
        let acl = Writer::acl(contention.acls);
        // SAFETY: as `Handle` says.
        let code = unsafe {
            dw_session_contend(
                self.pointer(),
                now.as_millis(),
                ticket,
                directory.as_ptr(),
                directory.len(),
                contention.naming.number(),
                guid.as_ptr(),
                guid.len(),
                bytes.as_ptr(),
                bytes.len(),
                is_null,
                contention.may_be_there,
                acl.as_ptr(),
                acl.len(),
            )
        };
        done_at(directory, code)
    }

    pub(crate) fn give_up(&mut self, now: Moment, ticket: u64) -> Result<(), Fault> {
        // SAFETY: as `Handle` says.
        done(unsafe { dw_session_give_up(self.pointer(), now.as_millis(), ticket) })
    }

    /// The token with which a contender holds, if it does.
    pub(crate) fn held(&self, ticket: u64) -> Option<i64> {
        let mut token = 0;
        // SAFETY: as `Handle` says.
        let code = unsafe { dw_session_held(self.pointer(), ticket, &mut token) };
        (code == result::OK).then_some(token)
    }

    /// Copies the path of a contender's place, and returns how many bytes it has: 0 if it is not known.
    pub(crate) fn place(&self, ticket: u64, room: &mut [u8]) -> usize {
        let mut count = 0;
        let (out, room) = (room.as_mut_ptr(), room.len());
        // SAFETY: as `Handle` says.
        unsafe { dw_session_place(self.pointer(), ticket, out, room, &mut count) };
        count
    }

    /// When the server was last heard, if it was.
    pub(crate) fn heard_at(&self) -> Option<Moment> {
        self.moment_by(dw_session_heard_at)
    }

    /// Calls the operation of this number, with this body. The core knows no node of it.
    pub(crate) fn raw(&mut self, call: Call<'_>, number: i32, body: &[u8]) -> Result<(), Fault> {
        let (raw, now, until) = (self.pointer(), call.now.as_millis(), call.until.as_millis());
        let (bytes, length) = (body.as_ptr(), body.len());
        // SAFETY: as `Handle` says.
        done(unsafe { dw_session_raw(raw, now, call.ticket, until, number, bytes, length) })
    }

    /// Hands a credential in.
    pub(crate) fn credential(
        &mut self,
        now: Moment,
        scheme: &str,
        secret: &[u8],
    ) -> Result<(), Fault> {
        let (raw, now, text, length) = (
            self.pointer(),
            now.as_millis(),
            scheme.as_ptr(),
            scheme.len(),
        );
        // SAFETY: as `Handle` says.
        done(unsafe {
            dw_session_credential(raw, now, text, length, secret.as_ptr(), secret.len())
        })
    }
}
