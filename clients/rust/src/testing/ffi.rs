//! The C interface of the server in memory.
// made by scripts/interface from include/bench.toml
#![allow(dead_code)] // one table for all who take from it

pub const OK: i32 = 0;
pub const NONE: i32 = 1;
pub const NO_MEMORY: i32 = -2;
pub const CLOSED: i32 = -3;
pub const NOT_TEXT: i32 = -4;
pub const NOT_PATH: i32 = -5;
pub const NO_SUCH_SERVER: i32 = -6;
pub const NO_SUCH_KIND: i32 = -7;
pub const BAD_ARGUMENTS: i32 = -8;
pub const NO_TRANSACTION: i32 = -9;
pub const NO_NODE: i32 = -101;
pub const NO_CHILDREN_FOR_EPHEMERALS: i32 = -108;
pub const NODE_EXISTS: i32 = -110;
pub const NOT_EMPTY: i32 = -111;
pub const MADE: i32 = 1;
pub const WRITTEN: i32 = 2;
pub const DELETED: i32 = 3;

/// `dw_bench`.
#[repr(C)]
pub struct Raw {
    pub is_open: bool,
    pub at: *mut u8,
}

#[rustfmt::skip]
#[link(name = "dirwolleu_bench", kind = "static")]
extern "C" {
    pub fn dw_bench_open(handle: *mut Raw, session: i64) -> i32;
    pub fn dw_bench_close(handle: *mut Raw);
    pub fn dw_bench_change(handle: *mut Raw, now_ms: u64, kind: i32, owner: i64, path: *const u8, length: usize, content: *const u8, count: usize) -> i32;
    pub fn dw_bench_learn(handle: *mut Raw, other: *mut Raw) -> i32;
    pub fn dw_bench_zxid(handle: *mut Raw) -> i64;
    pub fn dw_bench_connect(handle: *mut Raw, number: i32) -> i32;
    pub fn dw_bench_cut(handle: *mut Raw) -> i32;
    pub fn dw_bench_hear(handle: *mut Raw, bytes: *const u8, length: usize) -> i32;
    pub fn dw_bench_say(handle: *mut Raw, out: *mut u8, room: usize, count: *mut usize) -> i32;
    pub fn dw_bench_process(handle: *mut Raw, now_ms: u64) -> i32;
    pub fn dw_bench_take(handle: *mut Raw, number: i32) -> i32;
    pub fn dw_bench_expire(handle: *mut Raw, is_expired: bool) -> i32;
}
