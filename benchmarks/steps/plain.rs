//! The client of `plain_client`, as client.h declares it: each step, and a copy of all that it tells.

pub mod plain_client;

use plain_client::{Answer, Call, Client, Content, Input, Kind, Output, Reply};
use std::cell::RefCell;
use std::{process, slice, str};

const ROOM: usize = 1 << 23;
const TIMEOUT_MS: i32 = 30_000;

#[repr(C)]
struct Told {
    answers: usize,
    reports: usize,
    frames: usize,
    sent: usize,
    handed: usize,
    sum_sent: u64,
    sum_handed: u64,
}

extern "C" {
    static mut sent: [u8; ROOM];
    static mut handed: [u8; ROOM];
    static mut sent_length: usize;
    static mut handed_length: usize;
    static mut told: Told;
}

thread_local! {
    static CLIENT: RefCell<Client> = RefCell::new(Client::new(TIMEOUT_MS));
}

/// Adds bytes to those that a buffer has.
///
/// # Safety
///
/// Nothing else refers to the buffer and its length.
unsafe fn add(buffer: *mut [u8; ROOM], length: *mut usize, bytes: &[u8]) {
    let (buffer, length) = unsafe { (&mut *buffer, &mut *length) };
    buffer[*length..][..bytes.len()].copy_from_slice(bytes);
    *length += bytes.len();
}

// SAFETY of what follows: the program that calls has one thread, which waits meanwhile, and hands in as many bytes as it says.

fn hand_out(bytes: &[u8]) {
    unsafe { add(&raw mut handed, &raw mut handed_length, bytes) }
}

/// Hands out a name, after its length.
fn hand_out_name(name: &str) {
    hand_out(&(name.len() as u32).to_be_bytes());
    hand_out(name.as_bytes());
}

fn take_frame(frame: &[u8]) {
    unsafe {
        add(&raw mut sent, &raw mut sent_length, frame);
        told.frames += 1;
    }
}

fn take_answer(answer: Answer) {
    match answer {
        Ok(Reply::Data(data, _)) => hand_out(&data),
        Ok(Reply::Names(names, _)) => names.iter().for_each(|name| hand_out_name(name)),
        Ok(Reply::Stat(_)) | Err(_) => process::exit(1),
    }
    unsafe { told.answers += 1 }
}

fn take_report(path: &str) {
    hand_out(path.as_bytes());
    unsafe { told.reports += 1 }
}

fn take_step(now_ms: u64, input: Input<'_>) {
    let outputs = CLIENT.with_borrow_mut(|client| client.step(now_ms, input));
    for output in outputs.unwrap_or_else(|_| process::exit(1)) {
        match output {
            Output::Send(frame) => take_frame(&frame),
            Output::Answer(_, answer) => take_answer(answer),
            Output::Report(path, _, _) => take_report(&path),
            Output::State(_) => {}
            Output::Drop(_) => process::exit(1),
        }
    }
}

fn text_of<'a>(path: *const u8, length: usize) -> &'a str {
    let bytes = unsafe { slice::from_raw_parts(path, length) };
    str::from_utf8(bytes).unwrap_or_else(|_| process::exit(1))
}

fn ask(now_ms: u64, kind: Kind, path: &str, watch: bool) {
    let path = path.to_owned();
    take_step(now_ms, Input::Call(1, Call { kind, path, watch }));
}

#[no_mangle]
extern "C" fn step_open(now_ms: u64) {
    take_step(now_ms, Input::Opened);
}

#[no_mangle]
extern "C" fn step_cut(now_ms: u64) {
    take_step(now_ms, Input::Cut);
}

#[no_mangle]
extern "C" fn step_tick(now_ms: u64) {
    take_step(now_ms, Input::Moment);
}

#[no_mangle]
extern "C" fn step_bytes(now_ms: u64, bytes: *const u8, length: usize) {
    let bytes = unsafe { slice::from_raw_parts(bytes, length) };
    take_step(now_ms, Input::Bytes(bytes));
}

#[no_mangle]
extern "C" fn step_get_data(now_ms: u64, path: *const u8, length: usize, watch: bool) {
    ask(now_ms, Kind::GetData, text_of(path, length), watch);
}

#[no_mangle]
extern "C" fn step_get_children(now_ms: u64, path: *const u8, length: usize, watch: bool) {
    ask(now_ms, Kind::GetChildren, text_of(path, length), watch);
}

#[no_mangle]
extern "C" fn step_peek_data(path: *const u8, length: usize) -> bool {
    CLIENT.with_borrow(|client| match client.content(text_of(path, length)) {
        Some(Content::Full(data, _)) => {
            hand_out(data);
            true
        }
        _ => false,
    })
}

#[no_mangle]
extern "C" fn step_peek_names(path: *const u8, length: usize) -> bool {
    CLIENT.with_borrow(|client| match client.names(text_of(path, length)) {
        Some(names) => {
            names.iter().for_each(|name| hand_out_name(name));
            true
        }
        None => false,
    })
}
