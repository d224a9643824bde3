//! The rows over the client for Rust: the same words and lines as dirwolleu.c, without `make` and `change`.
//!
//! usage: rust_client KIND PORT ROW COUNT TIMES
//!
//! KIND is `thread`, or `local`: by the session without a thread, which asks one call at a time.

use dirwolleu::{
    Error, Event, LocalSession, Node, NodeEvent, Request, Session, SessionOptions, State, Ticket,
};
use std::io::{self, Write};
use std::time::{Duration, Instant};
use std::{env, fs};

const NODE: &str = "/real";
const DATA: &[u8] = &[b'0'; 100];
const AT_ONCE: usize = 1_000;
const TIMEOUT: Duration = Duration::from_secs(30);

/// What went wrong, or was not as wanted.
type Fault = Box<dyn std::error::Error>;

/// The clock of the processor time of a process, by the number that Linux has for it.
const CLOCK_PROCESS_CPUTIME_ID: i32 = 2;

extern "C" {
    /// Seconds and nanoseconds of a clock.
    fn clock_gettime(clock: i32, time: *mut [i64; 2]) -> i32;
}

/// A moment, and the processor time of this process until then.
struct Mark {
    wall: Instant,
    processor: Duration,
}

impl Mark {
    fn now() -> Result<Mark, Fault> {
        let mut time = [0; 2];
        // SAFETY: a timespec of Linux on 64 bits is two of these numbers, and there is room for them.
        if unsafe { clock_gettime(CLOCK_PROCESS_CPUTIME_ID, &mut time) } != 0 {
            return Err(io::Error::last_os_error().into());
        }
        let [seconds, nanoseconds] = time.map(i64::unsigned_abs);
        let processor = Duration::from_secs(seconds) + Duration::from_nanos(nanoseconds);
        Ok(Mark {
            wall: Instant::now(),
            processor,
        })
    }

    /// Prints what went by since then: `took WALL PROCESSOR MEMORY`.
    fn tell(&self) -> Result<(), Fault> {
        let now = Mark::now()?;
        let status = fs::read_to_string("/proc/self/status")?;
        let peak = status.lines().find_map(|line| line.strip_prefix("VmHWM:"));
        let kilobytes = peak
            .and_then(|peak| peak.split_whitespace().next())
            .unwrap_or("0");
        let (wall, processor) = (now.wall - self.wall, now.processor - self.processor);
        println!(
            "took {} {} {kilobytes}",
            wall.as_micros(),
            processor.as_micros()
        );
        Ok(())
    }
}

fn tell_ready() -> io::Result<()> {
    println!("ready");
    io::stdout().flush()
}

/// Asks a request for each of these paths, and then waits for all answers.
fn ask_at_once<T>(
    session: &Session,
    paths: &[String],
    ask: impl Fn(&str) -> Request<T>,
) -> Result<(), Error> {
    let tickets: Vec<Ticket<T>> = paths.iter().map(|path| session.ask(ask(path))).collect();
    tickets
        .into_iter()
        .try_for_each(|ticket| ticket.wait().map(drop))
}

/// Asks about the nodes by number; at most `AT_ONCE` calls wait.
fn read_each(
    session: &Session,
    count: usize,
    ask: impl Fn(&str) -> Request<Node>,
) -> Result<(), Error> {
    let paths: Vec<String> = (0..count)
        .map(|number| format!("{NODE}/{number}"))
        .collect();
    paths
        .chunks(AT_ONCE)
        .try_for_each(|paths| ask_at_once(session, paths, &ask))
}

fn ask_over(session: &Session, writes: bool, count: usize, times: usize) -> Result<(), Error> {
    let paths = vec![String::from(NODE); count];
    for _ in 0..times {
        match (writes, count) {
            (true, 1) => drop(session.set(NODE, DATA, -1)?),
            (false, 1) => drop(session.get(NODE)?),
            (true, _) => ask_at_once(session, &paths, |path| Request::set(path, DATA, -1))?,
            (false, _) => ask_at_once(session, &paths, Request::get)?,
        }
    }
    Ok(())
}

fn measure_over(session: &Session, writes: bool, count: usize, times: usize) -> Result<(), Fault> {
    ask_over(session, writes, count, times.div_ceil(10))?;
    let since = Mark::now()?;
    ask_over(session, writes, count, times)?;
    since.tell()
}

/// One call at a time, by the session without a thread.
fn measure_alone(session: &mut LocalSession, writes: bool, times: usize) -> Result<(), Fault> {
    let mut ask = |times| -> Result<(), Error> {
        for _ in 0..times {
            if writes {
                session.set(NODE, DATA, -1)?;
            } else {
                session.get(NODE)?;
            }
        }
        Ok(())
    };
    ask(times.div_ceil(10))?;
    let since = Mark::now()?;
    ask(times)?;
    since.tell()
}

/// Takes events until so many of this kind have come. Of those that nobody has taken in time it is told how many there were.
fn wait_for(
    session: &Session,
    count: u64,
    is_wanted: impl Fn(&Event) -> bool,
) -> Result<(), Fault> {
    let mut seen = 0;
    while seen < count {
        seen += match session.next_event(None)?.ok_or("the session is over")? {
            Event::Missed(missed) => missed,
            event => u64::from(is_wanted(&event)),
        };
    }
    Ok(())
}

fn wait_for_connection(session: &Session) -> Result<(), Fault> {
    wait_for(session, 1, |event| *event == Event::State(State::Connected))
}

fn measure_watches(session: &Session, count: usize) -> Result<(), Fault> {
    wait_for_connection(session)?;
    read_each(session, count, Request::get)?;
    let since = Mark::now()?;
    read_each(session, count, |path| Request::get(path).watched())?;
    since.tell()?;
    let since = Mark::now()?;
    tell_ready()?;
    wait_for(session, count as u64, |event| {
        matches!(
            event,
            Event::Report {
                event: NodeEvent::DataChanged,
                ..
            }
        )
    })?;
    since.tell()
}

/// The session sets all watches again by itself.
fn measure_reconnect(session: &Session, count: usize) -> Result<(), Fault> {
    read_each(session, count, |path| Request::get(path).watched())?;
    wait_for_connection(session)?;
    let since = Mark::now()?;
    tell_ready()?;
    wait_for_connection(session)?;
    session.get(NODE)?;
    since.tell()
}

fn main() -> Result<(), Fault> {
    let words: Vec<String> = env::args().collect();
    let [_, kind, port, row, count, times] = words.as_slice() else {
        return Err("usage: rust_client KIND PORT ROW COUNT TIMES".into());
    };
    let (count, times) = (count.parse()?, times.parse()?);
    let (options, host) = (SessionOptions::new(TIMEOUT), format!("127.0.0.1:{port}"));
    if kind == "local" {
        let mut session = options.open_local(host.as_str())?;
        measure_alone(&mut session, row == "write", times)?;
        return Ok(session.close()?);
    }
    let session = options.open(host.as_str())?;
    match row.as_str() {
        "watch" => measure_watches(&session, count)?,
        "reconnect" => measure_reconnect(&session, count)?,
        _ => measure_over(&session, row == "write", count, times)?,
    }
    session.close()?;
    Ok(())
}
