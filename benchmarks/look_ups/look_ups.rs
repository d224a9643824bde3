//! Look-ups of one node that is kept, by threads that each make one a millisecond, while another thread reads the names of `/names`
//! again and again. It prints how long they took.
//!
//! usage: look_ups PORT SECONDS

use dirwolleu::{Request, Session};
use std::env;
use std::error::Error;
use std::sync::atomic::{AtomicBool, Ordering};
use std::thread::{scope, sleep};
use std::time::{Duration, Instant};

const THREADS: usize = 4;
const BETWEEN: Duration = Duration::from_millis(1);

/// Looks up until this instant, and tells how many microseconds after its moment each look-up had its answer.
fn look_up(session: &Session, until: Instant) -> Vec<u128> {
    let (mut took, mut due) = (Vec::new(), Instant::now());
    while due < until {
        sleep(due.saturating_duration_since(Instant::now()));
        session
            .peek("/kept")
            .expect("it is a path")
            .expect("it is kept");
        took.push(due.elapsed().as_micros());
        due += BETWEEN;
    }
    took
}

fn main() -> Result<(), Box<dyn Error>> {
    let words: Vec<String> = env::args().collect();
    let [_, port, seconds] = words.as_slice() else {
        return Err("usage: look_ups PORT SECONDS".into());
    };
    let session = Session::open(
        format!("127.0.0.1:{port}").as_str(),
        Duration::from_secs(30),
    )?;
    session.watch("/kept")?;
    let (until, is_over) = (
        Instant::now() + Duration::from_secs(seconds.parse()?),
        AtomicBool::new(false),
    );
    let (mut took, replies) = scope(|scope| {
        let reader = scope.spawn(|| {
            let mut replies = 0;
            while !is_over.load(Ordering::Relaxed) {
                replies += session
                    .call(Request::children("/names").watched())
                    .map_or(0, |(names, _)| names.len());
            }
            replies
        });
        let threads: Vec<_> = (0..THREADS)
            .map(|_| scope.spawn(|| look_up(&session, until)))
            .collect();
        let took: Vec<u128> = threads
            .into_iter()
            .flat_map(|thread| thread.join().expect("it ends"))
            .collect();
        is_over.store(true, Ordering::Relaxed);
        (took, reader.join().expect("it ends"))
    });
    took.sort_unstable();
    let at = |part: usize| took[(took.len() - 1) * part / 1_000];
    println!(
        "took {} {} {} {} {} {replies}",
        took.len(),
        at(500),
        at(990),
        at(999),
        at(1_000)
    );
    Ok(session.close()?)
}
