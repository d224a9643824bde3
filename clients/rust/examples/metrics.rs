//! The counts of a session, as Prometheus reads them, and a line for each slow or failed call: see `docs/COOKBOOK.md`.

use dirwolleu::{CallOutcome, Observation, SessionOptions};
use std::error::Error;
use std::time::{Duration, Instant};

/// Prints a line for each call that failed or was slow, with searchable fields.
fn trace(seen: &Observation) {
    match seen {
        Observation::Answered {
            kind,
            path,
            outcome,
            code,
            zxid,
            took,
        } if *outcome != CallOutcome::Ok || *took > Duration::from_millis(100) => {
            let (kind, outcome) = (kind.name(), outcome.name());
            let (path, code) = (
                path.as_deref().unwrap_or("-"),
                code.map_or(0, |code| code.0),
            );
            eprintln!(
                "kind={kind} path={path} outcome={outcome} code={code} zxid={zxid} us={}",
                took.as_micros()
            );
        }
        Observation::Connected { server, session } => {
            eprintln!("connected server={server} session=0x{session:016x}")
        }
        _ => {}
    }
}

fn main() -> Result<(), Box<dyn Error>> {
    let options = SessionOptions::new(Duration::from_secs(10))
        .renews(true)
        .observe(trace);
    let session = options.open("127.0.0.1:2181")?;
    let _tree = session.tree("/config")?;
    loop {
        println!("{}", session.stats().prometheus());
        let until = Instant::now() + Duration::from_secs(10);
        while session.next_event(Some(until))?.is_some() {}
    }
}
