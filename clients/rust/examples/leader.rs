//! An election, in which this candidate leads again and again: see `docs/COOKBOOK.md`.

use dirwolleu::{Election, Error, SessionOptions};
use std::thread::sleep;
use std::time::Duration;

/// Leads for as long as the office is held.
fn lead(election: &Election<'_>) -> Result<(), Error> {
    let office = election.lead(b"host-1")?; // waits
    println!("leads with token {}", office.token());
    while office.check(Duration::from_secs(10)) {
        sleep(Duration::from_millis(100)); // a step of the leader's work
    }
    Ok(())
}

fn main() -> Result<(), Box<dyn std::error::Error>> {
    let options = SessionOptions::new(Duration::from_secs(10)).renews(true);
    let session = options.open("127.0.0.1:2181")?;
    let election = Election::new(&session, "/leader");
    loop {
        lead(&election)?; // and again once the office is lost
    }
}
