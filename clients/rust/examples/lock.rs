//! A lock, taken again whenever it is lost, with a token to pass on: see `docs/COOKBOOK.md`.

use dirwolleu::{Error, Lock, Session, SessionOptions, Sharing};
use std::thread::sleep;
use std::time::Duration;

/// Works for as long as the lock is held.
fn work(session: &Session) -> Result<(), Error> {
    let lock = Lock::acquire(session, "/lock", Sharing::Exclusive, b"host-1")?; // waits
    println!("held with token {}", lock.token());
    while lock.check(Duration::from_secs(10)) {
        sleep(Duration::from_millis(100)); // a step of the work: hand the token on
    }
    println!("lost");
    Ok(())
}

fn main() -> Result<(), Box<dyn std::error::Error>> {
    let options = SessionOptions::new(Duration::from_secs(10)).renews(true);
    let session = options.open("127.0.0.1:2181")?;
    loop {
        work(&session)?; // and again once it is lost
    }
}
