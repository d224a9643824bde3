//! A registration, which comes back after an expiry: see `docs/COOKBOOK.md`.

use dirwolleu::{Registration, SessionOptions};
use std::error::Error;
use std::thread::sleep;
use std::time::Duration;

fn main() -> Result<(), Box<dyn Error>> {
    let options = SessionOptions::new(Duration::from_secs(10)).renews(true);
    let session = options.open("127.0.0.1:2181")?.shared();
    let registration = Registration::begin(&session, "/workers/one", b"10.0.0.1:8080")?;
    loop {
        if registration.is_registered() {
            println!("registered");
        }
        sleep(Duration::from_secs(1)); // the process does its work here
    }
}
